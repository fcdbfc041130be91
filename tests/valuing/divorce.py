"""Divorce debits in kinds 1 and 2, with refusal 16."""

from cases import AGED_54, AHEAD_25, B_PAID, DEBIT_OF_ALL, D_PAID, FOUR_LINES, P25, P4, P54, lines_up_to
from making import group, paid, vector
from model.examples import A_001, B_003, D_003
from model.fields import AMOUNTS, DIVORCE_DEBITS, LINES
from model.rules import LIMIT


def divorce_debits():
    """The value is the first value less that of the debits; the items stay those of the first value."""
    group("divorce debits")
    # £10.00 at 18.05, 1.50 and 0.88; at 9.27 and 1.33
    for name, pay in (("debit pension", "1,624.50"), ("debit survivor", "1,790.00"), ("debit lump sum", "1,796.20")):
        vector(f"kind 1, {name} alone", paid(pay, pension="1,805.00"), P54, {f"line 1 {name}": 10_00})
    for name, pay in (("debit pension", "834.30"), ("debit survivor", "913.70")):
        vector(f"kind 2, {name} alone", paid(pay, pension="927.00"), P25, {f"line 1 {name}": 10_00})
    # 92.70 + 26.60 and 180.50 + 30.00 + 26.40
    two = {"line 1 debit pension": 10_00, "line 1 debit survivor": 20_00}
    vector("kind 2, both", paid("807.70", pension="927.00"), P25, two, wrong="1,046.30")
    three = two | {"line 1 debit lump sum": 30_00}
    vector("kind 1, all three", paid("1,568.10", pension="1,805.00"), P54, three, wrong="2,041.90")
    doubled = {"revaluation": 20_000}
    # 361.00 + 60.00 + 52.80
    vector("kind 1, all three revalued", paid("3,136.20", pension="3,610.00"), P54, three | doubled, wrong="3,373.10")
    for name, pay, wrong in (
        ("debit pension", "3,249.00", "3,429.50"),
        ("debit survivor", "3,580.00", "3,595.00"),
        ("debit lump sum", "3,592.40", "3,601.20"),
    ):
        vector(f"kind 1, {name} revalued", paid(pay, pension="3,610.00"), P54, doubled | {f"line 1 {name}": 10_00}, wrong=wrong)
    for name, pay, wrong in (("debit pension", "1,668.60", "1,761.30"), ("debit survivor", "1,827.40", "1,840.70")):
        vector(f"kind 2, {name} revalued", paid(pay, pension="1,854.00"), P25, doubled | {f"line 1 {name}": 10_00}, wrong=wrong)


def divorce_examples():
    group("divorce debits, examples")
    # 1,140.00 at 17.24, 570.00 at 1.47 and 3,420.00 at 0.84: 19,653.60 + 837.90 + 2,872.80
    vector("001, A, a fifth", paid(
        "113,504.63", pension="117,921.6000", lump="14,364.0000", survivor="4,817.9250", deduct="234.6000",
    ), A_001, {"line 1 debit pension": 1_000_00, "line 1 debit survivor": 500_00, "line 1 debit lump sum": 3_000_00})
    # 1,066.00 at 9.27 and 359.78 at 1.33; 337.50 at 1.0660 is 359.775
    vector("003, B, two fifths", paid("15,540.48", **B_PAID), B_003, {
        "line 1 debit pension": 1_000_00, "line 1 debit survivor": 337_50,
    })
    # 908.00 + 1,854.00 + 2,952.00, and 44.2125 + 89.775 + 137.70
    vector("003, D, its three lines", paid("98,859.69", **D_PAID), D_003, {
        "line 1 debit pension": 100_00, "line 1 debit survivor": 33_75,
        "line 2 debit pension": 200_00, "line 2 debit survivor": 67_50,
        "line 3 debit pension": 300_00, "line 3 debit survivor": 101_25,
    })


def divorce_rounding():
    """Off £100.00 of pension, 180,500 or 92,700 pence, unless another amount is said."""
    group("divorce debits, rounding")

    def off(pence):
        return paid(f"{180_500 - pence}/100", pension="1,805.00")

    # 180.5 and 1.5 and 1,390.5 pence
    vector("kind 1, a half penny goes up, to odd", off(181), P54, {"line 1 debit pension": 10}, wrong="1,803.20")
    vector("kind 1, a half penny goes up, to even", off(2), P54, {"line 1 debit survivor": 1}, wrong="1,804.99")
    vector("kind 2, a half penny goes up, to odd", paid("913.09", pension="927.00"), P25, {
        "line 1 debit pension": 150,
    }, wrong="913.10")
    # 18.05 + 77.44 + 54.00 and 88.00 + 61.50
    for total, pence, pension, lump, survivor in (("149.49", 149, 1, 88, 36), ("149.50", 150, 0, 100, 41)):
        vector(f"kind 1, {total} pence", off(pence), P54, {
            "line 1 debit pension": pension, "line 1 debit lump sum": lump, "line 1 debit survivor": survivor,
        })
    # 463.5 + 3.99 and 463.5 + 133 pence
    for total, survivor, pay in (("467.49", 3, "922.33"), ("596.50", 100, "921.03")):
        vector(f"kind 2, {total} pence", paid(pay, pension="927.00"), P25, {
            "line 1 debit pension": 50, "line 1 debit survivor": survivor,
        })
    # 180.5 + 1.5 pence; 463.5 + 66.5 pence
    vector("kind 1, the debits together", off(182), P54, {
        "line 1 debit pension": 10, "line 1 debit survivor": 1,
    }, wrong="1,803.17")
    vector("kind 2, the debits together", paid("921.70", pension="927.00"), P25, {
        "line 1 debit pension": 50, "line 1 debit survivor": 50,
    }, wrong="921.69")
    # 0.88 + 1.5 pence
    vector("kind 1, lump sum and survivor together", off(2), P54, {
        "line 1 debit lump sum": 1, "line 1 debit survivor": 1,
    }, wrong="1,804.97")
    # 180.5 is 181, less 1.5 that is 2; 1,390.5 is 1,391, less 463.5 that is 464
    vector("kind 1, two half pennies", paid("1.79", pension="1.8050"), AGED_54, {
        "line 1 pension": 10, "line 1 debit survivor": 1,
    }, wrong="1.78")
    vector("kind 2, two half pennies", paid("9.27", pension="13.9050"), AHEAD_25, {
        "line 1 pension": 150, "line 1 debit pension": 50,
    }, wrong="9.26")
    # Each of the two is rounded, not their difference: 49 less 2, 181 less 18, 108 less 2, 217 less 5.
    vector("kind 1, 49.00 less 1.50 pence", paid("0.47", lump="0.22", survivor="0.27"), AGED_54, {
        "line 1 lump sum": 25, "line 1 survivor": 18, "line 1 debit survivor": 1,
    }, wrong="0.48")
    vector("kind 1, 180.50 less 18.05 pence", paid("1.63", pension="1.8050"), AGED_54, {
        "line 1 pension": 10, "line 1 debit pension": 1,
    }, wrong="1.62")
    vector("kind 1, 108.30 less 1.76 pence", paid("1.06", pension="1.0830"), AGED_54, {
        "line 1 pension": 6, "line 1 debit lump sum": 2,
    }, wrong="1.07")
    vector("kind 1, 216.60 less 5.28 pence", paid("2.12", pension="2.1660"), AGED_54, {
        "line 1 pension": 12, "line 1 debit lump sum": 6,
    }, wrong="2.11")
    # 927 less 463.5, that is 464
    vector("kind 2, 927.00 less 463.50 pence", paid("4.63", pension="9.27"), AHEAD_25, {
        "line 1 pension": 100, "line 1 debit pension": 50,
    }, wrong="4.64")


def divorce_revaluation():
    """Off £150.00 at 18.05, £2,707.50, or off £149.99, 270,731.95 pence."""
    group("divorce debits, revaluation")
    half, low = {"revaluation": 15_000}, {"revaluation": 14_999}
    # 2p at 18.05, 1.50 and 0.88; 1p at each
    for name, pay, wrong in (
        ("debit pension", "2,707.14", "2,707.32"),
        ("debit survivor", "2,707.47", "2,707.48"),
        ("debit lump sum", "2,707.48", "2,707.49"),
    ):
        vector(f"1p {name} at 1.5000 is 2p", paid(pay, pension="2,707.50"), P54, half | {f"line 1 {name}": 1}, wrong=wrong)
    for name, pay, wrong in (
        ("debit pension", "2,707.14", "2,706.96"),
        ("debit survivor", "2,707.30", "2,707.29"),
        ("debit lump sum", "2,707.31", "2,707.30"),
    ):
        vector(f"1p {name} at 1.4999 is 1p", paid(pay, pension="2,707.3195"), P54, low | {f"line 1 {name}": 1}, wrong=wrong)
    # 5p at 18.05 and 1.50; 11p at 0.88
    for name, pence, becomes, pay, wrong in (
        ("debit pension", 3, 5, "2,706.60", "2,706.78"),
        ("debit survivor", 3, 5, "2,707.42", "2,707.44"),
        ("debit lump sum", 7, 11, "2,707.40", "2,707.41"),
    ):
        label = f"{pence}p {name} at 1.5000 is {becomes}p"
        vector(label, paid(pay, pension="2,707.50"), P54, half | {f"line 1 {name}": pence}, wrong=wrong)
    # 2p at 9.27 and 1.33; 1p at each; £150.00 is 139,050 pence, £149.99 is 139,040.73
    for name, up, down in (("debit pension", "1,390.31", "1,390.32"), ("debit survivor", "1,390.47", "1,390.40")):
        vector(f"kind 2, 1p {name} at 1.5000 is 2p", paid(up, pension="1,390.50"), P25, half | {f"line 1 {name}": 1})
        vector(f"kind 2, 1p {name} at 1.4999 is 1p", paid(down, pension="1,390.4073"), P25, low | {f"line 1 {name}": 1})
    # 89,944p at 1.33 is 119,625.52 pence; with the debit unrounded it is 119,625.19
    vector("84,375p debit survivor at 1.0660 is 89,944p", paid("24,704.55", pension="24,704.55", survivor="1,196.2552"), B_003, {
        "line 1 debit survivor": 84_375,
    }, wrong="24,704.56")
    # Each is rounded by itself: 2p at 18.05 and 2p at 1.50
    vector("1p pension and 1p survivor at 1.5000 are 2p each", paid("2,707.11", pension="2,707.50"), P54, half | {
        "line 1 debit pension": 1, "line 1 debit survivor": 1,
    }, wrong="2,707.21")


def divorce_lines():
    """Each line's debits on that line's factors: 9.27, 9.55, 9.84, 10.14 and 1.33, 1.35, 1.36, 1.38."""
    group("divorce debits, lines")
    pensions = {1: "3,787.30", 2: "3,784.50", 3: "3,781.60", 4: "3,778.60"}
    survivors = {1: "3,866.70", 2: "3,866.50", 3: "3,866.40", 4: "3,866.20"}
    for i in LINES:
        vector(f"debit pension on line {i}", paid(pensions[i], pension="3,880.00"), P4, {f"line {i} debit pension": 10_00})
        vector(f"debit survivor on line {i}", paid(survivors[i], pension="3,880.00"), P4, {f"line {i} debit survivor": 10_00})
    # 1,882.00 less 95.50 and 13.50; 2,866.00 less 98.40 and 13.60
    for i, pay, first in ((2, "1,773.00", "1,882.00"), (3, "2,754.00", "2,866.00")):
        vector(f"debits on line {i}, the last", paid(pay, pension=first), lines_up_to(i), {
            f"line {i} debit pension": 10_00, f"line {i} debit survivor": 10_00,
        })
    four = FOUR_LINES | {f"line {i} pension": i * 100_00 for i in LINES} | {f"line {i} survivor": i * 10_00 for i in LINES}
    shown = {"pension": "9,845.00", "survivor": "136.30"}
    # 9,279.27 + 19,128.65 + 29,588.88 + 40,651.26 and 134.33 + 274.05 + 418.88 + 571.32 pence: 100,046.64
    debits = {
        "line 1 debit pension": 10_01, "line 1 debit survivor": 1_01,
        "line 2 debit pension": 20_03, "line 2 debit survivor": 2_03,
        "line 3 debit pension": 30_07, "line 3 debit survivor": 3_08,
        "line 4 debit pension": 40_09, "line 4 debit survivor": 4_14,
    }
    vector("four lines, all eight", paid("8,980.83", **shown), four, debits, wrong="8,980.82")
    # 15.02, 30.05, 45.11 and 60.14; 1.52, 3.05, 4.62 and 6.21: 147,991.49 + 2,099.21 pence
    more = {"pension": "14,767.50", "survivor": "204.45"}
    vector("four lines, all eight at 1.5000", paid("13,471.04", **more), four, debits | {
        "revaluation": 15_000,
    }, wrong="13,471.25")
    # 463.5 + 95.5 pence
    vector("lines are not rounded", paid("1,876.41", pension="1,882.00"), lines_up_to(2), {
        "line 1 debit pension": 50, "line 2 debit pension": 10,
    }, wrong="1,876.40")
    # 2p on each line, 77.6 pence
    vector("1p at 1.5000 on each of four lines is 2p on each", paid("5,819.22", pension="5,820.00"), P4, {
        "revaluation": 15_000,
    } | {f"line {i} debit pension": 1 for i in LINES}, wrong="5,819.42")
    # 101.40 from line 4 where line 1's pension is all there is
    vector("a debit on a line without a benefit", paid("825.60", pension="927.00"), FOUR_LINES, {
        "line 1 pension": 100_00, "line 4 debit pension": 10_00,
    })


def award():
    group("16 award")
    vector("kind 1, equal", paid("0", pension="1,805.00"), P54, DEBIT_OF_ALL)
    # 0.88 pence
    vector("kind 1, a penny above", 16, P54, DEBIT_OF_ALL | {"line 1 debit lump sum": 1})
    vector("kind 1, a penny below, by the first value", paid("0.01", pension="1,805.00", lump="0.0088"), P54, DEBIT_OF_ALL | {
        "line 1 lump sum": 1,
    })
    # 180,481.95 + 10.50 + 7.04, 180,463.90 + 18.00 + 17.60, 180,445.85 + 30.00 + 24.64, 180,427.80 + 37.50 + 35.20 pence
    for label, pay, pension, survivor, lump in (
        ("180,499.49 pence, a penny below", "0.01", 99_99, 7, 8),
        ("180,499.50 pence, equal", "0", 99_98, 12, 20),
        ("180,500.49 pence, equal", "0", 99_97, 20, 28),
        ("180,500.50 pence, a penny above", None, 99_96, 25, 40),
    ):
        vector(f"kind 1, {label}", paid(pay, pension="1,805.00") if pay else 16, P54, {
            "line 1 debit pension": pension, "line 1 debit survivor": survivor, "line 1 debit lump sum": lump,
        })
    vector("kind 2, equal", paid("0", pension="927.00"), P25, DEBIT_OF_ALL)
    # 1.33 pence
    vector("kind 2, a penny above", 16, P25, DEBIT_OF_ALL | {"line 1 debit survivor": 1})
    vector("kind 2, a penny below", paid("0.01", pension="927.00", survivor="0.0133"), P25, DEBIT_OF_ALL | {"line 1 survivor": 1})
    all_four = {f"line {i} debit pension": 100_00 for i in LINES}
    vector("kind 2, four lines, equal", paid("0", pension="3,880.00"), P4, all_four)
    for i in LINES:
        vector(f"kind 2, four lines, a penny above by line {i}", 16, P4, all_four | {f"line {i} debit survivor": 1})
        survivor = {1: "0.0133", 2: "0.0135", 3: "0.0136", 4: "0.0138"}[i]
        vector(f"kind 2, four lines, a penny below by line {i}", paid("0.01", pension="3,880.00", survivor=survivor), P4,
               all_four | {f"line {i} survivor": 1})


def award_in_parts():
    """The two values are compared, not a benefit with its debit."""
    group("16 award, in parts")
    vector("kind 1, nothing but a debit", 16, AGED_54, {"line 1 debit survivor": 1})
    vector("kind 2, nothing but a debit", 16, FOUR_LINES, {"line 4 debit survivor": 1})
    # Age 22: 1p of lump sum is 0.41 pence, 2p are 0.82.
    aged_22 = AGED_54 | {"guarantee": (1989, 6, 1)}
    vector("a debit of 0.41 pence off nothing", paid("0"), aged_22, {"line 1 debit lump sum": 1})
    vector("a debit of 0.82 pence off nothing", 16, aged_22, {"line 1 debit lump sum": 2})
    # One benefit may go below zero while another makes up for it: 8.31 at 18.05 is 149.9955.
    vector("debit pension where there is none", paid("0", survivor="150.00"), AGED_54, {
        "line 1 survivor": 100_00, "line 1 debit pension": 8_31,
    })
    vector("debit lump sum above the lump sum", paid("1,804.12", pension="1,805.00", lump="0.88"), P54, {
        "line 1 lump sum": 1_00, "line 1 debit lump sum": 2_00,
    })
    # 95.50 + 97.416 off 92.70 + 101.40
    vector("kind 2, debits on the other lines", paid("1.18", pension="194.10"), FOUR_LINES, {
        "line 1 pension": 10_00, "line 4 pension": 10_00, "line 2 debit pension": 10_00, "line 3 debit pension": 9_90,
    })


def divorce_first_value():
    """Scheme Pays and the modification are in the first value, and in its refusals."""
    group("divorce debits, the first value")
    # 70.00 at 18.05, 60.00 at 0.88, 100.00 at 1.50, less 10.00 at 12.42: 1,342.10; off it 361.00 + 15.00 + 44.00
    reduced = P54 | {
        "line 1 lump sum": 100_00, "line 1 survivor": 100_00, "line 1 Scheme Pays": 30_00, "line 1 Scheme Pays lump sum": 40_00,
        "line 1 modification": 10_00,
    }
    shown = {"pension": "1,263.50", "lump": "52.80", "survivor": "150.00", "deduct": "124.20"}
    divorce = {"line 1 debit pension": 20_00, "line 1 debit survivor": 10_00, "line 1 debit lump sum": 50_00}
    vector("kind 1, with Scheme Pays and modification", paid("922.10", **shown), reduced, divorce)
    # at 2.0000: 170.00, 160.00, 200.00 and 10.00: 3,068.50 + 140.80 + 300.00 - 124.20; off it 840.00
    vector("kind 1, and revalued", paid(
        "2,545.10", pension="3,068.50", lump="140.80", survivor="300.00", deduct="124.20",
    ), reduced, divorce | {"revaluation": 20_000})
    # 90, 180, 270 and 360 pounds, as in the group lines; off it 92.70 + 95.50 + 98.40 + 101.40
    four = FOUR_LINES | {f"line {i} pension": i * 100_00 for i in LINES} | {f"line {i} Scheme Pays": i * 10_00 for i in LINES}
    vector("kind 2, with Scheme Pays", paid("8,472.50", pension="8,860.50"), four, {
        f"line {i} debit pension": 10_00 for i in LINES
    })
    vector("kind 1, Scheme Pays takes all", 16, P54, {"line 1 Scheme Pays": 100_00, "line 1 debit pension": 1})
    vector("kind 2, Scheme Pays takes all", 16, P25, {"line 1 Scheme Pays": 100_00, "line 1 debit pension": 1})
    # 1,242p at 18.05 and 1,805p at 12.42
    zero = AGED_54 | {"line 1 pension": 1242, "line 1 modification": 1805}
    vector("modification takes all", 16, zero, {"line 1 debit lump sum": 1})
    vector("modification takes more", 14, zero, {"line 1 modification": 1806, "line 1 debit lump sum": 1})
    vector("a total below zero and the highest debit", 14, zero, {"line 1 modification": 1806, "line 1 debit pension": LIMIT})
    # 18.05 + 5.28 + 1.50 - 24.84 pence
    below = AGED_54 | {"line 1 pension": 1, "line 1 lump sum": 6, "line 1 survivor": 1, "line 1 modification": 2}
    vector("a hundredth of a penny below zero and a debit", 14, below, {"line 1 debit survivor": 1})
    # 0.01 pence is nothing, and 0.88 pence is a penny
    above = AGED_54 | {"line 1 pension": 3, "line 1 lump sum": 1, "line 1 survivor": 13, "line 1 modification": 6}
    vector("a hundredth of a penny above zero and a debit", 16, above, {"line 1 debit lump sum": 1})
    vector("Scheme Pays above the pension, and an award above", 13, P54, {
        "line 1 Scheme Pays": 100_01, "line 1 debit pension": 200_00,
    })
    vector("Scheme Pays and debit pension within the pension", paid("180.50", pension="902.50"), P54, {
        "line 1 Scheme Pays": 50_00, "line 1 debit pension": 40_00,
    })
    vector("Scheme Pays and debit pension together above the pension", 16, P54, {
        "line 1 Scheme Pays": 50_00, "line 1 debit pension": 60_00,
    })


# £106.60 at 9.27 is £988.182: 25,900.81 less 988.18 is 24,912.63.
B_LESS = B_003 | {"line 1 debit pension": 100_00}
B_LESS_FLAGGED = B_LESS | {"flags": 1, "transfer-in": 20_000_00}


def divorce_underpin():
    group("divorce debits, underpin")
    vector("003, B, £100.00 of pension", paid("24,912.63", **B_PAID), B_LESS)
    for label, contributed, pay, underpin in (
        ("a penny below", 4_912_62, "24,912.63", "24,912.62"),
        ("as much", 4_912_63, "24,912.63", "24,912.63"),
        ("a penny above", 4_912_64, "24,912.64", "24,912.64"),
        ("above, and below the first value", 5_500_00, "25,500.00", "25,500.00"),
        ("above the first value", 6_000_00, "26,000.00", "26,000.00"),
    ):
        vector(f"underpin {label}", paid(pay, underpin=underpin, **B_PAID), B_LESS_FLAGGED, {
            "own contributions": contributed,
        })
    vector("no underpin without the flag", paid("24,912.63", **B_PAID), B_LESS, {"own contributions": 30_000_00})
    vector("underpin of a gross value of 0", paid("0.02", pension="927.00", underpin="0.02"), P25 | DEBIT_OF_ALL, {
        "flags": 1, "transfer-in": 1, "own contributions": 1,
    })
    vector("an underpin does not make up for the award", 16, P25, {
        "line 1 debit pension": 100_01, "flags": 1, "transfer-in": LIMIT, "own contributions": LIMIT,
    })


def divorce_avc():
    group("divorce debits, AVC")
    for label, base in (("kind 1", P54), ("kind 2", P25)):
        vector(f"{label}, an AVC does not make up for the award", 16, base, {"line 1 debit pension": 100_01, "AVC": LIMIT})
    vector("AVC on a gross value of 0, kind 1", paid("0.49", pension="1,805.00", avc="0.49"), P54 | DEBIT_OF_ALL, {"AVC": 49})
    vector("AVC on a reduced gross value, kind 1", paid("1,624.99", pension="1,805.00", avc="0.49"), P54, {
        "line 1 debit pension": 10_00, "AVC": 49,
    })
    vector("AVC on a reduced gross value, kind 2", paid("25,412.63", avc="500.00", **B_PAID), B_LESS, {"AVC": 500_00})
    vector("AVC on a larger gross value", paid(
        "25,412.63", underpin="20,000.00", avc="500.00", **B_PAID,
    ), B_LESS_FLAGGED, {"AVC": 500_00})
    vector("AVC on the underpin", paid("26,000.00", underpin="25,500.00", avc="500.00", **B_PAID), B_LESS_FLAGGED, {
        "own contributions": 5_500_00, "AVC": 500_00,
    })


def divorce_largest():
    group("divorce debits, largest")
    oldest = AGED_54 | {"guarantee": (2027, 5, 31), "revaluation": 100_000, "AVC": LIMIT}
    benefits_59 = {f"line 1 {name}": LIMIT for name in AMOUNTS[:5]}
    every_debit = {f"line 1 {name}": LIMIT for name in DIVORCE_DEBITS}
    shown = {"survivor": "308,000,000.00", "avc": "10,000,000.00"}
    # 100,000,000 pounds of each at 20.34, 0.99 and 1.54: 2,287,000,000 off 4,475,000,000
    vector("kind 1, age 59, every benefit and debit", paid(
        "2,198,000,000.00", pension="4,068,000,000.00", lump="99,000,000.00", **shown,
    ), oldest, benefits_59 | every_debit)
    # off 4,118,000,000
    vector("kind 1, age 59, every amount", paid(
        "1,841,000,000.00", pension="3,864,600,000.00", lump="89,100,000.00", deduct="143,700,000.00", **shown,
    ), oldest, {f"line 1 {name}": LIMIT for name in AMOUNTS} | every_debit)
    vector("kind 1, age 59, every debit off nothing", 16, oldest, every_debit)
    vector("kind 1, age 59, every debit and modification", 14, oldest, every_debit | {"line 1 modification": LIMIT})
    # 2,034,000,000 is not enough
    vector("kind 1, age 59, every debit off one pension", 16, oldest, every_debit | {"line 1 pension": LIMIT})
    vector("kind 1, age 59, every debit off three benefits", paid(
        "10,000,000.00", pension="2,034,000,000.00", lump="99,000,000.00", survivor="154,000,000.00", avc="10,000,000.00",
    ), oldest, every_debit | {f"line 1 {name}": LIMIT for name in ("pension", "survivor", "lump sum")})


def divorce_largest_lines():
    group("divorce debits, largest of four lines")
    four = FOUR_LINES | {"birth": (1950, 1, 1), "revaluation": 100_000, "AVC": LIMIT, "flags": 1}
    four |= {"transfer-in": LIMIT, "own contributions": LIMIT}
    four |= {f"line {i} {name}": LIMIT for i in LINES for name in ("debit pension", "debit survivor")}
    benefits_4 = {f"line {i} {name}": LIMIT for i in LINES for name in ("pension", "survivor")}
    more = benefits_4 | {"line 1 additional pension": LIMIT, "line 1 dependant's additional": LIMIT}
    a_year = {f"line {i} date": (2021, 5, 11 - i) for i in LINES}
    shown = {"underpin": "20,000,000.00", "avc": "10,000,000.00"}
    # 400,000,000 at 17.08 and 1.60: 7,472,000,000 off 9,340,000,000
    vector("kind 2, four lines a year ahead", paid(
        "1,878,000,000.00", pension="8,540,000,000.00", survivor="800,000,000.00", **shown,
    ), four, a_year | more)
    # at 15.72 and 1.61: 6,932,000,000 off 8,665,000,000
    vector("kind 2, four lines four years ahead", paid(
        "1,743,000,000.00", pension="7,860,000,000.00", survivor="805,000,000.00", **shown,
    ), four, more | {f"line {i} date": (2024, 5, 11 - i) for i in LINES})
    # off 8,656,800,000
    vector("kind 2, and Scheme Pays", paid(
        "1,194,800,000.00", pension="7,856,800,000.00", survivor="800,000,000.00", **shown,
    ), four, a_year | more | {f"line {i} Scheme Pays": LIMIT for i in LINES})
    vector("kind 2, as much on each line", paid(
        "30,000,000.00", pension="6,832,000,000.00", survivor="640,000,000.00", **shown,
    ), four, a_year | benefits_4)
    vector("kind 2, a penny less of one survivor's pension", 16, four, a_year | benefits_4 | {"line 4 survivor": LIMIT - 1})
    vector("kind 2, every debit off nothing", 16, four, a_year)


def divorce_form():
    """A case built by hand: what must be zero and what is in range."""
    group("divorce debits, 4 and 5")
    # 9.27, 9.55, 9.84 and 10.14 pence; 1.33 to 1.38
    for i, pay in {1: "3,879.91", 2: "3,879.90", 3: "3,879.90", 4: "3,879.90"}.items():
        vector(f"kind 2, line {i} debit pension 1p", paid(pay, pension="3,880.00"), P4, {f"line {i} debit pension": 1})
        vector(f"kind 2, line {i} debit survivor 1p", paid("3,879.99", pension="3,880.00"), P4, {f"line {i} debit survivor": 1})
        vector(f"kind 2, line {i} debit lump sum above the limit", 4, P4, {f"line {i} debit lump sum": LIMIT + 1})
        vector(f"kind 2, line {i} debit lump sum, and line 1 debit pension above the limit", 4, P4, {
            f"line {i} debit lump sum": 1, "line 1 debit pension": LIMIT + 1,
        })
    vector("kind 1, debit lump sum 1p", paid("1,804.99", pension="1,805.00"), P54, {"line 1 debit lump sum": 1})
    for name in DIVORCE_DEBITS:
        for i in (2, 3, 4):
            past = {f"line {i} {name}": LIMIT + 1}
            vector(f"kind 1, line {i} {name} above the limit", 4, P54, past)
            vector(f"kind 2, line {i} {name} above the limit past the count", 4, lines_up_to(i - 1), past)
        vector(f"kind 1, {name} above the limit and leaving after guarantee", 5, P54, {
            f"line 1 {name}": LIMIT + 1, "leaving": (2021, 6, 2),
        })
    # Nothing is left of it in 32 bits.
    for name in DIVORCE_DEBITS:
        vector(f"kind 1, {name} 2 to the power 32", 5, P54, {f"line 1 {name}": 2**32})
    for i in LINES:
        for name in DIVORCE_DEBITS[:2]:
            vector(f"kind 2, line {i} {name} 2 to the power 32", 5, P4, {f"line {i} {name}": 2**32})
    # 2 to the power 63 twice is 0 in 64 bits.
    vector("two debits that add up to 0 in 64 bits", 5, P54, {"line 1 debit pension": 2**63, "line 1 debit survivor": 2**63})
    # 1,805 times the debit is just above 2 to the power 64.
    vector("a debit whose product passes 64 bits", 5, P54, {"line 1 debit pension": 2**64 // 1805 + 1})
