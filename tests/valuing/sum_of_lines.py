"""The sum in kinds 1 and 2, with refusals 13 and 14: Scheme Pays, rounding, lines, underpin and AVC."""

from cases import AGED_54, AHEAD_25, B_PAID, D_PAID, FOUR_LINES, P4, P54
from making import group, only, paid, vector
from model.examples import A_001, B_003, D_003
from model.fields import AMOUNTS, LINES, NO_DATE, OF_A_LINE
from model.rules import LIMIT


def scheme_pays():
    group("13 debit")
    vector("pension 100p, Scheme Pays 99p", paid("0.18", pension="0.1805"), AGED_54, {
        "line 1 pension": 100, "line 1 Scheme Pays": 99,
    })
    both = AGED_54 | {"line 1 pension": 60, "line 1 additional pension": 40}
    vector("pension 60p and additional 40p, Scheme Pays 100p", paid("0"), both, {"line 1 Scheme Pays": 100})
    vector("pension 60p and additional 40p, Scheme Pays 101p", 13, both, {"line 1 Scheme Pays": 101})
    lump = AGED_54 | {"line 1 lump sum": 100}
    vector("lump sum 100p, Scheme Pays lump sum 100p", paid("0"), lump, {"line 1 Scheme Pays lump sum": 100})
    vector("lump sum 100p, Scheme Pays lump sum 101p", 13, lump, {"line 1 Scheme Pays lump sum": 101})
    at = AGED_54 | {"revaluation": 10_660}
    for name, taken in (("pension", "Scheme Pays"), ("lump sum", "Scheme Pays lump sum")):
        vector(f"{name} 84,375p at 1.0660, {taken} 89,944p", paid("0"), at, {
            f"line 1 {name}": 84_375, f"line 1 {taken}": 89_944,
        })
        vector(f"{name} 84,375p at 1.0660, {taken} 89,945p", 13, at, {
            f"line 1 {name}": 84_375, f"line 1 {taken}": 89_945,
        })
    vector("Scheme Pays on a lump sum", 13, AGED_54, {"line 1 lump sum": 100_00, "line 1 Scheme Pays": 1})
    vector("Scheme Pays lump sum on a pension", 13, P54, {"line 1 Scheme Pays lump sum": 1})
    vector("Scheme Pays on a survivor's pension", 13, AGED_54, {"line 1 survivor": 100_00, "line 1 Scheme Pays": 1})
    vector("survivor's part is not reduced", paid("150.00", survivor="150.00"), P54, {
        "line 1 Scheme Pays": 100_00, "line 1 survivor": 100_00,
    })
    # 100.00 less 30.00 at 18.05, 100.00 less 40.00 at 0.88, 100.00 at 1.50
    vector("each off its own benefit", paid("1,466.30", pension="1,263.50", lump="52.80", survivor="150.00"), P54, {
        "line 1 lump sum": 100_00, "line 1 survivor": 100_00, "line 1 Scheme Pays": 30_00, "line 1 Scheme Pays lump sum": 40_00,
    })
    without = {1: "2,953.00", 2: "2,925.00", 3: "2,896.00", 4: "2,866.00"}
    for i in LINES:
        vector(f"kind 2, line {i}, Scheme Pays of all", only(without[i]), P4, {f"line {i} Scheme Pays": 100_00})
        vector(f"kind 2, line {i}, Scheme Pays a penny above", 13, P4, {f"line {i} Scheme Pays": 100_01})
        vector(f"kind 2, line {i}, Scheme Pays on no pension", 13, P4, {f"line {i} pension": 0, f"line {i} Scheme Pays": 1})
    vector("kind 2, 1p at 1.5000 on line 4, Scheme Pays 2p", paid("0"), FOUR_LINES, {
        "revaluation": 15_000, "line 4 pension": 1, "line 4 Scheme Pays": 2,
    })
    vector("kind 2, 1p at 1.5000 on line 4, Scheme Pays 3p", 13, FOUR_LINES, {
        "revaluation": 15_000, "line 4 pension": 1, "line 4 Scheme Pays": 3,
    })


def negative():
    """Amounts of pension, lump sum, survivor and modification at 18.05, 0.88, 1.50 and 12.42."""
    group("14 negative")

    def of(pension, lump, survivor, modification):
        return AGED_54 | {
            "line 1 pension": pension, "line 1 lump sum": lump, "line 1 survivor": survivor,
            "line 1 modification": modification,
        }

    vector("1,242p pension, 1,805p modification: 0", paid("0", pension="224.1810", deduct="224.1810"), of(1242, 0, 0, 1805))
    vector("a penny more of modification", 14, of(1242, 0, 0, 1806))
    # 15.84 + 9.00 - 24.84 pence
    vector("lump sum and survivor: 0", paid("0", lump="0.1584", survivor="0.0900", deduct="0.2484"), of(0, 18, 6, 2))
    # 18.05 + 5.28 + 1.50 - 24.84 pence
    vector("a hundredth of a penny below zero", 14, of(1, 6, 1, 2))
    # 54.15 + 0.88 + 19.50 - 74.52 pence
    vector("a hundredth of a penny above zero", paid(
        "0", pension="0.5415", lump="0.0088", survivor="0.1950", deduct="0.7452",
    ), of(3, 1, 13, 6))
    vector("below zero, with an AVC", 14, of(0, 0, 0, 1) | {"AVC": 100_00})
    vector("far below zero", 14, of(0, LIMIT, LIMIT, LIMIT))
    vector("nothing at all, kind 1", paid("0"), of(0, 0, 0, 0))
    vector("nothing at all, kind 2", paid("0"), FOUR_LINES)
    vector("nothing but an AVC", paid("0.01", avc="0.01"), of(0, 0, 0, 0) | {"AVC": 1})


def rounding():
    group("rounding")
    for pence, pay, item in ((87, "8.06", "8.0649"), (50, "4.64", "4.6350"), (13, "1.21", "1.2051")):
        vector(f"kind 2, {pence}p, {item} pounds", paid(pay, pension=item), AHEAD_25, {"line 1 pension": pence})
    # 50 at 9.27 and 3 at 1.33; 50 at 9.27 and 100 at 1.33
    vector("kind 2, pension and survivor, 467.49", paid("4.67", pension="4.6350", survivor="0.0399"), AHEAD_25, {
        "line 1 pension": 50, "line 1 survivor": 3,
    })
    vector("kind 2, pension and survivor, 596.50", paid("5.97", pension="4.6350", survivor="1.3300"), AHEAD_25, {
        "line 1 pension": 50, "line 1 survivor": 100,
    })
    # kind 1: pence of lump sum, survivor and pension at 0.88, 1.50 and 18.05, in hundredths of a penny 4900, 4950, ..
    for total, pay, pension, lump, survivor, modification in (
        ("49.00", "0.49", 0, 25, 18, 0),
        ("49.50", "0.50", 0, 0, 33, 0),
        ("50.00", "0.50", 0, 50, 4, 0),
        ("149.00", "1.49", 0, 125, 26, 0),
        ("149.49", "1.49", 1, 88, 36, 0),
        ("149.50", "1.50", 0, 100, 41, 0),
        ("150.00", "1.50", 0, 0, 100, 0),
        ("149.49 with a deduction", "1.49", 1, 97, 39, 1),
        ("149.50 with a deduction", "1.50", 0, 184, 0, 1),
    ):
        stated = {
            "pension": "0.1805" if pension else "0",
            "lump": f"{lump * 88}/10000",
            "survivor": f"{survivor * 150}/10000",
            "deduct": "0.1242" if modification else "0",
        }
        vector(f"kind 1, {total} pence", paid(pay, **stated), AGED_54, {
            "line 1 pension": pension, "line 1 lump sum": lump, "line 1 survivor": survivor,
            "line 1 modification": modification,
        })
    low, half = {"revaluation": 14_999}, {"revaluation": 15_000}
    vector("1p pension at 1.4999", paid("0.09", pension="0.0927"), AHEAD_25, low | {"line 1 pension": 1})
    vector("1p survivor at 1.4999", paid("0.01", survivor="0.0133"), AHEAD_25, low | {"line 1 survivor": 1})
    vector("1p survivor at 1.5000", paid("0.03", survivor="0.0266"), AHEAD_25, half | {"line 1 survivor": 1})
    vector("1p lump sum at 1.4999", paid("0.01", lump="0.0088"), AGED_54, low | {"line 1 lump sum": 1})
    vector("1p lump sum at 1.5000", paid("0.02", lump="0.0176"), AGED_54, half | {"line 1 lump sum": 1})
    vector("1p and 1p additional at 1.5000 are 3p", paid("0.28", pension="0.2781"), AHEAD_25, half | {
        "line 1 pension": 1, "line 1 additional pension": 1,
    }, wrong="0.37")
    vector("1p and 1p dependant's at 1.5000 are 3p", paid("0.04", survivor="0.0399"), AHEAD_25, half | {
        "line 1 survivor": 1, "line 1 dependant's additional": 1,
    }, wrong="0.05")
    # 2p on each line, at 9.27 + 9.55 + 9.84 + 10.14
    vector("1p at 1.5000 on each of four lines is 2p on each", paid("0.78", pension="0.7760"), FOUR_LINES, half | {
        f"line {i} pension": 1 for i in LINES
    }, wrong="0.58")
    # 9,999p at 1.2345 is 12,343.7655 pence; 10,001p is 12,346.2345
    vector("9,999p at 1.2345", paid("1,144.29", pension="1,144.2888"), AHEAD_25, {
        "revaluation": 12_345, "line 1 pension": 9_999,
    })
    vector("10,001p at 1.2345", paid("1,144.47", pension="1,144.4742"), AHEAD_25, {
        "revaluation": 12_345, "line 1 pension": 10_001,
    })


def several_lines():
    group("lines")
    for i, pounds in {1: "927.00", 2: "955.00", 3: "984.00", 4: "1,014.00"}.items():
        vector(f"pension on line {i} alone", only(pounds), FOUR_LINES, {f"line {i} pension": 100_00})
    for i, pounds in {1: "133.00", 2: "135.00", 3: "136.00", 4: "138.00"}.items():
        vector(f"survivor on line {i} alone", paid(pounds, survivor=pounds), FOUR_LINES, {f"line {i} survivor": 100_00})
    # 927 + 1,910 + 2,952 + 4,056, and 13.30 + 27.00 + 40.80 + 55.20
    amounts = {f"line {i} pension": i * 100_00 for i in LINES} | {f"line {i} survivor": i * 10_00 for i in LINES}
    vector("four lines", paid("9,981.30", pension="9,845.00", survivor="136.30"), FOUR_LINES, amounts)
    four = FOUR_LINES | amounts
    names = OF_A_LINE
    for order in ((2, 4, 3), (3, 2, 4), (3, 4, 2), (4, 2, 3), (4, 3, 2)):
        moved = {f"line {to} {name}": four[f"line {start} {name}"] for to, start in zip((2, 3, 4), order) for name in names}
        vector(f"lines in the order 1 {order}", 17, four, moved)
    # 90, 180, 270 and 360 pounds: 834.30 + 1,719.00 + 2,656.80 + 3,650.40
    vector("four lines with Scheme Pays", paid("8,996.80", pension="8,860.50", survivor="136.30"), four, {
        f"line {i} Scheme Pays": i * 10_00 for i in LINES
    })
    vector("four lines on two days", 17, P4, {f"line {i} date": (2044, 5, 11) for i in (2, 3, 4)})
    # 18,160 + 27,810 and 884.25 + 1,346.625
    vector("003, D, its first two lines", paid("48,200.88", pension="45,970.00", survivor="2,230.8750"), D_003, {
        "count": 2, "line 3 date": NO_DATE, "line 3 pension": 0, "line 3 survivor": 0,
    })
    swapped = {f"line {to} {name}": D_003[f"line {5 - to} {name}"] for to in (2, 3) for name in names}
    vector("003, D, its reduced ages in the other order", 17, D_003, swapped)


def largest():
    group("largest")
    oldest = AGED_54 | {"guarantee": (2027, 5, 31), "revaluation": 100_000, "AVC": LIMIT}
    oldest |= {f"line 1 {name}": LIMIT for name in AMOUNTS[:5]}
    survivor, avc = "308,000,000.00", "10,000,000.00"
    vector("kind 1, age 59, every benefit", paid(
        "4,485,000,000.00", pension="4,068,000,000.00", lump="99,000,000.00", survivor=survivor, avc=avc,
    ), oldest)
    vector("kind 1, age 59, and modification", paid(
        "4,341,300,000.00", pension="4,068,000,000.00", lump="99,000,000.00", survivor=survivor,
        deduct="143,700,000.00", avc=avc,
    ), oldest, {"line 1 modification": LIMIT})
    # 190,000,000 at 20.34 and 90,000,000 at 0.99
    vector("kind 1, age 59, every amount", paid(
        "4,128,000,000.00", pension="3,864,600,000.00", lump="89,100,000.00", survivor=survivor,
        deduct="143,700,000.00", avc=avc,
    ), oldest, {f"line 1 {name}": LIMIT for name in AMOUNTS})
    nearest_dates = FOUR_LINES | {"birth": (1950, 1, 1), "revaluation": 100_000, "AVC": LIMIT, "flags": 1}
    nearest_dates |= {"transfer-in": LIMIT, "own contributions": LIMIT}
    nearest_dates |= {f"line {i} {name}": LIMIT for i in LINES for name in ("pension", "survivor")}
    nearest_dates |= {"line 1 additional pension": LIMIT, "line 1 dependant's additional": LIMIT}
    a_year = {f"line {i} date": (2021, 5, 11 - i) for i in LINES}
    # 500,000,000 pounds of each
    vector("kind 2, four lines a year ahead", paid(
        "9,350,000,000.00", pension="8,540,000,000.00", survivor="800,000,000.00", underpin="20,000,000.00", avc=avc,
    ), nearest_dates, a_year)
    vector("kind 2, four lines four years ahead", paid(
        "8,675,000,000.00", pension="7,860,000,000.00", survivor="805,000,000.00", underpin="20,000,000.00", avc=avc,
    ), nearest_dates, {f"line {i} date": (2024, 5, 11 - i) for i in LINES})
    # 460,000,000 at 17.08
    vector("kind 2, and Scheme Pays", paid(
        "8,666,800,000.00", pension="7,856,800,000.00", survivor="800,000,000.00", underpin="20,000,000.00", avc=avc,
    ), nearest_dates, a_year | {f"line {i} Scheme Pays": LIMIT for i in LINES})


def underpin():
    group("underpin")
    flagged = B_003 | {"flags": 1, "transfer-in": 20_000_00}
    vector("a penny below the gross value", paid("25,900.81", underpin="25,900.80", **B_PAID), flagged, {
        "own contributions": 5_900_80,
    })
    vector("transfer-in alone, equal", paid("25,900.81", underpin="25,900.81", **B_PAID), flagged, {
        "transfer-in": 25_900_81,
    })
    vector("transfer-in alone, above", paid("25,900.82", underpin="25,900.82", **B_PAID), flagged, {
        "transfer-in": 25_900_82,
    })
    vector("own contributions alone, above", paid("30,000.00", underpin="30,000.00", **B_PAID), flagged, {
        "transfer-in": 0, "own contributions": 30_000_00,
    })
    vector("the flag and nothing in", paid("25,900.81", **B_PAID), flagged, {"transfer-in": 0})
    vector("GMP without a transfer in", paid("25,900.81", **B_PAID), B_003, {
        "flags": 2, "state pension date": (2045, 1, 6), "own contributions": 30_000_00,
    })
    vector("GMP and a transfer in", paid("30,000.00", underpin="30,000.00", **B_PAID), flagged, {
        "flags": 3, "state pension date": (2045, 1, 6), "own contributions": 10_000_00,
    })
    vector("no benefit at all", paid("0.02", underpin="0.02"), AHEAD_25, {
        "flags": 1, "transfer-in": 1, "own contributions": 1,
    })
    vector("above the gross value of three lines", paid("104,845.39", underpin="104,845.39", **D_PAID), D_003, {
        "flags": 1, "transfer-in": 100_000_00, "own contributions": 4_845_39,
    })


def voluntary_fund():
    group("AVC")
    # 13,686,893 pence and 49
    vector("kind 1, added to the gross value", paid("136,869.42", pension="117,921.60", lump="14,364.00",
           survivor="4,817.9250", deduct="234.60", avc="0.49"), A_001, {"AVC": 49}, wrong="136,869.49")
    # 149 pence and 1 penny
    vector("kind 1, 149p and an AVC of 1p", paid("1.50", lump="1.10", survivor="0.39", avc="0.01"), AGED_54, {
        "line 1 lump sum": 125, "line 1 survivor": 26, "AVC": 1,
    }, wrong="2.00")
    vector("kind 2, added to the gross value", paid("26,000.80", avc="99.99", **B_PAID), B_003, {"AVC": 99_99})
    flagged = B_003 | {"flags": 1, "transfer-in": 20_000_00}
    vector("kind 2, added after the underpin", paid("26,500.00", underpin="26,000.00", avc="500.00", **B_PAID), flagged, {
        "own contributions": 6_000_00, "AVC": 500_00,
    }, wrong="26,400.81")
    vector("kind 2, added to a larger gross value", paid(
        "26,400.81", underpin="20,000.00", avc="500.00", **B_PAID,
    ), flagged, {"AVC": 500_00})


def payment():
    group("payment")
    vector("kind 1, a half penny goes up, to odd", paid("1.81", pension="1.8050"), AGED_54, {"line 1 pension": 10}, wrong="1.80")
    vector("kind 1, a half penny goes up, to even", paid("0.02", survivor="0.0150"), AGED_54, {"line 1 survivor": 1}, wrong="0.01")
    # 54,150,000 + 6,600,001.76 + 498,027 pence; the nearest 32-bit float of pounds is 612,480.3125
    vector("kind 1, more than a 32-bit float holds", paid(
        "612,480.29", pension="541,500.00", lump="66,000.0176", survivor="4,980.27",
    ), AGED_54, {"line 1 pension": 30_000_00, "line 1 lump sum": 75_000_02, "line 1 survivor": 3_320_18}, wrong="612,480.31")
    vector("kind 2, underpin above gross value and AVC", paid(
        "30,500.00", underpin="30,000.00", avc="500.00", **B_PAID,
    ), B_003, {"flags": 1, "transfer-in": 20_000_00, "own contributions": 10_000_00, "AVC": 500_00}, wrong="30,000.00")
