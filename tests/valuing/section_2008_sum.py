"""Kind 3, the 2008 section: examples, every age, the sum, Choice Optants and divorce debits."""

from cases import AGED_50, DEBIT_OF_ALL, D_001_PAID, OPTANT_50, OPTANT_P50, P50, P50_PAID, P54
from making import group, only, paid, vector
from tables_2008 import TV3, TV4, factors_2008
from model.examples import B_001, C_001, D_001
from model.fields import AMOUNTS, DIVORCE_DEBITS, FEMALE, MALE
from model.rules import LIMIT


def kind_3_examples():
    """The note prints the sums to the penny: £25,567.50, £47,304.68 and £198,188.62."""
    group("examples of the 2008 section")
    # 2,630.00 at 9.29 and 986.78 at 1.15: 25,567.4970
    vector("001, B, born 1 November 1983: 35", paid("25,567.50", pension="24,432.70", survivor="1,134.7970"), B_001, {
        "birth": (1983, 11, 1),
    }, wrong="25,567.49")
    # 2,630.00 at 9.10 and 986.78 at 1.12: 25,038.1936
    vector("001, B, born 1 November 1984: 34", paid("25,038.19", pension="23,933.00", survivor="1,105.1936"), B_001,
           wrong="25,567.50")
    # 2,630.00 at 17.39 and 986.78 at 1.59: 47,304.6802
    vector("001, C", paid("47,304.68", pension="45,735.70", survivor="1,568.9802"), C_001, wrong="47,305.00")
    # 12,723.75 at 12.84, 36,855.00 at 0.71 and 5,923.71 at 1.46: 198,188.6166
    vector("001, D", paid("198,188.62", **D_001_PAID), D_001, wrong="198,189.00")
    vector("001, D, without the flag", 4, D_001, {"flags": 0})
    vector("001, D, a woman", paid("198,188.62", **D_001_PAID), D_001, {"sex": FEMALE})
    # less £20.00 at 7.35, 7.15, 16.23 and 11.09
    modification = {"line 1 modification": 20_00}
    vector("001, B, 35, and a modification", paid(
        "25,420.50", pension="24,432.70", survivor="1,134.7970", deduct="147.00",
    ), B_001, modification | {"birth": (1983, 11, 1)})
    vector("001, B, 34, and a modification", paid(
        "24,895.19", pension="23,933.00", survivor="1,105.1936", deduct="143.00",
    ), B_001, modification)
    vector("001, C, and a modification", paid(
        "46,980.08", pension="45,735.70", survivor="1,568.9802", deduct="324.60",
    ), C_001, modification)
    vector("001, D, and a modification", paid("197,966.82", deduct="221.80", **D_001_PAID), D_001, modification)


def kind_3_every_age():
    """£100.00 of each benefit and of modification at each age: a man on his birthday, a woman on the day before the next."""
    group("every age of the 2008 section")
    for sex, label, table in ((MALE, "a man", TV3), (FEMALE, "a woman", TV4)):
        for years in range(17, 67):
            expectation = 12 if years == 17 else 11
            if years in table:
                pension, lump, survivor, deduction = factors_2008(sex, years)
                figures = {"pension": pension, "lump": lump, "survivor": survivor, "deduct": deduction}
                stated = {name: str(int(factor * 100)) for name, factor in figures.items()}
                total = 100 * (pension + lump + survivor - deduction)
                expectation = paid(str(int(total)), **stated)
            vector(f"{label} of {years}", expectation, OPTANT_P50, {
                "sex": sex, "birth": (1967, 6, 1), "leaving": (1984, 4, 1),
                "guarantee": (1967 + years, 6, 1) if sex == MALE else (1968 + years, 5, 31),
                "line 1 survivor": 100_00, "line 1 lump sum": 100_00, "line 1 modification": 100_00,
            })


def kind_3_rows():
    """Some rows stated by hand, as 001 prints them, in pounds for £100.00 of each."""
    group("rows of the 2008 section")
    for years, pay, pension, lump, survivor, deduct in (
        (18, "294", "650", "33", "76", "465"),
        (19, "300", "664", "34", "80", "478"),
        (21, "309", "693", "36", "84", "504"),
        (22, "311", "707", "36", "86", "518"),
        (40, "374", "1,034", "56", "126", "842"),
        (50, "392", "1,284", "71", "146", "1,109"),
        (54, "393", "1,404", "78", "153", "1,242"),
        (55, "393", "1,437", "80", "154", "1,278"),
        (59, "386", "1,577", "88", "158", "1,437"),
        (60, "384", "1,615", "90", "159", "1,480"),
        (63, "372", "1,739", "97", "159", "1,623"),
        (64, "367", "1,783", "99", "159", "1,674"),
    ):
        for sex, label in ((MALE, "a man"), (FEMALE, "a woman")):
            at = {"sex": sex, "leaving": (1986, 5, 10), "guarantee": (1970 + years, 5, 10)}
            whole = {"line 1 survivor": 100_00, "line 1 modification": 100_00}
            vector(f"{label} of {years}, Choice Optant", paid(
                pay, pension=pension, lump=lump, survivor=survivor, deduct=deduct,
            ), OPTANT_P50, at | whole | {"line 1 lump sum": 100_00})
            without = str(int(pay) - int(lump))
            vector(f"{label} of {years}", paid(
                without, pension=pension, survivor=survivor, deduct=deduct,
            ), P50, at | whole)


def kind_3_birthdays():
    group("birthdays in the 2008 section")
    young = P50 | {"leaving": (1987, 1, 1)}
    old = P50 | {"birth": (1955, 5, 10)}
    for sex, label in ((MALE, "a man"), (FEMALE, "a woman")):
        of = {"sex": sex}
        vector(f"{label}, the day before the 18th", 12, young, of | {"guarantee": (1988, 5, 9)})
        vector(f"{label}, on the 18th", only("650.00"), young, of | {"guarantee": (1988, 5, 10)})
        vector(f"{label}, the day after the 18th", only("650.00"), young, of | {"guarantee": (1988, 5, 11)})
        vector(f"{label}, the day before the 19th", only("650.00"), young, of | {"guarantee": (1989, 5, 9)})
        vector(f"{label}, on the 19th", only("664.00"), young, of | {"guarantee": (1989, 5, 10)})
        vector(f"{label}, the day before the 65th", only("1,783.00"), old, of | {"guarantee": (2020, 5, 9)})
        vector(f"{label}, on the 65th", 11, old, of | {"guarantee": (2020, 5, 10)})
        vector(f"{label}, the day after the 65th", 11, old, of | {"guarantee": (2020, 5, 11)})
        vector(f"{label}, on the 64th", only("1,783.00"), old, of | {"guarantee": (2019, 5, 10)})
        vector(f"{label}, a day old", 12, P50, of | {"leaving": (1970, 5, 11), "guarantee": (1970, 5, 11)})
        vector(f"{label}, on the 66th", 11, old, of | {"guarantee": (2021, 5, 10)})
        vector(f"{label} of 299", 11, P50, of | {"birth": (1900, 1, 1), "guarantee": (2199, 12, 31)})
        vector(f"{label}, left on the 65th", 11, old, of | {"leaving": (2020, 5, 10), "guarantee": (2020, 5, 10)})
        # £10.00 at 14.37 and 14.80
        turns_60 = P50 | of | {"birth": (1960, 5, 10), "line 1 modification": 10_00}
        at_59 = paid("1,433.30", pension="1,577.00", deduct="143.70")
        at_60 = paid("1,467.00", pension="1,615.00", deduct="148.00")
        vector(f"{label}, the day before the 60th", at_59, turns_60, {"guarantee": (2020, 5, 9)})
        vector(f"{label}, on the 60th", at_60, turns_60, {"guarantee": (2020, 5, 10)})
        vector(f"{label}, the day after the 60th", at_60, turns_60, {"guarantee": (2020, 5, 11)})
        vector(f"{label}, left at 59, 60 at the guarantee date", at_60, turns_60, {"leaving": (2020, 5, 9)})
        vector(f"{label}, the day before the 61st", at_60, turns_60, {"guarantee": (2021, 5, 9)})
        # £10.00 at 15.26
        at_61 = paid("1,502.40", pension="1,655.00", deduct="152.60")
        vector(f"{label}, on the 61st", at_61, turns_60, {"guarantee": (2021, 5, 10)})
        # 10.34 at 40, when he or she left
        vector(f"{label}, left at 40", P50_PAID, P50, of, wrong="1,034.00")
        vector(f"{label}, left at 17", P50_PAID, P50, of | {"leaving": (1988, 5, 9)})
        vector(f"{label}, left at 49", P50_PAID, P50, of | {"leaving": (2020, 5, 9)}, wrong="1,256.00")
    # 18.05 in kind 1
    vector("a kind 1 case as kind 3, 54", only("1,404.00"), P54, {"kind": 3, "sex": MALE}, wrong="1,805.00")
    vector("a kind 3 case as kind 1, 50", only("1,647.00"), P50, {"kind": 1, "sex": 0}, wrong="1,284.00")


def kind_3_leap_days():
    group("29 February in the 2008 section")
    born = P50 | {"birth": (1968, 2, 29), "leaving": (1984, 5, 10)}
    vector("on 27 February 1986: 17", 12, born, {"guarantee": (1986, 2, 27)})
    vector("on 28 February 1986: 18", only("650.00"), born, {"guarantee": (1986, 2, 28)})
    vector("on 1 March 1986: 18", only("650.00"), born, {"guarantee": (1986, 3, 1)})
    vector("on 27 February 2021: 52", only("1,342.00"), born, {"guarantee": (2021, 2, 27)})
    vector("on 28 February 2021: 53", only("1,373.00"), born, {"guarantee": (2021, 2, 28)})
    vector("on 28 February 2024: 55", only("1,437.00"), born, {"guarantee": (2024, 2, 28)})
    vector("on 29 February 2024: 56", only("1,470.00"), born, {"guarantee": (2024, 2, 29)})
    vector("on 27 February 2033: 64", only("1,783.00"), born, {"guarantee": (2033, 2, 27)})
    vector("on 28 February 2033: 65", 11, born, {"guarantee": (2033, 2, 28)})
    vector("on 1 March 2033: 65", 11, born, {"guarantee": (2033, 3, 1)})
    # £10.00 at 14.37 and 14.80
    at_59 = paid("1,433.30", pension="1,577.00", deduct="143.70")
    at_60 = paid("1,467.00", pension="1,615.00", deduct="148.00")
    woman = born | {"sex": FEMALE, "line 1 modification": 10_00}
    vector("a woman, on 28 February 2028: 59", at_59, woman, {"guarantee": (2028, 2, 28)})
    vector("a woman, on 29 February 2028: 60", at_60, woman, {"guarantee": (2028, 2, 29)})
    century = woman | {"birth": (2040, 2, 29), "leaving": (2090, 1, 1)}
    vector("a woman, on 27 February 2100: 59", at_59, century, {"guarantee": (2100, 2, 27)})
    vector("a woman, on 28 February 2100: 60", at_60, century, {"guarantee": (2100, 2, 28)})
    vector("a woman, on 28 February 2105: 65", 11, century, {"guarantee": (2105, 2, 28)})


def kind_3_scheme_pays():
    group("13 debit, kind 3")
    pension, lump = AGED_50 | {"line 1 pension": 100}, OPTANT_50 | {"line 1 lump sum": 100}
    # 12.84 and 0.71 pence
    vector("pension 100p, Scheme Pays 99p", paid("0.13", pension="0.1284"), pension, {"line 1 Scheme Pays": 99})
    vector("pension 100p, Scheme Pays 100p", paid("0"), pension, {"line 1 Scheme Pays": 100})
    vector("pension 100p, Scheme Pays 101p", 13, pension, {"line 1 Scheme Pays": 101})
    both = AGED_50 | {"line 1 pension": 60, "line 1 additional pension": 40}
    vector("pension 60p and additional 40p, Scheme Pays 100p", paid("0"), both, {"line 1 Scheme Pays": 100})
    vector("pension 60p and additional 40p, Scheme Pays 101p", 13, both, {"line 1 Scheme Pays": 101})
    vector("lump sum 100p, Scheme Pays lump sum 99p", paid("0.01", lump="0.0071"), lump, {"line 1 Scheme Pays lump sum": 99})
    vector("lump sum 100p, Scheme Pays lump sum 100p", paid("0"), lump, {"line 1 Scheme Pays lump sum": 100})
    vector("lump sum 100p, Scheme Pays lump sum 101p", 13, lump, {"line 1 Scheme Pays lump sum": 101})
    at = OPTANT_50 | {"revaluation": 10_660}
    for name, taken in (("pension", "Scheme Pays"), ("lump sum", "Scheme Pays lump sum")):
        vector(f"{name} 84,375p at 1.0660, {taken} 89,944p", paid("0"), at, {
            f"line 1 {name}": 84_375, f"line 1 {taken}": 89_944,
        })
        vector(f"{name} 84,375p at 1.0660, {taken} 89,945p", 13, at, {
            f"line 1 {name}": 84_375, f"line 1 {taken}": 89_945,
        })
    vector("Scheme Pays on a lump sum", 13, OPTANT_50, {"line 1 lump sum": 100_00, "line 1 Scheme Pays": 1})
    vector("Scheme Pays lump sum on a pension", 13, OPTANT_P50, {"line 1 Scheme Pays lump sum": 1})
    vector("Scheme Pays on a survivor's pension", 13, AGED_50, {"line 1 survivor": 100_00, "line 1 Scheme Pays": 1})
    vector("survivor's part is not reduced", paid("146.00", survivor="146.00"), P50, {
        "line 1 Scheme Pays": 100_00, "line 1 survivor": 100_00,
    })
    doubled = {"revaluation": 20_000}
    # (200 - 50) at 12.84; (200 - 60) at 0.71; 200 at 12.84 less 10 at 11.09
    vector("Scheme Pays is not revalued", only("1,926.00"), P50, doubled | {"line 1 Scheme Pays": 50_00}, wrong="1,284.00")
    vector("Scheme Pays lump sum is not revalued", paid("99.40", lump="99.40"), OPTANT_50, doubled | {
        "line 1 lump sum": 100_00, "line 1 Scheme Pays lump sum": 60_00,
    }, wrong="56.80")
    vector("the modification is not revalued", paid("2,457.10", pension="2,568.00", deduct="110.90"), P50, doubled | {
        "line 1 modification": 10_00,
    }, wrong="2,346.20")
    vector("no row and Scheme Pays above", 12, P50, {
        "birth": (2002, 5, 11), "leaving": (2020, 5, 10), "line 1 Scheme Pays": 100_01,
    })


def kind_3_negative():
    """Amounts of pension, lump sum, survivor and modification at 12.84, 0.71, 1.46 and 11.09."""
    group("14 negative, kind 3")

    def of(pension, lump, survivor, modification):
        return (OPTANT_50 if lump else AGED_50) | {
            "line 1 pension": pension, "line 1 lump sum": lump, "line 1 survivor": survivor,
            "line 1 modification": modification,
        }

    vector("1,109p pension, 1,284p modification: 0", paid("0", pension="142.3956", deduct="142.3956"), of(1109, 0, 0, 1284))
    vector("a penny more of modification", 14, of(1109, 0, 0, 1285))
    vector("no benefit and 1p modification", 14, of(0, 0, 0, 1))
    vector("no benefit and 1p modification, Choice Optant", 14, OPTANT_50, {"line 1 modification": 1})
    # 12.84 + 20.44 - 33.27 and 141.24 + 2.92 - 144.17 pence
    vector("a hundredth of a penny above zero", paid("0", pension="0.1284", survivor="0.2044", deduct="0.3327"), of(1, 0, 14, 3))
    vector("a hundredth of a penny below zero", 14, of(11, 0, 2, 13))
    # 12.84 + 4.97 + 4.38 - 22.18 and 38.52 + 16.33 + 11.68 - 66.54 pence; 12.84 + 21.30 + 10.22 - 44.36
    vector("a hundredth of a penny above zero, with a lump sum", paid(
        "0", pension="0.1284", lump="0.0497", survivor="0.0438", deduct="0.2218",
    ), of(1, 7, 3, 2))
    vector("a hundredth of a penny below zero, with a lump sum", 14, of(3, 23, 8, 6))
    vector("pension, lump sum and survivor: 0", paid(
        "0", pension="0.1284", lump="0.2130", survivor="0.1022", deduct="0.4436",
    ), of(1, 30, 7, 4))
    vector("below zero, with an AVC", 14, of(0, 0, 0, 1) | {"AVC": 100_00})
    vector("far below zero", 14, of(0, LIMIT, LIMIT, LIMIT))
    vector("nothing at all", paid("0"), of(0, 0, 0, 0))
    vector("nothing at all, Choice Optant", paid("0"), OPTANT_50)
    # 1,437p at 15.77 and 1,577p at 14.37; 1,480p at 16.15 and 1,615p at 14.80
    for sex, label in ((MALE, "a man"), (FEMALE, "a woman")):
        at_59 = of(1437, 0, 0, 1577) | {"sex": sex, "birth": (1960, 5, 11)}
        at_60 = of(1480, 0, 0, 1615) | {"sex": sex, "birth": (1960, 5, 10)}
        vector(f"{label} of 59: 0", paid("0", pension="226.6149", deduct="226.6149"), at_59)
        vector(f"{label} of 59, a penny more of modification", 14, at_59, {"line 1 modification": 1578})
        vector(f"{label} of 60: 0", paid("0", pension="239.02", deduct="239.02"), at_60)
        vector(f"{label} of 60, a penny more of modification", 14, at_60, {"line 1 modification": 1616})


def kind_3_rounding():
    group("rounding, kind 3")
    # 36.5 and 35.5 pence, and both
    vector("a half penny goes up, to odd", paid("0.37", survivor="0.3650"), AGED_50, {"line 1 survivor": 25}, wrong="0.36")
    vector("a half penny goes up, to even", paid("0.36", lump="0.3550"), OPTANT_50, {"line 1 lump sum": 50}, wrong="0.35")
    vector("items are not rounded", paid("0.72", lump="0.3550", survivor="0.3650"), OPTANT_50, {
        "line 1 lump sum": 50, "line 1 survivor": 25,
    }, wrong="0.73")
    # 128.4 pence
    vector("paid to the penny", paid("1.28", pension="1.2840"), AGED_50, {"line 1 pension": 10}, wrong="1.00")
    # 38.52 + 51.12 + 59.86 pence, 51.36 + 14.91 + 83.22, 38.52 + 62.48 + 81.76 - 33.27 and 38.52 + 46.15 + 75.92 - 11.09
    for total, pay, pension, lump, survivor, modification in (
        ("149.50", "1.50", 3, 72, 41, 0),
        ("149.49", "1.49", 4, 21, 57, 0),
        ("149.49 with a deduction", "1.49", 3, 88, 56, 3),
        ("149.50 with a deduction", "1.50", 3, 65, 52, 1),
    ):
        vector(f"{total} pence", paid(
            pay, pension=f"{pension * 1284}/10000", lump=f"{lump * 71}/10000", survivor=f"{survivor * 146}/10000",
            deduct=f"{modification * 1109}/10000",
        ), OPTANT_50, {
            "line 1 pension": pension, "line 1 lump sum": lump, "line 1 survivor": survivor,
            "line 1 modification": modification,
        })
    low, half = {"revaluation": 14_999}, {"revaluation": 15_000}
    vector("1p pension at 1.4999", paid("0.13", pension="0.1284"), AGED_50, low | {"line 1 pension": 1})
    vector("1p pension at 1.5000", paid("0.26", pension="0.2568"), AGED_50, half | {"line 1 pension": 1}, wrong="0.19")
    vector("1p survivor at 1.4999", paid("0.01", survivor="0.0146"), AGED_50, low | {"line 1 survivor": 1})
    vector("1p survivor at 1.5000", paid("0.03", survivor="0.0292"), AGED_50, half | {"line 1 survivor": 1}, wrong="0.02")
    vector("1p lump sum at 1.4999", paid("0.01", lump="0.0071"), OPTANT_50, low | {"line 1 lump sum": 1})
    vector("1p lump sum at 1.5000", paid("0.01", lump="0.0142"), OPTANT_50, half | {"line 1 lump sum": 1})
    vector("1p and 1p additional at 1.5000 are 3p", paid("0.39", pension="0.3852"), AGED_50, half | {
        "line 1 pension": 1, "line 1 additional pension": 1,
    }, wrong="0.51")
    vector("1p and 1p dependant's at 1.5000 are 3p", paid("0.04", survivor="0.0438"), AGED_50, half | {
        "line 1 survivor": 1, "line 1 dependant's additional": 1,
    }, wrong="0.06")


def kind_3_survivor():
    """The dependant's additional pension is added, as step 1 says, though 001, 2.22 speaks of netting it off."""
    group("dependant's additional pension in the 2008 section")
    for sex, label in ((MALE, "a man"), (FEMALE, "a woman")):
        of = {"sex": sex}
        vector(f"{label}, below the survivor's", paid("204.40", survivor="204.40"), AGED_50, of | {
            "line 1 survivor": 100_00, "line 1 dependant's additional": 40_00,
        }, wrong="87.60")
        vector(f"{label}, as much", paid("292.00", survivor="292.00"), AGED_50, of | {
            "line 1 survivor": 100_00, "line 1 dependant's additional": 100_00,
        }, wrong="0")
        vector(f"{label}, above the survivor's", paid("73.00", survivor="73.00"), AGED_50, of | {
            "line 1 survivor": 10_00, "line 1 dependant's additional": 40_00,
        })
        vector(f"{label}, alone", paid("58.40", survivor="58.40"), AGED_50, of | {"line 1 dependant's additional": 40_00})
    # 1,038.00 at 1.052 is 1,091.976; at 1.15 and at 1.12
    more = {"line 1 dependant's additional": 100_00}
    vector("001, B, 35", paid("25,688.48", pension="24,432.70", survivor="1,255.7770"), B_001, more | {"birth": (1983, 11, 1)},
           wrong="25,446.52")
    vector("001, B, 34", paid("25,156.02", pension="23,933.00", survivor="1,223.0176"), B_001, more, wrong="24,920.37")
    # 5,163.00 at 1.17 is 6,040.71; at 1.46
    vector("001, D", paid("198,359.44", pension="163,372.95", lump="26,167.05", survivor="8,819.4366"), D_001, more,
           wrong="198,017.80")
    # 110.00 at 12.84
    vector("additional pension", only("1,412.40"), P50, {"line 1 additional pension": 10_00})


def kind_3_choice_optants():
    """The lump sum that has to be taken, and the pension that is left after it: neither is worked from the other."""
    group("Choice Optants")
    whole = OPTANT_P50 | {"line 1 lump sum": 100_00, "line 1 survivor": 100_00}
    vector("the lump sum is added", paid("1,355.00", pension="1,284.00", lump="71.00"), OPTANT_P50, {
        "line 1 lump sum": 100_00,
    }, wrong="1,284.00")
    vector("the flag alone changes nothing", P50_PAID, OPTANT_P50)
    vector("lump sum alone", paid("71.00", lump="71.00"), OPTANT_50, {"line 1 lump sum": 100_00})
    vector("each benefit", paid("1,501.00", pension="1,284.00", lump="71.00", survivor="146.00"), whole)
    # 70.00 at 12.84, 60.00 at 0.71, 100.00 at 1.46
    reduced = whole | {"line 1 Scheme Pays": 30_00, "line 1 Scheme Pays lump sum": 40_00}
    shown = {"pension": "898.80", "lump": "42.60", "survivor": "146.00"}
    vector("Scheme Pays off each", paid("1,087.40", **shown), reduced)
    # less 10.00 at 11.09, and 5.00 at 12.84, 20.00 at 1.46 and 30.00 at 0.71: 110.90 + 114.70
    debits = {"line 1 debit pension": 5_00, "line 1 debit survivor": 20_00, "line 1 debit lump sum": 30_00}
    vector("Scheme Pays and divorce debits", paid("972.70", **shown), reduced, debits)
    vector("and a modification", paid("861.80", deduct="110.90", **shown), reduced, debits | {"line 1 modification": 10_00})
    # at 2.0000: 170.00 at 12.84, 160.00 at 0.71, 200.00 at 1.46, less 110.90 and 229.40
    vector("and revalued", paid(
        "2,248.10", pension="2,182.80", lump="113.60", survivor="292.00", deduct="110.90",
    ), reduced, debits | {"line 1 modification": 10_00, "revaluation": 20_000})
    lump = OPTANT_P50 | {"line 1 lump sum": 100_00}
    # 60.00 at 0.71 less 30.00 at 0.71
    vector("Scheme Pays and a divorce debit on the lump sum", paid("1,305.30", pension="1,284.00", lump="42.60"), lump, {
        "line 1 Scheme Pays lump sum": 40_00, "line 1 debit lump sum": 30_00,
    })
    vector("Scheme Pays takes the lump sum, and a divorce debit on it", paid("1,262.70", pension="1,284.00"), lump, {
        "line 1 Scheme Pays lump sum": 100_00, "line 1 debit lump sum": 30_00,
    })
    vector("Scheme Pays above the lump sum, and a divorce debit on it", 13, lump, {
        "line 1 Scheme Pays lump sum": 100_01, "line 1 debit lump sum": 30_00,
    })
    vector("a divorce debit of the whole lump sum", paid("1,284.00", pension="1,284.00", lump="71.00"), lump, {
        "line 1 debit lump sum": 100_00,
    })
    vector("a divorce debit above the lump sum", paid("1,213.00", pension="1,284.00", lump="71.00"), lump, {
        "line 1 debit lump sum": 200_00,
    })
    # Scheme Pays is as at the guarantee date: 36,855.00 less 10,000.00, at 0.71; revalued it would be 11,700.00
    vector("001, D, Scheme Pays on the lump sum", paid(
        "191,088.62", pension="163,372.95", lump="19,067.05", survivor="8,648.6166",
    ), D_001, {"line 1 Scheme Pays lump sum": 10_000_00}, wrong="189,881.62")
    # 11,700.00 at 0.71
    vector("001, D, a divorce debit on the lump sum", paid("189,881.62", **D_001_PAID), D_001, {
        "line 1 debit lump sum": 10_000_00,
    }, wrong="191,088.62")
    for years, factor in ((18, "33.00"), (59, "88.00"), (60, "90.00"), (64, "99.00")):
        for sex, label in ((MALE, "a man"), (FEMALE, "a woman")):
            vector(f"{label} of {years}, lump sum alone", paid(factor, lump=factor), OPTANT_50, {
                "sex": sex, "birth": (2020 - years, 5, 10), "leaving": (2015, 1, 1), "line 1 lump sum": 100_00,
            })


def kind_3_divorce():
    group("divorce debits, kind 3")
    # £10.00 at 12.84, 1.46 and 0.71
    for name, pay in (("debit pension", "1,155.60"), ("debit survivor", "1,269.40")):
        for label, base in (("", P50), (", Choice Optant", OPTANT_P50), (", a woman", P50 | {"sex": FEMALE})):
            vector(f"{name} alone{label}", paid(pay, pension="1,284.00"), base, {f"line 1 {name}": 10_00})
    vector("debit lump sum alone", paid("1,276.90", pension="1,284.00"), OPTANT_P50, {"line 1 debit lump sum": 10_00})
    # 128.40 + 29.20 + 21.30
    two = {"line 1 debit pension": 10_00, "line 1 debit survivor": 20_00}
    three = two | {"line 1 debit lump sum": 30_00}
    vector("both", paid("1,126.40", pension="1,284.00"), P50, two, wrong="1,441.60")
    vector("all three", paid("1,105.10", pension="1,284.00"), OPTANT_P50, three, wrong="1,462.90")
    vector("all three revalued", paid("2,210.20", pension="2,568.00"), OPTANT_P50, three | {
        "revaluation": 20_000,
    }, wrong="2,389.10")
    # 36.5, 35.5 and 72 pence
    vector("a half penny goes up, to odd", paid("1,283.63", pension="1,284.00"), P50, {
        "line 1 debit survivor": 25,
    }, wrong="1,283.64")
    vector("a half penny goes up, to even", paid("1,283.64", pension="1,284.00"), OPTANT_P50, {
        "line 1 debit lump sum": 50,
    }, wrong="1,283.65")
    vector("the debits together", paid("1,283.28", pension="1,284.00"), OPTANT_P50, {
        "line 1 debit survivor": 25, "line 1 debit lump sum": 50,
    }, wrong="1,283.27")
    # 2p at 12.84 and 1.46, 5p at 0.71, off £150.00 at 12.84
    for name, pence, becomes, pay, wrong in (
        ("debit pension", 1, 2, "1,925.74", "1,925.87"),
        ("debit survivor", 1, 2, "1,925.97", "1,925.99"),
        ("debit lump sum", 3, 5, "1,925.96", "1,925.97"),
    ):
        vector(f"{pence}p {name} at 1.5000 is {becomes}p", paid(pay, pension="1,926.00"), OPTANT_P50, {
            "revaluation": 15_000, f"line 1 {name}": pence,
        }, wrong=wrong)
    # 1,052.00 at 17.39 and 374.51 at 1.59; 356.00 at 1.052 is 374.512
    vector("001, C, two fifths of the pension", paid("28,414.93", pension="45,735.70", survivor="1,568.9802"), C_001, {
        "line 1 debit pension": 1_000_00, "line 1 debit survivor": 356_00,
    })


def kind_3_award():
    group("16 award, kind 3")
    for label, base in (("", P50), (", Choice Optant", OPTANT_P50), (", a woman", P50 | {"sex": FEMALE})):
        vector(f"equal{label}", paid("0", pension="1,284.00"), base, DEBIT_OF_ALL)
        # 1.46 pence
        vector(f"a penny above{label}", 16, base, DEBIT_OF_ALL | {"line 1 debit survivor": 1})
        vector(f"a penny below{label}", paid("0.01", pension="1,284.00", survivor="0.0146"), base, DEBIT_OF_ALL | {
            "line 1 survivor": 1,
        })
    # 0.71 pence
    vector("a penny above by the lump sum", 16, OPTANT_P50, DEBIT_OF_ALL | {"line 1 debit lump sum": 1})
    vector("a penny below by the lump sum", paid("0.01", pension="1,284.00", lump="0.0071"), OPTANT_P50, DEBIT_OF_ALL | {
        "line 1 lump sum": 1,
    })
    # 128,374.32 + 11.68 + 13.49, 128,348.64 + 42.34 + 8.52, 128,322.96 + 56.94 + 20.59, 128,361.48 + 24.82 + 14.20 pence
    for label, pay, pension, survivor, lump in (
        ("128,399.49 pence, a penny below", "0.01", 99_98, 8, 19),
        ("128,399.50 pence, equal", "0", 99_96, 29, 12),
        ("128,400.49 pence, equal", "0", 99_94, 39, 29),
        ("128,400.50 pence, a penny above", None, 99_97, 17, 20),
    ):
        vector(label, paid(pay, pension="1,284.00") if pay else 16, OPTANT_P50, {
            "line 1 debit pension": pension, "line 1 debit survivor": survivor, "line 1 debit lump sum": lump,
        })
    # 127,796.52 + 602.98 and 128,066.16 + 334.34 pence
    vector("128,399.50 pence, no lump sum, equal", paid("0", pension="1,284.00"), P50, {
        "line 1 debit pension": 99_53, "line 1 debit survivor": 4_13,
    })
    vector("128,400.50 pence, no lump sum, a penny above", 16, P50, {
        "line 1 debit pension": 99_74, "line 1 debit survivor": 2_29,
    })
    vector("nothing but a debit", 16, AGED_50, {"line 1 debit survivor": 1})
    vector("nothing but a debit lump sum", 16, OPTANT_50, {"line 1 debit lump sum": 1})
    # Age 18: 1p of lump sum is 0.33 pence, 2p are 0.66.
    aged_18 = OPTANT_50 | {"birth": (2002, 5, 10)}
    vector("a debit of 0.33 pence off nothing", paid("0"), aged_18, {"line 1 debit lump sum": 1})
    vector("a debit of 0.66 pence off nothing", 16, aged_18, {"line 1 debit lump sum": 2})
    vector("Scheme Pays takes all", 16, P50, {"line 1 Scheme Pays": 100_00, "line 1 debit pension": 1})
    vector("modification takes all", 16, AGED_50, {
        "line 1 pension": 1109, "line 1 modification": 1284, "line 1 debit survivor": 1,
    })
    vector("modification takes more", 14, AGED_50, {
        "line 1 pension": 1109, "line 1 modification": 1285, "line 1 debit survivor": 1,
    })
    vector("an AVC does not make up for the award", 16, P50, {"line 1 debit pension": 100_01, "AVC": LIMIT})


def kind_3_avc():
    group("AVC and underpin, kind 3")
    vector("added to the gross value", paid("198,688.62", avc="500.00", **D_001_PAID), D_001, {"AVC": 500_00})
    vector("added to the gross value, a woman", paid(
        "47,305.17", pension="45,735.70", survivor="1,568.9802", avc="0.49",
    ), C_001, {"AVC": 49}, wrong="47,305.49")
    # 36.5 pence and 1 penny
    vector("added after the rounding", paid("0.38", survivor="0.3650", avc="0.01"), AGED_50, {"line 1 survivor": 25, "AVC": 1})
    vector("on a gross value of 0", paid("0.49", pension="1,284.00", avc="0.49"), P50, DEBIT_OF_ALL | {"AVC": 49})
    vector("nothing but an AVC", paid("0.01", avc="0.01"), AGED_50, {"AVC": 1})
    vector("no underpin: transferred in", 4, P50, {"flags": 1, "transfer-in": 5_000_00})
    vector("no underpin: own contributions", 4, P50, {"own contributions": 5_000_00})
    vector("no underpin: both", 4, P50, {"flags": 1, "transfer-in": 5_000_00, "own contributions": 5_000_00})


def kind_3_largest():
    group("largest, kind 3")
    shown = {"survivor": "318,000,000.00", "avc": "10,000,000.00"}
    every_benefit = {f"line 1 {name}": LIMIT for name in AMOUNTS[:5]}
    every_debit = {f"line 1 {name}": LIMIT for name in DIVORCE_DEBITS}
    for sex, label in ((MALE, "a man"), (FEMALE, "a woman")):
        oldest = OPTANT_50 | {"sex": sex, "birth": (1955, 5, 11), "revaluation": 100_000, "AVC": LIMIT}
        # 200,000,000 at 17.83 and 1.59, 100,000,000 at 0.99
        vector(f"{label} of 64, every benefit", paid(
            "3,993,000,000.00", pension="3,566,000,000.00", lump="99,000,000.00", **shown,
        ), oldest, every_benefit)
        # 10,000,000 at 16.74
        vector(f"{label} of 64, and modification", paid(
            "3,825,600,000.00", pension="3,566,000,000.00", lump="99,000,000.00", deduct="167,400,000.00", **shown,
        ), oldest, every_benefit | {"line 1 modification": LIMIT})
        # 190,000,000 at 17.83 and 90,000,000 at 0.99
        reduced = {"pension": "3,387,700,000.00", "lump": "89,100,000.00", "deduct": "167,400,000.00"}
        vector(f"{label} of 64, every amount of the line", paid("3,637,400,000.00", **reduced, **shown), oldest, {
            f"line 1 {name}": LIMIT for name in AMOUNTS
        })
        # 100,000,000 of each at 17.83, 1.59 and 0.99: 2,041,000,000
        vector(f"{label} of 64, every benefit and divorce debit", paid(
            "1,952,000,000.00", pension="3,566,000,000.00", lump="99,000,000.00", **shown,
        ), oldest, every_benefit | every_debit)
        vector(f"{label} of 64, every amount", paid("1,596,400,000.00", **reduced, **shown), oldest, {
            f"line 1 {name}": LIMIT for name in AMOUNTS
        } | every_debit)
        vector(f"{label} of 64, every divorce debit off nothing", 16, oldest, every_debit)
        vector(f"{label} of 64, every divorce debit and modification", 14, oldest, every_debit | {"line 1 modification": LIMIT})
