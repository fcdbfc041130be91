"""The papers' figures, the notes' examples, sums that clerks have got wrong, and every row of the 1995 and 2015 tables."""

from cases import AGED_54, AHEAD_25, B_PAID, D_PAID, P25, P54, P54_PAID, lines_up_to
from making import group, only, paid, vector
from model.examples import A_001, A_003, B_003, C_003, D_003
from model.factors import FACTORS


def figures_at_the_edges():
    group("figures at the edges")
    # 899.44 at 1.33
    vector("84,375p at 1.0660 is 89,944p", paid("1,196.26", survivor="1,196.2552"), AHEAD_25, {
        "revaluation": 10_660, "line 1 survivor": 84_375,
    }, wrong="1,196.25")
    vector("1p at 1.5000 is 2p, kind 1", paid("0.36", pension="0.3610"), AGED_54, {
        "revaluation": 15_000, "line 1 pension": 1,
    }, wrong="0.18")
    vector("1p at 1.5000 is 2p, kind 2", paid("0.19", pension="0.1854"), AHEAD_25, {
        "revaluation": 15_000, "line 1 pension": 1,
    }, wrong="0.09")
    # 180.5 + 1.5 pence
    vector("10p pension and 1p survivor at 54", paid("1.82", pension="1.8050", survivor="0.0150"), AGED_54, {
        "line 1 pension": 10, "line 1 survivor": 1,
    }, wrong="1.83")
    vector("pension 100p, Scheme Pays 100p", paid("0"), AGED_54, {"line 1 pension": 100, "line 1 Scheme Pays": 100})
    vector("pension 100p, Scheme Pays 101p", 13, AGED_54, {"line 1 pension": 100, "line 1 Scheme Pays": 101})
    vector("no benefit and 1p modification", 14, AGED_54, {"line 1 modification": 1})
    vector("born 1 June 1967, on 31 May 2020: 52", only("1,724.00"), P54, {"guarantee": (2020, 5, 31)})
    vector("born 1 June 1967, on 1 June 2020: 53", only("1,764.00"), P54, {"guarantee": (2020, 6, 1)})
    ahead = P25 | {"birth": (1979, 7, 3), "guarantee": (2021, 7, 3)}
    vector("3 July 2021 to 3 July 2047: 26", only("908.00"), ahead, {"line 1 date": (2047, 7, 3)})
    vector("3 July 2021 to 4 July 2047: 27", only("889.00"), ahead, {"line 1 date": (2047, 7, 4)})
    flagged_b = B_003 | {"flags": 1, "transfer-in": 20_000_00}
    vector("case B, £20,000.00 in, £5,900.81 contributed", paid("25,900.81", underpin="25,900.81", **B_PAID), flagged_b, {
        "own contributions": 5_900_81,
    })
    vector("case B, a penny more contributed", paid("25,900.82", underpin="25,900.82", **B_PAID), flagged_b, {
        "own contributions": 5_900_82,
    })
    gmp = P54 | {"flags": 2}
    vector("state pension date 5 April 2016", 10, gmp, {"state pension date": (2016, 4, 5)})
    vector("state pension date 6 April 2016", P54_PAID, gmp, {"state pension date": (2016, 4, 6)})
    vector("service of 3 months", P54_PAID, P54, {"months": 3})
    vector("service of 2 months", 9, P54, {"months": 2})


def examples():
    """Each prints its result, and the sum comes to the same."""
    group("examples")
    # prints £136,868.93 and, rounded once more, £136,869
    vector("001, A", paid(
        "136,868.93", pension="117,921.6000", lump="14,364.0000", survivor="4,817.9250", deduct="234.6000",
    ), A_001, wrong="136,869.00")
    # 001's Example E is a member with reserved rights, which are left to the desk. Its parts (2) and (3) are kind 1 as it
    # stands: £20,305.40 and £52,804.14.
    part = AGED_54 | {"birth": (1958, 1, 1), "leaving": (1990, 1, 1), "guarantee": (2012, 1, 1), "revaluation": 19_703}
    vector("001, E, part 2 by itself", paid(
        "20,305.40", pension="17,094.7940", lump="2,500.30", survivor="710.31",
    ), part, {"line 1 pension": 480_68, "line 1 lump sum": 1_442_04, "line 1 survivor": 240_34})
    vector("001, E, part 3 by itself", paid(
        "52,804.14", pension="44,454.9840", lump="6,501.9944", survivor="1,847.16",
    ), part, {"line 1 pension": 1_250_00, "line 1 lump sum": 3_750_00, "line 1 survivor": 625_00})
    vector("003, A", paid("78,210.29", pension="74,941.44", survivor="3,268.8480"), A_003)
    vector("003, B", paid("25,900.81", **B_PAID), B_003)
    vector("003, C", paid("63,149.18", pension="61,165.44", survivor="1,983.7440"), C_003)
    # Rows 26, 25 and 23: 18,160.00 + 884.25, 27,810.00 + 1,346.625, 54,120.00 + 2,524.50; the half penny goes up.
    vector("003, D", paid("104,845.38", **D_PAID), D_003)
    # 13.31 for 10 years and 13.94 for 8
    vector("003, 2.17: leaving at 58, ages 68 and 66", only("27,250.00"), P25, {
        "count": 2, "birth": (1962, 3, 15), "guarantee": (2020, 3, 15), "line 1 date": (2030, 3, 15),
        "line 2 date": (2028, 3, 15), "line 1 pension": 1_000_00, "line 2 pension": 1_000_00,
    })


def clerks():
    group("sums clerks have got wrong")
    vector("survivor's pension is rounded when revalued", paid("25,900.81", **B_PAID), B_003, wrong="25,900.80")
    # 180.5 + 268.5 pence
    vector("items are not rounded, kind 1", paid("4.49", pension="1.8050", survivor="2.6850"), AGED_54, {
        "line 1 pension": 10, "line 1 survivor": 179,
    }, wrong="4.50")
    # 463.5 + 66.5 pence
    vector("items are not rounded, kind 2", paid("5.30", pension="4.6350", survivor="0.6650"), AHEAD_25, {
        "line 1 pension": 50, "line 1 survivor": 50,
    }, wrong="5.31")
    # 559.0 = 463.5 + 95.5 pence
    vector("lines are not rounded", paid("5.59", pension="5.5900"), lines_up_to(2), {
        "line 1 pension": 50, "line 2 pension": 10,
    }, wrong="5.60")
    vector("halves go up, gross value, to odd", paid("13.91", pension="13.9050"), AHEAD_25, {
        "line 1 pension": 150,
    }, wrong="13.90")
    vector("halves go up, gross value, to even", paid("4.64", pension="4.6350"), AHEAD_25, {
        "line 1 pension": 50,
    }, wrong="4.63")
    # 3p at 1.5 is 5p, at 9.27 46.35 pence
    vector("halves go up, revaluation, to odd", paid("0.46", pension="0.4635"), AHEAD_25, {
        "revaluation": 15_000, "line 1 pension": 3,
    }, wrong="0.37")
    vector("halves go up, revaluation, to even", paid("0.19", pension="0.1854"), AHEAD_25, {
        "revaluation": 15_000, "line 1 pension": 1,
    }, wrong="0.09")
    vector("kind 1 is paid to the penny, 250p", paid("2.50", lump="2.20", survivor="0.30"), AGED_54, {
        "line 1 lump sum": 250, "line 1 survivor": 20,
    }, wrong="3.00")
    vector("kind 1 is paid to the penny, 150p", paid("1.50", survivor="1.50"), AGED_54, {
        "line 1 survivor": 100,
    }, wrong="2.00")
    vector("no underpin without a transfer in", paid("25,900.81", **B_PAID), B_003, {
        "own contributions": 30_000_00,
    }, wrong="30,000.00")
    doubled = AGED_54 | {"revaluation": 20_000}
    # (200 - 50) at 18.05; 100 at 18.05 if Scheme Pays were revalued
    vector("Scheme Pays is not revalued", only("2,707.50"), doubled, {
        "line 1 pension": 100_00, "line 1 Scheme Pays": 50_00,
    }, wrong="1,805.00")
    # (200 - 60) at 0.88
    vector("Scheme Pays lump sum is not revalued", paid("123.20", lump="123.20"), doubled, {
        "line 1 lump sum": 100_00, "line 1 Scheme Pays lump sum": 60_00,
    }, wrong="70.40")
    # 200 at 18.05, less 10 at 12.42
    vector("the modification is not revalued", paid("3,485.80", pension="3,610.00", deduct="124.20"), doubled, {
        "line 1 pension": 100_00, "line 1 modification": 10_00,
    }, wrong="3,361.60")
    vector("Scheme Pays above the amount before revaluation", only("902.50"), doubled, {
        "line 1 pension": 100_00, "line 1 Scheme Pays": 150_00,
    })
    # (200 - 50) at 9.27
    vector("Scheme Pays is not revalued, kind 2", only("1,390.50"), AHEAD_25, {
        "revaluation": 20_000, "line 1 pension": 100_00, "line 1 Scheme Pays": 50_00,
    }, wrong="927.00")


def every_row():
    """£100.00 of each benefit, and of modification in kind 1, on each row of the tables."""
    group("every row")
    for (table, row), (pension, lump, survivor, deduction) in sorted(FACTORS.items()):
        figures = {"pension": pension, "lump": lump, "survivor": survivor, "deduct": deduction}
        stated = {name: str(int(factor * 100)) for name, factor in figures.items() if factor}
        total = 100 * (pension + lump + survivor - deduction)
        if table == "1995m":
            vector(f"kind 1, age {row}", paid(str(int(total)), **stated), P54, {
                "leaving": (1985, 4, 1), "guarantee": (1967 + row, 6, 1), "line 1 survivor": 100_00,
                "line 1 lump sum": 100_00, "line 1 modification": 100_00,
            })
        elif table == "2015":
            vector(f"kind 2, {row} years ahead", paid(str(int(total)), **stated), P25, {
                "birth": (1955, 5, 10), "line 1 date": (2020 + row, 5, 10), "line 1 survivor": 100_00,
            })
