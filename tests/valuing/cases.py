"""The cases that the vectors start from, what some of them are paid, and one fault for each refusal."""

from making import paid
from model.fields import EMPTY, FIELDS, LINES, MALE

# Kind 1, age 54, no revaluation: factors 18.05, 0.88, 1.50 and 12.42.
AGED_54 = EMPTY | {
    "kind": 1,
    "case number": 54,
    "status": 1,
    "receiving scheme": 1,
    "count": 1,
    "months": 120,
    "birth": (1967, 6, 1),
    "leaving": (1985, 4, 1),
    "guarantee": (2021, 6, 1),
    "revaluation": 10_000,
}

# Kind 2, 25 years ahead, no revaluation: factors 9.27 and 1.33. Born so that line 1 stands on the 65th birthday.
AHEAD_25 = EMPTY | {
    "kind": 2,
    "case number": 25,
    "status": 1,
    "receiving scheme": 1,
    "count": 1,
    "months": 120,
    "birth": (1980, 5, 10),
    "leaving": (2015, 5, 10),
    "guarantee": (2020, 5, 10),
    "revaluation": 10_000,
    "line 1 date": (2045, 5, 10),
}

# Kind 3, a man of 50 who left at 40, no revaluation: factors 12.84, 0.71, 1.46 and 11.09.
AGED_50 = EMPTY | {
    "kind": 3,
    "case number": 50,
    "status": 1,
    "receiving scheme": 1,
    "count": 1,
    "months": 120,
    "sex": MALE,
    "birth": (1970, 5, 10),
    "leaving": (2010, 5, 10),
    "guarantee": (2020, 5, 10),
    "revaluation": 10_000,
}
OPTANT_50 = AGED_50 | {"flags": 4}

# With four lines, 25, 24, 23 and 22 years ahead: pension factors 9.27, 9.55, 9.84, 10.14; survivor 1.33, 1.35, 1.36, 1.38.
FOUR_LINES = AHEAD_25 | {
    "count": 4,
    "line 2 date": (2044, 5, 10),
    "line 3 date": (2043, 5, 10),
    "line 4 date": (2042, 5, 10),
}

# What the examples are paid.
D_001_PAID = {"pension": "163,372.95", "lump": "26,167.05", "survivor": "8,648.6166"}

B_PAID = {"pension": "24,704.5500", "survivor": "1,196.2552"}
D_PAID = {"pension": "100,090.00", "survivor": "4,755.3750"}

# A pension of £100.00 on each line, and what it pays.
P54 = AGED_54 | {"line 1 pension": 100_00}
P25 = AHEAD_25 | {"line 1 pension": 100_00}
P4 = FOUR_LINES | {f"line {i} pension": 100_00 for i in LINES}
P50 = AGED_50 | {"line 1 pension": 100_00}
OPTANT_P50 = OPTANT_50 | {"line 1 pension": 100_00}
P54_PAID = paid("1,805.00", pension="1,805.00")
P25_PAID = paid("927.00", pension="927.00")
P4_PAID = paid("3,880.00", pension="3,880.00")
P50_PAID = paid("1,284.00", pension="1,284.00")


def lines_up_to(count):
    """P4 with its first lines only."""
    past = {name: EMPTY[name] for name in FIELDS for i in LINES[count:] if name.startswith(f"line {i} ")}
    return P4 | past | {"count": count}


# One change for each refusal, in the order in which they are tested; any of them may be made together but 11 and 12 of
# kinds 1 and 3, which are both of age.
KIND_1_FAULTS = {
    3: {"count": 2},
    4: {"own contributions": 1},
    5: {"case number": 0},
    6: {"leaving": (2021, 6, 2)},
    7: {"status": 2},
    8: {"receiving scheme": 2},
    9: {"months": 2},
    11: {"birth": (1961, 6, 1)},
    10: {"flags": 2, "state pension date": (2016, 4, 5)},
    12: {"birth": (2000, 1, 1)},
    13: {"line 1 Scheme Pays lump sum": 1},
    14: {"line 1 modification": 200_00},
    16: {"line 1 debit pension": 100_01},
}
KIND_2_FAULTS = {
    3: {"count": 5},
    4: {"line 4 lump sum": 1},
    5: {"case number": 0},
    6: {"leaving": (2020, 5, 11)},
    17: {"line 2 date": (2043, 5, 10)},
    7: {"status": 2},
    8: {"receiving scheme": 2},
    9: {"months": 2},
    11: {"line 4 date": (2020, 5, 10)},
    10: {"flags": 2, "state pension date": (2016, 4, 5)},
    12: {"line 1 date": (2070, 5, 11)},
    13: {"line 3 Scheme Pays": 100_01},
    16: {"line 3 debit pension": 500_00},
}
KIND_3_FAULTS = {
    3: {"count": 2},
    4: {"line 1 lump sum": 1},
    5: {"sex": 0},
    6: {"leaving": (2020, 5, 11)},
    7: {"status": 2},
    8: {"receiving scheme": 2},
    9: {"months": 2},
    11: {"birth": (1955, 5, 10)},
    10: {"flags": 2, "state pension date": (2016, 4, 5)},
    12: {"birth": (2002, 5, 11)},
    13: {"line 1 Scheme Pays": 100_01},
    14: {"line 1 modification": 200_00},
    16: {"line 1 debit pension": 100_01},
}
OPTANT_FAULTS = KIND_3_FAULTS | {
    3: {"kind": 4},
    4: {"line 1 date": (2035, 5, 10)},
    5: {"sex": 3},
    10: {"flags": 6, "state pension date": (2016, 4, 5)},
    13: {"line 1 Scheme Pays lump sum": 1},
    16: {"line 1 debit lump sum": 1_900_00},
}

DEBIT_OF_ALL = {"line 1 debit pension": 100_00}  # of P54, P25 and P50

OF_CHOICE_OPTANTS = ("lump sum", "Scheme Pays lump sum", "debit lump sum")
