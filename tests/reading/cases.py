"""The cases that the vectors start from, with the lines expected of them written by hand."""

from making import FAULTS
from model.examples import A_001, B_003, C_001, D_001
from model.fields import DIVORCE_DEBITS, EMPTY, FIELDS, LINES, NO_DATE

KIND_1 = EMPTY | {
    "kind": 1,
    "case number": 4275878552,
    "status": 4,
    "receiving scheme": 3,
    "flags": 2,
    "count": 1,
    "months": 51383,
    "birth": (1951, 12, 30),
    "leaving": (2011, 4, 9),
    "guarantee": (2019, 11, 28),
    "state pension date": (2015, 7, 21),
    "revaluation": 99991,
    "AVC": 683793287,
    "line 1 pension": 922206093,
    "line 1 additional pension": 984128735,
    "line 1 survivor": 532668826,
    "line 1 dependant's additional": 633308087,
    "line 1 lump sum": 466071267,
    "line 1 modification": 194159601,
    "line 1 Scheme Pays": 161579137,
    "line 1 Scheme Pays lump sum": 332444340,
    "line 1 debit pension": 764454088,
    "line 1 debit survivor": 565355461,
    "line 1 debit lump sum": 818591378,
}
KIND_1_TEXT = """
    1 4275878552 4 3 2 1 51383 0 1951-12-30 2011-4-9 2019-11-28 2015-7-21 99991
    683793287 0 0
    0-0-0 922206093 984128735 532668826 633308087 466071267 194159601 161579137 332444340
    0-0-0 0 0 0 0 0 0 0 0
    0-0-0 0 0 0 0 0 0 0 0
    0-0-0 0 0 0 0 0 0 0 0
    764454088 565355461 818591378 0 0 0 0 0 0 0 0 0
"""
KIND_1_NO_GMP = KIND_1 | {"flags": 0, "state pension date": NO_DATE}

KIND_2 = EMPTY | {
    "kind": 2,
    "case number": 4260141991,
    "status": 1,
    "receiving scheme": 2,
    "flags": 3,
    "count": 4,
    "months": 59860,
    "birth": (1979, 7, 3),
    "leaving": (2016, 10, 14),
    "guarantee": (2021, 12, 1),
    "state pension date": (2046, 5, 29),
    "revaluation": 98765,
    "AVC": 213050060,
    "transfer-in": 48032426,
    "own contributions": 180588756,
    "line 1 date": (2047, 8, 27),
    "line 1 pension": 343987856,
    "line 1 additional pension": 349884155,
    "line 1 survivor": 768651259,
    "line 1 dependant's additional": 531467969,
    "line 1 Scheme Pays": 47966084,
    "line 2 date": (2045, 1, 6),
    "line 2 pension": 619437536,
    "line 2 survivor": 646116235,
    "line 2 Scheme Pays": 783200926,
    "line 3 date": (2044, 2, 18),
    "line 3 pension": 834598616,
    "line 3 survivor": 567984374,
    "line 3 Scheme Pays": 132041609,
    "line 4 date": (2042, 9, 11),
    "line 4 pension": 479704535,
    "line 4 survivor": 568108503,
    "line 4 Scheme Pays": 311939025,
    "line 1 debit pension": 636144558,
    "line 1 debit survivor": 198154894,
    "line 2 debit pension": 233828494,
    "line 2 debit survivor": 971870148,
    "line 3 debit pension": 969576905,
    "line 3 debit survivor": 936748248,
    "line 4 debit pension": 798744245,
    "line 4 debit survivor": 932303552,
}
KIND_2_HEAD = "2 4260141991 1 2 3"
KIND_2_MIDDLE = """
    59860 0 1979-7-3 2016-10-14 2021-12-1 2046-5-29 98765
    213050060 48032426 180588756
"""
KIND_2_LINES = [
    " 2047-8-27 343987856 349884155 768651259 531467969 0 0 47966084 0",
    " 2045-1-6 619437536 0 646116235 0 0 0 783200926 0",
    " 2044-2-18 834598616 0 567984374 0 0 0 132041609 0",
    " 2042-9-11 479704535 0 568108503 0 0 0 311939025 0",
]
NO_LINE_TEXT = " 0-0-0 0 0 0 0 0 0 0 0"
KIND_2_DIVORCE = [
    " 636144558 198154894 0",
    " 233828494 971870148 0",
    " 969576905 936748248 0",
    " 798744245 932303552 0",
]
NO_DIVORCE_TEXT = " 0 0 0"


def without_divorce(base):
    """The case with no divorce debits."""
    return base | {f"line {line} {name}": 0 for line in LINES for name in DIVORCE_DEBITS}


def kind_2_of(count):
    """KIND_2 with its first lines only."""
    past = {
        name: EMPTY[name]
        for name in FIELDS
        for line in range(count + 1, 5)
        if name.startswith(f"line {line} ")
    }
    return KIND_2 | past | {"count": count}


KIND_2_NO_GMP = KIND_2 | {"flags": 1, "state pension date": NO_DATE}
KIND_2_NO_TRANSFER = KIND_2 | {"flags": 2, "transfer-in": 0}
KIND_2_NO_FLAGS = KIND_2_NO_GMP | {"flags": 0, "transfer-in": 0}

# A Choice Optant: the lump sum, its Scheme Pays and its divorce debit may be filled.
KIND_3 = EMPTY | {
    "kind": 3,
    "case number": 2226377382,
    "status": 3,
    "receiving scheme": 1,
    "flags": 6,
    "count": 1,
    "months": 47573,
    "sex": 2,
    "birth": (1966, 8, 23),
    "leaving": (2013, 5, 17),
    "guarantee": (2022, 10, 31),
    "state pension date": (2033, 9, 25),
    "revaluation": 97531,
    "AVC": 965649382,
    "line 1 pension": 163818375,
    "line 1 additional pension": 989431511,
    "line 1 survivor": 848996759,
    "line 1 dependant's additional": 768783509,
    "line 1 lump sum": 851551959,
    "line 1 modification": 466523581,
    "line 1 Scheme Pays": 618579450,
    "line 1 Scheme Pays lump sum": 196933853,
    "line 1 debit pension": 451393247,
    "line 1 debit survivor": 619701752,
    "line 1 debit lump sum": 48954284,
}
KIND_3_TEXT = """
    3 2226377382 3 1 6 1 47573 2 1966-8-23 2013-5-17 2022-10-31 2033-9-25 97531
    965649382 0 0
    0-0-0 163818375 989431511 848996759 768783509 851551959 466523581 618579450 196933853
    0-0-0 0 0 0 0 0 0 0 0
    0-0-0 0 0 0 0 0 0 0 0
    0-0-0 0 0 0 0 0 0 0 0
    451393247 619701752 48954284 0 0 0 0 0 0 0 0 0
"""
KIND_3_NO_GMP = KIND_3 | {"flags": 4, "state pension date": NO_DATE}
# What only a Choice Optant may hold.
OF_CHOICE_OPTANTS = ("line 1 lump sum", "line 1 Scheme Pays lump sum", "line 1 debit lump sum")
NOT_OPTANT = KIND_3 | {"flags": 2} | {name: 0 for name in OF_CHOICE_OPTANTS}
NOT_OPTANT_NO_GMP = NOT_OPTANT | {"flags": 0, "state pension date": NO_DATE}
KIND_3_CASES = {
    "kind 3, Choice Optant": KIND_3,
    "kind 3, Choice Optant without GMP": KIND_3_NO_GMP,
    "kind 3": NOT_OPTANT,
    "kind 3 without GMP": NOT_OPTANT_NO_GMP,
}

# Of the notes.
EXAMPLE_A, EXAMPLE_B, EXAMPLE_D = A_001, B_003, D_001
EXAMPLE_C = C_001 | {"case number": 3}
EXAMPLE_A_TEXT = """
    1 1 1 1 0 1 120 0 1967-6-1 2012-4-1 2020-2-1 0-0-0 11400 0 0 0
    0-0-0 500000 100000 250000 37500 1500000 2000 0 0
    0-0-0 0 0 0 0 0 0 0 0
    0-0-0 0 0 0 0 0 0 0 0
    0-0-0 0 0 0 0 0 0 0 0
    0 0 0 0 0 0 0 0 0 0 0 0
"""
EXAMPLE_B_TEXT = """
    2 2 1 1 0 1 29 0 1977-8-7 2017-9-1 2020-12-1 0-0-0 10660 0 0 0
    2045-1-6 250000 0 84375 0 0 0 0 0
    0-0-0 0 0 0 0 0 0 0 0
    0-0-0 0 0 0 0 0 0 0 0
    0-0-0 0 0 0 0 0 0 0 0
    0 0 0 0 0 0 0 0 0 0 0 0
"""
EXAMPLE_C_TEXT = """
    3 3 1 1 0 1 120 2 1957-4-1 2015-10-1 2020-10-1 0-0-0 10520 0 0 0
    0-0-0 250000 0 93800 0 0 0 0 0
    0-0-0 0 0 0 0 0 0 0 0
    0-0-0 0 0 0 0 0 0 0 0
    0-0-0 0 0 0 0 0 0 0 0
    0 0 0 0 0 0 0 0 0 0 0 0
"""
EXAMPLE_D_TEXT = """
    3 3 1 1 4 1 120 1 1969-5-1 2012-4-1 2020-1-1 0-0-0 11700 0 0 0
    0-0-0 1087500 0 506300 0 3150000 0 0 0
    0-0-0 0 0 0 0 0 0 0 0
    0-0-0 0 0 0 0 0 0 0 0
    0-0-0 0 0 0 0 0 0 0 0
    0 0 0 0 0 0 0 0 0 0 0 0
"""

CASES = {"kind 1": KIND_1, "kind 2": KIND_2, "kind 3": KIND_3}

# Amounts that may be other than zero, each with a case that holds it.
AMOUNTS = [
    ("kind 1", KIND_1, "AVC"),
    ("kind 1", KIND_1, "line 1 pension"),
    ("kind 1", KIND_1, "line 1 additional pension"),
    ("kind 1", KIND_1, "line 1 survivor"),
    ("kind 1", KIND_1, "line 1 dependant's additional"),
    ("kind 1", KIND_1, "line 1 lump sum"),
    ("kind 1", KIND_1, "line 1 modification"),
    ("kind 1", KIND_1, "line 1 Scheme Pays"),
    ("kind 1", KIND_1, "line 1 Scheme Pays lump sum"),
    ("kind 1", KIND_1, "line 1 debit pension"),
    ("kind 1", KIND_1, "line 1 debit survivor"),
    ("kind 1", KIND_1, "line 1 debit lump sum"),
    ("kind 2", KIND_2, "AVC"),
    ("kind 2", KIND_2, "transfer-in"),
    ("kind 2", KIND_2, "own contributions"),
    ("kind 2", KIND_2, "line 1 pension"),
    ("kind 2", KIND_2, "line 1 additional pension"),
    ("kind 2", KIND_2, "line 1 survivor"),
    ("kind 2", KIND_2, "line 1 dependant's additional"),
    ("kind 2", KIND_2, "line 1 Scheme Pays"),
    ("kind 2", KIND_2, "line 2 pension"),
    ("kind 2", KIND_2, "line 2 survivor"),
    ("kind 2", KIND_2, "line 2 Scheme Pays"),
    ("kind 2", KIND_2, "line 3 pension"),
    ("kind 2", KIND_2, "line 3 survivor"),
    ("kind 2", KIND_2, "line 3 Scheme Pays"),
    ("kind 2", KIND_2, "line 4 pension"),
    ("kind 2", KIND_2, "line 4 survivor"),
    ("kind 2", KIND_2, "line 4 Scheme Pays"),
    ("kind 2", KIND_2, "line 1 debit pension"),
    ("kind 2", KIND_2, "line 1 debit survivor"),
    ("kind 2", KIND_2, "line 2 debit pension"),
    ("kind 2", KIND_2, "line 2 debit survivor"),
    ("kind 2", KIND_2, "line 3 debit pension"),
    ("kind 2", KIND_2, "line 3 debit survivor"),
    ("kind 2", KIND_2, "line 4 debit pension"),
    ("kind 2", KIND_2, "line 4 debit survivor"),
    ("kind 3", KIND_3, "AVC"),
    ("kind 3", KIND_3, "line 1 pension"),
    ("kind 3", KIND_3, "line 1 additional pension"),
    ("kind 3", KIND_3, "line 1 survivor"),
    ("kind 3", KIND_3, "line 1 dependant's additional"),
    ("kind 3", KIND_3, "line 1 lump sum"),
    ("kind 3", KIND_3, "line 1 modification"),
    ("kind 3", KIND_3, "line 1 Scheme Pays"),
    ("kind 3", KIND_3, "line 1 Scheme Pays lump sum"),
    ("kind 3", KIND_3, "line 1 debit pension"),
    ("kind 3", KIND_3, "line 1 debit survivor"),
    ("kind 3", KIND_3, "line 1 debit lump sum"),
]

# Dates that must be real days, each with a case that holds it.
DATES = [
    ("kind 1", KIND_1, "birth"),
    ("kind 1", KIND_1, "leaving"),
    ("kind 1", KIND_1, "guarantee"),
    ("kind 1", KIND_1, "state pension date"),
    ("kind 2", KIND_2, "state pension date"),
    ("kind 2", KIND_2, "line 1 date"),
    ("kind 2", KIND_2, "line 2 date"),
    ("kind 2", KIND_2, "line 3 date"),
    ("kind 2", KIND_2, "line 4 date"),
    ("kind 3", KIND_3, "birth"),
    ("kind 3", KIND_3, "leaving"),
    ("kind 3", KIND_3, "guarantee"),
    ("kind 3", KIND_3, "state pension date"),
]


def wide_values():
    """In the full case of each kind the low three bytes of each amount are above 127; no two are equal."""
    for label, base in CASES.items():
        held = [base[name] for at, _, name in AMOUNTS if at == label]
        if len(set(held)) != len(held):
            FAULTS.append(f"{label}: two amounts are equal")
        for value in held:
            if min(value.to_bytes(8, "little")[:3]) < 128:
                FAULTS.append(f"{label}: amount {value} has a low byte below 128")
