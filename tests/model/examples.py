"""The worked examples of 001 and 003, in pence. The notes give no length of service."""

from .fields import CHOICE_OPTANT, EMPTY, FEMALE, MALE

# Deferred, to a defined benefit scheme, one line.
DEFERRED = EMPTY | {"status": 1, "receiving scheme": 1, "count": 1, "months": 120}

A_001 = DEFERRED | {
    "kind": 1,
    "case number": 1,
    "birth": (1967, 6, 1),
    "leaving": (2012, 4, 1),
    "guarantee": (2020, 2, 1),
    "revaluation": 11_400,
    "line 1 pension": 5_000_00,
    "line 1 additional pension": 1_000_00,
    "line 1 survivor": 2_500_00,
    "line 1 dependant's additional": 375_00,
    "line 1 lump sum": 15_000_00,
    "line 1 modification": 20_00,
}

# Examples B to D are of the 2008 section. B is 34 by his dates; the note takes him to be 35, as if born a year earlier.
B_001 = DEFERRED | {
    "kind": 3,
    "case number": 11,
    "sex": MALE,
    "birth": (1984, 11, 1),
    "leaving": (2012, 4, 1),
    "guarantee": (2019, 10, 1),
    "revaluation": 10_520,
    "line 1 pension": 2_500_00,
    "line 1 survivor": 938_00,
}

C_001 = DEFERRED | {
    "kind": 3,
    "case number": 12,
    "sex": FEMALE,
    "birth": (1957, 4, 1),
    "leaving": (2015, 10, 1),
    "guarantee": (2020, 10, 1),
    "revaluation": 10_520,
    "line 1 pension": 2_500_00,
    "line 1 survivor": 938_00,
}

D_001 = DEFERRED | {
    "kind": 3,
    "case number": 3,
    "flags": CHOICE_OPTANT,
    "sex": MALE,
    "birth": (1969, 5, 1),
    "leaving": (2012, 4, 1),
    "guarantee": (2020, 1, 1),
    "revaluation": 11_700,
    "line 1 pension": 10_875_00,
    "line 1 survivor": 5_063_00,
    "line 1 lump sum": 31_500_00,
}

A_003 = DEFERRED | {
    "kind": 2,
    "case number": 31,
    "months": 12,
    "birth": (1966, 6, 1),
    "leaving": (2016, 4, 1),
    "guarantee": (2019, 2, 1),
    "revaluation": 10_496,
    "line 1 date": (2033, 6, 1),
    "line 1 pension": 5_000_00,
    "line 1 additional pension": 1_000_00,
    "line 1 survivor": 1_687_50,
    "line 1 dependant's additional": 375_00,
}

# With the date of leaving that stands by itself; the guarantee date is also called that of leaving.
B_003 = DEFERRED | {
    "kind": 2,
    "case number": 2,
    "months": 29,
    "birth": (1977, 8, 7),
    "leaving": (2017, 9, 1),
    "guarantee": (2020, 12, 1),
    "revaluation": 10_660,
    "line 1 date": (2045, 1, 6),
    "line 1 pension": 2_500_00,
    "line 1 survivor": 843_75,
}

C_003 = DEFERRED | {
    "kind": 2,
    "case number": 33,
    "months": 7,
    "birth": (1952, 11, 1),
    "leaving": (2015, 11, 1),
    "guarantee": (2016, 2, 1),
    "revaluation": 10_496,
    "line 1 date": (2017, 11, 1),
    "line 1 pension": 3_500_00,
    "line 1 survivor": 1_181_25,
}

# Reduced ages 67 and 65. The survivor's pension is 33.75% of each line's pension.
D_003 = DEFERRED | {
    "kind": 2,
    "case number": 34,
    "count": 3,
    "months": 80,
    "birth": (1979, 7, 3),
    "leaving": (2021, 12, 1),
    "guarantee": (2021, 12, 1),
    "revaluation": 10_000,
    "line 1 date": (2047, 7, 3),
    "line 1 pension": 2_000_00,
    "line 1 survivor": 675_00,
    "line 2 date": (2046, 7, 3),
    "line 2 pension": 3_000_00,
    "line 2 survivor": 1_012_50,
    "line 3 date": (2044, 7, 3),
    "line 3 pension": 5_500_00,
    "line 3 survivor": 1_856_25,
}
