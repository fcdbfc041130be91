"""The fields of the case block, in block order: the one table of where each stands, and a case by their names.

A case is a dictionary of the fields' values; a date in it is a triple of year, month and day.

What shows a wrong row, all of it written by hand in tests/reading: for the order of the names, the lines expected of whole cases
(KIND_1_TEXT and the others); for offsets and widths, the list of the bytes that no field names (UNNAMED), bytes put at stated
positions, and numbers that fill their fields. The library then reads the same blocks (crates/blocks_check).
"""

import typing

BLOCK = 512
CHECK = 508  # where the check stands, in the last four bytes
DATE = "date"  # in place of a width: 16 bits of year, a byte of month, a byte of day
LINES = (1, 2, 3, 4)

HEAD = [
    ("kind", 0, 2),
    ("case number", 4, 4),
    ("status", 8, 1),
    ("receiving scheme", 9, 1),
    ("flags", 10, 1),
    ("count", 11, 1),
    ("months", 12, 2),
    ("sex", 14, 1),
    ("birth", 16, DATE),
    ("leaving", 20, DATE),
    ("guarantee", 24, DATE),
    ("state pension date", 28, DATE),
    ("revaluation", 32, 4),
    ("AVC", 40, 8),
    ("transfer-in", 48, 8),
    ("own contributions", 56, 8),
]
# From the start of each line.
LINE_STARTS = (64, 136, 208, 280)
LINE = [
    ("date", 0, DATE),
    ("pension", 8, 8),
    ("additional pension", 16, 8),
    ("survivor", 24, 8),
    ("dependant's additional", 32, 8),
    ("lump sum", 40, 8),
    ("modification", 48, 8),
    ("Scheme Pays", 56, 8),
    ("Scheme Pays lump sum", 64, 8),
]
# The divorce debits stand after the four lines, line by line.
DIVORCE_STARTS = (352, 376, 400, 424)
DIVORCE = [
    ("debit pension", 0, 8),
    ("debit survivor", 8, 8),
    ("debit lump sum", 16, 8),
]

# Bits of the flags, and codes of the sex.
TRANSFER, GMP, CHOICE_OPTANT = 1, 2, 4
MALE, FEMALE = 1, 2


class Field(typing.NamedTuple):
    offset: int
    width: int
    is_date: bool


def table():
    """Every field but the check, by name."""
    rows = list(HEAD)
    for starts, group in ((LINE_STARTS, LINE), (DIVORCE_STARTS, DIVORCE)):
        for line, start in zip(LINES, starts):
            rows += [(f"line {line} {name}", start + offset, width) for name, offset, width in group]
    return {name: Field(offset, 4 if width == DATE else width, width == DATE) for name, offset, width in rows}


def gaps():
    """The positions before the check that no field names. Fields that overlap or are out of block order stop every script."""
    positions, end = [], 0
    for name, field in FIELDS.items():
        if field.offset < end:
            raise ValueError(f"{name}: overlaps the field before it, or out of block order")
        positions += range(end, field.offset)
        end = field.offset + field.width
    return positions + list(range(end, CHECK))


FIELDS = table()
UNNAMED = gaps()
AMOUNTS = [name for name, _, width in LINE if width == 8]  # of a line
DIVORCE_DEBITS = [name for name, _, _ in DIVORCE]
OF_A_LINE = ["date"] + AMOUNTS + DIVORCE_DEBITS
MONEY = [name for name, field in FIELDS.items() if field.width == 8]  # every amount of the block, in pence

NO_DATE = (0, 0, 0)
EMPTY = {name: NO_DATE if field.is_date else 0 for name, field in FIELDS.items()}


def lines_of(case):
    """The lines within the count, each by the names of its fields."""
    return [{name: case[f"line {line} {name}"] for name in OF_A_LINE} for line in LINES[: case["count"]]]
