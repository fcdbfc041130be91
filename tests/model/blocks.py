"""The bytes of a case, by the table of fields. Numbers stand low byte first.

What shows a wrong check: the sums that tests/reading states by hand.
"""

import operator
import struct

from .fields import BLOCK, CHECK, FIELDS, UNNAMED


def bytes_of(value, width):
    """A number, or a date, in so many bytes."""
    if isinstance(value, tuple):
        value = int.from_bytes(struct.pack("<HBB", *value), "little")
    return value.to_bytes(width, "little")


def encoded(case):
    """The 512 bytes of a case, its check still zero. Fields that it does not have are zero."""
    block = bytearray(BLOCK)
    for name, value in case.items():
        offset, width, _ = FIELDS[name]
        block[offset : offset + width] = bytes_of(value, width)
    return block


def decoded(block):
    """The case in a block, whatever its bytes are."""
    case = {}
    for name, (offset, width, is_date) in FIELDS.items():
        part = block[offset : offset + width]
        case[name] = struct.unpack("<HBB", part) if is_date else int.from_bytes(part, "little")
    return case


def unnamed(block):
    """The bytes that no field names."""
    return bytes(block[position] for position in UNNAMED)


def check_of(block):
    """The check that the bytes before it ask for: each times its position and one."""
    return sum(map(operator.mul, range(1, CHECK + 1), block))


def check_in(block):
    return int.from_bytes(block[CHECK:], "little")


def with_check(block, check):
    return bytes(block[:CHECK]) + check.to_bytes(BLOCK - CHECK, "little")


def sealed(block):
    """The same block with the check that its bytes ask for."""
    return with_check(block, check_of(block))


def block_of(case):
    return sealed(encoded(case))
