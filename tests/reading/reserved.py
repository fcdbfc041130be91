"""Refusal 4: what must be zero."""

from cases import (
    EXAMPLE_A, EXAMPLE_B, EXAMPLE_C, EXAMPLE_D, KIND_1, KIND_1_NO_GMP, KIND_2, KIND_2_NO_FLAGS, KIND_2_NO_GMP,
    KIND_2_NO_TRANSFER, KIND_3, KIND_3_CASES, KIND_3_NO_GMP, NOT_OPTANT, NOT_OPTANT_NO_GMP, OF_CHOICE_OPTANTS,
    kind_2_of, without_divorce,
)
from making import FAULTS, READ, group, vector
from model import fields
from model.fields import DIVORCE_DEBITS, FIELDS, LINES, OF_A_LINE
from model.rules import LIMIT

# By hand: a wrong offset or width in the table of fields shows here.
UNNAMED = [(2, 3), (15, 15), (36, 39), (68, 71), (140, 143), (212, 215), (284, 287), (448, 507)]


def unnamed_bytes():
    group("4 unnamed bytes")
    if [position for first, last in UNNAMED for position in range(first, last + 1)] != fields.UNNAMED:
        FAULTS.append("the bytes that no field names are not those of the table of fields")
    for first, last in UNNAMED:
        for position in range(first, last + 1):
            bit = 1 << position % 8
            vector(f"kind 2, byte {position}, bit {bit}", 4, KIND_2, put={position: bit})
    for first, last in UNNAMED:
        for position in sorted({first, last}):
            vector(f"kind 1, byte {position}, 255", 4, KIND_1, put={position: 255})
            vector(f"kind 3, byte {position}, 255", 4, KIND_3, put={position: 255})
            vector(f"kind 3, not a Choice Optant, byte {position}, 1", 4, NOT_OPTANT, put={position: 1})
    every = {position: 255 for first, last in UNNAMED for position in range(first, last + 1)}
    vector("kind 1, every unnamed byte 255", 4, KIND_1, put=every)
    vector("kind 3, every unnamed byte 255", 4, KIND_3, put=every)


def sex():
    """Byte 14 is named and byte 15 is not."""
    group("4 and 5 sex")
    others = [("kind 1", KIND_1), ("kind 1 without GMP", KIND_1_NO_GMP)]
    others += [(f"kind 2, lines {count}", kind_2_of(count)) for count in (1, 4)]
    others += [("kind 2 without flags", KIND_2_NO_FLAGS)]
    for label, base in others:
        for code in (1, 2, 3, 64, 255):
            vector(f"{label}, sex {code}", 4, base, {"sex": code})
    for label, base in KIND_3_CASES.items():
        for code in (0, 3, 4, 129, 130, 255):
            vector(f"{label}, sex {code}", 5, base, {"sex": code})
        for byte in (1, 2, 128, 255):
            vector(f"{label}, byte 15, {byte}", 4, base, put={15: byte})
        vector(f"{label}, the sex in byte 15", 4, base, {"sex": 0}, put={15: 1})
    for label, base in (("kind 1", KIND_1), ("kind 2", KIND_2)):
        for byte in (1, 2, 128):
            vector(f"{label}, byte 15, {byte}", 4, base, put={15: byte})
    vector("kind 1, bytes 14 and 15, 255", 4, KIND_1, {"sex": 255}, put={15: 255})


def divorce_bytes():
    """Bytes 352 to 447 set one at a time in cases without a divorce debit, and some together."""
    group("divorce debits, byte by byte")
    one, two = without_divorce(KIND_1), without_divorce(KIND_2)
    optant, not_optant = without_divorce(KIND_3), without_divorce(NOT_OPTANT)
    position = 351
    for line in LINES:
        for name in DIVORCE_DEBITS:
            for place in range(8):
                position += 1
                # Bit 0 of byte 0, bit 1 of byte 1 and so on: 2^27 is in range, 2^36 is not.
                label = f"byte {position}, bit {1 << place}"
                put_in = {f"line {line} {name}": 2 ** (9 * place)}
                in_reach = READ if place < 4 else 5
                vector(f"kind 1, {label}", in_reach if line == 1 else 4, one, put_in)
                vector(f"kind 2, {label}", 4 if name == "debit lump sum" else in_reach, two, put_in)
                vector(f"kind 3, Choice Optant, {label}", in_reach if line == 1 else 4, optant, put_in)
                open_to_all = line == 1 and name != "debit lump sum"
                vector(f"kind 3, {label}", in_reach if open_to_all else 4, not_optant, put_in)
    vector("kind 1, byte 352, 255", READ, one, {"line 1 debit pension": 255})
    vector("kind 2, byte 352 and status 5", 5, two, {"line 1 debit pension": 1, "status": 5})
    spans = [("352 to 375", 376, 5, 4), ("352 to 447", 448, 4, 4), ("352 to 507", 508, 4, 4)]
    for label, end, in_kind_1, in_kind_2 in spans:
        put = {position: 255 for position in range(352, end)}
        vector(f"kind 1, bytes {label}, 255", in_kind_1, one, put=put)
        vector(f"kind 2, bytes {label}, 255", in_kind_2, two, put=put)
        vector(f"kind 3, Choice Optant, bytes {label}, 255", in_kind_1, optant, put=put)
        vector(f"kind 3, bytes {label}, 255", in_kind_2, not_optant, put=put)


def flag_bits():
    group("4 flag bits")
    for bit in (4, 8, 16, 32, 64, 128):
        vector(f"kind 1, flag {bit} with GMP", 4, KIND_1, {"flags": 2 + bit})
        vector(f"kind 1, flag {bit} alone", 4, KIND_1_NO_GMP, {"flags": bit})
        vector(f"kind 2, flag {bit} with both", 4, KIND_2, {"flags": 3 + bit})
        vector(f"kind 2, flag {bit} alone", 4, KIND_2_NO_FLAGS, {"flags": bit})
    vector("kind 1, transfer flag with GMP", 4, KIND_1, {"flags": 3})
    vector("kind 1, transfer flag without GMP", 4, KIND_1_NO_GMP, {"flags": 1})
    paid_in = {"transfer-in": 1}
    vector("kind 1, transfer flag and payment, GMP", 4, KIND_1, {"flags": 3} | paid_in)
    vector("kind 1, transfer flag and payment", 4, KIND_1_NO_GMP, {"flags": 1} | paid_in)
    vector("kind 1, flags 255", 4, KIND_1, {"flags": 255})
    vector("kind 2, flags 255", 4, KIND_2, {"flags": 255})
    vector("kind 1, flag 4 with a sex", 4, KIND_1, {"flags": 6, "sex": 1})
    vector("kind 2, one line, flag 4", 4, kind_2_of(1), {"flags": 7})
    for label, base in KIND_3_CASES.items():
        for bit in (8, 16, 32, 64, 128):
            vector(f"{label}, flag {bit}", 4, base, {"flags": base["flags"] + bit})
        transfer = {"flags": base["flags"] + 1}
        vector(f"{label}, transfer flag", 4, base, transfer)
        vector(f"{label}, transfer flag and payment", 4, base, transfer | paid_in)
        vector(f"{label}, transfer flag, payment and own contributions", 4, base, transfer | paid_in | {"own contributions": 1})
        vector(f"{label}, flags 255", 4, base, {"flags": 255})


def each_byte_set(label, base, name):
    """Each byte of a field that must be zero, set alone."""
    offset = FIELDS[name].offset
    for place in range(FIELDS[name].width):
        bit = 1 << place
        vector(f"{label}, {name}, byte {place}", 4, base, put={offset + place: bit})


def first_and_last_byte_set(label, base, name):
    offset = FIELDS[name].offset
    vector(f"{label}, {name}, first byte", 4, base, put={offset: 1})
    vector(f"{label}, {name}, last byte", 4, base, put={offset + FIELDS[name].width - 1: 128})


def without_their_flag():
    group("4 without their flag")
    each_byte_set("kind 1 without GMP", KIND_1_NO_GMP, "state pension date")
    each_byte_set("kind 2 without GMP", KIND_2_NO_GMP, "state pension date")
    each_byte_set("kind 2 without flags", KIND_2_NO_FLAGS, "state pension date")
    real = {"state pension date": (2035, 6, 7)}
    vector("kind 1 without GMP, state pension date real", 4, KIND_1_NO_GMP, real)
    vector("kind 2 without GMP, state pension date real", 4, KIND_2_NO_GMP, real)
    each_byte_set("kind 2 without transfer flag", KIND_2_NO_TRANSFER, "transfer-in")
    first_and_last_byte_set("kind 2 without flags", KIND_2_NO_FLAGS, "transfer-in")
    first_and_last_byte_set("kind 1", KIND_1, "transfer-in")
    first_and_last_byte_set("kind 1 without GMP", KIND_1_NO_GMP, "transfer-in")
    for label, base in KIND_3_CASES.items():
        each_byte_set(label, base, "transfer-in")
        if not base["flags"] & 2:
            each_byte_set(label, base, "state pension date")
            vector(f"{label}, state pension date real", 4, base, real)
    for name in OF_CHOICE_OPTANTS:
        each_byte_set("kind 3", NOT_OPTANT, name)
        each_byte_set("kind 3 without GMP", NOT_OPTANT_NO_GMP, name)
        for pence in (2, LIMIT, LIMIT + 1, 2**64 - 1):
            vector(f"kind 3, {name} {pence}", 4, NOT_OPTANT, {name: pence})
        vector(f"kind 3, a Choice Optant's {name} without the flag", 4, KIND_3, {"flags": 2} | {
            other: 0 for other in OF_CHOICE_OPTANTS if other != name
        })
    vector("kind 3, a Choice Optant's case without the flag", 4, KIND_3, {"flags": 2})
    vector("kind 3, a Choice Optant's case without GMP and without the flag", 4, KIND_3_NO_GMP, {"flags": 0})
    vector("001, Example D without the flag", 4, EXAMPLE_D, {"flags": 0})
    vector("a kind 1 case as kind 3", 4, KIND_1, {"kind": 3})
    vector("a kind 1 case as kind 3, with a sex", 4, KIND_1, {"kind": 3, "sex": 1})
    vector("a kind 1 case as kind 3, with flag 4", 5, KIND_1, {"kind": 3, "flags": 6})


def must_be_zero_by_kind():
    group("4 in kind 1")
    each_byte_set("kind 1", KIND_1, "own contributions")
    each_byte_set("kind 1", KIND_1, "line 1 date")
    vector("kind 1, line's date real", 4, KIND_1, {"line 1 date": (2027, 6, 1)})
    vector("a kind 2 case as kind 1", 4, kind_2_of(1), {"kind": 1})
    vector("003, Example B as kind 1", 4, EXAMPLE_B, {"kind": 1})

    group("4 in kind 2")
    for name in ("lump sum", "modification", "Scheme Pays lump sum", "debit lump sum"):
        each_byte_set("kind 2", KIND_2, f"line 1 {name}")
        for line in (2, 3):
            first_and_last_byte_set("kind 2", KIND_2, f"line {line} {name}")
        each_byte_set("kind 2", KIND_2, f"line 4 {name}")
        first_and_last_byte_set("kind 2, one line", kind_2_of(1), f"line 1 {name}")
    for name in ("additional pension", "dependant's additional"):
        for line in (2, 3, 4):
            each_byte_set("kind 2", KIND_2, f"line {line} {name}")
    vector("a kind 1 case as kind 2", 4, KIND_1, {"kind": 2})
    vector("001, Example A as kind 2", 4, EXAMPLE_A, {"kind": 2})

    group("4 in kind 3")
    for label, base in KIND_3_CASES.items():
        each_byte_set(label, base, "own contributions")
        each_byte_set(label, base, "line 1 date")
        vector(f"{label}, line's date real", 4, base, {"line 1 date": (2031, 8, 23)})
        for name in ("transfer-in", "own contributions"):
            for pence in (2, LIMIT, LIMIT + 1, 2**64 - 1):
                vector(f"{label}, {name} {pence}", 4, base, {name: pence})
    vector("a kind 2 case as kind 3", 4, kind_2_of(1), {"kind": 3})
    vector("a kind 2 case as kind 3, with a sex", 4, kind_2_of(1), {"kind": 3, "sex": 2})
    vector("003, Example B as kind 3, with a sex", 4, EXAMPLE_B, {"kind": 3, "sex": 2})
    vector("001, Example C as kind 1", 4, EXAMPLE_C, {"kind": 1})
    vector("001, Example C as kind 2", 4, EXAMPLE_C, {"kind": 2})
    vector("001, Example D as kind 1", 4, EXAMPLE_D, {"kind": 1})
    vector("001, Example D as kind 1, without a sex", 4, EXAMPLE_D, {"kind": 1, "sex": 0})


def lines_past_the_count():
    group("4 lines past the count")
    cases = [("kind 1", KIND_1, 1), ("kind 3", KIND_3, 1), ("kind 3, not a Choice Optant", NOT_OPTANT, 1)]
    cases += [(f"kind 2, count {count}", kind_2_of(count), count) for count in (1, 2, 3)]
    for label, base, count in cases:
        for line in range(count + 1, 5):
            for name in OF_A_LINE:
                first_and_last_byte_set(label, base, f"line {line} {name}")
            real = {f"line {line} date": (2044, 2, 18)}
            vector(f"{label}, line {line} date real", 4, base, real)
    vector("kind 2, four lines counted as three", 4, KIND_2, {"count": 3})
    vector("kind 2, four lines counted as one", 4, KIND_2, {"count": 1})
