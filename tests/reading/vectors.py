#!/usr/bin/env python3
"""Test vectors for reading a case block.

    vectors.py stdin    the records: a 16-bit length, low byte first, and that many bytes
    vectors.py stdout   the line expected for each record, and a last line
    vectors.py list     number, label and stated expectation of each vector

Each vector states its expectation: READ, or the number of the refusal. Where the
model (tests/model) gives another answer, the script stops with exit code 1 before
it writes anything. The vectors stand by subject in the files beside this one.
"""

import pathlib
import sys

sys.dont_write_bytecode = True
sys.path.insert(0, str(pathlib.Path(__file__).resolve().parents[1]))

import accepted
import cases
import length_check_kind
import order
import ranges
import reserved
from making import FAULTS, READ, VECTORS, printed
from model import refusals
from model.blocks import decoded

GROUPS = (
    accepted.accepted, accepted.kind_3, accepted.left_to_valuing,
    length_check_kind.length, length_check_kind.check, length_check_kind.other_sums, length_check_kind.stated_checks,
    length_check_kind.checks_by_words, length_check_kind.check_kept, length_check_kind.kind,
    reserved.unnamed_bytes, reserved.sex, reserved.divorce_bytes, reserved.flag_bits,
    reserved.without_their_flag, reserved.must_be_zero_by_kind, reserved.lines_past_the_count,
    ranges.codes, ranges.revaluation, ranges.amounts, ranges.dates, ranges.zero_dates, ranges.days_of_the_months,
    order.order_1, order.order_2, order.order_3, order.order_4, order.order_in_kind_3, order.order_of_the_sex,
    order.several_ranges,
)


def expectation_text(expectation):
    return READ if expectation == READ else f"{expectation} {refusals.NAMES[expectation]}"


def main():
    commands = ("stdin", "stdout", "list")
    if len(sys.argv) != 2 or sys.argv[1] not in commands:
        sys.stderr.write(f"usage: vectors.py {'|'.join(commands)}\n")
        return 2
    for vectors in GROUPS:
        vectors()
    cases.wide_values()
    if FAULTS:
        sys.stderr.write("".join(f"{fault}\n" for fault in FAULTS))
        return 1
    out = sys.stdout.buffer
    for number, (at, label, expectation, block) in enumerate(VECTORS, start=1):
        if sys.argv[1] == "stdin":
            out.write(len(block).to_bytes(2, "little") + block)
        elif sys.argv[1] == "list":
            out.write(f"{number}\t{at}: {label}\t{expectation_text(expectation)}\n".encode())
        elif expectation == READ:
            out.write(f"{number} read {printed(decoded(block).values())}\n".encode())
        else:
            out.write(f"{number} refused {expectation_text(expectation)}\n".encode())
    return 0


if __name__ == "__main__":
    sys.exit(main())
