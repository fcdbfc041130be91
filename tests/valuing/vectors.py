#!/usr/bin/env python3
"""Test vectors for valuing a case.

    vectors.py stdin    the cases: 64 numbers of 64 bits each, low byte first
    vectors.py stdout   the line expected for each case
    vectors.py list     number, label and stated expectation of each vector

Each vector states its expectation, worked by hand or taken from 01, the two guidance
notes or a change request: the payment with its items, or the number of the refusal.
Where every row of the tables is tried, the table's own figures are stated. Where the
model (tests/model) gives another answer, the script stops with exit code 1 before it
writes anything. The vectors stand by subject in the files beside this one.
"""

import pathlib
import sys

sys.dont_write_bytecode = True
sys.path.insert(0, str(pathlib.Path(__file__).resolve().parents[1]))

import divorce
import entitlement
import form
import order
import papers
import section_2008_form
import section_2008_sum
import sum_of_lines
from making import FAULTS, VECTORS, text
from model.blocks import bytes_of
from model.fields import FIELDS
from tables_2008 import tables_agree

GROUPS = (
    papers.figures_at_the_edges, papers.examples, papers.clerks, papers.every_row,
    form.kind, form.flags, form.reserved_amounts, form.codes, form.amounts, form.days,
    entitlement.dates, entitlement.entitlement, entitlement.ages, entitlement.leap_days,
    sum_of_lines.scheme_pays, sum_of_lines.negative, sum_of_lines.rounding, sum_of_lines.several_lines, sum_of_lines.largest,
    sum_of_lines.underpin, sum_of_lines.voluntary_fund,
    order.order_of_tests,
    sum_of_lines.payment,
    entitlement.too_old_or_refer, entitlement.order_of_lines,
    divorce.divorce_debits, divorce.divorce_examples, divorce.divorce_rounding, divorce.divorce_revaluation,
    divorce.divorce_lines, divorce.award, divorce.award_in_parts, divorce.divorce_first_value, divorce.divorce_underpin,
    divorce.divorce_avc, divorce.divorce_largest, divorce.divorce_largest_lines, divorce.divorce_form,
    section_2008_sum.kind_3_examples, section_2008_sum.kind_3_every_age, section_2008_sum.kind_3_rows,
    section_2008_sum.kind_3_birthdays, section_2008_sum.kind_3_leap_days,
    section_2008_form.kind_3_sex, section_2008_form.kind_3_kind, section_2008_form.kind_3_flags,
    section_2008_form.kind_3_reserved, section_2008_form.kind_3_range, section_2008_form.kind_3_amounts,
    section_2008_form.kind_3_dates, section_2008_form.kind_3_entitlement, section_2008_form.kind_3_too_old_or_refer,
    section_2008_sum.kind_3_scheme_pays, section_2008_sum.kind_3_negative, section_2008_sum.kind_3_rounding,
    section_2008_sum.kind_3_survivor, section_2008_sum.kind_3_choice_optants, section_2008_sum.kind_3_divorce,
    section_2008_sum.kind_3_award, section_2008_sum.kind_3_avc, section_2008_sum.kind_3_largest,
    order.order_with_sex_and_choice_optants,
)


def record(case):
    """The 64 numbers of a case in bytes."""
    return b"".join(bytes_of(case[name], 8) for name in FIELDS)


def main():
    commands = ("stdin", "stdout", "list")
    if len(sys.argv) != 2 or sys.argv[1] not in commands:
        sys.stderr.write(f"usage: vectors.py {'|'.join(commands)}\n")
        return 2
    for vectors in GROUPS:
        vectors()
    if not tables_agree():
        FAULTS.append("the factors of the 2008 section are not those of figures/factors.txt")
    if FAULTS:
        sys.stderr.write("".join(f"{fault}\n" for fault in FAULTS))
        return 1
    out = sys.stdout.buffer
    for place, (at, label, expectation, case) in enumerate(VECTORS, start=1):
        if sys.argv[1] == "stdin":
            out.write(record(case))
        elif sys.argv[1] == "list":
            out.write(f"{place}\t{at}: {label}\t{text(expectation)}\n".encode())
        else:
            out.write(f"{place} {case['case number']} {text(expectation)}\n".encode())
    return 0


if __name__ == "__main__":
    sys.exit(main())
