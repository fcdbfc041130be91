"""Refusals 3 to 17, each as a test of the case, and the order in which they are tested.

What shows a mistake: the refusals that tests/reading and tests/valuing state at the edges of each rule; for the order, those of two
refusals at once (order.py in both). LIMIT stands by name in the vectors too; there the payments at the limit show it
(tests/valuing/form.py, `amounts`).
"""

import datetime

from .calendar import moved_on, real_day
from .fields import CHOICE_OPTANT, EMPTY, FEMALE, GMP, LINES, MALE, MONEY, OF_A_LINE, TRANSFER, lines_of
from .sums import age_of, benefits, debit_value, factors_of, first_value, signed_total

LIMIT = 1_000_000_000  # the largest amount, in pence
COUNTS = {1: (1,), 2: (1, 2, 3, 4), 3: (1,)}  # of lines, by kind
FLAGS = {1: GMP, 2: TRANSFER | GMP, 3: GMP | CHOICE_OPTANT}  # those that a kind may have
PENSION_AGES = {1: 60, 3: 65}


def kind_fault(case):
    return case["count"] not in COUNTS.get(case["kind"], ())


def must_be_zero(case):
    """The names of the fields that must be zero."""
    kind, flags = case["kind"], case["flags"]
    names = set()
    if not flags & GMP:
        names.add("state pension date")
    if not flags & TRANSFER:
        names.add("transfer-in")
    if kind != 2:
        names |= {"own contributions", "line 1 date"}
    if kind != 3:
        names.add("sex")
    for i in LINES:
        of_line = []
        if kind == 2:
            of_line.append("modification")
        if kind == 2 or (kind == 3 and not flags & CHOICE_OPTANT):
            of_line += ["lump sum", "Scheme Pays lump sum", "debit lump sum"]
        if i > 1:
            of_line += ["additional pension", "dependant's additional"]
        if i > case["count"]:
            of_line = OF_A_LINE
        names |= {f"line {i} {name}" for name in of_line}
    return names


def reserved_fault(case):
    return bool(case["flags"] & ~FLAGS[case["kind"]]) or any(case[name] != EMPTY[name] for name in must_be_zero(case))


def range_fault(case):
    dates = ["birth", "leaving", "guarantee"]
    if case["flags"] & GMP:
        dates.append("state pension date")
    if case["kind"] == 2:
        dates += [f"line {i} date" for i in LINES[: case["count"]]]
    return (
        case["case number"] == 0
        or case["status"] not in (1, 2, 3, 4)
        or case["receiving scheme"] not in (1, 2, 3)
        or (case["kind"] == 3 and case["sex"] not in (MALE, FEMALE))
        or not 10_000 <= case["revaluation"] <= 100_000
        or any(case[name] > LIMIT for name in MONEY)
        or any(real_day(case[name]) is None for name in dates)
    )


def dates_fault(case):
    birth, leaving, guarantee = (real_day(case[name]) for name in ("birth", "leaving", "guarantee"))
    if leaving <= birth or guarantee < leaving:
        return True
    if case["kind"] != 2:
        return False
    first, *others = [real_day(line["date"]) for line in lines_of(case)]
    return first < moved_on(birth, 65) or any(day >= first for day in others)


def order_fault(case):
    """Lines 2 to 4 do not run from the latest date to the earliest, or two are alike."""
    others = [real_day(line["date"]) for line in lines_of(case)[1:]]
    return case["kind"] == 2 and others != sorted(set(others), reverse=True)


def age_fault(case):
    if case["kind"] == 2:
        return any(real_day(line["date"]) <= real_day(case["guarantee"]) for line in lines_of(case))
    return age_of(case) >= PENSION_AGES[case["kind"]]


def refer_fault(case):
    return bool(case["flags"] & GMP) and real_day(case["state pension date"]) < datetime.date(2016, 4, 6)


def debit_fault(case):
    for line in lines_of(case):
        pension, lump, _, scheme_pays, scheme_pays_lump = benefits(case, line)
        if scheme_pays > pension or scheme_pays_lump > lump:
            return True
    return False


# In the order in which they are tested; each may rely on those before it.
FORM = [
    (3, kind_fault),
    (4, reserved_fault),
    (5, range_fault),
]
IN_ORDER = FORM + [
    (6, dates_fault),
    (17, order_fault),
    (7, lambda case: case["status"] != 1),
    (8, lambda case: case["receiving scheme"] != 1),
    (9, lambda case: case["months"] < 3),
    (11, age_fault),
    (10, refer_fault),
    (12, lambda case: any(factors_of(case, line) is None for line in lines_of(case))),
    (13, debit_fault),
    (14, lambda case: signed_total(case) < 0),
    (16, lambda case: debit_value(case) > first_value(case)),
]
