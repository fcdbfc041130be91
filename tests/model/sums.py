"""What a case is worth, as fractions of a penny until it is rounded. Refusals 3 to 11 and 17 do not apply to the case.

What shows a mistake: the payments with their items that tests/valuing states, of the papers' figures and examples (papers.py), of
each step (sum_of_lines.py), of divorce debits (divorce.py) and of the 2008 section (section_2008_sum.py).
"""

from fractions import Fraction

from . import calendar
from .calendar import real_day
from .factors import FACTORS, table_of
from .fields import TRANSFER, lines_of


def nearest(amount):
    """To the whole number, halves up."""
    return (amount + Fraction(1, 2)).__floor__()


def age_of(case):
    return calendar.age(real_day(case["birth"]), real_day(case["guarantee"]))


def factors_of(case, line):
    """The factors of pension, lump sum, survivor and deduction on a line, or None where the table has no row."""
    if case["kind"] == 2:
        row = calendar.years_ahead(real_day(case["guarantee"]), real_day(line["date"]))
    else:
        row = age_of(case)
    return FACTORS.get((table_of(case), row))


def revalued(case, pence):
    return nearest(pence * Fraction(case["revaluation"], 10_000))


def benefits(case, line):
    """Pension, lump sum and survivor's pension once revalued, in pence, and Scheme Pays on the first two."""
    pension = revalued(case, line["pension"] + line["additional pension"])
    lump = revalued(case, line["lump sum"])
    survivor = revalued(case, line["survivor"] + line["dependant's additional"])
    return pension, lump, survivor, line["Scheme Pays"], line["Scheme Pays lump sum"]


def items(case):
    """Pension, lump sum, survivor and deduction over all lines, in pence."""
    totals = [Fraction(0)] * 4
    for line in lines_of(case):
        pension, lump, survivor, scheme_pays, scheme_pays_lump = benefits(case, line)
        pence = (pension - scheme_pays, lump - scheme_pays_lump, survivor, line["modification"])
        totals = [total + amount * factor for total, amount, factor in zip(totals, pence, factors_of(case, line))]
    return totals


def signed_total(case):
    pension, lump, survivor, deduction = items(case)
    return pension + lump + survivor - deduction


def first_value(case):
    return nearest(signed_total(case))


def debit_value(case):
    """What the divorce debits are worth on the lines' factors, rounded as a whole."""
    total = Fraction(0)
    for line in lines_of(case):
        pension, lump, survivor, _ = factors_of(case, line)
        total += revalued(case, line["debit pension"]) * pension
        total += revalued(case, line["debit survivor"]) * survivor
        total += revalued(case, line["debit lump sum"]) * lump
    return nearest(total)


def payment(case):
    """The payment in pence with its items by name, those with factors in hundredths of a penny."""
    pension, lump, survivor, deduction = (amount * 100 for amount in items(case))
    gross = first_value(case) - debit_value(case)
    underpin = case["transfer-in"] + case["own contributions"] if case["flags"] & TRANSFER else 0
    return {
        "pay": max(gross, underpin) + case["AVC"],
        "pension": pension,
        "lump": lump,
        "survivor": survivor,
        "deduct": deduction,
        "underpin": underpin,
        "avc": case["AVC"],
    }
