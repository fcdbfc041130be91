"""The factors of figures/factors.txt: pension, lump sum, survivor and deduction, as fractions.

What shows a wrong figure: the constants in the code (crates/factors_check), and for TV3 and TV4 the transcriptions of
tests/valuing/tables_2008.py and tests/second. All were copied from the notes apart from each other.
"""

import pathlib
from fractions import Fraction

from .fields import FEMALE


def read():
    """By table and by age or years ahead."""
    rows = {}
    path = pathlib.Path(__file__).resolve().parents[2] / "figures" / "factors.txt"
    for line in path.read_text().splitlines():
        if line.startswith("#"):
            continue
        table, row, *figures = line.split()
        figures = [Fraction(figure) for figure in figures]
        if table == "2015":  # neither lump sum nor deduction
            pension, survivor = figures
            figures = [pension, Fraction(0), survivor, Fraction(0)]
        pension, lump, survivor, deduction = figures
        rows[table, int(row)] = (pension, lump, survivor, deduction)
    return rows


FACTORS = read()


def table_of(case):
    """The name of the table that a case uses."""
    return {1: "1995m", 2: "2015", 3: "2008f" if case["sex"] == FEMALE else "2008m"}[case["kind"]]
