#!/usr/bin/env python3
"""What docs/LINES.md shows, for tests/lines/run. Run from the top of the repository.

    page.py cases    writes the blocks of the page's table of entries
    page.py report   writes the report that they must give, by the lines under the headings of the cases
    page.py sample   writes the lines above those headings, which are the sample's
    page.py sums     checks every sum on the page exactly, and that each line's amounts are worked out above it
"""

import pathlib
import re
import sys
from fractions import Fraction
from math import floor

sys.dont_write_bytecode = True
sys.path.insert(0, str(pathlib.Path(__file__).resolve().parents[1]))

from model.blocks import block_of

MONTHS = "January February March April May June July August September October November December".split()

# An entry's name on the page, where it is not the model's name for the field.
NAMES = {
    "count of lines": "count", "months of qualifying service": "months",
    "date of birth": "birth", "date of leaving": "leaving", "guarantee date": "guarantee",
    "revaluation factor": "revaluation", "avc fund": "AVC", "transfer-in payment": "transfer-in",
    "line 1 pension date": "line 1 date", "line 1 survivor's pension": "line 1 survivor",
    "line 1 dependant's additional pension": "line 1 dependant's additional",
    "line 1 scheme pays on the pension": "line 1 Scheme Pays",
    "line 1 divorce debit pension": "line 1 debit pension",
    "line 1 divorce debit survivor's pension": "line 1 debit survivor",
}


def rows(text):
    return [[cell.strip() for cell in line.split("|")[1:-1]] for line in text.splitlines() if line.startswith("| ")]


def field(entry):
    """The model's name for an entry. What the page has in brackets is no part of the name."""
    name = entry.split(" (")[0].replace(":", "").lower()
    return NAMES.get(name, name)


def keyed(cell):
    """An entry as the model has it: pence, a date, ten-thousandths, or the number itself."""
    if cell.startswith("£"):
        return int(Fraction(cell[1:].replace(",", "")) * 100)
    if " " in cell:
        day, month, year = cell.split()
        return (int(year), MONTHS.index(month) + 1, int(day))
    return int(Fraction(cell) * 10000) if "." in cell else int(cell)


def cases(text):
    """The cases in the columns of the table of entries."""
    table = [row for row in rows(text) if len(row) == 6 and row[0] != "Entry"]
    return [{field(row[0]): keyed(row[column]) for row in table if row[column]} for column in range(2, 6)]


def lines(text):
    return re.findall(r"^\d+ \d+ .*", text, re.M)


def must(holds, otherwise):
    if not holds:
        raise ValueError(otherwise)


def value(written):
    """A sum in pounds, exactly."""
    plain = written.replace("£", "").replace(",", "").replace("×", "*").replace("−", "-")
    must(re.fullmatch(r"[0-9.+*() -]+", plain), f"no sum: {written}")
    return eval(re.sub(r"[0-9.]+", r"Fraction('\g<0>')", plain))


def check_sum(cell):
    """What stands on either side of '=' is equal; what is rounded is the nearest penny, halves up. A remark follows ';'."""
    exact, _, rounded = cell.split(";")[0].partition(", rounded to ")
    values = [value(part) for part in exact.split(" = ")]
    must(len(set(values)) == 1, f"not equal: {cell}")
    must(not rounded or value(rounded) == Fraction(floor(values[0] * 100 + Fraction(1, 2)), 100), f"not so rounded: {cell}")


def check_sums(text, sections):
    sums = [row[1] for row in rows(text) if len(row) == 2 and row[1][0] in "£("]
    for cell in sums:
        check_sum(cell)
    for at, section in enumerate(sections):
        above = "".join(sections[:at + 1])
        for pounds, decimals in re.findall(r" (\d+)\.(\d+)", lines(section)[0]):
            amount = f"£{int(pounds):,}.{decimals}"
            worked_out = f"= {amount}" in above or f"+ {amount} =" in above
            must(int(pounds + decimals) == 0 or worked_out, f"not worked out: {amount}")
    print(f"{len(sums)} sums of docs/LINES.md are right")


def main(what):
    text = open("docs/LINES.md", encoding="utf-8").read()
    head, *sections = text.split("\n### Case ")
    if what == "cases":
        sys.stdout.buffer.write(b"".join(block_of(case) for case in cases(text)))
    elif what == "report":
        count = len(sections)
        print("transfer values", *(lines(section)[0] for section in sections), f"end {count} blocks {count} paid", sep="\n")
    elif what == "sample":
        print(*lines(head), sep="\n")
    else:
        check_sums(text, sections)


main(sys.argv[1])
