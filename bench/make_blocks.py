#!/usr/bin/env python3
"""Writes a case file of N blocks to standard output, the same for the same N: cases of the three kinds, a third each.
Kind 2 has one to four lines. Kind 3 has men and women, half each, of every age from 18 to 64; one in five is a Choice
Optant with a mandatory lump sum. About one case in eight is refused, one in twenty-five dated around 29 February, one in
twenty-five with a guaranteed minimum pension and dated around pension age, one in fifty with a line dated within a day
of the one above it, one in twenty with a transfer in (kind 2), and one in twenty with divorce debits.

    make_blocks.py N

Every choice goes by the case's number. Kinds take turns by three and most of the rest by fifty; what must not depend on
either goes by the number over 3, 6, 7, 50 or 150.
"""
import pathlib
import sys

sys.dont_write_bytecode = True
sys.path.insert(0, str(pathlib.Path(__file__).resolve().parents[1] / "tests"))

from model.blocks import block_of
from model.fields import CHOICE_OPTANT, DIVORCE_DEBITS, GMP, LINES, TRANSFER
from model.rules import LIMIT

BENEFITS = ("pension", "survivor", "lump sum")  # in the order of their divorce debits


def around_leap_day(i, case):
    """Dates on 29 February, and on days of common years around the one that it falls on."""
    n = i // 150
    birth = 1964 + 4 * (n % 7)
    case["birth"] = (birth, 2, 29)
    case["guarantee"] = (2019, 2, 27 + n % 2)
    if case["kind"] == 2:
        case["guarantee"] = (2020, 2, 29)
        for k in LINES[:case["count"]]:
            case[f"line {k} date"] = (birth + 66 - k, *((2, 27), (2, 28), (3, 1))[n % 3])


def around_pension_age(i, case):
    """A guaranteed minimum pension, its state pension date on 5 or 6 April 2016, and a guarantee date on the first day of
    pension age or the day before."""
    n = i // 150
    case["flags"] |= GMP
    case["guarantee"] = (2020, 5, 10)
    case["state pension date"] = (2016, 4, 5 + n % 2)
    day = 10 + n // 2 % 2
    if case["kind"] == 2:
        case["birth"] = (1950, 1, 1)
        case[f"line {case['count']} date"] = (2020, 5, day)
    else:
        case["birth"] = (1960 if case["kind"] == 1 else 1955, 5, day)


def around_order(i, case):
    """Line 3, or of four lines line 3 or 4, a day before the line above it, on its date or a day after; one in seven
    with a date of leaving after the guarantee date."""
    n = i // 150
    k = 2 + n // 12 % (case["count"] - 2)
    year, _, _ = case[f"line {k} date"]
    case[f"line {k} date"] = (year, 6, 15)
    case[f"line {k + 1} date"] = (year, 6, 14 + n % 3)
    if n % 7 == 6:
        case["leaving"] = (2021, 1, 1)


def divorce_debits(i, case, lump_sum):
    """Divorce debits of part of the benefits, on one of them alone or on all; of the whole benefits, and a penny less or
    more; above the benefits, and beside Scheme Pays or a modification above them; at the upper limit and a penny above
    it; and a penny where no debit may be. One in five is revalued by 1.5000, which gives halves."""
    n = i // 50
    choice, t = n % 17, n // 204  # 3 * 4 * 17, so that a round takes every choice with every kind and count of lines
    places = [(k, j) for k in LINES[:case["count"]] for j in range(3 if lump_sum else 2)]
    others = [(k, j) for k in LINES for j in range(3) if (k, j) not in places]
    benefits = {(k, j): case[f"line {k} {BENEFITS[j]}"] for k, j in places}
    debits = {(k, j): x * (5 + (7 * n + 11 * (k - 1) + 17 * j) % 50) // 100 for (k, j), x in benefits.items()}
    if n % 5 == 4:
        case["revaluation"] = 15000
    if choice < 5:
        place = places[t % len(places)]
        debits = {place: debits[place]}
    elif choice in (12, 13, 14):
        debits = benefits
        debits[places[-1]] += (0, -1, 1)[choice - 12]
        for k in LINES[:case["count"]]:
            case[f"line {k} modification"] = case[f"line {k} Scheme Pays"] = 0
    elif choice == 15 and t % 3 == 0:
        debits = benefits
    elif choice == 15 and t % 3 == 1:
        debits = {place: 2 * x for place, x in benefits.items()}
    elif choice == 15:
        case["line 1 modification" if case["kind"] != 2 and t % 2 == 0 else "line 1 Scheme Pays"] = LIMIT
    elif choice == 16 and t % 2 == 0:
        debits[places[t // 4 % len(places)]] = LIMIT + t // 2 % 2
    elif choice == 16:
        debits[others[t // 2 % len(others)]] = 1
    for (k, j), x in debits.items():
        case[f"line {k} {DIVORCE_DEBITS[j]}"] = x


def add_lines(i, case, birth, lump_sum):
    for k in LINES[:case["count"]]:
        if case["kind"] == 2:
            case[f"line {k} date"] = (birth + 69 - k, 1 + i % 12, 1 + i % 28)
        else:
            case[f"line {k} modification"] = i % 7 * 10
        case[f"line {k} pension"] = 100000 + i * 7 % 900000
        case[f"line {k} survivor"] = 33750 + i * 3 % 300000
        if lump_sum:
            case[f"line {k} lump sum"] = 300000 + i % 100000
        case[f"line {k} Scheme Pays"] = i % 1000


def case_of(i):
    kind = 1 + i % 3
    optant = kind == 3 and i // 7 % 5 == 0
    guarantee = 2019 + i % 2
    birth = guarantee - 18 - i // 3 % 47 if kind == 3 else 1962 + i // 3 % 30
    return {
        "kind": kind,
        "case number": i + 1,
        "status": 1,
        "receiving scheme": 1,
        "flags": CHOICE_OPTANT if optant else 0,
        "count": 1 + i // 6 % 4 if kind == 2 else 1,
        "months": 3 + i % 400,
        "sex": 1 + i // 6 % 2 if kind == 3 else 0,
        "birth": (birth, 1 + i % 12, 1 + i % 28),
        "leaving": (2012 + i % 6, 3, 31),
        "guarantee": (guarantee, 1 + i % 12, 1 + i % 28),
        "revaluation": 10000 + i % 3000,
        "AVC": i % 5 * 12345,
    }


def block(i):
    case = case_of(i)
    lump_sum = case["kind"] == 1 or bool(case["flags"] & CHOICE_OPTANT)
    add_lines(i, case, case["birth"][0], lump_sum)
    if i % 50 < 2:
        around_leap_day(i, case)
    if i % 50 in (4, 5):
        around_pension_age(i, case)
    if i % 50 in (7, 17, 27, 19, 29, 39) and case["count"] > 2:  # those at 19, 29 and 39 are not deferred
        around_order(i, case)
    if case["kind"] == 2 and i % 20 in (3, 8, 13):
        case["flags"] |= TRANSFER
        case["transfer-in"], case["own contributions"] = i * 97 % 20_000_000, i * 31 % 5_000_000
    if i % 50 in (12, 25) or i % 100 == 63:  # those of kind 2 at 63 have a transfer in
        divorce_debits(i, case, lump_sum)
    if i % 10 == 9:
        case["status"] = 1 + i // 10 % 5
    return block_of(case)


def main():
    write = sys.stdout.buffer.write
    for i in range(int(sys.argv[1])):
        write(block(i))


main()
