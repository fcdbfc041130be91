#!/usr/bin/env python3
"""Pairs of dates for the program calendar_check, and what it must print of them, worked out apart from it.

    python3 tests/calendar/pairs.py stdin  > crates/calendar_check/stdin    the pairs, 8 bytes each
    python3 tests/calendar/pairs.py stdout > crates/calendar_check/stdout   a line for each
    python3 tests/calendar/pairs.py labels                                  the pairs, readable, with what each is for

The calendar is that of tests/model. tests/valuing states by hand what such days give and stops where the calendar differs.
"""
import datetime, pathlib, random, sys

sys.dont_write_bytecode = True
sys.path.insert(0, str(pathlib.Path(__file__).resolve().parents[1]))

from model.blocks import bytes_of
from model.calendar import FIRST, LAST, age, moved_on, real_day, years_ahead


def pairs():
    """Each pair of dates, as year, month and day, with what it is for."""
    born = (1967, 6, 1)
    yield born, (2020, 5, 31), 'age 52, a day before the birthday'
    yield born, (2020, 6, 1), 'age 53, on the birthday'
    yield born, (2020, 6, 2), 'age 53, a day after it'
    yield born, (2032, 5, 31), 'a day before the 65th birthday'
    yield born, (2032, 6, 1), 'the 65th birthday'
    yield (2021, 7, 3), (2047, 7, 2), '26 years ahead, a day to spare'
    yield (2021, 7, 3), (2047, 7, 3), '26 years ahead, to the day'
    yield (2021, 7, 3), (2047, 7, 4), '27 years ahead'
    yield (1968, 2, 29), (2021, 2, 27), 'born on a leap day: age 52'
    yield (1968, 2, 29), (2021, 2, 28), 'born on a leap day: age 53'
    yield (1968, 2, 29), (2021, 3, 1), 'born on a leap day: age 53, a day after the birthday'
    yield (1968, 2, 29), (2020, 2, 28), 'born on a leap day, in a leap year: age 51'
    yield (1968, 2, 29), (2020, 2, 29), 'born on a leap day, in a leap year: age 52'
    yield (1968, 2, 29), (2024, 2, 28), 'born on a leap day, in a leap year: age 55'
    yield (1968, 2, 29), (2024, 2, 29), 'born on a leap day, in a leap year: age 56'
    yield (1968, 2, 29), (1969, 2, 27), 'born on a leap day: no birthday yet'
    yield (1968, 2, 29), (1969, 2, 28), 'born on a leap day: the first birthday'
    yield (1968, 2, 29), (1969, 3, 1), 'born on a leap day: a day after the first birthday'
    for birth in (1956, 1960):
        yield (birth, 2, 29), (birth + 65, 2, 27), 'a day before the 65th birthday of a leap day'
        yield (birth, 2, 29), (birth + 65, 2, 28), 'the 65th birthday of a leap day'
        yield (birth, 2, 29), (birth + 65, 3, 1), 'a day after the 65th birthday of a leap day'
    yield (2020, 2, 29), (2045, 2, 28), '25 years ahead, from a leap day'
    yield (2020, 2, 29), (2045, 3, 1), '26 years ahead, from a leap day'
    yield (2020, 2, 29), (2045, 3, 2), '26 years ahead, from a leap day'
    yield (2020, 2, 28), (2024, 2, 29), '5 years ahead, to a leap day'
    yield (2020, 2, 29), (2048, 2, 29), '28 years ahead, from a leap day to a leap day'
    for year in (1900, 2000, 2100):
        for leap in (1904, 1996, 2000, 2096, 2104):
            for other in ((year, 2, 27), (year, 2, 28), (year, 2, 29), (year, 3, 1), (year + 4, 2, 29)):
                yield (leap, 2, 29), other, f'leap days around {year}'
                yield other, (leap, 2, 29), f'leap days around {year}, reversed'
    for a, b in (((2020, 5, 31), born), ((2047, 7, 4), (2021, 7, 3)), ((2021, 7, 3), (2021, 7, 2)), ((2021, 7, 3), (2020, 7, 4))):
        yield a, b, 'the second before the first'
    for a in ((2021, 7, 3), (2020, 2, 29), (1900, 1, 1), (2199, 12, 31)):
        yield a, a, 'the same day'
    for year in (1900, 1999, 2000, 2020, 2198):
        yield (year, 12, 31), (year + 1, 1, 1), 'from one year to the next'
        yield (year, 1, 1), (year, 12, 31), 'from the start of a year to its end'
        yield (year, 12, 31), (year + 1, 12, 30), 'a day less than a year'
        yield (year, 12, 31), (year + 1, 12, 31), 'a year'
        yield (year + 1, 1, 1), (year, 12, 31), 'from one year to the next, reversed'
    yield (1900, 1, 1), (2199, 12, 31), 'from the first day to the last'
    yield (2199, 12, 31), (1900, 1, 1), 'from the last day to the first'
    for year in (1900, 2019, 2020):
        for month in range(1, 13):
            last = max(d for d in range(28, 32) if real_day((year, month, d)))
            yield (year, month, last), (year, month, last + 1), 'the last day of a month, and none after it'
    for d in ((0, 0, 0), (1899, 12, 31), (2200, 1, 1), (2020, 0, 1), (2020, 13, 1), (2020, 1, 0), (2020, 2, 30), (2020, 255, 255), (65535, 12, 31)):
        yield d, (2020, 2, 29), 'no real day'
        yield (2020, 2, 29), d, 'no real day'
    chance = random.Random(1995)
    below = lambda n: int(chance.random() * n)
    some = lambda: FIRST + datetime.timedelta(below((LAST - FIRST).days + 1))
    parts = lambda d: (d.year, d.month, d.day)
    for _ in range(250):
        yield parts(some()), parts(some()), 'any two days'
    for _ in range(250):
        d = some()
        near = moved_on(d, below(2199 - d.year + 1)) + datetime.timedelta(below(5) - 2)
        yield parts(d), parts(min(near, LAST)), 'near the day moved on by some years'


def line(place, a, b):
    d, e = real_day(a), real_day(b)
    told = lambda t: 'yes' if t else 'no'
    rest = [told(d < e), age(d, e), told(e < moved_on(d, 65)), years_ahead(d, e)] if d and e else ['-'] * 4
    return ' '.join(map(str, [place, told(d), told(e), *rest]))


def main():
    to_text = lambda d: '%d-%02d-%02d' % d
    what = sys.argv[1] if len(sys.argv) == 2 else ''
    for place, (a, b, label) in enumerate(pairs(), 1):
        if what == 'stdin':
            sys.stdout.buffer.write(bytes_of(a, 4) + bytes_of(b, 4))
        elif what == 'stdout':
            print(line(place, a, b))
        elif what == 'labels':
            print(place, to_text(a), to_text(b), label)
        else:
            sys.exit(__doc__)


main()
