"""The calendar. Days are those of Python's datetime; birthdays are counted one by one, and years are tried one by one.

What shows a mistake: the payments and refusals that tests/valuing/entitlement.py states around birthdays and line dates (`dates`,
`ages`, `leap_days`), and the real days that tests/reading/ranges.py does.
"""

import datetime

FIRST, LAST = datetime.date(1900, 1, 1), datetime.date(2199, 12, 31)


def real_day(date):
    """The day of a triple, or None where there is none within the range of dates."""
    try:
        day = datetime.date(*date)
    except ValueError:
        return None
    return day if FIRST <= day <= LAST else None


def moved_on(day, years):
    """Month and day stay, but 29 February is 28 February in a common year."""
    try:
        return day.replace(year=day.year + years)
    except ValueError:
        return datetime.date(day.year + years, 2, 28)


def age(birth, on):
    """The number of birthdays reached."""
    birthdays = 0
    while moved_on(birth, birthdays + 1) <= on:
        birthdays += 1
    return birthdays


def years_ahead(guarantee, day):
    """The fewest years after which the guarantee date, moved on, no longer stands before the day."""
    years = 0
    while moved_on(guarantee, years) < day:
        years += 1
    return years
