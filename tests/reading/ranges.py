"""Refusal 5: codes, the revaluation factor, amounts and dates."""

from cases import (
    AMOUNTS, CASES, DATES, KIND_1, KIND_1_NO_GMP, KIND_2, KIND_2_NO_FLAGS, KIND_2_NO_GMP, KIND_2_NO_TRANSFER,
    KIND_3_CASES, KIND_3_NO_GMP, NOT_OPTANT, NOT_OPTANT_NO_GMP, OF_CHOICE_OPTANTS, kind_2_of,
)
from making import READ, group, vector
from model.fields import NO_DATE
from model.rules import LIMIT


def codes():
    group("5 case number and codes")
    for label, base in CASES.items():
        vector(f"{label}, case number 0", 5, base, {"case number": 0})
        for number in (1, 256, 2**16, 2**24, 2**31, 4294967295):
            vector(f"{label}, case number {number}", READ, base, {"case number": number})
        for status in (1, 2, 3, 4):
            vector(f"{label}, status {status}", READ, base, {"status": status})
        for status in (0, 5, 129, 255):
            vector(f"{label}, status {status}", 5, base, {"status": status})
        for receiver in (1, 2, 3):
            scheme = {"receiving scheme": receiver}
            vector(f"{label}, receiving scheme {receiver}", READ, base, scheme)
        for receiver in (0, 4, 129, 255):
            scheme = {"receiving scheme": receiver}
            vector(f"{label}, receiving scheme {receiver}", 5, base, scheme)


def revaluation():
    group("5 revaluation")
    for label, base in CASES.items():
        for factor in (10_000, 10_001, 65_535, 65_536, 99_999, 100_000):
            vector(f"{label}, revaluation {factor}", READ, base, {"revaluation": factor})
        for factor in (0, 1, 9_999, 100_001, 2**17, 2**24 + 10_000, 2**31 + 10_000, 4294967295):
            vector(f"{label}, revaluation {factor}", 5, base, {"revaluation": factor})


def amounts():
    group("5 amounts")
    for label, base, name in AMOUNTS:
        vector(f"{label}, {name} {LIMIT}", READ, base, {name: LIMIT})
        vector(f"{label}, {name} {LIMIT + 1}", 5, base, {name: LIMIT + 1})
        vector(f"{label}, {name} 2^32", 5, base, {name: 2**32})
        vector(f"{label}, {name} 2^63", 5, base, {name: 2**63})
        vector(f"{label}, {name} 2^64-1", 5, base, {name: 2**64 - 1})
    for name in [name for at, _, name in AMOUNTS if at == "kind 3"]:
        if name not in OF_CHOICE_OPTANTS:
            vector(f"kind 3, not a Choice Optant, {name} {LIMIT}", READ, NOT_OPTANT, {name: LIMIT})
            vector(f"kind 3, not a Choice Optant, {name} {LIMIT + 1}", 5, NOT_OPTANT, {name: LIMIT + 1})
    for bit in range(30):
        vector(f"one bit of a pension, 2^{bit}", READ, KIND_1, {"line 1 pension": 2**bit})
    for bit in range(30, 64):
        vector(f"one bit of a pension, 2^{bit}", 5, KIND_1, {"line 1 pension": 2**bit})
    vector(
        "kind 2, own contributions without transfer flag",
        READ,
        KIND_2_NO_TRANSFER,
        {"own contributions": LIMIT},
    )
    vector(
        f"kind 2, own contributions {LIMIT + 1} without transfer flag",
        5,
        KIND_2_NO_TRANSFER,
        {"own contributions": LIMIT + 1},
    )


DAYS = [
    ("1 January 1900", (1900, 1, 1), READ),
    ("31 December 1899", (1899, 12, 31), 5),
    ("31 December 2199", (2199, 12, 31), READ),
    ("1 January 2200", (2200, 1, 1), 5),
    ("month 0", (1985, 0, 15), 5),
    ("month 13", (1985, 13, 15), 5),
    ("month 255", (1985, 255, 15), 5),
    ("day 0", (1985, 5, 0), 5),
    ("31 April", (1985, 4, 31), 5),
    ("32 May", (1985, 5, 32), 5),
    ("day 255", (1985, 5, 255), 5),
    ("29 February 1900", (1900, 2, 29), 5),
    ("29 February 2000", (2000, 2, 29), READ),
    ("29 February 2100", (2100, 2, 29), 5),
    ("29 February 2019", (2019, 2, 29), 5),
    ("29 February 2020", (2020, 2, 29), READ),
    ("30 February 2020", (2020, 2, 30), 5),
    ("zero", NO_DATE, 5),
    ("year 0", (0, 5, 15), 5),
    ("year 65535", (65535, 5, 15), 5),
    ("month and day exchanged", (1985, 31, 12), 5),
]

# The last day of each month in a common year and in a leap year.
LAST_DAYS = {
    2019: [31, 28, 31, 30, 31, 30, 31, 31, 30, 31, 30, 31],
    2020: [31, 29, 31, 30, 31, 30, 31, 31, 30, 31, 30, 31],
}


def dates():
    group("5 dates")
    for label, base, name in DATES:
        for day_label, date, expectation in DAYS:
            vector(f"{label}, {name}: {day_label}", expectation, base, {name: date})


def zero_dates():
    group("5 dates that may not be zero")
    for name in ("birth", "leaving", "guarantee"):
        for label, base in (("kind 2", KIND_2), ("kind 2 without flags", KIND_2_NO_FLAGS)):
            vector(f"{label}, {name} zero", 5, base, {name: NO_DATE})
        vector(f"kind 1 without GMP, {name} zero", 5, KIND_1_NO_GMP, {name: NO_DATE})
    for label, base in KIND_3_CASES.items():
        for name in ("birth", "leaving", "guarantee"):
            vector(f"{label}, {name} zero", 5, base, {name: NO_DATE})
    flag = {"flags": 2, "state pension date": NO_DATE}
    vector("kind 3, GMP flag set, state pension date zero", 5, NOT_OPTANT_NO_GMP, flag)
    vector("kind 1, GMP flag set, state pension date zero", 5, KIND_1_NO_GMP, flag)
    flag = {"flags": 3, "state pension date": NO_DATE}
    vector("kind 2, GMP flag set, state pension date zero", 5, KIND_2_NO_GMP, flag)
    flag = {"flags": 6, "state pension date": NO_DATE}
    vector("kind 3, Choice Optant, GMP flag set, state pension date zero", 5, KIND_3_NO_GMP, flag)
    for count in (1, 2, 3, 4):
        for line in range(1, count + 1):
            zero = {f"line {line} date": NO_DATE}
            vector(f"kind 2, count {count}, line {line} date zero", 5, kind_2_of(count), zero)
    for count in (2, 3, 4):
        vector(f"kind 2, one line counted as {count}", 5, kind_2_of(1), {"count": count})


def days_of_the_months():
    group("5 days of the months")
    for year, last_days in LAST_DAYS.items():
        for month, last in enumerate(last_days, start=1):
            day, next_day = (year, month, last), (year, month, last + 1)
            vector(f"{year}-{month}-{last}", READ, KIND_1, {"guarantee": day})
            vector(f"{year}-{month}-{last + 1}", 5, KIND_1, {"guarantee": next_day})

    group("5 leap years")
    for year in (1904, 1996, 2000, 2096, 2104, 2196):
        vector(f"29 February {year}", READ, KIND_2, {"line 1 date": (year, 2, 29)})
    for year in (1900, 1901, 1902, 1903, 2001, 2098, 2100, 2199):
        vector(f"29 February {year}", 5, KIND_2, {"line 1 date": (year, 2, 29)})
        vector(f"28 February {year}", READ, KIND_2, {"line 1 date": (year, 2, 28)})
