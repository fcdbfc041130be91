"""Kind 3, the 2008 section: refusals 3 to 11."""

from cases import (
    AGED_50, KIND_3_FAULTS, OF_CHOICE_OPTANTS, OPTANT_50, OPTANT_P50, P25, P25_PAID, P4, P4_PAID, P50, P50_PAID,
    P54, P54_PAID,
)
from making import group, only, paid, vector
from model.examples import A_001
from model.fields import AMOUNTS, DIVORCE_DEBITS, FEMALE, MALE, NO_DATE
from model.rules import LIMIT


def kind_3_sex():
    group("4 and 5, sex")
    others = (("kind 1", P54, P54_PAID), ("kind 2", P25, P25_PAID), ("kind 2, four lines", P4, P4_PAID))
    for label, base, accepted in others:
        vector(f"{label}, sex 0", accepted, base)
        for code in (1, 2, 3, 128, 255):
            vector(f"{label}, sex {code}", 4, base, {"sex": code})
    for label, base in (("kind 3", P50), ("kind 3, Choice Optant", OPTANT_P50)):
        for code in (1, 2):
            vector(f"{label}, sex {code}", P50_PAID, base, {"sex": code})
        for code in (0, 3, 4, 129, 130, 255):
            vector(f"{label}, sex {code}", 5, base, {"sex": code})


def kind_3_kind():
    group("3 kind, kind 3")
    for number in (0, 4, 5, 255, 256, 256 + 3, 512 + 3, 768, 2**15 + 3, 65535):
        vector(f"kind {number}", 3, P50, {"kind": number})
        vector(f"kind {number}, Choice Optant", 3, OPTANT_P50, {"kind": number})
    vector("kind 3, count 1", P50_PAID, P50)
    vector("kind 3, count 1, Choice Optant", P50_PAID, OPTANT_P50)
    for count in (0, 2, 3, 4, 5, 129, 255):
        vector(f"kind 3, count {count}", 3, P50, {"count": count})
        vector(f"kind 3, count {count}, Choice Optant", 3, OPTANT_P50, {"count": count})
    vector("a kind 1 case as kind 3", 5, P54, {"kind": 3})
    vector("a kind 2 case as kind 3", 4, P25, {"kind": 3})
    vector("a kind 2 case as kind 3, a man", 4, P25, {"kind": 3, "sex": MALE})
    vector("a kind 2 case of four lines as kind 3, a man", 3, P4, {"kind": 3, "sex": MALE})
    vector("a kind 3 case as kind 2", 4, P50, {"kind": 2})
    vector("a kind 3 case as kind 2, no sex", 5, P50, {"kind": 2, "sex": 0})
    vector("a kind 3 case as kind 1", 4, P50, {"kind": 1})
    vector("a Choice Optant's case as kind 1, no sex", 4, OPTANT_P50, {"kind": 1, "sex": 0})
    vector("001, A as kind 3, a woman", 4, A_001, {"kind": 3, "sex": FEMALE})
    # Row 52: 6,840.00 at 13.42, 17,100.00 at 0.74, 3,277.50 at 1.50, less 20.00 at 11.73
    vector("001, A as kind 3, a woman and a Choice Optant", paid(
        "109,128.45", pension="91,792.80", lump="12,654.00", survivor="4,916.25", deduct="234.60",
    ), A_001, {"kind": 3, "sex": FEMALE, "flags": 4}, wrong="136,868.93")


def kind_3_flags():
    group("4 reserved, flags in kind 3")
    dated = {"state pension date": (2037, 5, 10)}
    for flags in (0, 2, 4, 6):
        gmp = dated if flags & 2 else {}
        vector(f"flags {flags}", P50_PAID, P50, gmp | {"flags": flags})
        vector(f"flags {flags} and transferred in", 4, P50, gmp | {"flags": flags + 1})
        vector(f"flags {flags}, transferred in, and transfer-in 1p", 4, P50, gmp | {"flags": flags + 1, "transfer-in": 1})
        for bit in (8, 16, 32, 64, 128):
            vector(f"flags {flags} and {bit}", 4, P50, gmp | {"flags": flags + bit})
        if not flags & 2:
            vector(f"flags {flags}, state pension date", 4, P50, dated | {"flags": flags})
            for date in ((1, 0, 0), (0, 1, 0), (0, 0, 1)):
                vector(f"flags {flags}, a part of the state pension date, {date}", 4, P50, {
                    "flags": flags, "state pension date": date,
                })
    vector("flags 255", 4, P50, dated | {"flags": 255})
    for label, base in (("kind 1", P54), ("kind 2", P25), ("kind 2, four lines", P4)):
        vector(f"{label}, flag 4 with GMP", 4, base, dated | {"flags": 6})
        vector(f"{label}, flag 4 and a man", 4, base, {"flags": 4, "sex": MALE})
    vector("kind 2, flag 4 with both", 4, P25, dated | {"flags": 7})


def kind_3_reserved():
    group("4 reserved, amounts and dates in kind 3")
    for label, base in (("kind 3", P50), ("kind 3, Choice Optant", OPTANT_P50)):
        for pence in (1, 100_00, LIMIT, LIMIT + 1, 2**64 - 1):
            vector(f"{label}, own contributions {pence}p", 4, base, {"own contributions": pence})
            vector(f"{label}, transfer-in {pence}p", 4, base, {"transfer-in": pence})
        vector(f"{label}, the line's date", 4, base, {"line 1 date": (2035, 5, 10)})
        vector(f"{label}, the line's date, no real day", 4, base, {"line 1 date": (2019, 2, 29)})
        for date in ((1, 0, 0), (0, 1, 0), (0, 0, 1)):
            vector(f"{label}, a part of the line's date, {date}", 4, base, {"line 1 date": date})
        for i in (2, 3, 4):
            for name in AMOUNTS + DIVORCE_DEBITS:
                vector(f"{label}, line {i} {name} 1p", 4, base, {f"line {i} {name}": 1})
            vector(f"{label}, line {i} date", 4, base, {f"line {i} date": (2034, 5, 10)})
    for name in OF_CHOICE_OPTANTS:
        for pence in (1, 100_00, LIMIT, LIMIT + 1, 2**64 - 1):
            vector(f"kind 3, {name} {pence}p", 4, P50, {f"line 1 {name}": pence})
        vector(f"kind 3, GMP, {name} 1p", 4, P50, {
            f"line 1 {name}": 1, "flags": 2, "state pension date": (2037, 5, 10),
        })
        vector(f"kind 3, a woman, {name} 1p", 4, P50, {f"line 1 {name}": 1, "sex": FEMALE})
    # 0.71 pence
    vector("Choice Optant, lump sum 1p", paid("1,284.01", pension="1,284.00", lump="0.0071"), OPTANT_P50, {"line 1 lump sum": 1})
    vector("Choice Optant, lump sum and Scheme Pays lump sum 1p", P50_PAID, OPTANT_P50, {
        "line 1 lump sum": 1, "line 1 Scheme Pays lump sum": 1,
    })
    vector("Choice Optant, debit lump sum 1p", paid("1,283.99", pension="1,284.00"), OPTANT_P50, {"line 1 debit lump sum": 1})
    vector("Choice Optant with GMP, lump sum 100p", paid("1,284.71", pension="1,284.00", lump="0.71"), OPTANT_P50, {
        "line 1 lump sum": 100, "flags": 6, "state pension date": (2037, 5, 10),
    })
    # 12.84 pence of pension, 1.46 of survivor's pension, 11.09 of modification
    for name, expectation in (
        ("additional pension", paid("1,284.13", pension="1,284.1284")),
        ("survivor", paid("1,284.01", pension="1,284.00", survivor="0.0146")),
        ("dependant's additional", paid("1,284.01", pension="1,284.00", survivor="0.0146")),
        ("modification", paid("1,283.89", pension="1,284.00", deduct="0.1109")),
        ("Scheme Pays", paid("1,283.87", pension="1,283.8716")),
        ("debit pension", paid("1,283.87", pension="1,284.00")),
        ("debit survivor", paid("1,283.99", pension="1,284.00")),
    ):
        vector(f"kind 3, {name} 1p", expectation, P50, {f"line 1 {name}": 1})
        vector(f"Choice Optant, {name} 1p", expectation, OPTANT_P50, {f"line 1 {name}": 1})


def kind_3_range():
    group("5 range, kind 3")
    vector("case number 0", 5, P50, {"case number": 0})
    vector("case number 4294967295", P50_PAID, P50, {"case number": 4294967295})
    for status in (0, 5, 255):
        vector(f"status {status}", 5, P50, {"status": status})
    for receiver in (0, 4, 255):
        vector(f"receiving scheme {receiver}", 5, P50, {"receiving scheme": receiver})
    for revaluation in (0, 9_999, 100_001, 2**32 - 1):
        vector(f"revaluation {revaluation}", 5, P50, {"revaluation": revaluation})
    vector("revaluation 100,000", only("12,840.00"), P50, {"revaluation": 100_000})
    for name in ("birth", "leaving", "guarantee"):
        vector(f"{name} zero", 5, P50, {name: NO_DATE})
        vector(f"{name} no real day", 5, P50, {name: (2019, 2, 29)})
        vector(f"{name} 1 January 2200", 5, P50, {name: (2200, 1, 1)})
    gmp = P50 | {"flags": 2}
    vector("state pension date zero with GMP", 5, gmp)
    vector("state pension date no real day with GMP", 5, gmp, {"state pension date": (2019, 2, 29)})
    early = P50 | {"leaving": (1950, 1, 1), "guarantee": (1955, 1, 1)}
    vector("birth 31 December 1899", 5, early, {"birth": (1899, 12, 31)})
    vector("birth 1 January 1900, age 55", only("1,437.00"), early, {"birth": (1900, 1, 1)})
    late = P50 | {"birth": (2149, 12, 31), "leaving": (2160, 1, 1)}
    vector("guarantee 31 December 2199", P50_PAID, late, {"guarantee": (2199, 12, 31)})


def kind_3_amounts():
    """Each amount at the limit and a penny above it; what each is paid at the limit, in pounds."""
    group("5 range, amounts in kind 3")
    pension, survivor, lump = "128,400,000.00", "14,600,000.00", "7,100,000.00"
    for member, base in (("", AGED_50), (", Choice Optant", OPTANT_50)):
        for name, expectation, changes in (
            ("AVC", paid("10,000,000.00", avc="10,000,000.00"), {}),
            ("line 1 pension", only(pension), {}),
            ("line 1 additional pension", only(pension), {}),
            ("line 1 survivor", paid(survivor, survivor=survivor), {}),
            ("line 1 dependant's additional", paid(survivor, survivor=survivor), {}),
            ("line 1 lump sum", paid(lump, lump=lump), {}),
            ("line 1 modification", paid("17,500,000.00", pension=pension, deduct="110,900,000.00"), {"line 1 pension": LIMIT}),
            ("line 1 Scheme Pays", paid("0"), {"line 1 pension": LIMIT}),
            ("line 1 Scheme Pays lump sum", paid("0"), {"line 1 lump sum": LIMIT}),
            ("line 1 debit pension", paid("0", pension=pension), {"line 1 pension": LIMIT}),
            ("line 1 debit survivor", paid("0", survivor=survivor), {"line 1 survivor": LIMIT}),
            ("line 1 debit lump sum", paid("0", lump=lump), {"line 1 lump sum": LIMIT}),
        ):
            if "lump sum" in name and base == AGED_50:
                continue  # those are refused 4
            vector(f"{name} at the limit{member}", expectation, base | changes, {name: LIMIT})
            vector(f"{name} above the limit{member}", 5, base | changes, {name: LIMIT + 1})
            vector(f"{name} 2 to the power 32{member}", 5, base | changes, {name: 2**32})
            vector(f"{name} 2 to the power 64 less 1{member}", 5, base | changes, {name: 2**64 - 1})


def kind_3_dates():
    group("6 dates, kind 3")
    for sex, label in ((MALE, "a man"), (FEMALE, "a woman")):
        base = P50 | {"sex": sex}
        vector(f"{label}, leaving on the day of birth", 6, base, {"leaving": (1970, 5, 10)})
        vector(f"{label}, leaving the day after birth", P50_PAID, base, {"leaving": (1970, 5, 11)})
        vector(f"{label}, leaving the day before birth", 6, base, {"leaving": (1970, 5, 9)})
        vector(f"{label}, leaving on the guarantee date", P50_PAID, base, {"leaving": (2020, 5, 10)})
        vector(f"{label}, leaving the day after the guarantee date", 6, base, {"leaving": (2020, 5, 11)})
        vector(f"{label}, guarantee date before birth", 6, base, {"guarantee": (1970, 5, 9)})


def kind_3_entitlement():
    group("7 status, 8 receiver, 9 service, 10 refer, kind 3")
    for label, base in (("kind 3", P50), ("kind 3, Choice Optant", OPTANT_P50)):
        for status in (2, 3, 4):
            vector(f"{label}, status {status}", 7, base, {"status": status})
        for receiver in (2, 3):
            vector(f"{label}, receiving scheme {receiver}", 8, base, {"receiving scheme": receiver})
        for months in (0, 1, 2):
            vector(f"{label}, {months} months", 9, base, {"months": months})
        for months in (3, 4, 65535):
            vector(f"{label}, {months} months", P50_PAID, base, {"months": months})
        gmp = base | {"flags": base["flags"] + 2}
        for date in ((2016, 4, 5), (2016, 3, 31), (2015, 12, 31), (1900, 1, 1)):
            vector(f"{label}, state pension date {date}", 10, gmp, {"state pension date": date})
        for date in ((2016, 4, 6), (2016, 5, 1), (2017, 1, 1), (2199, 12, 31)):
            vector(f"{label}, state pension date {date}", P50_PAID, gmp, {"state pension date": date})


def kind_3_too_old_or_refer():
    group("11 age before 10 refer, kind 3")
    meets_10 = P50 | {"birth": (1955, 5, 10), "flags": 2, "state pension date": (2016, 4, 5)}
    misses_10 = meets_10 | {"state pension date": (2016, 4, 6)}
    vector("age 64", 10, meets_10, {"guarantee": (2020, 5, 9)})
    vector("age 65", 11, meets_10)
    vector("age 66", 11, meets_10, {"guarantee": (2021, 5, 10)})
    vector("age 60", 10, meets_10, {"guarantee": (2015, 5, 10)})
    vector("state pension date 6 April 2016, age 64", only("1,783.00"), misses_10, {"guarantee": (2020, 5, 9)})
    vector("state pension date 6 April 2016, age 65", 11, misses_10)
    vector("Choice Optant, age 64", 10, meets_10, {"flags": 6, "guarantee": (2020, 5, 9)})
    vector("Choice Optant, age 65", 11, meets_10, {"flags": 6})
    for number in (7, 8, 9):
        vector(f"{number} with both", number, meets_10, KIND_3_FAULTS[number])
    vector("age 17 and 10", 10, meets_10, {"birth": (2002, 5, 11)})
    vector("age 17", 12, misses_10, {"birth": (2002, 5, 11)})
