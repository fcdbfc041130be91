"""Refusals 3 to 5 in kinds 1 and 2: the kind, what must be zero, and ranges."""

from cases import AGED_54, AHEAD_25, FOUR_LINES, P25, P25_PAID, P4, P4_PAID, P54, P54_PAID, lines_up_to
from making import group, only, paid, vector
from model.fields import AMOUNTS, DIVORCE_DEBITS, LINES, NO_DATE
from model.rules import LIMIT


def kind():
    group("3 kind")
    for number in (0, 4, 5, 257, 258, 65535):
        vector(f"kind {number}", 3, P25, {"kind": number})
    vector("kind 1, count 1", P54_PAID, P54)
    for count in (0, 2, 3, 4, 5, 255):
        vector(f"kind 1, count {count}", 3, P54, {"count": count})
    vector("kind 2, count 1", P25_PAID, P25)
    vector("kind 2, count 2", only("1,882.00"), lines_up_to(2))
    vector("kind 2, count 3", only("2,866.00"), lines_up_to(3))
    vector("kind 2, count 4", P4_PAID, P4)
    for count in (0, 5, 255):
        vector(f"kind 2, count {count}", 3, P4, {"count": count})


def flags():
    group("4 reserved, flags")
    for bit in (4, 8, 16, 32, 64, 128):
        vector(f"kind 1, flag {bit}", 4, P54, {"flags": bit})
        vector(f"kind 2, flag {bit}", 4, P25, {"flags": bit})
    dated = {"state pension date": (2034, 6, 1)}
    vector("kind 1, transferred in", 4, P54, {"flags": 1})
    vector("kind 1, transferred in and GMP", 4, P54, dated | {"flags": 3})
    vector("kind 1, GMP", P54_PAID, P54, dated | {"flags": 2})
    vector("kind 1, state pension date without GMP", 4, P54, dated)
    vector("kind 2, transferred in", P25_PAID, P25, {"flags": 1})
    vector("kind 2, transferred in and GMP", P25_PAID, P25, dated | {"flags": 3})
    vector("kind 2, GMP", P25_PAID, P25, dated | {"flags": 2})
    vector("kind 2, state pension date without GMP", 4, P25, dated)
    vector("kind 2, state pension date with the other flag", 4, P25, dated | {"flags": 1})
    for date in ((1, 0, 0), (0, 1, 0), (0, 0, 1)):
        vector(f"a part of the state pension date, {date}", 4, P54, {"state pension date": date})
        vector(f"a part of the line's date in kind 1, {date}", 4, P54, {"line 1 date": date})
    vector("kind 1, transfer-in 1p", 4, P54, {"transfer-in": 1})
    vector("kind 2, transfer-in 1p without its flag", 4, P25, {"transfer-in": 1})
    vector("kind 2, transfer-in 1p with the other flag", 4, P25, dated | {"flags": 2, "transfer-in": 1})
    vector("kind 2, transfer-in 1p", paid("927.00", pension="927.00", underpin="0.01"), P25, {"flags": 1, "transfer-in": 1})
    vector("kind 1, own contributions 1p", 4, P54, {"own contributions": 1})
    vector("kind 2, own contributions 1p without the flag", P25_PAID, P25, {"own contributions": 1})
    vector("kind 1, the line's date", 4, P54, {"line 1 date": (2027, 6, 1)})


def reserved_amounts():
    group("4 reserved, amounts")
    for i in LINES:
        for name in ("lump sum", "modification", "Scheme Pays lump sum", "debit lump sum"):
            vector(f"kind 2, line {i} {name} 1p", 4, P4, {f"line {i} {name}": 1})
    vector("kind 1, lump sum 1p", paid("1,805.01", pension="1,805.00", lump="0.0088"), P54, {"line 1 lump sum": 1})
    vector("kind 1, modification 1p", paid("1,804.88", pension="1,805.00", deduct="0.1242"), P54, {"line 1 modification": 1})
    vector("kind 1, lump sum and Scheme Pays lump sum 1p", P54_PAID, P54, {
        "line 1 lump sum": 1, "line 1 Scheme Pays lump sum": 1,
    })
    for i in (2, 3, 4):
        vector(f"line {i} additional pension 1p", 4, P4, {f"line {i} additional pension": 1})
        vector(f"line {i} dependant's additional 1p", 4, P4, {f"line {i} dependant's additional": 1})
    vector("line 1 additional pension 1p", paid("3,880.09", pension="3,880.0927"), P4, {"line 1 additional pension": 1})
    vector("line 1 dependant's additional 1p", paid("3,880.01", pension="3,880.00", survivor="0.0133"), P4, {
        "line 1 dependant's additional": 1,
    })
    for i in (2, 3, 4):
        for name in AMOUNTS + DIVORCE_DEBITS:
            vector(f"kind 1, line {i} {name} 1p", 4, P54, {f"line {i} {name}": 1})
            vector(f"kind 2, line {i} {name} 1p past the count", 4, lines_up_to(i - 1), {f"line {i} {name}": 1})
        vector(f"kind 1, line {i} date", 4, P54, {f"line {i} date": (2040, 5, 10)})
        vector(f"kind 2, line {i} date past the count", 4, lines_up_to(i - 1), {f"line {i} date": (2040, 5, 10)})


def codes():
    group("5 range, codes")
    vector("case number 0", 5, P54, {"case number": 0})
    vector("case number 1", P54_PAID, P54, {"case number": 1})
    vector("case number 4294967295", P25_PAID, P25, {"case number": 4294967295})
    for status in (0, 5, 255):
        vector(f"status {status}", 5, P54, {"status": status})
    for receiver in (0, 4, 255):
        vector(f"receiving scheme {receiver}", 5, P25, {"receiving scheme": receiver})
    for revaluation in (0, 9_999, 100_001, 2**32 - 1):
        vector(f"revaluation {revaluation}", 5, P54, {"revaluation": revaluation})
    vector("revaluation 10,000", P54_PAID, P54, {"revaluation": 10_000})
    vector("revaluation 100,000", only("18,050.00"), P54, {"revaluation": 100_000})


def amounts():
    """Each amount at the limit and a penny above it; what each is paid at the limit, in pounds."""
    group("5 range, amounts")

    def limited(label, expectation, base, name, changes=None):
        vector(f"{label} at the limit", expectation, base | (changes or {}), {name: LIMIT})
        vector(f"{label} above the limit", 5, base | (changes or {}), {name: LIMIT + 1})
        vector(f"{label} 2 to the power 64 less 1", 5, base | (changes or {}), {name: 2**64 - 1})

    limited("kind 1, AVC", paid("10,000,000.00", avc="10,000,000.00"), AGED_54, "AVC")
    limited("kind 1, pension", only("180,500,000.00"), AGED_54, "line 1 pension")
    limited("kind 1, additional pension", only("180,500,000.00"), AGED_54, "line 1 additional pension")
    limited("kind 1, survivor", paid("15,000,000.00", survivor="15,000,000.00"), AGED_54, "line 1 survivor")
    limited("kind 1, dependant's additional", paid("15,000,000.00", survivor="15,000,000.00"), AGED_54,
            "line 1 dependant's additional")
    limited("kind 1, lump sum", paid("8,800,000.00", lump="8,800,000.00"), AGED_54, "line 1 lump sum")
    limited("kind 1, modification", paid("56,300,000.00", pension="180,500,000.00", deduct="124,200,000.00"), AGED_54,
            "line 1 modification", {"line 1 pension": LIMIT})
    limited("kind 1, Scheme Pays", paid("0"), AGED_54, "line 1 Scheme Pays", {"line 1 pension": LIMIT})
    limited("kind 1, Scheme Pays lump sum", paid("0"), AGED_54, "line 1 Scheme Pays lump sum", {"line 1 lump sum": LIMIT})
    limited("kind 1, debit pension", paid("0", pension="180,500,000.00"), AGED_54, "line 1 debit pension", {
        "line 1 pension": LIMIT,
    })
    limited("kind 1, debit survivor", paid("0", survivor="15,000,000.00"), AGED_54, "line 1 debit survivor", {
        "line 1 survivor": LIMIT,
    })
    limited("kind 1, debit lump sum", paid("0", lump="8,800,000.00"), AGED_54, "line 1 debit lump sum", {
        "line 1 lump sum": LIMIT,
    })
    limited("kind 2, AVC", paid("10,000,000.00", avc="10,000,000.00"), AHEAD_25, "AVC")
    flagged = {"flags": 1}
    limited("kind 2, transfer-in", paid("10,000,000.00", underpin="10,000,000.00"), AHEAD_25, "transfer-in", flagged)
    limited("kind 2, own contributions", paid("10,000,000.00", underpin="10,000,000.00"), AHEAD_25,
            "own contributions", flagged)
    limited("kind 2, own contributions without the flag", paid("0"), AHEAD_25, "own contributions")
    limited("kind 2, additional pension", only("92,700,000.00"), AHEAD_25, "line 1 additional pension")
    limited("kind 2, dependant's additional", paid("13,300,000.00", survivor="13,300,000.00"), AHEAD_25,
            "line 1 dependant's additional")
    pensions = {1: "92,700,000.00", 2: "95,500,000.00", 3: "98,400,000.00", 4: "101,400,000.00"}
    survivors = {1: "13,300,000.00", 2: "13,500,000.00", 3: "13,600,000.00", 4: "13,800,000.00"}
    for i in LINES:
        limited(f"kind 2, line {i} pension", only(pensions[i]), FOUR_LINES, f"line {i} pension")
        limited(f"kind 2, line {i} survivor", paid(survivors[i], survivor=survivors[i]), FOUR_LINES, f"line {i} survivor")
        limited(f"kind 2, line {i} Scheme Pays", paid("0"), FOUR_LINES, f"line {i} Scheme Pays", {
            f"line {i} pension": LIMIT,
        })
        limited(f"kind 2, line {i} debit pension", paid("0", pension=pensions[i]), FOUR_LINES, f"line {i} debit pension", {
            f"line {i} pension": LIMIT,
        })
        limited(f"kind 2, line {i} debit survivor", paid("0", survivor=survivors[i]), FOUR_LINES, f"line {i} debit survivor", {
            f"line {i} survivor": LIMIT,
        })


def days():
    group("5 range, dates")
    early = P54 | {"leaving": (1950, 1, 1), "guarantee": (1955, 1, 1)}
    vector("birth 31 December 1899", 5, early, {"birth": (1899, 12, 31)})
    vector("birth 1 January 1900, age 55", only("1,848.00"), early, {"birth": (1900, 1, 1)})
    late = P54 | {"birth": (2145, 12, 31), "leaving": (2150, 1, 1)}
    vector("guarantee 31 December 2199", P54_PAID, late, {"guarantee": (2199, 12, 31)})
    vector("guarantee 1 January 2200", 5, late, {"guarantee": (2200, 1, 1)})
    vector("leaving 1 January 2200", 5, late, {"leaving": (2200, 1, 1), "guarantee": (2199, 12, 31)})
    last = P25 | {"birth": (2134, 12, 31), "leaving": (2149, 12, 31), "guarantee": (2149, 12, 31)}
    vector("line 1 on 31 December 2199, 50 years ahead", only("553.00"), last, {"line 1 date": (2199, 12, 31)})
    vector("line 1 on 1 January 2200", 5, last, {"line 1 date": (2200, 1, 1)})
    gmp = P54 | {"flags": 2}
    vector("state pension date 31 December 1899", 5, gmp, {"state pension date": (1899, 12, 31)})
    vector("state pension date 1 January 1900", 10, gmp, {"state pension date": (1900, 1, 1)})
    vector("state pension date 31 December 2199", P54_PAID, gmp, {"state pension date": (2199, 12, 31)})
    vector("state pension date 1 January 2200", 5, gmp, {"state pension date": (2200, 1, 1)})
    vector("state pension date zero with GMP", 5, gmp)
    for name in ("birth", "leaving", "guarantee"):
        vector(f"{name} zero, kind 1", 5, P54, {name: NO_DATE})
        vector(f"{name} zero, kind 2", 5, P25, {name: NO_DATE})
    for i in LINES:
        vector(f"line {i} date zero", 5, P4, {f"line {i} date": NO_DATE})
        vector(f"line {i} on 29 February 2041", 5, P4, {f"line {i} date": (2041, 2, 29)})
    for birth in (
        (1967, 0, 1), (1967, 13, 1), (1967, 6, 0), (1967, 6, 31), (1967, 12, 32), (1967, 2, 29), (1900, 2, 29),
        (65535, 255, 255),
    ):
        vector(f"birth {birth}", 5, P54, {"birth": birth})
    for birth in ((1967, 6, 30), (1967, 12, 31), (1968, 2, 29)):
        vector(f"birth {birth}, age 53", only("1,764.00"), P54, {"birth": birth})
    vector("guarantee 29 February 2000, age 32", only("1,108.00"), P54, {"guarantee": (2000, 2, 29)})
    century = P54 | {"birth": (2046, 1, 1), "leaving": (2090, 1, 1)}
    vector("guarantee 28 February 2100", P54_PAID, century, {"guarantee": (2100, 2, 28)})
    vector("guarantee 29 February 2100", 5, century, {"guarantee": (2100, 2, 29)})
