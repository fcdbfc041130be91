"""The list of vectors, and what they state: money in pounds; an item that is not stated is nil."""

from fractions import Fraction

from model import refusals
from model.answers import valued
from model.fields import FIELDS

UNITS = {"pay": 100, "pension": 10_000, "lump": 10_000, "survivor": 10_000, "deduct": 10_000, "underpin": 100, "avc": 100}


def paid(pay, **stated):
    stated = {"pay": pay} | stated
    if not set(stated) <= set(UNITS):
        raise ValueError(f"not an item: {sorted(set(stated) - set(UNITS))}")
    amounts = {}
    for name, unit in UNITS.items():
        amount = Fraction(stated.get(name, "0").replace(",", "")) * unit
        if amount.denominator != 1:
            raise ValueError(f"{name}: {stated[name]} is too fine")
        amounts[name] = amount.numerator
    return amounts


def text(expectation):
    if isinstance(expectation, int):
        return refusals.text(expectation)
    return " ".join(f"{name} {expectation[name]}" for name in UNITS)


VECTORS = []  # group, label, expectation, case
LABELS = set()
FAULTS = []
_group = ""


def group(name):
    global _group
    _group = name


def vector(label, expectation, base, changes=None, wrong=None):
    """A case with some fields changed. `wrong` is a payment or a refusal that a known mistake would give."""
    case = base | (changes or {})
    found = valued(case)
    if found != expectation:
        FAULTS.append(f"{_group}: {label}: stated {text(expectation)}, model {text(found)}")
    if set(case) != set(FIELDS):
        FAULTS.append(f"{_group}: {label}: a field name is wrong")
    if (_group, label) in LABELS:
        FAULTS.append(f"{_group}: {label}: label used twice")
    if wrong is not None and expectation["pay"] == paid(wrong)["pay"]:
        FAULTS.append(f"{_group}: {label}: the mistake does not show")
    LABELS.add((_group, label))
    VECTORS.append((_group, label, expectation, case))


def only(pounds):
    """Paid as many pounds, all of it pension."""
    return paid(pounds, pension=pounds)
