"""The order of the refusals: each with each that is tested after it."""

from cases import (
    AGED_54, KIND_1_FAULTS, KIND_2_FAULTS, KIND_3_FAULTS, OF_CHOICE_OPTANTS, OPTANT_FAULTS, OPTANT_P50, P25, P4,
    P50, P54,
)
from making import group, vector
from model.rules import LIMIT


def order_of_tests():
    group("order of tests")
    sets = (
        ("kind 1", P54 | {"leaving": (2021, 6, 1)}, KIND_1_FAULTS),
        ("kind 2", P4, KIND_2_FAULTS),
        ("kind 3", P50 | {"leaving": (2020, 5, 10)}, KIND_3_FAULTS),
        ("kind 3, Choice Optant", OPTANT_P50 | {"leaving": (2020, 5, 10)}, OPTANT_FAULTS),
    )
    for label, base, faults in sets:
        numbers = list(faults)
        for at, first in enumerate(numbers):
            vector(f"{label}, {first} alone", first, base, faults[first])
            for second in numbers[at + 1:]:
                if label == "kind 2" or (first, second) != (11, 12):
                    vector(f"{label}, {first} before {second}", first, base, faults[first] | faults[second])
        # After the last but one only one follows, and that pair stands above.
        for at, first in enumerate(numbers[:-2]):
            several = {}
            for number in numbers[at:]:
                if label == "kind 2" or number != 12 or 11 not in numbers[at:]:
                    several |= faults[number]
            vector(f"{label}, {first} and all that follow", first, base, several)
    # Age 60 has no row in kind 1 either, nor age 65 in kind 3; neither have lines on the guarantee date.
    vector("kind 1, age 60 has no row", 11, P54, KIND_1_FAULTS[11])
    vector("kind 3, age 65 has no row", 11, P50, KIND_3_FAULTS[11])
    vector("kind 2, no line has a row", 11, P25, {"birth": (1950, 1, 1), "line 1 date": (2020, 5, 10)})
    # An absent row counts with Scheme Pays on the other lines, and the other way about.
    vector("kind 2, no row on line 1 and Scheme Pays on line 4", 12, P4, KIND_2_FAULTS[12] | {"line 4 Scheme Pays": 100_01})
    vector("kind 1, an excess of Scheme Pays is not a negative total", 13, AGED_54, {"line 1 Scheme Pays": 1})
    vector("status not listed and receiver 2", 5, P54, {"status": 5, "receiving scheme": 2})
    vector("status 2 and receiver not listed", 5, P54, {"status": 2, "receiving scheme": 4})


def together(*several):
    """Changes made together; flags are added to each other."""
    made, flags = {}, 0
    for changes in several:
        made |= changes
        flags |= changes.get("flags", 0)
    return made | ({"flags": flags} if flags else {})


def order_with_sex_and_choice_optants():
    """What must be zero in kind 3, the sex and flag 4 in other kinds: each with one fault of every other refusal."""
    fours = {
        "the line's date": {"line 1 date": (2035, 5, 10)},
        "transferred in": {"flags": 1},
        "transfer-in": {"transfer-in": 1},
        "own contributions": {"own contributions": 1},
        "flag 8": {"flags": 8},
    }
    lump_sums = {f"{name} {pence}p": {f"line 1 {name}": pence} for name in OF_CHOICE_OPTANTS for pence in (1, LIMIT + 1)}
    of_kind_3 = P50 | {"leaving": (2020, 5, 10)}
    optant = OPTANT_P50 | {"leaving": (2020, 5, 10)}
    sets = [
        ("kind 3", of_kind_3, KIND_3_FAULTS, fours | lump_sums),
        ("kind 3, Choice Optant", optant, OPTANT_FAULTS, fours),
        ("kind 1", P54 | {"leaving": (2021, 6, 1)}, KIND_1_FAULTS, {"sex 1": {"sex": 1}, "flag 4": {"flags": 4}}),
        ("kind 2", P4, KIND_2_FAULTS, {"sex 1": {"sex": 1}, "flag 4": {"flags": 4}}),
    ]
    for label, base, faults, wrongs in sets:
        group(f"order of tests, 4 in {label}")
        for name, wrong in wrongs.items():
            for number, fault in faults.items():
                if number != 4:
                    vector(f"{name} and {number}", 3 if number == 3 else 4, base, together(base, wrong, fault))
    for label, base, faults in (("kind 3", of_kind_3, KIND_3_FAULTS), ("kind 3, Choice Optant", optant, OPTANT_FAULTS)):
        group(f"order of tests, 5 in {label}")
        for code in (0, 3, 255):
            for number, fault in faults.items():
                if number != 5:
                    vector(f"sex {code} and {number}", min(number, 5), base, together(base, fault, {"sex": code}))
        vector("sex 0, the lump sum above the limit", 5 if base["flags"] else 4, base, {"sex": 0, "line 1 lump sum": LIMIT + 1})
        vector("sex 3 and leaving before birth", 5, base, {"sex": 3, "leaving": (1970, 5, 9)})
    group("order of tests, pairs of kind 3")
    vector("a pensioner of 65", 7, of_kind_3, {"status": 3, "birth": (1955, 5, 10)})
    vector("65 and Scheme Pays above", 11, of_kind_3, {"birth": (1955, 5, 10), "line 1 Scheme Pays": 100_01})
    vector("17 and a total below zero", 12, of_kind_3, {"birth": (2002, 5, 11), "line 1 modification": 200_00})
    vector("17 and an award above", 12, of_kind_3, {"birth": (2002, 5, 11), "line 1 debit pension": 100_01})
    vector("Scheme Pays above the pension and the lump sum", 13, optant, {
        "line 1 Scheme Pays": 100_01, "line 1 Scheme Pays lump sum": 1, "line 1 modification": LIMIT,
    })
    vector("born on the guarantee date, no sex", 5, of_kind_3, {"birth": (2020, 5, 10), "sex": 0})
