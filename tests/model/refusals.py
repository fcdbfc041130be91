"""The refusals: number and name.

    python3 tests/model/refusals.py   a line for each, as refusals_check prints them
"""

NAMES = {
    1: "length",
    2: "check",
    3: "kind",
    4: "reserved",
    5: "range",
    6: "dates",
    7: "status",
    8: "receiver",
    9: "service",
    10: "refer",
    11: "age",
    12: "factor",
    13: "debit",
    14: "negative",
    15: "buffer",
    16: "award",
    17: "order",
}


def text(number):
    """A refusal as a line shows it."""
    return f"refused {number} {NAMES[number]}"


if __name__ == "__main__":
    for listed, name in NAMES.items():
        print(listed, name)
