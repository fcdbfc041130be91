"""Two faults and more: the first refusal is given."""

from cases import KIND_1, KIND_1_NO_GMP, KIND_2, KIND_2_NO_TRANSFER, KIND_3, NOT_OPTANT, OF_CHOICE_OPTANTS, kind_2_of
from making import group, vector, vector_of_bytes, with_bytes
from model.blocks import block_of, check_of, encoded, sealed, with_check
from model.fields import DIVORCE_DEBITS, NO_DATE
from model.rules import LIMIT


def order_1():
    group("order, 1 first")
    one, two = block_of(KIND_1), block_of(KIND_2)
    wrong = with_check(two, 0)
    vector_of_bytes("511 bytes, byte 100 changed", 1, with_bytes(two, {100: two[100] ^ 1})[:511])
    vector_of_bytes("513 bytes and check wrong", 1, wrong + b"\0")
    vector_of_bytes("513 bytes and kind 4", 1, block_of(KIND_1 | {"kind": 4}) + b"\0")
    vector_of_bytes("511 bytes and kind 4", 1, block_of(KIND_1 | {"kind": 4})[:511])
    vector_of_bytes("513 bytes and byte 2 set", 1, sealed(with_bytes(one, {2: 1})) + b"\0")
    vector_of_bytes("513 bytes and case number 0", 1, block_of(KIND_1 | {"case number": 0}) + b"\0")
    vector_of_bytes("513 bytes and sex 1 in kind 1", 1, block_of(KIND_1 | {"sex": 1}) + b"\0")
    vector_of_bytes("513 bytes and sex 0 in kind 3", 1, block_of(KIND_3 | {"sex": 0}) + b"\0")
    vector_of_bytes("511 bytes and sex 3 in kind 3", 1, block_of(KIND_3 | {"sex": 3})[:511])


def order_2():
    group("order, 2 first")

    def unsealed(label, base, changes, put=None):
        """The faults are put in and the check stays that of the good case."""
        block = with_bytes(encoded(base | changes), put or {})
        vector_of_bytes(label, 2, with_check(block, check_of(encoded(base))))

    unsealed("check and kind 0", KIND_1, {"kind": 0})
    unsealed("check and kind 2 for 1", KIND_1, {"kind": 2})
    unsealed("check and count 5", KIND_2, {"count": 5})
    unsealed("check and byte 3", KIND_2, {}, {3: 1})
    unsealed("check and byte 507", KIND_2, {}, {507: 255})
    unsealed("check and flag 4", KIND_1, {"flags": 6})
    unsealed("check and case number 0", KIND_2, {"case number": 0})
    unsealed("check and line 4 debit survivor above", KIND_2, {"line 4 debit survivor": LIMIT + 1})
    unsealed("check and month 13", KIND_2, {"birth": (1979, 13, 3)})
    unsealed("check, kind, byte and range", KIND_2, {"kind": 9, "status": 0}, {450: 7})
    unsealed("check and sex 1 in kind 1", KIND_1, {"sex": 1})
    unsealed("check and sex 0 in kind 3", KIND_3, {"sex": 0})
    unsealed("check and sex 1 for 2", KIND_3, {"sex": 1})
    unsealed("check and byte 15", KIND_3, {}, {15: 1})
    unsealed("check and kind 3 for 1", KIND_1, {"kind": 3})
    unsealed("check and count 2 in kind 3", KIND_3, {"count": 2})
    unsealed("check and flag 4 missing", KIND_3, {"flags": 2})
    unsealed("check and own contributions in kind 3", KIND_3, {"own contributions": 1})


def order_3():
    group("order, 3 first")
    vector("kind 0 and byte 2", 3, KIND_1, {"kind": 0}, {2: 1})
    vector("kind 4 and byte 507", 3, KIND_2, {"kind": 4}, {507: 1})
    vector("kind 4 and sex 1", 3, KIND_1, {"kind": 4, "sex": 1})
    vector("kind 257 and flag 128", 3, KIND_1, {"kind": 257, "flags": 130})
    vector("kind 1, count 2 and line 3 pension", 3, KIND_1, {"count": 2, "line 3 pension": 1})
    vector("kind 1, count 2 and byte 36", 3, KIND_1, {"count": 2}, {36: 1})
    vector("kind 2, count 5 and lump sum", 3, KIND_2, {"count": 5, "line 1 lump sum": 1})
    vector("kind 1, count 2 and line 3 debit pension", 3, KIND_1, {"count": 2, "line 3 debit pension": 1})
    vector("kind 2, count 5 and debit lump sum", 3, KIND_2, {"count": 5, "line 1 debit lump sum": 1})
    vector("kind 4 and byte 448", 3, KIND_1, {"kind": 4}, {448: 1})
    vector("kind 4 and debit pension above", 3, KIND_1, {"kind": 4, "line 1 debit pension": LIMIT + 1})
    vector("kind 2, count 0 with lines", 3, KIND_2, {"count": 0})
    vector("kind 0 and case number 0", 3, KIND_1, {"kind": 0, "case number": 0})
    vector("kind 4 and birth zero", 3, KIND_1, {"kind": 4, "birth": NO_DATE})
    vector("kind 2, count 5 and status 0", 3, KIND_2, {"count": 5, "status": 0})
    vector("kind 2, count 0 and AVC above", 3, KIND_2, {"count": 0, "AVC": LIMIT + 1})
    vector("kind 4, byte 2 and case number 0", 3, KIND_2, {"kind": 4, "case number": 0}, {2: 1})
    for code in (1, 2, 255):
        vector(f"kind 1, count 2 and sex {code}", 3, KIND_1, {"count": 2, "sex": code})
        vector(f"kind 2, count 5 and sex {code}", 3, KIND_2, {"count": 5, "sex": code})
    vector("kind 1, count 0 and flag 4", 3, KIND_1, {"count": 0, "flags": 6})
    vector("kind 2, count 0 and flag 4", 3, KIND_2, {"count": 0, "flags": 7})


def order_4():
    group("order, 4 first")
    vector("byte 2 and case number 0", 4, KIND_1, {"case number": 0}, {2: 1})
    vector("byte 507 and case number 0", 4, KIND_2, {"case number": 0}, {507: 1})
    vector("byte 448 and status 5", 4, KIND_2, {"status": 5}, {448: 1})
    vector("byte 287 and birth zero", 4, KIND_2, {"birth": NO_DATE}, {287: 1})
    vector("byte 39 and revaluation 0", 4, KIND_1, {"revaluation": 0}, {39: 1})
    vector("flag 4 and receiving scheme 0", 4, KIND_1, {"flags": 6, "receiving scheme": 0})
    vector("transfer flag in kind 1 and status 0", 4, KIND_1, {"flags": 3, "status": 0})
    vector("line 4 lump sum and AVC above", 4, KIND_2, {"line 4 lump sum": 1, "AVC": LIMIT + 1})
    vector("line 4 Scheme Pays lump sum and month 13", 4, KIND_2, {
        "line 4 Scheme Pays lump sum": 1, "birth": (1979, 13, 3),
    })
    vector("line 2 additional pension and line 1 date zero", 4, KIND_2, {
        "line 2 additional pension": 1, "line 1 date": NO_DATE,
    })
    vector("line 3 past the count and line 2 date zero", 4, kind_2_of(2), {
        "line 3 pension": 1, "line 2 date": NO_DATE,
    })
    vector("own contributions above in kind 1", 4, KIND_1, {"own contributions": LIMIT + 1})
    vector("transfer-in above without its flag", 4, KIND_2_NO_TRANSFER, {"transfer-in": LIMIT + 1})
    vector("modification above in kind 2", 4, KIND_2, {"line 1 modification": 2**64 - 1})
    vector("line 2 dependant's additional above", 4, KIND_2, {
        "line 2 dependant's additional": LIMIT + 1,
    })
    vector("line's date in kind 1 no real day", 4, KIND_1, {"line 1 date": (2019, 2, 29)})
    vector("state pension date no real day without GMP", 4, KIND_1_NO_GMP, {
        "state pension date": (2019, 2, 29),
    })
    vector("line past the count no real day", 4, kind_2_of(3), {"line 4 date": (2019, 2, 29)})
    order_4_divorce()


def order_4_divorce():
    above = LIMIT + 1
    vector("byte 448 and line 4 debit survivor above", 4, KIND_2, {"line 4 debit survivor": above}, {448: 1})
    vector("byte 507 and debit lump sum above", 4, KIND_1, {"line 1 debit lump sum": above}, {507: 1})
    vector("line 2 debit pension in kind 1, and line 1 debit pension above", 4, KIND_1, {
        "line 2 debit pension": 1, "line 1 debit pension": above,
    })
    vector("line 4 debit survivor past the count, and line 3 debit survivor above", 4, kind_2_of(3), {
        "line 4 debit survivor": 1, "line 3 debit survivor": above,
    })
    for line in (1, 2, 3, 4):
        vector(f"line {line} debit lump sum in kind 2, and line 1 debit pension above", 4, KIND_2, {
            f"line {line} debit lump sum": 1, "line 1 debit pension": above,
        })
        vector(f"line {line} debit lump sum above in kind 2", 4, KIND_2, {f"line {line} debit lump sum": above})
    for name in DIVORCE_DEBITS:
        for line in (2, 3, 4):
            past = {f"line {line} {name}": above}
            vector(f"line {line} {name} above in kind 1", 4, KIND_1, past)
            vector(f"line {line} {name} above past the count", 4, kind_2_of(line - 1), past)
    vector("line 2 debit pension past the count, and case number 0", 4, kind_2_of(1), {
        "line 2 debit pension": 1, "case number": 0,
    })


# Faults of a kind 3 case by their refusal: fields changed, flags added or bytes put. Any two may be made together.
THREES = {"kind 4": {"kind": 4}, "count 2": {"count": 2}}
FOURS = {
    "line's date": {"line 1 date": (2031, 8, 23)},
    "own contributions": {"own contributions": 1},
    "own contributions above": {"own contributions": LIMIT + 1},
    "transfer-in": {"transfer-in": 1},
    "line 2 pension": {"line 2 pension": 1},
    "line 4 debit lump sum": {"line 4 debit lump sum": 1},
    "line 2 additional pension": {"line 2 additional pension": LIMIT + 1},
}
FOURS_OF_FLAGS = {"transfer flag": 1, "flag 8": 8, "flag 128": 128}
FOURS_OF_BYTES = {"byte 2": {2: 1}, "byte 15": {15: 1}, "byte 36": {36: 1}, "byte 68": {68: 1}, "byte 507": {507: 1}}
FIVES = {
    "sex 0": {"sex": 0},
    "sex 3": {"sex": 3},
    "case number 0": {"case number": 0},
    "revaluation 0": {"revaluation": 0},
    "AVC above": {"AVC": LIMIT + 1},
    "birth no real day": {"birth": (1966, 2, 29)},
}


def order_in_kind_3():
    """Each fault with each of a later refusal, for a Choice Optant and for another member."""
    for optant, base in ((True, KIND_3), (False, NOT_OPTANT)):
        member = "Choice Optant" if optant else "no Choice Optant"
        group(f"order in kind 3, {member}")
        fours = {label: (changes, {}) for label, changes in FOURS.items()}
        fours |= {label: ({"flags": base["flags"] + bit}, {}) for label, bit in FOURS_OF_FLAGS.items()}
        fours |= {label: ({}, put) for label, put in FOURS_OF_BYTES.items()}
        fives = dict(FIVES)
        for name in OF_CHOICE_OPTANTS:
            if optant:
                fives[f"{name} above"] = {name: LIMIT + 1}
            else:
                fours[name] = ({name: 1}, {})
                fours[f"{name} above"] = ({name: LIMIT + 1}, {})
        for label, (changes, put) in fours.items():
            vector(f"{label} alone", 4, base, changes, put)
            for three, wrong in THREES.items():
                vector(f"{three} and {label}", 3, base, wrong | changes, put)
            for five, wrong in fives.items():
                vector(f"{label} and {five}", 4, base, changes | wrong, put)
        for five, wrong in fives.items():
            vector(f"{five} alone", 5, base, wrong)
            for three, changes in THREES.items():
                vector(f"{three} and {five}", 3, base, changes | wrong)
        vector("every range broken", 5, base, {name: value for wrong in fives.values() for name, value in wrong.items()})


def order_of_the_sex():
    """The sex and flag 4 in the kinds that have neither, with each range broken."""
    group("order, sex and flag 4 in kinds 1 and 2")
    for kind_label, base in (("kind 1", KIND_1), ("kind 2", KIND_2)):
        for five, wrong in FIVES.items():
            if "sex" not in wrong:
                vector(f"{kind_label}, sex 1 and {five}", 4, base, {"sex": 1} | wrong)
                vector(f"{kind_label}, flag 4 and {five}", 4, base, {"flags": base["flags"] + 4} | wrong)
        vector(f"{kind_label}, sex 1 and flag 4", 4, base, {"sex": 1, "flags": base["flags"] + 4})
        vector(f"{kind_label}, sex 1 and byte 507", 4, base, {"sex": 1}, {507: 1})


def several_ranges():
    group("several ranges broken")
    vector("case number, status and receiving scheme 0", 5, KIND_1, {
        "case number": 0, "status": 0, "receiving scheme": 0,
    })
    vector("every date zero", 5, KIND_1, {
        "birth": NO_DATE, "leaving": NO_DATE, "guarantee": NO_DATE, "state pension date": NO_DATE,
    })
    vector("two amounts that add up to 0 in 64 bits", 5, KIND_1, {
        "line 1 pension": 2**63, "line 1 additional pension": 2**63,
    })
    vector("two divorce debits that add up to 0 in 64 bits", 5, KIND_1, {
        "line 1 debit pension": 2**63, "line 1 debit survivor": 2**63,
    })
    vector("every divorce debit above", 5, KIND_2, {
        f"line {line} {name}": LIMIT + 1 for line in (1, 2, 3, 4) for name in ("debit pension", "debit survivor")
    })
