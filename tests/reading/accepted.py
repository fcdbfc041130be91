"""Blocks that are read, and those that only valuing turns away."""

from cases import (
    AMOUNTS, CASES, EXAMPLE_A, EXAMPLE_A_TEXT, EXAMPLE_B, EXAMPLE_B_TEXT, EXAMPLE_C, EXAMPLE_C_TEXT, EXAMPLE_D,
    EXAMPLE_D_TEXT, KIND_1, KIND_1_NO_GMP, KIND_1_TEXT, KIND_2, KIND_2_DIVORCE, KIND_2_HEAD, KIND_2_LINES,
    KIND_2_MIDDLE, KIND_2_NO_FLAGS, KIND_2_NO_GMP, KIND_2_NO_TRANSFER, KIND_3, KIND_3_CASES, KIND_3_NO_GMP,
    KIND_3_TEXT, NOT_OPTANT, NOT_OPTANT_NO_GMP, NO_DIVORCE_TEXT, NO_LINE_TEXT, OF_CHOICE_OPTANTS, kind_2_of,
    without_divorce,
)
from making import READ, group, vector
from model.rules import LIMIT


def accepted():
    group("accepted")
    vector("kind 1", READ, KIND_1, text=KIND_1_TEXT)
    for count in (1, 2, 3, 4):
        lines = KIND_2_LINES[:count] + [NO_LINE_TEXT] * (4 - count)
        divorce = KIND_2_DIVORCE[:count] + [NO_DIVORCE_TEXT] * (4 - count)
        text = f"{KIND_2_HEAD} {count} {KIND_2_MIDDLE}" + "".join(lines + divorce)
        vector(f"kind 2, lines {count}", READ, kind_2_of(count), text=text)
    vector("kind 3", READ, KIND_3, text=KIND_3_TEXT)
    vector("001, Example A", READ, EXAMPLE_A, text=EXAMPLE_A_TEXT)
    vector("003, Example B", READ, EXAMPLE_B, text=EXAMPLE_B_TEXT)
    vector("001, Example C", READ, EXAMPLE_C, text=EXAMPLE_C_TEXT)
    vector("001, Example D", READ, EXAMPLE_D, text=EXAMPLE_D_TEXT)
    vector("kind 1 without GMP", READ, KIND_1_NO_GMP)
    vector("kind 2, flags 0, with own contributions", READ, KIND_2_NO_FLAGS)
    vector("kind 2, flags 1", READ, KIND_2_NO_GMP)
    vector("kind 2, flags 2, with own contributions", READ, KIND_2_NO_TRANSFER)
    vector("kind 2, flags 1, transfer-in 0", READ, KIND_2, {"transfer-in": 0})
    for label, base in CASES.items():
        full = {name: LIMIT for at, _, name in AMOUNTS if at == label}
        none = {name: 0 for at, _, name in AMOUNTS if at == label}
        vector(f"{label}, every amount {LIMIT}", READ, base, full)
        vector(f"{label}, every amount 0", READ, base, none)
        vector(f"{label}, no divorce debit", READ, without_divorce(base))
        vector(f"{label}, months 0", READ, base, {"months": 0})
        vector(f"{label}, months 2", READ, base, {"months": 2})
        vector(f"{label}, months 256", READ, base, {"months": 256})
        vector(f"{label}, months 65535", READ, base, {"months": 65535})


def kind_3():
    group("accepted in kind 3")
    for label, base in KIND_3_CASES.items():
        vector(f"{label}, a man", READ, base, {"sex": 1})
        vector(f"{label}, a woman", READ, base, {"sex": 2})
    vector("Choice Optant, none of the lump sum and its debits", READ, KIND_3, {name: 0 for name in OF_CHOICE_OPTANTS})
    for name in OF_CHOICE_OPTANTS:
        vector(f"Choice Optant, {name} 1", READ, KIND_3, {name: 1})
        alone = {other: 0 for other in OF_CHOICE_OPTANTS if other != name}
        vector(f"Choice Optant, {name} alone", READ, KIND_3, alone)
        vector(f"Choice Optant, {name} 0", READ, KIND_3, {name: 0})
        vector(f"Choice Optant without GMP, {name} {LIMIT}", READ, KIND_3_NO_GMP, {name: LIMIT})
    optant = {"kind": 3, "flags": 6, "sex": 1}
    vector("a kind 1 case as that of a Choice Optant", READ, KIND_1, optant)
    vector("a kind 3 case as kind 1", READ, NOT_OPTANT, {"kind": 1, "sex": 0})
    vector("every amount 0, no flag", READ, NOT_OPTANT_NO_GMP, {name: 0 for at, _, name in AMOUNTS if at == "kind 3"})
    full = {name: LIMIT for at, _, name in AMOUNTS if at == "kind 3" and name not in OF_CHOICE_OPTANTS}
    vector(f"every amount {LIMIT}, no flag", READ, NOT_OPTANT_NO_GMP, full)


def left_to_valuing():
    """Cases that only valuing turns away."""
    group("left to valuing")
    early, late = (1960, 1, 2), (2030, 3, 4)
    vector("leaving before birth", READ, KIND_1, {"birth": late, "leaving": early})
    vector("birth and leaving equal", READ, KIND_1, {"birth": early, "leaving": early})
    vector("guarantee before leaving", READ, KIND_1, {"guarantee": early})
    vector("line 1 before the 65th birthday", READ, KIND_2, {"line 1 date": late})
    vector("line 2 after line 1", READ, KIND_2, {"line 2 date": (2199, 1, 1)})
    vector("line 1 before guarantee", READ, EXAMPLE_B, {"line 1 date": early})
    vector("age 60 and more", READ, EXAMPLE_A, {"birth": (1930, 6, 1)})
    vector("state pension date 5 April 2016", READ, KIND_1, {"state pension date": (2016, 4, 5)})
    vector("Scheme Pays above pension", READ, EXAMPLE_A, {"line 1 Scheme Pays": LIMIT})
    vector("total below zero", READ, EXAMPLE_A, {"line 1 modification": LIMIT})
    vector("divorce debit above all benefits", READ, EXAMPLE_A, {"line 1 debit pension": LIMIT})
    vector("divorce debit of a benefit not held", READ, EXAMPLE_B, {"line 1 pension": 0, "line 1 debit pension": 1})
    vector("kind 3, leaving before birth", READ, KIND_3, {"birth": late, "leaving": early})
    vector("kind 3, birth and leaving equal", READ, KIND_3, {"birth": early, "leaving": early})
    vector("kind 3, guarantee before leaving", READ, KIND_3, {"guarantee": early})
    vector("kind 3, age 65 and more", READ, EXAMPLE_D, {"birth": (1930, 6, 1)})
    vector("kind 3, age below 18", READ, EXAMPLE_D, {"birth": (2010, 6, 1)})
    vector("kind 3, state pension date 5 April 2016", READ, KIND_3, {"state pension date": (2016, 4, 5)})
    vector("kind 3, Scheme Pays above pension", READ, EXAMPLE_D, {"line 1 Scheme Pays": LIMIT})
    vector("kind 3, Scheme Pays lump sum above lump sum", READ, EXAMPLE_D, {"line 1 Scheme Pays lump sum": LIMIT})
    vector("kind 3, total below zero", READ, EXAMPLE_D, {"line 1 modification": LIMIT})
    vector("kind 3, divorce debit above all benefits", READ, EXAMPLE_D, {"line 1 debit lump sum": LIMIT})
