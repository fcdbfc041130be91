"""The list of vectors, and how one is made from a good case: fields changed, bytes put, the check set."""

from model import answers
from model.blocks import block_of, decoded, encoded, sealed
from model.fields import FIELDS

READ = "read"


def outcome(block):
    """READ or the number of the first refusal that applies, by the model."""
    answer = answers.read(block)
    return answer if isinstance(answer, int) else READ


def printed(values):
    return " ".join(
        "-".join(map(str, value)) if isinstance(value, tuple) else str(value)
        for value in values
    )


def with_bytes(block, put):
    """The block with bytes put at positions, the check left as it was."""
    block = bytearray(block)
    for position, byte in put.items():
        block[position] = byte
    return bytes(block)


VECTORS = []  # group, label, expectation, block
LABELS = set()
BASES = set()  # the cases that vectors start from, each tried once
FAULTS = []
_group = ""


def group(name):
    global _group
    _group = name


def vector_of_bytes(label, expectation, block):
    VECTORS.append((_group, label, expectation, bytes(block)))
    found = outcome(block)
    if found != expectation:
        FAULTS.append(f"{_group}: {label}: stated {expectation}, model {found}")
    if (_group, label) in LABELS:
        FAULTS.append(f"{_group}: {label}: label used twice")
    LABELS.add((_group, label))


def vector(label, expectation, base, changes=None, put=None, text=None):
    """A good case with some fields changed, then some bytes put, then the check set.

    `text` is the line expected after "read", written by hand.
    """
    fields = base | (changes or {})
    block = sealed(with_bytes(encoded(fields), put or {}))
    vector_of_bytes(label, expectation, block)
    if tuple(base.values()) not in BASES:
        BASES.add(tuple(base.values()))
        if outcome(block_of(base)) != READ:
            FAULTS.append(f"{_group}: {label}: the case it starts from is not read")
    if set(fields) != set(FIELDS):
        FAULTS.append(f"{_group}: {label}: a field name is wrong")
    if expectation == READ:
        line = printed(decoded(block).values())
        if line != printed(fields.values()):
            FAULTS.append(f"{_group}: {label}: the fields read are not those put in")
        if text is not None and line != " ".join(text.split()):
            FAULTS.append(f"{_group}: {label}: the line differs from the stated one")
