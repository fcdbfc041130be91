"""What reading a block and valuing a case give: the number of the first refusal that applies, or the answer."""

from . import blocks
from .fields import BLOCK
from .rules import FORM, IN_ORDER
from .sums import payment


def read(block):
    """The case that a block holds, or a refusal. A byte that no field names must be zero, as other reserved ones must."""
    if len(block) != BLOCK:
        return 1
    if blocks.check_in(block) != blocks.check_of(block):
        return 2
    case = blocks.decoded(block)
    for number, fault in FORM:
        if fault(case) or (number == 4 and any(blocks.unnamed(block))):
            return number
    return case


def valued(case):
    """The payment with its items, or a refusal."""
    for number, fault in IN_ORDER:
        if fault(case):
            return number
    return payment(case)
