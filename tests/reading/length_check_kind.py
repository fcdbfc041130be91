"""Refusals 1 to 3: the length, the check, and the kind with its count of lines."""

from cases import CASES, KIND_1, KIND_2, KIND_3, KIND_3_CASES, NOT_OPTANT, kind_2_of
from making import READ, group, vector, vector_of_bytes, with_bytes
from model.blocks import block_of, check_of, encoded, with_check


def length():
    group("1 length")
    for label, base in CASES.items():
        block = block_of(base)
        for size in (0, 1, 256, 508, 510, 511):
            vector_of_bytes(f"{label}, first {size} bytes", 1, block[:size])
        vector_of_bytes(f"{label}, 512 bytes", READ, block)
        vector_of_bytes(f"{label}, last 511 bytes", 1, block[1:])
        vector_of_bytes(f"{label}, 513 bytes, the last 0", 1, block + b"\0")
        vector_of_bytes(f"{label}, 513 bytes, the last 1", 1, block + b"\1")
        vector_of_bytes(f"{label}, 513 bytes, the first 0", 1, b"\0" + block)
    vector_of_bytes("one byte 0", 1, b"\0")
    vector_of_bytes("511 zeros", 1, bytes(511))
    vector_of_bytes("513 zeros", 1, bytes(513))


def swapped(block, first, second):
    if block[first] == block[second]:
        raise ValueError(f"bytes {first} and {second} are the same")
    return with_bytes(block, {first: block[second], second: block[first]})


def check():
    group("2 check")
    for label, base in CASES.items():
        block = block_of(base)
        true_check = check_of(block)
        for position in (508, 509, 510, 511):
            for bit in (1, 128):
                wrong = with_bytes(block, {position: block[position] ^ bit})
                vector_of_bytes(f"{label}, check byte {position}, bit {bit}", 2, wrong)
        vector_of_bytes(f"{label}, check one more", 2, with_check(block, true_check + 1))
        vector_of_bytes(f"{label}, check one less", 2, with_check(block, true_check - 1))
        vector_of_bytes(f"{label}, check 0", 2, with_check(block, 0))
        vector_of_bytes(f"{label}, check 4294967295", 2, with_check(block, 2**32 - 1))
        divorce = (352, 359, 368, 375, 376, 399, 400, 423, 424, 447, 448)
        for position in (0, 2, 4, 14, 15, 75, 255, 256, 287, 304, *divorce, 507):
            wrong = with_bytes(block, {position: block[position] ^ 1})
            vector_of_bytes(f"{label}, byte {position} changed", 2, wrong)
        vector_of_bytes(f"{label}, bytes 4 and 5 swapped", 2, swapped(block, 4, 5))
        vector_of_bytes(f"{label}, bytes 40 and 74 swapped", 2, swapped(block, 40, 74))
        vector_of_bytes(f"{label}, bytes 72 and 507 swapped", 2, swapped(block, 72, 507))
    fields_swapped = KIND_2 | {
        "AVC": KIND_2["own contributions"],
        "own contributions": KIND_2["AVC"],
    }
    wrong = with_check(encoded(fields_swapped), check_of(encoded(KIND_2)))
    vector_of_bytes("AVC and own contributions swapped", 2, wrong)


def other_sums():
    group("2 check, other sums")
    block = block_of(KIND_2)
    right = check_of(block)
    weighted = list(enumerate(block[:508]))
    sums = {
        "position times the byte": sum(i * b for i, b in weighted),
        "position plus 2": sum((i + 2) * b for i, b in weighted),
        "positions from the end": sum((508 - i) * b for i, b in weighted),
        "bytes alone": sum(block[:508]),
        "16 bits of the sum": right % 2**16,
        "complement of the sum": 2**32 - right,
        "high byte first": int.from_bytes(right.to_bytes(4, "big"), "little"),
        "without byte 0": right - block[0],
        "bytes 508 to 511 counted too": right + sum((i + 1) * block[i] for i in range(508, 512)),
    }
    for label, wrong in sums.items():
        vector_of_bytes(label, 2, with_check(block, wrong))
    vector_of_bytes("byte 507 set, not in the check", 2, with_bytes(block, {507: 1}))
    vector_of_bytes("bytes all 255", 2, b"\xff" * 512)


def stated_checks():
    """Blocks of no kind whose check is worked out by hand: with it they are refused 3."""
    group("2 check, stated sums")
    blocks = [
        ("zeros", {}, 0),
        ("zeros but byte 0 is 1", {0: 1}, 1),
        ("zeros but byte 0 is 2", {0: 2}, 2),
        ("zeros but byte 0 is 3", {0: 3}, 3),
        ("zeros but byte 255 is 1", {255: 1}, 256),
        ("zeros but byte 256 is 255", {256: 255}, 65_535),
        ("zeros but byte 507 is 1", {507: 1}, 508),
        ("zeros but byte 507 is 255", {507: 255}, 129_540),
        ("bytes all 255", {position: 255 for position in range(508)}, 32_967_930),
    ]
    for label, put, stated in blocks:
        block = with_bytes(bytes(512), put)
        vector_of_bytes(f"{label}, check {stated}", 3, with_check(block, stated))
        vector_of_bytes(f"{label}, check {stated + 1}", 2, with_check(block, stated + 1))


def checks_by_words():
    """The check taken a 32-bit word at a time, in rows of eight words: bytes at the edges of words and rows, and the sums that
    such a check gives when it is wrong. The blocks are of no kind; with the right check they are refused 3."""
    group("2 check, by words")
    for position in (3, 4, 31, 32, 447, 448, 479, 480, 503, 504):
        block = with_bytes(bytes(512), {position: 255})
        stated = 255 * (position + 1)
        vector_of_bytes(f"byte {position} is 255, check {stated}", 3, with_check(block, stated))
        vector_of_bytes(f"byte {position} is 255, check {stated - 255}", 2, with_check(block, stated - 255))
    block = bytes((37 * i + 16) % 256 for i in range(508)) + bytes(4)
    right = check_of(block)

    def with_own_word(stated):
        """The sum that counts the check's own bytes too, where the block holds this check."""
        return right + sum((508 + i + 1) * byte for i, byte in enumerate(stated.to_bytes(4, "little")))

    sums = {
        "the bytes of each word in the other order": sum((4 * (i // 4) + 4 - i % 4) * block[i] for i in range(508)),
        "the last word left out": right - sum((i + 1) * block[i] for i in range(504, 508)),
        "the words after the last whole row left out": right - sum((i + 1) * block[i] for i in range(480, 508)),
        "the word of the check taken in": next(n for n in range(right, right + 2**20) if n == with_own_word(n)),
        "each row counted once too often": right + 32 * sum(block[:480]),
        "the last row counted once too often": right + 32 * sum(block[448:480]),
    }
    vector_of_bytes("bytes of every size, right check", 3, with_check(block, right))
    for label, wrong in sums.items():
        vector_of_bytes(label, 2, with_check(block, wrong))


def check_kept():
    """The check agrees although it was made for other bytes, or by chance."""
    group("check right for other reasons")
    number = KIND_2["case number"]
    transfer_in = KIND_2["transfer-in"]
    additional = KIND_2["line 1 dependant's additional"]

    def kept(label, expectation, changes, put=None):
        """The block changed in two places, with the check of the one before."""
        block = with_bytes(encoded(KIND_2 | changes), put or {})
        vector_of_bytes(label, expectation, with_check(block, check_of(block_of(KIND_2))))

    # Byte 48 counts 49 times and byte 97 counts 98 times.
    changes = {"transfer-in": transfer_in + 2, "line 1 dependant's additional": additional - 256}
    kept("transfer-in 2 more, dependant's additional 256 less", READ, changes)
    # Byte 4 counts 5 times, byte 9 counts 10 times, byte 14 counts 15 times.
    changes = {"case number": number - 4, "receiving scheme": 4}
    kept("case number 4 less, receiving scheme 2 more", 5, changes)
    kept("case number 3 less, sex 1", 4, {"case number": number - 3, "sex": 1})
    # Byte 0 counts once, byte 1 twice.
    kept("kind 256", 3, {"kind": 256})


def kind():
    group("3 kind")
    vector_of_bytes("block of zeros", 3, bytes(512))
    for number in (0, 4, 5, 128, 255, 256, 256 + 1, 256 + 2, 512, 2**15 + 1, 2**15 + 2, 65535):
        vector(f"kind {number} in a kind 1 case", 3, KIND_1, {"kind": number})
    for number in (0, 4, 256 + 1, 256 + 2, 512, 65535):
        vector(f"kind {number} in a kind 2 case", 3, KIND_2, {"kind": number})
        vector(f"kind {number}, one line", 3, kind_2_of(1), {"kind": number})
    for number in (0, 4, 5, 255, 256, 256 + 3, 512 + 3, 768, 2**15 + 3, 65535):
        for label, base in KIND_3_CASES.items():
            vector(f"kind {number} in place of {label}", 3, base, {"kind": number})
    for count in (0, 2, 3, 4, 5, 129, 255):
        vector(f"kind 1, count {count}", 3, KIND_1, {"count": count})
        vector(f"kind 3, count {count}", 3, NOT_OPTANT, {"count": count})
        vector(f"kind 3, Choice Optant, count {count}", 3, KIND_3, {"count": count})
    for count in (0, 5, 6, 128, 132, 255):
        vector(f"kind 2, count {count}", 3, KIND_2, {"count": count})
    vector("kind 2, count 0, no lines", 3, kind_2_of(1), {"count": 0})
    vector("kind 1 with four lines", 3, KIND_2, {"kind": 1})
    vector("kind 3 with four lines", 3, KIND_2, {"kind": 3})
    vector("kind 3 with four lines and a sex", 3, KIND_2, {"kind": 3, "sex": 1})
