#!/usr/bin/env python3
"""Compares what include/cetv.h says with what the library answers.

    check.py HEADER SHARED_OBJECT REFUSALS

Every case is built at the header's positions and widths and answered by the header's rules (rules.py); the library has to form the
same line. REFUSALS is a file with the number and name of each refusal, one to a line. Some lines stand here as 01 and the change
requests give them, so that header and rules cannot be wrong together.
"""

import ctypes
import datetime
import itertools
import operator
import pathlib
import sys

from header import TERMS, Header
from rules import Rules, moved_on

PLACE = 7
# The rules as the header words them, but for reserved, which is read word by word. Each is worked in rules.py by the method of its
# name: where one of these changes, so must that method.
WORDED = {
    "length": "block_len is not CETV_BLOCK_SIZE.",
    "check": "the check differs.",
    "kind": "the kind is not listed, or the count of lines is 0 or more than the kind may have.",
    "range": "a number, code or date is out of its range: - case number 0 - a status, a receiving scheme or in kind 3 a"
    " sex that is not listed - a revaluation factor or an amount outside its limits - one of these dates that is zero"
    " or no real day within the limits: birth, leaving, guarantee; with flag 2, state pension; in kind 2, the pension"
    " date of each line.",
    "dates": "dates contradict each other: - the member left on or before the day of birth - the member left after the"
    " guarantee date - kind 2: line 1 is dated before the 65th birthday - kind 2: another line is dated on or after the"
    " date of line 1.",
    "status": "the member is not deferred.",
    "receiver": "the receiving scheme is not a defined benefit scheme.",
    "service": "fewer months than CETV_MIN_SERVICE.",
    "refer": "flag 2, and a state pension date before 6 April 2016.",
    "age": "pension age is reached: in kinds 1 and 3 the member's age is the pension age or more; in kind 2 a line is"
    " dated on or before the guarantee date.",
    "factor": "the table has no row: in kinds 1 and 3 the age is below its first row; in kind 2 the years ahead of a"
    " line are above its last.",
    "debit": "on a line, a Scheme Pays debit is above the revalued pension or the revalued lump sum that it reduces;"
    " the same amount passes.",
    "negative": "the total is below zero.",
    "buffer": "fewer than CETV_LINE_SIZE bytes are lent. It shows on no line: cetv_value_block gives 0.",
    "award": "the debit value is above the first value.",
    "order": "in kind 2, line 3 is dated on or after the date of line 2, or line 4 on or after that of line 3.",
}
# What else the cases and rules.py go by, and what a caller must know that no case can show. Comments that follow each other stand
# together, so that two of them cannot change places.
SENTENCES = [
    "by the guidance notes of 22 August 2019.",
    "The version of this header: 10000 * major + 100 * minor + patch. That of the library is cetv_version(); a program"
    " should check that the two are equal.",
    "The size of a block, and the least number of bytes to lend for a line of text. No such line is longer.",
    "the 1995 section with pension age 60 the 2015 scheme the 2008 section, pension age 65",
    "Flags are added up. the member transferred benefits in has a guaranteed minimum pension is a Choice Optant of the"
    " 2008 section",
    "The position at which each field starts, counted from 0; the comment starts with its width in bytes. A number is"
    " unsigned, low byte first. A date is a year of 2 bytes, a month of 1 and a day of 1. Amounts are whole pence.",
    "1: how many lines of benefits 2: qualifying service, complete months",
    "4: date of birth 4: date of leaving 4: guarantee date 4: state pension date 4: the factor in ten-thousandths"
    " 8: voluntary fund 8: transfer-in payment 8: own contributions",
    "In kind 2, line 1 is for service without an early retirement buy-out and has the date of the prospective normal"
    " pension age; lines 2 to 4 are for a buy-out period each and have the date of its reduced age. Kinds 1 and 3 have"
    " line 1 alone, without a date.",
    "The divorce debit of line n.",
    "The check: each byte before it times its position counted from 1, summed.",
    "What the amounts are: - benefits and divorce debits are entered as at leaving, and revalued - insurance modification"
    " and both Scheme Pays debits are entered as at the guarantee date, and not revalued - AVC, transfer-in payment and"
    " own contributions are not revalued - pensions, modification and debits on a pension are yearly amounts, lump sums"
    " are paid once - the benefits are those before Scheme Pays and before the divorce debit - a debit pension is of the"
    " pension and the additional pension together, a debit survivor's pension likewise - for a Choice Optant the lump sum"
    " is the mandatory one, and the pension is what commutation leaves.",
    "pence, each amount by itself dates: 1 January of this year to 31 December of this year kind 2; kinds 1 and 3 have"
    " one line complete months",
    "Age is how many birthdays have come by the guarantee date, that day included. The years ahead of a line are the"
    " least number of years that takes the guarantee date to the line's date or past it, so a part of a year counts as"
    " one. A birthday or guarantee date of 29 February falls on 28 February in a common year.",
    "kind 1: youngest age in the table refused from this age on kind 3: the same two kind 2: line 1 is dated on this"
    " birthday or later last row in the table of kind 2",
    "To revalue is to multiply by the revaluation factor and round to the penny. Pension and additional pension are added"
    " first and revalued together, and so are the survivor's pension and the dependant's additional pension. Halves of a"
    " penny go up, here and below. The factors are those of the notes' tables, by age in kinds 1 and 3 and by the years"
    " ahead of each line in kind 2.",
    "pension over all lines, what the Scheme Pays debit leaves of the revalued pension, times its factor lump sum the"
    " same of the lump sum survivor the revalued survivor's pension, times its factor deduction the modification, times"
    " its factor total pension + lump sum + survivor - deduction, not rounded first value the total, rounded to the"
    " penny debit value over all lines, each amount of the divorce debit revalued and multiplied by its benefit's"
    " factor; the sum rounded to the penny gross value first value - debit value underpin with flag 1, transfer-in"
    " payment + own contributions; else 0 payment the larger of gross value and underpin, + AVC",
    "What is said of lines is said of those within the count.",
    "Values one block and forms its line of text at the start of out. block, block_len the block; any bytes of any"
    " length place the number that the line starts with, printed as given out, out_len the result buffer",
    "The answer is the line's length, its line feed included; bytes of out past it keep their contents. The line is not"
    " ended by a zero byte. The answer is 0 where out_len is below CETV_LINE_SIZE (refusal 15), and then no byte of out"
    " changes.",
    "PLACE CASE pay P pension A lump B survivor C deduct D underpin U avc V\\n PLACE CASE refused NUMBER NAME\\n",
    "P, U and V are pounds with two decimals: payment, underpin and AVC. A to D are pounds with four: pension, lump"
    " sum, survivor and deduction of the sum. Counted in pence, an amount may need more than 32 bits. A divorce debit has"
    " no item of its own; it shows in P.",
    "CASE is the case number, and 0 where the block could not be read (refusals 1 to 5). Numbers have no sign, no padding"
    " and no leading zeros, but for the one before the point of an amount below a pound.",
    "A length of 0 with any pointer, NULL too, is an empty block or buffer. With any other length the pointer must be"
    " good for so many bytes: block for reading, out for writing. The two must not overlap, and nothing else may write"
    " to either during the call. No more is asked of the caller; nothing is kept between calls, and calls from several"
    " threads at once are safe.",
    "The version of the library, to be compared with CETV_VERSION.",
]
# 01's codes, and those of the change requests.
CODES = {
    "KIND_1995": 1, "KIND_2015": 2, "KIND_2008": 3,
    "STATUS_DEFERRED": 1, "STATUS_ACTIVE": 2, "STATUS_PENSIONER": 3, "STATUS_PENSION_CREDIT": 4,
    "RECEIVING_DEFINED_BENEFIT": 1, "RECEIVING_DEFINED_CONTRIBUTION": 2, "RECEIVING_OVERSEAS": 3,
    "FLAG_TRANSFER_IN": 1, "FLAG_GMP": 2, "FLAG_CHOICE_OPTANT": 4,
    "SEX_MALE": 1, "SEX_FEMALE": 2,
}
BENEFIT_NAMES = ("PENSION", "ADDITIONAL_PENSION", "SURVIVORS_PENSION", "DEPENDANTS_ADDITIONAL_PENSION", "LUMP_SUM")


def day_after(date, days=1):
    day = datetime.date(*date) + datetime.timedelta(days)
    return day.year, day.month, day.day


class Check:
    def __init__(self, header, library):
        self.header = header
        self.rules = Rules(header)
        self.library = library
        self.lines = 0
        self.faults = []

    def expect(self, holds, what):
        if not holds:
            self.faults.append(what)

    def report(self):
        """Ends the run where something differs."""
        for fault in self.faults[:20]:
            print(fault)
        if self.faults:
            sys.exit(f"header: {len(self.faults)} differences")

    def block(self, case):
        block = bytearray(self.header.constants["BLOCK_SIZE"])
        for key, value in Rules.fields(case):
            if not Rules.filled(value):
                continue
            at, width = self.header.fields[key]
            if isinstance(value, tuple):
                year, month, day = value
                value = year + 65536 * month + 16777216 * day
            block[at:at + width] = value.to_bytes(width, "little")
        for position, byte in case.get("bytes", {}).items():
            block[position] = byte
        at, width = self.header.fields["CHECK", 0]
        check = sum(map(operator.mul, block[:at], range(1, at + 1))) + case.get("check", 0)
        block[at:at + width] = check.to_bytes(width, "little")
        length = case.get("length", len(block))
        return bytes(block[:length]) + bytes(length - min(length, len(block)))

    def answer(self, case):
        """The library's line, or nothing where it answers 0."""
        block = self.block(case)
        lent = case.get("lent", self.header.constants["LINE_SIZE"])
        out = ctypes.create_string_buffer(b"\xa5" * 1024, 1024)
        length = self.library.cetv_value_block(block, len(block), PLACE, out, lent)
        self.expect(out.raw[length:] == b"\xa5" * (1024 - length), "bytes past the line changed")
        self.lines += 1
        return out.raw[:length].decode("latin-1")

    def same(self, what, case):
        """The library's line is that of the header's rules; its text comes back."""
        expected, line = self.rules.line(case, PLACE), self.answer(case)
        self.expect(line == expected, f"{what}: by the header {expected!r}, by the library {line!r}")
        return line

    def stated(self, what, case, line):
        """Both are the line that the papers give."""
        self.expect(self.same(what, case) == line, f"{what}: should be {line!r}")

    # Cases.

    def empty(self):
        names = [key for key in self.header.fields if key[0] != "CHECK"]
        dates = [name for name, _ in names if name.endswith("_DATE")] + ["BIRTH", "LEAVING", "GUARANTEE", "STATE_PENSION"]
        return {(name, n): (0, 0, 0) if name in dates else 0 for name, n in names}

    def case(self, kind, count, birth, leaving, guarantee, revaluation):
        case = self.empty()
        given = {
            "KIND": CODES[kind], "CASE_NUMBER": 16909060, "STATUS": 1, "RECEIVING_SCHEME": 1, "COUNT": count, "SERVICE": 2000,
            "BIRTH": birth, "LEAVING": leaving, "GUARANTEE": guarantee, "REVALUATION": revaluation, "AVC": 70000,
        }
        return case | {(name, 0): value for name, value in given.items()}

    def filled(self, case, names, count):
        """Each amount of each line another number, with three bytes or more."""
        amounts = itertools.count(1_000_003, 70_001)
        first_only = (TERMS["additional pension"], TERMS["dependant's additional pension"])
        case = dict(case)
        for n in range(1, count + 1):
            for name in names:
                if n == 1 or name not in first_only:
                    case[name, n] = next(amounts)
            case["SCHEME_PAYS_PENSION", n] = 66_051 + n
            case["DEBIT_PENSION", n] = 67_001 + 1_000 * n
            case["DEBIT_SURVIVORS_PENSION", n] = 77_002 + 1_000 * n
        return case

    def good_cases(self):
        """Cases that are paid, each with every field filled that its kind and count may fill; and one without flags or debits."""
        good = {}
        first = self.filled(self.case("KIND_1995", 1, (1967, 6, 1), (2012, 4, 1), (2020, 2, 1), 11400), BENEFIT_NAMES, 1)
        good["kind 1"] = first | {("FLAGS", 0): 2, ("STATE_PENSION", 0): (2033, 6, 1), ("MODIFICATION", 1): 131_586,
                                  ("SCHEME_PAYS_LUMP_SUM", 1): 66_041, ("DEBIT_LUMP_SUM", 1): 87_003}
        for count in range(1, 5):
            case = self.case("KIND_2015", count, (1977, 8, 7), (2017, 9, 1), (2020, 12, 1), 10660)
            case = self.filled(case, BENEFIT_NAMES[:4], count)
            for n, date in zip(range(1, count + 1), ((2045, 1, 6), (2044, 1, 5), (2043, 1, 4), (2022, 3, 2))):
                case["PENSION_DATE", n] = date
            case |= {("FLAGS", 0): 3, ("STATE_PENSION", 0): (2044, 8, 7)}
            good[f"kind 2, {count} lines"] = case | {("TRANSFER_IN", 0): 190_090_080, ("CONTRIBUTIONS", 0): 77_777}
        third = self.filled(self.case("KIND_2008", 1, (1969, 5, 1), (2012, 4, 1), (2020, 1, 1), 11700), BENEFIT_NAMES, 1)
        good["kind 3"] = third | {("FLAGS", 0): 6, ("SEX", 0): 2, ("STATE_PENSION", 0): (2036, 5, 1), ("MODIFICATION", 1): 131_586,
                                  ("SCHEME_PAYS_LUMP_SUM", 1): 66_041, ("DEBIT_LUMP_SUM", 1): 87_003}
        for kind, sex in (("KIND_1995", 0), ("KIND_2008", 1)):
            plain = self.case(kind, 1, (1967, 6, 1), (2012, 4, 1), (2020, 2, 1), 10000)
            good[f"plain {kind}"] = plain | {("PENSION", 1): 100, ("SEX", 0): sex}
        plain = self.case("KIND_2015", 1, (1977, 8, 7), (2017, 9, 1), (2020, 12, 1), 10000)
        good["plain KIND_2015"] = plain | {("PENSION", 1): 100, ("PENSION_DATE", 1): (2045, 1, 6), ("CONTRIBUTIONS", 0): 5}
        return good

    # What is compared.

    def words(self):
        header = self.header
        self.expect(sorted(header.rules) == sorted([*WORDED, "reserved"]), f"refusals {sorted(header.rules)}")
        for name, rule in WORDED.items():
            self.expect(header.rules.get(name) == rule, f"{name} is worded otherwise: {header.rules.get(name)}")
        for sentence in SENTENCES:
            self.expect(sentence in header.prose, f"missing: {sentence}")
        for name, constant in header.enumerators.items():
            self.expect(constant == name.upper(), f"{name} is called CETV_REFUSAL_{constant}")
        for name, number in CODES.items():
            self.expect(header.constants.get(name) == number, f"CETV_{name} is not {number}")

    def version(self):
        version = self.header.constants["VERSION"]
        self.library.cetv_version.restype = ctypes.c_uint32
        major, minor, patch = map(int, self.header.version_text.split("."))
        self.expect(version == 10000 * major + 100 * minor + patch, "CETV_VERSION is not CETV_VERSION_TEXT")
        self.expect(version == self.library.cetv_version(), f"the library is of version {self.library.cetv_version()}")

    def names(self, path):
        """The refusals' numbers and names as the program has them, 15 among them, which no line shows."""
        stated = "".join(f"{number} {name}\n" for name, number in sorted(self.header.numbers.items(), key=lambda pair: pair[1]))
        self.expect(pathlib.Path(path).read_text() == stated, f"{path} has other numbers or names of refusals")

    def layout(self, good):
        """Fields do not overlap; what they leave is what reserved names, and each byte of that is refused."""
        taken = []
        for at, width in self.header.fields.values():
            taken += range(at, at + width)
        self.expect(len(taken) == len(set(taken)), "fields overlap")
        left = [position for position in range(self.header.constants["BLOCK_SIZE"]) if position not in taken]
        self.expect(left == self.header.gaps, f"positions of no field are {left}")
        for what, case in good.items():
            for position, byte in itertools.product(left, (1, 128)):
                self.same(f"{what}, byte {position} is {byte}", case | {"bytes": {position: byte}})
        at, width = self.header.fields["CHECK", 0]
        for position in range(width):
            self.same(f"byte {position} of the check", good["kind 1"] | {"check": 1 << 8 * position})

    def values(self, case, key):
        """Numbers and dates to try in a field: each of its bytes changed, and the edges of every rule that speaks of it."""
        _, width = self.header.fields[key]
        value = case[key]
        if not isinstance(value, tuple):
            names = ("MAX_AMOUNT", "MIN_REVALUATION", "MAX_REVALUATION", "MIN_SERVICE", "MAX_LINES")
            limits = {self.header.constants[name] + step for name in names for step in (-1, 0, 1)}
            changed = {value ^ 1 << 8 * position for position in range(width)} | {value + 1, 256 ** width - 1}
            few = {0, 1} if width > 2 else set(range(10))
            return sorted(number for number in limits | changed | few if 0 <= number < 256 ** width)
        year, month, day = value
        dates = {(year ^ 1, month, day), (year ^ 256, month, day), (year, month ^ 1, day), (year, month, day ^ 1)}
        dates |= {(0, 0, 0), (0, 0, 1), (0, 1, 0), (1, 0, 0)}
        dates |= {(2019, 2, 29), (2020, 2, 29), (2100, 2, 29), (2021, 4, 31), (2021, 13, 1), (2021, 1, 32)}
        first, last = self.header.constants["MIN_YEAR"], self.header.constants["MAX_YEAR"]
        dates |= {(first - 1, 12, 31), (first, 1, 1), (last, 12, 31), (last + 1, 1, 1)}
        for date in self.edges(case):
            dates |= {day_after(date, -1), date, day_after(date)}
        return sorted(dates)

    def edges(self, case):
        """Days at which a rule may turn: the case's own dates, birthdays, the years ahead, 6 April 2016."""
        limit = self.header.constants
        dates = [value for _, value in Rules.fields(case) if isinstance(value, tuple) and self.rules.real(value)]
        ages = [limit[name] for name in ("MIN_AGE_1995", "PENSION_AGE_1995", "MIN_AGE_2008", "PENSION_AGE_2008", "MIN_AGE_LINE_1")]
        years = [*ages, limit["MAX_YEARS_AHEAD"], 0, 1]
        around = [moved_on(case["BIRTH", 0], n) for n in years] + [moved_on(case["GUARANTEE", 0], n) for n in years]
        around += [moved_on(case["GUARANTEE", 0], -n) for n in years]
        return [date for date in [*dates, *around, (2016, 4, 6)] if 1 < date[0] < 9999]

    def each_field(self, good):
        for what, case in good.items():
            for key in case:
                for value in self.values(case, key):
                    self.same(f"{what}, {key} is {value}", case | {key: value})

    def flags(self, good):
        """What flags allow, with every set of flags; and each limit of an amount in every kind."""
        for (what, case), flags in itertools.product(good.items(), range(9)):
            for key in case:
                if key[1] <= 1 and key[0] not in ("KIND", "COUNT", "FLAGS"):
                    filled = (2030, 1, 1) if isinstance(case[key], tuple) else 1
                    self.same(f"{what}, flags {flags}, {key} filled", case | {("FLAGS", 0): flags, key: filled})
                    empty = (0, 0, 0) if isinstance(case[key], tuple) else 0
                    self.same(f"{what}, flags {flags}, {key} empty", case | {("FLAGS", 0): flags, key: empty})

    def leap_days(self, good):
        """A birth or a guarantee date on 29 February, and the days around where it falls in a common year."""
        limit = self.header.constants
        for (what, section), name in itertools.product((("kind 1", "1995"), ("kind 3", "2008")), ("MIN_AGE", "PENSION_AGE")):
            for year, day in itertools.product((1952, 1956, 1992, 1996), ((2, 27), (2, 28), (3, 1))):
                guarantee = (year + limit[f"{name}_{section}"], *day)
                dates = {("BIRTH", 0): (year, 2, 29), ("LEAVING", 0): (year + 1, 1, 1), ("GUARANTEE", 0): guarantee}
                self.same(f"{what}, {dates}", good[what] | dates)
        for day in ((2, 27), (2, 28), (3, 1)):
            case = good["kind 2, 1 lines"] | {("BIRTH", 0): (1980, 2, 29)}
            self.same(f"kind 2, line 1 on {day}", case | {("PENSION_DATE", 1): (1980 + limit["MIN_AGE_LINE_1"], *day)})
            ahead = {("GUARANTEE", 0): (2020, 2, 29), ("PENSION_DATE", 1): (2020 + limit["MAX_YEARS_AHEAD"], *day)}
            self.same(f"kind 2, {ahead}", case | ahead)

    def sizes(self, good):
        """Blocks of other lengths, buffers around the least size, and the limits on both."""
        case, size, least = good["kind 1"], self.header.constants["BLOCK_SIZE"], self.header.constants["LINE_SIZE"]
        for length in (0, 1, size - 1, size, size + 1, 2 * size):
            self.same(f"a block of {length} bytes", case | {"length": length})
        for lent in (0, 1, least - 1, least, least + 1):
            self.same(f"{lent} bytes lent", case | {"lent": lent})

    def wide(self, good):
        """A payment and each of its items that pence of 32 bits cannot hold."""
        most = self.header.constants["MAX_AMOUNT"]
        large = {("REVALUATION", 0): self.header.constants["MAX_REVALUATION"]} | {(name, 1): most for name in BENEFIT_NAMES}
        words = self.same("the largest benefits", good["kind 1"] | large).split()
        for word in ("pay", "pension", "lump", "survivor"):
            pounds = words[words.index(word) + 1] if word in words else "0"
            self.expect(int(pounds.split(".")[0]) * 100 >= 2 ** 32, f"{word} of the largest benefits is {pounds}")

    def single_faults(self, good, what):
        """For each refusal that is possible beside the others, what brings it about in a good case."""
        case, limit = good[what], self.header.constants
        faults = {
            "length": {"length": limit["BLOCK_SIZE"] - 1}, "check": {"check": 1}, "kind": {("KIND", 0): 4},
            "reserved": {"bytes": {self.header.gaps[-1]: 1}}, "range": {("CASE_NUMBER", 0): 0},
            "dates": {("LEAVING", 0): day_after(case["GUARANTEE", 0])}, "status": {("STATUS", 0): 2},
            "receiver": {("RECEIVING_SCHEME", 0): 2}, "service": {("SERVICE", 0): limit["MIN_SERVICE"] - 1},
            "refer": {("STATE_PENSION", 0): (2016, 4, 5)}, "debit": {("SCHEME_PAYS_PENSION", 1): limit["MAX_AMOUNT"]},
            "award": {("DEBIT_PENSION", 1): limit["MAX_AMOUNT"]}, "buffer": {"lent": limit["LINE_SIZE"] - 1},
        }
        if what == "kind 2, 4 lines":
            year, month, day = case["GUARANTEE", 0]
            return faults | {
                "order": {("PENSION_DATE", 3): case["PENSION_DATE", 2]}, "age": {("PENSION_DATE", 4): case["GUARANTEE", 0]},
                "factor": {("PENSION_DATE", 1): (year + limit["MAX_YEARS_AHEAD"], month, day + 1)},
            }
        section = "1995" if case["KIND", 0] == CODES["KIND_1995"] else "2008"
        year, month, day = case["GUARANTEE", 0]
        old, young = limit[f"PENSION_AGE_{section}"], limit[f"MIN_AGE_{section}"]
        return faults | {
            "age": {("BIRTH", 0): (year - old, month, day)}, "factor": {("BIRTH", 0): (year - young, month, day + 1)},
            "negative": {("MODIFICATION", 1): limit["MAX_AMOUNT"]},
        }

    def refusals(self, good):
        """Each refusal alone, with its number and name; and of every two that a block can have at once, the first in the order."""
        seen, pairs = set(), set()
        for what in ("kind 1", "kind 2, 4 lines", "kind 3"):
            faults = self.single_faults(good, what)
            for name, fault in faults.items():
                line = self.same(f"{what}, {name}", good[what] | fault)
                number = self.header.numbers[name]
                case_number = 0 if number <= 5 else good[what]["CASE_NUMBER", 0]
                stated = "" if name == "buffer" else f"{PLACE} {case_number} refused {number} {name}\n"
                self.expect(line == stated, f"{name}: {line!r}")
                seen.add(name)
            ordered = sorted(faults, key=self.header.order.index)
            for first, second in itertools.combinations(ordered, 2):
                if not faults[first].keys() & faults[second].keys():
                    self.same(f"{what}, {first} and {second}", good[what] | faults[second] | faults[first])
                    pairs.add((first, second))
        self.expect(seen == set(WORDED) | {"reserved"}, f"refusals not tried: {set(WORDED) - seen}")
        neighbours = set(zip(self.header.order, self.header.order[1:]))
        self.expect(neighbours <= pairs, f"neighbours not tried together: {neighbours - pairs}")

    def papers(self):
        """What 01 and the change requests print or state."""
        example_a = self.case("KIND_1995", 1, (1967, 6, 1), (2012, 4, 1), (2020, 2, 1), 11400) | {
            ("CASE_NUMBER", 0): 1, ("AVC", 0): 0, ("PENSION", 1): 500000, ("ADDITIONAL_PENSION", 1): 100000,
            ("SURVIVORS_PENSION", 1): 250000, ("DEPENDANTS_ADDITIONAL_PENSION", 1): 37500, ("LUMP_SUM", 1): 1500000,
            ("MODIFICATION", 1): 2000,
        }
        self.stated("Example A of 001", example_a, f"{PLACE} 1 pay 136868.93 pension 117921.6000 lump 14364.0000 survivor 4817.9250"
                    " deduct 234.6000 underpin 0.00 avc 0.00\n")
        example_b = self.case("KIND_2015", 1, (1977, 8, 7), (2017, 9, 1), (2020, 12, 1), 10660) | {
            ("CASE_NUMBER", 0): 2, ("AVC", 0): 0, ("PENSION_DATE", 1): (2045, 1, 6), ("PENSION", 1): 250000,
            ("SURVIVORS_PENSION", 1): 84375,
        }
        items = "pension 24704.5500 lump 0.0000 survivor 1196.2552 deduct 0.0000"
        self.stated("Example B of 003", example_b, f"{PLACE} 2 pay 25900.81 {items} underpin 0.00 avc 0.00\n")
        flagged = example_b | {("FLAGS", 0): 1, ("TRANSFER_IN", 0): 2000000, ("CONTRIBUTIONS", 0): 590082}
        self.stated("its underpin a penny more", flagged, f"{PLACE} 2 pay 25900.82 {items} underpin 25900.82 avc 0.00\n")
        refer = example_b | {("FLAGS", 0): 2, ("STATE_PENSION", 0): (2016, 4, 5)}
        self.stated("state pension date 5 April 2016", refer, f"{PLACE} 2 refused 10 refer\n")
        plain = example_a | {key: 0 for key in example_a if key[1] == 1 and not isinstance(example_a[key], tuple)}
        plain |= {("REVALUATION", 0): 10000, ("BIRTH", 0): (1965, 6, 1)}
        small = plain | {("PENSION", 1): 10, ("SURVIVORS_PENSION", 1): 1}
        self.stated("10p and 1p at 54", small, f"{PLACE} 1 pay 1.82 pension 1.8050 lump 0.0000 survivor 0.0150 deduct 0.0000"
                    " underpin 0.00 avc 0.00\n")
        above = plain | {("PENSION", 1): 100, ("SCHEME_PAYS_PENSION", 1): 101}
        self.stated("101p off 100p", above, f"{PLACE} 1 refused 13 debit\n")
        self.stated("a modification of 1p alone", plain | {("MODIFICATION", 1): 1}, f"{PLACE} 1 refused 14 negative\n")
        self.stated("a block of zeros", self.empty(), f"{PLACE} 0 refused 3 kind\n")


def main():
    header_path, shared_object, refusals = sys.argv[1:]
    library = ctypes.CDLL(shared_object)
    size, pointer = ctypes.c_size_t, ctypes.c_char_p
    library.cetv_value_block.argtypes = [pointer, size, ctypes.c_uint32, pointer, size]
    library.cetv_value_block.restype = size
    try:
        check = Check(Header(header_path), library)
    except ValueError as error:
        sys.exit(f"header: {error}")
    check.words()
    check.version()
    check.names(refusals)
    check.report()
    good = check.good_cases()
    for what, case in good.items():
        check.expect(" pay " in check.same(what, case), f"{what} is not paid")
    for compare in (check.layout, check.each_field, check.flags, check.leap_days, check.sizes, check.wide, check.refusals):
        compare(good)
    check.papers()
    check.report()
    print(f"header: {len(check.header.fields)} fields, {len(check.header.numbers)} refusals; {check.lines} lines as it says")


if __name__ == "__main__":
    main()
