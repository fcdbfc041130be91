"""What a block gets by the header's rules, worked from its constants: the refusal, or the payment with its items.

A case is a dictionary: by name and line (0 before the lines) the number or the date of a field. Beside the fields it may have
"bytes" (positions and bytes of no field), "length" (of the block), "check" (what is added to the check) and "lent" (for the line).
"""

import calendar
import pathlib

from header import TERMS

BENEFITS = ("PENSION", "LUMP_SUM", "SURVIVORS_PENSION")
ADDED = {"PENSION": "ADDITIONAL_PENSION", "SURVIVORS_PENSION": "DEPENDANTS_ADDITIONAL_PENSION"}
SCHEME_PAYS = {"PENSION": "SCHEME_PAYS_PENSION", "LUMP_SUM": "SCHEME_PAYS_LUMP_SUM"}
TABLES = {"KIND_1995": "1995m", "KIND_2015": "2015", "KIND_2008": "2008m"}


def read_factors():
    """By table and row: the factors of pension, lump sum, survivor's pension and deduction, in hundredths."""
    rows = {}
    for line in pathlib.Path("figures/factors.txt").read_text().splitlines():
        if line.startswith("#"):
            continue
        table, row, *figures = line.split()
        figures = [int(figure.replace(".", "")) for figure in figures]
        rows[table, int(row)] = [figures[0], 0, figures[1], 0] if table == "2015" else figures
    return rows


def moved_on(date, years):
    year, month, day = date
    if (month, day) == (2, 29) and not calendar.isleap(year + years):
        return year + years, 2, 28
    return year + years, month, day


def age(birth, on):
    return sum(moved_on(birth, years) <= on for years in range(1, on[0] - birth[0] + 1))


def years_ahead(guarantee, date):
    fewest = max(0, date[0] - guarantee[0] - 1)
    return next(years for years in range(fewest, fewest + 3) if moved_on(guarantee, years) >= date)


def nearest(number, unit):
    return (2 * number + unit) // (2 * unit)


class Rules:
    def __init__(self, header):
        self.header = header
        self.limit = header.constants
        self.factors = read_factors()
        self.codes = {prefix: self.listed_under(prefix) for prefix in ("KIND_", "STATUS_", "RECEIVING_", "FLAG_", "SEX_")}

    def listed_under(self, prefix):
        return {number for name, number in self.limit.items() if name.startswith(prefix)}

    # The parts of a case.

    def within(self, case):
        return [n for n in self.header.lines if n <= case["COUNT", 0]]

    def is_kind(self, case, *names):
        return case["KIND", 0] in [self.limit[name] for name in names]

    def flag(self, case, name):
        return bool(case["FLAGS", 0] & self.limit[name])

    # The refusals.

    def length(self, case):
        return case.get("length", self.limit["BLOCK_SIZE"]) != self.limit["BLOCK_SIZE"]

    def check(self, case):
        return case.get("check", 0) != 0

    def buffer(self, case):
        return case.get("lent", self.limit["LINE_SIZE"]) < self.limit["LINE_SIZE"]

    def kind(self, case):
        most = self.limit["MAX_LINES"] if self.is_kind(case, "KIND_2015") else 1
        return case["KIND", 0] not in self.codes["KIND_"] or not 1 <= case["COUNT", 0] <= most

    def reserved(self, case):
        return any(case.get("bytes", {}).values()) or any(self.rule_broken(case, *rule) for rule in self.header.reserved)

    def rule_broken(self, case, kinds, flag, lines, targets):
        if kinds is not None and case["KIND", 0] not in kinds or flag is not None and case["FLAGS", 0] & flag:
            return False
        if lines == "past the count":
            assert targets == ["all of the line and of its divorce debit"], targets
            return any(self.filled(value) for (name, n), value in self.fields(case) if n > case["COUNT", 0])
        return any(self.target_filled(case, target, lines) for target in targets)

    def target_filled(self, case, target, lines):
        flags = case["FLAGS", 0]
        if target == "flags not listed":
            return flags & ~sum(self.codes["FLAG_"]) != 0
        if target.startswith("flag "):
            return flags & int(target.split()[1]) != 0
        return any(self.filled(case[TERMS[target], n]) for n in (0, *lines) if (TERMS[target], n) in case)

    @staticmethod
    def fields(case):
        return [(key, value) for key, value in case.items() if isinstance(key, tuple)]

    @staticmethod
    def filled(value):
        return value not in (0, (0, 0, 0))

    def range(self, case):
        return (
            case["CASE_NUMBER", 0] == 0
            or case["STATUS", 0] not in self.codes["STATUS_"]
            or case["RECEIVING_SCHEME", 0] not in self.codes["RECEIVING_"]
            or self.is_kind(case, "KIND_2008") and case["SEX", 0] not in self.codes["SEX_"]
            or not self.limit["MIN_REVALUATION"] <= case["REVALUATION", 0] <= self.limit["MAX_REVALUATION"]
            or any(case[key] > self.limit["MAX_AMOUNT"] for key, (_, width) in self.header.fields.items() if width == 8)
            or not all(self.real(case[key]) for key in self.real_dates(case))
        )

    def real_dates(self, case):
        dates = [("BIRTH", 0), ("LEAVING", 0), ("GUARANTEE", 0)]
        dates += [("STATE_PENSION", 0)] * self.flag(case, "FLAG_GMP")
        return dates + [("PENSION_DATE", n) for n in self.within(case)] * self.is_kind(case, "KIND_2015")

    def real(self, date):
        year, month, day = date
        return (
            self.limit["MIN_YEAR"] <= year <= self.limit["MAX_YEAR"]
            and 1 <= month <= 12
            and 1 <= day <= calendar.monthrange(year, month)[1]
        )

    def dates(self, case):
        birth, leaving, guarantee = (case[name, 0] for name in ("BIRTH", "LEAVING", "GUARANTEE"))
        if leaving <= birth or leaving > guarantee:
            return True
        if not self.is_kind(case, "KIND_2015"):
            return False
        first, *others = [case["PENSION_DATE", n] for n in self.within(case)]
        return first < moved_on(birth, self.limit["MIN_AGE_LINE_1"]) or any(date >= first for date in others)

    def order(self, case):
        dates = [case["PENSION_DATE", n] for n in self.within(case)]
        return self.is_kind(case, "KIND_2015") and any(after >= before for before, after in zip(dates[1:], dates[2:]))

    def status(self, case):
        return case["STATUS", 0] != self.limit["STATUS_DEFERRED"]

    def receiver(self, case):
        return case["RECEIVING_SCHEME", 0] != self.limit["RECEIVING_DEFINED_BENEFIT"]

    def service(self, case):
        return case["SERVICE", 0] < self.limit["MIN_SERVICE"]

    def age(self, case):
        if self.is_kind(case, "KIND_2015"):
            return any(case["PENSION_DATE", n] <= case["GUARANTEE", 0] for n in self.within(case))
        return age(case["BIRTH", 0], case["GUARANTEE", 0]) >= self.limit[self.of_section(case, "PENSION_AGE")]

    def refer(self, case):
        return self.flag(case, "FLAG_GMP") and case["STATE_PENSION", 0] < (2016, 4, 6)

    def factor(self, case):
        if self.is_kind(case, "KIND_2015"):
            return any(self.row(case, n) > self.limit["MAX_YEARS_AHEAD"] for n in self.within(case))
        return self.row(case, 1) < self.limit[self.of_section(case, "MIN_AGE")]

    def debit(self, case):
        return any(self.left(case, benefit, n) < 0 for benefit in BENEFITS for n in self.within(case))

    def negative(self, case):
        *added, deduction = self.items(case)
        return sum(added) < deduction

    def award(self, case):
        return self.debit_value(case) > self.first_value(case)

    def of_section(self, case, name):
        return f"{name}_1995" if self.is_kind(case, "KIND_1995") else f"{name}_2008"

    # The sum. Items are in hundredths of a penny.

    def row(self, case, n):
        if self.is_kind(case, "KIND_2015"):
            return years_ahead(case["GUARANTEE", 0], case["PENSION_DATE", n])
        return age(case["BIRTH", 0], case["GUARANTEE", 0])

    def factors_of(self, case, n):
        table = next(table for name, table in TABLES.items() if self.is_kind(case, name))
        return self.factors[table, self.row(case, n)]

    def revalued(self, case, pence):
        return nearest(pence * case["REVALUATION", 0], 10_000)

    def left(self, case, benefit, n):
        entered = case[benefit, n] + (case[ADDED[benefit], n] if benefit in ADDED else 0)
        return self.revalued(case, entered) - (case[SCHEME_PAYS[benefit], n] if benefit in SCHEME_PAYS else 0)

    def items(self, case):
        totals = [0, 0, 0, 0]
        for n in self.within(case):
            amounts = [self.left(case, benefit, n) for benefit in BENEFITS] + [case["MODIFICATION", n]]
            totals = [total + amount * factor for total, amount, factor in zip(totals, amounts, self.factors_of(case, n))]
        return totals

    def first_value(self, case):
        pension, lump, survivor, deduction = self.items(case)
        return nearest(pension + lump + survivor - deduction, 100)

    def debit_value(self, case):
        total = 0
        for n in self.within(case):
            for benefit, factor in zip(BENEFITS, self.factors_of(case, n)):
                total += self.revalued(case, case[f"DEBIT_{benefit}", n]) * factor
        return nearest(total, 100)

    # The line.

    def line(self, case, place):
        """The line of text, or nothing where too few bytes are lent."""
        refusal = next((name for name in self.header.order if getattr(self, name)(case)), None)
        if refusal == "buffer":
            return ""
        number = self.header.numbers.get(refusal, 0)
        case_number = 0 if 1 <= number <= 5 else case["CASE_NUMBER", 0]
        if refusal:
            return f"{place} {case_number} refused {number} {refusal}\n"
        return f"{place} {case_number}{self.paid(case)}\n"

    def paid(self, case):
        underpin = case["TRANSFER_IN", 0] + case["CONTRIBUTIONS", 0] if self.flag(case, "FLAG_TRANSFER_IN") else 0
        gross = self.first_value(case) - self.debit_value(case)
        pay = max(gross, underpin) + case["AVC", 0]
        pence = {"pay": pay, "underpin": underpin, "avc": case["AVC", 0]}
        hundredths = dict(zip(("pension", "lump", "survivor", "deduct"), self.items(case)))
        texts = {word: f"{n // 100}.{n % 100:02d}" for word, n in pence.items()}
        texts |= {word: f"{n // 10_000}.{n % 10_000:04d}" for word, n in hundredths.items()}
        return "".join(f" {word} {texts[word]}" for word in ("pay", "pension", "lump", "survivor", "deduct", "underpin", "avc"))
