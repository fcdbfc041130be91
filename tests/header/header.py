"""What include/cetv.h says, read from its text: constants (through the C compiler), widths, refusals, rules.

Its words are read in these places: the width in the comment of each field, the sentences LINES and ORDER, the rules of reserved. All
else that the test goes by is compared word for word, in check.py.
"""

import pathlib
import re
import subprocess
import tempfile

LINES = r"Line n of the benefits, n from (\d) to (\d)\."
ORDER = r"The first that applies is given, in this order: ([\d, to]+)\."
# What the rules of reserved call the fields.
TERMS = {
    "transfer-in payment": "TRANSFER_IN",
    "own contributions": "CONTRIBUTIONS",
    "state pension date": "STATE_PENSION",
    "sex": "SEX",
    "pension date": "PENSION_DATE",
    "additional pension": "ADDITIONAL_PENSION",
    "dependant's additional pension": "DEPENDANTS_ADDITIONAL_PENSION",
    "lump sum": "LUMP_SUM",
    "modification": "MODIFICATION",
    "Scheme Pays on the lump sum": "SCHEME_PAYS_LUMP_SUM",
    "debit lump sum": "DEBIT_LUMP_SUM",
}
OTHER_TARGETS = ("flags not listed", "all of the line and of its divorce debit")


def spans(text):
    """The numbers of a list such as `2, 3, 36 to 39`."""
    numbers = []
    for part in re.split(r",\s*", text):
        first, _, last = part.partition(" to ")
        numbers += range(int(first), int(last or first) + 1)
    return numbers


def flat(comment):
    """A comment's text on one line, without the stars in front."""
    return re.sub(r"\s+", " ", re.sub(r"\n\s*\*", " ", comment)).strip()


class Header:
    def __init__(self, path):
        self.path = pathlib.Path(path).resolve()
        self.text = self.path.read_text()
        self.prose = " ".join(flat(comment) for comment in re.findall(r"/\*(.*?)\*/", self.text, re.S))
        self.read_constants()
        self.read_fields()
        self.read_refusals()
        self.read_reserved()

    def said(self, sentence):
        """The numbers in a sentence."""
        found = re.search(sentence, self.prose)
        if not found:
            raise ValueError(f"the header has no sentence like {sentence}")
        return found.groups()

    def read_constants(self):
        """Every name with its number, as a C program gets them; a name with (n) has one for each line."""
        plain = re.findall(r"^#define (CETV_\w+) \d", self.text, re.M) + re.findall(r"^ +(CETV_\w+) = ", self.text, re.M)
        of_lines = re.findall(r"^#define (CETV_\w+)\(n\) ", self.text, re.M)
        first, last = map(int, self.said(LINES))
        self.lines = range(first, last + 1)
        names = plain + [f"{name}({n})" for name in of_lines for n in self.lines]
        prints = "".join(f'    printf("%s %lld\\n", "{name}", (long long){name});\n' for name in names)
        body = f"    puts(CETV_VERSION_TEXT);\n{prints}    return 0;\n"
        source = f'#include <stdio.h>\n#include "{self.path}"\nint main(void)\n{{\n{body}}}\n'
        with tempfile.TemporaryDirectory() as folder:
            program = f"{folder}/constants"
            subprocess.run(["gcc", "-xc", "-", "-o", program], input=source, text=True, check=True)
            version, *lines = subprocess.run([program], capture_output=True, text=True, check=True).stdout.splitlines()
        self.version_text = version
        self.constants = {name[len("CETV_"):]: int(value) for name, value in (line.split() for line in lines)}

    def read_fields(self):
        """By name and line (0 before the lines): offset and width."""
        self.fields = {}
        for name, of_line, width in re.findall(r"^#define CETV_AT_(\w+?)(\(n\))? .*/\* (\d+)\b", self.text, re.M):
            for n in self.lines if of_line else [0]:
                constant = f"AT_{name}({n})" if of_line else f"AT_{name}"
                self.fields[name, n] = (self.constants[constant], int(width))

    def read_refusals(self):
        found = re.findall(r"/\* (\w+): ((?:(?!\*/).)*?) ?\*/\n +CETV_REFUSAL_(\w+) = (\d+)\b", self.text, re.S)
        self.numbers = {name: int(number) for name, _, _, number in found}
        self.enumerators = {name: constant for name, _, constant, _ in found}
        self.rules = {name: flat(rule) for name, rule, _, _ in found}
        names = {number: name for name, number in self.numbers.items()}
        order = spans(*self.said(ORDER))
        if sorted(order) != sorted(names):
            raise ValueError(f"the order {order} is not of the refusals {sorted(names)}")
        self.order = [names[number] for number in order]

    def read_reserved(self):
        """The bytes of no field, and each rule: kinds and the flag that must be absent (or None), lines, what is zero."""
        self.reserved, self.gaps = [], []
        _, *rules = self.rules.get("reserved", "").split(" - ")
        for rule in rules:
            condition, _, targets = rule.partition(": ")
            if condition == "positions of no field":
                self.gaps = spans(targets)
                continue
            for part in condition.split(", and "):
                self.reserved.append(self.condition(part) + (self.targets(targets),))
        if not self.gaps:
            raise ValueError("the header's rules of reserved have no positions of no field")

    def condition(self, text):
        kinds = re.match(r"kinds? (\d)(?: and (\d))?", text)
        flag = re.search(r"without flag (\d)$", text)
        lines = re.match(r"lines (\d to \d)$", text)
        if not (kinds or flag or lines or text in ("every kind", "lines past the count")):
            raise ValueError(f"a rule of reserved that the test cannot read: {text}")
        some_lines = spans(lines.group(1)) if lines else self.lines
        if flag and int(flag.group(1)) not in self.flags() or not set(some_lines) <= set(self.lines):
            raise ValueError(f"no such flag or line: {text}")
        return (
            {int(kind) for kind in kinds.groups() if kind} if kinds else None,
            int(flag.group(1)) if flag else None,
            "past the count" if text == "lines past the count" else some_lines,
        )

    def targets(self, text):
        """What a rule of reserved wants zero: fields, flags, or all of the lines past the count."""
        targets = text.split(", ")
        for target in targets:
            if target not in (*TERMS, *OTHER_TARGETS) and not re.fullmatch(r"flag \d", target):
                raise ValueError(f"a rule of reserved that the test cannot read: {text}")
        return targets

    def flags(self):
        return [number for name, number in self.constants.items() if name.startswith("FLAG_")]
