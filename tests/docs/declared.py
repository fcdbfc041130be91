"""The names that each file of the repository declares."""
import functools
import pathlib
import re

# A name, and what may stand before it in a declaration of a specification or of a proof.
NAME = r"[^\s():{}.,;«»`\"]+"
DECLARATION = re.compile(rf"^\s*(?:(?:abbrev|unfoldable|pub)\s+)*({NAME}(?:\s+{NAME})*)\s+:(?:\s|$)")
TYPE = re.compile(rf"^\s*(?:pub\s+)?(?:record|data)\s+({NAME})")
NO_DECLARATION = ("--", "let", "use", "module", "record", "pub record", "data", "pub data", "infix", "where", "in ")

# The folder of a crate in which rt keeps what it makes.
MADE = "out"

# Of the other languages: what declares a name that is used outside, and what declares a part of something.
PATTERNS = {
    ".rt": r"\bfn (\w+)|^(?:pub(?:\(crate\))? )?(?:struct|enum|const|static|type) (\w+)|\bensures (\w+) \{",
    ".rs": r"\bfn (\w+)|\b(?:struct|enum|const|static|mod|type|trait) (\w+)",
    ".py": r"^(?:def|class) (\w+)|^(\w+) = ",
    ".c": r"^(?!static const)\w[^=;]*?\b(\w+)\(|#define (\w+)",
    ".h": r"^(?!static const)\w[^=;]*?\b(\w+)\(|#define (\w+)|^enum (\w+)|^\s+(\w+) = \d+",
    "": r"^(\w+)\(\)|^([\w-]+):(?!=)|^(\w+) =",
}
PARTS = {".rt": r"^\s+(?:pub(?:\(crate\))? )?(\w+): |^\s+([A-Z]\w*)[,(]"}


def of_antt(text):
    names = set()
    for line in text.splitlines():
        found = TYPE.match(line)
        if found:
            names.add(found.group(1))
        elif not line.strip().startswith(NO_DECLARATION):
            found = DECLARATION.match(line)
            names.update(found.group(1).split() if found else ())
    return names


def matched(pattern, text):
    return {name for found in re.finditer(pattern, text, re.M) for name in found.groups() if name}


@functools.lru_cache(maxsize=None)
def names_in(path, parts=False):
    """What a file declares; of a folder, what the files in it do, and the edits that stand in it. With `parts`, fields and variants
    of the code's types too."""
    path = pathlib.Path(path)
    if path.is_dir():
        return set().union(*(names_in(inner, parts) for inner in path.iterdir() if inner.name != MADE))
    if path.suffix == ".edit":
        return {path.stem}
    if path.suffix not in {".antt", *PATTERNS} or path.name in ("stdin", "stdout"):
        return set()
    text = path.read_text(errors="ignore")
    if path.suffix == ".antt":
        return of_antt(text)
    names = matched(PATTERNS[path.suffix], text)
    return names | matched(PARTS[path.suffix], text) if parts and path.suffix in PARTS else names


def public_functions(crate):
    """Public functions and methods."""
    text = "".join(path.read_text() for path in sorted(crate.glob("src/**/*.rt")))
    return re.findall(r'^ *pub (?:extern "C" )?fn (\w+)', text, re.M)
