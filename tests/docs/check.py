#!/usr/bin/env python3
"""Checks what the pages cite: check.py [PAGE...], all pages without arguments.

Every page:
- A relative link points to a file, and its #anchor to a heading there. Of docs/CHANGES.md, docs/PORT.md, docs/DESIGN-PASS.md and
  docs/LOOK-BACK.md, which tell history, this is all.
- A path in code font exists: from the top of the repository or from crates/; one that starts with a crate's folder (specs/, src/),
  in the crate or folder that stands last before it in the paragraph or row, or in any crate; a bare file name, anywhere. crate/edit is
  an edit in the crate's must-fail/. What the build makes (target/...), an absolute path and one with a placeholder (NAME, $, <, ~)
  are passed over. In a command each word that looks like a path of the repository is checked, in fenced code too.
- A name in code font is a word of letters, digits, _ and -. It is declared somewhere in the repository, is a crate, or stands in
  words.txt, which lists the words in code font that are not the repository's. A word of that list that no page uses is an error.
- Where a page says where a name stands, it is declared there: `file`: `name`, `name`; `file` (`name`, `name`); `name` (`file or
  crate`), `name` of or in `file or crate`; `crate::name`; and every name of a table row that starts with a crate.

The pages in STRICT: a name other than a crate's stands after its file, and is declared in the file that stands last before it in
the same table cell or paragraph. docs/MAP.md has each public function of the crates with specifications, in its section PUBLIC and
after a file of its crate, and each request of docs/CHANGES.md.
"""
import pathlib
import re
import sys

from declared import MADE, names_in, public_functions

TOP = pathlib.Path.cwd()
STRICT = {"docs/MAP.md", "docs/TRUST.md", "docs/GLOSSARY.md"}
LINKS_ONLY = {"docs/CHANGES.md", "docs/PORT.md", "docs/DESIGN-PASS.md", "docs/LOOK-BACK.md"}
PUBLIC = "## Every public function"
NEEDED = STRICT | LINKS_ONLY | {"README.md", "CONTRIBUTING.md"}
SOURCES = ("crates", "tests", "bench", "include", "examples", "bin", ".ci", "Makefile")

SPAN = re.compile(r"(?<!`)(`+)(?!`)(.+?)(?<!`)\1(?!`)")
WORD = re.compile(r"[A-Za-z_][\w-]*\Z")
LINK = re.compile(r"\[(?:[^\]`]|`[^`]*`)*\]\(([^)\s]+)\)")
SUFFIX = re.compile(r"[A-Za-z_.][\w.-]*\.(antt|rt|rs|py|c|h|md|txt|edit|cases|1|3)\Z")
CRATES = {path.name for path in TOP.glob("crates/*") if path.is_dir()}

errors = []
used_words = set()


def fail(page, line, what):
    errors.append(f"{page}:{line}: {what}")


def read_words():
    lines = (TOP / "tests/docs/words.txt").read_text().splitlines()
    return {line.split("  ")[0] for line in lines if line and not line.startswith("#")}


WORDS = read_words()


def everything():
    there = [TOP / name for name in SOURCES]
    return set().union(*(names_in(path, True) for path in there if path.exists())) | CRATES


EVERYTHING = everything()
FOUND = [path for name in (*SOURCES, "docs", "man", "figures") for path in (TOP / name).rglob("*") if path.is_file()]
FILES = {path.name for path in FOUND if MADE not in path.parts} | {path.name for path in TOP.iterdir()}
# The folders that crates have, which a page may name by themselves: specs/, src/, proofs/, must-fail/.
FOLDERS = {path.name for path in TOP.glob("crates/*/*") if path.is_dir()} - {MADE}


# Pages in parts: cells of table rows, list items, paragraphs and headings, each with its line. Fenced code goes apart.


def flushed(part, parts):
    if part:
        parts.append((part[0][0], "text", " ".join(text for _, text in part)))
        part.clear()


def parts_of(page):
    parts, part, fenced = [], [], False
    for number, line in enumerate((TOP / page).read_text().splitlines(), 1):
        stripped = line.strip()
        if stripped.startswith("```"):
            flushed(part, parts)
            fenced = not fenced
        elif fenced:
            parts.append((number, "code", line))
        elif stripped.startswith("|"):
            flushed(part, parts)
            parts.append((number, "row", stripped))
        else:
            if not stripped or re.match(r"[-*#>]|\d+\. ", stripped):
                flushed(part, parts)
            if stripped:
                part.append((number, stripped))
    flushed(part, parts)
    return parts


def cells_of(row):
    return [cell.strip() for cell in re.split(r"(?<!\\)\|", row)[1:-1]]


def spans_of(text):
    """The words in code font with where each starts and ends."""
    return [(found.group(2).strip(), found.start(), found.end()) for found in SPAN.finditer(text)]


# Paths.


def outside(word):
    return word.startswith(("/", "~", "target/", "http:", "https:")) or any(mark in word for mark in "$<>") or "..." in word


def path_like(word):
    return "/" in word and "::" not in word or bool(SUFFIX.match(word))


def found_under(base, word):
    if "*" in word:
        return sorted(base.glob(word))
    return [base / word] if (base / word).exists() else []


def resolved(word, place=None):
    """The files that a path of a page means. One that starts with a crate's folder is in the place that stands last before it."""
    word = word.rstrip("/")
    if word.split("/")[0] in FOLDERS:
        bases = [place] if place else sorted(TOP.glob("crates/*"))
        return [path for base in bases for path in found_under(base, word)]
    crate, _, edit = word.partition("/")
    return (
        found_under(TOP, word)
        or found_under(TOP / "crates", word)
        or found_under(TOP / "crates" / crate / "must-fail", f"{edit}.edit")
    )


def check_path(page, line, word, place=None, strict=False):
    found = resolved(word, place)
    if found or (not strict and word in FILES) or any(re.match(r"[A-Z_]+\Z", part) for part in word.split("/")):
        return found
    fail(page, line, f"no file `{word}`" + (f" in {shown(place)}" if place and word.split("/")[0] in FOLDERS else ""))
    return []


def check_command(page, line, text):
    """The words of a command that look like paths of the repository."""
    for word in re.split(r"[\s;|&()\"',=]+", text):
        first = word.removeprefix("./").split("/")[0]
        if "/" in word and not outside(word) and first and (TOP / first).exists() and not resolved(word.removeprefix("./")):
            fail(page, line, f"no file `{word}`")


# Names.


def known_word(word):
    if word in WORDS:
        used_words.add(word)
        return True
    return False


def shown(path):
    return path.relative_to(TOP)


def check_name_in(page, line, name, paths, parts=True):
    if not any(name in names_in(path, parts) for path in paths):
        fail(page, line, f"`{name}` is not declared in " + ", ".join(str(shown(path)) for path in paths))


def name_of(span):
    """The name that a span is, if it is one: a word, a call, or a name of a crate."""
    span = span.removesuffix("()")
    return span if WORD.match(span) or re.match(r"\w+(::\w+)+\Z", span) else None


def check_anywhere(page, line, name):
    crate, _, inner = name.partition("::")
    if inner and crate in CRATES:
        check_name_in(page, line, inner, [TOP / "crates" / crate])
    elif not (name in EVERYTHING or name in FILES or known_word(name)):
        fail(page, line, f"`{name}` is declared nowhere")


def check_manual(page, line, span):
    found = re.match(r"(\w+)\((\d)\)\Z", span)
    if found and not (TOP / "man" / f"{found.group(1)}.{found.group(2)}").exists() and not known_word(span):
        fail(page, line, f"no manual page `{span}`")
    return bool(found)


def place_of(span, place):
    """The files, or the crate, that a span is, if it is one."""
    if span in CRATES:
        return [TOP / "crates" / span]
    return resolved(span, place) if path_like(span) and not outside(span) else []


def placed_spans(text):
    """The words in code font, each with where it starts and ends and with the crate or folder that stands last before it."""
    place, spans = None, []
    for span, start, end in spans_of(text):
        spans.append((span, start, end, place))
        found = place_of(span, place)
        if len(found) == 1 and found[0].is_dir() and span.split("/")[0] not in FOLDERS:
            place = found[0]
    return spans


def check_placed(page, line, text):
    """Names of which the text around them says where they stand."""
    spans = placed_spans(text)
    current = []
    for i, (span, start, end, place) in enumerate(spans):
        before, between = (spans[i - 1], text[spans[i - 1][2]:start]) if i else (None, "")
        if between in (": ", " (") and path_like(before[0]):
            current = place_of(before[0], before[3])
        elif between not in (", ", " and ", ", and "):
            current = []
        if current and name_of(span):
            check_name_in(page, line, span, current)
        after = spans[i + 1] if i + 1 < len(spans) else None
        if after and name_of(span) and span not in CRATES and text[end:after[1]] in (" (", " of ", " in "):
            said = place_of(after[0], after[3])
            if said:
                check_name_in(page, line, span, said)


def check_spans(page, line, text):
    for span, _, _, place in placed_spans(text):
        name = name_of(span)
        if name:
            check_anywhere(page, line, name)
        elif check_manual(page, line, span) or outside(span) or known_word(span):
            continue
        elif " " not in span and path_like(span):
            check_path(page, line, span, place)
        else:
            check_command(page, line, span)


def check_row(page, line, row):
    """Of a row that starts with a crate, the names that it has besides."""
    cells = cells_of(row)
    first = spans_of(cells[0]) if cells else []
    if len(first) == 1 and cells[0] == f"`{first[0][0]}`" and first[0][0] in CRATES:
        for span, _, _ in spans_of(" ".join(cells[1:])):
            if name_of(span) and span not in CRATES and span not in WORDS:
                check_name_in(page, line, span, [TOP / "crates" / first[0][0]])


def check_strict(page, line, text):
    current = None
    for span, _, _ in spans_of(text):
        name = name_of(span)
        if not name and not known_word(span) and path_like(span):
            current = check_path(page, line, span, strict=True)
        elif name and current is None and name not in CRATES and not known_word(name):
            fail(page, line, f"`{name}` stands after no file")
        elif name and current:
            check_name_in(page, line, name, current, parts=False)
        elif not name:
            check_spans(page, line, f"`{span}`")


# Links.


def anchors_of(path):
    anchors, seen = set(), {}
    for _, kind, text in parts_of(path.relative_to(TOP)):
        if kind == "text" and text.startswith("#"):
            heading = re.sub(r"\[([^\]]*)\]\([^)]*\)", r"\1", text.lstrip("#").strip().replace("`", ""))
            slug = re.sub(r"[^\w\- ]", "", heading.lower()).replace(" ", "-")
            anchors.add(slug if slug not in seen else f"{slug}-{seen[slug]}")
            seen[slug] = seen.get(slug, 0) + 1
    return anchors


def check_links(page, line, text):
    for target in LINK.findall(text):
        if re.match(r"[a-z]+:", target):
            continue
        name, _, anchor = target.partition("#")
        path = ((TOP / page).parent / name).resolve() if name else TOP / page
        if not path.exists() or TOP not in [path, *path.parents]:
            fail(page, line, f"dead link {target}")
        elif anchor and (path.suffix != ".md" or anchor not in anchors_of(path)):
            fail(page, line, f"no heading for {target}")


# Pages.


def check_page(page):
    for line, kind, text in parts_of(page):
        if kind == "code":
            if page not in LINKS_ONLY:
                check_command(page, line, text)
            continue
        check_links(page, line, text)
        if page in LINKS_ONLY:
            continue
        if page in STRICT:
            for cell in cells_of(text) if kind == "row" else [text]:
                check_strict(page, line, cell)
            continue
        check_spans(page, line, text)
        check_placed(page, line, text)
        if kind == "row":
            check_row(page, line, text)


def mapped_functions(text):
    """What the map's section PUBLIC has after a source file, each name with the crate of that file."""
    mapped = set()
    section = re.split(r"^## ", text.partition(f"\n{PUBLIC}\n")[2], flags=re.M)[0]
    for cell in (cell for line in section.splitlines() for cell in cells_of(line)):
        crate = None
        for span, _, _ in spans_of(cell):
            found = re.match(r"(\w+)/src/", span)
            if found:
                crate = found.group(1)
            elif not name_of(span):
                crate = None
            elif crate:
                mapped.add((crate, span))
    return mapped


def check_map():
    """The map leaves out no public function and no request."""
    text = (TOP / "docs/MAP.md").read_text()
    mapped = mapped_functions(text)
    for crate in sorted(TOP.glob("crates/*")):
        if (crate / "specs").is_dir():
            for name in public_functions(crate):
                if (crate.name, name) not in mapped:
                    fail("docs/MAP.md", 1, f"the public function `{name}` of crates/{crate.name} is not in \"{PUBLIC[3:]}\"")
    for number in re.findall(r"^## No\. (\d+)", (TOP / "docs/CHANGES.md").read_text(), re.M):
        if not re.search(rf"^###? No\. {number}\b", text, re.M):
            fail("docs/MAP.md", 1, f"request No. {number} is not there")


def main():
    pages = sys.argv[1:]
    there = sorted({str(path.relative_to(TOP)) for path in TOP.glob("docs/*.md")} | {"README.md", "CONTRIBUTING.md"})
    for page in pages or sorted(set(there) | NEEDED):
        if (TOP / page).exists():
            check_page(page)
        else:
            fail(page, 0, "no such page")
    if not pages:
        check_map()
        for word in sorted(WORDS - used_words):
            fail("tests/docs/words.txt", 0, f"no page has `{word}`, or it is a name of the repository")
    print("\n".join(errors) if errors else f"pages: {len(pages or there)} pages, every file, name and link stands where they say")
    sys.exit(1 if errors else 0)


main()
