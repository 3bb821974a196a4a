"""What documents say that can be looked up: links, paths, names of edits and tests, and numbers.

Each look gives faults, a line each: the file, the line, and what is wrong there.
"""
import os
import re

from sources import ROOT, known_lines

WIDTH = 100
CODE = re.compile(r"(?ms)^```.*?^```|^    .*?$")
LINK = re.compile(r"\[[^\]]*\]\((?![a-z]+:)([^)\s#]*)#?([^)\s]*)\)")
PATH = re.compile(r"([\w.-]+)(?:/[\w.-]+)+(?![\w.*{/-])")
WRONG_BODIES = "docs/WRONG_BODIES.md"
# What no text here cites: papers and their numbers, and folders of one machine.
CITES = re.compile(r"\b(?:document 0[0-9]|[Dd]emand [0-9]+|[TDWR][0-9]{1,2}\b)")
FOLDER = re.compile(r"/(?:work|farm|root|tmp)/")
CITING = (".rt", ".antt", ".md", ".edit", ".txt")
# What repeats a constant of a file limits.rt, or one less, in a document or an interface.
REPEATING = re.compile(
    r"(?:README\.md|GUIDE\.md|(?:usage|messages|log_entries)\.py|jellqupas\.(?:py|h)|piped\.c|node\.h)$"
)
NUMBERS = (
    ("MAX_SERVERS", 0, r"^MAX_SERVERS = (.+)$|\b1 to (\d+) servers|N is 1 to (\d+)|s1 to s(\d+)"),
    ("MAX_CLIENTS", 0, r"^MAX_CLIENTS = (.+)$"),
    ("MAX_CLIENTS", 1, r"c0 to c(\d+)|umber,? (?:from )?1 to (\d+)\b|C clients 1 to (\d+)"),
    ("MAX_DATA", 0, r"^MAX_DATA = (.+)$"),
    ("MAX_TTL", 0, r"^MAX_TTL = (.+)$"),
    ("MAX_SERVERS", 0, r"^    SERVERS = (\d+)"),
    ("MAX_CLIENTS", 0, r"^    CLIENTS = (\d+)"),
    ("MAX_CAME", 0, r"MOST_CAME = (\d+)"),
)


def read(path):
    """The text of a file; none where there is no such file."""
    if not os.path.isfile(f"{ROOT}/{path}"):
        return ""
    with open(f"{ROOT}/{path}", encoding="utf-8", errors="replace") as file:
        return file.read()


def fault(path, text, place, what):
    return f"{path}:{text.count(chr(10), 0, place) + 1}: {what}"


documents = lambda paths: [(it, read(it)) for it in paths if it.endswith(".md")]


def headings(path):
    """The names by which links lead to the headings of a document."""
    titles = re.findall(r"(?m)^#+ (.*)$", CODE.sub("", read(path)))
    return {re.sub(r"[^\w\- ]", "", it.lower()).replace(" ", "-") for it in titles}


def links(paths):
    """Links to files or headings that aren't there."""
    for path, text in documents(paths):
        for it in LINK.finditer(text):
            to = os.path.normpath(f"{os.path.dirname(path) or '.'}/{it[1]}") if it[1] else path
            if not os.path.exists(f"{ROOT}/{to}") or it[2] and it[2] not in headings(to):
                yield fault(path, text, it.start(), f"there is no {it[1]}{it[2] and '#' + it[2]}")


def named_paths(paths):
    """Paths in backquotes, from the top or from `crates/`, that lead nowhere."""
    tops = {it.partition("/")[0] for it in paths if "/" in it} | {*known_lines()}
    for path, text in documents(paths):
        for quoted in re.finditer(r"`([^`\n]+)`", text):
            for it in PATH.finditer(quoted[1]):
                places = it[0], f"crates/{it[0]}", f"crates/{it[0].replace('/', '/must-fail/', 1)}"
                ends = ("", ".antt", ".rt", ".edit")
                found = (os.path.exists(f"{ROOT}/{at}{end}") for at in places for end in ends)
                is_form = re.search(r"/[A-Z]+(?:/|$)", it[0])
                if it[1] in tops and not is_form and not any(found):
                    yield fault(path, text, quoted.start(), f"there is no {it[0]}")


def wide_lines(paths):
    """Lines of documents that are too wide, but for tables and code."""
    for path, text in documents(paths):
        text = CODE.sub(lambda it: re.sub(r"[^\n]", "", it[0]), text)
        for it in re.finditer(rf"(?m)^(?![|`]).{{{WIDTH + 1},}}$", text):
            yield fault(path, text, it.start(), f"{len(it[0])} columns")


def citations(paths):
    """Texts that cite a paper, a number of its own, or a folder of one machine."""
    for path, text in ((it, read(it)) for it in paths):
        for pattern in (FOLDER, CITES) if path.endswith(CITING) else (FOLDER,):
            for it in pattern.finditer(text):
                yield fault(path, text, it.start(), f"cites {it[0]}")


def numbers(paths):
    """Numbers that repeat a constant of a crate, and differ from it."""
    limits = "".join(read(it) for it in paths if it.endswith("/limits.rt"))
    known = dict(re.findall(r"(?m)^pub const (\w+): \w+ = (.+);$", limits))
    for path, text in ((it, read(it)) for it in paths if REPEATING.search(it)):
        for name, less, pattern in NUMBERS:
            for it in re.finditer(pattern, text, re.M):
                if value(it[it.lastindex]) != value(known[name]) - less:
                    yield fault(path, text, it.start(), f"{it[0]}: {name} is {known[name]}")


def value(text):
    """The number that a literal is, or a shift of two."""
    number, _, shift = text.partition(" << ")
    return int(number.replace("_", ""), 0) << int(shift or "0", 0)


def named_bodies(pattern):
    """What is like the pattern in the last column of the table of wrong bodies."""
    rows = re.finditer(r"(?m)^\|.*\|([^|\n]*)\|[ \t]*$", read(WRONG_BODIES))
    return [(row.start(), it) for row in rows for it in re.finditer(pattern, row[1])]


def named_edits():
    """The edits that the table of wrong bodies names, as crate/name."""
    found = {it[1]: at for at, it in named_bodies(r"`(\w+/[\w.-]+)`")}
    return {it: at for it, at in found.items() if not it.startswith("rows/")}


def wrong_bodies(paths):
    """Edits and tests that the table of wrong bodies names, and that aren't there."""
    text = read(WRONG_BODIES)
    for it, at in named_edits().items():
        if f"crates/{it.replace('/', '/must-fail/')}.edit" not in paths:
            yield fault(WRONG_BODIES, text, at, f"there is no edit {it}")
    for at, it in named_bodies(r"`([a-z]\w*)(?:::\w+)*::(\w+)`"):
        sources = "".join(read(path) for path in paths if path.startswith(f"crates/{it[1]}/src/"))
        if not re.search(rf"\b(?:fn|struct|enum|trait|type|const|mod) {it[2]}\b", sources):
            yield fault(WRONG_BODIES, text, at, f"there is no {it[0]}")
