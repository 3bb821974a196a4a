"""What is looked at before a commit, without any proof: `./test --quick`.

`rt ci` refuses much of it, too, but a crate's turn may come late there. Layout and texts are looked
at by the toolchain's own functions. Each fault is a line: the file, the line, and what is wrong.
"""
import contextlib
import io
import multiprocessing
import os
import re
import subprocess
import tempfile
from concurrent.futures import ProcessPoolExecutor

import documents
import kit
from documents import fault, read
from sources import ROOT

SECONDS = 300
HANDLES = "Handles allowed: Threads, Wait.\n"
# How many edits a crate may have beside those that the table of wrong bodies names.
MOST_EDITS = 10
FILE_LINES, BODY_LINES, CLAUSE_COLUMNS = 600, 45, 102
# Where Python, shell and C are counted, and how many lines they may have.
COUNTED, MOST_LINES = r"(?:tools|\.ci|bench)/|(?:zk|library)$", 10670
PROGRAM = re.compile(r"#!.*\b(?:python3?|bash|sh)\b")
# How `rattle fmt` names a file that isn't in the layout, or the line at which it doesn't parse.
UNFORMATTED = re.compile(r"(?m)^(.*?\.(?:rt|antt))(?: is|: (?:.*? at )?(\d+):\d+:) (.*)$")
# A function with a body: its head, and its body by the indentation of its last line.
FUNCTION = re.compile(
    r"(?m)^( *)(?:[\w()]+ )*fn (\w+)"
    r"(?:.*\{|.*[^;{}\n](?:\n(?:\1 .*)?|\n\1[^ ;{}\n].*[^;{}\n])*?\n\1.*\{)\n"
    r"((?:\1 .*\n|\n)*)\1\}"
)
CLAUSE = re.compile(r"(?m)^ *(?:requires|ensures|ghost (?:view|invariant))\b.*$")
# The crates by their names, which the processes of the looks share.
CRATES = {}


def files_of(name):
    """The files of a crate in Rattle's languages, from the top."""
    found = kit.toolchain().rtlib.files_of(CRATES[name].folder)
    return [os.path.relpath(it, ROOT) for it in found if it.endswith((".rt", ".antt"))]


def refusals(look, *given):
    """What a function of the toolchain prints where it refuses, as a fault."""
    said = io.StringIO()
    try:
        with contextlib.redirect_stderr(said), contextlib.redirect_stdout(said):
            look(*given)
    except SystemExit:
        line = said.getvalue().strip().split("\n")[-1].removeprefix("rt: ").replace(f"{ROOT}/", "")
        return [re.sub(r"^(?:crates/)?(\S+\.(?:rt|antt)): ", r"crates/\1:1: ", line)]
    return []


def texts(name):
    """What `rt ci` refuses in a crate before any proof."""
    rt, crate = kit.toolchain(), CRATES[name]
    looks = (rt.rtlib.stop_on_links, crate.folder), (rt.rtlib.stop_on_text, crate, "verdict")
    return [it for look in (*looks, (rt.stop_on_words, crate)) for it in refusals(*look)]


def unread(folder):
    """Files in Rattle's languages below a folder that no check reads."""
    return refusals(kit.toolchain().rtlib.stop_on_unread, f"{ROOT}/{folder}", [*CRATES.values()])


def unformatted(files):
    """The files that aren't in the layout, or don't parse: each with a line or none, and why."""
    words = [kit.toolchain().rtlib.RATTLE, "fmt", "--check", *files]
    ran = subprocess.run(words, cwd=ROOT, capture_output=True, text=True, timeout=SECONDS)
    found = UNFORMATTED.findall(ran.stdout + ran.stderr)
    if ran.returncode not in (0, 1) or bool(found) != bool(ran.returncode):
        raise OSError(f"rattle fmt ended with {ran.returncode}: {ran.stderr[-500:]}")
    return found


def layout(names):
    found = unformatted([it for name in names for it in files_of(name)])
    return [f"{path}:{line or 1}: {why}" for path, line, why in found]


def edits(name):
    """Edits of a crate that can't be put, or whose text doesn't parse; and too many edits."""
    good, bad = kit.toolchain().edits_of(CRATES[name])
    good, made = [os.path.relpath(it, ROOT) for it in good], {}
    yield from (f"{os.path.relpath(it, ROOT)}:1: no edit's name or place" for it in bad)
    others = {f"{name}/{os.path.basename(it)[:-5]}" for it in good} - {*documents.named_edits()}
    if len(others) > MOST_EDITS:
        yield f"crates/{name}/must-fail:1: {len(others)} edits, {MOST_EDITS} at most"
    with tempfile.TemporaryDirectory(prefix="jellqupas-quick-") as room:
        for edit in good:
            changed, why = kit.toolchain().read_edit(f"{ROOT}/{edit}", CRATES[name].folder)
            if not re.fullmatch(r"\w+(?:-\w+)+\.edit", os.path.basename(edit)):
                why = why or "it isn't named FUNCTION-bug_in_words.edit"
            yield from [f"{edit}:1: {why}"] * bool(why)
            for path, text in (changed or {}).items():
                copy = f"{room}/{len(made)}{os.path.splitext(path)[1]}"
                made[copy] = f"{edit}:1: then {path}"
                with open(copy, "w", encoding="utf-8") as file:
                    file.write(text)
        wrong = unformatted([*made]) if made else ()
    yield from (f"{made[path]}:{line}: {why}" for path, line, why in wrong if line)


def sizes(name):
    """Files and functions that are too long, and clauses that are too wide."""
    for path, text in ((it, read(it)) for it in files_of(name)):
        if (lines := text.count("\n")) > FILE_LINES:
            yield f"{path}:1: {lines} lines"
        for it in FUNCTION.finditer(text if path.endswith(".rt") else ""):
            if (lines := it[3].count("\n")) >= BODY_LINES:
                yield fault(path, text, it.start(), f"{it[2]}: {lines} lines of body")
        for it in CLAUSE.finditer(text if path.endswith(".rt") else ""):
            if len(it[0]) > CLAUSE_COLUMNS:
                yield fault(path, text, it.start(), f"a clause of {len(it[0])} columns")


def counts(paths):
    """Whether there is too much of Python, shell and C."""
    found = {it: read(it) for it in paths if re.match(COUNTED, it)}
    is_code = lambda it: it.endswith((".py", ".sh", ".c", ".h")) or PROGRAM.match(found[it])
    count = sum(text.count("\n") for it, text in found.items() if is_code(it))
    if count > MOST_LINES:
        yield f"tools:1: {count} lines of Python, shell and C, {MOST_LINES} at most"


def committed(paths):
    """Files that rt makes, and the line that says which handles are allowed."""
    yield from (f"{it}:1: rt makes it" for it in paths if re.search(r"(?:^|/)out/", it))
    if read("HANDLES") != HANDLES:
        yield f"HANDLES:1: it isn't {HANDLES!r}"


def tasks():
    """Each look with what it is given: a crate, some crates, a folder, or all files."""
    words = ["git", "-C", ROOT, "ls-files", "-z", "--cached", "--others", "--exclude-standard"]
    listed = subprocess.run(words, capture_output=True, text=True, timeout=SECONDS)
    if listed.returncode:
        raise OSError("git lists no files here")
    paths = sorted({it for it in listed.stdout.split("\0") if os.path.isfile(f"{ROOT}/{it}")})
    names = sorted(CRATES, key=lambda it: -len(CRATES[it].below()))
    yield from ((look, it) for look in (texts, edits, sizes) for it in names)
    yield from ((layout, names[it::4]) for it in range(4))
    yield from ((unread, it) for it in sorted({it.partition("/")[0] for it in paths if "/" in it}))
    of_documents = (
        documents.links, documents.named_paths, documents.wide_lines, documents.citations,
        documents.numbers, documents.wrong_bodies,
    )
    yield from ((look, paths) for look in (counts, committed, *of_documents))
    yield kit.load("books", f"{ROOT}/tools/books").stale, False


def read_crates():
    """Reads the crates, as far as the toolchain takes them."""
    rt = kit.toolchain()
    os.chdir(ROOT)
    rt.rtlib.Crate, rt.Crate.allowed = rt.Crate, rt.handles_of(ROOT)
    CRATES.update((it.name, it) for it in rt.rtlib.crates_below(ROOT))


def found_by(look, given):
    try:
        return [*look(given)]
    except (OSError, subprocess.SubprocessError) as error:
        return [f"{look.__name__}: {error}"]


def main():
    found = [refusals(read_crates)]
    given = [] if found[0] else [*tasks()]
    fork = multiprocessing.get_context("fork")
    with ProcessPoolExecutor(len(os.sched_getaffinity(0)), fork) as pool:
        found += [it.result() for it in [pool.submit(found_by, *it) for it in given]]
    failed = sum(map(bool, found))
    faults = [line for lines in found for line in lines]
    print(*faults, f"{len(found) - failed} passed, {failed} failed, 0 skipped", sep="\n")
    return 1 if failed else 0
