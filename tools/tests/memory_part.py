"""Refuses each allocation of the stories of two programs in turn, one a run.

refusals.c is preloaded. It lets one call of the allocator fail, and says how many calls there were.
In the first run none fails, and then each in turn; the last run is the one without such a call.

A story ends done, refused, not begun or WRONG. It is WRONG where an answer came in the place of the
refusal, or where the state isn't the one that its clauses name. A run is wrong, too, where two
stories met the refusal, or where one met what was not refused. Each story is refused in some run.
"""
import concurrent.futures
import re

from builds import ended
from report import Skipped, Test, want, want_same
from sources import ROOT

# The programs, and about how many seconds their runs take.
CRATES = {"zmemory_drill": 100, "zfolder_memory_drill": 100}
# How many runs go at once.
AT_ONCE = 3
FLAGS = ("-Werror", "-fPIC", "-shared", "-fno-builtin")
END = "the end"
LINE = re.compile(r"([^:\n]+): (done|refused|not begun|WRONG)")
CALLS = re.compile(r"(\d+) allocations\n")


def run(program, preloaded, names, number):
    """The run in which the call of this number is refused, if there is one; at 0 none is.

    Gives how many calls there were, and the stories that were refused.
    """
    words = ["env", f"LD_PRELOAD={preloaded}", f"REFUSED={number}", program]
    status, out, error = ended(words)
    calls = CALLS.fullmatch(error)
    want(calls and not status, f"run {number}: {status}: {error[-300:]!r}")
    calls, what = int(calls[1]), f"run {number} of {calls[1]}"
    stories = dict(it.groups() for it in filter(None, map(LINE.fullmatch, out.splitlines())))
    want_same(list(stories), names, f"{what}: the stories")
    by = lambda *ends: [name for name, it in stories.items() if it in ends]
    met, most = by("refused", "not begun"), 1 if 0 < number <= calls else 0
    want(not by("WRONG"), f"{what}: WRONG: {by('WRONG')}")
    want(len(met) <= most, f"{what}: refused: {met}")
    want_same(END in met, number == calls, f"{what}: the last call is refused")
    return calls, by("refused")


def refuse(tally, builds, crate):
    """All runs of a crate's program."""
    program = builds.program(crate)
    with open(program, "rb") as file:
        if b"__asan_init" in file.read():
            raise Skipped("under the address sanitizer no allocator can be preloaded")
    preloaded = builds.compiled("refusals.so", ["tools/tests/refusals.c"], FLAGS)
    with open(f"{ROOT}/crates/{crate}/stdout", encoding="utf-8") as file:
        names = [LINE.fullmatch(it)[1] for it in file.read().splitlines()]
    one = lambda number: run(program, preloaded, names, number)
    # (each call is refused in turn, and then one that there isn't)
    numbers, refused = range(1, one(0)[0] + 2), set()
    with concurrent.futures.ThreadPoolExecutor(AT_ONCE) as pool:
        for number, (calls, stories) in zip(numbers, pool.map(one, numbers)):
            refused.update(stories)
            tally.passes()
    want(number > calls, f"{crate}: run {number} of {calls} is the last one")
    want_same(sorted({*names} - refused), [], f"{crate}: stories that met no refusal")


def tests(builds):
    body = lambda crate: lambda tally: refuse(tally, builds, crate)
    return [Test(f"refusals of {it}", seconds, body(it)) for it, seconds in CRATES.items()]
