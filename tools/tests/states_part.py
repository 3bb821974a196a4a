"""Lets the states that the scripts of rows/ come to go round: written, read back, written again.

Each file is one run, or one for each of its lines where each is a script of its own. Two more runs
are drawn, of 12,000 calls each, of which it is known how many changes they are.
"""
import os
import re

import rows_part
from builds import ended
from report import Test

CRATE, SECONDS, PARTS = "zfolder_drill", 300, 2
SAID = re.compile(rb"(\d+ changes), \d+ states of at most \d+ rows: all are read again\n")
# All calls are changes, but for a TTL of 0 and for retries of a client that has called nothing.
DRAWN = {b"drill 1\n": b"11993 changes", b"drill 2\n": b"11996 changes"}


def scripts():
    """The input of each run, with its name."""
    for path in rows_part.files():
        for text, _ in rows_part.Rows(path).scripts():
            if text:
                yield os.path.basename(path), text


def play(tally, builds, found):
    for name, text in found:
        status, out, error = ended([builds.program(CRATE)], SECONDS, input=text, text=False)
        said = SAID.fullmatch(out)
        if said and not status and said[1] == DRAWN.get(text, said[1]):
            tally.passes()
        else:
            tally.fails(f"states of {name}", f"status {status}: {out[-1000:]!r} {error[-1000:]!r}")


def tests(builds):
    found = list(scripts())
    parts = [(f"rows, part {it + 1}", 5, found[it::PARTS]) for it in range(PARTS)]
    parts += [(it.decode().strip(), n, [("drawn", it)]) for n, it in zip((100, 40), DRAWN)]
    body = lambda found: lambda tally: play(tally, builds, found)
    return [Test(f"states of {name}", seconds, body(it)) for name, seconds, it in parts]
