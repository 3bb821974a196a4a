"""What the measurements share: words, programs, instructions, and rows of a table."""
import argparse
import contextlib
import os
import re
import shutil
import subprocess
import sys
import tempfile

sys.dont_write_bytecode = True
HERE = os.path.dirname(os.path.realpath(__file__))
sys.path[:0] = [f"{HERE}/../tools", f"{HERE}/../tools/tests"]
from builds import Builds  # noqa: E402 (the folders come first)
from report import Failed, Skipped, want, want_same  # noqa: E402, F401

CACHEGRIND = "valgrind --tool=cachegrind --cache-sim=no --cachegrind-out-file=/dev/null".split()


def parser(usage, has_others=False):
    """The words of a script. Where it has others, NAME=PROGRAM names a program to compare."""
    made = argparse.ArgumentParser(description=usage)
    made.formatter_class = argparse.RawDescriptionHelpFormatter
    made.add_argument("--unproved", action="store_true", help="only to try a script: no proof")
    if has_others:
        pair = lambda word: tuple(word.split("=", 1))
        made.add_argument("others", nargs="*", type=pair, metavar="NAME=PROGRAM")
    return made


@contextlib.contextmanager
def builds(given):
    """The programs. They are the proved ones of these sources, unless the words say otherwise."""
    with tempfile.TemporaryDirectory(prefix="jellqupas-bench-") as room:
        try:
            yield Builds(not given.unproved, room, lambda text: print(text, file=sys.stderr))
        except (Failed, Skipped) as error:
            raise SystemExit(f"{sys.argv[0]}: {error}") from None


def instructions(words, lines):
    """The instructions of a run on these lines, and its output."""
    if not shutil.which("valgrind"):
        raise Skipped("there is no valgrind here")
    text = "".join(f"{line}\n" for line in lines).encode()
    ran = subprocess.run([*CACHEGRIND, *words], input=text, capture_output=True)
    if ran.returncode:
        raise Failed(f"{' '.join(words)}: {ran.stderr.decode()[-1000:]}")
    return references(ran.stderr), ran.stdout


def references(said):
    """The instructions that valgrind counted, as it says."""
    found = re.search(rb"I +refs: +([0-9,]+)", said)
    if not found:
        raise Failed(said.decode()[-1000:])
    return int(found[1].replace(b",", b""))


def row(*cells):
    """Prints a row of a table."""
    print(f"| {' | '.join(map(str, cells))} |", flush=True)


def head(*cells):
    """Prints the head of a table, after an empty line."""
    print()
    row(*cells)
    print("|---" * len(cells) + "|")


def compared(title, figures, outputs):
    """Prints a row, and says whether all outputs are the same."""
    is_same = len({*outputs}) == 1
    row(title if is_same else f"{title} (outputs DIFFER)", *(f"{it:,.0f}" for it in figures))
    return is_same
