"""Plays each file of rows/, and compares the output, the standard error and the exit status.

A line of a file is a line of a script and, behind a tab each, the lines that it is answered with.
{3*ab} stands for ababab, and \\015 for the byte of that octal number. Empty lines and those that
begin with # are no lines of the script; nor are these:

    @servers N ..       the script is run over each of these numbers of servers; 1-16 are all
    @words WORD ..      the words that the program is called with, in place of 'script --servers N'
    @times N LINE       N such lines, with the number of each, from 1 on, in the place of each #
    @alone              each line is a script of its own
    @bare               the last line has no LF
    @input FILE         the input, in place of the lines
    @output FILE        where the output goes, in place of being compared
    @status N           the exit status, where it isn't 0
    @error LINE         the line on standard error, where there is one
"""
import contextlib
import difflib
import glob
import os
import re
import subprocess

from builds import ended
from report import Test
from sources import ROOT

SETTINGS = {"servers", "words", "alone", "bare", "input", "output", "status", "error"}


def spelled(text):
    """The bytes that a text of a file stands for."""
    text = re.sub(r"\{(\d+)\*([^}]*)\}", lambda it: int(it[1]) * it[2], text)
    return re.sub(rb"\\([0-7]{1,4})", lambda it: bytes([int(it[1], 8)]), text.encode())


def numbers(text):
    """The numbers that a setting names: each alone, or all from one to another."""
    for word in text.split():
        first, _, last = word.partition("-")
        yield from range(int(first), int(last or first) + 1)


class Rows:
    """The settings of a file, and its lines, each with its answers."""

    def __init__(self, path):
        self.settings, self.lines = {}, []
        with open(path, encoding="utf-8") as file:
            for line in file.read().split("\n"):
                self.read(line)

    def read(self, line):
        key, _, value = line[1:].partition(" ")
        if line.startswith("@times "):
            count, _, repeated = value.partition(" ")
            for number in range(1, int(count) + 1):
                self.add(repeated.replace("#", str(number)))
        elif line.startswith("@"):
            if key not in SETTINGS:
                raise ValueError(f"there is no setting @{key}")
            self.settings[key] = value
        elif line and not line.startswith("#"):
            self.add(line)

    def add(self, line):
        asked, *answers = line.split("\t")
        self.lines.append((spelled(asked), [spelled(it) for it in answers if it]))

    def words(self):
        """The words of each run."""
        if "servers" in self.settings:
            for servers in numbers(self.settings["servers"]):
                yield [b"script", b"--servers", b"%d" % servers]
        else:
            yield [spelled(it) for it in self.settings.get("words", "script").split()]

    def scripts(self):
        """The input of each run, and the output that is wanted."""
        end = b"" if "bare" in self.settings else b"\n"
        for rows in [[it] for it in self.lines] if "alone" in self.settings else [self.lines]:
            text = b"\n".join(asked for asked, _ in rows) + (end if rows else b"")
            yield text, b"".join(answer + b"\n" for _, answers in rows for answer in answers)


def run(program, words, settings, text):
    """The output, the standard error and the exit status of one run."""
    with contextlib.ExitStack() as files:
        given, out = {"input": text}, subprocess.PIPE
        if "input" in settings:
            given = {"stdin": os.open(os.path.join(ROOT, settings["input"]), os.O_RDONLY)}
            files.callback(os.close, given["stdin"])
        if "output" in settings:
            out = files.enter_context(open(settings["output"], "wb"))
        status, out, error = ended([program, *words], stdout=out, text=False, **given)
    return out or b"", error, status


def differing(name, wanted, got):
    """The lines in which what was wanted differs from what came."""
    sides = [[it[:200] for it in one.decode(errors="replace").split("\n")] for one in (wanted, got)]
    return [f"{name} {it}" for it in difflib.unified_diff(*sides, lineterm="", n=0)][2:]


def play(tally, program, path, rows):
    """All runs of a file."""
    error = spelled(rows.settings["error"]) + b"\n" if "error" in rows.settings else b""
    status = int(rows.settings.get("status", 0))
    for words in rows.words():
        for text, wanted in rows.scripts():
            out, said, ended = run(program, words, rows.settings, text)
            if (out, said, ended) == (wanted, error, status):
                tally.passes()
                continue
            wrong = differing("output", wanted, out) + differing("error", error, said)
            name = f"{os.path.relpath(path, ROOT)}: {b' '.join(words).decode(errors='replace')}"
            tally.fails(name, "\n".join([f"status {ended}", *wrong[:20]]))


def test(builds, path):
    """The test that a file is."""
    rows = Rows(path)
    is_race = rows.settings.get("words", "").startswith("race")
    seconds = 100 if path.endswith("/log_at_size.rows") else 5 if is_race else 1
    body = lambda tally: play(tally, builds.program("zk_race" if is_race else "zk"), path, rows)
    return Test(os.path.basename(path), seconds, body)


def files():
    return sorted(glob.glob(f"{ROOT}/rows/*.rows"))


def tests(builds):
    return [test(builds, it) for it in files()]
