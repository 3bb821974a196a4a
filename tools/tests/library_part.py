"""The library for programs of other languages, as ./library builds and installs it.

Lines are played through the shared object. Programs in C run over the archive under the address
sanitizer (library.c). The Python class has tests of its own (library_calls.py).
"""
import glob
import os
import random
import re
import shutil
import subprocess
import sys

import kit
import rows_part
import usage
from builds import ended
from report import Skipped, Test, want, want_same
from sources import ROOT

SECONDS = 1800
LOCK = """server 2 has failed
client 1 has the lock
client 2 waits
client 1 writes
client 1's session ends
client 2 has the lock
client 1 writes too late: refused
client 2 writes
"""
PRINTED = {
    "lock": LOCK, "election": "one leads\nnobody leads\ntwo leads\nin the term 5\n",
    "setting": "client 1 sets it to blue, once\nclient 2 has read an old version\n"
    "client 2 reads again, and adds green\nserver 4 alone has it: blue and green\n",
    "first": "ok data - stat 0 0 0 0 0 0 0 0 0 0\n",
}
ADDRESSES = "-g -O1 -fsanitize=address -fno-omit-frame-pointer".split()


def ran(words, **changes):
    """What a program prints; it ends well."""
    given = {"stderr": subprocess.STDOUT, "errors": "replace", "cwd": ROOT}
    status, out, _ = ended(["env", *map("=".join, changes.items()), *words], SECONDS, **given)
    want(not status, f"{words}: status {status}: {out[-1500:]}")
    return out


def installed(builds):
    """The folder in which ./library installed it."""
    if not builds.is_proved:
        raise Skipped("the archive is made by a proof")
    prefix = f"{builds.room}/usr"
    return builds.once("library", lambda: (ran([f"{ROOT}/library", "--prefix", prefix]), prefix)[1])


def module(builds):
    """The Python module, loaded."""
    path = f"{installed(builds)}/lib/jellqupas/jellqupas.py"
    return builds.once("jellqupas", lambda: kit.load("jellqupas", path))


def played(builds, servers, text):
    """All that a service with so many servers answers to the lines of a script."""
    lines = text.split(b"\n")
    with module(builds).Service(servers) as service:
        return b"".join(service.call(it) + b"\n" for it in (lines if lines[-1] else lines[:-1]))


def play_rows(builds, tally):
    """Each file of rows/ that is a script over given servers."""
    for path in sorted(glob.glob(f"{ROOT}/rows/*.rows")):
        rows = rows_part.Rows(path)
        if {"words", "input", "output", "status", "error"} & {*rows.settings}:
            continue
        for servers in rows_part.numbers(rows.settings.get("servers", "1")):
            for text, wanted in rows.scripts():
                want(played(builds, servers, text) == wanted, f"{path} over {servers} servers")
                tally.passes()


def play_bytes(builds, _):
    """Lines that no client means, as the program answers them."""
    chance = random.Random(7)
    words = b"1 0 32 get create multi /a / p e:1 - aGk= aGk ; any take s1 m \0 \xff".split(b" ")
    lines = [b"1 get /" + bytes([it]) for it in range(256) if it != 10]
    lines += [b"1 get /" + b"a" * it for it in (524280, 524281, 524282, 1 << 20)]
    lines += [b" ".join(chance.choices(words, k=chance.randrange(1, 8))) for _ in range(2000)]
    text = b"\n".join(lines) + b"\n"
    program = [builds.program("zk"), "script", "--servers", "3"]
    out = ended(program, SECONDS, input=text, text=False)[1]
    want(played(builds, 3, text) == out, "lines of any bytes are answered as by the program")
    with module(builds).Service(1) as service:
        want_same(service.call(b"1 get /\n1 get /"), b"bad line", "an LF in the middle")


def test_python(builds, tally):
    """The class, and the examples over it."""
    found = {"PYTHONPATH": f"{installed(builds)}/lib/jellqupas", "PYTHONDONTWRITEBYTECODE": "1"}
    done = ran([sys.executable, f"{ROOT}/tools/tests/library_calls.py"], **found)
    tally.passes(int(re.search(r"^Ran (\d+) tests", done, re.M)[1]))
    for path in sorted(glob.glob(f"{ROOT}/examples/*.py")):
        name = os.path.basename(path)[:-3]
        want_same(ran([sys.executable, path], **found), PRINTED[name], path)
        tally.passes()


def test_c(builds, tally):
    """The examples and library.c over the archive, under the address sanitizer."""
    prefix = installed(builds)
    flags = [*ADDRESSES, f"{prefix}/lib/libjellqupas.a"]
    for name in ("first", "lock"):
        program = builds.compiled(name, [f"examples/{name}.c"], flags)
        want_same(ran([program]), PRINTED[name], f"{name}.c")
        tally.passes()
    flags = [*flags, "-Wl,--wrap=malloc,--wrap=realloc"]
    program = builds.compiled("library_c", ["tools/tests/library.c"], flags)
    tally.passes(int(ran([program]).split()[0]))


def test_installed(builds, _):
    """A program over what pkg-config names; the version is the same everywhere."""
    lib = f"{installed(builds)}/lib"
    version = usage.version_number()
    want_same(module(builds).__version__, version, "the version of the module")
    if not shutil.which("pkg-config"):
        raise Skipped("there is no pkg-config here")
    found = {"PKG_CONFIG_PATH": f"{lib}/pkgconfig"}
    want_same(ran(["pkg-config", "--modversion", "jellqupas"], **found), f"{version}\n", "the .pc")
    flags = ran(["pkg-config", "--cflags", "--libs", "jellqupas"], **found).split()
    program = builds.compiled("shared", ["examples/lock.c"], flags)
    want_same(ran([program], LD_LIBRARY_PATH=lib), LOCK, "lock.c over the shared object")


def tests(builds):
    # (the first one builds it, and the others come last)
    parts = {test_installed: 300, test_c: 0, test_python: 0, play_rows: 0, play_bytes: 0}
    body = lambda it: lambda tally: it(builds, tally)
    return [Test(f"library: {it.__name__}", seconds, body(it)) for it, seconds in parts.items()]
