"""The programs that the tests run: proved, or built without proof. Each is built once."""
import os
import shutil
import subprocess
import threading

import programs
import serving
import unproved
from report import Failed, Skipped, want
from sources import ROOT
from ending import Stopped

SANITIZERS = "-g -fsanitize=address,undefined -fno-sanitize-recover=all".split()
# (another status than any of the programs', and what was freed isn't held for long)
ENVIRONMENT = {**os.environ, "ASAN_OPTIONS": "exitcode=99:quarantine_size_mb=8"}


def ended(words, seconds=120, **given):
    """How a program ended: its status, its output, and what it said on standard error."""
    given = {"stdin": subprocess.DEVNULL, **given} if "input" not in given else given
    given = {"stdout": subprocess.PIPE, "stderr": subprocess.PIPE, "text": True, **given}
    ran = subprocess.run(words, env=ENVIRONMENT, timeout=seconds, **given)
    return ran.returncode, ran.stdout, ran.stderr


class Builds:
    """What the tests of one run are given to run."""

    def __init__(self, is_proved, room, say, is_long=False):
        self.is_proved, self.is_long, self.room, self.say = is_proved, is_long, room, say
        self.locks, self.alone, self.made = {}, threading.Lock(), {}

    def once(self, name, make):
        """What `make` gives, or what it raised. It is called once in this run."""
        with self.alone:
            lock = self.locks.setdefault(name, threading.Lock())
        with lock:
            if name not in self.made:
                try:
                    self.made[name] = make()
                except (Failed, Skipped, Stopped) as error:
                    self.made[name] = error
        found = self.made[name]
        if isinstance(found, Stopped):
            raise Failed(str(found))
        if isinstance(found, Exception):
            raise found
        return found

    def program(self, crate):
        """The path of a crate's program."""
        tell = lambda text: self.say(f"{crate}: {text}")
        make = self.proved if self.is_proved else lambda it: unproved.build(it, tell)
        return self.once(crate, lambda: make(crate))

    def tests(self, crate):
        """The path of a program that calls a crate's test functions, which isn't proved."""
        tell = lambda text: self.say(f"{crate}: {text}")
        return self.once(f"tests of {crate}", lambda: unproved.build(crate, tell, True))

    def proved(self, crate):
        path = programs.proved(crate)
        if not path:
            raise Failed(f"no proved {crate} of these sources is there: `rt ci` builds it")
        return path

    def compiler(self):
        """The C compiler of this machine."""
        found = next(filter(shutil.which, serving.COMPILERS), None)
        if not found:
            raise Skipped("there is no C compiler here")
        return found

    def compiled(self, name, files, flags=()):
        """A program, or a library where `-shared` is among the flags, of these files in C."""
        return self.once(name, lambda: self.compile(name, files, flags))

    def compile(self, name, files, flags):
        path = f"{self.room}/{name}"
        words = [self.compiler(), *serving.FLAGS, f"-I{ROOT}/include", "-o", path]
        status, _, said = ended([*words, *(os.path.join(ROOT, it) for it in files), *flags])
        want(not status, f"{name} doesn't compile: {said[-1500:]}")
        return path
