"""Runs tests on all processors, says how far it is, and leaves nothing in its place."""
import concurrent.futures
import contextlib
import ctypes
import glob
import os
import shutil
import signal
import subprocess
import sys
import tempfile
import threading
import time
import traceback

import kit
import places
from ending import Stopped
from report import Failed, Skipped, Tally

# The parts, each a module of this folder with a function `tests(builds)`, in the order of work.
PARTS = (
    "tests", "rows", "race", "states", "memory", "serve", "folder", "nodes", "library", "commands",
    "install",
)
# The part without one: `rt ci` runs the test functions itself.
OF_THE_GATE = "tests"
# The bytes of disk that are needed, and prctl's number for who takes over processes.
NEEDED, SUBREAPER = 1 << 30, 36


def say(text):
    print(text, flush=True)


def refuse(text, status):
    print(f"test: {text}", file=sys.stderr)
    return status


def children(top=None):
    """The processes below this one, or below `top`; also those whose parent has ended."""
    found = []
    for path in glob.glob(f"/proc/{top or os.getpid()}/task/*/children"):
        # (a process may just have ended)
        with contextlib.suppress(OSError), open(path, encoding="ascii") as file:
            for it in map(int, file.read().split()):
                found += [it, *children(it)]
    return found


def end_children():
    """Ends every process that a test has started."""
    for _ in range(50):
        left = children()
        for pid in left:
            with contextlib.suppress(OSError):
                os.kill(pid, signal.SIGKILL)
        with contextlib.suppress(ChildProcessError):
            while os.waitpid(-1, os.WNOHANG)[0]:
                pass
        if not left:
            return
        time.sleep(0.02)


class Run:
    """The tests of one call."""

    def __init__(self, tests):
        self.tests = sorted(tests, key=lambda it: -it.seconds)
        self.tally, self.left, self.began = Tally(say), len(tests), time.monotonic()
        self.lock = threading.Lock()

    def one(self, test):
        began, own = time.monotonic(), Tally(say)
        try:
            test.body(own)
            if own.is_empty():
                own.passes()
        except Skipped as error:
            own.skips(test.name, str(error))
        except (Failed, subprocess.SubprocessError) as error:
            own.fails(test.name, str(error))
        except Exception:
            own.fails(test.name, traceback.format_exc())
        with self.lock:
            self.tally.takes(own)
            self.left -= 1
            took = time.monotonic() - began
            say(f"{test.name}: {took:.1f} s; {self.left} of {len(self.tests)} left")

    def all(self):
        with concurrent.futures.ThreadPoolExecutor(len(os.sched_getaffinity(0))) as pool:
            list(pool.map(self.one, self.tests))
        for name in self.tally.failures:
            say(f"FAILED: {name}")
        for name in self.tally.skipped:
            say(f"skipped: {name}")
        say(f"{time.monotonic() - self.began:.0f} s")
        say(str(self.tally))
        return 1 if self.tally.failures or not self.tally.passed else 0


def tests_of(parts, is_proved, is_long, room):
    """The tests of these parts."""
    from builds import Builds

    builds, found = Builds(is_proved, room, say, is_long), []
    for name in parts:
        found += __import__(f"{name}_part").tests(builds)
    return found


def ended(number, _):
    signal.signal(number, signal.SIG_IGN)
    raise Stopped(f"ended by {signal.Signals(number).name}", 128 + number)


def run(parts, is_proved, is_long):
    """Runs the tests of these parts in a folder that is removed afterwards."""
    cache, room = places.made(places.cache()), tempfile.mkdtemp(prefix="jellqupas-test-")
    os.environ["TMPDIR"] = tempfile.tempdir = room
    # (what outlives its parent is this process's own, so that it can be ended)
    ctypes.CDLL(None).prctl(SUBREAPER, 1, 0, 0, 0)
    try:
        for it in (room, cache):
            if shutil.disk_usage(it).free < NEEDED:
                raise Stopped(f"{it}: less than {NEEDED >> 20} MiB of disk are free")
        child = os.fork()
        if not child:
            os._exit(Run(tests_of(parts, is_proved, is_long, room)).all())
        for it in (signal.SIGINT, signal.SIGTERM, signal.SIGHUP):
            signal.signal(it, ended)
        pid = None
        # (processes whose parent has ended are taken, too: who waits for their end sees it)
        while pid != child:
            pid, status = os.waitpid(-1, 0)
        return abs(os.waitstatus_to_exitcode(status))
    finally:
        end_children()
        shutil.rmtree(room, ignore_errors=True)


def main(words, usage):
    usage = usage.strip().format(parts=" ".join(PARTS))
    if words in (["--help"], ["-h"], ["help"]):
        say(usage)
        return 0
    is_long, words = "--long" in words, [it for it in words if it != "--long"]
    is_proved, is_quick = words[:1] == ["--proved"], words == ["--quick"]
    parts = words[1:] if is_proved else [] if is_quick else words
    wrong = next((it for it in parts if it not in PARTS), None)
    if wrong:
        return refuse(f"there is no part '{wrong}'; ./test --help has the words", 2)
    try:
        kit.required()
        if is_quick:
            import quick

            return quick.main()
        every = [it for it in PARTS if not (is_proved and it == OF_THE_GATE)]
        return run([it for it in PARTS if it in (parts or every)], is_proved, is_long)
    except Stopped as error:
        return refuse(str(error), error.status)
    except OSError as error:
        where = f"{error.filename}: " if error.filename else ""
        return refuse(f"{where}{(error.strerror or str(error)).lower()}", 3)
