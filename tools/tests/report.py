"""What came of the tests: how many passed, what failed, and what was skipped and why."""
from typing import Callable, NamedTuple

# The characters of a failure that are shown.
SHOWN = 2000


class Failed(Exception):
    """A test found something else than it wants."""


class Skipped(Exception):
    """This machine lacks what a test needs."""


class Test(NamedTuple):
    """A test: its name, its seconds, and its body. The longest test comes first, so of the tests of
    one program one alone has the 100 seconds of its build.

    The body is called with a `Tally` of its own. Where it counts nothing there, its return counts
    as one test that passed.
    """

    name: str
    seconds: float
    body: Callable


def want(holds, what):
    """Fails, with this text, where it doesn't hold."""
    if not holds:
        raise Failed(what)


def want_same(got, wanted, what):
    """Fails where what came differs from what is wanted."""
    want(got == wanted, f"{what}: {got!r}, wanted {wanted!r}")


class Tally:
    """Counts tests. One thread counts at a time."""

    def __init__(self, say):
        self.say, self.passed, self.failures, self.skipped = say, 0, [], []

    def passes(self, count=1):
        self.passed += count

    def fails(self, name, text):
        self.failures.append(name)
        self.say(f"FAILED {name}: {text[:SHOWN]}")

    def skips(self, name, why):
        self.skipped.append(name)
        self.say(f"skipped {name}: {why}")

    def takes(self, other):
        """Adds what another tally has counted."""
        self.passed += other.passed
        self.failures += other.failures
        self.skipped += other.skipped

    def is_empty(self):
        return not (self.passed or self.failures or self.skipped)

    def __str__(self):
        failed, skipped = len(self.failures), len(self.skipped)
        return f"{self.passed} passed, {failed} failed, {skipped} skipped"
