"""The test functions of the crates of tests, each in a process of its own, without proof."""
import glob
import re
import subprocess

from builds import ended
from report import Test, want
from sources import ROOT, text_of

LISTED = re.compile(r"(?m)^(\S+): test$")


def call_all(tally, builds, crate):
    """Calls each test function of a crate."""
    program, given = builds.tests(crate), {"stderr": subprocess.STDOUT, "errors": "replace"}
    names = LISTED.findall(ended([program, "--list"], **given)[1])
    want(names, "no test is listed")
    for name in names:
        status, said, _ = ended([program, name], **given)
        is_ok = not status and said.endswith("test result: ok\n")
        tally.passes() if is_ok else tally.fails(f"{crate}::{name}", f"status {status}: {said}")


def tests(builds):
    found = glob.glob(f"{ROOT}/crates/*/src/**/*.rt", recursive=True)
    with_tests = (it.removeprefix(f"{ROOT}/crates/") for it in found if b"#[test]" in text_of(it))
    body = lambda crate: lambda tally: call_all(tally, builds, crate)
    crates = sorted({it.partition("/")[0] for it in with_tests})
    return [Test(f"tests of {it}", 100, body(it)) for it in crates]
