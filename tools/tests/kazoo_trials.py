"""kazoo's own tests, as Debian's python3-kazoo has them, over a server (kazoo_cluster.py)."""
import os
import re
import shlex
import sys

from builds import ended
from report import Skipped, want, want_same
from servers import words_of

HERE = os.path.dirname(os.path.abspath(__file__))
# (those of gevent and of eventlet are the client's and the lock's once more; with those of SASL it
# waits for a server that has SASL)
MODULES = (
    "barrier cache client connection counter election interrupt lease lock partitioner party queue"
    " watchers"
).split()
TESTS = 242
# What isn't here, and the tests that ask for it.
LACKING = {
    "ACLs that aren't open": (
        "TestAuthentication.test_auth TestAuthentication.test_connect_auth"
        " TestAuthentication.test_unicode_auth TestClient.test_create_makepath_incompatible_acls"
        " TestClient.test_get_acls TestClient.test_set_acls TestClientTransactions.test_default_acl"
    ),
    "null data": "TestClient.test_create_null_data TestClient.test_set_null_data",
    "a name that is a counter alone": "TestClient.test_create_sequence",
    "Unicode": "TestClient.test_create_unicode_path",
    "a second server": "TestClient.test_update_host_list TestReadOnlyMode.test_read_only",
    "reconfig": (
        "TestReconfig.test_add_remove_observer TestReconfig.test_bad_input"
        " TestReconfig.test_no_super_auth"
    ),
}
ASKED = """
import sys, kazoo, mock, objgraph, pytest
from kazoo import tests
sys.exit(kazoo.__version__ != "2.8.0" or print(tests.__path__[0]))
"""


def with_tests():
    """A Python that can run kazoo's own tests, and the folder where they are."""
    for it in (sys.executable, "/usr/bin/python3"):
        status, out, _ = ended([it, "-c", ASKED])
        if not status:
            return it, out.strip()
    raise Skipped("no kazoo 2.8 with its tests, pytest, mock and objgraph (Debian's python3-*)")


def outcomes(builds, only=()):
    """What came of the tests, or of those that are named: by its name 'ok', 'skipped' or why."""
    python, folder = builds.once("kazoo's tests", with_tests)
    server = [*words_of(builds)[:2], "--listen", "127.0.0.1:{port}", "--data", "{folder}"]
    given = {
        "PYTHONPATH": f"{os.path.dirname(HERE)}:{HERE}", "PYTHONDONTWRITEBYTECODE": "1",
        "KAZOO_SERVER": shlex.join([*server, "--sync", "never"]), "KAZOO_ONLY": " ".join(only),
    }
    words = ["env", *map("=".join, given.items()), python, "-m", "pytest", "-p", "kazoo_cluster"]
    words += ["-p", "no:terminal", "-p", "no:cacheprovider", "-s", "--assert=plain"]
    paths = [f"{folder}/test_{it}.py" for it in MODULES]
    _, out, said = ended([*words, *paths], 1200, cwd=builds.room)
    found = re.findall(r"(?m)^(ok|skipped|FAILED) (\w+\.\w+)(?:: (.*))?$", out)
    want_same(len({it[1] for it in found}), len(only) or TESTS, f"tests of kazoo: {said[-500:]}")
    return {name: why if word == "FAILED" else word for word, name, why in found}


def kazoo(builds, tally):
    found, lacking = outcomes(builds), " ".join(LACKING.values()).split()
    failed = {it for it, came in found.items() if came not in ("ok", "skipped")}
    # (their waits are of seconds, so a busy machine may fail some: these are run once more)
    if again := failed - {*lacking}:
        found.update(outcomes(builds, again))
    for name, came in found.items():
        if came == "ok" and name in lacking:
            tally.fails("kazoo", f"{name} passes: it isn't lacking")
        elif came == "ok":
            tally.passes()
        elif came != "skipped" and name not in lacking:
            tally.fails("kazoo", f"{name}: {came}")
    want({*lacking} <= {*found}, "tests that kazoo has not are named")
