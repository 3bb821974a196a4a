"""A plugin of pytest by which kazoo's own tests run over a server that stands alone.

    KAZOO_SERVER='WORD ..' python3 -m pytest -p kazoo_cluster -p no:terminal -s FILE ..

The words start a server; they have {port} and {folder} where these belong. Tests stop it and start
it again, and its folder stays. There is a line for each test: 'ok NAME', 'skipped NAME: WHY' or
'FAILED NAME: WHY'. KAZOO_ONLY names those that are to run, where not all are.
"""
import os
import shlex
import shutil
import signal
import socket
import subprocess
import tempfile

from kazoo.testing import harness

from wire import until

# The seconds that a test may take, and what came of those that didn't pass.
SECONDS, WRONG = 90, {}


class Server:
    """A server, as kazoo's tests start it and stop it."""

    def __init__(self, words):
        with socket.create_server(("127.0.0.1", 0)) as it:
            self.port = it.getsockname()[1]
        self.room, self.ran, self.address = tempfile.mkdtemp(), None, f"127.0.0.1:{self.port}"
        places = {"port": self.port, "folder": f"{self.room}/data"}
        self.words = [it.format(**places) for it in words]

    @property
    def running(self):
        return self.ran is not None

    def listens(self):
        try:
            with socket.create_connection(("127.0.0.1", self.port), timeout=9) as it:
                it.sendall(b"ruok")
                return it.recv(9) == b"imok"
        except OSError:
            return False

    def run(self):
        if not self.running:
            with open(f"{self.room}/said", "ab") as said:
                self.ran = subprocess.Popen(
                    self.words, stdin=subprocess.DEVNULL, stdout=said, stderr=said)
            assert until(self.listens), "the server doesn't listen"

    def stop(self):
        if self.running:
            self.ran.terminate()
            self.ran.wait()
            self.ran = None

    def destroy(self):
        self.stop()
        shutil.rmtree(self.room, ignore_errors=True)


class Cluster(list):
    """What kazoo's tests take for their cluster."""

    def start(self):
        for it in self:
            it.run()

    def terminate(self):
        for it in self:
            it.destroy()


CLUSTER = Cluster([Server(shlex.split(os.environ["KAZOO_SERVER"]))])
harness.get_global_cluster = lambda: CLUSTER


def name_of(test):
    """A test's name: its class and its function."""
    return ".".join(test.split("::")[-2:])


def pytest_collection_modifyitems(items):
    if only := os.environ.get("KAZOO_ONLY", "").split():
        items[:] = [it for it in items if name_of(it.nodeid) in only]


def late(*_):
    raise TimeoutError(f"more than {SECONDS} s")


def pytest_runtest_setup():
    signal.signal(signal.SIGALRM, late)
    signal.alarm(SECONDS)


def pytest_runtest_logreport(report):
    name = name_of(report.nodeid)
    if report.skipped:
        WRONG[name] = f"skipped {name}: {report.longrepr[2]}"
    elif report.failed:
        why = getattr(report.longrepr, "reprcrash", None)
        said = why.message if why else str(report.longrepr)
        place = f"line {why.lineno}: " if why else ""
        WRONG.setdefault(name, f"FAILED {name}: {place}{said.splitlines()[0]}")
    if report.when == "teardown":
        signal.alarm(0)
        print(WRONG.get(name, f"ok {name}"), flush=True)


def pytest_sessionfinish():
    CLUSTER.terminate()
