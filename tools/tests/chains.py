"""Chains of nodes for tests: each node a host in C with zk_node and the log's helper below it."""
import contextlib
import os
import random
import signal
import socket
import subprocess
import tempfile
import threading

import calling
import clusters
import log_entries
import running
import serving
from builds import ENVIRONMENT, SANITIZERS
from report import Failed, want
from sources import ROOT
from wire import until

# Below the ports that the system gives to those who dial: else one may dial itself.
PORTS, SEED = range(12000, 31000), random.Random(os.getpid())
ALONE, TAKEN = threading.Lock(), set()
# The milliseconds after which a node that can't be reached is reported, and the seconds for what
# is to come at last.
SUSPECT, SECONDS = 300, 60


def free_port():
    """A port that nothing listens on, and that no other test here is given."""
    with ALONE:
        while True:
            port = SEED.choice(PORTS)
            with socket.socket() as it:
                if port not in TAKEN and it.connect_ex(("127.0.0.1", port)):
                    TAKEN.add(port)
                    return port


def comes(condition, what):
    """Waits until the condition holds. Returns what it gave."""
    found = []

    def holds():
        found[:] = [condition()]
        return found[0]

    want(until(holds, SECONDS), f"it never comes: {what() if callable(what) else what}")
    return found[0]


class Node:
    """A node that was started."""

    def __init__(self, words):
        self.error, none = tempfile.TemporaryFile(), subprocess.DEVNULL
        self.ran = subprocess.Popen(
            words, stdin=none, stdout=none, stderr=self.error, env=ENVIRONMENT)

    def said(self):
        """What it said on standard error."""
        return os.pread(self.error.fileno(), 1 << 20, 0).decode(errors="replace")

    def processes(self):
        """The host's process, and those below it: zk_node and the log's helper."""
        return [self.ran.pid, *running.children(self.ran.pid)]

    def helper(self):
        """The process of the log's helper."""
        for it in running.children(self.ran.pid):
            with open(f"/proc/{it}/cmdline", "rb") as file:
                if b"log_file.py" in file.read():
                    return it
        raise Failed(f"it has no helper: {self.said()}")

    def signal(self, number):
        """Sends a signal to all of its processes."""
        for it in self.processes():
            # (where the first ends, the others end with it)
            with contextlib.suppress(ProcessLookupError):
                os.kill(it, number)

    def kill(self):
        self.ran.kill()
        self.ran.wait(SECONDS)

    def ends(self, status):
        """It ends by itself, with this status. Returns what it said."""
        want(until(lambda: self.ran.poll() is not None, SECONDS), f"it ends: {self.said()}")
        want(self.ran.returncode == status, f"{self.ran.returncode}: {self.said()}")
        return self.said()


class Chain:
    """A cluster with nodes n1, n2, .. of which some run. All have ended after a `with`."""

    def __init__(self, builds, nodes=3, opened=True, suspect=SUSPECT):
        self.builds, self.running, self.started = builds, {}, []
        self.folder = tempfile.mkdtemp(dir=builds.room)
        self.file, self.suspect = f"{self.folder}/cluster", suspect
        self.addresses = {f"n{it + 1}": f"127.0.0.1:{free_port()}" for it in range(nodes)}
        self.write(self.file)
        self.cluster = clusters.read(self.file)
        if opened:
            clusters.log_file.create(self.cluster.log, self.cluster.name, "n1")
            self.followed = clusters.Followed(self.cluster)

    def write(self, path, /, **changes):
        """Writes a file that describes the cluster."""
        settings = {"name": "test", "log": "file:log", "suspect": self.suspect, **changes}
        settings.update((f"node.{node}", it) for node, it in self.addresses.items())
        with open(path, "w", encoding="utf-8") as file:
            file.writelines(f"{key}={it}\n" for key, it in settings.items())

    def __enter__(self):
        return self

    def __exit__(self, *_):
        for it in self.started:
            if it.ran.poll() is None:
                it.kill()

    def host(self):
        """The path of the host, with sanitizers where they are there."""
        try:
            return self.builds.compiled("node_host", serving.NODE_HOST, SANITIZERS)
        except Failed:
            return self.builds.compiled("node_host_plain", serving.NODE_HOST)

    def words(self, node, file=None):
        """The words that start a node."""
        cluster, program = clusters.read(file or self.file, node), serving.NODE_PROGRAM
        return [self.host(), *clusters.words_of(cluster, self.builds.program(program))]

    def start(self, node, file=None):
        """Starts a node, and waits for nothing."""
        it = Node(self.words(node, file))
        self.running[node] = it
        self.started.append(it)
        return it

    def view(self):
        """What the log makes."""
        return self.followed.play()

    def join(self, node):
        """Starts a node, and waits until its server is a member. Returns its number."""
        server, it = len(self.view().nodes) + 1, self.start(node)
        is_member = lambda: self.view().nodes[server - 1 :] and self.view().joining != server
        comes(lambda: is_member() or it.ran.poll() is not None, lambda: f"a join: {self.said()}")
        want(it.ran.poll() is None and is_member(), f"it joins: {self.said()}")
        return server

    def grown(self, nodes=3):
        """Starts so many nodes, one after the other."""
        for it in range(nodes):
            self.join(f"n{it + 1}")
        return self

    def said(self):
        """What all nodes said."""
        return "".join(it.said() for it in self.started)[-1500:]

    def answer(self, line):
        """The answer to a line."""
        caller = calling.Caller(self.cluster)
        try:
            return caller.answer(line.encode())
        finally:
            caller.close()

    def serves(self):
        """Fails unless the chain answers calls."""
        want(self.answer("1 exists /").startswith("ok stat"), f"it answers: {self.said()}")

    def report_gone(self, server):
        """Appends that a server is gone, as the report of another member."""

        def entry(chain):
            author = next(it for it in chain.chain if it not in (server, chain.joining))
            count = chain.counts.get(author, 0)
            return log_entries.gone(author, count, server) if chain.is_live(server) else None

        self.followed.append(entry)


def zk(*words, **given):
    """How `./zk` ended with these words: its status, its output, and its standard error."""
    ran = subprocess.run([f"{ROOT}/zk", *words], capture_output=True, timeout=SECONDS,
                         text=True, env=ENVIRONMENT, **given)
    return ran.returncode, ran.stdout, ran.stderr


STOP, GO_ON = signal.SIGSTOP, signal.SIGCONT
