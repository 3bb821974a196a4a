"""Servers for tests: a host in C, and the program zk_serve that it starts."""
import os
import re
import signal
import socket
import subprocess
import tempfile

import running
import serving
from builds import ENVIRONMENT, SANITIZERS, ended
from report import Failed, want, want_same
from wire import Client, Ended, until

# The last line that a server says before it serves.
LAST = re.compile(r"zk: (?:anyone who can connect|calls are made by who gives) .*\n")
# The limits of the profile. With them a new folder's journal has no snapshot.
PROFILE = ("--nodes=4096", "--sessions=1024")
NOTED = re.compile(
    r"zk: (?:a batch took|a connection is|metrics at|the journal (?:was|isn't)|.* s so far"
    r"|a request is refused|refused a connection).*\n")


def free_port():
    with socket.create_server(("127.0.0.1", 0)) as it:
        return it.getsockname()[1]


def new_folder(builds):
    """The name of a folder that isn't there yet."""
    return f"{tempfile.mkdtemp(dir=builds.room)}/data"


def words_of(builds, folder=None, sync="never"):
    """The words that start a server at any port. Its host has sanitizers where they are there."""
    try:
        host = builds.compiled("serve_host", serving.HOST, SANITIZERS)
    except Failed:
        host = builds.compiled("serve_host_plain", serving.HOST)
    words = [host, f"--program={builds.program(serving.PROGRAM)}", "--listen", "127.0.0.1:0"]
    return [*words, *(("--data", folder, "--sync", sync) if folder else ())]


def program(builds, text):
    """A program of sh, which may be started in the place of zk_serve."""
    path = f"{tempfile.mkdtemp(dir=builds.room)}/program"
    # (by a process of its own: no file that a fork of this one holds open for writing is run)
    want_same(ended(["install", "/dev/stdin", path], input=f"#!/bin/sh\n{text}\n")[0], 0, path)
    return path


class Server:
    """A server that was started, and that has ended after the block of a `with`."""

    def __init__(self, builds, folder=None, words=(), wrap=(), tick=2000, sync="never", own=()):
        self.error, none = tempfile.TemporaryFile(), subprocess.DEVNULL
        self.ran = subprocess.Popen(
            [*wrap, *(own or words_of(builds, folder, sync)), "--tick", str(tick), *words],
            stdin=none, stdout=none, stderr=self.error, env=ENVIRONMENT,
        )
        until(lambda: LAST.search(self.said()) or self.ran.poll() is not None, 60)
        self.at = self.said().partition("listening on ")[2].split("\n")[0]
        if not self.at:
            self.ran.kill()
            raise Failed(f"it doesn't listen: {self.said()}")
        host, _, port = self.at.rpartition(":")
        self.address = host.strip("[]"), int(port)

    def __enter__(self):
        return self

    def __exit__(self, fault, *_):
        self.kill() if fault else self.stop()

    def said(self):
        """What it said on standard error."""
        # (the place in the file is the server's)
        return os.pread(self.error.fileno(), 1 << 20, 0).decode(errors="replace")

    def client(self, **given):
        return Client(self.address, **given)

    def serves(self):
        """Whether a client is served."""
        try:
            with self.client() as it:
                return it.ping()
        except Ended:
            return False

    def memory(self, word, pid=None):
        """The MiB that the status of a process, of the host's, has by this word."""
        with open(f"/proc/{pid or self.ran.pid}/status", encoding="ascii") as file:
            return int(file.read().partition(f"{word}:")[2].split()[0]) >> 10

    def all_below(self):
        """The processes that the host has started: the one that serves, and one that compacts."""
        return running.children(self.ran.pid)

    def below(self):
        return self.all_below()[0]

    def kill(self, of_child=False):
        """Kills the host, or the process that serves: then all end. The host's status."""
        below = self.all_below() if self.ran.poll() is None else []
        os.kill(below[0], signal.SIGKILL) if of_child else self.ran.kill()
        status = self.ran.wait(60)
        # (a process that has ended runs no program, whether or not its parent knows)
        there = lambda: any(os.path.exists(f"/proc/{it}/exe") for it in below)
        want(until(lambda: not there()), "its processes end")
        return status

    def stop(self, sent=signal.SIGTERM, status=0, said=""):
        """Ends it by a signal, if any, and wants this status and nothing more said than this.

        (lines on limits, and on batches that are slow on a busy machine, may have come before)
        """
        if sent:
            self.ran.send_signal(sent)
        want(until(lambda: self.ran.poll() is not None, 60) or self.kill(), "it ends")
        got = self.ran.returncode, NOTED.sub("", LAST.split(self.said())[-1])
        want_same(got, (status, said), "the server's end")
