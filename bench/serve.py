#!/usr/bin/env python3
"""Measures the server for ZooKeeper's clients, its folder, and ZooKeeper; and prints four tables.

The first counts creates of 10 bytes and gets a second, with one and with 200 calls under way on
each of 1 and 4 connections. Each figure is the best of five rounds and their median, or the mean of
the processor time that the server took for a call; the servers take turns. ZooKeeper is Debian's,
where it is installed; its log is written with fsync (batch) and without (never).

The second has folders of 4,000 nodes: the best times to compact and to open one.
The folders are below TMPDIR.

The third has one request among 200 that are under way, in memory with 4,000 nodes, beside other
idle sessions: instructions of the program by valgrind, and processor time of the program and its
host. The fourth has the peak of memory with these nodes, and that of a script that makes them.
"""
import atexit
import contextlib
import itertools
import os
import socket
import statistics
import subprocess
import sys
import time

import loads
import measuring
import running
import serving

ROUNDS, SHAPES = 5, ((1, 1), (4, 1), (1, 200), (4, 200))
NODES, GETS, CALLS = 4_000, 5, 2_000
# The MiB from which on a journal is shortened: never.
NEVER = 1 << 20
ZOOKEEPER = """-Dzookeeper.forceSync={force} -Dzookeeper.admin.enableServer=false
    -Dzookeeper.4lw.commands.whitelist=ruok
    org.apache.zookeeper.server.ZooKeeperServerMain {port} {folder} 2000 0"""


def made(load, port, shape, calls, op, size=10):
    """The seconds in which so many calls are answered."""
    connections, depth = shape
    with contextlib.ExitStack() as opened:
        ends = [opened.enter_context(loads.session(port)) for _ in range(connections)]
        asked, answer = loads.requests(op, NODES, size)
        return next(loads.call(load, [(it, it) for it in ends], asked, depth, calls, answer))


class Server:
    """A server on a port of its own, which `words` have as {port}."""

    def __init__(self, name, words):
        self.name, self.found, self.spent = name, {}, {}
        with socket.create_server(("127.0.0.1", 0)) as it:
            self.port = it.getsockname()[1]
        pipes = dict.fromkeys(("stdin", "stdout", "stderr"), subprocess.DEVNULL)
        began = time.monotonic()
        self.ran = subprocess.Popen([it.format(port=self.port) for it in words], **pipes)
        atexit.register(self.ran.kill)
        while not self.serves():
            measuring.want(self.ran.poll() is None, f"{name} has ended")
            time.sleep(0.002)
        self.opened = time.monotonic() - began

    def serves(self):
        with contextlib.suppress(OSError):
            with socket.create_connection(("127.0.0.1", self.port), timeout=5) as it:
                it.sendall(b"ruok")
                return it.recv(4) == b"imok"

    def stop(self):
        self.ran.terminate()
        self.ran.wait()

    def processors(self):
        """The microseconds of processor time of what it started, if anything, and of itself."""
        with open(f"/proc/{self.ran.pid}/task/{self.ran.pid}/children", encoding="ascii") as file:
            return [loads.processor(int(it)) for it in [*file.read().split(), self.ran.pid]]

    def measure(self, load, shape, calls, op):
        """Notes how many of these calls are answered in a second, and the processor time of one."""
        before = sum(self.processors())
        took = made(load, self.port, shape, calls, op)
        self.found.setdefault((shape, op), []).append(calls / took)
        spent = (sum(self.processors()) - before) / calls
        self.spent.setdefault((shape, op), []).append(spent)


def kept(builds, folder, sync="batch", journal=64, program=None):
    """A server that keeps a folder, or one in memory. No tick comes meanwhile."""
    program = program or builds.program("zk_serve")
    words = [builds.compiled("host", serving.HOST), f"--program={program}"]
    words += [f"--data={folder}", f"--sync={sync}", f"--journal={journal}"] if folder else []
    words += ["--tick=60000", "--listen=127.0.0.1:{port}"]
    return Server(f"zk serve, {sync if folder else 'memory'}", words)


def started(builds):
    """All servers of the first table."""
    yield kept(builds, None)
    for sync in ("batch", "never"):
        yield kept(builds, f"{builds.room}/{sync}", sync)
    if not loads.has_zookeeper(builds):
        return
    for sync, force in (("batch", "yes"), ("never", "no")):
        folder = f"{builds.room}/zookeeper-{sync}"
        words = ZOOKEEPER.format(force=force, folder=folder, port="{port}").split()
        yield Server(f"ZooKeeper, {sync}", [*loads.JAVA, *words])


def of_requests(builds, load, rounds):
    """Prints the first table."""
    running = list(started(builds))
    # (the first round is for those that compile while they run)
    for _, shape, it in itertools.product(range(rounds + 1), SHAPES, running):
        it.measure(load, shape, NODES, "create")
        it.measure(load, shape, NODES * GETS, "get")
        it.measure(load, shape, NODES, "delete")
    measuring.head("Server, sync", "Connections, calls under way", "Creates", "Gets", "µs", "µs")
    for shape, it in itertools.product(SHAPES, running):
        rates = (it.found[shape, op][1:] for op in ("create", "get"))
        figures = (f"{max(it):,.0f} / {statistics.median(it):,.0f}" for it in rates)
        means = (f"{statistics.mean(it.spent[shape, op][1:]):.1f}" for op in ("create", "get"))
        measuring.row(it.name, f"{shape[0]}, {shape[1]}", *figures, *means)
    for it in running:
        it.stop()


def of_folder(builds, load, size, rounds):
    """Prints the row of a folder with nodes of this size."""
    folder, compacted, opened = f"{builds.room}/kept-{size}", [], []
    it = kept(builds, folder, journal=NEVER)
    made(load, it.port, (1, 2), NODES, "create", size)
    it.stop()
    for _ in range(rounds):
        words, began = [builds.program("zk_serve"), folder, "compact", "1"], time.monotonic()
        subprocess.run(words, check=True, stdout=subprocess.DEVNULL)
        compacted.append(time.monotonic() - began)
        it = kept(builds, folder, journal=NEVER)
        opened.append(it.opened)
        it.stop()
    length, name = os.path.getsize(f"{folder}/journal") / 1e6, f"{NODES:,} of {size >> 10} KiB"
    measuring.row(name, f"{length:,.1f}", f"{min(compacted):.2f}", f"{min(opened):.2f}")


def peak(number):
    """The kB of memory that a process has had at most."""
    with open(f"/proc/{number}/status", encoding="ascii") as file:
        return next(int(it.split()[1]) for it in file if it.startswith("VmHWM"))


def idle(server, count):
    """Opens so many sessions."""
    return [loads.session(server.port) for _ in range(count)]


def counted(builds, load, others, op, calls):
    """The instructions of a server's program that makes its nodes, and then so many calls."""
    said, program = f"{builds.room}/instructions", f"{builds.room}/counted"
    with open(program, "w", encoding="utf-8") as file:
        words = [*measuring.CACHEGRIND, f"--log-file={said}", builds.program("zk_serve")]
        file.write(f'#!/bin/sh\nexec {" ".join(words)} "$@"\n')
    os.chmod(program, 0o755)
    it = kept(builds, None, program=program)
    sessions = idle(it, others)
    made(load, it.port, (1, 200), NODES, "create")
    made(load, it.port, (1, 200), calls, op)
    it.stop()
    del sessions
    with open(said, "rb") as file:
        return measuring.references(file.read())


def spent(builds, load, others, op, calls):
    """Microseconds of a call: of the program, of its host, and from its request to its reply."""
    it = kept(builds, None)
    sessions = idle(it, others)
    made(load, it.port, (1, 200), NODES, "create")
    before = it.processors()
    took = made(load, it.port, (1, 200), calls, op) * 1e6
    times = [(now - then) / calls for now, then in zip(it.processors(), before)]
    memory = peak(running.children(it.ran.pid)[0])
    it.stop()
    del sessions
    return [*times, took / calls], memory


def of_sessions(builds, load, rounds):
    """Prints the third and the fourth table."""
    measuring.head("Request", "Other sessions", "Instructions", "Program", "Host", "Whole, µs")
    for op, others in itertools.product(("set", "get"), (0, 900)):
        less, more = (counted(builds, load, others, op, it) for it in (CALLS, 2 * CALLS))
        found = [spent(builds, load, others, op, 100 * CALLS) for _ in range(rounds)]
        best = (f"{min(it):.1f}" for it in zip(*(times for times, _ in found)))
        measuring.row(op, others, f"{(more - less) / CALLS:,.0f}", *best)
    lines = "".join(f"1 create /n-{it:05} p {'A' * 14}==\n" for it in range(NODES)).encode()
    pipes = {"stdin": subprocess.PIPE, "stdout": subprocess.PIPE}
    with subprocess.Popen([builds.program("zk"), "script"], **pipes) as ran:
        ran.stdin.write(lines)
        ran.stdin.flush()
        for _ in range(NODES):
            ran.stdout.readline()
        script = peak(ran.pid)
    measuring.head("Nodes", "kB of the server", "kB of a script")
    measuring.row(f"{NODES:,}", f"{spent(builds, load, 0, 'get', 1)[1]:,}", f"{script:,}")


def main():
    words = measuring.parser(__doc__)
    words.add_argument("--rounds", type=int, default=ROUNDS)
    given = words.parse_args()
    with measuring.builds(given) as builds:
        load = builds.compiled("load", ["bench/load.c"])
        of_requests(builds, load, given.rounds)
        measuring.head("Nodes", "MB", "Compacted, s", "Opened, s")
        for size in (1 << 10, 1 << 16):
            of_folder(builds, load, size, given.rounds)
        of_sessions(builds, load, given.rounds)


if __name__ == "__main__":
    sys.exit(main())
