#!/usr/bin/env python3
"""Measures three servers of a chain, each a process, beside three of ZooKeeper; and prints a table.

All are on loopback addresses and keep everything in memory: a chain always does, and ZooKeeper's
folders are in /dev/shm. ZooKeeper is Debian's, where it is installed. Calls are creates of 10
bytes, sets of 10 bytes, and gets, of as many nodes as are created.

A client of a chain has one call at a time, and there are 31 clients. So at most 31 calls are under
way there. Updates go to the head, and the tail answers all calls. For ZooKeeper one connection is
with the leader, and more are with all servers by turns: 31 with a call each, or 32 with eight. It
answers a get from one server, whose state may be old.

Each rate is the best of the rounds and their median. The latency is the least median of a round.
Processor time is the mean for a call, of all processes of the three servers.
"""
import base64
import contextlib
import itertools
import os
import socket
import statistics
import subprocess
import sys
import tempfile
import threading
import time

import loads
import measuring
import chains
import frames
import messages
import serving

ROUNDS, OPS = 5, ("create", "set", "get")
# The first rounds, in which Java compiles, aren't counted.
WARM = 3
# The nodes, a multiple of all numbers of connections; the gets of each; and the bytes of data.
NODES, GETS, SIZE = 31 * 128, 5, 10
# Connections, and calls under way on each.
ONE, ALL, MANY = (1, 1), (31, 1), (32, 8)
SETTINGS = """tickTime=2000
initLimit=10
syncLimit=5
forceSync=no
admin.enableServer=false
4lw.commands.whitelist=srvr
clientPortAddress=127.0.0.1
"""
# The last words of calls of a chain, and the bytes of an answer before its reply, of a stat, and of
# a reply.
DATA = base64.b64encode(bytes(SIZE)).decode()
MORE = {"create": ("p", DATA), "set": ("any", DATA), "delete": ("any",)}
BEFORE, STAT = 18, 80
REPLIES = {
    "create": 13, "set": 1 + STAT, "get": 5 + SIZE + STAT, "delete": 1, "exists": 1 + STAT,
}
# The seconds between two pings of a server of ZooKeeper's.
PAUSE = 0.01


class Servers:
    """Three servers, and the rates, latencies and processor times that were found of them."""

    def __init__(self):
        self.found = {}

    def processor(self):
        """The microseconds of processor time that all their processes have had."""
        return sum(map(loads.processor, self.processes()))

    def measure(self, load, shape, op):
        """Notes what calls of this kind take, with so many connections and calls on each."""
        calls = NODES * (GETS if op == "get" else 1)
        with contextlib.ExitStack() as opened:
            ends, asked, answer = self.opened(opened.enter_context, shape[0], op, calls)
            before = self.processor()
            took, median = loads.call(load, ends, asked, shape[1], calls, answer)
            spent = self.processor() - before
        self.found.setdefault((shape, op), []).append((calls / took, median * 1e6, spent / calls))

    def round(self, load):
        """Makes calls of all kinds."""
        for shape, op in itertools.product(self.shapes, (*OPS, "delete")):
            self.measure(load, self.shapes[-1] if op == "delete" else shape, op)

    def row(self, shape, op):
        """Prints what was found."""
        rates, medians, spent = zip(*self.found[shape, op][WARM:])
        measuring.row(op, shape[0] * shape[1], self.name,
                      f"{max(rates):,.0f} / {statistics.median(rates):,.0f}",
                      f"{min(medians):,.0f}", f"{statistics.mean(spent):,.1f}")


class Chain(Servers, chains.Chain):
    """Three nodes of a chain."""

    name, shapes = "chain", (ONE, ALL)

    def __init__(self, builds):
        Servers.__init__(self)
        chains.Chain.__init__(self, builds, suspect=2000)

    def host(self):
        return self.builds.compiled("node_host", serving.NODE_HOST)

    def processes(self):
        return [it for node in self.started for it in node.processes()]

    def port(self, server):
        return int(self.addresses[self.view().nodes[server - 1]].rpartition(":")[2])

    def link(self, client, server, more=b"", answer=0):
        """A connection of a client with a server, on which `more` was answered."""
        ends = (messages.CLIENT, client), (messages.SERVER, server)
        hello = messages.hello(self.cluster.name, *ends, bytes(8))
        return loads.connected(self.port(server), hello + more, answer)

    def opened(self, keep, connections, op, calls):
        """Connections, their calls, and the bytes of an answer."""
        tail, ends, asked = self.view().tail(), [], []
        to, number = tail if op == "get" else self.view().head(), time.time_ns() // 1000
        each, nodes = calls // connections, NODES // connections
        for it in range(connections):
            # (the tail is to know the client before its first call comes through the chain)
            look = frame(it + 1, tail, number, "exists", "/")
            source = keep(self.link(it + 1, tail, look, BEFORE + REPLIES["exists"]))
            ends.append((source if to == tail else keep(self.link(it + 1, to)), source))
            for call in range(each):
                words = op, f"/n-{it * nodes + call % nodes:05}", *MORE.get(op, ())
                asked.append(frame(it + 1, to, number + 1 + call, *words))
        return ends, asked, BEFORE + REPLIES[op]


def frame(client, server, number, *words):
    """The bytes of a client's call, which has these words."""
    tag, rest = messages.call(client, words)
    return messages.frame(client, server, tag, number, rest)


class Ensemble(Servers):
    """Three servers of ZooKeeper, in a folder."""

    name, shapes = "ZooKeeper", (ONE, ALL, MANY)

    def __init__(self, folder):
        super().__init__()
        self.folder, self.ran = folder, []
        self.ports = [chains.free_port() for _ in range(3)]
        self.settings = SETTINGS + "".join(
            f"server.{it}=127.0.0.1:{chains.free_port()}:{chains.free_port()}\n"
            for it in (1, 2, 3))

    def start(self, number, port):
        """Starts a server."""
        data, path = f"{self.folder}/{number}", f"{self.folder}/{number}.cfg"
        os.mkdir(data)
        write(f"{data}/myid", f"{number}")
        write(path, f"{self.settings}dataDir={data}\nclientPort={port}\n")
        words = [*loads.JAVA, "org.apache.zookeeper.server.quorum.QuorumPeerMain", path]
        none = dict.fromkeys(("stdin", "stdout", "stderr"), subprocess.DEVNULL)
        self.ran.append(subprocess.Popen(words, **none))

    def __enter__(self):
        return self

    def __exit__(self, *_):
        for it in self.ran:
            it.kill()
            it.wait()

    def grown(self):
        """Starts all servers. Then the first port is the leader's."""
        for number, port in enumerate(self.ports, 1):
            self.start(number, port)
        are_ready = lambda: sorted(map(mode, self.ports)) == ["follower", "follower", "leader"]
        chains.comes(are_ready, "a leader of ZooKeeper's")
        self.ports.sort(key=lambda it: mode(it) != "leader")
        return self

    def processes(self):
        return [it.pid for it in self.ran]

    def opened(self, keep, connections, op, calls):
        """Connections, their calls, and the bytes of an answer."""
        keep(awake(self.ports))
        ends = [keep(loads.session(self.ports[it % 3])) for it in range(connections)]
        return [(it, it) for it in ends], *loads.requests(op, NODES, SIZE)


def write(path, text):
    with open(path, "w", encoding="utf-8") as file:
        file.write(text)


def mode(port):
    """What a server of ZooKeeper is among the others; nothing before it knows."""
    with contextlib.suppress(OSError), socket.create_connection(("127.0.0.1", port), 5) as it:
        it.sendall(b"srvr")
        said = b"".join(iter(lambda: it.recv(4096), b"")).decode()
        return said.partition("Mode: ")[2].split("\n")[0]
    return ""


@contextlib.contextmanager
def awake(ports):
    """Pings these servers meanwhile.

    A server of this version may fall asleep while a call waits, until another one comes.
    """
    ended, ping = threading.Event(), frames.request(frames.PING_XID, frames.PING)

    def run(sessions):
        while not ended.wait(PAUSE):
            for it in sessions:
                it.sendall(ping)
                it.recv(len(ping) + 8, socket.MSG_WAITALL)

    with contextlib.ExitStack() as opened:
        sessions = [opened.enter_context(loads.session(it)) for it in ports]
        thread = threading.Thread(target=run, args=(sessions,))
        thread.start()
        try:
            yield
        finally:
            ended.set()
            thread.join()


def measure(servers, load, rounds):
    """Measures all servers by turns, and prints the table."""
    for _, it in itertools.product(range(WARM + rounds), servers):
        it.round(load)
    measuring.head("Call", "Under way", "Servers", "Calls a second", "Median, µs", "Processor, µs")
    for op, shape, it in itertools.product(OPS, (ONE, ALL, MANY), servers):
        if shape in it.shapes:
            it.row(shape, op)


def main():
    words = measuring.parser(__doc__)
    words.add_argument("--rounds", type=int, default=ROUNDS)
    given = words.parse_args()
    with measuring.builds(given) as builds, contextlib.ExitStack() as running:
        load, began = builds.compiled("load", ["bench/load.c"]), os.getloadavg()[0]
        servers = [running.enter_context(Chain(builds)).grown()]
        if loads.has_zookeeper(builds):
            folder = running.enter_context(tempfile.TemporaryDirectory(dir="/dev/shm"))
            servers.append(running.enter_context(Ensemble(folder)).grown())
        measure(servers, load, given.rounds)
        print(f"\nThe load was {began:.1f}, and {os.getloadavg()[0]:.1f} at the end.")


if __name__ == "__main__":
    sys.exit(main())
