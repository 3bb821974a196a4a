#!/usr/bin/env python3
"""Measures a server for ZooKeeper's clients that has many nodes, and prints two tables.

The first has the creates a second of nodes of 100 bytes, below 1,000 others, over four connections
with 200 calls under way on each: of the first thousand, of all, and of the last tenth. And it has
the memory that the program takes for each node. A server is in memory, or keeps a folder.

The second has the seconds to open that folder, and what a lone connection sees that sets one node
again and again: the median and the longest of its requests. It is alone, or beside writes that make
the journal grow, which is compacted or not: then most of its parts are gone at the end. The last
column is the longest wait without the moments in which the machine ran nothing on one of its
processors (gaps.py).
"""
import contextlib
import os
import shutil
import statistics
import sys
import threading
import time

import measuring
import frames
import gaps
import loads
import running
import serve

NODES, SIZE, PARENTS, SHAPE = 1_000_000, 100, 1_000, (4, 200)
# The greatest numbers of a round of creates, and the MiB from which on a journal is long.
ROUND, LONG = 100_000, 64
# The seconds from which on a wait counts as one of the longest.
LEAST = 0.005


def memory(server):
    """The bytes that the program has in memory."""
    with open(f"/proc/{running.children(server.ran.pid)[0]}/status", encoding="ascii") as file:
        return next(int(it.split()[1]) * 1024 for it in file if it.startswith("VmRSS"))


def create(load, server, paths, size):
    """The seconds in which these nodes are made, each in its turn. Their names are as long."""
    asked = [frames.request(n, frames.CREATE, frames.create_body(it, bytes(size)))
             for n, it in enumerate(paths)]
    with contextlib.ExitStack() as opened:
        ends = [opened.enter_context(loads.session(server.port)) for _ in range(SHAPE[0])]
        pairs = [(it, it) for it in ends]
        return next(loads.call(load, pairs, asked, SHAPE[1], len(asked), 20 + 4 + len(paths[0])))


def fill(load, server, nodes):
    """Makes so many nodes. The rates of the first thousand and of each round, and bytes a node."""
    names = [f"/d-{it:03}" for it in range(PARENTS)]
    create(load, server, names, 0)
    paths = [f"{names[it % PARENTS]}/n-{it // PARENTS:06}" for it in range(nodes)]
    first = PARENTS / create(load, server, paths[:PARENTS], SIZE)
    before, times = memory(server), []
    for begin in range(PARENTS, nodes, ROUND):
        part = paths[begin : begin + ROUND]
        part = part[: len(part) // SHAPE[0] * SHAPE[0]]
        times.append((len(part), create(load, server, part, SIZE)))
    made = sum(it for it, _ in times)
    return first, times, (memory(server) - before) / made


def tell_rates(server, first, times, each):
    """Prints a row of the first table."""
    count, took = map(sum, zip(*times))
    rates = (f"{it:,.0f}" for it in (first, count / took, times[-1][0] / times[-1][1]))
    measuring.row(server.name, f"{count:,}", *rates, f"{each:,.0f}")


def waits(server, seconds):
    """When each request of a lone connection begins and ends, for so long."""
    asked, found = frames.request(1, frames.SET, frames.set_body("/d-000", bytes(1_000))), []
    with loads.session(server.port) as it:
        end = time.monotonic() + seconds
        while time.monotonic() < end:
            began = time.monotonic()
            it.sendall(asked)
            measuring.want(len(it.recv(88, 0x100)) == 88, "no answer")
            found.append((began, time.monotonic()))
    return found


def written(server, load, stop):
    """Changes nodes until it is told to stop: so the journal grows."""
    asked, answer = [frames.request(1, frames.SET, frames.set_body(f"/d-{it:03}", bytes(10_000)))
                     for it in range(PARENTS)], 88
    with loads.session(server.port) as it:
        while not stop.is_set():
            next(loads.call(load, [(it, it)], asked, 50, PARENTS, answer))


def tell_waits(name, asked):
    """Prints a row of the second table, of what this asks."""
    with gaps.Gaps() as seen:
        found = asked()
    each = [end - begin for begin, end in found]
    less = [end - begin - seen.within(begin, end) for begin, end in found if end - begin > LEAST]
    ms = (f"{it * 1e3:,.1f}" for it in (statistics.median(each), max(each), max(less, default=0)))
    measuring.row(name, f"{len(found):,}", *ms)


def beside(server, load, seconds):
    """What a lone connection waits, beside one that makes the journal grow."""
    stop = threading.Event()
    other = threading.Thread(target=written, args=(server, load, stop))
    other.start()
    found = waits(server, seconds)
    stop.set()
    other.join()
    return found


def parts(folder):
    """How many parts of a journal were begun, and how many are left."""
    named = [it[8:] for it in os.listdir(folder) if it.startswith("journal.")]
    numbers = [int(it) for it in named if it.isdigit()]
    return max(numbers, default=0) + 1, len(numbers) + 1


def of_folder(builds, load, nodes, seconds):
    """A folder is filled, opened and compacted."""
    folder = f"{builds.room}/full"
    it = serve.kept(builds, folder, journal=LONG)
    tell_rates(it, *fill(load, it, nodes))
    it.stop()
    copy = shutil.copytree(folder, f"{folder}-copy")
    it = serve.kept(builds, folder, journal=serve.NEVER)
    print(f"\nopened in {it.opened:.1f} s")
    measuring.head("Requests", "Count", "Median, ms", "Longest, ms", "Less the machine's gaps")
    tell_waits("alone", lambda: waits(it, seconds))
    tell_waits("beside writes", lambda: beside(it, load, 3 * seconds))
    it.stop()
    it = serve.kept(builds, copy, journal=LONG)
    tell_waits("beside writes and compactions", lambda: beside(it, load, 3 * seconds))
    it.stop()
    print("\nparts of the journal: {} begun, {} left".format(*parts(copy)))


def main():
    words = measuring.parser(__doc__)
    words.add_argument("--nodes", type=int, default=NODES)
    words.add_argument("--seconds", type=int, default=40)
    given = words.parse_args()
    with measuring.builds(given) as builds:
        load = builds.compiled("load", ["bench/load.c"])
        measuring.head("Server, sync", "Nodes", "First 1,000", "All", "Last tenth", "Bytes a node")
        it = serve.kept(builds, None)
        tell_rates(it, *fill(load, it, given.nodes))
        it.stop()
        of_folder(builds, load, given.nodes, given.seconds)


if __name__ == "__main__":
    sys.exit(main())
