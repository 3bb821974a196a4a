#!/usr/bin/env python3
"""Measures clusters of real threads, and prints three tables: races, at rest, and many calls.

A race has 1,000 rounds of three calls. Its time is that of the program, with its start, its audit
and its lines.

At rest (the program zrun_bench) one client makes 500 updates, with a pause of 10 ms before each.
The table has the processors' time over the time that passed; the switches of all threads a second;
and of the calls' microseconds the median, what nine of ten don't exceed, and the most.

Through many calls (the same program) one client sets and reads one node by turns. Nothing may be
lost, and the memory in use may grow by a megabyte.
"""
import itertools
import os
import re
import statistics
import subprocess
import sys
import time

import measuring

ROUNDS, RACED, SECONDS = 1000, 3, 20
CALLS, PAUSE, GROWTH = 500, 10_000, 1024
PIPES = {"text": True, **dict.fromkeys(("stdin", "stdout"), subprocess.PIPE)}


def race(program, servers, clients):
    """The calls a second of one race."""
    words = f"race --servers {servers} --clients {clients} --rounds {ROUNDS}".split()
    given, began = {"capture_output": True, "text": True, "timeout": SECONDS}, time.monotonic()
    ran = subprocess.run([program, *words], check=True, **given)
    measuring.want(ran.stdout.endswith("audit ok\n"), f"{program}: a race did not end well")
    return RACED * ROUNDS / (time.monotonic() - began)


def races(program, servers, clients, times):
    """Prints the row of some races."""
    rates = [race(program, servers, clients) for _ in range(times)]
    measuring.row(servers, clients, f"{max(rates):,.0f}", f"{statistics.median(rates):,.0f}")


def status(pid, word):
    """The sum of the numbers at this word in the status of a process, or of a thread."""
    with open(f"/proc/{pid}/status", encoding="ascii") as file:
        return sum(map(int, re.findall(rf"{word}:\s+(\d+)", file.read())))


def used(pid):
    """The seconds of a processor that a process has taken, and the switches of its threads."""
    with open(f"/proc/{pid}/stat", encoding="ascii") as file:
        words = file.read().rpartition(")")[2].split()
    ticks, tasks = int(words[11]) + int(words[12]), os.listdir(f"/proc/{pid}/task")
    switches = sum(status(f"{pid}/task/{it}", "ctxt_switches") for it in tasks)
    return ticks / os.sysconf("SC_CLK_TCK"), switches


def at_rest(program, servers):
    """Prints the row of a cluster at rest."""
    with subprocess.Popen([program], **PIPES) as ran:
        ran.stdin.write(f"rest {servers} {CALLS} {PAUSE}\n")
        ran.stdin.close()
        time.sleep(0.5)
        began, first = time.monotonic(), used(ran.pid)
        time.sleep(CALLS * PAUSE / 1e6 - 1)
        took, last = time.monotonic() - began, used(ran.pid)
        calls = sorted(int(line) / 1000 for line in ran.stdout.read().split())
    measuring.want(len(calls) == CALLS, f"{len(calls)} of {CALLS} calls were answered")
    processors, switches = ((after - before) / took for before, after in zip(first, last))
    times = switches, statistics.median(calls), calls[CALLS * 9 // 10], calls[-1]
    measuring.row(servers, f"{processors:.2f}", *(f"{it:,.0f}" for it in times))


def many(program, calls):
    """Prints the rows of many calls over three servers."""
    uses, line, done, began = [], "", 0, time.monotonic()
    with subprocess.Popen([program], **PIPES) as ran:
        ran.stdin.write(f"long 3 {calls}\n")
        ran.stdin.flush()
        for line in map(str.strip, ran.stdout):
            if not line.isdigit():
                break
            now, here = time.monotonic(), int(line)
            uses.append(status(ran.pid, "VmRSS"))
            measuring.row(f"{here:,}", f"{(here - done) / (now - began):,.0f}", f"{uses[-1]:,}")
            done, began = here, now
        ran.stdin.close()
    measuring.want(line == "nothing lost", f"it printed: {line}")
    measuring.want(uses[-1] - uses[0] <= GROWTH, f"it grew by {uses[-1] - uses[0]:,} kB")


def main():
    words = measuring.parser(__doc__)
    words.add_argument("--times", type=int, default=9, help="how often each race is run")
    words.add_argument("--calls", type=int, default=3_000_000, help="calls of the third table")
    given = words.parse_args()
    with measuring.builds(given) as builds:
        measuring.head("Servers", "Clients", "Best", "Median")
        for servers, clients in itertools.product((1, 3), (1, 4, 31)):
            races(builds.program("zk_race"), servers, clients, given.times)
        measuring.head("Servers", "Processors", "Switches a second", "Median, µs", "Nine", "Most")
        for servers in (1, 3):
            at_rest(builds.program("zrun_bench"), servers)
        measuring.head("Calls", "Calls a second", "Memory in use, kB")
        many(builds.program("zrun_bench"), given.calls)


if __name__ == "__main__":
    sys.exit(main())
