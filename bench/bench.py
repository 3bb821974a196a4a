#!/usr/bin/env python3
"""Measures instructions by valgrind, and prints three tables.

The first has those of a line over one server, on eight scripts. The second has those of a line over
chains of 1, 3 and 8 servers, as the difference of two scripts of which one has more of the same
lines. Further programs are measured on one server. The third has those of a join together with a
failure of the head. All outputs of a row of the first two are compared. Where they differ the row
says so, and the status is 1.
"""
import sys

import measuring

# 16 and 64 bytes in base64.
SIXTEEN, SOME = "QUJDREVGR0hJSktMTU5PUA==", "QUJD" * 21 + "QQ=="
DIRECTORIES = [f"/dir{i // 64:02}" for i in range(4000)]
MULTI = "1 multi create /t p - ; set {0} any QUJD ; delete /t any ; check {1} any"
OF_EIGHT = (
    "1 multi create /t p - ; set {0} any {3} ; create /t/k p {3} ; check {1} any ; "
    "delete /t/k any ; set {2} any {3} ; delete /t 0 ; check {4} any"
)


node = "/d/node{:05}".format
one_of = lambda i: node(i * 741 % 1000)
found = lambda i: [f"1 exists {DIRECTORIES[i * 2741 % 4000]}/node{i * 2741 % 4000:05}"]


def nodes(count):
    """So many nodes below one directory."""
    return ["1 create /d p -", *(f"1 create {node(i)} p -" for i in range(count))]


def in_directories():
    """64 nodes below each of many directories."""
    for i, at in enumerate(DIRECTORIES):
        if not i % 64:
            yield f"1 create {at} p -"
        yield f"1 create {at}/node{i:05} p -"


def made(i):
    client, path = 1 + i % 31, f"/d/n{i % 4000}"
    return [f"{client} create {path} p QUJD", f"{client} get {path}"]


def multi(i):
    """Every second one is refused at its last part."""
    return [MULTI.format(one_of(i), one_of(i) if i % 2 else "/none")]


def multi_of_eight(i):
    """Every second one is refused at its last part."""
    last = one_of(i) if i % 2 else "/none"
    return [OF_EIGHT.format(one_of(i), one_of(i + 1), one_of(i + 2), SOME, last)]


def opened(i):
    """A session with an ephemeral node. A session's id is the zxid of its open."""
    return ["1 open 20", f"1 create /e/s{i} e:{2 + 2 * i} -"]


# Of each script its name, its beginning, the lines of each round, and the number of rounds.
SCRIPTS = (
    ("get of one node", [f"1 create /a p {SIXTEEN}"], lambda i: ["1 get /a"], 200_000),
    ("create and get, 4,000 nodes", nodes(0), made, 4_000),
    ("refused", [], lambda i: [f"1 get /none/n{i % 100}", "1 get a//b"], 50_000),
    ("exists among 4,000", nodes(4000), lambda i: [f"1 exists {node(i * 2741 % 4000)}"], 100_000),
    ("exists, 64 a directory", [*in_directories()], found, 100_000),
    ("set of 64 bytes, 1,000 nodes", nodes(1000),
     lambda i: [f"1 set {one_of(i)} any {SOME}"], 50_000),
    ("multi of 4 parts, 1,000 nodes", nodes(1000), multi, 500),
    ("ls of 64 names", [*nodes(0), *(f"1 create /d/n{i:02} p -" for i in range(64))],
     lambda i: ["1 ls /d"], 20_000),
)
OF_CHAINS = (
    ("get among 1,000", nodes(1000), lambda i: [f"{1 + i % 31} get {one_of(i)}"], 2000),
    ("set of 64 bytes among 1,000", nodes(1000),
     lambda i: [f"{1 + i % 31} set {one_of(i)} any {SOME}"], 2000),
    ("create, delete among 1,000", nodes(1000),
     lambda i: [f"1 create /d/x{i} p -", f"1 delete /d/x{i} any"], 1000),
    ("multi of 8 among 1,000", nodes(1000), multi_of_eight, 60),
    ("ping of 100 sessions, ticks",
     ["1 create /e p -", *(line for i in range(100) for line in opened(i))],
     lambda i: ["0 tick" if i % 50 == 49 else f"1 ping {2 + 2 * (i * 7 % 100)}"], 2000),
)


def command(program, servers=1):
    """The words that call a program."""
    return [program, "script", "--servers", str(servers)]


def measure(programs, title, start, each, rounds):
    """Prints a row for a script, and says whether all outputs are the same."""
    lines = start + [line for i in range(rounds) for line in each(i)]
    runs = [measuring.instructions(words, lines) for words in programs]
    begun = [measuring.instructions(words, [])[0] for words in programs]
    figures = [(whole - start) / len(lines) for (whole, _), start in zip(runs, begun)]
    return measuring.compared(title, figures, [said for _, said in runs])


def measure_chains(calls, title, start, each, rounds):
    """Prints a row of the second table, and says whether all outputs were the same."""
    lines = [line for i in range(3 * rounds) for line in each(i)]
    third = len(lines) // 3
    short = [measuring.instructions(words, start + lines[:third])[0] for words in calls]
    long = [measuring.instructions(words, start + lines) for words in calls]
    figures = [(more - less) / (2 * third) for less, (more, _) in zip(short, long)]
    return measuring.compared(title, figures, [said for _, said in long])


def change(program, servers, count):
    """Instructions of one join with one failure of the head, with so many nodes."""
    each = lambda it: [f"join s{it}", "settle", f"fail s{it - servers}", "settle"]
    turns = [line for it in range(servers + 1, 9) for line in each(it)]
    run = lambda *lines: measuring.instructions(command(program, servers), nodes(count) + [*lines])
    return (run(*turns, "1 ls /")[0] - run("1 ls /")[0]) / (8 - servers)


def main():
    given = measuring.parser(__doc__, True).parse_args()
    with measuring.builds(given) as builds:
        own, others = builds.program("zk"), {name: command(it) for name, it in given.others}
        measuring.head("Script", "zk", *others)
        same = [measure([command(own), *others.values()], *it) for it in SCRIPTS]
        calls = {f"{n} server{'s' * (n > 1)}": command(own, n) for n in (1, 3, 8)}
        measuring.head("Script", *calls, *others)
        same += [measure_chains([*calls.values(), *others.values()], *it) for it in OF_CHAINS]
        measuring.head("Nodes", "A join and a failure, 1 server", "3 servers")
        for count in (0, 1000, 4000):
            measuring.row(f"{count:,}", *(f"{change(own, n, count):,.0f}" for n in (1, 3)))
    return 0 if all(same) else 1


if __name__ == "__main__":
    sys.exit(main())
