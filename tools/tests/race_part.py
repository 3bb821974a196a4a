"""Races of threads in which servers are halted: each node is made once and set once."""
import itertools

from builds import ended
from report import Test, want_same

ROUNDS = 2
# The servers, clients and nodes of a race, and its seconds. Each server is halted in turn, or none.
SIZES = ((2, 2, 50, 10), (3, 4, 200, 10), (4, 31, 300, 10), (8, 8, 400, 100))


def race(program, servers, clients, rounds, halt):
    words = ["race", "--servers", servers, "--clients", clients, "--rounds", rounds, "--halt", halt]
    wanted = "".join(f"node /n{it} version 1\n" for it in range(rounds)) + "audit ok\n"
    want_same(ended([program, *map(str, words)]), (0, wanted, ""), words)


def races(tally, program, servers, *others):
    for _, halt in itertools.product(range(ROUNDS), range(servers + 1)):
        race(program, servers, *others, halt)
        tally.passes()


def tests(builds):
    body = lambda *size: lambda tally: races(tally, builds.program("zk_race"), *size)
    name = "race of {1} clients over {0} servers".format
    return [Test(name(*it), seconds, body(*it)) for *it, seconds in SIZES]
