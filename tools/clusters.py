"""A cluster of nodes: the file that describes it, and what an operator does with its log."""
import os
import re
import sys
import time
from typing import NamedTuple

import log_entries
import log_file
import words
from ending import Stopped

NAME, NODE = re.compile(r"[A-Za-z0-9._-]{1,63}"), re.compile(r"[a-z0-9-]{1,32}")
# The milliseconds after which a node that can't be reached is reported, and their range.
SUSPECT = words.number(100, 3600000)
# The seconds in which a server that was ordered to leave should be gone.
PATIENCE = 10


class Cluster(NamedTuple):
    """What the file says. `self` is the node that this machine's call is about, or None."""

    path: str
    name: str
    self: str
    nodes: dict
    log: str
    suspect: str


def settings_of(path):
    """The lines of the file, KEY=VALUE, by their keys."""
    found = {}
    with open(path, encoding="utf-8", errors="replace") as file:
        for line in filter(None, (it.partition("#")[0].strip() for it in file)):
            key, has_value, value = (it.strip() for it in line.partition("="))
            if not has_value or key in found:
                raise Stopped(f"{path}: '{line}' is no KEY=VALUE, or its key is there twice", 2)
            found[key] = value
    return found


def read(path, own=None):
    """The cluster that the file describes. `own` comes in the place of its `self`."""
    found = settings_of(path)
    nodes = {it[5:]: found.pop(it) for it in [*found] if it.startswith("node.")}
    log, suspect = found.pop("log", ""), found.pop("suspect", "2000")
    name, own = found.pop("name", ""), own or found.pop("self", None)
    found.pop("self", None)

    def need(holds, why):
        if not holds:
            raise Stopped(f"{path}: {why}", 2)

    need(not found, f"there is no setting '{next(iter(found), '')}'")
    need(NAME.fullmatch(name), "name= is 1 to 63 letters, digits, dots or hyphens")
    is_some = 0 < len(nodes) <= log_entries.MAX_SERVERS
    need(is_some, "there are 1 to 16 lines node.NODE=ADDRESS:PORT")
    for node, address in nodes.items():
        need(NODE.fullmatch(node), f"'{node}' is no name of a node")
        need(is_read(words.address, address), f"node.{node}= is ADDRESS:PORT, not '{address}'")
    need(len({*nodes.values()}) == len(nodes), "two nodes have one address")
    need(own is None or own in nodes, f"there is no node '{own}'")
    need(log.startswith("file:") and log != "file:", "log= is file:PATH")
    need(is_read(SUSPECT, suspect), "suspect= is 100 to 3600000")
    log = os.path.join(os.path.dirname(os.path.abspath(path)), log[5:])
    return Cluster(path, name, own, nodes, log, suspect)


def is_read(kind, text):
    try:
        return kind(text) is not None
    except ValueError:
        return False


def words_of(cluster, program):
    """The words by which a host runs the cluster's node."""
    found = ["--name", cluster.name, "--self", cluster.self, "--suspect", cluster.suspect]
    for node, address in cluster.nodes.items():
        found += ["--node", f"{node}={address}"]
    helper = [sys.executable, "-EsB", os.path.realpath(log_file.__file__), cluster.log]
    return [*found, "--program", program, "--", *helper]


def of_log(do, *given):
    """What a call on the log gives; `Stopped` where the log can't be used."""
    try:
        return do(*given)
    except FileNotFoundError as error:
        raise Stopped(f"log: {error.filename}: {log_file.NONE}") from None
    except log_file.Fault as error:
        raise Stopped(f"log: {error}") from None


class Followed:
    """The cluster's log, and what it makes."""

    def __init__(self, cluster):
        self.log, self.chain = of_log(log_file.Log, cluster.log), log_entries.Chain()
        self.play()
        if self.log.cluster != cluster.name:
            raise Stopped(f"log: {cluster.log}: it is of the cluster '{self.log.cluster}'")

    def play(self, entries=()):
        """Plays these entries, and what is new in the log after them."""
        for _, entry in [*entries, *of_log(self.log.new_entries)]:
            self.chain.play(entry)
        return self.chain

    def append(self, entry):
        """Appends the entry that this makes of what was played, unless it makes none.

        Returns whether it did. If another entry was faster, it is asked again.
        """
        while (made := entry(self.play())) is not None:
            index = self.chain.played
            added = of_log(self.log.append, index, made)
            self.play(added)
            if added and added[0] == (index, made):
                return True
        return False


def init(cluster, node=None):
    """Makes the log of a new cluster, which this node opens; without one, the first of the file."""
    node = node or cluster.self or next(iter(cluster.nodes))
    if node not in cluster.nodes:
        raise Stopped(f"{cluster.path}: there is no node '{node}'", 2)
    try:
        log_file.create(cluster.log, cluster.name, node)
    except FileExistsError:
        raise Stopped(f"log: {cluster.log}: it is there already") from None
    print(f"made {cluster.log}; node {node} opens it")


def status(cluster):
    """Prints the servers of the log, from the first on: number, node and state."""
    chain = Followed(cluster).chain
    for server, node in enumerate(chain.nodes, 1):
        place = ", ".join(what for what, it in (("head", chain.head()), ("tail", chain.tail()))
                          if it == server)
        print(f"{server} {node} {chain.state_of(server)}{place and f' ({place})'}")


def retire(cluster, node):
    """Orders the server of a node to leave, and prints what became of it."""
    followed = Followed(cluster)
    server = followed.chain.live_on(node)

    def order(chain):
        return None if chain.retire_fault(server) else log_entries.retire(server)

    if not followed.append(order):
        raise Stopped(f"no {followed.chain.retire_fault(server)}", 1)
    until = time.monotonic() + PATIENCE
    while followed.play().is_live(server) and time.monotonic() < until:
        time.sleep(log_file.EACH)
    print(f"server {server} on node {node} "
          f"{'is ordered to leave' if followed.chain.is_live(server) else 'has left'}")


COMMANDS = {"init": (init, 0, 1), "status": (status, 0, 0), "retire": (retire, 1, 1)}


def command(given):
    """`cluster FILE COMMAND ..`"""
    path, name, *more = [*given, "", ""][: max(2, len(given))]
    do, least, most = COMMANDS.get(name, (None, 0, 0))
    if not do or not least <= len(more) <= most:
        raise Stopped("cluster takes FILE init [NODE], FILE status or FILE retire NODE", 2)
    do(read(path), *more)
