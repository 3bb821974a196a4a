"""Losses under load: clients write and read while nodes are killed, or stopped and reported.

The check is linear. A set's reply has the version of its node, and a zxid. By them the sets of a
node have one order, and all sets have one. What had ended before a call began isn't later.
"""
import base64
import os
import random
import selectors
import signal
import time
from dataclasses import dataclass

import calling
import messages
from chains import GO_ON, STOP, Chain, comes
from report import want, want_same

KEYS, CLIENTS, MEMBERS, SPARE = 4, 31, 3, 2
# The calls that are answered before a loss, and after it.
CALLS = 200
# What is lost in one cluster: it has sixteen numbers.
LOSSES = (
    "kill head", "kill tail", "kill middle", "kill joiner", "kill helper", "stop head", "stop tail",
    "stop middle", "kill head", "kill any", "delay helper",
)


@dataclass
class Call:
    """A call, when it began and ended, and what its reply says."""

    is_set: bool
    key: int
    data: bytes
    began: float
    ended: float = None
    version: int = 0
    zxid: int = 0


class Load:
    """Clients that each begin a call when the last one was answered."""

    def __init__(self, chain, seed):
        self.chain, self.random, self.calls, self.answered = chain, random.Random(seed), [], 0
        self.selector, self.is_on, self.open = selectors.DefaultSelector(), True, {}
        self.clients = [calling.Client(it + 1, chain.cluster, chain.followed, self.selector)
                        for it in range(CLIENTS)]

    def begin(self, client):
        key, is_set = self.random.randrange(KEYS), self.random.random() < 0.5
        data = b"%d.%d" % (client.number, client.last)
        it = Call(is_set, key, data, time.monotonic())
        line = f"set /k{key} any {base64.b64encode(data).decode()}" if is_set else f"get /k{key}"
        self.calls.append(it)
        self.open[client] = it
        client.begin(messages.line(line.encode(), client.number)[1])

    def take(self, client):
        """Notes a reply."""
        it, words = self.open.pop(client), client.reply.split(" ")
        it.ended, client.reply = time.monotonic(), None
        if not it.is_set:
            want_same(words[:2], ["ok", "data"], "a get")
            it.data = base64.b64decode(words[2])
        stat = words[words.index("stat") + 1 :]
        it.zxid, it.version = int(stat[1]), int(stat[5])
        self.answered += 1

    def pump(self):
        """Takes what came, and lets clients go on."""
        for key, _ in self.selector.select(0.01):
            key.data[0].receive(key)
        for it in self.clients:
            if it.reply:
                self.take(it)
            if self.is_on and not it.waits:
                self.begin(it)
            it.look()

    def until(self, holds, what):
        """Goes on until that holds."""

        def found():
            self.pump()
            return holds()

        comes(found, lambda: f"{what}: {self.chain.said()}")

    def answers(self, count, what):
        """Goes on until so many more calls are answered."""
        wanted = self.answered + count
        self.until(lambda: self.answered >= wanted, what)

    def forget(self, server):
        """No client asks this server any more."""
        self.chain.view()
        for it in self.clients:
            it.drop(server)

    def close(self):
        for it in self.clients:
            it.close()
        self.selector.close()


class Losing:
    """A chain under load, of which one node after the other is lost."""

    def __init__(self, chain, seed):
        self.chain, self.nodes = chain, iter(chain.addresses)
        for _ in range(MEMBERS):
            chain.join(next(self.nodes))
        for key in range(KEYS):
            want_same(chain.answer(f"1 create /k{key} p MA=="), f"ok /k{key}", "a node")
        # (the numbers of its clients rise from those of the calls above)
        self.load = Load(chain, seed)

    def victim(self, where):
        """The server that is to be lost."""
        members = self.chain.view().chain
        places = {"head": 0, "tail": -1, "middle": len(members) // 2}
        at = places[where] if where in places else self.load.random.randrange(len(members))
        return members[at]

    def of(self, server):
        """The node of a server."""
        return self.chain.running[self.chain.view().nodes[server - 1]]

    def repaired(self, server):
        self.load.until(lambda: not self.chain.view().is_live(server), f"{server} is reported")

    def kill(self, where):
        server = self.victim(where)
        if where == "helper":
            os.kill(self.of(server).helper(), signal.SIGKILL)
        else:
            self.of(server).kill()
        self.repaired(server)

    def kill_joiner(self):
        """Kills a node whose join the log has."""
        before, node = len(self.chain.view().nodes), self.chain.start(next(self.nodes))
        self.load.until(lambda: len(self.chain.view().nodes) > before, "a join")
        node.kill()
        self.repaired(before + 1)

    def stop(self, where):
        """Stops a node, reports it, and lets it go on once no client asks it any more."""
        server = self.victim(where)
        node = self.of(server)
        node.signal(STOP)
        self.chain.report_gone(server)
        self.load.forget(server)
        self.load.answers(CALLS, f"after {where} was stopped")
        node.signal(GO_ON)
        self.load.until(lambda: node.ran.poll() is not None, "it ends")
        want_same(node.ran.returncode, 75, f"the end of one that is gone: {node.said()}")

    def delay(self, _):
        """Stops the helper of a node while another node is killed, and lets it go on then."""
        lost, slow = self.load.random.sample(self.chain.view().chain, 2)
        helper = self.of(slow).helper()
        os.kill(helper, STOP)
        self.load.answers(CALLS, "while a helper is stopped")
        self.of(lost).kill()
        self.repaired(lost)
        os.kill(helper, GO_ON)
        self.load.answers(CALLS, "after the helper goes on")

    def lose(self, loss):
        how, where = loss.split(" ")
        self.load.answers(CALLS, f"before {loss}")
        if where == "joiner":
            self.kill_joiner()
        else:
            getattr(self, how)(where)
            self.grow()
        self.load.answers(CALLS, f"after {loss}")

    def grow(self):
        """A new node takes the place of the one that was lost.

        (on a busy machine one may be suspected while it joins: then another takes it)
        """
        for _ in range(SPARE):
            before = len(self.chain.view().nodes)
            node = self.chain.start(next(self.nodes))
            joined = lambda: len(self.chain.view().nodes) > before and not self.chain.view().joining
            self.load.until(joined, "a new member")
            if before + 1 in self.chain.view().chain:
                return
        want(False, f"the new member: {node.said()}")


def lose(builds, seed):
    """Loses a node after another, under load. No answer is wrong."""
    with Chain(builds, MEMBERS + len(LOSSES) + SPARE) as chain:
        losing = Losing(chain, seed)
        load = losing.load
        try:
            for loss in load.random.sample(LOSSES, len(LOSSES)):
                losing.lose(loss)
            load.is_on = False
            load.until(lambda: not load.open, "the last answers")
        finally:
            load.close()
    check(load.calls)
    builds.say(f"nodes: {len(LOSSES)} losses, {seed}: {len(load.calls):,} calls, none wrong")


def check(calls):
    """Fails unless the answers are those of one tree, in real time."""
    sets = sorted((it for it in calls if it.is_set), key=lambda it: it.zxid)
    want(all(a.zxid < b.zxid for a, b in zip(sets, sets[1:])), "two sets have one zxid")
    in_real_time(calls)
    for key in range(KEYS):
        check_node([it for it in calls if it.key == key])


def check_node(calls):
    """The versions of a node number its sets, and a get has the data and zxid of its version."""
    sets = {it.version: it for it in calls if it.is_set}
    of_node = sorted((it for it in calls if it.is_set), key=lambda it: it.zxid)
    want_same([it.version for it in of_node], [*range(1, len(of_node) + 1)], "versions of sets")
    for it in calls:
        if not it.is_set and it.version:
            wanted = sets.get(it.version)
            want(wanted, f"a get of nobody's version: {it}")
            want_same((it.data, it.zxid), (wanted.data, wanted.zxid), f"a get: {it}")


def in_real_time(calls):
    """No call is before one that had ended before it began: by zxids for sets, and by versions."""
    by_end, ended, most, last = sorted(calls, key=lambda it: it.ended), 0, [-1] * KEYS, 0
    for it in sorted(calls, key=lambda it: it.began):
        while by_end[ended].ended < it.began:
            done = by_end[ended]
            most[done.key], last = max(most[done.key], done.version), max(last, done.zxid)
            ended += 1
        want(it.version >= most[it.key] + it.is_set, f"an old state: {it}, after {most[it.key]}")
        want(not it.is_set or it.zxid > last, f"a change before an earlier one: {it}, after {last}")
