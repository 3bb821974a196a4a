"""The recipes of kazoo over a server: python3 recipes.py ADDRESS:PORT.

It wants the package kazoo. It prints a line for each recipe: 'ok NAME', or 'FAILED NAME: WHY'.
"""
import logging
import os
import re
import subprocess
import sys
import textwrap
import threading
import time

from kazoo.client import KazooClient

HERE = os.path.dirname(os.path.abspath(__file__))
sys.path.insert(0, HERE)
from report import want, want_same
from wire import until

SECONDS = 60


class Place:
    """A server's address, and the clients of one recipe."""

    def __init__(self, address):
        self.address, self.clients, self.states = address, [], []

    def client(self):
        found = KazooClient(hosts=self.address, timeout=20)
        found.start(SECONDS)
        found.add_listener(self.states.append)
        self.clients.append(found)
        return found

    def pair(self, recipe, *words):
        """The recipe's objects of two clients."""
        names = ["one"], ["two"]
        return [getattr(self.client(), recipe)(*(words or [f"/{recipe}", *it])) for it in names]


def start(call):
    thread = threading.Thread(target=call, daemon=True)
    thread.start()
    return thread


def wait(holds, what):
    want(until(holds), f"{what} never came")


def ends(*threads):
    for it in threads:
        wait(lambda it=it: not it.is_alive(), "the end of a call")


def recipe_lock(place):
    (first, second), order = place.pair("Lock"), []

    def take():
        with second:
            order.append("two")

    with first:
        waiter = start(take)
        wait(lambda: first.contenders() == ["one", "two"], "who wants the lock")
        order.append("one")
    ends(waiter)
    want_same(order, ["one", "two"], "one after the other")
    first.acquire()
    waiter = start(take)
    wait(lambda: len(first.contenders()) == 2, "who wants the lock")
    place.clients[0].stop()
    ends(waiter)


def recipe_election(place):
    (first, second), led, go = place.pair("Election"), [], threading.Event()
    leader = start(lambda: first.run(lambda: (led.append("one"), go.wait(SECONDS))))
    wait(lambda: led, "a leader")
    other = start(lambda: second.run(lambda: led.append("two")))
    wait(lambda: first.contenders() == ["one", "two"], "who wants to lead")
    want_same(led, ["one"], "one leads")
    go.set()
    ends(leader, other)
    want_same(led, ["one", "two"], "one after the other")


def recipe_barriers(place):
    (first, second), passed = place.pair("Barrier", "/barrier"), []
    first.create()
    waiter = start(lambda: passed.append(second.wait(SECONDS)))
    time.sleep(0.3)
    want_same(passed, [], "it waits")
    first.remove()
    ends(waiter)
    want_same(passed, [True], "it passes")
    first, second = place.pair("DoubleBarrier", "/double", 2)
    for name, is_in in (("enter", True), ("leave", False)):
        waiter = start(getattr(first, name))
        time.sleep(0.3)
        want_same((waiter.is_alive(), second.participating), (True, not is_in), "one alone waits")
        getattr(second, name)()
        ends(waiter)
        want_same((first.participating, second.participating), (is_in, is_in), "both")


def recipe_queues(place):
    first, second = place.pair("Queue", "/queue")
    for number in range(10):
        first.put(b"%d" % number)
    first.put(b"first", priority=10)
    got = [second.get() for _ in range(12)]
    want_same(got, [b"first", *(b"%d" % number for number in range(10)), None], "a queue")
    (first, second), got = place.pair("LockingQueue", "/locking"), []
    taker = start(lambda: [(got.append(second.get(SECONDS)), second.consume()) for _ in range(6)])
    first.put_all([b"1", b"2"])
    for number in (3, 4, 5, 6):
        first.put(b"%d" % number)
    ends(taker)
    want_same((got, len(first)), ([b"%d" % number for number in range(1, 7)], 0), "what is taken")


def recipe_party(place):
    first, second = place.pair("Party")
    first.join()
    second.join()
    want_same((sorted(first), len(second)), (["one", "two"], 2), "who is there")
    place.clients[1].stop()
    want_same(list(first), ["one"], "who is left")


def recipe_counter(place):
    counters = [place.client().Counter("/counter") for _ in range(4)]
    ends(*[start(lambda it=it: [it.__add__(1) for _ in range(50)]) for it in counters])
    want_same(counters[0].value, 200, "a counter of four clients")


def recipe_watches(place):
    one, two, seen = place.client(), place.client(), []
    one.create("/data", b"0")
    two.DataWatch("/data", lambda data, stat: seen.append(data))
    for call, *words in (one.set, b"1"), (one.set, b"2"), (one.delete,), (one.create, b"again"):
        count = len(seen)
        call("/data", *words)
        wait(lambda: len(seen) > count, "a change")
    want_same(seen, [b"0", b"1", b"2", None, b"again"], "each change")
    children = []
    one.create("/children")
    two.ChildrenWatch("/children", lambda names: children.append(len(names)))
    for number in range(4):
        one.create(f"/children/{number}", ephemeral=number == 3)
        wait(lambda: children[-1] == number + 1, "a change")
    one.stop()
    wait(lambda: children[-1] == 3, "the session's end")
    want_same(children, [0, 1, 2, 3, 4, 3], "each change, and what a session takes away")


def recipe_transaction(place):
    it, name = place.client(), "/t/s-0000000000"
    it.ensure_path("/t/b")
    many = it.transaction()
    many.create("/t/c", b"x")
    many.set_data("/t/b", b"y", 0)
    many.check("/t/b", 1)
    many.create("/t/s-", sequence=True)
    many.delete("/t/c")
    got = many.commit()
    want_same((got[0], got[1].version, *got[2:]), ("/t/c", 1, True, name, True), "a multi")
    want_same(it.exists(name).czxid, it.exists("/t/b").mzxid, "all under one zxid")
    many, before = it.transaction(), it.exists("/t")
    many.create("/t/c", b"x")
    many.check("/t/none", 1)
    many.delete("/t/b")
    wanted = ["RolledBackError", "NoNodeError", "RuntimeInconsistency"]
    want_same([type(it).__name__ for it in many.commit()], wanted, "a multi that is refused")
    want_same(it.exists("/t"), before, "nothing of it is done")


def recipe_guide(place):
    """The session of the guide prints what its comments say."""
    with open(f"{HERE}/../../docs/GUIDE.md", encoding="utf-8") as file:
        found = re.search(r"^    from kazoo.client .*\n(?:    .*\n|\n)*", file.read(), re.M)[0]
    program = textwrap.dedent(found).replace("127.0.0.1:2181", place.address)
    wanted = [it.partition("  # ")[2].strip() for it in program.split("\n") if "  # " in it]
    words = [sys.executable, "-c", program]
    ran = subprocess.run(words, capture_output=True, text=True, timeout=60)
    want_same(ran.stdout.split("\n")[:-1], wanted, f"the session of the guide {ran.stderr}")
    want(len(wanted) >= 4, f"a session in the guide: {program}")


def main(address):
    logging.basicConfig(level=logging.CRITICAL)
    for name, test in list(globals().items()):
        if not name.startswith("recipe_"):
            continue
        place = Place(address)
        try:
            test(place)
            want("SUSPENDED" not in place.states, "no connection is lost")
            print(f"ok {name}", flush=True)
        except Exception as error:  # (kazoo has many of its own)
            print(f"FAILED {name}: {type(error).__name__} {error!r}", flush=True)
        for it in place.clients:
            it.stop()
            it.close()


if __name__ == "__main__":
    main(sys.argv[1])
    # (threads of kazoo may be left where something failed)
    os._exit(0)
