"""Servers as processes: refusals, rows over a chain of three, and losses under load."""
import base64
import os
import re
import socket
import subprocess

import calling
import clusters
import losses
import messages
from chains import SECONDS, Chain, comes, zk
from report import Failed, Test, want, want_same
from rows_part import Rows, differing
from sources import ROOT

# Rows that need calls alone: each begins with an empty tree.
ROWS = (
    "bad_paths", "data_at_most", "guide_fence", "guide_lock", "long_names", "multi_all_or_none",
    "multi_at_size", "multi_counters", "refusals", "sequential_names", "session_ends",
    "session_is_its_clients", "ttl_and_sessions", "ttl_removes_a_leaf", "versions",
)
# The nodes of a state of some MiB.
NODES = 100
FILES = {  # what is wrong in a file, and what the line must name
    "name=a b": "name=", "node.A=127.0.0.1:1": "'A'", "node.a=127.0.0.1": "node.a=", "tick=1":
    "'tick'", "suspect=9": "suspect=", "self=x": "'x'", "log=etcd:x": "log=", "a = b": "'a'",
}
SERVER, CLIENT = (messages.SERVER, 1), (messages.CLIENT, 7)
NONCE = bytes(8)


def hello(cluster="test", sender=CLIENT, receiver=SERVER, nonce=NONCE):
    return messages.hello(cluster, sender, receiver, nonce)


def record(length, tag=0):
    return bytes([tag]) + length.to_bytes(4, "big")


# What is sent to server 1, and why the connection is closed.
REFUSED = (
    (b"GET / HTTP/1.1\r\n\r\n", "it isn't one of a node"), (b"\0" * 99, "it isn't one of a node"),
    (b"jlqn0000" + hello()[8:], "it has another version"),
    (hello("prod"), "its cluster is another"), (hello("tesT"), "its cluster is another"),
    (hello(receiver=(1, 2)), "it is for another server"),
    (hello(receiver=(2, 1)), "its receiver is no server"),
    (hello(sender=(0, 1)), "its sender is no server or client"),
    (hello(sender=(1, 17)), "its sender is no server or client"),
    (hello(sender=(2, 32)), "its sender is no server or client"),
    (hello(sender=SERVER), "its sender has this server's number"),
    (hello(sender=(1, 2)), "another process has its sender's number"),
    (hello(sender=(1, 9)), "the log hasn't its ends"),
    (hello() + record(100 << 20), "it sent too long a record"),
    (hello() + record((8 << 20) + 1), "it sent too long a record"),
    (hello() + record(5, 1), "it sent a record of no kind"),
    (hello() + record(5, 7), "it sent a record of no kind"),
    (hello() + record(3) + b"\2\7\1", "it sent a frame of another sender or receiver"),
    (hello() + record(4) + b"\2\x08\1\1", "it sent a frame of another sender or receiver"),
    (hello() + record(4) + b"\2\7\1\2", "it sent a frame of another sender or receiver"),
)


def connected(chain, data, node="n1"):
    """A connection to a node, on which this was sent."""
    host, _, port = chain.addresses[node].rpartition(":")
    it = socket.create_connection((host, int(port)), SECONDS)
    it.sendall(data)
    return it


def is_closed(it):
    """Whether the other side closes a connection, and sends nothing before."""
    try:
        return it.recv(9) == b""
    except ConnectionResetError:
        return True


def garbage(builds):
    """What isn't a link is refused by one line, and nobody else notices."""
    with Chain(builds, 2, suspect=2000) as chain:
        chain.grown(2)
        node, before = chain.running["n1"], [it.said() for it in chain.started]
        with connected(chain, hello(sender=(2, 30))) as other:
            for data, why in REFUSED:
                said = node.said()
                with connected(chain, data) as it:
                    want(is_closed(it), f"it is closed: {data[:40]}")
                pattern = rf"zk: closed the connection of 127\.0\.0\.1:\d+: {why}\n"
                new = node.said()[len(said) :]
                want(re.fullmatch(pattern, new), f"{data[:40]}: {new!r}, not {why}")
            chain.serves()
            want_same(chain.answer("30 delete /no any"), "no NoNode", "an update")
            want(is_closed(other), "a second hello ends the first connection")
        lines = node.said()[len(before[0]) :].count("\n")
        want_same((lines, chain.running["n2"].said()), (len(REFUSED), before[1]), "nobody else")
        want_same([chain.view().state_of(it) for it in (1, 2)], ["member"] * 2, "the chain stays")


def cut(builds):
    """A record that is cut is dropped. Who greets byte by byte, or half, disturbs nobody."""
    with Chain(builds, 1) as chain:
        chain.grown(1)
        call = messages.line(b"1 create /cut p -")[1]
        data = hello(sender=(2, 1)) + messages.frame(1, 1, call[0], 1, call[1])
        for length in range(len(data)):
            connected(chain, data[:length]).close()
        with connected(chain, data[:9]):
            chain.serves()
        want_same(chain.answer("2 exists /cut"), "no NoNode", "nothing was done")
        it = connected(chain, b"")
        for byte in data:
            it.sendall(bytes([byte]))
        it.settimeout(SECONDS)
        begun = b""
        while not (found := messages.answers(begun)[0]):
            begun += it.recv(99)
        it.close()
        want_same(found, [(1, "ok /cut")], "byte by byte")


def refusals(builds):
    """What can't run is refused by one line, and nothing is changed."""
    with Chain(builds, 2, opened=False) as chain:
        file = chain.file

        def refused(words, status, has):
            got, out, said = zk(*words)
            want_same((got, out, said.count("\n"), has in said), (status, "", 1, True), said)

        for line, has in FILES.items():
            key, _, value = line.partition("=")
            chain.write(f"{chain.folder}/bad", **{key: value})
            refused(("cluster", f"{chain.folder}/bad", "status"), 2, has)
        for words in ((), ("frob",), ("retire",), ("init", "n1", "n2")):
            refused(("cluster", file, *words), 2, "cluster takes")
        refused(("node", file), 2, "self=")
        refused(("node", file, "--self", "n9"), 2, "'n9'")
        refused(("call", file, "--client", "32"), 2, "--client N")
        for words in (("cluster", file, "status"), ("call", file)):
            refused(words, 3, "there is no log")
        want("there is no log" in chain.start("n1").ends(3), "a node without a log")
        want_same(zk("cluster", file, "init", "n1")[0], 0, "a log is made")
        refused(("cluster", file, "init"), 3, "it is there already")
        refused(("cluster", file, "retire", "n1"), 1, "no NotMember")
        chain.followed = clusters.Followed(chain.cluster)
        unknown(chain)
        damaged(chain)


def unknown(chain):
    """A second node under one name, one of another cluster, and one that a file doesn't have."""
    chain.join("n1")
    it = chain.running["n1"]
    said = chain.start("n1").ends(3)
    want_same((said.count("\n"), "nothing can listen on" in said), (1, True), said)
    other = f"{chain.folder}/other"
    chain.write(other, name="prod")
    want("the log is that of the cluster 'test'" in chain.start("n2", other).ends(2), "a cluster")
    only = f"{chain.folder}/only"
    with open(only, "w", encoding="utf-8") as file:
        file.write(f"name=test\nlog=file:log\nnode.n2={chain.addresses['n2']}\n")
    want("FILE hasn't" in chain.start("n2", only).ends(2), "a node that the log has")
    want(it.ran.poll() is None, "the first one goes on")
    chain.serves()
    refused = zk("cluster", chain.file, "retire", "n1")
    want_same(refused[::2], (1, "zk: no Last\n"), "the only server")
    chain.join("n2")
    want_same(zk("cluster", chain.file, "status")[1], "1 n1 member (head)\n2 n2 member (tail)\n",
              "the servers")
    want_same(zk("cluster", chain.file, "retire", "n1")[1], "server 1 on node n1 has left\n", "")
    it.ends(75)
    chain.serves()
    want_same(zk("cluster", chain.file, "status")[1],
              "1 n1 retired\n2 n2 member (head, tail)\n", "the servers after one has left")


def damaged(chain):
    """A log's torn end is cut off at the next append. Damage before it is refused."""
    path = chain.cluster.log
    with open(path, "ab") as file:
        file.write(b"1234abcd 99 40 AAA")
    chain.join("n1")
    with open(path, "rb") as file:
        lines = file.read().splitlines(keepends=True)
    want(b"AAA\n" not in lines and lines[-1].endswith(b"\n"), "the torn line is cut off")
    chain.running["n1"].kill()
    comes(lambda: chain.view().head() == chain.view().tail(), "it is reported")
    place = len(lines[0]) + len(lines[1]) + 20
    with open(path, "r+b") as file:
        file.seek(place)
        byte = file.read(1)
        file.seek(place)
        file.write(b"A" if byte != b"A" else b"B")
    wanted = f"zk: log: {path}: damaged at byte {len(lines[0]) + len(lines[1])}\n"
    said = chain.start("n1").ends(3)
    want_same(said.partition("\n")[2], wanted, "a node")
    want_same(zk("cluster", chain.file, "status"), (3, "", wanted), "the servers")
    want(chain.running["n2"].ran.poll() is None, "who has read it goes on")


def state(builds):
    """A server that joins has the whole state, of some MiB, also once it is the only one."""
    with Chain(builds) as chain:
        chain.grown(2)
        caller, data = calling.Caller(chain.cluster), base64.b64encode(os.urandom(1 << 16)).decode()
        for number in range(NODES):
            line = f"{number % 31 + 1} create /n{number} p {data}"
            want_same(caller.answer(line.encode()), f"ok /n{number}", "a node")
        chain.join("n3")
        for node in ("n1", "n2"):
            chain.running[node].kill()
        comes(lambda: chain.view().chain == [3], chain.said)
        for number in range(0, NODES, 9):
            got = caller.answer(f"1 get /n{number}".encode())
            want(got.startswith(f"ok data {data} stat {number + 1} "), f"/n{number}: {got[:40]}")
        want(caller.answer(b"1 ls /").startswith(f"ok {NODES} "), "all nodes")
        caller.close()


def row(builds, name):
    """Plays a file of rows over a chain of three."""
    rows = Rows(f"{ROOT}/rows/{name}.rows")
    (text, wanted), = rows.scripts()
    with Chain(builds) as chain:
        chain.grown()
        ran = subprocess.run([f"{ROOT}/zk", "call", chain.file], input=text, capture_output=True,
                             timeout=SECONDS)
        want_same((ran.returncode, ran.stderr), (0, b""), "its end")
        want(ran.stdout == wanted, "\n".join(differing("output", wanted, ran.stdout)[:20]))


def codec(_):
    """Bytes of calls and replies, as worked examples of the repository have them."""
    query = bytes([0, 0, 0, 20, 2, 2, 1, 3, 1, *bytes(7), 8, 0, 0, 0, 0, 2, 47, 97])
    want_same(messages.frame(2, 3, *ask(8, b"2 get /a")), b"\0" + query, "a query")
    submit = bytes([0, 0, 0, 14, 2, 2, 1, 1, 0, *bytes(7), 7, 7])
    want_same(messages.frame(2, 1, *ask(7, b"0 tick")), b"\0" + submit, "an update")
    answer = bytes([0, 0, 0, 0, 15, 1, 3, 2, 2, 2, *bytes(7), 8, 11, 0])
    want_same(messages.answers(answer + b"\0"), ([(8, "no NoNode")], b"\0"), "an answer")
    stat = "stat 1 2 3 4 5 6 7 9 10 11"
    texts = [messages.Reader(data).reply() for data in examples("replies_have_bytes")]
    want_same(texts, [
        "ok /a", "ok deleted", f"ok {stat}", "ok multi checked ; deleted", "ok multi /a",
        "ok session 5 timeout 10", "ok pinged", "ok closed", "ok tick 9 ended 1 removed 2",
        f"ok data aGk= {stat}", f"ok {stat}", "ok 2 a bc", "no Exhausted", "no multi 3 BadVersion",
    ], "replies")


def ask(number, line):
    tag, rest = messages.line(line)[1]
    return tag, number, rest


def examples(function):
    """The bytes that the clauses of a function of worked examples have."""
    with open(f"{ROOT}/crates/zwire/src/rows.rt", encoding="utf-8") as file:
        body = file.read().partition(f"pub fn {function}()")[2].partition("{}\n")[0]
    for clause in re.findall(r"ensures (\w+ \{.*?\[\] \})\n", body, re.S):
        yield bytes(map(int, re.findall(r"\b\d+(?=\s*∷)", clause.rpartition("≡")[2])))


def entries(_):
    """Bytes of entries, as worked examples of the repository have them."""
    its = clusters.log_entries
    want_same(its.opening("a", "b"), b"\0\0\0\0\2\0\0\0\1a\0\0\0\1b", "an opening")
    want_same(its.join(3, "c"), b"\1\3\0\0\0\1c", "a join")
    want_same(its.retire(2), b"\2\2", "an order to leave")
    want_same(its.gone(2, 0, 1), b"\3\2" + bytes(8) + b"\2\1", "a report")


def history():
    """Calls one after the other: each node is set, and got, and set again, and got again."""
    made, versions = [], [0] * losses.KEYS
    for number in range(8 * losses.KEYS):
        key, is_set = number // 2 % losses.KEYS, number % 2 == 0
        versions[key] += is_set
        data, zxid = b"%d" % (number // 2), number // 2 + 1
        made.append(losses.Call(is_set, key, data, number, number + 0.5, versions[key], zxid))
    return made


def checks(_):
    """The check of answers takes what is right, and refuses what is wrong."""
    losses.check(history())
    get, change, again = 1, 0, 2 * losses.KEYS
    wrong = {  # how a history is changed
        "an old state": lambda it: it[again + get].__dict__.update(
            version=1, data=it[change].data, zxid=it[change].zxid),
        "data of another": lambda it: it[get].__dict__.update(data=b"x"),
        "a state of nobody": lambda it: it[get].__dict__.update(version=9),
        "a set that is done twice": lambda it: it.insert(1, it[change]),
        "a set that is lost": lambda it: it.pop(change),
        "sets in another order": lambda it: it[change].__dict__.update(zxid=99),
    }
    for what, spoil in wrong.items():
        calls = history()
        spoil(calls)
        try:
            losses.check(calls)
        except Failed:
            continue
        raise Failed(f"{what} isn't seen")


def lost(builds, seed):
    return Test(f"nodes: {len(losses.LOSSES)} losses, {seed}", 40,
                lambda _: losses.lose(builds, seed))


def tests(builds):
    each = garbage, cut, refusals, state
    found = [Test(f"nodes: {it.__name__}", 100, lambda _, it=it: it(builds)) for it in each]
    found += [Test(f"nodes: {it.__name__}", 1, it) for it in (codec, entries, checks)]
    found += [Test(f"nodes: {it}.rows", 5, lambda _, it=it: row(builds, it)) for it in ROWS]
    seeds = int.from_bytes(os.urandom(3), "big"), *range(60 if builds.is_long else 18)
    return found + [lost(builds, it) for it in seeds]
