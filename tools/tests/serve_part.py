"""The server for ZooKeeper's clients: its bytes, its host, and the recipes of kazoo over it."""
import contextlib
import os
import resource
import signal
import socket
import struct
import subprocess
import sys
import tempfile
import time
import urllib.request
from functools import partial

import asking
import c_trials
import curator_trials
import hostile
import kazoo_trials
import lifetimes
import logins
import monitors
import patroni_trials
from frames import *
from report import Skipped, Test, want, want_same
from servers import Server, ended, free_port, program, until, words_of
from wire import NO_SESSION, Ended, Wire, greeted

RECIPES = f"{os.path.dirname(os.path.abspath(__file__))}/recipes.py"
MOST, DATA, ESTABLISHED = 1000, 1 << 16, 1
FEW = 'ulimit -n 1060; exec "$0" "$@"'
BAD_WORDS = (
    "frob", "--frob", "--servers", "--servers 3", "--servers=1", "--program=", "--tick 9",
    f"--tick {'9' * 20}", "--tick 1e3", "--sync often", "--journal 0", "--listen", "--data ",
    "--tick 2000 ", "--connections 0", "--watches 0", "--watches 9 --watches-each 10",
    "--nodes 0", "--nodes 2097153", "--sessions 0", "--sessions 1048577", "--max-session 1",
    "--max-session 1048577", "--data-bytes 0", "--data-bytes 1048488", "--parts 0", "--parts 1025",
    *(f"--listen {it}" for it in (
        "2181", "127.0.0.1", "127.0.0.1:", ":1", "127.0.0.1:65536", "127.0.0.1:-1", "999.0.0.1:1",
        "somewhere:1", "::1:2181", "[::g]:1", "[]:1", "1" * 999 + ":1")),
)
FOUR_LETTERS = ((b"ruok", b"imok"), (b"isro", b"rw"), (b"envi", b"zookeeper.version="),
                (b"srvr", b"\nMode: standalone\n"), (b"mntr", b"\nzk_avg_latency\t"))


def with_kazoo():
    """A Python that has kazoo."""
    for it in (sys.executable, "/usr/bin/python3"):
        if os.access(it, os.X_OK) and not ended([it, "-c", "import kazoo"])[0]:
            return it
    raise Skipped("no Python here has the package kazoo")


def recipes(builds, tally):
    python = builds.once("kazoo", with_kazoo)
    with Server(builds) as server:
        status, out, said = ended([python, "-B", RECIPES, server.at], 300)
    for line in out.splitlines():
        tally.passes() if line.startswith("ok ") else tally.fails("kazoo", line)
    want((status, out.count("\n")) == (0, 9), f"kazoo's recipes: {status} {out} {said}")


def words(builds):
    own = words_of(builds)
    for given in BAD_WORDS:
        status, out, said = ended([*own, *given.split(" ")])
        want_same((status, out, said.count("\n")), (2, "", 1), f"{given}: {said}")
    for given, has in (("--help", "--listen"), ("--version", "jellqupas ")):
        want(has in ended([own[0], given])[1], given)
    want("without a chain" in ended([*own, "--servers=3"])[2], "why there is no --servers")
    for given in ("--listen=127.0.0.1:0", "--tick=10", "--tick 3600000"):
        with Server(builds, words=given.split(" ")) as server:
            want(server.serves(), given)
    with Server(builds, wrap=("sh", "-c", 'exec "$0" "$@" <&- >&-')) as server:
        want(server.serves(), "without standard input and output")


def addresses(builds):
    with Server(builds) as server, server.client() as it:
        for at, wanted in ((server.at, 3), ("203.0.113.7:0 --open", 3), ("0.0.0.0:0", 2)):
            status, _, said = ended([*words_of(builds), "--listen", *at.split()])
            is_so = (status, said.count("\n"), at.split()[0] in said) == (wanted, 1, True)
            want(is_so, f"{at}: {status} {said}")
        server.stop()
        want(it.is_ended(), "its end closes the connections")
    with Server(builds, words=["--listen", server.at]) as again:
        want(again.serves(), "the port is free at once")
    if not os.path.exists("/proc/net/if_inet6"):
        return
    with Server(builds, words=["--listen", "[::1]:0"]) as server:
        with socket.create_connection(server.address, timeout=30) as it:
            it.sendall(b"ruok")
            want_same(it.recv(9), b"imok", "over IPv6")


def metrics(builds):
    """What is counted, as Prometheus reads it: of the front and of the host."""
    port = free_port()
    given = ("--metrics", f"127.0.0.1:{port}")
    with Server(builds, words=given) as server, server.client() as it:
        it.create("/a", b"hi")
        it.create("/e", b"own", EPHEMERAL)
        it.exists("/a", True)
        with urllib.request.urlopen(f"http://{given[1]}/metrics", timeout=30) as found:
            kind, text = found.headers["Content-Type"], found.read().decode()
        want_same(kind, "text/plain; version=0.0.4", "its type")
        told = dict(line.split() for line in text.splitlines() if not line.startswith("#"))
        for name, wanted in (("zk_watch_count", "1"), ("zk_num_alive_connections", "1"),
                             ("jellqupas_connections_accepted", "2"),
                             ("jellqupas_packets_received", "5"), ("zk_znode_count", "3"),
                             ("zk_ephemerals_count", "1"), ("zk_approximate_data_size", "5"),
                             ("jellqupas_limit_nodes", "1048576"),
                             ("jellqupas_limit_sessions", "65536")):
            want_same(told[name], wanted, name)
        with socket.create_connection(("127.0.0.1", port), timeout=30) as other:
            other.sendall(b"GET / HTTP/1.1\r\n\r\n")
            want(other.recv(99).startswith(b"HTTP/1.1 404"), "another path")
        want(server.serves(), "it serves on")


def four_letters(builds):
    """Words of four letters, which monitors send in the place of a greeting."""
    with Server(builds) as server, server.client() as other:
        for word, has in FOUR_LETTERS:
            for pieces in ([word], [word[:1], word[1:3], word[3:]]):
                with Wire(server.address) as it:
                    for piece in pieces:
                        it.send(piece)
                        other.ping()
                    found = it.rest()
                    want(has in found, f"{word}: {found}")


def stalled(server, requests, room=None):
    """A connection that doesn't read, and the bytes with which it asks for so much."""
    several = (request(it, GET, look_body("/big")) for it in range(1, requests + 1))
    return server.client(room=room), b"".join(several)


def push(client, data):
    """Sends what can be sent without waiting."""
    client.socket.setblocking(False)
    try:
        client.socket.send(data)
    except (BlockingIOError, ConnectionError):
        pass


def closed(clients):
    """How many of these connections the server has closed."""
    states = (it.socket.getsockopt(socket.IPPROTO_TCP, socket.TCP_INFO, 1)[0] for it in clients)
    return sum(it != ESTABLISHED for it in states)


def ends(builds):
    """SIGTERM and SIGINT end it in the middle of anything, and SIGPIPE doesn't."""
    for sent in (signal.SIGTERM, signal.SIGINT):
        with Server(builds) as server, server.client() as it, Wire(server.address) as half:
            it.create("/big", b"x" * DATA)
            push(*stalled(server, 800))
            half.send(greeting()[:9])
            it.send(request(1, CREATE, create_body("/a"))[:20])
            server.ran.send_signal(signal.SIGPIPE)
            want(server.serves(), "it goes on")
            server.stop(sent)


def many(builds):
    """1,000 connections, for more of which there are no descriptors. One more is closed at once, and
    one that ends leaves a place."""
    limit = resource.getrlimit(resource.RLIMIT_NOFILE)
    if limit[0] < 2048:
        resource.setrlimit(resource.RLIMIT_NOFILE, (min(4096, limit[1]), limit[1]))
    few = ["sh", "-c", FEW, *words_of(builds), "--connections"]
    status, _, said = ended([*few, "1029"])
    want((status, "1060 descriptors" in said) == (3, True), f"more than can be opened: {said}")
    with Server(builds, own=[*few, str(MOST)]) as server:
        clients = [server.client() for _ in range(MOST)]
        for it in clients:
            it.post(CREATE, create_body("/n-", kind=SEQUENTIAL))
        want_same(len({it.next().body for it in clients}), MOST, "each is answered")
        for _ in range(3):
            with Wire(server.address) as wire:
                want(wire.is_ended(), "one more is closed at once")
        want_same(server.said().count("is refused: 1000 are"), 1, "one line in a minute")
        for _ in range(20):
            clients.pop().drop()
            want(until(server.serves), "who ends leaves a place")
        for it in clients:
            it.drop()
        want(until(server.serves), "all places are free again")


def readers(builds):
    """Who reads late gets all, in its order. Of who never reads some are closed."""
    with Server(builds) as server, server.client() as other:
        other.create("/big", b"x" * DATA)
        late, data = stalled(server, 100)
        late.send(data)
        slow = [stalled(server, 100, room=4096)[0] for _ in range(60)]
        for it in slow:
            push(it, data)
            want(other.ping(), "others are served")
        for it in slow:
            # (who is closed is sent so in answer to a byte)
            push(it, b"\0")
        want(until(lambda: 0 < closed(slow) < 60), f"{closed(slow)} of 60 are closed")
        want("clients leave 64 MiB unread" in server.said(), "why")
        want(server.memory("VmRSS") < 200, f"{server.memory('VmRSS')} MiB for who never reads")
        got = [late.next() for _ in range(100)]
        want_same([it.xid for it in got], list(range(1, 101)), "all that was asked for")
        want({len(it.body) for it in got} == {DATA + 72}, "and whole")


def silence(builds):
    """Who says nothing, or half a greeting, is closed after 10 s. Who has a session isn't."""
    with Server(builds) as server, server.client() as it, Wire(server.address) as half:
        began = time.monotonic()
        half.send(greeting()[:20])
        with Wire(server.address) as silent:
            for wire in (half, silent):
                want(wire.is_ended(), "it is closed")
                want(9 <= time.monotonic() - began < 20, f"{time.monotonic() - began:.1f} s")
        want(it.ping(), "not who has a session")


def secrets(builds):
    """A password is of one server's life. In memory another life refuses it."""
    with Server(builds) as server, Server(builds) as other:
        it, same = server.client(), other.client()
        want_same(same.session, it.session, "the same session")
        want_same(greeted(other.address, same, it.password), NO_SESSION, "of another life")
        want_same(greeted(other.address, it, same.password)[1], it.session, "of this life")


def late(builds):
    """Ticks keep their distance. After a stall one tick is given, so sessions outlive it."""
    with Server(builds, tick=200) as server, server.client(timeout=1000) as it:
        server.ran.send_signal(signal.SIGSTOP)
        time.sleep(2)
        server.ran.send_signal(signal.SIGCONT)
        want(it.ping(), "who waits is served before the tick")


def clock(builds):
    """Under full load there is a tick each second, for 10 s or for 60."""
    load, asked = builds.compiled("load", ["bench/load.c"]), request(1, GET, look_body("/"))
    with Server(builds, tick=1000) as server, contextlib.ExitStack() as opened:
        clients = [opened.enter_context(server.client()) for _ in range(64)]
        for it in clients:
            it.socket.settimeout(None)
        clients[0].create("/a")
        began, first = time.monotonic(), clients[0].set("/a").mtime
        numbers = [it.socket.fileno() for it in clients for _ in ("requests", "answers")]
        words = map(str, (load, 256, 10**8, len(asked), 92, *numbers))
        with tempfile.TemporaryFile() as file:
            file.write(asked * 256 * 64)
            file.seek(0)
            with subprocess.Popen([*words], stdin=file, pass_fds={*numbers}) as ran:
                time.sleep(60 if builds.is_long else 10)
                want(ran.poll() is None, "the load is answered")
                ran.kill()
        # (another client: a session that is silent for so long may have ended)
        ticks, took = (server.client().set("/a").mtime - first) / 1000, time.monotonic() - began
        want(abs(ticks - took) < 1.2, f"{ticks} ticks in {took} s")


def unfinished(builds):
    """Those with the longest unfinished requests are closed, and others are served in parts."""
    with Server(builds) as server, server.client() as it, server.client() as other:
        long, half = request(1, SET, hostile.LONGEST), request(1, CREATE, create_body("/a"))
        several = [server.client() for _ in range(20)]
        for one in several:
            with contextlib.suppress(Ended):
                one.send(long[:-1])
            it.send(half[:9])
            want(other.ping(), "a part comes on its own")
            it.send(half[9:])
            it.answer(1)
        want(until(lambda: closed(several) == 6), f"{closed(several)} of 20 are closed")
        want("15 MiB of requests are unfinished" in server.said(), "why")


def chunks(builds):
    """Chunks of no connection, of no length and of no tag end the host."""
    no_one = "a chunk of connection {}, which isn't there".format
    for *head, said in (
        (0, 0, 0, 0, no_one(0)), (0, 2, 0, 0, no_one(2)), (0, 10001, 1, 5, no_one(10001)),
        (7, 1, 1, 0, "no chunk: 7, 1"), (0, 1, 2, 0, "no chunk: 0, 2"),
        (0, 1, 0, 2**32 - 1, "a chunk of 4294967295 bytes"),
    ):
        text = "".join(map("\\{:03o}".format, struct.pack(">BBIBI", 1, *head)))
        own = program(builds, f"printf '{text}'; exec cat >/dev/null")
        server = Server(builds, words=("--program", own))
        with Wire(server.address) as it:
            want(it.is_ended(), "the host has ended")
        server.stop(0, 1, f"zk: zk_serve sent {said}\n")


def drill(builds):
    """Opens, calls, watches, and closes three of four, in the memory of the first 500 rounds."""
    calls = ((GET, look_body("/a", True)), (EXISTS, look_body("/b", True)), (SET, set_body("/a")),
             (LS, look_body("/a", True)), (CREATE, create_body("/e-", kind=EPHEMERAL | SEQUENTIAL)))
    data, size = greeting(timeout=100) + b"".join(request(1, *it) for it in calls), 0
    with Server(builds, tick=50) as server, server.client() as it:
        it.create("/a")
        for number in range(100000 if builds.is_long else 5000):
            with Wire(server.address) as it:
                it.send(data + request(1, CLOSE) * (number % 4 < 3))
                found = it.rest() if number % 4 < 3 else it.take(size - 20)
                size = size or len(found)
                want(len(found) == size or number % 4 == 3, f"round {number}: {found}")
            if number == 500:
                own, host = server.below(), server.memory("VmRSS")
                most = server.memory("VmPeak", own) + 2 << 20
                resource.prlimit(own, resource.RLIMIT_AS, (most, most))
        want(server.memory("VmRSS") < host + 16, f"{host} MiB of the host after 500 rounds")


EACH = (
    asking.limits, asking.sessions, clock, drill, many, readers, silence, words, asking.requests,
    asking.watches, asking.persistent, asking.walks, asking.acls, asking.chosen, asking.own_nodes,
    hostile.frames, addresses, ends, four_letters, metrics, secrets, late, unfinished, chunks,
    lifetimes.timeouts,
    *monitors.EACH, *logins.EACH
)


# (the name of each test, its seconds, and whether it is a long one)
CLIENTS = {
    recipes: ("recipes of kazoo", 100, False),
    curator_trials.curator: ("recipes of Curator", 30, False),
    c_trials.c_client: ("ZooKeeper's client in C", 10, False),
    kazoo_trials.kazoo: ("kazoo's own tests", 150, True),
    patroni_trials.patroni: ("Patroni", 90, True),
}


def tests(builds):
    comes_back = lambda _: lifetimes.restart(builds, builds.once("kazoo", with_kazoo))
    found = [Test("serve: restart", 30, comes_back)]
    for body, (name, seconds, is_long) in CLIENTS.items():
        if builds.is_long or not is_long:
            found.append(Test(f"serve: {name}", seconds, partial(body, builds)))
    found += [Test(f"serve: {it.__name__}", 10, lambda _, it=it: it(builds)) for it in EACH]
    with_logins = lambda _: logins.kazoo(builds, builds.once("kazoo", with_kazoo))
    found.append(Test("serve: logins of kazoo", 20, with_logins))
    body = lambda first: lambda _: hostile.pieces(builds, first)
    return found + [Test(f"serve: pieces from {it} on", 20, body(it)) for it in range(0, 1000, 250)]
