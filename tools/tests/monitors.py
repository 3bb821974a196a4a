"""What monitors are told, in ZooKeeper's forms; and a fleet of clients that comes back at once."""
import os
import re
import resource
import signal
import socket
import time

import parts
import serving
from frames import *
from report import Skipped, want, want_same
from servers import Server, ended, new_folder, program, until, words_of
from wire import Ended, Wire

MOST, FLEET, LONGEST = 10000, 1000, 2**31 - 1
# A client's line, and a version, as readers of ZooKeeper's `stat` find them.
CLIENT = re.compile(r"/(\[?[:.\da-fA-F]*\]?):(\d+)\[(\d+)\]\((.*)\)")
VERSION = re.compile(r".*: (\d+\.\d+\.\d+)-.*")
# What collectd's plugin and others read of `mntr`.
COUNTS = (
    "zk_avg_latency", "zk_min_latency", "zk_max_latency", "zk_packets_received", "zk_packets_sent",
    "zk_num_alive_connections", "zk_outstanding_requests", "zk_global_sessions", "zk_watch_count",
    "zk_znode_count", "zk_ephemerals_count", "zk_approximate_data_size",
    "zk_open_file_descriptor_count", "zk_max_file_descriptor_count", "zk_uptime",
    "zk_connection_rejected", "zk_bytes_received_count", "zk_max_connections",
    "zk_strangers_refused", "zk_journal_bytes",
    "zk_compacted_journal_bytes",
)
STATE = (
    "latency min/avg/max", "received", "sent", "connections", "outstanding", "zxid", "mode",
    "node count",
)


def told(server, word):
    """The answer to a word, which is the same in pieces, and with a line's end."""
    found = []
    for pieces in ([word], [word[:1], word[1:3], word[3:] + "\n"]):
        with Wire(server.address) as it:
            for piece in pieces:
                it.send(piece.encode())
                time.sleep(0.01 * (len(pieces) > 1))
            found.append(it.rest().decode())
    shape = [re.sub(r"\d+", "0", it) for it in found]
    want_same(shape[1], shape[0], f"{word} in pieces")
    return found[0]


def pairs(text, mark):
    return dict(line.split(mark, 1) for line in text.splitlines() if mark in line)


def monitors(builds):
    """Each word, with two clients, of which each has a watch."""
    folder = new_folder(builds)
    with Server(builds, folder, tick=1000) as server:
        one, two = server.client(), server.client(timeout=LONGEST)
        one.create("/a")
        for it in (one, two):
            it.exists("/a", True)
        names = {f"127.0.0.1:{it.socket.getsockname()[1]}": it for it in (one, two)}
        found = pairs(told(server, "mntr"), "\t")
        want(re.match(r"3\.8\.0-jellqupas-\d", found["zk_version"]), found["zk_version"])
        want_same(found["zk_server_state"], "standalone", "its state")
        want(all(line.startswith("zk_") for line in told(server, "mntr").splitlines()), "names")
        numbers = {name: float(found[name]) for name in COUNTS}
        for name, wanted in (
            ("zk_num_alive_connections", 3), ("zk_global_sessions", 2), ("zk_watch_count", 2),
            ("zk_znode_count", 2), ("zk_ephemerals_count", 0), ("zk_approximate_data_size", 0),
            ("zk_packets_received", 6), ("zk_packets_sent", 5), ("zk_outstanding_requests", 0),
            ("zk_max_connections", MOST), ("zk_journal_bytes", os.path.getsize(f"{folder}/journal")),
        ):
            want_same(numbers[name], wanted, name)
        least, average, most = (numbers[f"zk_{it}_latency"] for it in ("min", "avg", "max"))
        want(least <= average < most + 1 and average > 0, f"latency {least} {average} {most}")
        stat(told(server, "stat"), names)
        want_same([*lower(told(server, "srvr"))], ["zookeeper version", *STATE], "lines of srvr")
        want_same(lower(told(server, "srvr"))["zxid"], f"{one.zxid:#x}", "the zxid")
        for line in told(server, "cons").splitlines()[:2]:
            name, fields = of_client(line)
            it = names.pop(name)
            for name, wanted in (("sid", f"{it.session:#x}"), ("to", str(it.timeout)),
                                 ("lzxid", f"{it.zxid:#x}"), ("lcxid", "0x1")):
                want_same(fields[name], wanted, name)
        found = pairs(told(server, "conf"), "=")
        for name, wanted in (
            ("clientPort", server.address[1]), ("dataDir", folder), ("tickTime", 1000),
            ("maxClientCnxns", MOST), ("minSessionTimeout", server.client(timeout=1).timeout),
            ("maxSessionTimeout", two.timeout),
        ):
            want_same(found[name], str(wanted), name)
        want_same(told(server, "wchs"), "Total watches:2\n", "the watches")
        found = told(server, "dump")
        for it in (one, two):
            want(f"\n{it.session:#x}\t{it.timeout}ms\n" in found, f"{it.session:#x} in {found}")
            want(f":{it.socket.getsockname()[1]} sessionId: {it.session:#x}\n" in found, found)


def lower(text):
    """Lines of a name and a value, by the name in small letters."""
    return {name.lower(): value.strip() for name, value in pairs(text, ":").items()}


def of_client(line):
    host, port, _, fields = CLIENT.search(line).groups()
    return f"{host}:{port}", pairs(fields.replace(",", "\n"), "=")


def stat(text, names):
    """What `stat` says of clients with these addresses."""
    head, _, rest = text.partition("\n\n")
    version, clients, *lines = head.split("\n")
    want(VERSION.match(version) and clients == "Clients:", head)
    found = dict(map(of_client, lines))
    want({*names} < {*found} and len(found) == 3, f"{lines}")
    want_same(max(int(it["recved"]) for it in found.values()), 3, "requests of a client")
    want_same([*lower(rest)], [*STATE], "lines of stat")


def stalls(builds):
    """Who can't serve doesn't say that it can. What takes long is told."""
    own = program(builds, f'sleep 3; exec {builds.program(serving.PROGRAM)} "$@"')
    folder = new_folder(builds)
    with Server(builds, folder, ("--program", own)) as server:
        want("zk: opening: 2 s so far\n" in server.said(), server.said())
        below = server.below()
        os.kill(below, signal.SIGSTOP)
        wires = [Wire(server.address) for _ in range(2)]
        for it, word in zip(wires, (b"ruok", b"mntr")):
            it.send(word)
            it.socket.settimeout(1)
            try:
                want(False, f"{word} is answered: {it.socket.recv(9)}")
            except TimeoutError:
                it.socket.settimeout(60)
        for took in (2, 4):
            want(until(lambda: f"zk: a batch: {took} s so far\n" in server.said()), server.said())
        os.kill(below, signal.SIGCONT)
        want_same(wires[0].rest(), b"imok", "then it is")
        want(b"zk_max_latency\t" in wires[1].rest(), "and the other")
        with server.client() as it:
            it.create("/a", b"red")
    words = [words_of(builds)[0], "export", "--data", folder, f"--program={own}"]
    status, out, said = ended(words)
    want(status == 0 and "/a" in out and "zk: export: 2 s so far\n" in said, f"{status} {said}")


def compacted(builds):
    """A line tells of a compaction, and so does `mntr`. The bytes are those of all parts."""
    folder = new_folder(builds)
    with Server(builds, folder, parts.SHORT) as server, server.client() as it:
        it.create("/a")
        for _ in range(30):
            it.set("/a", b"x" * 60000)
        want(until(lambda: parts.TOLD.search(server.said())), server.said())
        before, after = map(int, parts.TOLD.search(server.said()).groups())
        want(1 << 21 < before and 80000 < after < 100000, f"{before} bytes, then {after}")
        found = pairs(told(server, "mntr"), "\t")
        want_same(found["zk_compacted_journal_bytes"], str(after), "after the compaction")
        size = sum(os.path.getsize(f"{folder}/{name}") for name, _ in parts.chain(folder))
        want_same(found["zk_journal_bytes"], str(size), "the bytes")


def with_room(descriptors):
    """Lets this process, where other tests run, too, have so many descriptors."""
    soft, hard = resource.getrlimit(resource.RLIMIT_NOFILE)
    if hard != resource.RLIM_INFINITY and hard < descriptors:
        raise Skipped(f"{hard} descriptors are all that a process here may have")
    resource.setrlimit(resource.RLIMIT_NOFILE, (max(soft, descriptors), hard))


def back(server, clients):
    """Takes the sessions up, all at once; the seconds of it."""
    began, wires = time.monotonic(), [Wire(server.address) for _ in clients]
    for it, wire in zip(clients, wires):
        wire.send(greeting(session=it.session, password=it.password, seen=it.zxid))
    found = [wire.greeted().session for wire in wires]
    want_same(found, [it.session for it in clients], "each has its session")
    return wires, time.monotonic() - began


def fleet(builds):
    """1,000 clients come back at once: who closed, and who vanished without a close."""
    with_room(4 * FLEET)
    with Server(builds) as server:
        clients = [server.client() for _ in range(FLEET)]
        vanished, took = back(server, clients)
        want(took < 5, f"{took:.1f} s after they vanished")
        for it in (*clients, *vanished):
            it.drop()
        closed, took = back(server, clients)
        want(took < 5, f"{took:.1f} s after they closed")
        for it in closed:
            it.drop()


def crowd(builds):
    """10,000 connections. One more is closed at once, and one that ends leaves a place."""
    with_room(MOST + 4 * FLEET)
    with Server(builds) as server:
        clients = [server.client() for _ in range(FLEET)]
        silent = [socket.create_connection(server.address) for _ in range(MOST - FLEET)]
        for it in clients:
            it.post(CREATE, create_body("/n-", kind=SEQUENTIAL))
        want_same(len({it.next().body for it in clients}), FLEET, "each is answered")
        for _ in range(3):
            with Wire(server.address) as wire:
                want(wire.is_ended(), "one more is closed at once")
        want_same(server.said().count("is refused: 10000 are"), 1, "one line in a minute")
        silent.pop().close()
        # (the server closes the former connection of each, and no client closes its end)
        for it in clients[:20]:
            want(until(lambda it=it: is_back(server, it), 5), "who has been sent an end makes room")
        for it in silent:
            it.close()
        for it in clients:
            it.drop()
        want(until(server.serves), "all places are free again")


def is_back(server, client):
    """Whether its session is taken up, on a connection that stays."""
    wire = Wire(server.address)
    try:
        client.again = wire
        return wire.greet(session=client.session, password=client.password).session != 0
    except Ended:
        return False


EACH = (monitors, stalls, compacted, fleet, crowd)
