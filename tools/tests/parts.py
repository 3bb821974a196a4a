"""The parts of a folder's journal: a server begins them, and a process beside compacts all but one.

The tree is the same over all of that, and over kills at each call.
"""
import contextlib
import glob
import os
import re
import signal

import serving
from mending import SYNCS, bytes_of, do, locked, made, write
from report import Test, want, want_same
from servers import PROFILE, Server, new_folder, program, until
from wire import Ended

# A journal that is compacted as soon as it may be, and bytes by which a change makes it longer.
SHORT, PAD = ("--journal", "1"), b" " * 60000
HEADING, BLOCKS, MOST_CALLS = re.compile(rb"after (\d{10})\n"), 20, 100
TOLD = re.compile(r"zk: the journal was compacted: (\d+) bytes before, (\d+) after, ")
NOT_TOLD = "zk: the journal isn't compacted: "


def chain(folder):
    """The names of a folder's parts, the first one first, and the bytes of each."""
    found, name = [], "journal"
    while name:
        held = bytes_of(f"{folder}/{name}")
        found.insert(0, (name, held))
        after = HEADING.match(held)
        name = f"journal.{int(after[1])}" if after else None
    return found


def parts_of(folder):
    """How many parts there are, also while a process changes them."""
    while True:
        with contextlib.suppress(FileNotFoundError):
            return len(chain(folder))


def content(folder):
    """The bytes that the parts hold together."""
    held = [HEADING.sub(b"", it, 1) if HEADING.match(it) else it for _, it in chain(folder)]
    return b"".join(it[:-1] for it in held[:-1]) + held[-1]


def put(folder, held, places):
    """Writes the bytes of a journal, in parts that begin at these places."""
    for it in glob.glob(f"{folder}/journal*"):
        os.remove(it)
    ends = [*places, len(held)]
    for number, (at, end) in enumerate(zip([0, *places], ends)):
        heading = b"after %010d\n" % number if number else b""
        name, last = ("journal", b"") if end == len(held) else (f"journal.{number + 1}", b"\0")
        write(f"{folder}/{name}", heading + held[at:end] + last)


def files_of(folder):
    return sorted(os.listdir(folder))


def reads(builds):
    """A folder in parts is that of one file. One that lacks a part is refused, and untouched."""
    folder, held, found = made(builds, BLOCKS)
    tasks = "export", "stat"
    whole = [do(builds, folder, it) for it in tasks]
    for places in ([found[3]], [found[3], found[9]], found[1:], [found[5], len(held) - 1]):
        put(folder, held, places)
        want_same(content(folder), held, f"the parts at {places}")
        want_same([do(builds, folder, it) for it in tasks], whole, f"parts at {places}")
    for name, text in (("journal.1", None), ("journal.2", b"after 0000000002\n" + held)):
        put(folder, held, [found[3], found[9]])
        os.remove(f"{folder}/{name}")
        if text:
            write(f"{folder}/{name}", text)
        before = {it: bytes_of(f"{folder}/{it}") for it in files_of(folder)}
        for task in ("serve", "compact", "beginning", *tasks):
            said = "zk: data: a part of the journal is missing\n"
            want_same(do(builds, folder, task), (3, "", said), f"{task} without {name}")
        same = {it: bytes_of(f"{folder}/{it}") for it in files_of(folder)}
        want_same(same, before, "the files")
    put(folder, held, [found[3], found[9]])
    with Server(builds, folder, PROFILE) as server, server.client() as it:
        it.create("/more")
    want_same(content(folder)[: len(held) - 1], held[:-1], "it goes on in its last part")
    want_same((do(builds, folder, "compact")[0], files_of(folder)),
              (0, ["journal", "secret"]), "what compact leaves")
    want("/more" in do(builds, folder, "export")[1], "all is there")
    put(folder, held, [found[3], found[9]])
    with Server(builds, folder):
        want_same(files_of(folder), ["journal", "secret"], "what a start with other limits leaves")
    want_same(do(builds, folder, "export"), whole[0], "the tree is the same")


def beginning(builds):
    """The parts before the last one are compacted, also amid kills at any call and failed syncs."""
    folder, held, found = made(builds, BLOCKS)
    whole, places = do(builds, folder, "export"), [found[5], found[12]]
    for before in ([], places[:1]):
        put(folder, held, before)
        want_same(do(builds, folder, "beginning"), (0, "", ""), "nothing is to be done")
        want_same(content(folder), held, "nothing is done")
    library, faults = builds.compiled("syncs.so", *SYNCS), f"{folder}.faults"
    for stops in ("SENT=9", f"FAULTS={faults}"):
        for calls in range(MOST_CALLS):
            put(folder, held, places)
            write(faults, b"%d" % calls)
            wrap = "env", f"LD_PRELOAD={library}", stops, f"AT={calls}"
            with locked(f"{folder}/journal"):
                got = do(builds, folder, "beginning", wrap=wrap)
            want_same(do(builds, folder, "export"), whole, f"the tree after {calls} calls, {got}")
            if not got[0]:
                break
            want(got[0] in (-9, 4), f"{got}")
            want_same(do(builds, folder)[0], 0, f"the next start after {calls} calls")
            want_same(do(builds, folder, "export"), whole, f"the tree after {calls} calls")
        want(re.fullmatch(r"\d+ bytes, before \d+\n", got[1]) and 4 < calls, f"{calls}, {got}")
        want_same(files_of(folder), ["journal", "journal.2", "secret"], "one part before the last")


def freed(builds):
    """What a compaction replaces is freed in steps that are synced, but not under another name."""
    folder, library = new_folder(builds), builds.compiled("syncs.so", *SYNCS)
    with Server(builds, folder) as server, server.client() as it:
        it.create("/a")
        for _ in range(5 * BLOCKS):
            it.set("/a", PAD)
    held, other, noted = bytes_of(f"{folder}/journal"), f"{folder}.other", f"{folder}.noted"
    places = [held.index(b"\0\1", len(held) * it // 5) + 1 for it in (2, 4)]
    for kept, cuts in ((None, b"(co)+cu(co)+c"), ("journal.2", b"u(co)+c"), ("journal.1", b"(co)+cu")):
        put(folder, held, places)
        if kept:
            os.link(f"{folder}/{kept}", other)
            before = bytes_of(other)
        wrap = "env", f"LD_PRELOAD={library}", f"NOTED={noted}"
        with locked(f"{folder}/journal"):
            want_same(do(builds, folder, "beginning", wrap=wrap)[0], 0, "beginning")
        want(re.search(b"[wso]" + cuts + b"r+$", bytes_of(noted)), f"{bytes_of(noted)}")
        os.remove(noted)
        if kept:
            want_same(bytes_of(other), before, "what another name holds")
            os.remove(other)


def begun(builds):
    """A server is killed at each call by which it begins a part. No change is lost."""
    library = builds.compiled("syncs.so", *SYNCS)
    for calls in range(12):
        text = f'LD_PRELOAD={library} FROM=link AT={calls} SENT=9 exec ' \
               f'{builds.program(serving.PROGRAM)} "$@"'
        folder, words = new_folder(builds), ("--program", program(builds, text), *SHORT)
        server = Server(builds, folder, words, sync="batch")
        it, number = server.client(), 0
        it.create("/a")
        with contextlib.suppress(Ended):
            for number in range(BLOCKS):
                it.set("/a", b"%d" % number + PAD)
            want(False, f"it isn't killed at call {calls}")
        server.stop(0, 1, "zk: zk_serve was ended by signal 9\n")
        with Server(builds, folder) as server, server.client() as it:
            data, stat = it.get("/a")
            same = number <= stat.version <= number + 1 and int(data) == stat.version - 1
            want(same, f"{stat.version} sets, {number} acknowledged, killed at call {calls}")


def is_stopped(processes):
    """Whether there is one that a signal has stopped."""
    for it in processes:
        with contextlib.suppress(OSError), open(f"/proc/{it}/stat", "rb") as file:
            return file.read().rpartition(b")")[2].split()[0] == b"T"
    return False


class Beside:
    """A server whose compactions stop at a call, while a file is there."""

    def __init__(self, builds):
        self.builds, self.folder, self.number = builds, new_folder(builds), 0
        self.mark = f"{os.path.dirname(self.folder)}/stopped"
        library, own = builds.compiled("syncs.so", *SYNCS), builds.program(serving.PROGRAM)
        stopped = f"LD_PRELOAD={library} AT=8 SENT={int(signal.SIGSTOP)}"
        text = f'[ "$2" = beginning ] && [ -e {self.mark} ] && export {stopped}\nexec {own} "$@"'
        self.words = ("--program", program(builds, text), *SHORT, *PROFILE)

    def server(self):
        return Server(self.builds, self.folder, self.words, sync="batch")

    def grow(self, client, holds):
        """Changes the node until that holds."""
        while not holds():
            self.number += 1
            client.set("/a", b"%d" % self.number + PAD)
            want(self.number < 1000, f"{files_of(self.folder)}")

    def stop_one(self, server, client):
        """Changes the node until a compaction is stopped, and a part is begun. Its process."""
        write(self.mark, b"")
        self.grow(client, lambda: is_stopped(server.all_below()[1:]))
        os.remove(self.mark)
        parts = parts_of(self.folder)
        self.grow(client, lambda: parts_of(self.folder) > parts)
        return server.all_below()[1]

    def wants_all(self, client):
        data, stat = client.get("/a")
        want_same((int(data), stat.version), (self.number, self.number), "what was acknowledged")


def beside(builds):
    """A server goes on while its parts are compacted. Either of the two is killed meanwhile."""
    it = Beside(builds)
    with it.server() as server, server.client() as client:
        client.create("/a", b"0")
        it.grow(client, lambda: TOLD.search(server.said()))
        # (a part may have been begun meanwhile)
        want(until(lambda: parts_of(it.folder) == 2 and len(server.all_below()) == 1), "two parts")
        want_same(len(files_of(it.folder)), 3, f"{files_of(it.folder)}")
        os.kill(it.stop_one(server, client), signal.SIGKILL)
        want(until(lambda: f"{NOT_TOLD}signal 9\n" in server.said()), server.said())
        want(until(lambda: parts_of(it.folder) == 2), f"the next one: {files_of(it.folder)}")
        it.stop_one(server, client)
        it.wants_all(client)
    want_same(do(builds, it.folder, "compact")[0], 0, "no one has the folder once it has ended")
    want_same(parts_of(it.folder), 1, "one whole part")
    for of_child in (False, True):
        server = it.server()
        client = server.client()
        it.wants_all(client)
        want("journal.begin" not in files_of(it.folder), "what was unfinished is removed")
        it.stop_one(server, client)
        server.kill(of_child)
    with it.server() as server, server.client() as client:
        it.wants_all(client)
        it.grow(client, lambda: TOLD.search(server.said()))


def tests(builds):
    each = reads, beginning, freed, begun, beside
    return [Test(f"folder: parts: {it.__name__}", 15, lambda _, it=it: it(builds)) for it in each]
