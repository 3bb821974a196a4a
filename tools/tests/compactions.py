"""A full disk: a server goes on with the parts that it has, and tries again later."""
import os

import parts
import serving
from report import Test, want, want_same
from servers import PROFILE, Server, ended, new_folder, program, until

# Bytes by which a change makes a journal longer.
MIB, PAD = 1 << 20, b" " * 20000
FILES = ["journal", "secret"]


class Full:
    """A folder of a server on whose disk there is no room for a new file, until there is."""

    def __init__(self, builds, takes_none):
        """Where it takes none a new file can't be made; else it can't be written."""
        self.builds, self.folder, self.number = builds, new_folder(builds), 0
        self.mark = f"{os.path.dirname(self.folder)}/full"
        library = builds.compiled("full.so", ["tools/tests/full.c"], ["-shared", "-fPIC"])
        own = builds.program(serving.PROGRAM)
        text = f'LD_PRELOAD={library} FULL={self.mark} exec {own} "$@"'
        self.program = program(builds, text)
        with open(self.mark, "wb") as file:
            file.write(b"none" * takes_none)

    def server(self):
        words = ("--program", self.program, *parts.SHORT, *PROFILE)
        return Server(self.builds, self.folder, words, sync="batch")

    def set(self, client):
        """Changes the node, and wants that no new part is left which wasn't begun."""
        self.number += 1
        client.set("/a", b"%d" % self.number + PAD)
        want("journal.new" not in os.listdir(self.folder), f"after {self.number} changes")

    def grow(self, client, size):
        """Changes the node until it has written so many bytes."""
        for _ in range(size // len(PAD)):
            self.set(client)

    def wants_all(self, client):
        data, stat = client.get("/a")
        got = data, stat.version
        want_same(got, (b"%d" % self.number + PAD, self.number), "what was acknowledged")


def goes_on(builds, takes_none):
    """A full disk puts parts, or compactions, off until it has room. No change is lost."""
    full = Full(builds, takes_none)
    server = full.server()
    it = server.client()
    it.create("/a")
    full.grow(it, 3 * MIB)
    count, failed = parts.parts_of(full.folder), f"{parts.NOT_TOLD}status 4\n"
    # (a part can be begun where a few bytes can be written)
    want(count == 1 if takes_none else count > 3, f"{count} parts")
    want(takes_none or until(lambda: failed in server.said()), server.said())
    full.wants_all(it)
    server.kill()
    server = full.server()
    it = server.client()
    full.wants_all(it)
    full.grow(it, MIB)
    os.remove(full.mark)
    full.grow(it, 3 * MIB)
    want(until(lambda: parts.TOLD.search(server.said())), server.said())
    want(until(lambda: parts.parts_of(full.folder) == 2), f"{os.listdir(full.folder)}")
    full.set(it)
    server.kill(of_child=True)
    with full.server() as server, server.client() as it:
        full.wants_all(it)
        full.set(it)


def at_rest(builds):
    """`compact` on a full disk reports it, and leaves the journal as it was."""
    full, size = Full(builds, False), lambda: os.path.getsize(f"{full.folder}/journal")
    with full.server() as server, server.client() as it:
        it.create("/a")
        full.grow(it, MIB // 4)
    words, before = [full.program, full.folder, "compact", "1"], size()
    want_same(ended(words), (4, "", "zk: data: the disk failed\n"), "compact")
    want_same((sorted(os.listdir(full.folder)), size()), (FILES, before), "the folder")
    os.remove(full.mark)
    want_same(ended(words)[::2], (0, ""), "compact with room")
    with full.server() as server, server.client() as it:
        full.wants_all(it)
    want(size() < MIB // 8, f"{size()} bytes after a compaction")


def tests(builds):
    made = Test("folder: a full disk: a new part that can't be begun", 12,
                lambda _: goes_on(builds, True))
    written = Test("folder: a full disk: a compaction that can't be written", 12,
                   lambda _: goes_on(builds, False))
    return [made, written, Test("folder: a full disk at rest", 6, lambda _: at_rest(builds))]
