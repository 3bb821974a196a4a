"""Copies of a folder in use, for `stat` and `export`: amid writes, new parts and compactions."""
import base64
import os
import threading

import parts
from frames import *
from mending import do, locked, made, write
from report import Test, want, want_same
from servers import Server, ended, new_folder, until, words_of
from wire import Ended


class Writer(threading.Thread):
    """Sets a node of its own to 1, 2, 3, .., many at once, until the server ends."""

    def __init__(self, client, path, many, pad):
        super().__init__(daemon=True)
        self.client, self.path, self.many, self.pad, self.codes = client, path, many, pad, set()
        self.sent = self.answered = int(client.get(path)[0])
        self.start()

    def run(self):
        try:
            while True:
                numbers = range(self.sent + 1, self.sent + 1 + self.many)
                self.sent = numbers[-1]
                for it in numbers:
                    self.client.post(SET, set_body(self.path, b"%d" % it + self.pad), it)
                for it in numbers:
                    self.codes.add(self.client.answer(it).code)
                    self.answered = it
        except Ended:
            self.client.drop()


def copies(builds):
    """While clients write, `stat` and `export` read a copy, which has all that was acknowledged."""
    folder, spare, (host, of) = new_folder(builds), new_folder(builds), words_of(builds)[:2]
    words, most = ["env", f"TMPDIR={spare}", host], 0
    os.mkdir(spare)
    with Server(builds, folder, parts.SHORT, sync="batch") as server, server.client() as it:
        it.create("/a", b"0")
        writer = Writer(server.client(), "/a", 4, b" " * 9000)
        for _ in range(20):
            answered, most = writer.answered, max(most, parts.parts_of(folder))
            status, out, said = ended([*words, "export", of, "--data", folder])
            want((status, "of a copy" in said) == (0, True), f"{status} {out} {said}")
            found = int(base64.b64decode(out.split()[-1]))
            want(answered <= found, f"{found} copied, {answered} acknowledged")
            status, out, said = ended([*words, "stat", of, "--data", folder])
            want_same(status, 0, f"stat: {said}")
        until(lambda: writer.answered > answered)
    want(most > 1, f"{most} parts at most")
    with Server(builds, folder) as server, server.client() as it:
        it.create("/b", b"so that the last part has a block")
    with locked(f"{folder}/journal") as file:
        for missing in range(1, 13):
            # (the last block is being written, and its commit byte was set since it was looked at)
            file.truncate(os.path.getsize(f"{folder}/journal") - 1)
            found = ended([*words, "stat", of, "--data", folder])
            want_same(found[0], 0, f"a block without its last {missing} bytes: {found}")
    want_same(os.listdir(spare), [], "what is left")


def renewed(builds):
    """A compaction amid a copy, of the only part, and of those before the last one."""
    folder, held, found = made(builds, 20)
    whole, (host, of) = do(builds, folder, "export")[1], words_of(builds)[:2]
    library = builds.compiled("renewed.so", ["tools/tests/renewed.c"], ["-shared", "-fPIC"])
    words = [host, "export", of, "--data", folder]
    for places, name, end in (([], "journal", len(held)), (found[3:11:4], "journal.2", found[7])):
        parts.put(folder, held, places)
        write(f"{folder}.new", held[:end] + b"\0" * (end < len(held)))
        changes = [f"NEW={folder}.new", f"OLD={folder}/{name}", f"GONE={folder}/journal.1"]
        with locked(f"{folder}/journal"), locked(f"{folder}.new"):
            status, out, said = ended([
                "env", f"LD_PRELOAD={library}", "ASAN_OPTIONS=verify_asan_link_order=0", *changes,
                *words])
        want((status, "of a copy" in said, out) == (0, True, whole), f"{status} {out} {said}")
        want(not os.path.exists(f"{folder}.new"), "it was replaced")
        want_same(parts.content(folder), held, "what was copied")
    os.remove(f"{folder}/journal.2")
    with locked(f"{folder}/journal"):
        said = f"zk: data: {folder}/journal.2: No such file or directory\n"
        want_same(ended(words), (3, "", said), "a part that is missing")


def tests(builds):
    return [Test(f"folder: {it.__name__}", 8, lambda _, it=it: it(builds))
            for it in (copies, renewed)]
