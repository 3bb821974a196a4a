"""A folder of an older version is refused, and says how it is upgraded. Then it is as it was."""
import base64
import os

import serving
import sources
from mending import bytes_of, locked
from report import Test, want, want_same
from servers import PROFILE, Server, ended, new_folder, words_of
from wire import NO_SESSION, greeted

# A journal of an earlier version, with 3 in its head: a session, its password, and a node.
OF_BEFORE = ("AWplbGxxdXBhcyBqb3VybmFsIAEDICAgICAgICAgICAgAAEwNjdkMGI5ZkFBRUNBd1FGQmdjSUNRb0xEQTB"
             "PRHhBPQpBUVFBQUFBQUFBQUFCZz09CgABM2Q2YjA1YjNBUUFBQUFBQ0wyRUFBQUFBQW1ocAoAAA==")
# A journal of an older version: a snapshot with two nodes and a session, and changes after it.
OF_OLDER = (
    "AWplbGxxdXBhcyBqb3VybmFsIAIBdHJlZSBvZiB6ayAgAAFkZTQxODZhMkJRQUFBQ2dBQUFBa0FBQUFBQUFBQUFBQUFB"
    "QUFBQUFBQVFBQUFBQUFBQUFFQUFBQUFRQUFBQUlBQUFBQQpCUUFBQUYwQUFBQlpBQUFBQVM4QUFBQUFBQUFBQUFBQUFB"
    "QUFBQUFBQUFBQUFBQUFBQUlBQUFBQUFBQUFBQUFBQUFBQUFBQUFBQUFBQUFBQUFBQUFBQUFBQUFBQUFRQUFBQUFBQUFB"
    "QUFBQUFBQUFBQUFBQUFBQUFBQUFBQUFBQUFBQT0KQlFBQUFCMEFBQUFaQUFBQUFBQUFBQUVBQUFBQUFBQUFBQlFBQUFB"
    "QUFBQUFGUT09CkJRQUFBR0FBQUFCY0FBQUFBaTloQUFBQUFBQUFBQUlBQUFBQUFBQUFCQUFBQUFBQUFBQURBQUFBQUFB"
    "QUFBRUFBQUFBQUFBQUFRQUFBQUFBQUFBQkFBQUFBQUFBQUFFQUFBQUFBQUFBQUFBQUFBQUFBQUFBQUFBQUFBQUFBQUFB"
    "QUFBQ2FHaz0KQlFBQUFHUUFBQUJnQUFBQUJDOWhMMlVBQUFBQUFBQUFBd0FBQUFBQUFBQURBQUFBQUFBQUFBTUFBQUFB"
    "QUFBQUFRQUFBQUFBQUFBQkFBQUFBQUFBQUFBQUFBQUFBQUFBQUFBQUFBQUFBQUFCQUFBQUFBQUFBQUFBQUFBQUFBQUFB"
    "QUFBQUFSdGFXNWwKAAFiMzZmOGMyNEFRVUFBQUFBQUFBQUFRPT0KQVFjPQoAATJiMDA5MDViQVFRQUFBQUFBQUFBRkE9"
    "PQoAATQxMjU5NjFiQVFJQUFBQUNMMkVBQUFBQUFtaHYKAAFiYmZhOWU0ZUFRQUFBQUFDTDJJQUFBQUFCbUpsYUdsdVpB"
    "PT0KAAA="
)


def older(builds, held, servers=1):
    """A folder with this older journal: it is refused, and then upgraded. The new journal."""
    folder = new_folder(builds)
    os.mkdir(folder)
    with open(f"{folder}/journal", "wb") as file:
        file.write(held)
    said = "zk: data: a folder of an older version: ./zk upgrade FOLDER\n"
    want_same(ended(words_of(builds, folder, "batch")), (3, "", said), "serve")
    for task in ("compact", "beginning", "export", "stat"):
        found = ended([builds.program(serving.PROGRAM), folder, task, str(servers)])
        # (one part alone has nothing before it)
        want_same(found, (0, "", "") if task == "beginning" else (3, "", said), task)
    upgrade = lambda: ended([f"{sources.ROOT}/zk", "upgrade", folder])
    with locked(f"{folder}/journal"):
        want_same(upgrade(), (3, "", "zk: data: the folder is in use\n"), "a folder in use")
    status, out, said = upgrade()
    want((status, out.count("\n"), said) == (0, 1, ""), f"{status} {out} {said}")
    want_same(bytes_of(f"{folder}/journal.old"), held, "the old file")
    want_same(bytes_of(f"{folder}/journal")[19:21], bytes([3, servers]), "the head")
    said = "zk: data: it is of this version already\n"
    want_same(upgrade(), (3, "", said), "one of this version")
    return folder


def of_passwords(builds):
    """Version 1, with the password of its one session: that opens another one."""
    folder = older(builds, base64.b64decode(OF_BEFORE), 3)
    for has_note in (True, False):
        with Server(builds, folder, PROFILE) as server, server.client() as it:
            want_same(it.get("/a")[0], b"hi", "its node")
            note = "zk: data: clients of before open new sessions\n"
            want_same(note in server.said(), has_note, "the note")
            it.session = 1
            want_same(greeted(server.address, it, bytes(range(1, 17))), NO_SESSION, "its session")
        ended([builds.program(serving.PROGRAM), folder, "compact", "3"])


def of_rows(builds):
    """Version 2, with the rows of a snapshot that have no limits."""
    folder = older(builds, base64.b64decode(OF_OLDER))
    with Server(builds, folder) as server, server.client() as it:
        found = [it.get(path)[0] for path in ("/a", "/b", "/a/e")]
        want_same(found, [b"ho", b"behind", b"mine"], "its nodes")
        want_same((it.exists("/a").version, it.exists("/a").aversion), (2, 0), "versions")
        want_same(it.exists("/a/e").owner, 1, "its session")


def of_heads(builds):
    """Version 2 of this form of rows: all but the head is as it was."""
    made = new_folder(builds)
    with Server(builds, made) as server, server.client() as it:
        it.create("/a", b"hi")
    held = bytes_of(f"{made}/journal")
    want_same(held[19:33], b"\3\1tree00000001", "a head of now")
    folder = older(builds, held[:19] + b"\2\1tree of zk 2" + held[33:])
    want_same(bytes_of(f"{folder}/journal"), held, "the new file")


def tests(builds):
    return [Test(f"folder: upgrade {it.__name__}", 8, lambda _, it=it: it(builds))
            for it in (of_passwords, of_rows, of_heads)]
