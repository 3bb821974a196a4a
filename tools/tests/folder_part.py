"""The folder of a server: what was acknowledged is kept, over kills, full disks and restarts."""
import base64
import os
import random
import re
import shutil
import signal
import tempfile
import time

import compactions
import copying
import mending
import parts
import upgrades
from copying import Writer
from frames import *
from report import Failed, Test, want, want_same
from servers import Server, ended, new_folder, program, serving, until, words_of
from wire import NO_SESSION, Ended, greeted, refused

LIVES = 10
# A journal that is shortened as soon as it may be, and bytes by which a change makes it longer.
SHORT, PAD = ("--journal", "1"), b" " * 20000
LARGE, ROOT = bytes(range(256)) * 250, base64.b64encode(b"root").decode()
TASKS, FILES = ("compact", "export", "stat"), ["journal", "secret"]
# A command after which a file has at most 65,536 bytes.
LIMITED = ("sh", "-c", 'trap "" XFSZ; ulimit -f 128; exec "$0" "$@"')


def live(builds, folder, clients, chance, words):
    """A life that is killed beneath load. Returns what wrote."""
    server, found = Server(builds, folder, words, sync="batch"), []
    for number, many in enumerate((1, 1, 4, 30)):
        former = clients.get(number)
        it = clients[number] = server.client(of=former)
        if former:
            owner = it.exists(f"/e{number}").owner
            want_same((it.session, owner), (former.session,) * 2, "a session and its node")
        else:
            it.create(f"/w{number}", b"0")
            it.create(f"/e{number}", kind=EPHEMERAL)
        found.append(Writer(it, f"/w{number}", many, PAD if words and many > 1 else b""))
    time.sleep(chance.random() * 0.3)
    of_child = chance.random() < 0.3
    want_same(server.kill(of_child), 1 if of_child else -signal.SIGKILL, "the status of the host")
    for it in found:
        it.join(60)
        want(not it.is_alive() and it.codes <= {OK}, f"{it.path}: {it.codes}")
    return found


def kills(builds, seed):
    """Lives that end by SIGKILL, of the host or of what keeps its folder.

    After each all that was acknowledged is there, in its order, and nothing twice. The journals of
    odd seeds are shortened all the time.
    """
    chance, folder, clients, words = random.Random(seed), new_folder(builds), {}, SHORT * (seed % 2)
    for life in range(LIVES):
        writers = live(builds, folder, clients, chance, words)
        with Server(builds, folder) as server, server.client() as it:
            for one in writers:
                data, stat = it.get(one.path)
                holds = one.answered <= int(data) == stat.version <= one.sent
                want(holds, f"life {life}: {int(data)} of {one.answered} to {one.sent}, {stat}")
    want(sum(it.answered for it in writers) > LIVES, "something was acknowledged")


def seen(client):
    """What a client sees, but for the times: those go on from when the server was started."""
    stats = [(data, *stat[:2], *stat[4:]) for data, stat in map(client.get, ("/a", "/a/e"))]
    return client.ls("/"), client.ls("/a"), stats


def restart(builds):
    """Nodes, sessions and their nodes live on. A session that was closed stays closed."""
    folder = new_folder(builds)
    server = Server(builds, folder, tick=200)
    it, other, short = server.client(), server.client(), server.client(timeout=1000)
    for path, kind in (("/a", 0), ("/a/e", EPHEMERAL), ("/a/s-", SEQUENTIAL), ("/gone", 0)):
        it.create(path, b"data", kind)
    it.set("/a", b"y")
    it.delete("/gone")
    other.create("/o", kind=EPHEMERAL)
    short.create("/short", kind=EPHEMERAL)
    before, zxid = seen(it), it.zxid
    server.kill()
    time.sleep(2)
    with Server(builds, folder, tick=200) as server:
        for password in (bytes([it.password[0] ^ 1]) + it.password[1:], bytes(16), other.password):
            want_same(greeted(server.address, it, password), NO_SESSION, "another password")
        again = server.client(of=it)
        want_same((again.session, again.password), (it.session, it.password), "the session")
        want_same(seen(again), before, "all that was, and no time went by")
        want_same(again.create("/a/t-", kind=SEQUENTIAL), "/a/t-0000000001", "the next name")
        want(again.exists("/a/t-0000000001").czxid > zxid, "zxids go on")
        want(until(lambda: refused(again.exists, "/short") == NO_NODE), "who doesn't come back")
        want_same(greeted(server.address, short, short.password), NO_SESSION, "isn't taken up")
        again.call(CLOSE, b"")
    with Server(builds, folder) as server, server.client() as third:
        want_same(refused(third.get, "/a/e"), NO_NODE, "a node of a session that was closed")
        want_same(third.exists("/o").owner, other.session, "the other session lives")
        want_same(greeted(server.address, it, it.password), NO_SESSION, "a closed one stays closed")
        want_same(greeted(server.address, other, other.password)[1], other.session, "the other one")


def at_rest(builds, folder, task, servers=1):
    """How what does something with a folder ended: a server that isn't to serve it, or a task."""
    if task == "serve":
        return ended(words_of(builds, folder, "batch"))
    return ended([builds.program(serving.PROGRAM), folder, task, str(servers)])


def secret(builds):
    """A folder's secret is its owner's, and has 32 bytes. Where it is gone passwords are others."""
    folder, name = new_folder(builds), "-"
    with Server(builds, folder) as server:
        it = server.client()
    mode = os.stat(f"{folder}/secret").st_mode & 0o777
    want_same((mode, sorted(os.listdir(folder))), (0o600, FILES), "the files")
    for held in (b"", bytes(31), bytes(33)):
        with open(f"{folder}/secret", "wb") as file:
            file.write(held)
        said = f"zk: data: {folder}/secret: a secret has 32 bytes\n"
        want_same(at_rest(builds, folder, "serve"), (3, "", said), "another length")
    os.remove(f"{folder}/secret")
    with Server(builds, folder) as server:
        want_same(greeted(server.address, it, it.password), NO_SESSION, "another secret")
        wrap = ("sh", "-c", 'cd "$0" && exec "$@"', folder)
        with Server(builds, name, wrap=wrap) as other, other.client() as same:
            want_same(same.session, it.session, "a folder that is named by a dash")
    want_same(sorted(os.listdir(f"{folder}/{name}")), FILES, "its files")


def other_limits(builds):
    """Other limits at a restart. A folder that needs more says of what, and how much."""
    folder, size = new_folder(builds), lambda: os.path.getsize(f"{folder}/journal")
    few = ("--nodes=10", "--sessions=3", "--max-session=30")
    with Server(builds, folder, few) as server, server.client(timeout=10**9) as it:
        for number in range(9):
            it.create(f"/n{number}")
        want_same(refused(it.create, "/n"), SYSTEM, "a node too many")
        want_same(it.timeout, 60000, "the longest timeout")
        for number in range(2):
            server.client()
    for word, needed in (("nodes", 10), ("sessions", 3), ("max-session", 30)):
        given = {"nodes": 10, "sessions": 3, "max-session": 30} | {word: needed - 1}
        words = [f"--{name}={count}" for name, count in given.items()]
        with open(f"{folder}/journal", "rb") as file:
            before = file.read()
        said = f"zk: data: it needs --{word} {needed} or more\n"
        want_same(ended([*words_of(builds, folder, "batch"), *words]), (3, "", said), word)
        with open(f"{folder}/journal", "rb") as file:
            want_same(file.read(), before, f"the file after too few {word}")
    for words, count in ((few, 0), (("--nodes=11", *few[1:]), 1), (few[2:], 5)):
        with Server(builds, folder, words) as server, server.client(of=it) as again:
            want_same(again.session, it.session, "the session lives on")
            for number in range(count):
                again.create(f"/m{number}-{count}")
            found = refused(again.create, "/more")
            want_same(found, None if words == few[2:] else SYSTEM, f"with {words}")
        want_same(at_rest(builds, folder, "compact")[0], 0, "compact")
    want(size() < 10000, f"{size()} bytes")


def shortening(builds):
    """A journal is compacted while a client goes on, and by `compact`. It keeps all it kept."""
    folder, size = new_folder(builds), lambda: len(parts.content(folder)) - 1
    with Server(builds, folder, SHORT) as server, server.client() as it:
        it.create("/a")
        it.create("/a/e", b"mine", EPHEMERAL)
        for number in range(100):
            it.set("/a", b"%d" % number + PAD)
        want(until(lambda: parts.TOLD.search(server.said())), server.said())
        before, after = map(int, parts.TOLD.search(server.said()).groups())
        want(2000000 < before < 2300000 and after < 60000, f"{before} bytes, then {after}")
        before = seen(it)
        for task in TASKS:
            in_use = (3, "", "zk: data: the folder is in use\n")
            want_same(at_rest(builds, folder, task), in_use, f"{task} of a folder in use")
        want_same(at_rest(builds, folder, "beginning"), (0, "", ""), "it is done")
    long, found = size(), at_rest(builds, folder, "compact")
    want_same(found, (0, f"{size()} bytes, before {long}\n", ""), "compact")
    files = sorted(os.listdir(folder))
    want(size() < 60000 and files == FILES, f"{size()}, {files}")
    with Server(builds, folder) as server, server.client(of=it) as again:
        want_same((again.session, seen(again)), (it.session, before), "all that was")


def export(builds):
    """The tree of a folder as a script, which makes the same tree. The numbers of `stat`."""
    folder, large = new_folder(builds), base64.b64encode(LARGE).decode()
    with Server(builds, folder, tick=60000) as server, server.client(timeout=10**6) as it:
        for made in ("/a", b"hi"), ("/a/e", b"mine", EPHEMERAL), ("/a-b", LARGE), ("/a/s-", b"", 2):
            it.create(*made)
        it.call(CREATE_TTL, create_body("/a/t", b"short", TTL, ttl=600000), Reader.named)
        it.call(CONTAINER, create_body("/a/c", kind=OF_CHILDREN), Reader.named)
        it.set("/", b"root")
    lines = [f"1 set / any {ROOT}", "1 create /a p aGk=", "1 create /a/c c -",
             "1 create /a/s-0000000000 p -", "1 create /a/t t:10 c2hvcnQ=",
             f"1 create /a-b p {large}"]
    for _ in range(2):
        status, out, said = at_rest(builds, folder, "export")
        want_same((status, out.splitlines()), (0, lines), "an export")
        want(f"(the last is {it.zxid})" in said and said.count("left out: 1\n") == 2, said)
        stat = dict(it.split(": ") for it in at_rest(builds, folder, "stat")[1].splitlines())
        wanted = {"nodes": 7, "bytes of data": 15 + len(LARGE), "sessions": 1, "changes": it.zxid,
                  "bytes of the journal": os.path.getsize(f"{folder}/journal")}
        want_same({key: int(stat[key]) for key in wanted}, wanted, "stat")
        want_same(at_rest(builds, folder, "compact")[0], 0, "compact")
    lines += ["1 get /", "1 get /a-b", "1 ls /", "1 ls /a", "1 exists /a/e", ""]
    out = ended([builds.program("zk"), "script"], input="\n".join(lines))[1]
    want_same([it.split(" stat ")[0] for it in out.splitlines()][1:], [
        "ok /a", "ok /a/c", "ok /a/s-0000000000", "ok /a/t", "ok /a-b", f"ok data {ROOT}",
        f"ok data {large}", "ok 2 a a-b", "ok 3 c s-0000000000 t", "no NoNode",
    ], "an export that is played")


def not_opened(builds):
    """Folders in use, that aren't there, or are damaged: refused with a line, and untouched."""
    folder = new_folder(builds)
    for task in TASKS:
        want_same(at_rest(builds, folder, task), (3, "", "zk: data: there is no journal\n"), task)
    want(not os.path.exists(folder), "nothing is made")
    with Server(builds, folder) as server, server.client() as it, open(f"{folder}-file", "wb"):
        for name, said in (
            (folder, "the folder is in use"), (f"{folder}/no/no", "the folder above is missing"),
            (f"{folder}-file", "not a folder with a regular file"),
        ):
            want_same(at_rest(builds, name, "serve"), (3, "", f"zk: data: {said}\n"), name)
        for number in range(3):
            it.create(f"/n{number}", b"some data")
    with open(f"{folder}/journal", "rb") as file:
        whole = file.read()
    for held, said in (
        (b"hello, world\n", "not a journal"), (whole[:33] + b"x" + whole[34:], "damaged at byte 0"),
        (whole[:23] + b"x" + whole[24:], "a journal of something else"),
        (whole[:25] + b"x" + whole[26:], "damaged at byte 0"),
        (whole[:32] + b"2" + whole[33:], "damaged at byte 34"),
        (whole[:19] + b"\x02" + whole[20:], "a folder of an older version"),
        (whole[:19] + b"\x04" + whole[20:], "a journal of version 4"), (whole[:-20], "damaged at"),
        (whole[:-20] + bytes([whole[-20] ^ 4]) + whole[-19:], "damaged at byte "),
    ):
        with open(f"{folder}/journal", "wb") as file:
            file.write(held)
        for it in ("serve", *TASKS):
            status, out, found = at_rest(builds, folder, it)
            want((status, out, found.count("\n")) == (3, "", 1), f"{said}: {status} {out} {found}")
            want(found.startswith(f"zk: data: {said}"), f"{said}: {found}")
        with open(f"{folder}/journal", "rb") as file:
            want_same(file.read(), held, f"the file after {said}")


def fill(builds, folder, wrap=()):
    """Sets a node until the disk fails. What was acknowledged is kept."""
    server, elsewhere = Server(builds, folder, (), wrap, sync="batch"), new_folder(builds)
    it, answered = server.client(), 0
    it.create("/c", b"x" * 1000)
    try:
        for answered in range(1000):
            it.set("/c", b"%d " % (answered + 1) + b"x" * 1000)
        raise Failed("it never was full")
    except Ended:
        server.stop(0, 4, "zk: data: the disk failed\n")
    shutil.copytree(folder, elsewhere)
    with Server(builds, elsewhere) as server, server.client() as it:
        number = int(it.get("/c")[0].split()[0])
        want(0 < answered <= number <= answered + 1, f"{number} kept, {answered} acknowledged")


def full_disk(builds):
    """A disk that is full, which root alone can mount; else a limit on the size of a file."""
    disk = tempfile.mkdtemp(dir=builds.room)
    if ended(["mount", "-t", "tmpfs", "-o", "size=65536", "jellqupas-test", disk])[0]:
        return fill(builds, new_folder(builds), LIMITED)
    try:
        fill(builds, f"{disk}/data")
    finally:
        ended(["umount", "-l", disk])


def synced(builds):
    """Each write is synced before the next and before a reply. With `--sync never` none is."""
    library = builds.compiled("syncs.so", ["tools/tests/syncs.c"], ["-shared", "-fPIC"])
    for mode, calls in (("batch", "(?:(?:ws)*r)+"), ("never", "[wr]+")):
        folder, own = new_folder(builds), builds.program(serving.PROGRAM)
        text = f"LD_PRELOAD={library} NOTED={folder}/noted exec {own} \"$@\""
        given = ("--program", program(builds, text))
        with Server(builds, folder, given, sync=mode) as server, server.client() as it:
            with open(f"{folder}/noted", encoding="ascii") as file:
                file.read()
                for number in range(5):
                    it.create(f"/n{number}")
                notes = file.read()
        is_so = re.fullmatch(calls, notes) and notes.count("w") >= 5
        want(is_so, f"five calls at {mode}: {notes}")


def tests(builds):
    each = restart, secret, other_limits, shortening, export, not_opened, full_disk, synced
    found = [Test(f"folder: {it.__name__}", 8, lambda _, it=it: it(builds)) for it in each]
    for it in (mending, compactions, parts, copying, upgrades):
        found += it.tests(builds)
    return found + [Test(f"folder: {LIVES} kills, {it}", 30, lambda _, it=it: kills(builds, it))
                    for it in range(4)]
