"""What an opening of a folder mends, saves and reports: it loses nothing in silence."""
import contextlib
import fcntl
import os
import stat
import subprocess

import serving
from builds import ENVIRONMENT, ended
from report import Test, want, want_same
from servers import PROFILE, Server, new_folder, program
from wire import Ended, until

# (what a server is sent first: a secret, and that there are no logins)
BLOCKS, PAIRS, SECRET = 20, 20, b"s" * 32 + b"\0"
# The words of a server behind its folder: the mode, the journal's, and those of PROFILE.
SERVES = "batch 1 1000 2000 64 9 9 4096 1024 20 1000 64".split()
# What each byte is changed to.
CHANGES = (lambda it: it ^ 1, lambda it: 0, lambda it: 1, lambda it: 255, lambda it: (it + 1) % 256)
ANEW = "zk: data: the disk failed before: the journal is written anew\n"
LEFT_OUT, CUT = "left out", "in journal.cut"


def report_of(held, at, place):
    return (f"zk: data: no commit byte counts {len(held) - at} bytes of the journal from byte {at} "
            f"on: they are {place}\n")


def do(builds, folder, task="serve", servers=1, wrap=()):
    """How a task on a folder ended, or a server that had its secret and no message."""
    words = {"serve": SERVES}.get(task, [task, str(servers)])
    return ended([*wrap, builds.program(serving.PROGRAM), folder, *words], input=SECRET.decode())


def bytes_of(path):
    with open(path, "rb") as file:
        return file.read()


def write(path, held):
    with open(path, "wb") as file:
        file.write(held)


@contextlib.contextmanager
def locked(path):
    """A file with its lock, as a server has it."""
    with open(path, "r+b") as file:
        fcntl.flock(file, fcntl.LOCK_EX)
        yield file
        # (a fork of this process may have it open for a moment)
        fcntl.flock(file, fcntl.LOCK_UN)


def made(builds, blocks):
    """A folder with so many nodes, its journal's bytes, where its blocks are, and what is after."""
    folder, found, at = new_folder(builds), [], 34
    with Server(builds, folder, PROFILE) as server, server.client() as it:
        for number in range(blocks):
            it.create(f"/{number}")
    held = bytes_of(f"{folder}/journal")
    while held[at] == 1:
        found.append(at)
        at = held.index(b"\0", at) + 1
    want_same((len(found) >= blocks, at), (True, len(held) - 1), "the blocks")
    return folder, held, found


def each_byte(builds):
    """Each byte of a journal is changed: it is refused, or reported, or nothing is lost.

    Without `--long` a byte within a text is changed once, and each other one in five ways.
    """
    folder, held, found = made(builds, BLOCKS)
    inside = {it for a, b in zip(found, [*found[1:], len(held) - 1]) for it in range(a + 9, b - 1)}
    whole, reported = do(builds, folder, "export"), 0
    for at, old in enumerate(held):
        once = at in inside and not builds.is_long
        for new in {it(old) for it in (CHANGES[at % 5:][:1] if once else CHANGES)} - {old}:
            write(f"{folder}/journal", held[:at] + bytes([new]) + held[at + 1:])
            got = do(builds, folder, "export")
            is_cut = got[0] == 0 and got[2].startswith(report_of(held, at, LEFT_OUT))
            is_so = is_cut or got == whole or got[:2] == (3, "")
            want(is_so, f"byte {at}, {old} to {new}: {got}")
            reported += is_cut
    want_same(reported, 3 * len(found), "the changes of commit bytes")


def each_block(builds):
    """Each block is taken out, and neighbours change places: the journal is damaged there.

    Where the last one is gone the rest is whole: nothing after it says that it was there.
    """
    folder, held, found = made(builds, BLOCKS)
    ends = [*found[1:], len(held) - 1]
    for at, end in zip(found, ends):
        write(f"{folder}/journal", held[:at] + held[end:])
        status, out, said = do(builds, folder, "export")
        damaged = (3, "", f"zk: data: damaged at byte {at}\n")
        is_seen = (status, out, said) == damaged if end < len(held) - 1 else status == 0
        want(is_seen, f"without the block at {at}: {status} {said}")
    for at, middle, end in zip(found, found[1:], ends[1:]):
        write(f"{folder}/journal", held[:at] + held[middle:end] + held[at:middle] + held[end:])
        damaged = (3, "", f"zk: data: damaged at byte {at}\n")
        want_same(do(builds, folder, "export"), damaged, f"the blocks at {at} and {middle}")


def cut(builds):
    """What an opening cuts off is in a file beside, and reported. If that fails, nothing is cut."""
    folder, held, found = made(builds, 6)
    at, saved = found[3], f"{folder}/journal.cut"
    held = held[:at] + b"\7" + held[at + 1:]
    write(f"{folder}/journal", held)
    for name in ("stat", "export"):
        said = do(builds, folder, name)[2]
        want(said.startswith(report_of(held, at, LEFT_OUT)), f"{name}: {said}")
    os.mkdir(saved)
    for name in ("serve", "compact"):
        want_same(do(builds, folder, name), (4, "", "zk: data: the disk failed\n"), "not saved")
    want_same(bytes_of(f"{folder}/journal"), held, "nothing is cut")
    os.rmdir(saved)
    for name in ("serve", "compact"):
        write(f"{folder}/journal", held)
        write(saved, b"older")
        want_same(do(builds, folder, name)[::2], (0, report_of(held, at, CUT)), "it is reported")
        mode = stat.S_IMODE(os.stat(saved).st_mode)
        want_same((bytes_of(saved), mode), (held[at:], 0o600), "what was cut off")
        want_same(do(builds, folder, name)[::2], (0, ""), "once")
    lines = do(builds, folder, "export")[1].splitlines()
    want_same([it.split()[2] for it in lines], ["/0", "/1"], "the blocks before")
    for name, is_left in (("serve", False), ("compact", False), ("stat", True)):
        write(f"{folder}/journal.new", held[:40])
        want_same(do(builds, folder, name)[::2], (0, ""), name)
        want_same(os.path.exists(f"{folder}/journal.new"), is_left, f"journal.new after {name}")


def pairs(builds):
    """Two starts at once on a folder that isn't there: one finds it in use."""
    pipe, wanted = subprocess.PIPE, [(0, b""), (3, b"zk: data: the folder is in use\n")]
    for _ in range(PAIRS):
        words = [builds.program(serving.PROGRAM), new_folder(builds), *SERVES]
        two = [subprocess.Popen(words, stdin=pipe, stdout=pipe, stderr=pipe, env=ENVIRONMENT)
               for _ in range(2)]
        # (each opens the folder once it has the secret, and has it until its input ends)
        for it in two:
            it.stdin.write(SECRET)
            it.stdin.flush()
        until(lambda: any(it.poll() is not None for it in two), 60)
        said = [it.communicate(timeout=60)[1] for it in two]
        want_same(sorted((it.returncode, text) for it, text in zip(two, said)), wanted, "two starts")


def with_faults(builds, folder):
    """Words before a program whose calls fail as a file says, and that file."""
    library, faults = builds.compiled("syncs.so", *SYNCS), f"{folder}.faults"
    return ("env", f"LD_PRELOAD={library}", f"FAULTS={faults}"), faults


SYNCS = ["tools/tests/syncs.c"], ["-shared", "-fPIC"]


def lines(builds):
    """Each reason why a folder isn't opened has a line of its own."""
    folder, link = made(builds, 2)[0], new_folder(builds)
    wrap, faults = with_faults(builds, folder)
    write(faults, b"flock")
    os.symlink("nothing", link)
    few = ("sh", "-c", 'ulimit -n 4; exec "$0" "$@"')
    for name, before, said in (
        (link, (), "the folder is a link to nothing"),
        (f"{folder}/{'n' * 300}", (), "the name is too long"),
        (folder, few, "no file descriptor is left"),
        (folder, wrap, "the file system has no locks"),
    ):
        want_same(do(builds, name, wrap=before), (3, "", f"zk: data: {said}\n"), said)
    held = bytes_of(f"{folder}/journal")
    for servers, said in ((1, "1 server"), (2, "2 servers")):
        write(f"{folder}/journal", held[:20] + bytes([servers]) + held[21:])
        got = do(builds, folder, "stat", 3)
        want_same(got, (3, "", f"zk: data: a journal for {said}\n"), said)
    write(f"{folder}/journal", held[:21] + b"another one " + held[33:])
    said = "zk: data: a journal of something else\n"
    want_same(do(builds, folder, "stat"), (3, "", said), "another word")


def failed_syncs(builds):
    """Each sync of a compaction fails in turn. The next opening writes the journal anew."""
    folder, held, _ = made(builds, 4)
    wrap, faults = with_faults(builds, folder)
    whole, mark = do(builds, folder, "export"), f"{folder}/journal.failed"
    for syncs in range(20):
        write(f"{folder}/journal", held)
        write(faults, b"%d" % syncs)
        status, _, said = do(builds, folder, "compact", wrap=wrap)
        os.remove(faults)
        if not status:
            break
        want_same((status, said.endswith("the disk failed\n")), (4, True), f"sync {syncs} fails")
        # (the third is that of the folder above)
        is_marked, inode = syncs != 2, os.stat(f"{folder}/journal").st_ino
        want_same(os.path.exists(mark), is_marked, f"the mark after sync {syncs}")
        want_same(do(builds, folder, "export"), whole, "nothing is lost")
        want_same(do(builds, folder)[::2], (0, ANEW if is_marked else ""), "the next start")
        is_new = os.stat(f"{folder}/journal").st_ino != inode
        want_same((is_new, os.path.exists(mark)), (is_marked, False), "it is written anew")
        want_same(do(builds, folder, "export"), whole, "nothing is lost")
    want(4 < syncs < 19, f"{syncs} syncs")


def failed_server(builds):
    """A server whose sync fails ends. Where the journal can't be written anew, none starts."""
    folder = new_folder(builds)
    wrap, faults = with_faults(builds, folder)
    text = f'exec {" ".join(wrap)} {builds.program(serving.PROGRAM)} "$@"'
    words = ("--program", program(builds, text), *PROFILE)
    server = Server(builds, folder, words, sync="batch")
    it, mark = server.client(), f"{folder}/journal.failed"
    it.create("/a", b"x")
    write(faults, b"0")
    try:
        it.create("/b")
        want(False, "it is acknowledged")
    except Ended:
        server.stop(0, 4, "zk: data: the disk failed\n")
    os.remove(faults)
    found = os.stat(mark)
    want_same((found.st_size, stat.S_IMODE(found.st_mode)), (0, 0o600), "the mark")
    os.mkdir(f"{folder}/journal.new")
    status, _, said = do(builds, folder)
    want((status, os.path.exists(mark)) == (4, True) and ANEW in said, f"not anew: {said}")
    os.rmdir(f"{folder}/journal.new")
    with Server(builds, folder, PROFILE) as server, server.client() as it:
        want(ANEW in server.said() and it.get("/a")[0] == b"x", "it is there")
    # (the change in flight was cut off, and isn't there)
    want_same(sorted(os.listdir(folder)), ["journal", "journal.cut", "secret"], "the files")


def tests(builds):
    each = each_block, cut, pairs, lines, failed_syncs, failed_server
    found = [Test(f"folder: {it.__name__}", 8, lambda _, it=it: it(builds)) for it in each]
    return [Test("folder: each byte", 30, lambda _: each_byte(builds)), *found]
