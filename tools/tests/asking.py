"""Requests of each kind, refusals with their codes, watches, sessions and limits, in raw frames."""
import time

from frames import *
from report import want, want_same
from servers import Server, until
from wire import NO_SESSION, Answer, Event, greeted, refused

BAD_PATHS = (
    b"", b"a", b"//", b"/.", b"/a\0b", b"/a\x7f", b"/a/", b"/a/..", b"/a b", b"/\xff", None,
    b"/a\n1 delete /a any", b"/" + b"n" * 256, b"/n" * 65, b"/nnnn" * 64 * 4,
)
OWN = ("/zookeeper", "/zookeeper/config", "/zookeeper/quota")
# The most bytes of data, unless a word says others.
MOST_DATA = 1048487
BODIES = {CREATE: create_body, GET: look_body, SET: set_body, DELETE: at_version}
REFUSED = (
    *((NO_NODE, op, look_body("/no")) for op in (EXISTS, GET, LS, LS2)),
    *((NO_NODE, op, create_body("/no/a")) for op in (CREATE, CREATE2)),
    *((EXISTS_ALREADY, op, create_body("/a")) for op in (CREATE, CREATE2)),
    (NO_NODE, SET, set_body("/no")), (NO_NODE, DELETE, at_version("/no")),
    (NO_NODE, GET_ACL, text("/no")), (NO_NODE, CREATE_TTL, create_body("/no/a", kind=TTL, ttl=999)),
    (NOT_EMPTY, DELETE, at_version("/a")), (NO_CHILDREN, CREATE, create_body("/e/a")),
    (VERSION, DELETE, at_version("/a/b", 1)), (VERSION, SET, set_body("/a", version=7)),
    (VERSION, SET, set_body("/a", version=-2)), (VERSION, CHECK, at_version("/a", 5)),
    *((ACL, CREATE, create_body("/x", acls=it))
      for it in (acl(1), acl(name="me"), int4(0), int4(-1))),
    *((UNIMPLEMENTED, op, text("/a") + int4(3)) for op in (16, 999, -77)),
    *((MARSHALLING, CREATE_SESSION, it) for it in (b"", int4(9000))),
    *((NO_NODE, COUNT_BELOW, text(it)) for it in ("/no", "/a/", "a")),
    (MARSHALLING, COUNT_BELOW, text(None)), (ARGUMENTS, SET_ACL, text("a") + int4(-1) + int4(7)),
    *((ACL, SET_ACL, text("/no") + it + int4(7)) for it in (int4(-1), int4(0), acl(1))),
    (NO_NODE, SET_ACL, text("/no") + acl() + int4(7)), (VERSION, SET_ACL, text("/a") + acl() + int4(7)),
    *((MARSHALLING, op, text("/a") + int4(it))
      for op, it in ((ADD_WATCH, 2), (ADD_WATCH, -1), (CHECK_WATCHES, 0), (REMOVE_WATCHES, 4))),
    *((NO_WATCHER, op, text("/a") + int4(it))
      for op in (CHECK_WATCHES, REMOVE_WATCHES) for it in (1, 2, 3)),
    (ARGUMENTS, ADD_WATCH, text(None) + int4(0)), (ARGUMENTS, REMOVE_WATCHES, text("a") + int4(3)),
    (NO_NODE, CONTAINER, create_body("/no/a", kind=OF_CHILDREN)),
    *((ARGUMENTS, CREATE, create_body("/x", kind=kind)) for kind in (7, -1, 5, 6)),
    *((ARGUMENTS, CREATE_TTL, create_body("/x", kind=TTL, ttl=it)) for it in (0, -1, 1 << 62)),
    (ARGUMENTS, CREATE, create_body("/x", b"x" * (MOST_DATA + 1))),
    (ARGUMENTS, SET, set_body("/a", b"x" * (MOST_DATA + 1))), (ARGUMENTS, DELETE, at_version("/")),
    (ARGUMENTS, CREATE, create_body("/" + "n" * 255, kind=SEQUENTIAL)),
    (ARGUMENTS, MULTI, multi_body(*[(CHECK, at_version("/a"))] * 1001)),
    (ARGUMENTS, MULTI_READ, multi_body(*[(LS, look_body("/a"))] * 1001)),
    *((ARGUMENTS, op, body(it)) for it in BAD_PATHS for op, body in BODIES.items()),
)


# A path and how it is watched, a change, and the events that are sent.
WATCHED = (
    ("/a", GET, ("set", "/a"), (CHANGED, "/a")), ("/a", EXISTS, ("set", "/a"), (CHANGED, "/a")),
    ("/b", EXISTS, ("create", "/b"), (CREATED, "/b")), ("/a", LS, ("set", "/a")),
    ("/b", GET, ("delete", "/b"), (DELETED, "/b")), ("/no", GET, ("create", "/no")),
    ("/a", LS, ("create", "/a/c"), (CHILD, "/a")), ("/no", GET, ("set", "/no", b"", 5)),
    ("/a", LS2, ("delete", "/a/c"), (CHILD, "/a")),
    ("/no", LS, ("delete", "/no"), (DELETED, "/no")),
)


def requests(builds):
    """Each request, and what is refused and so changes nothing."""
    with Server(builds) as server, server.client() as it, server.client() as other:
        want_same(it.create("/a", b"hi"), "/a", "a create")
        stat = it.exists("/a")
        want_same((stat.czxid, stat.mzxid, stat.pzxid), (it.zxid,) * 3, "its zxids")
        want_same(stat[4:10], (0, 0, 0, 0, 2, 0), "the rest of its stat")
        want(stat.ctime == stat.mtime > 1_600_000_000_000, f"its times: {stat}")
        made = it.call(CREATE2, create_body("/a/b", b"ho"), Reader.named)
        want_same(made, ("/a/b", it.exists("/a/b")), "a create with its stat")
        body = create_body("/a/t-", kind=TTL_SEQUENTIAL, ttl=60000)
        made = it.call(CREATE_TTL, body, Reader.named)
        want_same(made, ("/a/t-0000000000", it.exists("/a/t-0000000000")), "one with a TTL")
        made = it.call(CONTAINER, create_body("/c", kind=OF_CHILDREN), Reader.named)
        want_same(made, ("/c", it.exists("/c")), "a container")
        want_same(made[1].owner, 0, "the owner of a container")
        new = it.set("/a", b"second", 0)
        want_same((new.version, new.length, new.mzxid), (1, 6, it.zxid), "the stat of a set")
        want_same((new.czxid, new.ctime, new.cversion), (stat.czxid, stat.ctime, 2), "what stays")
        want_same(other.get("/a"), (b"second", new), "what another client gets")
        names = other.call(LS2, look_body("/a"), lambda it: (it.texts(), it.stat()))
        want_same(names, (["b", "t-0000000000"], it.exists("/a")), "names and a stat")
        want_same(it.call(SYNC, text("/a"), Reader.text), "/a", "a sync")
        want_same(it.ask(GET_ACL, text("/a")).body[: len(acl())], acl(), "the ACL of a node")
        want_same(it.ask(CHECK, at_version("/a", 1))[2:], (OK, b""), "a check")
        for xid in (0, 7, 7, 2**31 - 1, -2**31, -100):
            want_same(it.ask(EXISTS, look_body("/a"), xid).code, OK, f"an xid of {xid}")
        for _ in range(300):
            it.post(CREATE, create_body("/n", kind=SEQUENTIAL), 1)
            it.post(GET, look_body("/none"), 2)
        got = [(it.answer(1).body, it.answer(2).code) for _ in range(300)]
        want_same(got, [(text(f"/n{i:010}"), NO_NODE) for i in range(300)], "all in their order")
        it.create("/e", kind=EPHEMERAL)
        before, zxid = it.exists("/"), it.zxid
        for code, op, body in REFUSED:
            want_same(it.ask(op, body)[2:], (code, b""), f"{op} {body[:80]}")
        want_same((it.exists("/"), it.zxid), (before, zxid), "a refusal changes nothing")
        for scheme, code in (("digest", OK), ("ip", AUTH_FAILED)):
            auth = int4(0) + text(scheme) + text("me:secret")
            want_same(it.ask(AUTH, auth, AUTH_XID).code, code, f"auth by {scheme}")
        want(it.is_ended(), "auth by no scheme closes the connection")


# Each part that is refused at once, and its code.
OF_MULTI = (
    *((ARGUMENTS, op, body(it)) for it in ("bad", None) for op, body in BODIES.items() if op != GET),
    (ARGUMENTS, CHECK, at_version("bad")), (ARGUMENTS, CREATE, create_body("/x", kind=77)),
    (ARGUMENTS, CREATE_TTL, create_body("/x", kind=TTL, ttl=0)),
    *((ACL, op, create_body("/x", acls=it, kind=kind)) for it in (int4(-1), int4(0), acl(31, "no"))
      for op, kind in ((CREATE, 0), (CREATE2, 0), (CONTAINER, OF_CHILDREN))),
)


def errors(*codes):
    """The body of a multi's refusal, as ZooKeeper 3.8 has it."""
    return b"".join(int4(-1) + b"\0" + int4(it) * 2 for it in codes) + int4(-1) + b"\1" + int4(-1)


def walks(builds):
    """What reads all nodes, who a client is, and each refused part of a multi in its place."""
    with Server(builds) as server, server.client() as it, server.client() as other:
        for path in ("/p", "/p/a", "/p/a/b", "/pa"):
            it.create(path)
        for path in ("/p/e", "/p/a/f", "/pe"):
            it.create(path, kind=EPHEMERAL)
        other.create("/p/o", kind=EPHEMERAL)
        it.call(CONTAINER, create_body("/p/c", kind=OF_CHILDREN), Reader.named)
        for front, wanted in (("/p", ["/p/a/f", "/p/e", "/pe"]), ("/p/", ["/p/a/f", "/p/e"]),
                              ("/p/e", ["/p/e"]), ("/no", []), ("p", []),
                              *((any_, ["/p/a/f", "/p/e", "/pe"]) for any_ in ("/", "", None))):
            found = it.call(EPHEMERALS, text(front), Reader.texts)
            want_same(found, wanted, f"the ephemeral nodes from {front} on")
        for path, below in (("/", 9), ("/p", 6), ("/p/a", 2), ("/p/e", 0), ("/pa", 0)):
            found = it.call(COUNT_BELOW, text(path), lambda reader: reader.numbers(">i"))
            want_same(found, (below,), f"the nodes below {path}")
        want_same(it.ask(WHO_AM_I)[2:], (OK, int4(1) + text("world") + text("anyone")), "who it is")
        for token in (b"", b"x"):
            want_same(it.ask(SASL, text(token))[2:], (OK, int4(-1)), "a token of SASL")
        with server.client() as without:
            without.post(SASL, text(None))
            want(without.is_ended(), "a null token closes the connection")
        before, zxid = it.exists("/"), it.zxid
        fine, taken = (CREATE, create_body("/m")), (CREATE, create_body("/p"))
        for code, *part in OF_MULTI:
            found = it.ask(MULTI, multi_body(fine, part, fine, part))
            want_same(found[2:], (OK, errors(OK, code, RUNTIME, RUNTIME)), f"a part: {part}")
            found = it.ask(MULTI, multi_body(taken, part))
            want_same(found[2:], (OK, errors(EXISTS_ALREADY, RUNTIME)), f"behind another: {part}")
            want_same(it.ask(MULTI, multi_body(part))[2:], (OK, errors(code)), f"alone: {part}")
        want_same((it.exists("/"), it.zxid), (before, zxid), "a refusal changes nothing")


def watches(builds):
    """Each change is sent once to who waits for it, before any reply that shows it."""
    with Server(builds, tick=500) as server, server.client() as it, server.client() as other:
        it.create("/a")
        for path, look, (name, *words), *events in WATCHED:
            for _ in range(2):
                it.ask(look, look_body(path, True))
            it.seen.clear()
            refused(getattr(other, name), *words)
            want_same((it.events(), other.events()), (events, []), f"{look} of {path}")
        it.events()
        it.get("/a", True)
        it.seen.clear()
        it.set("/a", b"1")
        want_same([type(x) for x in it.seen], [Event, Answer], "before the reply to the change")
        it.call(CREATE_TTL, create_body("/t", kind=TTL, ttl=2000), Reader.named)
        it.exists("/t", True)
        want_same(it.next(), (DELETED, "/t"), "what a tick takes away")
        for path in ("/c", "/empty"):
            it.call(CONTAINER, create_body(path, kind=OF_CHILDREN), Reader.named)
        it.create("/c/a")
        other.exists("/empty", True)
        it.exists("/c", True)
        it.delete("/c/a")
        want_same(it.next(), (DELETED, "/c"), "a container whose last child is gone")
        want_same(other.events(), [], "a container that never had a child")
        with server.client(timeout=1000) as short:
            short.create("/e", kind=EPHEMERAL)
            it.exists("/e", True)
            want_same(it.next(), (DELETED, "/e"), "what a session's end takes away")
        for path in ("/same", "/gone", "/up"):
            it.create(path)
        since, paths = it.zxid, (["/a", "/gone", "/same"], ["/made", "/new"], ["/up", "/same"])
        other.set("/a"), other.delete("/gone"), other.create("/made"), other.create("/up/x")
        it.events()
        it.call(SET_WATCHES, watches_body(since, *paths))
        wanted = [(CREATED, "/made"), (DELETED, "/gone"), (CHANGED, "/a"), (CHILD, "/up")]
        want_same(it.events(), wanted, "what has changed since")
        other.set("/a"), other.create("/new"), other.set("/same")
        want_same(it.events(), [(CREATED, "/new"), (CHANGED, "/same")], "the rest waits")


def added(it, path, mode):
    """Adds a watch: 0 is a persistent one, 1 a recursive one. Its body has the code once more."""
    want_same(it.call(ADD_WATCH, text(path) + int4(mode), lambda reader: reader.numbers(">i")),
              (OK,), f"a watch of {path} in the mode {mode}")


def persistent(builds):
    """A watch that stays is told of each change, a recursive one of all below, until removed."""
    with Server(builds, tick=500) as server, server.client() as it, server.client() as other:
        it.create("/a"), it.create("/b"), added(it, "/a", 0), added(it, "/a/d", 1)
        for number in range(3):
            other.set("/a", b"%d" % number)
            want_same(it.events(), [(CHANGED, "/a")], f"change {number}")
        other.create("/a/c"), other.create("/a/d"), other.create("/a/d/e"), other.set("/a/d/e")
        other.set("/b"), other.set("/a/c"), other.create("/a/de")
        wanted = [(CREATED, "/a/d"), (CREATED, "/a/d/e"), (CHANGED, "/a/d/e"), *[(CHILD, "/a")] * 3]
        want_same(it.events(), sorted(wanted), "each change, and no sibling's")
        other.delete("/a/d/e"), other.delete("/a/d"), other.create("/a/d")
        wanted = [(DELETED, "/a/d/e"), (DELETED, "/a/d"), (CREATED, "/a/d"), *[(CHILD, "/a")] * 2]
        want_same(it.events(), sorted(wanted), "a node that is gone, and made again")
        it.get("/a", True)
        other.set("/a"), other.set("/a")
        want_same(it.events(), [(CHANGED, "/a")] * 2, "one event beside a one-shot watch")
        with server.client(timeout=1000) as short:
            for path in ("/a/d/e", "/a/d/f"):
                short.create(path, kind=EPHEMERAL)
            it.events()
            ended = sorted((DELETED, path) for path in ("/a/d/e", "/a/d/f"))
            want_same(sorted((it.next(), it.next())), ended, "what a session's end takes away")
        it.seen.clear()
        other.create("/a/d/e")
        want_same(it.events(), [(CREATED, "/a/d/e")], "no deletion once more")
        code = refused(other.call, REMOVE_WATCHES, text("/a") + int4(3))
        want_same(code, NO_WATCHER, "another's watches")
        it.call(CHECK_WATCHES, text("/a") + int4(1))
        it.call(REMOVE_WATCHES, text("/a") + int4(1))
        other.create("/a/f"), other.set("/a")
        want_same(it.events(), [(CHANGED, "/a")], "the rest of a watch")
        for path in ("/a", "/a/d"):
            it.call(REMOVE_WATCHES, text(path) + int4(3))
        other.set("/a"), other.set("/a/d"), other.delete("/a/f")
        want_same(it.events(), [], "none is left")
        since = it.zxid
        other.set("/a"), other.set("/b")
        it.call(SET_WATCHES_2, watches_body(since, ["/b"], [], [], ["/a"], ["/a/d"]))
        want_same(it.events(), [(CHANGED, "/b")], "a persistent watch missed none")
        other.set("/a"), other.set("/a"), other.delete("/a/d/e"), other.set("/b")
        want_same(it.events(), sorted([*[(CHANGED, "/a")] * 2, (DELETED, "/a/d/e")]), "and stays")


def sessions(builds):
    with Server(builds, tick=300) as server, server.client() as other:
        for asked, granted in ((1500, 1500), (0, 600), (1 << 30, 6000), (-5, 600)):
            with server.client(timeout=asked) as it:
                want(abs(it.timeout - granted) <= 300, f"a timeout of {asked}: {it.timeout}")
        it = server.client()
        it.create("/e", kind=EPHEMERAL)
        right = it.password
        flipped = [right[:i] + bytes([right[i] ^ 128]) + right[i + 1 :] for i in range(16)]
        for password in (*flipped, bytes(16), b"", None, right[:15], right + b"\0", other.password):
            want_same(greeted(server.address, it, password), NO_SESSION, f"{password}")
        want(it.ping(), "the session and its connection stay")
        again = server.client(of=it)
        want(it.is_ended(), "the older connection is closed")
        want_same((again.session, again.password), (it.session, right), "a session is taken up")
        want_same(other.exists("/e").owner, again.session, "with its node")
        again.send(request(1, CLOSE) + request(2, CREATE, create_body("/late")))
        want(again.next().code == OK and again.is_ended(), "it is closed, and its connection")
        want_same(other.ls("/"), [], "its node is gone, and nothing after it is done")
        want_same(greeted(server.address, it, right), NO_SESSION, "a closed session")
        with server.client(timeout=900) as short:
            short.create("/e", kind=EPHEMERAL)
            for _ in range(10):
                time.sleep(0.2)
                short.get("/e")
            began = time.monotonic()
            want(until(lambda: refused(other.exists, "/e") == NO_NODE), "a session runs out")
            want(0.5 * short.timeout < 1000 * (time.monotonic() - began), "after its timeout")
            want(short.is_ended(), "its connection is closed")


def acls(builds):
    """Writes of a node's ACL: they count in its stat, and change nothing else."""
    with Server(builds) as server, server.client() as it, server.client() as other:
        it.create("/a", b"hi")
        stat = it.exists("/a", True)
        for version in (0, 1, -1):
            zxid = it.zxid
            stat = stat._replace(aversion=stat.aversion + 1)
            body = text("/a") + acl() + int4(version)
            want_same(it.call(SET_ACL, body, Reader.stat), stat, f"at version {version}")
            want_same((it.zxid, other.exists("/a")), (zxid + 1, stat), "what another client sees")
            found = other.ask(GET_ACL, text("/a")).body
            want_same((found[: len(acl())], Reader(found[len(acl()) :]).stat()), (acl(), stat), "ACL")
        zxid = it.zxid
        for code, path, given, version in (
            (VERSION, "/a", acl(), 2), (VERSION, "/a", acl(), -2), (ACL, "/a", acl(1), 3),
            (NO_NODE, "/no", acl(), -1), (ARGUMENTS, "a", acl(), -1), (ARGUMENTS, OWN[0], acl(), 0),
        ):
            found = it.ask(SET_ACL, text(path) + given + int4(version))
            want_same(found[2:], (code, b""), f"{path} at version {version}")
        want_same((it.zxid, it.exists("/a"), it.events()), (zxid, stat, []), "nothing else changes")


def chosen(builds):
    """Each limit that its word names, and the largest data that can be read again."""
    given = ("--nodes=5", "--sessions=2", "--max-session=30", "--data-bytes=10", "--parts=3")
    with Server(builds, words=given) as server, server.client(timeout=10**9) as it, \
            server.client(timeout=1) as other:
        want_same((it.timeout, other.timeout), (60000, 4000), "the timeouts of sessions")
        want(not server.serves(), "a third session")
        for number in range(4):
            it.create(f"/n{number}", b"0123456789")
        want_same(refused(it.create, "/n4"), SYSTEM, "a fifth node below the root")
        want("nodes or watches are at their limit" in server.said(), server.said())
        want_same(refused(it.set, "/n0", b"01234567890"), ARGUMENTS, "eleven bytes")
        for code, count in ((OK, 3), (ARGUMENTS, 4)):
            check, look = (CHECK, at_version("/n0")), (LS, look_body("/"))
            for op, part in ((MULTI, check), (MULTI_READ, look)):
                want_same(it.ask(op, multi_body(*[part] * count)).code, code, f"{count} parts")
    with Server(builds) as server, server.client() as it:
        data = b"x" * MOST_DATA
        it.create("/" + "a" * 8)
        for path, write in (("/" + "a" * 8, it.set), ("/b", it.create)):
            write(path, data)
            want_same(it.get(path)[0], data, f"all that may be in {path}")


def limits(builds):
    """Nodes, the depth of a path, watches and sessions that are too many."""
    given = ("--watches=1000", "--watches-each=600", "--nodes=4096", "--sessions=1024")
    # (a tick so long that no session ends while others begin)
    with Server(builds, tick=600000, words=given) as server, server.client() as it, \
            server.client() as other:
        deep = ""
        for _ in range(64):
            deep = it.create(f"{deep}/d")
        want_same(refused(it.create, f"{deep}/d"), ARGUMENTS, "64 names, and one more")
        for number in range(4096 - 64):
            it.post(CREATE, create_body(f"/m{number}"), 1)
        codes = [it.answer(1).code for _ in range(4096 - 64)]
        want_same((codes.count(OK), codes[-1]), (4096 - 65, SYSTEM), "nodes, and one too many")
        it.delete("/m0")
        for one, count in ((it, 600), (other, 400)):
            for number in range(count):
                one.post(EXISTS, look_body(f"/w{number}", True))
            want_same({one.next().code for _ in range(count)}, {NO_NODE}, f"{count} watches")
            want_same((refused(one.get, "/", True), one.get("/")[0]), (SYSTEM, b""), "one more")
        it.create("/w500")
        want_same((it.events(), refused(other.get, "/", True)), ([(CREATED, "/w500")], None), "room")
        count = 0
        while count < 1024 and server.serves():
            count += 1
        want(1000 < count < 1024, f"{count} sessions beside those that were there")


def own_nodes(builds):
    """`/zookeeper`, its config and its quota are read as in ZooKeeper, and never written."""
    none = Stat(*[0] * 11)
    stats = none._replace(cversion=-2, children=2), none._replace(aversion=-1), none
    with Server(builds) as server, server.client() as it, server.client() as other:
        for path, stat, bits in zip(OWN, stats, (31, 1, 31)):
            names = ["config", "quota"] if path == OWN[0] else []
            want_same(it.exists(path, True), stat, f"the stat of {path}")
            want_same((it.get(path, True), it.ls(path)), ((b"", stat), names), f"what is in {path}")
            read = lambda reader: (reader.texts(), reader.stat())
            want_same(it.call(LS2, look_body(path), read), (names, stat), f"the names in {path}")
            found = it.ask(GET_ACL, text(path)).body
            want(found.startswith(acl(bits)) and len(found) == len(acl()) + 68, f"ACL: {found}")
        for path in (*OWN, "/zookeeper/a", "/zookeeper/quota/a"):
            for call in (it.create, it.set, it.delete):
                want_same(refused(call, path), ARGUMENTS, f"{path} isn't written")
        for path in ("/zookeeper/a", "/zookeeper/quota/a"):
            for call in (it.exists, it.get, it.ls):
                want_same(refused(call, path), NO_NODE, path)
        want_same(refused(it.get, "/zookeepers"), NO_NODE, "another node of the root")
        it.create("/a")
        it.call(SET_WATCHES, watches_body(it.zxid, [OWN[1], "/a"], ["/zookeeper/a"], [OWN[0]]))
        other.set("/a")
        want_same(it.events(), [(CHANGED, "/a")], "other watches are set again")
