"""Bytes that no client means, whole and in random pieces: the same comes of both."""
import random
import re

from frames import *
from report import want, want_same
from servers import Server, until
from wire import Ended, Wire

# Long enough that no tick comes.
NO_TICKS = 3_600_000
PATHS = (b"/a", b"/a/b", b"/c-", b"/", b"/a//", b"", b"/zookeeper", b"/\xc3\xbc", b"/a b", b"/d",
         b"/x" * 70, b"/a\n1 delete /a any", b"/n" * 500, None, b"/a\0b", b"/d/e")
DATA, ACLS = (None, b"", b"hi", b"z" * 300, bytes(65537)), (acl(), acl(), acl(7), acl(31, "ip"), int4(-1))
VERSIONS, KINDS, TTLS = (-1, 0, 1, -2, 2**31 - 1), (0, 1, 2, 3, 7, -1), (1, 5000, -3, 0, 2**62)
# It ends a request whose length was changed, and isn't one.
FILLED = bytes(MAX_FRAME + 9)
# The longest body of a request that sets /a.
LONGEST = set_body("/a", bytes(MAX_FRAME - 8 - 4 - 2 - 4 - 4))
NO_REQUEST = (
    bytes(4), int4(7) + bytes(7), request(1, EXISTS, look_body("/a")[:5]),
    request(1, EXISTS, int4(-9) + b"\0"), request(1, EXISTS, int4(99) + b"/a\0"),
    request(1, CREATE, text("/a") + text(b"") + int4(1 << 30)), int4(-1), int4(2**31 - 1), b"ruok",
    request(1, DELETE, at_version("/a") + b"x"), request(1, MULTI, multi_body((77, b""))),
    request(1, MULTI, multi_body((CREATE, create_body("/a")))[:-9]), request(1, GET, LONGEST),
    int4(MAX_FRAME + 1),
)
NO_GREETING = (
    request(1, EXISTS, look_body("/")), bytes(4), b"GET / HTTP/1.1\r\n\r\n", int4(1) + b"x",
    int4(20) + greeting()[4:24], int4(-1), int4(MAX_FRAME + 1), greeting(seen=1 << 62),
)


def bodies(path, data=b"", version=-1, kind=0, acls=acl(), ttl=9000):
    """A request of each kind. The last two close their connection."""
    create, timed = create_body(path, data, kind, acls), create_body(path, data, 5, acls, ttl)
    check, set_it, look = at_version(path, version), set_body(path, data), look_body(path, 1)
    some = [it for it in PATHS[: version % 9] if it]
    return [
        (CREATE, create), (CREATE2, create), (CREATE_TTL, timed), (SET, set_it), (GET, look),
        (EXISTS, look), (LS, look), (LS2, look_body(path)), (GET_ACL, text(path)), (PING, b""),
        (SYNC, text(path)), (MULTI, multi_body((CREATE, create), (SET, set_it), (CHECK, check))),
        (MULTI, multi_body((DELETE, check), (CREATE_TTL, timed))), (CHECK, check), (-1, b""),
        (MULTI_READ, multi_body((GET, look_body("/d")), (LS, look_body("/")))), (999, look),
        (SET_WATCHES, watches_body(version, some, some[:2], some[2:])), (CONTAINER, create),
        (SET_WATCHES_2, watches_body(version, some, some[:2], some[2:], some[:1], some[1:])),
        *((op, text(path) + int4(version)) for op in (ADD_WATCH, REMOVE_WATCHES, CHECK_WATCHES)),
        (AUTH, int4(0) + text("digest") + text(data)), (DELETE, check), (CLOSE, b""),
        (SET_ACL, text(path) + acls + int4(version)), (WHO_AM_I, b""), (SASL, text(data)),
        (EPHEMERALS, text(path)), (COUNT_BELOW, text(path)), (CREATE_SESSION, text(path)),
        (AUTH, int4(0) + text("ip") + text(b"")), (MULTI, multi_body((77, look))),
    ]


def broken(chance, data):
    """Some bytes changed, and perhaps the last ones cut off."""
    found = bytearray(data)
    for _ in range(chance.randrange(1, 4)):
        found[chance.randrange(len(found))] = chance.choice((0, 1, 127, 255, chance.randrange(256)))
    return bytes(found[: chance.choice((len(found), len(found), chance.randrange(len(found) + 1)))])


def script(chance):
    """What is sent on a connection, which the server then closes."""
    found = greeting(chance.choice((5000, 0, -1)), last=chance.choice((b"\0", b"\1", b"")))
    if chance.random() < 0.1:
        return broken(chance, found) + FILLED
    for _ in range(chance.randrange(1, 12)):
        several = bodies(*map(chance.choice, (PATHS, DATA, VERSIONS, KINDS, ACLS, TTLS)))
        whole = request(chance.choice((1, 2, 0, -1, 2**31 - 1)), *chance.choice(several))
        how = chance.random()
        if how < 0.02:
            return found + broken(chance, whole) + FILLED
        found += text(broken(chance, whole[4:])) if how < 0.1 else whole
    return found + request(5, CLOSE)


class Player(Server):
    """A server, and an observer of it."""

    def __init__(self, builds):
        super().__init__(builds, tick=NO_TICKS)
        self.observer = self.client()
        self.observer.create("/d", b"x")
        self.started = int8(self.observer.exists("/d").ctime)
        self.base = self.observer.exists("/").czxid

    def play(self, data, cuts=()):
        """What comes of bytes sent in pieces, without passwords, times, and the base of zxids."""
        with Wire(self.address) as it:
            try:
                for begin, end in zip([0, *cuts], [*cuts, len(data)]):
                    it.send(data[begin:end])
                    # (so the next piece comes on its own)
                    self.observer.ping()
            except Ended:
                pass
            found = it.rest()
        if found[4:8] == int4(0):
            found = found[:24] + bytes(16) + found[40:]
        told = re.compile(re.escape(int8(self.base)[:5]) + b"...", re.DOTALL)
        lower = lambda it: int8(int.from_bytes(it[0], "big") - self.base)
        return told.sub(lower, found.replace(self.started, bytes(8)))


def pieces(builds, first, count=250):
    """Scripts, whole and in pieces."""
    with Player(builds) as whole, Player(builds) as other:
        answered = 0
        for number in range(first, first + count):
            chance = random.Random(number)
            data = script(chance)
            cuts = sorted(chance.choices(range(len(data)), k=chance.randrange(5)))
            one, two = whole.play(data), other.play(data, cuts)
            answered += len(one) > 41
            want(one == two, f"script {number}: {one!r:.900} is in pieces {two!r:.900}")
        want(answered > count / 2, f"{answered} connections were answered")
        want_same(*(it.observer.ls("/") for it in (whole, other)), "the nodes")


def frames(builds):
    """Frames that are no request, or no greeting: each closes its connection, and makes no call."""
    late, whole = (request(1, CREATE, create_body(it, b"x")) for it in ("/late", "/a"))
    with Server(builds) as server, server.client() as it:
        for is_greeted, several in ((True, NO_REQUEST), (False, NO_GREETING)):
            for data in several:
                with server.client() if is_greeted else Wire(server.address) as other:
                    other.send(data + late)
                    want(other.is_ended(), f"{data[:40]} closes the connection, without an answer")
        for length in range(len(whole)):
            with server.client() as other:
                other.send(whole[:length])
            with Wire(server.address) as other:
                other.send(greeting()[:length])
        want_same(it.ls("/"), [], "nothing of what is no request, or has no end, is done")
        with server.client() as other:
            other.send(whole + whole[:9])
        want(until(lambda: it.ls("/") == ["a"]), "what was whole before it is done")
        want_same(it.ask(SET, LONGEST).code, ARGUMENTS, "the longest request")
        want_same(it.get("/a")[0], b"x", "the connection is served")
