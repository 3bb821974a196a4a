"""Who may come in: `--auth FILE`.

The answers to strangers are those of ZooKeeper 3.8.0 with `enforce.auth.enabled=true` and
`enforce.auth.schemes=digest`, which was sent the same frames.
"""
import os
import tempfile
import time

from builds import ended
from frames import *
from report import want, want_same
from servers import Server, words_of
from wire import Client, Wire

ANN, BOB = "ann:7RJfAeIvrl4zdj6sS2fXrQHDvHM=", "bob:HJOLKaCJkAQC5uYhylpA+72TQjU="
SASL_REQUIRED = -124
LOOK = look_body("/", False)


def auth_body(given, scheme="digest"):
    return int4(0) + text(scheme) + text(given)


def refusal(xid, code):
    return text(int4(xid) + int8(0) + int4(code))


def login(given, xid=AUTH_XID):
    return request(xid, AUTH, auth_body(given))


# What a stranger sends after its greeting, and all that comes before its close.
STRANGERS = {
    "ping": (request(PING_XID, PING), refusal(PING_XID, SASL_REQUIRED)),
    "close": (request(5, CLOSE), refusal(5, SASL_REQUIRED)),
    "exists": (request(1, EXISTS, LOOK), refusal(1, SASL_REQUIRED)),
    "a bad body": (request(1, EXISTS, b"zz"), refusal(1, SASL_REQUIRED)),
    "no kind": (request(1, 77, b"zz"), refusal(1, SASL_REQUIRED)),
    "create": (request(9, CREATE, create_body("/stranger")), refusal(9, SASL_REQUIRED)),
    "multi": (request(1, MULTI), refusal(1, SASL_REQUIRED)),
    "set watches": (request(-8, SET_WATCHES, watches_body(0, [], [], [])),
                    refusal(-8, SASL_REQUIRED)),
    "two": (request(1, EXISTS, LOOK) + request(2, PING), refusal(1, SASL_REQUIRED)),
    "other scheme": (request(AUTH_XID, AUTH, auth_body("x", "world")),
                     refusal(AUTH_XID, AUTH_FAILED)),
    "null": (request(AUTH_XID, AUTH, auth_body(None)), refusal(AUTH_XID, AUTH_FAILED)),
    "null scheme": (request(AUTH_XID, AUTH, int4(0) + text(None) + text(None)),
                    refusal(AUTH_XID, AUTH_FAILED)),
    "a cut auth": (request(AUTH_XID, AUTH, b"\0\0"), b""),
    "half a head": (text(int4(9)), b""),
    "no head": (text(b""), b""),
    "a length below 0": (int4(-1), b""),
    "too long": (int4(2**31 - 1), b""),
    # (ZooKeeper knows no wrong login: it takes any)
    "a wrong password": (login("ann:Secret"), refusal(AUTH_XID, AUTH_FAILED)),
    "another's password": (login("bob:secret"), refusal(AUTH_XID, AUTH_FAILED)),
    "no password": (login("ann"), refusal(AUTH_XID, AUTH_FAILED)),
    "the hash": (login(ANN), refusal(AUTH_XID, AUTH_FAILED)),
    "a wrong one, then a right one": (login("ann:x") + login("ann:secret"),
                                      refusal(AUTH_XID, AUTH_FAILED)),
    # (ZooKeeper waits for its end)
    "a long request's head": (int4(MAX_FRAME) + int4(3) + int4(CREATE), refusal(3, SASL_REQUIRED)),
    "a long auth": (int4(MAX_FRAME) + int4(3) + int4(AUTH) + bytes(5000), b""),
}


def listed(builds, lines=f"digest {ANN}\n\ndigest {BOB}\n", mode=0o600):
    """A file of logins."""
    number, path = tempfile.mkstemp(dir=builds.room)
    with open(number, "w", encoding="utf-8", newline="") as file:
        file.write(lines)
    os.chmod(path, mode)
    return path


class Guarded(Server):
    """A server with two logins."""

    def __init__(self, builds, **given):
        super().__init__(builds, words=("--auth", listed(builds)), **given)

    def named(self, given="ann:secret", **others):
        """A client that has given a login."""
        found = Client(self.address, **others)
        want_same(found.ask(AUTH, auth_body(given), AUTH_XID)[2:], (OK, b""), given)
        return found


class Stranger(Wire):
    """A connection that sends this in pieces, and is closed after this answer."""

    def __init__(self, server, name, step=1 << 20, of="127.0.0.1"):
        super().__init__(server.address, of=of)
        (sent, self.wanted), self.name = STRANGERS[name], name
        for at in range(0, len(greeting() + sent), step):
            self.send((greeting() + sent)[at : at + step])

    def is_refused(self):
        with self:
            want(self.frame().numbers(">8xq")[0] > 0, f"{self.name}: a session")
            want_same(self.rest().hex(" "), self.wanted.hex(" "), self.name)


def strangers(builds):
    """Strangers are answered as by ZooKeeper, in whatever pieces they send, and change nothing."""
    with Guarded(builds) as server, server.named() as it:
        before = it.exists("/").pzxid
        came = [Stranger(server, name, step, f"127.0.1.{2 * at + step % 2 + 1}")
                for at, name in enumerate(STRANGERS) for step in (1, 1 << 20)]
        for one in came:
            one.is_refused()
        want_same((it.exists("/").pzxid, it.ls("/")), (before, []), "nothing was made")


def logins(builds):
    """Who gives a login makes calls, over any pieces, and again after it comes back."""
    with Guarded(builds) as server:
        for given in ("ann:secret", "bob:word"):
            with server.named(given) as it:
                path = it.create("/a-", kind=SEQUENTIAL)
                want_same(it.get(path)[0], b"", given)
        with server.named() as it:
            it.create("/e", kind=EPHEMERAL)
            want_same(it.ask(AUTH, auth_body("else:what"), AUTH_XID).code, OK, "once more")
            it.drop()
            with server.named(of=it) as again:
                want(again.exists("/e"), "the session goes on")
        with Wire(server.address) as it:
            for byte in greeting() + login("ann:secret") + request(7, EXISTS, LOOK):
                it.send(bytes([byte]))
            it.frame()
            codes = [it.frame().numbers(">i8xi") for _ in range(2)]
            want_same(codes, [(AUTH_XID, OK), (7, OK)], "byte by byte")
        for word, answer in ((b"ruok", b"imok"), (b"isro", b"rw")):
            with Wire(server.address) as it:
                it.send(word)
                want_same(it.rest(), answer, word)
        with Wire(server.address) as it:
            it.send(b"mntr")
            want(it.rest().startswith(b"zk_version\t3.8.0-"), "a monitor needs no login")


def lateness(builds):
    """Refusals are said with the address, and come later each time. Right logins don't."""
    with Guarded(builds) as server:
        took = []
        for _ in range(3):
            began = time.monotonic()
            Stranger(server, "a wrong password").is_refused()
            took.append(time.monotonic() - began)
        # (the host looks once a second, so each may be a second later still)
        want(all(at + 0.9 < one < 9 for at, one in enumerate(took)), f"they are late: {took}")
        said = "zk: refused a connection of 127.0.0.1: it gave a wrong login\n"
        want_same(server.said().count(said), 1, "a line a minute")
        with Wire(server.address) as it:
            it.send(b"mntr")
            want(b"\nzk_strangers_refused\t3\n" in it.rest(), "they are counted")
        began = time.monotonic()
        with server.named() as it:
            want(it.ping(), "a login")
        want(time.monotonic() - began < 3, "it isn't late, as a fourth refusal is")


def files(builds):
    """A file that isn't its owner's alone, and lines that are no logins, end the start."""
    own = words_of(builds)
    for path, has in (
        (listed(builds, mode=0o644), "its mode is to be 0600"), ("/nowhere/at/all", "No such file"),
        (builds.room, "it isn't a file"), (listed(builds, ""), "there is no login"),
        (listed(builds, f"\ndigest {ANN}\nann:secret\n"), "line 3 doesn't begin with 'digest '"),
        (listed(builds, "digest ann:secret\n"), "line 1 has no 'user:' and a SHA-1"),
        (listed(builds, f"digest {ANN}\r\n"), "line 1 has no"),
        (listed(builds, "\n" * (1 << 20) + "\n"), "it has more than a MiB"),
    ):
        status, out, said = ended([*own, "--auth", path])
        want_same((status, out, said.count("\n"), has in said), (2, "", 1, True), f"{has}: {said}")
    with Server(builds, words=("--auth", listed(builds), "--listen", "0.0.0.0:0")) as server:
        want("who gives a login of" in server.said(), "no --open is needed")
    with Server(builds, words=("--auth", listed(builds, f"digest {BOB}", 0o400))) as server:
        with Client(server.address) as it:
            want_same(it.ask(AUTH, auth_body("bob:word")).code, OK, "a last line without its end")


KAZOO = """
import sys
from kazoo.client import KazooClient
def client(*given):
    return KazooClient(hosts=sys.argv[1], timeout=10, auth_data=[("digest", it) for it in given])
it = client("ann:secret")
it.start(30)
it.ensure_path("/kazoo")
lock = it.Lock("/kazoo/lock")
with lock:
    print(it.get_children("/"))
it.stop()
it.close()
for given in ((), ("ann:word",)):
    it = client(*given)
    try:
        it.start(6)
        it.create_async("/stranger").get(timeout=6)
        print("it came in")
    except Exception:
        print("refused")
    it.stop()
it = client("bob:word")
it.start(30)
print(it.exists("/stranger"))
it.stop()
"""


def kazoo(builds, python):
    """kazoo's clients with a login, without one, and with a wrong one.

    (it doesn't know the code for no login: then its thread ends, and its call has no answer)
    """
    with Guarded(builds) as server:
        _, out, said = ended([python, "-B", "-c", KAZOO, server.at], 120)
        want_same(out, "['kazoo']\nrefused\nrefused\nNone\n", said)


EACH = (strangers, logins, lateness, files)
