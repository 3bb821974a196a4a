"""Connections of ZooKeeper's protocol: any bytes, or a client's requests over a session.

A request that is refused raises `Refused` with its code. `seen` has what came to a client, events
and answers, in their order.
"""
import contextlib
import socket
import time
from collections import namedtuple

from frames import *

Answer = namedtuple("Answer", "xid zxid code body")
Event = namedtuple("Event", "kind path")
Greeted = namedtuple("Greeted", "timeout session password")
NO_SESSION = Greeted(0, 0, bytes(16))


class Refused(Exception):
    """A request was refused, with this code."""


class Ended(Exception):
    """The connection is closed."""


class Wire(contextlib.AbstractContextManager):
    """A connection."""

    def __init__(self, address, room=None, of=""):
        self.socket = socket.socket()
        if of:
            self.socket.bind((of, 0))
        if room:
            self.socket.setsockopt(socket.SOL_SOCKET, socket.SO_RCVBUF, room)
        self.socket.settimeout(60)
        self.socket.connect(address)
        self.socket.setsockopt(socket.IPPROTO_TCP, socket.TCP_NODELAY, 1)
        self.file = self.socket.makefile("rb")

    def __exit__(self, *_):
        self.drop()

    def drop(self):
        self.file.close()
        self.socket.close()

    def send(self, data):
        try:
            self.socket.sendall(data)
        except ConnectionError as error:
            raise Ended from error

    def take(self, count):
        with contextlib.suppress(ConnectionError):
            found = self.file.read(count)
            if len(found) == count:
                return found
        raise Ended

    def frame(self):
        return Reader(self.take(int.from_bytes(self.take(4), "big")))

    def rest(self):
        """All that comes until the connection is closed."""
        found = b""
        with contextlib.suppress(ConnectionError):
            while came := self.file.read1(1 << 20):
                found += came
        return found

    def is_ended(self):
        """Whether the connection is closed, and nothing else came before that."""
        return self.rest() == b""

    def greet(self, **given):
        """Opens a session, or takes one up."""
        self.send(greeting(**given))
        return self.greeted()

    def greeted(self):
        reader = self.frame()
        return Greeted(*reader.numbers(">4xiq"), reader.buffer())


class Client(Wire):
    """A connection with a session, which is opened or is taken up from another client."""

    def __init__(self, address, of=None, room=None, **given):
        super().__init__(address, room)
        self.zxid, self.seen = 0, []
        if of:
            given = {"session": of.session, "password": of.password, "seen": of.zxid}
        self.timeout, self.session, self.password = self.greet(**given)

    def post(self, op, body=b"", xid=1):
        """Sends a request, and doesn't wait."""
        self.send(request(xid, op, body))

    def next(self):
        """What comes next: an event or an answer."""
        reader = self.frame()
        found = Answer(*reader.numbers(">iqi"), reader.data[16:])
        if found.xid == EVENT_XID:
            found = Event(reader.numbers(">i4x")[0], reader.text())
        elif found.code and found.body or found.xid != AUTH_XID and found.zxid < self.zxid:
            raise ValueError(f"a body with a refusal, or a zxid that fell: {found}, {self.zxid}")
        else:
            self.zxid = max(found.zxid, self.zxid)
        self.seen.append(found)
        return found

    def answer(self, xid):
        """The next answer, which is to have this xid. Events may come before it."""
        while isinstance(found := self.next(), Event):
            pass
        if found.xid != xid:
            raise ValueError(f"an answer to {found.xid} in the place of {xid}")
        return found

    def ask(self, op, body=b"", xid=1):
        self.post(op, body, xid)
        return self.answer(xid)

    def ping(self):
        return self.ask(PING, xid=PING_XID).code == OK

    def events(self):
        """The events since this was last asked."""
        self.ping()
        found = sorted(it for it in self.seen if isinstance(it, Event))
        self.seen.clear()
        return found

    def call(self, op, body=b"", read=lambda reader: None):
        """What `read` finds in the answer's body, and nothing after it."""
        found = self.ask(op, body)
        if found.code != OK:
            raise Refused(found.code)
        reader = Reader(found.body)
        result = read(reader)
        if reader.at != len(reader.data):
            raise ValueError(f"bytes after {result} in {found}")
        return result

    def create(self, path, data=b"", kind=0):
        return self.call(CREATE, create_body(path, data, kind), Reader.text)

    def delete(self, path):
        return self.call(DELETE, at_version(path))

    def exists(self, path, watch=False):
        return self.call(EXISTS, look_body(path, watch), Reader.stat)

    def get(self, path, watch=False):
        return self.call(GET, look_body(path, watch), Reader.found)

    def set(self, path, data=b"", version=-1):
        return self.call(SET, set_body(path, data, version), Reader.stat)

    def ls(self, path):
        return self.call(LS, look_body(path), Reader.texts)


def until(holds, seconds=60):
    """Whether it holds before so many seconds have gone by."""
    end = time.monotonic() + seconds
    while not holds():
        if time.monotonic() > end:
            return False
        time.sleep(0.01)
    return True


def greeted(address, of, password):
    """The answer to who takes a session up by a password."""
    with Wire(address) as it:
        return it.greet(session=of.session, password=password)


def refused(call, *words):
    """The code by which a call is refused, or None."""
    try:
        call(*words)
    except Refused as error:
        return error.args[0]
    return None
