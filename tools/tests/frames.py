"""The bytes of ZooKeeper's protocol, as zookeeper.jute has them."""
import struct
from collections import namedtuple

CREATE, DELETE, EXISTS, GET, SET, GET_ACL, SET_ACL, LS, SYNC, _, PING, LS2 = range(1, 13)
CHECK, MULTI, CREATE2, CONTAINER, CREATE_TTL, MULTI_READ = 13, 14, 15, 19, 21, 22
AUTH, SET_WATCHES, CLOSE, EVENT_XID, PING_XID, AUTH_XID = 100, 101, -11, -1, -2, -4
CHECK_WATCHES, REMOVE_WATCHES, SET_WATCHES_2, ADD_WATCH = 17, 18, 105, 106
SASL, EPHEMERALS, COUNT_BELOW, WHO_AM_I, CREATE_SESSION = 102, 103, 104, 107, -10
CREATED, DELETED, CHANGED, CHILD = 1, 2, 3, 4
EPHEMERAL, SEQUENTIAL, OF_CHILDREN, TTL, TTL_SEQUENTIAL, MAX_FRAME = 1, 2, 4, 5, 6, 0xfffff
OK, SYSTEM, RUNTIME, MARSHALLING, UNIMPLEMENTED, ARGUMENTS = 0, -1, -2, -5, -6, -8
NO_NODE, VERSION, NO_WATCHER = -101, -103, -121
NO_CHILDREN, EXISTS_ALREADY, NOT_EMPTY, ACL, AUTH_FAILED = -108, -110, -111, -114, -115

int4, int8 = struct.Struct(">i").pack, struct.Struct(">q").pack
Stat = namedtuple(
    "Stat", "czxid mzxid ctime mtime version cversion aversion owner length children pzxid"
)


def text(it):
    """A path, data or a frame, where None is one that is null."""
    it = it.encode() if isinstance(it, str) else it
    return int4(-1) if it is None else int4(len(it)) + it


def acl(permissions=31, scheme="world", name="anyone"):
    return int4(1) + int4(permissions) + text(scheme) + text(name)


def request(xid, op, body=b""):
    return text(int4(xid) + int4(op) + body)


def greeting(timeout=40000, session=0, password=bytes(16), seen=0, last=b"\0"):
    return text(int4(0) + int8(seen) + int4(timeout) + int8(session) + text(password) + last)


def create_body(path, data=b"", kind=0, acls=acl(), ttl=None):
    return text(path) + text(data) + acls + int4(kind) + (b"" if ttl is None else int8(ttl))


def at_version(path, version=-1):
    return text(path) + int4(version)


def set_body(path, data=b"", version=-1):
    return text(path) + at_version(data, version)


def look_body(path, watch=False):
    return text(path) + bytes([watch])


def multi_body(*parts):
    """The body of a multi, whose last 9 bytes are its end."""
    head = int4(-1) + b"\1" + int4(-1)
    return b"".join(int4(op) + b"\0" + int4(-1) + body for op, body in parts) + head


def watches_body(seen, *paths):
    """The paths whose data, existence and children are watched; then, each time, and below."""
    return int8(seen) + b"".join(int4(len(some)) + b"".join(map(text, some)) for some in paths)


class Reader:
    """Reads some bytes from the left."""

    def __init__(self, data):
        self.data, self.at = data, 0

    def take(self, count):
        if count < 0 or self.at + count > len(self.data):
            raise ValueError(f"{count} bytes wanted at {self.at} of {self.data!r}")
        self.at += count
        return self.data[self.at - count : self.at]

    def numbers(self, form):
        return struct.unpack(form, self.take(struct.calcsize(form)))

    def buffer(self):
        return self.take(self.numbers(">i")[0])

    def text(self):
        return self.buffer().decode()

    def texts(self):
        return sorted(self.text() for _ in range(self.numbers(">i")[0]))

    def stat(self):
        return Stat(*self.numbers(">qqqqiiiqiiq"))

    def named(self):
        return self.text(), self.stat()

    def found(self):
        return self.buffer(), self.stat()
