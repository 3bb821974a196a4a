"""Jellqupas, a coordination service, from Python: a class over libjellqupas.so.0, which is in the
folder of this file. It needs ctypes alone, and Python 3.8.

    from jellqupas import Service

    with Service(3) as service:                     # three servers
        client = service.client(1)
        client.create("/color", b"red")             # '/color'
        client.get("/color")                        # (b'red', Stat(czxid=1, mzxid=1, ..))
        service.call("1 get /color")                # 'ok data cmVk stat 1 1 1 0 0 0 0 0 3 0'

A service is all servers of a chain, their master and their clients, in one thread. Nothing listens,
and all state is lost when it is closed. docs/GUIDE.md has what each call does, and the lines that
`Service.call` plays.

- A path is a str: absolute, of visible ASCII without spaces ("/lock/n-0000000007").
- Data is bytes, at most 65,536 of them; whatever has the bytes of a buffer is taken too.
- A version is an int, or None for any version.
- A session is what `Client.open` returned, or its number.
- Time is in ticks: only `Service.tick` moves the clock on. zxids number the changes from 1 on.

Errors. Each refusal of the service is a class of its own below `Refusal`; a call that is refused
changed nothing. `Unanswered`, `Busy`, `BadPath` and the others below `Error` say what they are.
MemoryError: the service is out of memory, for good; close it. TypeError and ValueError: an
argument isn't what the call takes, and no line was made of it.

An exception that comes from outside, as KeyboardInterrupt does, may end a call at any point. The
service continues. If the line was played, its answer is cached for the client (`Client.answer`);
that to a line of `Service.call` is in `Service.missed`.
"""
import binascii
import ctypes
import operator
import os
import re
import threading
import warnings
from dataclasses import dataclass
from typing import Any, Callable, ClassVar, Dict, List, NamedTuple, Optional, Sequence, Tuple
from typing import Type, Union

__version__ = "@VERSION@"

__all__ = [
    "Service", "Client", "Clock", "Stat", "Session", "Ticked", "Call", "Part",
    "Create", "Delete", "Set", "Check", "Get", "Exists", "Children", "Multi", "Open", "Ping",
    "Close", "Tick", "Error", "Refusal", "Unanswered", "Busy", "Idle", "BadPath", "BadData",
    "BadLine", "Closed", "WrongThread", "Forked", "SessionGone", "NodeExists", "NoNode",
    "NoChildrenForEphemerals", "SequenceFull", "PathLimit", "Full", "RootFixed", "BadVersion",
    "NotEmpty", "TooManySessions", "Exhausted", "Numbers", "Used", "Joining", "NoChain", "Lost",
    "Retiring", "NotMember", "Last", "status_text", "__version__",
]

DONE, PENDING, MEMORY, NO_SERVERS = range(4)
MAX_NUMBER = 2**62 - 1
MAX_SERVERS = 16
MAX_CLIENTS = 32
# The words of processes: the master, the servers and the clients.
PROCESSES = frozenset(("m", *(f"s{server}" for server in range(1, MAX_SERVERS + 1)),
                       *(f"c{client}" for client in range(MAX_CLIENTS))))
MAX_DATA = 65536
MAX_TTL = 1 << 20
# The bytes of a buffer for answers; a longer answer has one of its own.
BUFFER = 4096


def status_text(status: int) -> str:
    """What a status of the five functions of C says, in a few words."""
    texts = ("done", "an earlier answer wasn't fetched yet", "out of memory",
             "a chain begins with 1 to 16 servers")
    return texts[status] if 0 <= status < len(texts) else "there is no such status"


# ---- errors


class Error(Exception):
    """What a service or a client raises instead of a result."""


class Unanswered(Error):
    """No reply came, and the client still waits for it. The call may be done or not.

    The client's next call is `Busy` until the reply has come. `Client.retry` sends the call again:
    it acts once, however often it is sent. `Service.settle` delivers what is in flight, and
    `Client.answer` then returns the answer."""


class Busy(Error):
    """The client still waits for an earlier call, so nothing was done.

    `Client.retry` sends that call again, `Service.settle` delivers what is in flight, and
    `Client.answer` then returns its answer."""


class Idle(Error):
    """`Client.answer` was called, but the client waits for nothing and no answer is cached."""


class BadPath(Error, ValueError):
    """A path isn't one. `fault` says why: Empty, NotAbsolute, EmptyName, DotName, BadByte,
    NameTooLong, PathTooLong, TooDeep or Reserved."""

    @property
    def fault(self) -> str:
        return self.args[0]

    def __str__(self) -> str:
        return ": ".join(map(str, self.args))


class BadData(Error, ValueError):
    """Data has over 65,536 bytes."""


class BadLine(Error, ValueError):
    """The call has over 524,288 bytes as a line, or isn't one that this client may do."""


class Closed(Error, ValueError):
    """The service is closed."""


class WrongThread(Error, RuntimeError):
    """A service stays on the thread that made it, and is closed there."""


class Forked(Error, RuntimeError):
    """A service stays in the process that made it. In the child of a fork, make another."""


class Refusal(Error):
    """The service refused a call, and nothing changed. `part` is the index of the refused part of a
    multi, from 0 on, and None for another call."""

    part: Optional[int] = None


class SessionGone(Refusal):
    """The session isn't there, has ended, or is another client's."""


class NodeExists(Refusal):
    """There is a node of this path."""


class NoNode(Refusal):
    """There is no node of this path, or, at a create, none of its parent's."""


class NoChildrenForEphemerals(Refusal):
    """The parent is ephemeral."""


class SequenceFull(Refusal):
    """The parent's counter has given 2147483647."""


class PathLimit(Refusal):
    """The name that was made has over 255 bytes, or its path over 1,024."""


class Full(Refusal):
    """There are 4,096 nodes, the root among them."""


class RootFixed(Refusal):
    """The root isn't deleted."""


class BadVersion(Refusal):
    """The node has another version."""


class NotEmpty(Refusal):
    """The node has children."""


class TooManySessions(Refusal):
    """There are 1,024 sessions."""


class Exhausted(Refusal):
    """2^40 - 1 changes were made, or so many ticks."""


class Numbers(Refusal):
    """The client has begun all the calls that it can count, 2^62 - 1."""


class Used(Refusal):
    """A join: the server is or was in the chain."""


class Joining(Refusal):
    """A join or a retirement: a server is joining."""


class NoChain(Refusal):
    """A join: no server is left."""


class Lost(Refusal):
    """A join: the only server that is left has no state."""


class Retiring(Refusal):
    """A join or a retirement: a server was ordered to leave, and the master hasn't heard that it
    is gone."""


class NotMember(Refusal):
    """A retirement: the server isn't in the chain."""


class Last(Refusal):
    """A retirement: the server is the last one."""


REFUSALS: Dict[str, Type[Refusal]] = {it.__name__: it for it in Refusal.__subclasses__()}


# ---- results


class Stat(NamedTuple):
    """What a node has besides its data. The fields have the order of the text."""

    czxid: int
    """The change that made it."""
    mzxid: int
    """The last change of its data."""
    pzxid: int
    """The last change of its children."""
    ctime: int
    """The tick at which it was made."""
    mtime: int
    """The tick of the last change of its data."""
    version: int
    """How often its data was set."""
    cversion: int
    """How often its children changed."""
    owner: int
    """The session that it belongs to; 0 where it isn't ephemeral."""
    length: int
    """The bytes of its data."""
    children: int
    """How many children it has."""


class Session(NamedTuple):
    """A session, and after how many ticks without a ping it ends."""

    id: int
    timeout: int


class Ticked(NamedTuple):
    """What the clock shows, how many sessions ended at this tick, and how many nodes were removed
    because their time to live was over."""

    now: int
    ended: int
    removed: int


# ---- words of a line


def _number(value: Any, what: str, low: int = 0, high: int = MAX_NUMBER) -> bytes:
    """The word of a number, which is an int in this range and no bool."""
    if isinstance(value, bool):
        raise TypeError(f"{what} is an int, not a bool")
    try:
        value = operator.index(value)
    except TypeError:
        raise TypeError(f"{what} is an int, not {type(value).__name__}") from None
    if not low <= value <= high:
        raise ValueError(f"{what} is {low} to {high}, not {value}")
    return b"%d" % value


def _path(value: Any) -> bytes:
    """The word of a path. (The service looks for the faults that don't concern the line.)"""
    if not isinstance(value, str):
        raise TypeError(f"a path is a str, not {type(value).__name__}")
    text = str.__str__(value)
    if not text:
        raise BadPath("Empty")
    if not re.fullmatch(r"[!-~]+", text):
        raise BadPath("BadByte", repr(text[:200]))
    return text.encode("ascii")


def _bytes(value: Any, what: str) -> bytes:
    try:
        return memoryview(value).tobytes()
    except TypeError:
        raise TypeError(f"{what} is bytes, not {type(value).__name__}") from None


def _data(value: Any) -> bytes:
    """The word of data, base64."""
    data = _bytes(value, "data")
    if len(data) > MAX_DATA:
        raise BadData(f"data has at most {MAX_DATA} bytes, not {len(data)}")
    return binascii.b2a_base64(data, newline=False) if data else b"-"


def _version(value: Any) -> bytes:
    return b"any" if value is None else _number(value, "a version")


def _session(value: Any) -> bytes:
    return _number(value.id if isinstance(value, Session) else value, "a session")


def _server(value: Any) -> bytes:
    return b"s" + _number(value, "a server", 1, MAX_SERVERS)


def _process(value: Any) -> bytes:
    """The word of a process: m, s1 to s16, c0 to c31."""
    if not isinstance(value, str):
        raise TypeError(f"a process is a str, not {type(value).__name__}")
    word = str.__str__(value)
    if word not in PROCESSES:
        raise ValueError(f"a process is m, s1 to s16 or c0 to c31, not {value!r}")
    return word.encode("ascii")


def _line(words: Sequence[bytes]) -> bytes:
    """The line of these words. Each has a byte at least, and none that isn't visible ASCII."""
    if not all(re.fullmatch(rb"[!-~]+", word) for word in words):
        raise ValueError("a word of a line is visible ASCII without spaces")
    return b" ".join(words)


# ---- calls, as values: for a multi's parts, and for Service.begin


class Call:
    """A call of a client, as a value. `words` are those of its line. `read` makes its result of the
    words of the answer."""

    ABSENT: ClassVar[Tuple[str, ...]] = ()
    """The refusals that are no error of this call: its result is then None."""

    def words(self) -> List[bytes]:
        raise NotImplementedError

    def read(self, words: List[str]) -> Any:
        return None


class Part(Call):
    """A call that may be a part of a multi."""


@dataclass(frozen=True)
class Create(Part):
    """Makes a node; see `Client.create`."""

    path: str
    data: bytes = b""
    ephemeral: Union[None, Session, int] = None
    sequential: bool = False
    ttl: Optional[int] = None
    container: bool = False

    def kind(self) -> bytes:
        if not isinstance(self.sequential, bool):
            raise TypeError("sequential is a bool")
        if not isinstance(self.container, bool):
            raise TypeError("container is a bool")
        if self.container:
            if self.sequential or self.ephemeral is not None or self.ttl is not None:
                raise ValueError("a container has no number, no session and no time to live")
            return b"c"
        mark = b"s" if self.sequential else b""
        if self.ephemeral is not None and self.ttl is not None:
            raise ValueError("a node has a session or a time to live, not both")
        if self.ephemeral is not None:
            return b"e" + mark + b":" + _session(self.ephemeral)
        if self.ttl is not None:
            return b"t" + mark + b":" + _number(self.ttl, "a time to live", 1, MAX_TTL)
        return b"p" + mark

    def words(self) -> List[bytes]:
        return [b"create", _path(self.path), self.kind(), _data(self.data)]

    def read(self, words: List[str]) -> str:
        return words[0]


@dataclass(frozen=True)
class Delete(Part):
    """Deletes a node; see `Client.delete`."""

    path: str
    version: Optional[int] = None

    def words(self) -> List[bytes]:
        return [b"delete", _path(self.path), _version(self.version)]


@dataclass(frozen=True)
class Set(Part):
    """Writes a node's data; see `Client.set`."""

    path: str
    data: bytes
    version: Optional[int] = None

    def words(self) -> List[bytes]:
        return [b"set", _path(self.path), _version(self.version), _data(self.data)]

    def read(self, words: List[str]) -> Stat:
        return _stat(words[1:])


@dataclass(frozen=True)
class Check(Part):
    """A part of a multi that is refused unless the node is there and has this version; None is any
    version. Its result is None."""

    path: str
    version: Optional[int] = None

    def words(self) -> List[bytes]:
        return [b"check", _path(self.path), _version(self.version)]


@dataclass(frozen=True)
class Get(Call):
    """A node's data and stat; see `Client.get`."""

    path: str

    def words(self) -> List[bytes]:
        return [b"get", _path(self.path)]

    def read(self, words: List[str]) -> Tuple[bytes, Stat]:
        data = b"" if words[1] == "-" else binascii.a2b_base64(words[1])
        return data, _stat(words[3:])


@dataclass(frozen=True)
class Exists(Call):
    """A node's stat, or None; see `Client.exists`."""

    ABSENT: ClassVar[Tuple[str, ...]] = ("NoNode",)
    path: str

    def words(self) -> List[bytes]:
        return [b"exists", _path(self.path)]

    def read(self, words: List[str]) -> Stat:
        return _stat(words[1:])


@dataclass(frozen=True)
class Children(Call):
    """The names of a node's children; see `Client.children`."""

    path: str

    def words(self) -> List[bytes]:
        return [b"ls", _path(self.path)]

    def read(self, words: List[str]) -> List[str]:
        return words[1:]


@dataclass(frozen=True)
class Multi(Call):
    """1 to 64 parts, all of them or none; see `Client.multi`."""

    parts: Sequence[Part]

    def __post_init__(self) -> None:
        parts = tuple(self.parts)
        if not all(isinstance(part, Part) for part in parts):
            raise TypeError("the parts of a multi are Create, Delete, Set and Check")
        if not 1 <= len(parts) <= 64:
            raise ValueError(f"a multi has 1 to 64 parts, not {len(parts)}")
        object.__setattr__(self, "parts", parts)

    def words(self) -> List[bytes]:
        words = [b"multi"]
        for part in self.parts:
            words += [b";"] * (len(words) > 1) + part.words()
        return words

    def read(self, words: List[str]) -> List[Union[None, str, Stat]]:
        texts = " ".join(words[1:]).split(" ; ")
        return [part.read(text.split(" ")) for part, text in zip(self.parts, texts)]


@dataclass(frozen=True)
class Open(Call):
    """Opens a session; see `Client.open`."""

    timeout: int

    def words(self) -> List[bytes]:
        return [b"open", _number(self.timeout, "a timeout")]

    def read(self, words: List[str]) -> Session:
        return Session(int(words[1]), int(words[3]))


@dataclass(frozen=True)
class Ping(Call):
    """Keeps a session alive; see `Client.ping`."""

    session: Union[Session, int]

    def words(self) -> List[bytes]:
        return [b"ping", _session(self.session)]


@dataclass(frozen=True)
class Close(Call):
    """Ends a session; see `Client.close`."""

    session: Union[Session, int]

    def words(self) -> List[bytes]:
        return [b"close", _session(self.session)]


@dataclass(frozen=True)
class Tick(Call):
    """Moves the clock on by a tick; see `Service.tick`."""

    def words(self) -> List[bytes]:
        return [b"tick"]

    def read(self, words: List[str]) -> Ticked:
        return Ticked(int(words[1]), int(words[3]), int(words[5]) if len(words) > 5 else 0)


def _stat(words: List[str]) -> Stat:
    return Stat(*map(int, words))


def _result(call: Call, client: int, reply: str) -> Any:
    """The result of a call that was answered so, or the error that the answer is."""
    words = reply.split(" ")
    if words[0] == "ok":
        return call.read(words[1:])
    if words[0] == "no":
        return _refused(call, words[1:])
    if reply == "unanswered":
        raise Unanswered(f"client {client} still waits for {_brief(call)}: its next call is Busy"
                         " until retry(), settle() and answer()")
    if reply == "busy":
        raise Busy(f"client {client} still waits for an earlier call: retry(), settle(), answer()")
    if words[:2] == ["bad", "path"]:
        raise BadPath(words[2], _brief(call))
    if reply == "bad data":
        raise BadData(f"data has at most {MAX_DATA} bytes")
    raise BadLine(f"{_brief(call)} isn't understood as a line of client {client}")


def _begun(call: Call, client: int, reply: str) -> None:
    """Raises what a call that isn't begun was answered with."""
    if reply != "begun":
        _result(call, client, reply)


def _ordered(reply: str) -> None:
    """Raises what an order that isn't given was answered with."""
    if reply != "done":
        _refused(None, reply.split(" ")[1:])


def _last(text: str) -> str:
    """The last line of an answer, which is that to its own line."""
    return text.rpartition("\n")[2]


def _refused(call: Optional[Call], words: List[str]) -> None:
    """Raises a refusal, unless it is none of this call's errors."""
    part = int(words[1]) - 1 if words[0] == "multi" else None
    name = words[-1]
    if call is not None and name in call.ABSENT:
        return
    kind = REFUSALS[name]
    said = " ".join((kind.__doc__ or name).split())
    said += "" if part is None else f" (part {part})"
    error = kind(said if call is None else f"{_brief(call)}: {said}")
    error.part = part
    raise error


def _brief(call: Call) -> str:
    """A call as a text for a message, where data may be long."""
    text = repr(call)
    return text if len(text) <= 200 else f"{text[:197]}.."


# ---- clients


class _Caller:
    """One of the service's clients."""

    def __init__(self, service: "Service", number: int) -> None:
        self._service = service
        self.number = number

    def __repr__(self) -> str:
        return f"{type(self).__name__} {self.number} of {self._service!r}"

    @property
    def waits_for(self) -> Optional[Call]:
        """The call that the client still waits for, where it was begun by this module."""
        return self._service._waits_for(self.number)

    def retry(self) -> bool:
        """Sends the call that the client waits for once more; it acts once all the same. Returns
        whether there is one. `Service.settle` then delivers it."""
        return self._service._event(b"retry", b"c%d" % self.number) == "done"

    def answer(self) -> Any:
        """Returns the result of the oldest call that was answered meanwhile, or raises its error,
        and forgets it. It is the text of the answer where the call was begun by `Service.call`.
        Unanswered: the client still waits. Idle: it waits for nothing, and none is cached."""
        return self._service._answer(self.number)

    def _do(self, call: Call) -> Any:
        return self._service._do(self.number, call)


class Client(_Caller):
    """A client of a service, by its number, 1 to 31. Each method is a call of the client, and
    delivers messages until it is answered. Each may raise `Unanswered`, `Busy` and `Exhausted`,
    and each that takes a path `BadPath`, besides what its own text says."""

    def create(self, path: str, data: bytes = b"", *, ephemeral: Union[None, Session, int] = None,
               sequential: bool = False, ttl: Optional[int] = None,
               container: bool = False) -> str:
        """Makes a node, and returns its path.

        ephemeral: the session whose end deletes it. sequential: ten digits of the parent's counter
        are added to the name, so that no name comes twice. ttl: after that many ticks without a
        set, 1 to 1,048,576, a childless node is deleted. container: the node is deleted at a tick
        once it has had children and has none.
        SessionGone, NodeExists, NoNode, NoChildrenForEphemerals, SequenceFull, PathLimit, Full,
        BadData."""
        return self._do(Create(path, data, ephemeral, sequential, ttl, container))

    def delete(self, path: str, version: Optional[int] = None) -> None:
        """Deletes a node without children. RootFixed, NoNode, BadVersion, NotEmpty."""
        self._do(Delete(path, version))

    def set(self, path: str, data: bytes, version: Optional[int] = None) -> Stat:
        """Writes a node's data, and returns its new stat. NoNode, BadVersion, BadData."""
        return self._do(Set(path, data, version))

    def get(self, path: str) -> Tuple[bytes, Stat]:
        """A node's data, and its stat. NoNode."""
        return self._do(Get(path))

    def exists(self, path: str) -> Optional[Stat]:
        """A node's stat, or None where there is no such node."""
        return self._do(Exists(path))

    def children(self, path: str) -> List[str]:
        """The names of a node's children, in the order of their bytes. NoNode."""
        return self._do(Children(path))

    def multi(self, parts: Sequence[Part]) -> List[Union[None, str, Stat]]:
        """Does 1 to 64 parts (`Create`, `Delete`, `Set`, `Check`), all of them or none, and returns
        a result for each: the path of a create, the stat of a set, else None. The refusal is that
        of the first part that is refused, and `part` is its index."""
        return self._do(Multi(parts))

    def open(self, timeout: int) -> Session:
        """Opens a session, which ends when no ping came for its timeout. That is what is asked for,
        or the nearer of 2 and 20 ticks. TooManySessions."""
        return self._do(Open(timeout))

    def ping(self, session: Union[Session, int]) -> None:
        """Keeps a session alive for its timeout from now. SessionGone."""
        self._do(Ping(session))

    def close(self, session: Union[Session, int]) -> None:
        """Ends a session, and deletes its nodes. SessionGone."""
        self._do(Close(session))


class Clock(_Caller):
    """The client 0, which gives the ticks and nothing else."""

    def tick(self) -> Ticked:
        """Moves the clock on by one tick; see `Service.tick`."""
        return self._do(Tick())


# ---- the service


class _Asked(NamedTuple):
    """A line that is being played: whose call it is, and whether it came as a text."""

    line: bytes
    client: int = 0
    call: Optional[Call] = None
    is_text: bool = False


class _State(NamedTuple):
    """What a service stores between lines. It is replaced as a whole and never changed, so an
    interrupt leaves the old one or the new one."""

    noted: Optional[_Asked]
    """The last line whose answer is noted here."""
    waiting: Dict[int, Call]
    """The call that each client waits for."""
    kept: Dict[int, Tuple[Tuple[Optional[Call], str], ...]]
    """The answers for each client that weren't fetched yet, and what they are answers to."""
    missed: Tuple[Tuple[str, str], ...]
    """Lines that aren't calls and were interrupted, and their answers."""


def _noted(state: _State, asked: _Asked, text: str, is_missed: bool) -> _State:
    """The state after the answer to a line, which the line's caller didn't get if it is missed."""
    _, waiting, kept, missed = state
    if asked.is_text and not is_missed and "\n" not in text:
        return _State(asked, waiting, kept, missed)
    waiting, kept = dict(waiting), dict(kept)
    *late, reply = text.split("\n")
    for name, _, answer in (it.partition(" ") for it in late):
        client = int(name[1:])
        call = waiting.pop(client, None)
        if call is not None or not asked.is_text:
            kept[client] = (*kept.get(client, ()), (call, answer))
    if asked.call is not None and reply in ("begun", "unanswered"):
        waiting[asked.client] = asked.call
    elif is_missed and asked.call is None:
        missed = (*missed, (asked.line.decode("utf-8", "surrogateescape"), text))
    elif is_missed and reply != "busy":
        kept[asked.client] = (*kept.get(asked.client, ()), (asked.call, reply))
    return _State(asked, waiting, kept, missed)


def _loaded(path: str) -> ctypes.CDLL:
    """The shared object, with the types of its functions (jellqupas.h says what they do)."""
    library, size, at = ctypes.CDLL(path), ctypes.c_size_t, ctypes.c_void_p
    for name, result, words in [
        ("size", size, []),
        ("open", ctypes.c_uint32, [ctypes.c_uint8, at]),
        ("hear", ctypes.c_uint32, [at, ctypes.c_char_p, size]),
        ("tell", size, [at, at, size]),
        ("close", None, [at]),
    ]:
        function = getattr(library, f"jellqupas_{name}")
        function.restype, function.argtypes = result, words
    return library


LIBRARY = _loaded(os.path.join(os.path.dirname(os.path.abspath(__file__)), "libjellqupas.so.0"))


class Service:
    """A service of which the chain begins with 1 to 16 servers, and with an empty tree.

    It stays on the thread and in the process that made it (`WrongThread`, `Forked`). It can't be
    copied or pickled (TypeError). It is closed at the end of its `with`, or by `close`. One that
    isn't closed is freed with its last reference, and a ResourceWarning says so."""

    _at: Optional[int] = None

    def __init__(self, servers: int = 1) -> None:
        number = int(_number(servers, "the number of servers", 1, MAX_SERVERS))
        # (aligned to 16 within the room, which Python doesn't move)
        self._room = ctypes.create_string_buffer(LIBRARY.jellqupas_size() + 15)
        # (what is in the buffer ends at its first NUL, which no answer has)
        self._buffer = ctypes.create_string_buffer(BUFFER)
        # (the line that is being played, until the state has noted its answer)
        self._asked: Optional[_Asked] = None
        self._state = _State(None, {}, {}, ())
        self._process = os.getpid()
        self._local = threading.local()
        self._local.is_here = True
        at = (ctypes.addressof(self._room) + 15) & ~15
        if LIBRARY.jellqupas_open(number, at) != DONE:
            LIBRARY.jellqupas_close(at)
            raise MemoryError("no memory was found for the service")
        self._at = at

    def call(self, line: Union[str, bytes]) -> Any:
        """The answer to a line, without its last LF: a str for a str, and bytes for bytes or
        whatever has the bytes of a buffer. It may have several lines: answers to other clients'
        calls come first (`c2 ok /a`)."""
        if isinstance(line, str):
            asked = _Asked(line.encode("utf-8", "surrogatepass"), 0, None, True)
            return self._play(asked, str)
        asked = _Asked(_bytes(line, "a line"), 0, None, True)
        return self._play(asked, str.encode)

    def client(self, number: int) -> Client:
        """The client of this number, 1 to 31."""
        return Client(self, int(_number(number, "a client", 1, MAX_CLIENTS - 1)))

    @property
    def clock(self) -> Clock:
        """The client that gives the ticks."""
        return Clock(self, 0)

    def tick(self) -> Ticked:
        """Moves the clock on by one tick. It ends each session whose deadline it reaches, and then
        deletes each childless node whose time to live is over. Unanswered, Busy, Exhausted."""
        return self.clock.tick()

    def begin(self, client: int, call: Call) -> None:
        """Begins a client's call, and delivers nothing: its request is in flight. `settle` delivers
        it, and `Client.answer` then returns its result. Busy, Numbers, BadPath, BadData."""
        if not isinstance(call, Call):
            raise TypeError("a call is Create, Delete, Set, Get, .., as begin(1, Get('/a'))")
        word = _number(client, "a client", 0, MAX_CLIENTS - 1)
        line, number = _line([word, b"begin", *call.words()]), int(word)
        self._play(_Asked(line, number, call), lambda text: _begun(call, number, _last(text)))

    def take(self, sender: str, taker: str) -> bool:
        """Delivers the first message from one process to another: m is the master, s1 to s16 are
        servers, c0 to c31 clients. Returns whether there was one that could be delivered."""
        return self._event(b"take", _process(sender), _process(taker)) == "done"

    def ignore(self, sender: str, taker: str) -> bool:
        """Loses the first message from a client to a server. Returns whether there was one."""
        return self._event(b"ignore", _process(sender), _process(taker)) == "done"

    def fail(self, server: int) -> bool:
        """A server crashes, for good; what it has sent is still delivered. Returns whether it was
        alive."""
        return self._event(b"fail", _server(server)) == "done"

    def join(self, server: int) -> None:
        """A server joins at the end of the chain, once `settle` has delivered what it takes. Used,
        Joining, NoChain, Lost, Retiring."""
        self._order(b"join", _server(server))

    def retire(self, server: int) -> None:
        """A server is ordered to leave the chain, and does so once `settle` has delivered that.
        NotMember, Joining, Last, Retiring."""
        self._order(b"retire", _server(server))

    def settle(self) -> bool:
        """Delivers messages until none is in flight. Returns whether it came so far: False after
        100,000 events."""
        return self._event(b"settle") == "quiet"

    def missed(self) -> List[Tuple[str, str]]:
        """Returns the lines that were played and whose caller was interrupted by an exception from
        outside, with their answers, and forgets them. For calls of clients see `Client.answer`."""
        self._recover(self._here())
        after, missed = self._state._replace(missed=()), list(self._state.missed)
        self._state = after
        return missed

    def close(self) -> None:
        """Ends the service. It may be called again. In the child of a fork it only forgets it."""
        if self._at is not None and os.getpid() == self._process:
            self._here()
            # (in this order: after an interrupt nothing is closed twice)
            at, self._at = self._at, None
            LIBRARY.jellqupas_close(at)
        self._at = None

    def __reduce_ex__(self, protocol: Any) -> Any:
        raise TypeError("a service can't be copied or pickled")

    def __enter__(self) -> "Service":
        return self

    def __exit__(self, *_: Any) -> None:
        self.close()

    def __repr__(self) -> str:
        return f"<Service {'closed' if self._at is None else 'open'} at {id(self):#x}>"

    def __del__(self, warn: Any = warnings.warn) -> None:
        if self._at is None or os.getpid() != self._process:
            return
        is_here = getattr(self._local, "is_here", False)
        left = "" if is_here else ", and another thread can't free it"
        said = f"{self!r} was not closed{left}"
        if is_here:
            self.close()
        warn(said, ResourceWarning, source=self)

    def _here(self) -> int:
        """The service's address, for its own thread."""
        at = self._at
        if at is None:
            raise Closed("the service is closed")
        if os.getpid() != self._process:
            raise Forked("a service stays in the process that made it")
        if not getattr(self._local, "is_here", False):
            raise WrongThread("a service stays on the thread that made it")
        return at

    def _told(self, at: int) -> str:
        """The answer that waits, or that was already written to the buffer; "" if there is none.
        Until `_clear` it may be asked for again."""
        while True:
            buffer = self._buffer
            text = buffer.value
            if text:
                return text[:-1].decode("ascii")
            count = LIBRARY.jellqupas_tell(at, buffer, len(buffer) - 1)
            if not count:
                return ""
            if count >= len(buffer):
                self._buffer = ctypes.create_string_buffer(count + 1)

    def _clear(self) -> None:
        if len(self._buffer) == BUFFER:
            ctypes.memset(self._buffer, 0, BUFFER)
        else:
            self._buffer = ctypes.create_string_buffer(BUFFER)

    def _recover(self, at: int) -> None:
        """Notes the answer of a line that was interrupted, if it was played."""
        state, asked = self._state, self._asked
        if asked is not None and asked is not state.noted:
            text = self._told(at)
            if text:
                self._state = _noted(state, asked, text, True)
            self._asked = None
        self._clear()

    def _play(self, asked: _Asked, read: Callable[[str], Any]) -> Any:
        """Plays a line, and returns what `read` makes of its answer. Wherever an exception from
        outside ends this, the answer is in the library or the buffer, and `_recover` finds it."""
        at = self._here()
        self._recover(at)
        self._asked = asked
        status = LIBRARY.jellqupas_hear(at, asked.line, len(asked.line))
        if status == PENDING:
            # (another caller used the library's own functions on this service)
            self._told(at)
            self._clear()
            status = LIBRARY.jellqupas_hear(at, asked.line, len(asked.line))
        if status != DONE:
            raise MemoryError("the service is out of memory, for good: close it")
        text = self._told(at)
        if self._asked is not asked:
            raise RuntimeError("the service was called in a signal handler meanwhile; the answer"
                               " to this call is cached (Client.answer, Service.missed)")
        return self._hand_out(lambda: read(text), _noted(self._state, asked, text, False))

    def _hand_out(self, read: Callable[[], Any], after: _State) -> Any:
        """A result, or the error that it is. Only once it is made is the state the one after it."""
        try:
            result = read()
        except Error:
            self._state = after
            raise
        self._state = after
        return result

    def _do(self, client: int, call: Call) -> Any:
        """The result of a client's call."""
        line = _line([b"%d" % client, *call.words()])
        asked = _Asked(line, client, call)
        return self._play(asked, lambda text: _result(call, client, _last(text)))

    def _event(self, *words: bytes) -> str:
        """The last line of what a line of these words is answered with."""
        return self._play(_Asked(_line(words)), _last)

    def _order(self, *words: bytes) -> None:
        self._play(_Asked(_line(words)), lambda text: _ordered(_last(text)))

    def _waits_for(self, client: int) -> Optional[Call]:
        self._recover(self._here())
        return self._state.waiting.get(client)

    def _answer(self, client: int) -> Any:
        """The oldest answer that is cached for a client, as a result."""
        self._recover(self._here())
        answers = self._state.kept.get(client, ())
        if not answers:
            call = self._state.waiting.get(client)
            if call is not None:
                _result(call, client, "unanswered")
            raise Idle(f"client {client} waits for nothing, and no answer is cached for it")
        call, reply = answers[0]
        after = self._state._replace(kept={**self._state.kept, client: answers[1:]})
        return self._hand_out(lambda: _result(call, client, reply) if call else reply, after)
