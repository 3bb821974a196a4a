"""Calls and replies of clients, as lines of a script and as bytes.

The lines are those of `crates/zscript_text/specs`, the bytes those of `crates/zwire/specs`.
"""
import base64
import binascii
import re
import struct

from log_entries import sized

MAX_DATA = 65_536
MAX_TTL = 1 << 20
MAX_CLIENTS = 32
MAX_LINE, MAX_PARTS = 8 * MAX_DATA, 64
SUBMIT, QUERY, ANSWER = range(3)
UPDATES = ("create", "delete", "set", "multi", "open", "ping", "close", "tick")
QUERIES = ("get", "exists", "ls")
PARTS = ("create", "delete", "set", "check")
KINDS = {"t": 2, "ts": 3, "e": 4, "es": 5}
REFUSALS = (
    "NoNode", "NodeExists", "NotEmpty", "BadVersion", "NoChildrenForEphemerals", "SessionGone",
    "SequenceFull", "PathLimit", "RootFixed", "Full", "TooManySessions", "Exhausted",
)
MAGIC = b"jlqn0001"
# How a process is spelled: its kind and its number.
SERVER, CLIENT = 1, 2


class Bad(Exception):
    """The answer to a line that is no call."""


def long(number):
    return struct.pack(">Q", number)


# ---- words of a line

def need(holds):
    if not holds:
        raise Bad("bad line")


def number(word):
    need(re.fullmatch("0|[1-9][0-9]{0,18}", word) and int(word) < 1 << 62)
    return int(word)


def path(word):
    """A path, after its length; or its first fault."""
    names = word[1:].split("/") if word != "/" else []
    tests = (
        ("Empty", not word), ("NotAbsolute", not word.startswith("/")),
        ("EmptyName", "" in names), ("DotName", any(it in (".", "..") for it in names)),
        ("BadByte", any(not 0x21 <= ord(it) <= 0x7E for name in names for it in name)),
        ("NameTooLong", any(len(it) > 255 for it in names)), ("PathTooLong", len(word) > 1024),
        ("TooDeep", len(names) > 64), ("Reserved", names[:1] == ["zookeeper"]),
    )
    for fault, holds in tests:
        if holds:
            raise Bad(f"bad path {fault}")
    return sized(word.encode())


def content(word):
    """Data, after its length."""
    if word == "-":
        return sized(b"")
    try:
        found = base64.b64decode(word, validate=True)
    except binascii.Error:
        raise Bad("bad data") from None
    if base64.b64encode(found).decode() != word or not 1 <= len(found) <= MAX_DATA:
        raise Bad("bad data")
    return sized(found)


def version(word):
    return b"\0" if word == "any" else b"\1" + long(number(word))


def kind(word):
    if word in ("p", "ps"):
        return bytes([len(word) - 1])
    if word == "c":
        return bytes([6])
    name, colon, value = word.partition(":")
    need(colon and name in KINDS)
    need(name in ("e", "es") or 0 < number(value) <= MAX_TTL)
    return bytes([KINDS[name]]) + long(number(value))


# ---- calls

def change(words):
    """What a change of one node, or a check, is made of, and the words that follow it."""
    verb, count = words[0], 4 if words[0] in ("create", "set") else 3
    need(verb in PARTS and len(words) >= count)
    at, second = words[1], (kind if verb == "create" else version)(words[2])
    of_data = [words[3]] if count == 4 else []
    return (PARTS.index(verb), at, second, of_data), words[count:]


def spelled(part):
    """A change's bytes. Its path is read before its data."""
    tag, at, second, of_data = part
    return bytes([tag]) + path(at) + second + b"".join(content(it) for it in of_data)


def parts(words):
    """The bytes of a multi. Its shape is tested before any path or data is."""
    found = []
    while True:
        need(words and len(found) < MAX_PARTS)
        part, words = change(words)
        found.append(part)
        if not words:
            return struct.pack(">I", len(found)) + b"".join(spelled(it) for it in found)
        need(words[0] == ";")
        words = words[1:]


def call(client, words):
    """A call's message without its number: its tag, and what follows the number."""
    need(words)
    verb, rest = words[0], words[1:]
    need((verb == "tick") == (client == 0))
    if verb in QUERIES:
        need(len(rest) == 1)
        return QUERY, bytes([QUERIES.index(verb)]) + path(rest[0])
    if verb == "tick":
        need(not rest)
        return SUBMIT, bytes([UPDATES.index(verb)])
    if verb == "multi":
        return SUBMIT, bytes([UPDATES.index(verb)]) + parts(rest)
    if verb in ("open", "ping", "close"):
        need(len(rest) == 1)
        return SUBMIT, bytes([UPDATES.index(verb)]) + long(number(rest[0]))
    part, rest = change(words)
    need(verb != "check" and not rest)
    return SUBMIT, spelled(part)


def line(text, client=None):
    """The client and the call of a line, given as bytes; without its client where one is given."""
    need(len(text) <= MAX_LINE and not re.search(rb"[^ -~]|  |^ | $|^$", text))
    words = text.decode("ascii").split(" ")
    if client is None:
        client, words = number(words[0]), words[1:]
    need(client < MAX_CLIENTS)
    return client, call(client, words)


# ---- replies

class Reader:
    """The bytes of a reply, read from the front."""

    def __init__(self, data):
        self.data, self.at = data, 0

    def take(self, count):
        self.at += count
        return self.data[self.at - count : self.at]

    def byte(self):
        return self.take(1)[0]

    def long(self):
        return int.from_bytes(self.take(8), "big")

    def sized(self):
        return self.take(int.from_bytes(self.take(4), "big"))

    def text(self):
        return self.sized().decode("ascii")

    def stat(self):
        """A stat, without its eighth number: no script says how often an ACL was written."""
        found = [self.long() for _ in range(11)]
        return " ".join(map(str, ["stat", *found[:7], *found[8:]]))

    def part(self):
        return (self.text, lambda: "deleted", self.stat, lambda: "checked")[self.byte()]()

    def ticked(self):
        tick, ended, removed = self.long(), self.long(), self.long()
        return f"ok tick {tick} ended {ended}{f' removed {removed}' if removed else ''}"

    def data_stat(self):
        data = base64.b64encode(self.sized()).decode() or "-"
        return f"ok data {data} {self.stat()}"

    def names(self):
        found = [self.text() for _ in range(self.long())]
        return " ".join(["ok", str(len(found)), *found])

    def reply(self):
        """The text of a reply, as a script prints it."""
        return (
            lambda: f"ok {self.text()}", lambda: "ok deleted", lambda: f"ok {self.stat()}",
            lambda: "ok multi " + " ; ".join(self.part() for _ in range(self.long())),
            lambda: f"ok session {self.long()} timeout {self.long()}", lambda: "ok pinged",
            lambda: "ok closed", self.ticked, self.data_stat, lambda: f"ok {self.stat()}",
            self.names, lambda: f"no {REFUSALS[self.byte()]}",
            lambda: f"no multi {self.long()} {REFUSALS[self.byte()]}",
        )[self.byte()]()


# ---- frames

def hello(cluster, sender, receiver, nonce):
    """What begins a connection. Processes are a kind and a number each."""
    return MAGIC + sized(cluster.encode()) + bytes((*sender, *receiver)) + nonce


def frame(client, server, tag, call_number, rest):
    """The record of a call to a server."""
    head = bytes((CLIENT, client, SERVER, server, tag))
    return b"\0" + sized(head + long(call_number) + rest)


def answers(begun):
    """The number and the text of each answer that came whole, and the bytes that follow."""
    found, at = [], 0
    while len(begun) - at >= 5:
        end = at + 5 + int.from_bytes(begun[at + 1 : at + 5], "big")
        if len(begun) < end:
            break
        it = Reader(begun[at + 9 : end])
        if begun[at] == 0 and it.byte() == ANSWER:
            found.append((it.long(), it.reply()))
        at = end
    return found, begun[at:]
