"""A server's folder of an older version, whose journal is written anew in the format of this one.

An older journal has another head: version 1 has no word there, and version 2 has one of two. With
the second word, all but the head is as now. Before that a snapshot has no limits of the tree, since
all had the same, and its nodes have no version of their access control lists. Entries are the same.
The old file stays as journal.old.
"""
import base64
import binascii
import contextlib
import fcntl
import os
import struct
import zlib

from ending import Stopped

MARK, NONE, OLD, NEW = b"jellqupas journal ", b" " * 12, b"tree of zk  ", b"tree of zk 2"
# The version of this program's journals, their word, and the sum from which checksums continue.
VERSION, WORD, START = 3, b"tree", 1
# The tag of a row among records; the limits that trees had: nodes, sessions, and a timeout's ticks.
ROW, LIMITS = 5, (4096, 1024, 20)
# The bytes of an older header, and where those of its counts begin.
HEADER, COUNTS = 36, 24
# The bytes between a node's path and its next version: three zxids, two times, and two versions.
MARKS = 56
IS_SET, CLEAR = 1, 0


class Damaged(ValueError):
    """The journal isn't as an older program wrote it."""


def blocks_of(data):
    """The content of the blocks that count."""
    found, at = [], 0
    while data[at : at + 1] == bytes([IS_SET]) and at + 1 < len(data):
        end = data.find(b"\0", at + 1)
        if end < 0:
            raise Damaged(f"damaged at byte {at}")
        found.append((at, data[at + 1 : end]))
        at = end + 1
    return found


def texts_of(blocks, is_running):
    """The texts of blocks, whose checksums are right: of each, or of all texts so far."""
    found, total = [], START
    for at, held in blocks:
        total = zlib.adler32(held[8:], total if is_running else START)
        if held[:8] != b"%08x" % total:
            raise Damaged(f"damaged at byte {at}")
        found.append(held[8:])
    return found


class Rows:
    """The rows of a snapshot, one after the other: a header, the root, sessions, other nodes."""

    def __init__(self):
        self.sessions = None

    def renewed(self, row):
        """The row as this version has it. A row is its length and its content."""
        body = row[4:]
        if struct.unpack(">I", row[:4])[0] != len(body):
            raise Damaged("a row has another length")
        if self.sessions is None:
            self.sessions, self.is_root = self.header(body), True
            body = body[:COUNTS] + struct.pack(">3Q", *LIMITS) + body[COUNTS:]
        elif self.is_root or not self.sessions:
            self.is_root, at = False, 4 + struct.unpack(">I", body[:4])[0] + MARKS
            body = body[:at] + bytes(8) + body[at:]
        else:
            self.sessions -= 1
        return struct.pack(">I", len(body)) + body

    def header(self, body):
        """How many sessions the header announces."""
        if len(body) != HEADER:
            raise Damaged("the snapshot is none of an older version")
        return struct.unpack(">I", body[COUNTS : COUNTS + 4])[0]


def line_of(line, rows):
    """A record's line, where a row is as this version has it."""
    record = base64.b64decode(line, validate=True)
    if record[:1] != bytes([ROW]):
        return line
    row = rows.renewed(record[5:])
    return base64.b64encode(bytes([ROW]) + struct.pack(">I", len(row)) + row)


def renewed(data):
    """The bytes of a journal, in the format of this version."""
    # (a journal of several parts begins otherwise)
    if data.startswith((bytes([IS_SET]) + MARK + bytes([VERSION]), b"after ")):
        raise Damaged("it is of this version already")
    if not data.startswith(bytes([IS_SET]) + MARK):
        raise Damaged("not a journal")
    (_, head), *blocks = blocks_of(data)
    version, servers, word = head[18], head[19], head[20:]
    if (version, word) not in ((1, NONE), (2, OLD), (2, NEW)):
        raise Damaged("a journal of something else")
    rows, total = Rows(), START
    made = [MARK + bytes([VERSION, servers]) + WORD + b"%08x" % START]
    for text in texts_of(blocks, version == 2):
        if word != NEW:
            lines = text.split(b"\n")
            text = b"\n".join(line_of(it, rows) if it else it for it in lines)
        total = zlib.adler32(text, total)
        made.append(b"%08x" % total + text)
    return b"".join(bytes([IS_SET]) + it + b"\0" for it in made) + bytes([CLEAR])


def synced(path, flags, data=b""):
    """Writes data at the end of a file or a folder, if any, and waits for the disk."""
    at = os.open(path, flags | os.O_CLOEXEC, 0o600)
    try:
        while data:
            data = data[os.write(at, data) :]
        os.fsync(at)
    finally:
        os.close(at)


def upgrade(folder):
    """Writes a folder's journal anew. At each moment the folder has the old one or the new one."""
    path, old, new = (f"{folder}/journal{it}" for it in ("", ".old", ".upgraded"))
    with contextlib.ExitStack() as opened:
        try:
            file = opened.enter_context(open(path, "r+b"))
            fcntl.flock(file, fcntl.LOCK_EX | fcntl.LOCK_NB)
        except FileNotFoundError:
            raise Stopped("data: there is no journal") from None
        except BlockingIOError:
            raise Stopped("data: the folder is in use") from None
        data = file.read()
        try:
            made = renewed(data)
        except (Damaged, binascii.Error, struct.error, IndexError) as error:
            raise Stopped(f"data: {error}") from None
        if os.path.exists(old) and not os.path.samefile(old, path):
            raise Stopped(f"data: {old}: it exists")
        with contextlib.suppress(FileNotFoundError):
            os.unlink(new)
        synced(new, os.O_WRONLY | os.O_CREAT | os.O_EXCL, made)
        if not os.path.exists(old):
            os.link(path, old)
        os.rename(new, path)
        synced(folder, os.O_RDONLY)
    return f"{len(made)} bytes, before {len(data)}; the old journal is {old}"
