"""The master's log in one file, for the nodes of one machine.

    log_file.py PATH

The host of a node runs this beside its child, and speaks lines with it (host/log.c). Each entry is
written to the host once, in order, whoever appended it. So the answer to an append is the entry at
its index: the host's own, or the one of another node that was faster.

The file has a head, `jellqupas log 1 CLUSTER NODE`, where NODE may open the log. Then each entry
has a line: its index, its length, a sum, and its bytes in base64. An entry is appended under a
lock, and is durable before the lock is released. What a last line lacks was never acknowledged:
whoever appends next cuts it off.
"""
import base64
import binascii
import contextlib
import fcntl
import os
import select
import sys
import zlib

sys.dont_write_bytecode = True
import log_entries

HEAD = b"jellqupas log 1 "
NONE = "there is no log; './zk cluster FILE init' makes it"
# The bytes of the longest line, and the seconds between two looks at the file.
MOST, EACH = 16384, 0.02


class Fault(Exception):
    """Why the log can't be used."""


def line_of(index, entry):
    text = b"%d %d %s" % (index, len(entry), base64.b64encode(entry))
    return b"%08x %s\n" % (zlib.crc32(text), text)


def entry_of(index, line):
    """The entry that a whole line has, or None."""
    try:
        entry = base64.b64decode(line.split(b" ")[3])
    except (IndexError, binascii.Error):
        return None
    return entry if entry and line_of(index, entry) == line + b"\n" else None


def create(path, cluster, node):
    """Makes a log without entries. There is none before."""
    made = f"{path}.{os.getpid()}"
    try:
        with open(made, "xb") as file:
            file.write(HEAD + f"{cluster} {node}\n".encode())
            file.flush()
            os.fsync(file.fileno())
        os.link(made, path)
    finally:
        with contextlib.suppress(FileNotFoundError):
            os.unlink(made)
    folder = os.open(os.path.dirname(os.path.abspath(path)), os.O_RDONLY)
    os.fsync(folder)
    os.close(folder)


class Log:
    """The file, of which `count` entries were read, and that is read up to `end`."""

    def __init__(self, path):
        self.path, self.count = path, 0
        self.file = os.open(path, os.O_RDWR | os.O_CLOEXEC)
        head, has_end, _ = os.pread(self.file, 256, 0).partition(b"\n")
        words = head[len(HEAD) :].decode("ascii", "replace").split(" ")
        if not has_end or not head.startswith(HEAD) or len(words) != 2:
            raise Fault(f"{path}: not a log of this version")
        (self.cluster, self.opener), self.end = words, len(head) + 1

    def close(self):
        os.close(self.file)

    def new_entries(self):
        """The entries that weren't read before, each with its index."""
        found = []
        while os.fstat(self.file).st_size > self.end:
            *lines, rest = os.pread(self.file, 1 << 16, self.end).split(b"\n")
            if not lines and len(rest) > MOST:
                self.refuse()
            for line in lines:
                entry = entry_of(self.count, line)
                if entry is None:
                    self.refuse()
                found.append((self.count, entry))
                self.count, self.end = self.count + 1, self.end + len(line) + 1
            if not lines:
                break
        return found

    def refuse(self):
        raise Fault(f"{self.path}: damaged at byte {self.end}")

    def append(self, index, entry):
        """Appends the entry if this is its index. Returns the entries that weren't read before."""
        fcntl.flock(self.file, fcntl.LOCK_EX)
        try:
            found = self.new_entries()
            if self.count == index:
                self.write(line_of(index, entry))
                found += self.new_entries()
            return found
        finally:
            fcntl.flock(self.file, fcntl.LOCK_UN)

    def write(self, line):
        """Writes a line behind the last one, and waits for the disk."""
        os.ftruncate(self.file, self.end)
        at = self.end
        while line:
            count = os.pwrite(self.file, line, at)
            line, at = line[count:], at + count
        os.fsync(self.file)


class Helper:
    """What a host is told of the log."""

    def __init__(self, path):
        self.log, self.chain, self.begun, self.is_new = Log(path), log_entries.Chain(), b"", True
        self.tell(f"log {self.log.cluster} {self.log.opener}")

    def tell(self, *lines):
        sys.stdout.write("".join(f"{it}\n" for it in lines))

    def show(self, entries):
        for index, entry in entries:
            added, gone = self.chain.play(entry)
            self.tell(*(f"server {it} {self.chain.nodes[it - 1]}" for it in added))
            self.tell(f"at {index} {base64.b64encode(entry).decode()}")
            self.tell(*(f"gone {it}" for it in gone))
            self.is_new = True

    def follow(self):
        """Shows what is new, and appends what the host asks for, until it ends."""
        while True:
            self.show(self.log.new_entries())
            if self.is_new:
                self.tell("end")
            self.is_new = False
            sys.stdout.flush()
            if not select.select([0], [], [], EACH)[0]:
                continue
            more = os.read(0, 1 << 16)
            if not more:
                return
            *lines, self.begun = (self.begun + more).split(b"\n")
            for line in lines:
                self.hear(line)

    def hear(self, line):
        word, index, text = line.split(b" ")
        if word != b"append":
            raise Fault(f"the host sent {word}")
        self.show(self.log.append(int(index), base64.b64decode(text)))


def main(path):
    try:
        Helper(path).follow()
    except FileNotFoundError:
        raise Fault(f"{path}: {NONE}") from None


if __name__ == "__main__":
    try:
        main(*sys.argv[1:])
    except Fault as error:
        sys.exit(os.write(2, f"zk: log: {error}\n".encode()) and 3)
    except BrokenPipeError:
        os._exit(0)
    except OSError as error:
        os.write(2, f"zk: log: {error.filename or 'the file'}: {error.strerror.lower()}\n".encode())
        sys.exit(3)
