"""Entries of the master's log: their bytes, and what they make (crates/zmaster_log/specs)."""
import struct

OPENING, JOIN, RETIRE, REPORT = range(4)
HAVE, JOINED, GONE = range(3)
MAX_SERVERS = 16


def sized(data):
    """Bytes after their length."""
    return struct.pack(">I", len(data)) + data


def opening(*nodes):
    """The entry by which the log begins: a server on each of these nodes."""
    named = b"".join(sized(it.encode()) for it in nodes)
    return struct.pack(">BI", OPENING, len(nodes)) + named


def join(server, node):
    return bytes((JOIN, server)) + sized(node.encode())


def retire(server):
    return bytes((RETIRE, server))


def gone(author, earlier, server):
    """The report that a server is gone, by an author with so many earlier reports."""
    return struct.pack(">BBQBB", REPORT, author, earlier, GONE, server)


def names_in(data):
    """The names of nodes in these bytes, each after its length."""
    at, found = 0, []
    while at < len(data):
        end = at + 4 + struct.unpack_from(">I", data, at)[0]
        found.append(data[at + 4 : end].decode("ascii"))
        at = end
    return found


class Chain:
    """What the entries played so far make. Server n is on `nodes[n - 1]`."""

    def __init__(self):
        self.played, self.nodes, self.chain, self.gone, self.counts = 0, [], [], {}, {}
        self.joining = self.retiring = None

    def is_live(self, server):
        return 1 <= server <= len(self.nodes) and server not in self.gone

    def head(self):
        return self.chain[0] if self.chain else None

    def tail(self):
        """The last member that has the state, or the head."""
        return next((it for it in self.chain[::-1] if it != self.joining), self.head())

    def live_on(self, node):
        """The server on a node that isn't gone, or None."""
        return next((it + 1 for it in range(len(self.nodes))[::-1]
                     if self.nodes[it] == node and it + 1 not in self.gone), None)

    def state_of(self, server):
        if server in self.gone:
            return self.gone[server]
        return {self.joining: "joining", self.retiring: "retiring"}.get(server, "member")

    def join_fault(self):
        """Why the master refuses that a server joins, or None."""
        tests = (
            (self.joining and len(self.chain) > 1, "Joining"), (not self.chain, "NoChain"),
            (self.chain == [self.joining], "Lost"), (self.retiring, "Retiring"),
        )
        return next((fault for holds, fault in tests if holds), None)

    def retire_fault(self, server):
        """Why the master refuses to order that server to leave, or None."""
        tests = (
            (server not in self.chain, "NotMember"), (self.joining, "Joining"),
            (len(self.chain) == 1, "Last"), (self.retiring, "Retiring"),
        )
        return next((fault for holds, fault in tests if holds), None)

    def play(self, entry):
        """Plays the next entry. Returns the servers that it adds, and those that are gone by it."""
        first, ended = len(self.nodes), len(self.gone)
        kind, of_kind = entry[0], (self.open, self.join, self.retire, self.report)
        if kind < len(of_kind) and bool(first) != (kind == OPENING):
            of_kind[kind](entry)
        self.played += 1
        return range(first + 1, len(self.nodes) + 1), [*self.gone][ended:]

    def open(self, entry):
        self.nodes = names_in(entry[5:])
        self.chain = [*range(1, len(self.nodes) + 1)]

    def join(self, entry):
        if entry[1] == len(self.nodes) + 1 and not self.join_fault():
            self.nodes += names_in(entry[2:])
            self.chain.append(entry[1])
            self.joining = entry[1]

    def retire(self, entry):
        if not self.retire_fault(entry[1]):
            self.retiring = entry[1]

    def report(self, entry):
        author, earlier, news = struct.unpack_from(">BQB", entry, 1)
        subject = entry[11] if news == GONE else author
        is_next = self.counts.get(author, 0) == earlier
        if not (self.is_live(author) and is_next and self.is_live(subject)):
            return
        self.counts[author] = earlier + 1
        if news == JOINED and self.joining == author:
            self.joining = None
        if news == GONE:
            self.leave(subject)

    def leave(self, server):
        self.gone[server] = "retired" if server == self.retiring else "gone"
        self.chain = [it for it in self.chain if it != server]
        self.joining = None if self.joining == server else self.joining
        self.retiring = None if self.retiring == server else self.retiring
