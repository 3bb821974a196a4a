"""Clients of a chain of nodes: they send calls, and send them again until a reply comes."""
import os
import selectors
import socket
import sys
import time

import clusters
import messages
from ending import Stopped

# The seconds after which a call is sent again, and those after which a client no longer waits.
AGAIN, DEADLINE = 0.3, 10
BLOCK = 1 << 16


class Client:
    """One client: its connections, by their servers, and the call that it waits for.

    Its numbers begin with the time, so that they rise from one process to the next.
    """

    def __init__(self, number, cluster, followed, selector):
        self.number, self.cluster = number, cluster
        self.followed, self.selector = followed, selector
        self.last, self.sockets, self.nonce = time.time_ns() // 1000, {}, os.urandom(8)
        self.waits, self.reply = None, None

    def begin(self, call):
        """Sends a call. Its reply is then to come."""
        self.last, self.waits, self.reply, self.turn = self.last + 1, call, None, 0
        self.send()

    def candidates(self):
        """The servers to ask, the head or the tail first."""
        chain = self.followed.chain
        tail, members = chain.tail(), [it for it in chain.chain if it != chain.joining]
        members = members or chain.chain
        return members if self.waits[0] == messages.SUBMIT else members[::-1], tail

    def send(self):
        """Sends the call to the next candidate."""
        self.sent = time.monotonic()
        members, tail = self.candidates()
        if not members:
            return
        server = members[self.turn % len(members)]
        self.turn += 1
        # (the tail answers updates)
        self.connected(tail)
        it = self.connected(server)
        try:
            if it:
                it.sendall(messages.frame(self.number, server, self.waits[0], self.last,
                                          self.waits[1]))
        except OSError:
            self.drop(server)

    def connected(self, server):
        """The connection with a server, or None if there is none."""
        if server not in self.sockets:
            address = self.cluster.nodes[self.followed.chain.nodes[server - 1]]
            host, _, port = address.rpartition(":")
            try:
                it = socket.create_connection((host.strip("[]"), int(port)), 1)
                it.setsockopt(socket.IPPROTO_TCP, socket.TCP_NODELAY, 1)
                ends = (messages.CLIENT, self.number), (messages.SERVER, server)
                it.sendall(messages.hello(self.cluster.name, *ends, self.nonce))
            except OSError:
                return None
            self.sockets[server] = it
            self.selector.register(it, selectors.EVENT_READ, [self, server, b""])
        return self.sockets[server]

    def drop(self, server):
        if server in self.sockets:
            self.selector.unregister(self.sockets[server])
            self.sockets.pop(server).close()

    def close(self):
        for server in [*self.sockets]:
            self.drop(server)

    def receive(self, key):
        """Takes what came on a connection."""
        _, server, begun = key.data
        try:
            came = key.fileobj.recv(BLOCK)
        except OSError:
            came = b""
        if not came:
            self.drop(server)
            return
        found, key.data[2] = messages.answers(begun + came)
        for number, reply in found:
            if self.waits and number == self.last:
                self.waits, self.reply = None, reply

    def look(self):
        """Sends the call again, if no reply came for a while."""
        if self.waits and time.monotonic() - self.sent >= AGAIN:
            self.followed.play()
            self.send()


def wait(selector, clients, until, seconds=0.05):
    """Waits for replies to these clients until that holds. Returns whether it does."""
    deadline = time.monotonic() + seconds
    while not until() and time.monotonic() < deadline:
        for key, _ in selector.select(0.02):
            key.data[0].receive(key)
        for it in clients:
            it.look()
    return until()


class Caller:
    """Plays lines, each until it is answered."""

    def __init__(self, cluster, own=None):
        self.cluster, self.own, self.clients = cluster, own, {}
        self.followed, self.selector = clusters.Followed(cluster), selectors.DefaultSelector()

    def answer(self, line):
        """The answer to a line, as a script prints it."""
        try:
            number, call = messages.line(line, self.own)
        except messages.Bad as error:
            return str(error)
        it = self.clients.get(number)
        if not it:
            it = Client(number, self.cluster, self.followed, self.selector)
            self.clients[number] = it
        if it.waits:
            return "busy"
        self.followed.play()
        it.begin(call)
        wait(self.selector, [it], lambda: not it.waits, DEADLINE)
        return it.reply or "unanswered"

    def close(self):
        for it in self.clients.values():
            it.close()
        self.selector.close()


def command(given):
    """`call FILE [--client N]`"""
    path, *more = given or [None]
    is_number = len(more) == 2 and more[0] == "--client" and more[1].isdecimal()
    if not path or more and not (is_number and 0 < int(more[1]) < messages.MAX_CLIENTS):
        raise Stopped("call takes FILE [--client N], where N is 1 to 31", 2)
    caller = Caller(clusters.read(path), int(more[1]) if more else None)
    for line in sys.stdin.buffer:
        print(caller.answer(line.removesuffix(b"\n")), flush=True)
    caller.close()
