"""The lifetimes of sessions over a server for ZooKeeper's clients, and of clients."""
import contextlib
import random
import socket
import subprocess
import time

from builds import ENVIRONMENT
from frames import *
from report import Failed, want, want_same
from servers import Server
from wire import NO_SESSION, Wire, refused, until

# Clients of kazoo: they make nodes, say so, and wait for a line. Then all have new sessions.
CLIENTS = """
import logging, sys, time
from kazoo.client import KazooClient
logging.disable(logging.CRITICAL)
found = [KazooClient(hosts=sys.argv[1], timeout=20) for _ in range(20)]
for it in found:
    it.start(60)
for number, it in enumerate(found):
    it.create(f"/of-{number}", b"", ephemeral=True)
print("made", flush=True)
sys.stdin.readline()
end = time.monotonic() + 60
for number, it in enumerate(found):
    while True:
        try:
            it.create(f"/again-{number}", b"", ephemeral=True)
            break
        except Exception:
            assert time.monotonic() < end, f"client {number} isn't back"
            time.sleep(0.05)
print("back", flush=True)
"""


def timeouts(builds):
    """A session is told 2 to 20 ticks. It lives for all of them, and ends a tick later at most."""
    with Server(builds, tick=200) as server, server.client() as it:
        for asked, told in ((-1, 400), (1, 400), (401, 600), (4000, 4000), (9**9, 4000)):
            with server.client(timeout=asked) as one:
                want_same(one.timeout, told, f"the timeout for {asked} ms")
        for number in range(8):
            time.sleep(number / 40)
            with server.client(timeout=600) as silent:
                began = time.monotonic()
                silent.create("/e", kind=EPHEMERAL)
                want(until(lambda: refused(it.exists, "/e") == NO_NODE), "its end")
                took = time.monotonic() - began
                want(0.58 < took < 1.4, f"{took:.2f} s of 0.6 s")


def kept_port():
    """A free port that no client gets as its own, while no server has it."""
    with open("/proc/sys/net/ipv4/ip_local_port_range", encoding="ascii") as file:
        first = int(file.read().split()[0])
    for port in random.sample(range(first // 2, first), 100):
        try:
            with socket.create_server(("127.0.0.1", port)):
                return port
        except OSError:
            pass
    raise Failed("no port is free")


@contextlib.contextmanager
def killed(ran):
    """Kills a process at the end, whatever came."""
    try:
        yield
    finally:
        ran.kill()


def restart(builds, python):
    """A server in memory that was started again has its clients back, under new sessions."""
    words = ["--listen", f"127.0.0.1:{kept_port()}"]
    server = Server(builds, words=words)
    it, given = server.client(), {"text": True, "env": ENVIRONMENT}
    for number in range(3):
        it.create(f"/{number}")
    given["stdin"] = given["stdout"] = subprocess.PIPE
    with subprocess.Popen([python, "-c", CLIENTS, server.at], **given) as ran, killed(ran):
        want_same(ran.stdout.readline(), "made\n", "kazoo's clients")
        server.kill()
        with Server(builds, words=words) as again:
            with Wire(again.address) as old:
                found = old.greet(session=it.session, password=it.password, seen=it.zxid)
                want_same(found, NO_SESSION, "its session has expired")
            with again.client() as other:
                want(other.exists("/").czxid > it.zxid, "its zxids are greater")
                other.create("/a")
                want(it.zxid < other.exists("/a").mzxid <= other.zxid, "and those of changes")
            ran.stdin.write("\n")
            ran.stdin.flush()
            want_same(ran.stdout.readline(), "back\n", "they are back")
