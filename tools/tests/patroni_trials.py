"""Patroni over a server: two nodes of PostgreSQL begin, change places, and one is killed."""
import contextlib
import glob
import json
import os
import shutil
import signal
import subprocess
import tempfile
import time
import urllib.error
import urllib.request

from builds import ended
from report import Skipped, want
from servers import Server, free_port, new_folder
from wire import until

# (Patroni's sessions last as long as `ttl`, in seconds)
CONFIGURED = """
scope: trial
name: {name}
restapi: {{listen: "127.0.0.1:{rest}", connect_address: "127.0.0.1:{rest}"}}
zookeeper: {{hosts: ["{at}"]}}
bootstrap:
  dcs: {{ttl: 10, loop_wait: 1, retry_timeout: 4, postgresql: {{use_pg_rewind: true, parameters: {{
    max_connections: 20, shared_buffers: 16MB, fsync: "off", wal_log_hints: "on"}}}}}}
  initdb: [encoding: UTF8, auth: trust, no-sync]
postgresql:
  listen: 127.0.0.1:{port}
  connect_address: 127.0.0.1:{port}
  data_dir: {folder}/{name}
  bin_dir: {programs}
  pgpass: {folder}/pass-{name}
  authentication: {{superuser: {{username: postgres}}, replication: {{username: postgres}}}}
  parameters: {{unix_socket_directories: {folder}}}
  pg_hba: ["host all all 127.0.0.1/32 trust", "host replication all 127.0.0.1/32 trust"]
"""
AS_POSTGRES = "setpriv --reuid=postgres --regid=postgres --clear-groups --".split()
OWN = AS_POSTGRES if not os.geteuid() else []


def with_patroni():
    """The folder of PostgreSQL's programs."""
    found = sorted(glob.glob("/usr/lib/postgresql/*/bin"))
    if not (found and shutil.which("patroni")):
        raise Skipped("no Patroni with PostgreSQL here (Debian's patroni and postgresql-15)")
    return found[-1]


def soon(holds):
    """Whether it holds within a minute; a few times a second it is looked at."""
    return until(lambda: holds() or time.sleep(0.2))


class Node:
    """A node of PostgreSQL with its Patroni."""

    def __init__(self, name, folder, programs, at):
        self.folder, self.data, self.path = folder, f"{folder}/{name}", f"{folder}/{name}.yml"
        self.name, self.rest, self.port, self.ran = name, free_port(), free_port(), None
        self.psql = [*OWN, f"{programs}/psql", "-Atqh", "127.0.0.1", "-U", "postgres"]
        with open(self.path, "w", encoding="ascii") as file:
            file.write(CONFIGURED.format(programs=programs, at=at, **vars(self)))

    def start(self):
        with open(f"{self.folder}/{self.name}.said", "ab") as said:
            words = [*OWN, "patroni", self.path]
            none, own = subprocess.DEVNULL, {**os.environ, "HOME": self.folder}
            self.ran = subprocess.Popen(words, stdin=none, stdout=said, stderr=said, env=own)

    def is_(self, role):
        """Whether it is the primary, or a replica that runs."""
        try:
            with urllib.request.urlopen(f"http://127.0.0.1:{self.rest}/{role}", timeout=9) as it:
                return it.status == 200
        except OSError:
            return False

    def becomes(self, role):
        want(soon(lambda: self.is_(role)), f"{self.name} is no {role}: {self.said()}")

    def said(self):
        with open(f"{self.folder}/{self.name}.said", encoding="utf-8") as file:
            return file.read()[-700:]

    def ask(self, text):
        """How the node's PostgreSQL answers: the status of psql, and the rows."""
        status, out, _ = ended([*self.psql, "-p", str(self.port), "-c", text, "postgres"])
        return status, out.split()

    def does(self, text):
        """Does it as soon as the node takes writes, which is soon after it is the primary."""
        want(soon(lambda: not self.ask(text)[0]), f"{self.name} doesn't {text}: {self.said()}")

    def has(self, *rows):
        found = lambda: self.ask("select it from trial order by it") == (0, [*rows])
        want(soon(found), f"{self.name} has not {rows}: {self.said()}")

    def switch_over(self, other):
        """Asks that the other becomes the primary."""
        data = json.dumps({"leader": self.name, "candidate": other.name}).encode()
        kind = {"Content-Type": "application/json"}
        asked = urllib.request.Request(f"http://127.0.0.1:{self.rest}/switchover", data, kind)
        # (where it takes long, the answer is that nothing is known)
        with contextlib.suppress(urllib.error.HTTPError), urllib.request.urlopen(asked, timeout=60):
            pass

    def kill(self):
        """Kills Patroni and PostgreSQL, as far as they run."""
        if self.ran:
            self.ran.kill()
            self.ran.wait()
        path = f"{self.data}/postmaster.pid"
        with contextlib.suppress(OSError), open(path, encoding="ascii") as file:
            os.kill(int(file.readline()), signal.SIGKILL)


def steps(one, two, server_again):
    one.start()
    one.becomes("primary")
    two.start()
    two.becomes("replica")
    one.does("create table trial (it int); insert into trial values (1)")
    two.has("1")
    one.switch_over(two)
    two.becomes("primary")
    one.becomes("replica")
    two.does("insert into trial values (2)")
    one.has("1", "2")
    server_again()
    two.becomes("primary")
    want(one.is_("replica"), "the server's restart changes nothing")
    two.kill()
    one.becomes("primary")
    one.does("insert into trial values (3)")
    two.start()
    two.becomes("replica")
    two.has("1", "2", "3")


def patroni(builds, _):
    programs = builds.once("patroni", with_patroni)
    # (another user is to reach what is in the room)
    os.chmod(builds.room, 0o711)
    folder, data = tempfile.mkdtemp(dir=builds.room), new_folder(builds)
    if OWN:
        shutil.chown(folder, "postgres")
    servers = [Server(builds, data, tick=500)]
    nodes = [Node(name, folder, programs, servers[0].at) for name in ("one", "two")]

    def server_again():
        servers[0].kill()
        servers[0] = Server(builds, data, tick=500, words=("--listen", servers[0].at))

    try:
        steps(*nodes, server_again)
        for it in nodes:
            it.ran.terminate()
            it.ran.wait(60)
        servers[0].stop()
    finally:
        for it in nodes:
            it.kill()
        servers[0].kill()
