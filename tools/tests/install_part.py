"""The server as `./zk install` leaves it: alone on a machine, by its unit, and behind stunnel."""
import contextlib
import os
import re
import shutil
import socket
import ssl
import subprocess
import tempfile
import textwrap
from pathlib import Path

import documents
import installing
import logins
import serving
from frames import AUTH, AUTH_XID, OK, greeting
from report import Skipped, Test, want, want_same
from serve_part import with_kazoo
from servers import Server, ended, free_port, new_folder, until
from sources import ROOT
from wire import Client, Ended, Wire

LINKED = {"linux-vdso.so.1", "libc.so.6", "/lib64/ld-linux-x86-64.so.2"}
KAZOO = """
import sys
from kazoo.client import KazooClient
zk = KazooClient(sys.argv[1])
zk.start()
zk.exists("/a") or zk.create("/a", b"hi")
data, stat = zk.get("/a")
print(data, stat.czxid, stat.version)
zk.stop()
"""


def install(builds, prefix):
    """Installs it, and gives the paths that were printed."""
    # (it is built here, where others wait for it)
    builds.program(serving.PROGRAM)
    words = ["--proved" if builds.is_proved else "--unproved", "install", "--prefix", prefix]
    status, out, said = ended([f"{ROOT}/zk", *words])
    want_same(status, 0, said)
    return sorted(out.splitlines())


def installed(builds):
    """The folder below which it is installed."""
    prefix = f"{builds.room}/installed"
    return builds.once("installed", lambda: (install(builds, prefix), prefix)[1])


def needed(*names):
    """The first of these programs that is here."""
    found = next(filter(None, map(shutil.which, names)), None)
    if not found:
        raise Skipped(f"there is no {' or '.join(names)} here")
    return found


def files(builds):
    """It prints what it installs, and changes nothing where that is there."""
    prefix = installed(builds)
    made = {str(it): it.stat() for it in Path(prefix).rglob("*") if it.is_file()}
    want_same(install(builds, prefix), sorted(made), "what is printed")
    programs = [f"{prefix}/{it}" for it in (installing.HOST, installing.PROGRAM)]
    for it, stat in made.items():
        want_same(os.stat(it).st_ino, stat.st_ino, f"again nothing changes: {it}")
        want_same(stat.st_mode & 0o777, 0o755 if it in programs else 0o644, it)
        for word in (ROOT, "@DIR@", "@VERSION@"):
            want(word.encode() not in Path(it).read_bytes(), f"{it} has {word}")
    build = Path(prefix, installing.BUILD).read_text(encoding="ascii")
    want(("zk_serve: proved, by" in build) == builds.is_proved, build)
    linked = {*re.findall(r"(?m)^\t(\S+)", ended(["ldd", *programs])[1])}
    want_same(linked, LINKED, "what both are linked to")


def alone(builds):
    """With an empty environment kazoo is served. State survives a restart, and is exported."""
    own, folder = f"{installed(builds)}/{installing.HOST}", new_folder(builds)
    bare, python = ("env", "-i", own), builds.once("kazoo", with_kazoo)
    words = [*bare, "--listen", "127.0.0.1:0", "--data", folder]
    found = []
    for _ in range(2):
        with Server(builds, own=words) as server:
            status, out, said = ended([python, "-Bc", KAZOO, server.at])
            found.append((status, said, out))
            said = ended([*bare, "compact", "--data", folder])
            want_same(said, (3, "", "zk: data: the folder is in use\n"), "beside a server")
            status, out, _ = ended([*bare, "export", "--data", folder])
            want_same((status, out), (0, "1 create /a p aGk=\n"), "export of a copy")
    want_same(found[0][:2], (0, ""), "kazoo")
    want_same(found[1], found[0], "after a restart")
    status, out, _ = ended([*bare, "export", f"--data={folder}"])
    want_same((status, out), (0, "1 create /a p aGk=\n"), "export")
    for given in ("export", "stat --data d --tick 20", "compact --data="):
        status, out, said = ended([*bare, *given.split()])
        want_same((status, out, said.count("\n")), (2, "", 1), given)


def unit(builds):
    words = [needed("systemd-analyze"), "verify", "--man=no"]
    said = ended([*words, f"{installed(builds)}/lib/systemd/system/jellqupas.service"])
    want_same(said, (0, "", ""), "the unit")


def man(builds):
    words = [needed("groff"), "-man", "-ww", "-z", "-Tutf8"]
    said = ended([*words, f"{installed(builds)}/share/man/man8/jellqupas.8"])
    want_same(said, (0, "", ""), "the man page")


@contextlib.contextmanager
def tunnel(folder, text, port):
    """stunnel, as this text configures it, which listens at the port."""
    path = Path(tempfile.mkdtemp(dir=folder), "conf")
    path.write_text(text.replace("/etc/stunnel/", f"{folder}/"), encoding="ascii")
    said = {"stdin": subprocess.DEVNULL, "stderr": subprocess.DEVNULL}
    with subprocess.Popen([needed("stunnel4", "stunnel"), path], **said) as ran:
        try:
            want(until(lambda: not socket.socket().connect_ex(("127.0.0.1", port))), text)
            yield "127.0.0.1", port
        finally:
            ran.terminate()


def tls(builds):
    """The recipe of the guide, with logins: who has a certificate is served, and no one else."""
    needed("stunnel4", "stunnel"), needed("openssl")
    folder, text = tempfile.mkdtemp(dir=builds.room), documents.read("docs/GUIDE.md")
    text = text.partition("\n### TLS\n")[2].partition("\n## ")[0]
    blocks = re.findall(r"(?m)(?:^    .*\n)+", text)
    certificates, of_server, of_client = map(textwrap.dedent, blocks)
    want_same(ended(["sh", "-e"], input=certificates, cwd=folder)[0], 0, certificates)
    outer, inner, other = free_port(), free_port(), free_port()
    of_client = of_client.replace("zk.example.org:2281", f"127.0.0.1:{outer}")
    at = lambda port: of_client.replace("127.0.0.1:2181", f"127.0.0.1:{port}")
    wrong = at(other).replace("checkHost = zk", "checkHost = other")
    with logins.Guarded(builds) as server:
        of_server = of_server.replace("127.0.0.1:2181", server.at)
        of_server = of_server.replace("accept = 2281", f"accept = 127.0.0.1:{outer}")
        with tunnel(folder, of_server, outer) as to:
            with tunnel(folder, at(inner), inner) as it, Client(it) as client:
                given = client.ask(AUTH, logins.auth_body("ann:secret"), AUTH_XID)
                want_same(given.code, OK, "a login through both")
                client.create("/a", b"x" * 60000)
                want_same(len(client.get("/a")[0]), 60000, "through both")
            with tunnel(folder, wrong, other) as it, Wire(it) as wire:
                want(is_refused(wire), "a server of another name")
            context = ssl.create_default_context(cafile=f"{folder}/ca.pem")
            with socket.create_connection(to, timeout=30) as it:
                with context.wrap_socket(it, server_hostname="zk.example.org") as without:
                    want(is_unanswered(without), "a client without a certificate")


def is_refused(wire):
    """Whether a greeting is answered by the connection's end."""
    with contextlib.suppress(Ended):
        wire.send(greeting())
    return wire.is_ended()


def is_unanswered(it):
    """Whether a greeting over TLS has no answer."""
    try:
        it.sendall(greeting())
        return not it.recv(1)
    except (ssl.SSLError, ConnectionError):
        return True


def tests(builds):
    found = (files, alone, unit, man, tls)
    return [Test(f"install: {it.__name__}", 10, lambda _, it=it: it(builds)) for it in found]
