"""Hosts in C, each with the program that it starts: of a server for ZooKeeper's clients, of a node.

A host is kept by the sum of what it is compiled of. It needs the machine's own C compiler: that of
the toolchain has no headers.
"""
import hashlib
import os
import shutil
import tempfile

import archives
import places
import programs
import sources
from ending import Stopped

# The programs behind the hosts.
PROGRAM, NODE_PROGRAM = "zk_serve", "zk_node"
# What the hosts are compiled of.
HOST = tuple(f"host/{it}.c" for it in (
    "serve", "connections", "monitors", "metrics", "journal", "notes", "start", "piped", "folder",
    "copy", "parts", "child", "bytes", "progress", "logins", "strangers"))
NODE_HOST = tuple(f"host/{it}.c" for it in (
    "node", "seat", "log", "peers", "guests", "bytes", "child", "start"))
HEADERS = (*(f"host/{it}.h" for it in (
    "bytes", "child", "connections", "front", "journal", "logins", "metrics", "monitors", "node",
    "notes", "parts", "start", "strangers")),
    "include/jellqupas.h")
FLAGS = "-std=c11 -O2 -Wall -Wextra".split()
COMPILERS = ("cc", "gcc", "clang")


def compiler():
    """The C compiler that is on the PATH."""
    found = next(filter(shutil.which, COMPILERS), None)
    if not found:
        raise Stopped("there is no C compiler on the PATH: install gcc and libc6-dev")
    return found


def host(name="serve", program=PROGRAM, files=HOST):
    """The host of these very sources, which is compiled where it isn't there."""
    found = hashlib.sha256()
    for it in (*files, *HEADERS):
        found.update(repr((it, sources.text_of(f"{sources.ROOT}/{it}"))).encode())
    top = places.made(places.programs(sources.key_of(sources.lines_below(program))))
    path = f"{top}/{name}-{found.hexdigest()[:16]}"
    if programs.used(path):
        return path
    with tempfile.TemporaryDirectory(prefix=f"{name}-", dir=top) as folder:
        words = [compiler(), *FLAGS, f"-I{sources.ROOT}/include", "-o", f"{folder}/{name}", *files]
        archives.run(words, sources.ROOT)
        programs.keep(f"{folder}/{name}", path)
    return path


def node_host():
    """The host of a node."""
    return host("node", NODE_PROGRAM, NODE_HOST)
