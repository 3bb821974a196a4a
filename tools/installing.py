"""Installs the server for ZooKeeper's clients below a folder: all that a machine needs for it.

The host finds its program from its own folder. So both may be moved together, and only the texts
name the folder.
"""
import os
from pathlib import Path

import programs
import sources
import usage
from ending import Stopped

# Where the host and its program are, below the folder. (host/start.c has the latter, too.)
HOST, PROGRAM = "bin/jellqupas-server", "libexec/jellqupas/zk_serve"
# The texts of install/, each with its folder.
TEXTS = {
    "jellqupas.service": "lib/systemd/system",
    "jellqupas.8": "share/man/man8",
    "serve.conf": "share/doc/jellqupas",
}
# What says which build it is.
BUILD = "share/doc/jellqupas/BUILD"


def write(path, content, mode=0o644):
    """Writes a file in the place of the one that is there, if it differs."""
    if os.path.islink(path) or sources.text_of(path) != content:
        os.makedirs(os.path.dirname(path), exist_ok=True)
        with open(f"{path}.new", "wb") as file:
            file.write(content)
        os.chmod(f"{path}.new", mode)
        os.replace(f"{path}.new", path)


def make_ready(prefix):
    """Makes the folder, or refuses one that can't be written, before anything is built."""
    # (the unit's own user reads what is installed)
    os.umask(0o022)
    os.makedirs(prefix, exist_ok=True)
    if not os.access(prefix, os.W_OK | os.X_OK):
        raise Stopped(f"{prefix} can't be written")


def text_for(prefix, name):
    """A text of install/, with the folder and the version in their places."""
    text = Path(sources.ROOT, "install", name).read_text(encoding="utf-8")
    return text.replace("@DIR@", prefix.rstrip("/")).replace("@VERSION@", usage.version_number())


def build_of(program):
    """Of which version and commit the program is, and whether it is proved."""
    how = "built without proof" if program.endswith("-unproved") else "proved"
    by = programs.kit_of(program) or "the gate"
    head = f"jellqupas {usage.version_number()}\ncommit: {usage.commit()}\n"
    return f"{head}{os.path.basename(PROGRAM)}: {how}, by {by}\n"


def install(prefix, host, program):
    """Installs the host, its program and the texts, and gives the paths of all of them."""
    for to, path in ((HOST, host), (PROGRAM, program)):
        write(f"{prefix}/{to}", Path(path).read_bytes(), 0o755)
    texts = {f"{folder}/{name}": text_for(prefix, name) for name, folder in TEXTS.items()}
    texts[BUILD] = build_of(program)
    for to, text in texts.items():
        write(f"{prefix}/{to}", text.encode())
    return [str(Path(prefix, it)) for it in (HOST, PROGRAM, *texts)]
