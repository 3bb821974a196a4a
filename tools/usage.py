"""What ./zk prints of itself."""
import os
import re
import shutil
import subprocess

import kit
import places
import programs
import sources
from ending import Stopped

USAGE = """\
A coordination service with ZooKeeper's data model and chain replication.

./zk script [--servers N]     plays the script on standard input, line by line:
                              calls and events (docs/GUIDE.md); N is 1 to 16 (1)
./zk race [--servers N] [--clients C] [--rounds R] [--halt S]
                              runs the service in threads, and audits the run:
                              N is 1 to 16 (3), C clients 1 to 31 (4), R nodes
                              1 to 1000 (100), S a server that is halted halfway
./zk serve [--listen ADDRESS:PORT] [--tick MS] ..
                              serves ZooKeeper's clients at 127.0.0.1:2181, in
                              memory: MS is 10 to 3600000 (2000), and limits
./zk serve --data DIR [--sync batch|never] [--journal MIB] ..
                              stores its state in DIR; with never a power cut may
                              lose it; compacts its journal after each MIB (64)
./zk node FILE [--self NODE]  runs a server of a chain as a process of its own
./zk cluster FILE init|status|retire ..  the log of the nodes (docs/GUIDE.md)
./zk call FILE [--client N]   plays calls over the nodes, or those of client N
./zk compact --data DIR       compacts a server's journal that isn't in use
./zk export|stat --data DIR   writes its tree as a script; says how large it is
./zk upgrade DIR              writes the journal of an older version anew
Without a proved program each builds one without proof, in a minute, and says so.

./zk install --prefix DIR     installs the server: it needs no toolchain there
./zk prove [NAME]             proves script, race, serve, node or library: an hour
./zk --proved script ..       runs the proved program or none; --unproved, the other
./zk --version                the version, and which program would run
./zk clean [--all]            removes programs that aren't of this checkout, or all

The status is the program's; 2: a word that isn't understood; 3: the program
can't be built, or isn't proved. Programs, {most} GB at most, are kept in {kept}
"""


def usage():
    try:
        kept = places.cache()
    except Stopped as error:
        kept = f"no folder: {error}"
    return USAGE.format(kept=kept, most=places.MOST // 10**9)


def version_number():
    """The version, which the library's header alone has."""
    header = sources.text_of(f"{sources.ROOT}/include/jellqupas.h").decode()
    found = re.search(r'^#define JELLQUPAS_VERSION "(.*)"$', header, re.M)
    return found[1] if found else "(no version)"


def commit():
    """The checkout's commit, and whether files differ from it."""
    if not shutil.which("git") or not os.path.exists(f"{sources.ROOT}/.git"):
        return "unknown"
    words = ["git", "-C", sources.ROOT, "describe", "--always", "--abbrev=12", "--dirty"]
    given = {"stdin": subprocess.DEVNULL, "capture_output": True, "text": True}
    return subprocess.run(words, **given).stdout.strip() or "unknown"


def would_run(command):
    """Which program a command would run."""
    try:
        name = programs.NAMES[command]
        path = programs.proved(name)
        if path:
            return f"proved, by {programs.kit_of(path) or 'the gate'}"
        return f"not proved{', built without proof' if programs.unproved(name) else ''}"
    except Stopped as error:
        return f"not proved ({error})"


def version():
    lines = [f"{it}: {would_run(it)}" for it in programs.NAMES]
    lines += [f"toolchain: {kit.identity() or 'rt is not on the PATH'}"]
    return "\n".join([f"jellqupas {version_number()}", f"commit: {commit()}", *lines])
