"""Where proofs and programs are kept: one folder for all checkouts of a user.

    programs/KEY/NAME            a proved program, by the sum of its sources
    programs/KEY/NAME-unproved   the same, built without proof
    proofs/                      where crates are proved

What was built last comes in the place of what was used longest ago, so that they stay small. Each
version of the sources has folders of its own, and a call that is killed leaves what it has made.
"""
import contextlib
import fcntl
import glob
import os
import shutil

import sources
from ending import Stopped

# The most bytes of all that is kept.
MOST = 3 * 10**9


def cache():
    """The folder of all that is kept. It may not be there yet."""
    home = os.environ.get("HOME")
    above = os.environ.get("XDG_CACHE_HOME") or (f"{home}/.cache" if home else "")
    if not os.path.isabs(above):
        raise Stopped(f"HOME or XDG_CACHE_HOME is to be an absolute path, not '{above}'")
    return f"{above}/jellqupas"


def made(folder):
    """Makes the folder, which its owner alone may enter, and returns it."""
    with contextlib.suppress(OSError):
        os.makedirs(folder, mode=0o700, exist_ok=True)
    if not os.access(folder, os.R_OK | os.W_OK | os.X_OK):
        raise Stopped(f"{folder} can't be written")
    return folder


def room():
    """The folder in which crates are proved."""
    return f"{cache()}/proofs"


def programs(key):
    """The folder of the programs that were built of the sources with this sum."""
    return f"{cache()}/programs/{key}"


def used(folder):
    """Notes that a program of the folder is used now."""
    with contextlib.suppress(OSError):
        os.utime(folder)


@contextlib.contextmanager
def locked(folder, tell):
    """Keeps others out of the folder, which is made where it isn't there. Gives the lock's file."""
    with open(f"{made(folder)}/lock", "w", encoding="ascii") as lock:
        used(folder)
        try:
            fcntl.flock(lock, fcntl.LOCK_EX | fcntl.LOCK_NB)
        except BlockingIOError:
            tell(f"another call works in {folder}; waiting for it")
            fcntl.flock(lock, fcntl.LOCK_EX)
        yield lock


def size_of(folder):
    """The bytes of all files below a folder. Others may remove some meanwhile."""
    found = 0
    for at, _, files in os.walk(folder):
        for it in files:
            with contextlib.suppress(OSError):
                found += os.lstat(f"{at}/{it}").st_size
    return found


def running():
    """The names of the folders of all programs that run."""
    for it in glob.glob("/proc/[0-9]*/exe"):
        with contextlib.suppress(OSError):
            yield os.path.basename(os.path.dirname(os.readlink(it)))


def drop(folder, inside=""):
    """Removes a folder, or one inside it, unless a call works in it. Returns whether it is gone."""
    with contextlib.suppress(OSError), open(f"{folder}/lock", "w", encoding="ascii") as lock:
        fcntl.flock(lock, fcntl.LOCK_EX | fcntl.LOCK_NB)
        shutil.rmtree(f"{folder}{inside}", ignore_errors=True)
    return not os.path.exists(f"{folder}{inside}")


def bound(most=MOST):
    """Drops what was used longest ago until the rest has at most so many bytes: no program of this
    checkout, none that runs, and no folder in which a call works."""
    with contextlib.suppress(OSError):
        drop(room(), "/repository")
        sizes = {it: size_of(programs(it)) for it in os.listdir(f"{cache()}/programs")}
        over = sum(sizes.values()) - most
        if over > 0:
            others = sizes.keys() - {*sources.all_keys(), *running()}
            for it in sorted(others, key=lambda it: os.path.getmtime(programs(it))):
                over -= sizes[it] if over > 0 and drop(programs(it)) else 0


def clean(is_all, tell):
    """Removes what this checkout doesn't use, or all, and prints how much that was."""
    there = os.listdir(made(f"{cache()}/programs"))
    with locked(room(), tell):
        shutil.rmtree(f"{room()}/repository", ignore_errors=True)
    own = sources.all_keys()
    gone = [it for it in there if is_all or it not in own]
    for it in gone:
        shutil.rmtree(programs(it), ignore_errors=True)
    print(f"removed {len(gone)} of {len(there)} folders of programs in {cache()}")
