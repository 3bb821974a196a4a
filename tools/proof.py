"""Proves crates of this checkout by `rt ci`, in a copy of them alone, and keeps what is built.

`rt ci` proves them from nothing. Some toolchains keep what they proved, so that a proof that was
stopped goes on where it was, and only what changed is proved again. It prints on standard error.
"""
import contextlib
import os
import shutil
import subprocess
import sys

import kit
import places
import programs
import sources
from ending import Stopped


def copy(lines, to):
    """Copies these crates to a folder, as a repository, which a folder .git makes it."""
    os.makedirs(f"{to}/.git")
    with open(f"{to}/crates.txt", "w", encoding="utf-8") as file:
        file.writelines(lines.values())
    shutil.copy(f"{sources.ROOT}/HANDLES", to)
    for name in lines:
        crate = f"{sources.ROOT}/crates/{name}"
        ignored = lambda at, _, top=crate: sources.APART if at == top else ()
        shutil.copytree(crate, f"{to}/crates/{name}", ignore=ignored)


@contextlib.contextmanager
def repository(lines, tell):
    """A copy of these crates in which no other call works, and the lock's file."""
    with places.locked(places.room(), tell) as lock:
        top = f"{places.room()}/repository"
        shutil.rmtree(top, ignore_errors=True)
        try:
            copy(lines, top)
            yield top, lock
        finally:
            shutil.rmtree(top, ignore_errors=True)


def prove(top, lock, what):
    """Has `rt ci` prove the crates of a repository. It ends with this process."""
    # (the repository stays locked as long as rt works in it)
    ran = subprocess.Popen(
        [kit.path_of_rt(), "ci"], cwd=top, stdin=subprocess.DEVNULL, stdout=sys.stderr,
        pass_fds=(lock.fileno(),),
    )
    try:
        status = ran.wait()
    finally:
        ran.terminate()
        ran.wait()
    if status:
        raise Stopped(f"{what} is not proved")


def place(crate, name, root=sources.ROOT):
    """The path of what is built under this name of these very sources of a crate, and whether it is
    there: built by this very toolchain, or by any where none is on the PATH."""
    path = f"{places.programs(sources.key_of(sources.lines_below(crate, root), root))}/{name}"
    return path, os.path.exists(path) and kit.identity() in (None, programs.kit_of(path))


def left_by_the_gate(crate, lines):
    """Whether `rt ci` left the libraries below a crate in the checkout: each is newer than its own
    sources, and than the libraries that it uses."""
    time_of = lambda path: os.stat(path).st_mtime_ns if os.path.exists(path) else 0
    made = {it: f"{sources.ROOT}/crates/{it}/out/rlib/{it}.rlib" for it in lines if it != crate}
    is_new = lambda it: all(
        time_of(made[it]) > time_of(other)
        for other in (
            *sources.files_of([it]),
            *map(made.get, made.keys() & sources.uses_of(lines[it])),
        )
    )
    return all(map(is_new, made))


def build(top, path, make):
    """Builds by make(top, folder) what is then kept at this path."""
    places.made(os.path.dirname(path))
    shutil.rmtree(f"{path}.building", ignore_errors=True)
    make(top, f"{path}.building")
    programs.keep(f"{path}.building", path)


def built(crate, name, make, tell):
    """The path of what is built of a crate. Where it isn't there, make(top, path) builds it over
    the libraries that `rt ci` left, or else the crate is proved first, in the repository `top`."""
    path, is_there = place(crate, name)
    if is_there:
        return path
    kit.required()
    lines = sources.lines_below(crate)
    if left_by_the_gate(crate, lines):
        build(sources.ROOT, path, make)
        return path
    with repository(lines, tell) as (top, lock):
        # (the sum of what is proved, whatever becomes of the checkout meanwhile)
        path, is_there = place(crate, name, top)
        if not is_there:
            prove(top, lock, crate)
            build(top, path, make)
    return path


def program(name, tell):
    """The path of the proved program, which is proved and built first where it isn't there."""
    take = lambda top, to: os.rename(f"{top}/crates/{name}/out/{name}", to)
    found = programs.of_the_gate(name, sources.lines_below(name))
    return found or built(name, name, take, tell)
