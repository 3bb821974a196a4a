"""The crates of this checkout: what each uses, and the files that a proof reads of it."""
import functools
import hashlib
import os

ROOT = os.path.dirname(os.path.dirname(os.path.realpath(__file__)))
# What a proof doesn't read of a crate.
APART = ("out", "must-fail")
# The folders of a crate whose files are proved and built.
READ = ("src", "specs", "proofs")


def known_lines(root=ROOT):
    """The lines of crates.txt, by the names of their crates."""
    with open(f"{root}/crates.txt", encoding="utf-8") as file:
        lines = [it for it in file if it.partition("#")[0].strip()]
    return {it.partition(":")[0].split()[0]: it for it in lines}


def uses_of(line):
    """The names after the colon of a line of crates.txt."""
    return line.partition("#")[0].partition(":")[2].split()


def lines_below(name, root=ROOT):
    """The lines of crates.txt of the crate and of those below it, by their names."""
    known, found, left = known_lines(root), {}, [name]
    while left:
        name = left.pop()
        if name in known and name not in found:
            found[name] = known[name]
            left += uses_of(known[name])
    return found


def files_of(names, root=ROOT):
    """The files that a proof of these crates reads, and their folders, which removals change."""
    yield from (f"{root}/crates.txt", f"{root}/HANDLES")
    for name in names:
        top = f"{root}/crates/{name}"
        for at, folders, files in os.walk(top):
            if at == top:
                folders[:] = [it for it in folders if it not in APART]
            else:
                yield at
            yield from (f"{at}/{it}" for it in files)


def text_of(path):
    """The bytes of a file; none where there is no such file."""
    try:
        with open(path, "rb") as file:
            return file.read()
    except FileNotFoundError:
        return b""


def summed(name, root):
    """What the sum of a crate is taken of: its files, by their paths."""
    found = bytearray()
    for part in READ:
        top = f"{root}/crates/{name}/{part}"
        for at, folders, files in os.walk(top):
            folders.sort()
            for it in sorted(files):
                path = f"{at}/{it}"
                found += repr((path[len(top) :], text_of(path))).encode()
    return bytes(found)


def key_of(lines, root=ROOT, read=summed):
    """A sum of all that is proved and built of these crates, wherever the checkout is."""
    found = hashlib.sha256(text_of(f"{root}/HANDLES"))
    for name in sorted(lines):
        found.update(repr((name, sorted(uses_of(lines[name])), lines[name].split(":")[0])).encode())
        found.update(read(name, root))
    return found.hexdigest()[:32]


def all_keys():
    """The sums of all crates of this checkout, each with those below it."""
    read = functools.cache(summed)
    return {key_of(lines_below(it), read=read) for it in known_lines()}
