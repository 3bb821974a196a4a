"""Archives of crates for programs of other languages: proved, built, and kept.

    folder = built("zc_library", f"library-{version}", make, tell)
"""
import os
import subprocess
import sys

import kit
import proof
from ending import Stopped


def run(words, folder, **given):
    """Runs one step of the build, and ends where it fails, with the end of what it said."""
    ran = subprocess.run(
        words, cwd=folder, stdout=subprocess.PIPE, stderr=subprocess.STDOUT, text=True,
        errors="replace", **(given or {"stdin": subprocess.DEVNULL}),
    )
    if ran.returncode:
        sys.stderr.write(ran.stdout[-10000:])
        raise Stopped(f"{os.path.basename(words[0])} failed")


def merge(archive, name, folder):
    """Makes the archive of this name in the folder, with what it needs of the toolchain's own."""
    top = kit.toolchain().rtlib.KIT
    script = f"create {name}\naddlib {archive}\naddlib {top}/c/liblibc_c.a\nsave\nend\n"
    run([f"{top}/toolchain/bin/llvm-ar", "-M"], folder, input=script)


def built(crate, name, make, tell):
    """The folder of this name with what `make` makes of the archive of a crate, which is proved and
    built first: make(archive, folder)."""

    def make_of(top, to):
        tell(f"building the archive of {crate}, in a few minutes")
        os.mkdir(to)
        make(compiled(crate, top), to)

    return proof.built(crate, name, make_of, tell)


def compiled(name, top):
    """The archive of a crate in the repository at `top`, over the libraries that `rt ci` left.

    `rt ci` proves such a crate and builds nothing of it: so rt proves it once more, and builds it.
    """
    rt, crate = kit.toolchain(), kit.crate_of(top, name)
    rt.rtlib.guarded()
    crate.out, archive = sys.stderr, f"out/lib{name}.a"
    words = [*crate.words(["--jobs", "1"], keeps=False), "--backend", "llvm"]
    words += ["--toolchain", f"{rt.KIT}/toolchain", "-o", archive]
    if crate.prove(["build", *words]):
        raise Stopped(f"the archive of {name} can't be built")
    return f"{crate.folder}/{archive}"
