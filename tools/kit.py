"""The Rattle toolchain's own Python library, and this repository's crates as it sees them."""
import importlib.machinery
import importlib.util
import os
import shutil
import sys
import threading

from sources import text_of
from ending import Stopped

sys.dont_write_bytecode = True
LOADING = threading.Lock()


def load(name, path):
    """The module that a Python program is, also where its name has no ending."""
    with LOADING:
        if name not in sys.modules:
            loader = importlib.machinery.SourceFileLoader(name, path)
            spec = importlib.util.spec_from_loader(name, loader)
            sys.modules[name] = importlib.util.module_from_spec(spec)
            loader.exec_module(sys.modules[name])
    return sys.modules[name]


def path_of_rt():
    """Where the toolchain's rt is, or None."""
    found = shutil.which("rt")
    return os.path.realpath(found) if found else None


def toolchain():
    """The module that rt is; its `rtlib` is the library below it."""
    return load("rt", path_of_rt())


def crate_of(root, name):
    """The crate of this name in the repository at `root`."""
    rt = toolchain()
    rt.rtlib.Crate = rt.Crate
    rt.Crate.allowed = rt.handles_of(root)
    return rt.Crate(f"{root}/crates/{name}", root, {})


def required():
    """The path of the toolchain's rt; without one nothing is built or proved."""
    path = path_of_rt()
    if not path:
        raise Stopped("the Rattle toolchain's rt is not on the PATH")
    if not identity():
        raise Stopped(f"{path} is not the Rattle toolchain's rt")
    return path


def identity():
    """The line that `rt version` prints, or None where there is no toolchain."""
    top = os.path.dirname(os.path.dirname(path_of_rt() or ""))
    return text_of(f"{top}/KIT-ID").decode(errors="replace").strip() or None
