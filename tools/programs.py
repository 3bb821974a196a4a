"""The programs of this checkout: where they are, proved or not, and who built them."""
import os
import shutil

import kit
import places
import sources

# The program that a command runs; that of a server, or of a node, is behind a host.
NAMES = {"script": "zk", "race": "zk_race", "serve": "zk_serve", "node": "zk_node"}


def of_the_gate(name, lines):
    """The program that `rt ci` built in the checkout, unless a source is newer."""
    path = f"{sources.ROOT}/crates/{name}/out/{name}"
    built = os.stat(path).st_mtime_ns if there(path) else 0
    read = (it for it in sources.files_of(lines) if os.path.exists(it))
    return path if all(os.stat(it).st_mtime_ns < built for it in read) else None


def kept(name, key, is_proved):
    """The path of a program in the cache, whether or not it is there."""
    return f"{places.programs(key)}/{name}{'' if is_proved else '-unproved'}"


def proved(name):
    """The proved program of these very sources, or None."""
    lines = sources.lines_below(name)
    return of_the_gate(name, lines) or used(kept(name, sources.key_of(lines), True))


def unproved(name):
    """The program of these very sources that was built without proof, or None."""
    return used(kept(name, sources.key_of(sources.lines_below(name)), False))


def there(path):
    return path if os.access(path, os.X_OK) else None


def used(path):
    """The path of a program of the cache, which is used now, or None."""
    places.used(os.path.dirname(path))
    return there(path)


def kit_of(path):
    """The toolchain that built the program, as `rt version` prints it; '' where it isn't known."""
    return sources.text_of(f"{path}.kit").decode(errors="replace").strip()


def keep(made, path):
    """Puts what was built where others find it, whole and with its toolchain, or not at all."""
    shutil.rmtree(path, ignore_errors=True)
    with open(f"{path}.kit", "w", encoding="utf-8") as file:
        file.write(f"{kit.identity()}\n")
    os.chmod(made, 0o755)
    os.replace(made, path)
    places.bound()
