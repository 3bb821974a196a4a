"""The words of the commands that run something, as far as they matter before anything is built.

The programs refuse wrong words themselves. Here they are refused before a build of minutes.
"""
import argparse
import ipaddress
import os
import re

from ending import Stopped

# What is done with a server's folder that isn't in use.
AT_REST = ("compact", "export", "stat")


class Words(argparse.ArgumentParser):
    """The words of one command, and which call prints all of them."""

    def __init__(self, command, helper):
        super().__init__(prog=command, usage=helper, add_help=False, allow_abbrev=False)

    def error(self, message):
        raise Stopped(f"{self.prog}{message}; '{self.usage}' has the words", 2)


def number(least, most):
    """The type of a number in a range."""

    def read(text):
        if not least <= int(text) <= most:
            raise ValueError
        return text

    read.__name__ = f"number from {least} to {most}"
    return read


def address(text):
    """An address of IPv4, or one of IPv6 in brackets, and a port."""
    host, _, port = text.rpartition(":")
    is_six = host[:1] + host[-1:] == "[]"
    (ipaddress.IPv6Address if is_six else ipaddress.IPv4Address)(host[is_six : len(host) - is_six])
    number(0, 65535)(port)
    return text


def folder(text):
    """A folder's name. A dash alone is none to the program."""
    if not text:
        raise ValueError
    return "./-" if text == "-" else text


def prefix(text):
    """The folder below which something is installed. Units and other texts name it as it is."""
    if not re.fullmatch(r"/[\w/.+-]*", text, re.ASCII):
        raise ValueError
    return f"/{os.path.normpath(text).lstrip('/')}"


address.__name__ = "ADDRESS:PORT"
prefix.__name__ = "DIR (absolute, of letters, digits and /._+-)"
SERVERS = {"--servers": number(1, 16)}
# The options of each command, each with the type of its value.
OPTIONS = {
    "script": SERVERS,
    "race": {
        **SERVERS, "--clients": number(1, 31), "--rounds": number(1, 1000), "--halt": number(0, 16),
    },
    "serve": {
        "--data": folder, "--tick": number(10, 3600000), "--listen": address,
        "--metrics": address, "--auth": folder, "--connections": number(1, 10**6),
        "--watches": number(1, 10**9), "--watches-each": number(1, 10**9),
        "--nodes": number(1, 1 << 21), "--sessions": number(1, 1 << 20),
        "--max-session": number(2, 1 << 20), "--data-bytes": number(1, 1048487),
        "--parts": number(1, 1024),
        "--journal": number(1, 1048576), "--sync": str,
    },
    **dict.fromkeys(AT_REST, {"--data": folder}),
    "install": {"--prefix": prefix},
}


def read(command, words):
    """The values that the words after a command give to its options; `Stopped` where they don't."""
    parser = Words(f"{command}: ", "./zk help")
    for name, kind in OPTIONS[command].items():
        choices = ("batch", "never") if name == "--sync" else None
        is_required = command in (*AT_REST, "install")
        parser.add_argument(name, type=kind, choices=choices, required=is_required)
    for name in {"install": ["--unproved"], "serve": ["--open"]}.get(command, ()):
        parser.add_argument(name, action="store_true")
    if command == "serve" and any(it.startswith("--servers") for it in words):
        parser.error("--servers isn't taken: this is one server, without a chain")
    found = parser.parse_args(words)
    for name in ("sync", "journal"):
        if getattr(found, name, None) and not found.data:
            parser.error(f"--{name} needs --data")
    return found
