"""How a program of this folder ends, and how it prints its progress."""
import contextlib
import os
import signal
import sys

# Whether standard output is open.
IS_OPEN = sys.stdout is not None


class Stopped(Exception):
    """Why a program ends before its work is done, and its exit status."""

    def __init__(self, text, status=3):
        super().__init__(text)
        self.status = status


def teller(name):
    """A function that prints a line on standard error under this name."""

    def tell(text):
        with contextlib.suppress(OSError):
            os.write(2, f"{name}: {text}\n".encode(errors="backslashreplace"))

    return tell


def stopped(number, _):
    raise Stopped("stopped; the next call continues from here", 128 + number)


def open_closed():
    """Opens closed standard descriptors, so that no other file has their numbers."""
    for number, path in enumerate((os.devnull, "/dev/full", os.devnull)):
        try:
            os.fstat(number)
        except OSError:
            os.set_inheritable(os.open(path, os.O_RDWR), True)
    sys.stdout = open(1, "w", encoding="utf-8", errors="surrogateescape", closefd=False)


def flush():
    """Writes what was printed, unless whoever reads it has enough of it."""
    try:
        sys.stdout.flush()
    except OSError as error:
        os.dup2(os.open(os.devnull, os.O_WRONLY), 1)
        if isinstance(error, BrokenPipeError):
            sys.exit(141)
        why = error.strerror.lower() if IS_OPEN else "it is closed"
        raise Stopped(f"standard output: {why}") from None


def run(tell, do, *given):
    """Calls `do`, and returns the exit status: 0, or that of the fault or signal that ended it."""
    for it in (signal.SIGINT, signal.SIGTERM, signal.SIGHUP):
        signal.signal(it, stopped)
    try:
        open_closed()
        do(*given)
        flush()
    except Stopped as error:
        tell(str(error))
        return error.status
    except OSError as error:
        tell(f"{error.filename or 'the toolchain'}: {(error.strerror or str(error)).lower()}")
        return 3
    return 0
