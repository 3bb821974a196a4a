"""Trials of ZooKeeper's C client (c_client.c) over a server, where Debian's package has it."""
import os
import subprocess
import threading

from builds import ENVIRONMENT
from report import Skipped, want, want_same
from servers import Server, free_port, new_folder

SOURCES = ("tools/tests/c_client.c", "tools/tests/c_client_more.c")
HEADER, SECONDS, TRIALS = "/usr/include/zookeeper/zookeeper.h", 120, 23
# This asks for what isn't here: null data.
LACKING = {"null"}


def compiled(builds):
    """The program of the trials."""
    if not os.path.exists(HEADER):
        raise Skipped("no ZooKeeper client in C here (Debian's libzookeeper-mt-dev)")
    return builds.compiled("c_client", SOURCES, ["-lzookeeper_mt"])


def lines_of(builds, program):
    """What the program says. Where it asks for it, the server is killed, and started again."""
    given = {"folder": new_folder(builds), "tick": 500}
    server = Server(builds, **given)
    at, words = server.at, [program, server.at, f"127.0.0.1:{free_port()}"]
    pipes = {"stdin": subprocess.PIPE, "stdout": subprocess.PIPE, "stderr": subprocess.DEVNULL}
    with subprocess.Popen(words, env=ENVIRONMENT, text=True, bufsize=1, **pipes) as ran:
        timer = threading.Timer(SECONDS, ran.kill)
        timer.start()
        for line in ran.stdout:
            if line == "stop\n":
                server.kill()
            elif line == "start\n":
                server = Server(builds, words=("--listen", at), **given)
            else:
                yield line.rstrip("\n")
                continue
            ran.stdin.write("\n")
        timer.cancel()
    want_same(ran.wait(), 0, "the end of the C client's trials")
    server.stop()


def failures(builds):
    """Why trials failed, by their names."""
    lines = [it.split(" ", 1) for it in lines_of(builds, compiled(builds))]
    want_same(len(lines), TRIALS, "trials of the C client")
    return {it.split(":")[0]: it for word, it in lines if word == "FAILED"}


def c_client(builds, tally):
    failed = failures(builds)
    for name in LACKING - {*failed}:
        tally.fails("C client", f"{name} passes: it isn't lacking")
    # (their waits are of seconds, so a busy machine may fail some: all are run once more)
    if {*failed} - LACKING:
        again = failures(builds)
        failed = {name: why for name, why in failed.items() if name in again}
    for name in {*failed} - LACKING:
        tally.fails("C client", failed[name])
    tally.passes(TRIALS - len(LACKING | {*failed}))
