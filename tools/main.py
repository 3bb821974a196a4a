"""What ./zk does: it runs the program that the words ask for, which it builds or proves first.

Its first word says what standard input is: 'folder', or 'open' for anything else. A folder can't
be handed to Python itself.
"""
import concurrent.futures
import os
import signal
import sys

import calling
import clusters
import installing
import places
import programs
import proof
import serving
import sources
import unproved
import upgrading
import usage
import words as words_of
from ending import Stopped, run, teller

tell = teller("zk")
HELP = ("help", "--help", "-h")
MODES = ("--proved", "--unproved")
# What can be proved.
PROVED = (*programs.NAMES, "library")


def refuse(text):
    """Ends for a word that isn't understood."""
    raise Stopped(f"{text}; './zk help' has the words", 2)


def become(program, words):
    """Runs the program in this one's place, with the signals that Python ignores as they were."""
    for it in (signal.SIGPIPE, signal.SIGXFSZ):
        signal.signal(it, signal.SIG_DFL)
    os.execv(program, [program, *words])


def get(mode, command):
    """A command's program, as the mode asks: proved, or built without proof where it isn't."""
    name, asked = programs.NAMES[command], "prove" if command == "script" else f"prove {command}"
    path = None if mode == "--unproved" else programs.proved(name)
    if not path and mode == "--proved":
        raise Stopped(f"the program is not proved; './zk {asked}' proves it")
    if path:
        return path
    path = programs.unproved(name) or unproved.build(name, tell)
    tell(f"this build is not proved; './zk {asked}' proves it")
    return path


def play(mode, command, words, _):
    """Runs a script or a race."""
    become(get(mode, command), [command, *words])


def hosted(host, mode, command):
    """The host of a command, which is compiled while its program is built, and that program."""
    with concurrent.futures.ThreadPoolExecutor(1) as aside:
        made = aside.submit(host)
        try:
            program = get(mode, command)
        finally:
            # (what keeps the host from being compiled is said first)
            path = made.result()
    return path, program


def serve(mode, command, words, _):
    """Runs the server for ZooKeeper's clients, behind its host."""
    host, program = hosted(serving.host, mode, command)
    become(host, [f"--program={program}", *words])


def node(mode, words):
    """Runs a node of a cluster, behind its host: `node FILE [--self NODE]`."""
    if len(words) not in (1, 3) or words[1:2] not in ([], ["--self"]):
        refuse("node takes FILE [--self NODE]")
    cluster = clusters.read(words[0], *words[2:])
    if not cluster.self:
        raise Stopped(f"{words[0]}: self= or --self is to name the node", 2)
    host, program = hosted(serving.node_host, mode, "node")
    become(host, clusters.words_of(cluster, program))


def at_rest(mode, command, words, _):
    """Does with a server's folder what the command says; with a copy, where a server uses it."""
    host, program = hosted(serving.host, mode, "serve")
    become(host, [command, f"--program={program}", *words])


def install(mode, _, __, given):
    """Installs the server for ZooKeeper's clients, and prints what it installed."""
    installing.make_ready(given.prefix)
    host, program = hosted(serving.host, "--unproved" if given.unproved else mode, "serve")
    print(*installing.install(given.prefix, host, program), sep="\n")


def prove(words):
    """Proves what the word names, a script's program where there is none, and prints its path."""
    what = words[0] if words else "script"
    if what not in PROVED or len(words) > 1:
        refuse(f"prove takes one word of {', '.join(PROVED)}, not '{' '.join(words)}'")
    if what == "library":
        os.execv(f"{sources.ROOT}/library", [f"{sources.ROOT}/library"])
    path = proof.program(programs.NAMES[what], tell)
    tell(f"the program of {what} is proved")
    print(path)


def do(is_folder, words):
    """Does what the words ask for."""
    mode = words.pop(0) if words[:1] in ([it] for it in MODES) else None
    command = words.pop(0) if words else "" if mode else "help"
    if command in HELP or any(it in HELP[1:] for it in words):
        print(usage.usage(), end="")
    elif (command, words) in (("--version", []), ("serve", ["--version"])):
        print(usage.version())
    elif command in words_of.OPTIONS:
        given = words_of.read(command, words)
        if is_folder and command in ("script", "serve"):
            raise Stopped("standard input is a folder")
        by_command = {"serve": serve, "install": install}
        by_command.update(dict.fromkeys(words_of.AT_REST, at_rest))
        by_command.get(command, play)(mode, command, words, given)
    elif command == "node":
        node(mode, words)
    elif mode:
        known = "script, race, serve, install, node, compact, export or stat"
        refuse(f"{mode} takes {known}, not '{command}'")
    elif command in ("cluster", "call"):
        {"cluster": clusters, "call": calling}[command].command(words)
    elif command == "upgrade":
        if len(words) != 1:
            refuse("upgrade takes FOLDER")
        print(upgrading.upgrade(words[0]))
    elif command == "prove":
        prove(words)
    elif command == "clean" and words in ([], ["--all"]):
        places.clean(bool(words), tell)
    else:
        refuse(f"there is no command '{' '.join([command, *words])}'")


if __name__ == "__main__":
    sys.exit(run(tell, do, sys.argv[1] == "folder", sys.argv[2:]))
