"""What the measurements of servers share: connections, calls over them, and processor time."""
import os
import shutil
import socket
import subprocess
import tempfile

import measuring
import frames

# Debian's ZooKeeper.
JARS = "/usr/share/java/zookeeper.jar", "/usr/share/java/slf4j-nop.jar"
JAVA = ["java", "-Xmx512m", "-cp", ":".join(JARS)]
GREETED = 41


def has_zookeeper(builds):
    """Whether Debian's ZooKeeper is here. If not, that is said."""
    if shutil.which("java") and all(map(os.path.exists, JARS)):
        return True
    builds.say("Debian's zookeeper isn't installed")
    return False


def connected(port, greeting, answer):
    """A connection that was greeted, after so many bytes of an answer, if any is to come."""
    it = socket.create_connection(("127.0.0.1", port))
    it.setsockopt(socket.IPPROTO_TCP, socket.TCP_NODELAY, 1)
    it.sendall(greeting)
    came = it.recv(answer, socket.MSG_WAITALL) if answer else b""
    measuring.want(len(came) == answer, "no answer to the greeting")
    return it


def session(port):
    """A connection of a client of ZooKeeper's."""
    return connected(port, frames.greeting(30000), GREETED)


def requests(op, nodes, size):
    """A request of ZooKeeper's clients for each of so many nodes, and the bytes of an answer."""
    number, body, answer = {
        "create": (frames.CREATE, lambda path: frames.create_body(path, bytes(size)), 12),
        "delete": (frames.DELETE, frames.at_version, 0),
        "get": (frames.GET, frames.look_body, 72 + size),
        "set": (frames.SET, lambda path: frames.set_body(path, bytes(size)), 68),
    }[op]
    return [frames.request(it, number, body(f"/n-{it:05}")) for it in range(nodes)], 20 + answer


def call(load, ends, asked, depth, calls, answer):
    """Makes so many of these calls, over connections that are a pair each: where requests go, and
    where answers come from. The seconds of all calls, and the median of their seconds.
    """
    numbers = [it.fileno() for pair in ends for it in pair]
    words = [load, *map(str, (depth, calls, len(asked[0]), answer, *numbers))]
    with tempfile.TemporaryFile() as file:
        file.writelines(asked)
        file.seek(0)
        ran = subprocess.run(words, stdin=file, stdout=subprocess.PIPE, text=True,
                             pass_fds={*numbers})
    measuring.want(not ran.returncode, "the calls are not answered")
    return map(float, ran.stdout.split())


def processor(number):
    """The microseconds of processor time that a process has had."""
    with open(f"/proc/{number}/stat", encoding="ascii") as file:
        times = file.read().rpartition(")")[2].split()[11:13]
    return sum(map(int, times)) * 1e6 / os.sysconf("SC_CLK_TCK")
