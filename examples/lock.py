"""A lock that two clients take in turn, and a setting that only its holder can write.

    ./library
    PYTHONPATH=out/library python3 examples/lock.py

Each client makes an ephemeral sequential node below /lock, and the first in the queue holds the
lock. The middle one of three servers crashes while the second client asks.

A holder may have lost its session without knowing. So it writes in a multi that checks its own
node: the name of a sequential node never comes twice, so it is a fencing token. (The name of a lock
such as /lock itself would be none: the next holder's node has the same path and the same version.)
"""
from jellqupas import Check, Create, NoNode, Service, Set


def has_lock(client, node):
    """Whether the client's node is the first in the queue."""
    return f"/lock/{client.children('/lock')[0]}" == node


def write(client, node, data):
    """Writes the setting if the client's node is still there; returns whether it did."""
    try:
        client.multi([Check(node), Set("/setting", data)])
    except NoNode as refusal:
        assert refusal.part == 0, "the setting itself is there"
        return False
    return True


def tell(clients, nodes):
    for client, node in zip(clients, nodes):
        print(f"client {client.number} {'has the lock' if has_lock(client, node) else 'waits'}")


def main():
    with Service(3) as service:
        one, two = service.client(1), service.client(2)
        one.create("/setting")
        one.create("/lock")
        sessions = one.open(2), two.open(20)
        first = one.create("/lock/n-", ephemeral=sessions[0], sequential=True)

        # The second client's create is in flight through the chain when server 2 crashes: it is
        # done all the same, and once.
        service.begin(2, Create("/lock/n-", ephemeral=sessions[1], sequential=True))
        service.take("c2", "s1")
        service.fail(2)
        service.settle()
        second = two.answer()
        print("server 2 has failed")
        tell((one, two), (first, second))
        assert has_lock(one, first) and not has_lock(two, second)
        assert write(one, first, b"by 1")
        print("client 1 writes")

        # The first client pings no more, and its session ends.
        service.tick()
        assert service.tick().ended == 1
        print("client 1's session ends")
        assert has_lock(two, second)
        print("client 2 has the lock")
        assert not write(one, first, b"too late")
        print("client 1 writes too late: refused")
        assert write(two, second, b"by 2")
        print("client 2 writes")
        assert one.get("/setting")[0] == b"by 2"


if __name__ == "__main__":
    main()
