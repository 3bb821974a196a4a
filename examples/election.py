"""An election: who makes the ephemeral node /leader leads, until its session ends.

    ./library
    PYTHONPATH=out/library python3 examples/election.py

The last server crashes during the create by which the second client takes over. That client gets
the reply that it leads, and not that its own node exists already.
"""
from jellqupas import Create, NodeExists, Service


def stand(client, session, name):
    """Tries to lead; returns the name of who leads."""
    try:
        client.create("/leader", name, ephemeral=session)
    except NodeExists:
        pass
    return client.get("/leader")[0]


def main():
    with Service(3) as service:
        one, two, reader = (service.client(number) for number in (1, 2, 3))
        sessions = one.open(2), two.open(2)
        assert stand(one, sessions[0], b"one") == b"one"
        assert stand(two, sessions[1], b"two") == b"one"
        print("one leads")

        # The first client pings no more, so its session ends at the second tick.
        service.tick()
        two.ping(sessions[1])
        assert service.tick().ended == 1
        assert reader.exists("/leader") is None
        print("nobody leads")

        # The second client asks again: its create has reached two of three servers when the third
        # crashes.
        service.begin(2, Create("/leader", b"two", ephemeral=sessions[1]))
        service.take("c2", "s1")
        service.take("s1", "s2")
        service.fail(3)
        service.settle()
        assert two.answer() == "/leader"
        leader, stat = reader.get("/leader")
        assert leader == b"two" and stat.owner == sessions[1].id
        print("two leads")
        # (a number of each term that only rises: the change that made the node)
        print(f"in the term {stat.czxid}")


if __name__ == "__main__":
    main()
