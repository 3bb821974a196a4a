"""A setting: each change names the version that was read, so no client overwrites unread data.

    ./library
    PYTHONPATH=out/library python3 examples/setting.py

Server 2 crashes during a change, which acts once. Later server 4 joins, servers 1 and 3 crash, and
the setting is still there.
"""
from jellqupas import BadVersion, Service, Set


def change(client, path, how):
    """Sets a node to what `how` makes of its data, again as long as another client was faster."""
    while True:
        data, stat = client.get(path)
        try:
            return client.set(path, how(data), stat.version)
        except BadVersion:
            pass


def main():
    with Service(3) as service:
        one, two = service.client(1), service.client(2)
        one.create("/color", b"red")
        read = two.get("/color")[1].version

        service.begin(1, Set("/color", b"blue", read))
        service.take("c1", "s1")
        service.fail(2)
        service.settle()
        assert one.answer().version == 1
        print("client 1 sets it to blue, once")

        try:
            two.set("/color", b"green", read)
        except BadVersion:
            print("client 2 has read an old version")
        else:
            raise AssertionError("what client 1 wrote is overwritten")
        stat = change(two, "/color", lambda color: color + b" and green")
        assert stat.version == 2
        print("client 2 reads again, and adds green")

        service.join(4)
        service.settle()
        service.fail(1)
        service.fail(3)
        data, stat = one.get("/color")
        assert (data, stat.version) == (b"blue and green", 2)
        print(f"server 4 alone has it: {data.decode()}")


if __name__ == "__main__":
    main()
