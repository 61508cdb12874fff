"""Loads that few clients make, and that stall many servers: large bodies, acknowledgements out of order, and a queue that is drained."""

import random

from examples.load.client import method, publish

BODY = b"x" * 1_000_000
BODIES = 200

OUTSTANDING = (20_000, 200_000)
DRAINED = 500_000

WINDOW = 100


def cost(server, count, work):
    """The microseconds of the server's processor time that some work takes, for each of so many messages."""
    start = server.nanoseconds()
    work()
    return (server.nanoseconds() - start) / 1000 / count


def taken(server, name, count, work):
    """Prints what some work costs the server."""
    print(f"{name}: {cost(server, count, work):.2f} us a message, of {count}", flush=True)


def publish_all(client, words, count, window=WINDOW):
    for _ in range(count // window):
        client.socket.sendall(words * window)
        client.await_acks(window)


def large_bodies(server):
    [client] = server.clients(1)
    client.select()
    words = publish("direct", "new", BODY)
    taken(server, "publish, 1,000,000 bytes, window 1", BODIES, lambda: publish_all(client, words, BODIES, 1))
    client.purge("one")
    client.close()
    server.settle()


def swapped(tags):
    """Of each two the second one first."""
    return [tag for at in range(0, len(tags), 2) for tag in reversed(tags[at : at + 2])]


def shuffled(tags):
    return random.Random(1).sample(tags, len(tags))


def acknowledge_all(client, tags):
    for at in range(0, len(tags), WINDOW):
        client.socket.sendall(b"".join(method(1, 60, 80, tag + b"\0") for tag in tags[at : at + WINDOW]))
    # it is answered once all of them are settled
    client.purge("one")


def out_of_order(server, count, name, order):
    """As many messages are given out first. What is measured is their acknowledgements alone."""
    [publisher, consumer] = server.clients(2)
    publisher.select()
    consumer.consume("one")
    words, tags = publish("direct", "new", b"x" * 12), []
    for _ in range(count // WINDOW):
        publish_all(publisher, words, WINDOW)
        for some in consumer.deliveries(WINDOW):
            tags += some
    tags = order(tags)
    taken(server, f"acknowledge, {name}, {count} outstanding", count, lambda: acknowledge_all(consumer, tags))
    publisher.close()
    consumer.close()
    server.settle()


def drained(server, count):
    """A queue that has grown, and is taken and acknowledged to its end: what stays of its memory."""
    [client] = server.clients(1)
    client.select()
    before = server.resident()
    publish_all(client, publish("direct", "new", b"x" * 12), count)
    grown = server.resident() - before
    [consumer] = server.clients(1)
    consumer.consume("one")
    taken(server, f"deliver and ack, 12 bytes, {count} waiting", count, lambda: consumer.acknowledge(count))
    consumer.purge("one")
    left = server.resident() - before
    print(f"a queue of {count} messages, drained: {grown / 1e6:.0f} MB of memory when it was full, {left / 1e6:.0f} MB left", flush=True)
    client.close()
    consumer.close()
    server.settle()


def rare(server):
    drained(server, DRAINED)
    large_bodies(server)
    for count in OUTSTANDING:
        for name, order in (("of each two the second first", swapped), ("at random", shuffled)):
            out_of_order(server, count, name, order)
