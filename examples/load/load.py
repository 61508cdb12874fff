"""Loads a server over sockets, and prints what each message costs the server's process.

Takes the server's port, the number of its process, and which loads are wanted: `few` or `steady`, which another server is given, too,
`rare`, `neighbours`, `removals`, `strangers` or `all`, and the program.
Each load is a fixed number of messages and ends early once it has taken its seconds, so the whole ends by itself.
"""

import sys
import time

from examples.load.client import properties, publish
from examples.load.neighbours import neighbours
from examples.load.occasional import latencies, publishers, tell_latencies
from examples.load.process import Server
from examples.load.rare import rare
from examples.load.removals import removals
from examples.load.steady import steady
from examples.load.strangers import strangers

SECONDS = 10
"""How long one load takes at most."""

SMALL = b"x" * 12
LARGE = b"x" * 1024

MESSAGE_ID = "1b9d6bcd-bbfd-4b2d-9b5d-ab8dfbbd4bed"

SET = {
    "no properties": properties(),
    "delivery-mode": properties(delivery_mode=2),
    "delivery-mode and content-type": properties("application/octet-stream", 2),
    "delivery-mode, content-type and message-id": properties("application/octet-stream", 2, MESSAGE_ID),
}
"""The properties that clients set most."""


def measured(server, step, wanted):
    """Takes steps until so many messages were sent or the time is over: microseconds of the server a message, how many, and how
    many a second."""
    step()
    start, began = server.nanoseconds(), time.monotonic()
    sent = 0
    while sent < wanted and time.monotonic() < began + SECONDS:
        sent += step()
    return (server.nanoseconds() - start) / 1000 / sent, sent, sent / (time.monotonic() - began)


def tell(name, cost, sent, rate):
    print(f"{name}: {cost:.2f} us a message, of {sent}, {rate:.0f} a second", flush=True)
    return rate


def publish_windows(server, clients, words, window):
    """One window of publishes by each client, then all their acks."""
    batch = words * window

    def step():
        for client in clients:
            client.socket.sendall(batch)
        for client in clients:
            client.await_acks(window)
        return window * len(clients)

    return step


def confirmed(server, name, words, window, count, wanted, queues=("one",)):
    clients = server.clients(count)
    for client in clients:
        client.select()
    rate = tell(name, *measured(server, publish_windows(server, clients, words, window), wanted))
    for queue in queues:
        clients[0].purge(queue)
    for client in clients:
        client.close()
    server.settle()
    return rate


def delivered(server, words, window, wanted):
    """Publishes with confirms, deliveries to a consumer, and an ack for each."""
    [publisher, consumer] = server.clients(2)
    publisher.select()
    consumer.consume("one")
    batch = words * window

    def step():
        publisher.socket.sendall(batch)
        publisher.await_acks(window)
        consumer.acknowledge(window)
        return window

    tell(f"publish, deliver and ack, 12 bytes, window {window}", *measured(server, step, wanted))
    publisher.close()
    consumer.close()
    server.settle()


def waiting(server, count):
    """What memory a message takes that waits, by its properties. All of them wait until the last has come, since what is purged is
    used again."""
    [client] = server.clients(1)
    client.select()
    for name, given in SET.items():
        step = publish_windows(server, [client], publish("direct", "new", SMALL, given), 100)
        for _ in range(10):
            step()
        before = server.resident()
        for _ in range(count // 100):
            step()
        print(f"a waiting message of 12 bytes, {name}: {(server.resident() - before) / count:.0f} bytes of memory", flush=True)
    client.purge("one")
    client.close()
    server.settle()


def beside_idle(server, words, count):
    """What memory an idle connection takes, and a busy connection beside so many of them: its rates, by its window."""
    before = server.resident()
    idle = server.clients(count)
    server.settle()
    taken = (server.resident() - before) / count
    print(f"{count} idle connections with one channel open: {taken:.0f} bytes of memory each", flush=True)
    waiting(server, 100000)
    rates = {}
    for window in (1, 100):
        name = f"publish, 12 bytes, window {window}, beside {count} idle connections"
        rates[window] = confirmed(server, name, words, window, 1, 20000 if window == 1 else 200000)
    with publishers(server.port, words, 100, 1):
        occasional(server, f"beside 1 publisher and {count} idle connections", words)
    for client in idle:
        client.close()
    server.settle()
    return rates


def with_properties(server):
    """What a publish costs whose client sets properties."""
    for name, given in SET.items():
        words = publish("direct", "new", SMALL, given)
        confirmed(server, f"publish, 12 bytes, {name}, window 100, connections 1", words, 100, 1, 200000)


def occasional(server, name, small):
    """How long a publish of a client takes that publishes now and then."""
    [client] = server.clients(1)
    client.select()
    tell_latencies(name, latencies(client, small, "one"))
    client.close()
    server.settle()


def all_occasional(server, small, large):
    """The same alone, and beside clients that never pause."""
    occasional(server, "alone", small)
    for words, count, name in ((small, 1, "1 publisher of 12 bytes"), (large, 8, "8 publishers of 1,024 bytes")):
        with publishers(server.port, words, 100, count):
            occasional(server, f"beside {name}", small)


def few(server, small, large):
    """What another server is loaded with, too."""
    waiting(server, 100000)
    confirmed(server, "publish, 12 bytes, window 1, connections 1", small, 1, 1, 20000)
    with_properties(server)
    confirmed(server, "publish, 1,024 bytes, window 100, connections 1", large, 100, 1, 100000)
    delivered(server, small, 100, 100000)
    all_occasional(server, small, large)


def all_loads(server, small, large):
    # first, since later memory is taken that was given back
    beside = beside_idle(server, small, 1000)
    for count in (1, 64, 1000):
        for window in (1, 100):
            name = f"publish, 12 bytes, window {window}, connections {count}"
            rate = confirmed(server, name, small, window, count, 20000 if window == 1 else 200000)
            if count == 1:
                print(f"beside 1000 idle connections: {beside[window] / rate:.2f} of that rate", flush=True)
    confirmed(server, "publish, 1,024 bytes, window 100, connections 1", large, 100, 1, 100000)
    delivered(server, small, 100, 100000)
    fanout = publish("fanout", "new", SMALL)
    confirmed(server, "publish, 12 bytes, fanout to three, window 100", fanout, 100, 1, 100000, ("one", "two", "three"))
    with_properties(server)
    all_occasional(server, small, large)


def main(port, process, kind, program=None):
    server = Server(port, process)
    if kind in ("few", "all"):
        loads = few if kind == "few" else all_loads
        loads(server, publish("direct", "new", SMALL), publish("direct", "new", LARGE))
    if kind in ("steady", "all"):
        steady(server)
    if kind in ("rare", "all"):
        rare(server)
    if kind in ("neighbours", "all"):
        neighbours(server, program)
    if kind in ("removals", "all"):
        removals(program)
    if kind in ("strangers", "all"):
        strangers(program)


main(int(sys.argv[1]), int(sys.argv[2]), *sys.argv[3:])
