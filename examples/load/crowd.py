"""Measures what a crowd of consumers of one queue costs: one row for each number of consumers, one table for each program.

Each PROGRAM is a `warren`, given as a path or as NAME=PATH, and served at a free port of the loopback. A figure is processor time of the server, in
microseconds a command or a pair of commands. With --waits it measures how long somebody else's publish waits for its confirm, and with --pairs
how many pairs a second one client makes, one after the other. Other work on the machine changes every figure. Takes about a minute.
"""

import argparse
import contextlib
import os
import statistics
import struct
import sys
import time

from examples.load.client import Client, method, publish, short_text
from examples.load.servers import NotStarted, rabbitmq, warren
from warrenctl.cli.words import Words

STATUSES = "Status: 0 all rows were measured; 3 the command line is refused, or a server does not start."
REFUSED = 3

QUEUE = "three"
CHANNELS, ON_CHANNEL = 255, 256
"""Channels of a connection of the crowd, and consumers of a channel."""

CROWDS = (0, 1_000, 10_000, 65_280, 261_120, 1_044_480)
OWN = (0, 5_000, 20_000)
"""Consumers on the connection of a client that makes pairs."""

ENOUGH, MOST, STEP = 100_000_000, 4_000, 25
"""So many nanoseconds of the server, or so many commands, make a figure; and how many are written at once."""

TIMES = 100
"""Publishes whose confirms are awaited."""

COLUMNS = ("declare", "pair, alone", "pair, its own", "pair, beside 255")


def consume(channel, tag, no_wait):
    bits = bytes([8 if no_wait else 0])
    return method(channel, 60, 20, b"\0\0" + short_text(QUEUE) + short_text(tag) + bits + struct.pack(">I", 0))


def cancel(channel, tag, no_wait):
    return method(channel, 60, 30, short_text(tag) + bytes([no_wait]))


def pair(channel):
    """A consume and its cancel. Both are answered."""
    return consume(channel, "pair", False) + cancel(channel, "pair", False)


def declare():
    return method(1, 50, 10, b"\0\0" + short_text(QUEUE) + b"\x01" + struct.pack(">I", 0))


def answers(client, count):
    while count > 0:
        count -= len(client.methods())


def with_consumers(port, count):
    """A client with so many consumers, on as many channels as they need."""
    client = Client(port)
    for channel in range(1, min(CHANNELS, -(-count // ON_CHANNEL)) + 1):
        if channel > 1:
            client.ask(method(channel, 20, 10, b"\0"), 20, 11)
        here = min(ON_CHANNEL, count - (channel - 1) * ON_CHANNEL)
        client.socket.sendall(b"".join(consume(channel, f"crowd{it}", True) for it in range(here)))
        client.ask(method(channel, 20, 20, b"\x01"), 20, 21)
    return client


def with_room(client, count):
    """The client, whose last channel is open and has room for one consumer more, if the crowd has so many."""
    if count < CHANNELS * ON_CHANNEL:
        client.ask(method(CHANNELS, 20, 10, b"\0"), 20, 11)
    else:
        client.ask(cancel(CHANNELS, "crowd0", False), 60, 31)
    return client


def crowd(port, count):
    whole = CHANNELS * ON_CHANNEL
    return [with_consumers(port, min(whole, count - at)) for at in range(0, count, whole)]


def microseconds(server, client, words, replies):
    """What the server takes for `words`, which it answers by so many methods."""
    made, start, taken = 0, server.nanoseconds(), 0
    while taken < ENOUGH and made < MOST:
        step = 1 if made < STEP else STEP
        client.socket.sendall(words * step)
        answers(client, replies * step)
        made += step
        taken = server.nanoseconds() - start
    return taken / 1_000 / made


def costs(server, count):
    """The figures of a row."""
    with contextlib.ExitStack() as closing:
        members = crowd(server.port, count)
        stranger = Client(server.port)
        for client in (*members, stranger):
            closing.callback(client.close)
        yield microseconds(server, stranger, declare(), 1)
        yield microseconds(server, stranger, pair(1), 2)
        yield microseconds(server, with_room(members[0], count), pair(CHANNELS), 2) if members else None
        others = with_consumers(server.port, ON_CHANNEL - 1)
        closing.callback(others.close)
        if members:
            members[0].ask(cancel(1, "crowd1", False), 60, 31)
        yield microseconds(server, others, pair(1), 2)


def print_costs(servers, crowds):
    for name, server in servers:
        print(f"{name:>12}" + "".join(f"{it:>20}" for it in COLUMNS), flush=True)
        for count in crowds:
            row = "".join(f"{'' if it is None else f'{it:,.1f}':>20}" for it in costs(server, count))
            print(f"{count:>12,}{row}", flush=True)
            server.settle()


def confirm(client, words):
    """How many milliseconds a publish waits for its ack."""
    began = time.monotonic()
    client.socket.sendall(words)
    client.await_acks(1)
    return (time.monotonic() - began) * 1_000


def waits(server, work):
    """The median and the longest wait of a publish each 20 ms, while `work` is called after each."""
    client = Client(server.port)
    client.select()
    words = publish("direct", "new", b"x" * 12)
    found = []
    for number in range(TIMES):
        work(number)
        found.append(confirm(client, words))
        time.sleep(0.02)
    client.close()
    server.purge_all()
    return f"{statistics.median(found):.1f} ms in the median, {max(found):.1f} at most"


def print_waits(servers):
    whole = CHANNELS * ON_CHANNEL
    for name, server in servers:
        members = crowd(server.port, whole)
        with_room(members[0], whole)
        print(f"{name}: alone: {waits(server, lambda _: None)}", flush=True)
        # 80 bytes each 20 ms are 4 kB a second
        said = waits(server, lambda _: members[0].socket.sendall(pair(CHANNELS)))
        print(f"{name}: beside a pair each 20 ms on a connection of {whole:,}: {said}", flush=True)
        answers(members[0], 2 * TIMES)
        beside = with_consumers(server.port, ON_CHANNEL - 1)
        members[0].ask(cancel(1, "crowd1", False), 60, 31)
        said = waits(server, lambda number: beside.socket.sendall(pair(1) * 100) if number == TIMES // 10 else None)
        print(f"{name}: beside one write of 100 pairs, with {ON_CHANNEL - 1} on the channel: {said}", flush=True)
        for client in (*members, beside):
            client.close()
        server.settle()


def pairs_a_second(server, own):
    client = with_consumers(server.port, own)
    channel = CHANNELS
    client.ask(method(channel, 20, 10, b"\0"), 20, 11)
    began, made = time.monotonic(), 0
    while time.monotonic() - began < 1.5:
        client.ask(consume(channel, "pair", False), 60, 21)
        client.ask(cancel(channel, "pair", False), 60, 31)
        made += 1
    client.close()
    server.settle()
    return made / 1.5


def print_pairs(servers):
    print(f"{'pairs a second':>16}" + "".join(f"{name:>12}" for name, _ in servers), flush=True)
    for own in OWN:
        print(f"{own:>9,} own   " + "".join(f"{pairs_a_second(server, own):>12,.0f}" for _, server in servers), flush=True)


def parsed():
    parser = Words("crowd", __doc__, STATUSES, "python3 -m examples.load.crowd", formatter_class=argparse.RawDescriptionHelpFormatter)
    parser.add_argument("programs", nargs="+", metavar="PROGRAM", help="a path to a program `warren`, or NAME=PATH")
    parser.add_argument("--consumers", type=int, action="append", metavar="N", help="only the row of so many consumers; may be repeated")
    parser.add_argument("--waits", action="store_true", help="measure how long a confirm waits in place of costs")
    parser.add_argument("--pairs", action="store_true", help="measure pairs a second in place of costs")
    parser.add_argument("--rabbitmq", action="store_true", help="with --pairs: measure RabbitMQ as well")
    given = parser.parse_args()
    if given.rabbitmq and not given.pairs:
        parser.error("--rabbitmq goes with --pairs")
    return given


def main():
    given = parsed()
    with contextlib.ExitStack() as stack:
        servers = []
        for program in given.programs:
            name, _, path = program.rpartition("=")
            servers.append((name or os.path.basename(path), stack.enter_context(warren(path))))
        if given.rabbitmq:
            servers.append(("RabbitMQ", stack.enter_context(rabbitmq())))
        if given.waits:
            print_waits(servers)
        elif given.pairs:
            print_pairs(servers)
        else:
            print_costs(servers, given.consumers or CROWDS)
    return 0


def ended():
    try:
        return main()
    except NotStarted as error:
        print(f"crowd: {error}", file=sys.stderr)
        return REFUSED


if __name__ == "__main__":
    sys.exit(ended())
