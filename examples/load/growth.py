"""Checks that a server doesn't grow while messages and consumers come and go, nor while it rejects many messages at once.

    python3 -m examples.load.growth WARREN

It wants Linux and Python 3, and takes half a minute. Status: 0 nothing grew; 1 something did; 3 there is no program."""

import contextlib
import os
import struct
import sys

from examples.load.client import Client, cancel, consume, declare, method, publish
from examples.load.process import LETTERS, copied, started, with_dead_letters
from examples.load.removals import filled, held, reject_all

MESSAGES, CONSUMERS, REJECTED = 200_000, 100_000, 100_000
FIRST = 10_000
"""So many messages, or consumers, come and go before the first measurement."""

WINDOW = 1_000
TARGETS, LETTERS_EACH = 20, 10
BOUND = 2_000_000
"""A process that has fewer bytes more has not grown: the allocator keeps some for itself."""


def grew(what, before, after):
    """Says whether a process has grown, and returns it."""
    more = after - before
    print(f"{what}: {'nothing grew' if more < BOUND else f'{more} bytes grew'}", flush=True)
    return more >= BOUND


class Passing:
    """A publisher and a consumer of the queue `one`, in which one message is held all the time on the consumer's channel, and one is ready."""

    def __init__(self, server):
        self.publisher, self.consumer = server.clients(2)
        self.publisher.select()
        self.consumer.ask(method(1, 60, 10, struct.pack(">IHB", 0, WINDOW + 1, 0)), 60, 11)
        self.publish(WINDOW + 2)
        self.publisher.await_acks(WINDOW + 2)
        # the first delivery is never acknowledged
        self.consumer.consume("one")
        [_, *more] = self.consumer.early or self.consumer.methods()
        self.consumer.early = more

    def publish(self, count):
        self.publisher.socket.sendall(publish("direct", "new", b"x" * 12) * count)

    def go_on(self, count):
        for _ in range(count // WINDOW):
            # the acks make room for what is published, whose publisher is read less while the consumer takes nothing
            self.publish(WINDOW)
            self.consumer.acknowledge(WINDOW)
            self.publisher.await_acks(WINDOW)


def messages(server):
    passing = Passing(server)
    passing.go_on(FIRST)
    before = server.resident()
    passing.go_on(MESSAGES)
    return grew(f"{MESSAGES} messages", before, server.resident())


def consume_and_cancel(client, count):
    words = (consume("two", "t") + cancel("t")) * WINDOW
    for _ in range(count // WINDOW):
        client.socket.sendall(words)
        answers = 0
        while answers < 2 * WINDOW:
            answers += len(client.methods())


def consumers(server):
    [client] = server.clients(1)
    consume_and_cancel(client, FIRST)
    before = server.resident()
    consume_and_cancel(client, CONSUMERS)
    return grew(f"{CONSUMERS} consumers", before, server.resident())


def depth(client, queue):
    client.socket.sendall(declare(queue))
    [(_, _, arguments)] = client.methods()
    return struct.unpack_from(">I", arguments, 1 + arguments[0])[0]


def rejection(server):
    """All messages of a queue are rejected at once. The dead letter of each goes to queues that are full soon."""
    filled(server, "dying", REJECTED)
    with contextlib.closing(Client(server.port)) as client:
        tag = held(client, "dying", REJECTED)
        before = server.greatest()
        reject_all(client, tag, "dying")
        has_grown = grew(f"a rejection of {REJECTED} messages", before, server.greatest())
        came = depth(client, f"{LETTERS}{TARGETS - 1}")
    if came != LETTERS_EACH:
        print(f"a rejection of {REJECTED} messages: {came} came to the last queue, not {LETTERS_EACH}", flush=True)
    return has_grown or came != LETTERS_EACH


def main(words):
    if len(words) != 1 or not (os.path.isfile(words[0]) and os.access(words[0], os.X_OK)):
        print("growth: it takes the program warren", file=sys.stderr)
        return 3
    with copied() as folder, started(words[0], folder) as server:
        found = [messages(server), consumers(server)]
    with with_dead_letters(words[0], TARGETS, LETTERS_EACH) as server:
        found.append(rejection(server))
    return 1 if any(found) else 0


if __name__ == "__main__":
    sys.exit(main(sys.argv[1:]))
