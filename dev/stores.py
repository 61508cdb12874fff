#!/usr/bin/env python3
"""Prints lines of calls of a queue, made at random from a fixed seed, with what is to be answered by a list of messages."""

import random

SEED = 39
RUNS = 64
CALLS = 24

HEAD = """\
# Calls of a queue, and what both of its bodies answer: the one over a list, and the one with indexes.
#
#   store CALL .. -> ANSWER ..         a queue with no message, these calls one after another, and all their answers
#
#   reserve:MORE                       room is made; no answer
#   push:FROM:TO:BYTES                 messages under these publish numbers, without TO, with a body of so many bytes; no answer
#   ready, bytes                       how many messages are ready; how many bytes their bodies have
#   full:LIMIT:BYTE_LIMIT:SIZE         whether it is full for a body of this size: yes or no
#   at:LIMIT:SIZE, past:BYTE_LIMIT:SIZE        the same, with one limit alone
#   first                              the first ready message
#   take:COUNT                         the first ready message is taken out, so many times
#   hold:CONNECTION:CHANNEL:TAG:COUNT  the first ready message is given out, so many times, from this tag on: how many were
#   held:CONNECTION:CHANNEL:TAG:COUNT:ARRIVAL          what is held under so many tags, from this one on
#   release:CONNECTION:CHANNEL:TAG:COUNT:ARRIVAL       it is ready again: how many were
#   remove:CONNECTION:CHANNEL:TAG:COUNT:ARRIVAL        it is taken out
#   purge                              the ready messages are taken out: their publish numbers, or `none`
#
# A message is told by its publish number, an `r` if it is redelivered, and `@CONNECTION.CHANNEL.TAG` if it is held; `none`
# tells that there is none. ARRIVAL is the number of the arrival of the first of them, or a wrong number, which changes nothing.
#
# `python3 -m dev.stores` prints this file. The answers are reckoned there, with a list of messages.
"""


class Message:
    def __init__(self, number, size, arrival):
        self.number, self.size, self.arrival = number, size, arrival
        self.redelivered, self.holder = False, None

    def __str__(self):
        held = "@%d.%d.%d" % self.holder if self.holder else ""
        return f"{self.number}{'r' if self.redelivered else ''}{held}"


class Queue:
    """Messages in the order in which they came. RabbitMQ, "Queue Length Limit"; AMQP 0-9-1, basic.ack, basic.reject."""

    def __init__(self):
        self.messages, self.arrived = [], 0

    def all_ready(self):
        return [m for m in self.messages if m.holder is None]

    def first(self):
        return next(iter(self.all_ready()), None)

    def under(self, holder):
        return next((m for m in self.messages if m.holder == holder), None)

    def bytes(self):
        return sum(m.size for m in self.all_ready())

    # ---- the calls, each with its answers

    def push(self, start, end, size):
        for number in range(start, end):
            self.messages.append(Message(number, size, self.arrived))
            self.arrived += 1
        return []

    def take(self, count):
        return [self.taken(self.first()) for _ in range(count)]

    def taken(self, message):
        if message is None:
            return "none"
        self.messages.remove(message)
        return str(message)

    def hold(self, connection, channel, tag, count):
        given = 0
        for i in range(count):
            message = self.first()
            if message is not None and self.under((connection, channel, tag + i)) is None:
                message.holder = (connection, channel, tag + i)
                given += 1
        return [str(given)]

    def found(self, connection, channel, tag, count):
        return [self.under((connection, channel, tag + i)) for i in range(count)]

    def held(self, connection, channel, tag, count, arrival):
        return ["none" if m is None else str(m) for m in self.found(connection, channel, tag, count)]

    def release(self, connection, channel, tag, count, arrival):
        there = [m for m in self.found(connection, channel, tag, count) if m is not None]
        for message in there:
            message.holder, message.redelivered = None, True
        return [str(len(there))]

    def remove(self, connection, channel, tag, count, arrival):
        return [self.taken(m) for m in self.found(connection, channel, tag, count)]

    def purge(self):
        gone = self.all_ready()
        self.messages = [m for m in self.messages if m.holder is not None]
        return [str(m.number) for m in gone] or ["none"]

    def is_full(self, limit, byte_limit, size):
        is_at = limit is not None and len(self.all_ready()) >= limit
        is_past = byte_limit is not None and self.bytes() + size > byte_limit
        return ["yes" if is_at or is_past else "no"]

    def answer(self, name, numbers):
        plain = {"push": self.push, "take": self.take, "hold": self.hold, "held": self.held, "release": self.release, "remove": self.remove, "purge": self.purge}
        if name in plain:
            return plain[name](*numbers)
        return {
            "reserve": lambda more: [],
            "ready": lambda: [str(len(self.all_ready()))],
            "bytes": lambda: [str(self.bytes())],
            "first": lambda: [str(self.first() or "none")],
            "full": self.is_full,
            "at": lambda limit, size: self.is_full(limit, None, size),
            "past": lambda limit, size: self.is_full(None, limit, size),
        }[name](*numbers)


class Run:
    """Random calls of one queue: the words and the answers of a line."""

    def __init__(self, rng, most):
        self.rng, self.most, self.queue = rng, most, Queue()
        self.number, self.tags, self.calls, self.answers = 1, {}, [], []

    def call(self, name, *numbers):
        self.calls.append(":".join([name, *map(str, numbers)]))
        self.answers += self.queue.answer(name, numbers)

    def channel(self):
        return self.rng.randrange(1, 3), self.rng.randrange(1, 3)

    def push(self):
        count = self.rng.randrange(1, self.most + 1)
        self.call("push", self.number, self.number + count, self.rng.choice([0, 1, 5, 22, 23, 300]))
        self.number += count

    def hold(self):
        channel = self.channel()
        count = self.rng.randrange(1, self.most + 1)
        tag = self.tags.get(channel, 0) + 1
        self.call("hold", *channel, tag, count)
        self.tags[channel] = tag + count - 1

    def settle(self, name):
        """Of a message that is held, mostly, and of those under the tags behind it; under its number of arrival, mostly."""
        there = [m for m in self.queue.messages if m.holder]
        if there and self.rng.random() < 0.9:
            message = self.rng.choice(there)
            holder, arrival = message.holder, message.arrival
        else:
            holder, arrival = (*self.channel(), self.rng.randrange(1, 40)), self.rng.randrange(0, 40)
        if self.rng.random() < 0.3:
            arrival = self.rng.randrange(0, 2 * self.queue.arrived + 2)
        self.call(name, *holder, self.rng.choice([1, 1, 1, 2, self.most]), arrival)

    def judge(self):
        ready, waiting = len(self.queue.all_ready()), self.queue.bytes()
        size = self.rng.choice([0, 1, 5, 300])
        limit, byte_limit = max(0, ready + self.rng.randrange(-1, 2)), max(0, waiting + size + self.rng.randrange(-1, 2))
        name, *limits = self.rng.choice([("full", limit, byte_limit), ("full", limit + 1, byte_limit + 1), ("at", limit), ("past", byte_limit)])
        self.call(name, *limits, size)

    def any_call(self):
        kinds = {
            self.push: 9,
            self.hold: 6,
            lambda: self.settle("release"): 4,
            lambda: self.settle("remove"): 4,
            lambda: self.settle("held"): 2,
            lambda: self.call("take", self.rng.randrange(1, self.most + 1)): 3,
            lambda: self.call("first"): 2,
            lambda: self.call("ready"): 1,
            lambda: self.call("bytes"): 2,
            self.judge: 3,
            lambda: self.call("reserve", self.rng.randrange(0, 3 * self.most)): 1,
            lambda: self.call("purge"): 1,
        }
        self.rng.choices(list(kinds), list(kinds.values()))[0]()

    def line(self, calls):
        self.push()
        for _ in range(calls):
            self.any_call()
        # what is left: all that is held, and then all that is ready
        for channel in sorted(self.tags):
            self.call("held", *channel, 1, self.tags[channel], 0)
        self.call("bytes")
        self.call("purge")
        return f"store {' '.join(self.calls)} -> {' '.join(self.answers)}"


    def sparse_line(self, count, pieces):
        """Most messages of several blocks go, some here and some there."""
        self.call("push", 1, count + 1, 1)
        self.call("hold", 1, 1, 1, count)
        for start, length in pieces:
            self.call("release", 1, 1, start + 1, length, start)
            if self.rng.random() < 0.5:
                self.call("purge")
        self.call("purge")
        left = [m for m in self.queue.messages if m.holder]
        for message in self.rng.sample(left, 6):
            self.call("held", *message.holder, 2, message.arrival)
        self.call("push", count + 1, count + 41, 5)
        for message in self.rng.sample(left, 4):
            self.call("release", *message.holder, 1, message.arrival)
            self.call("first")
        self.call("take", 3)
        for message in self.rng.sample([m for m in self.queue.messages if m.holder], 4):
            self.call("remove", *message.holder, 1, message.arrival)
        self.call("ready")
        self.call("bytes")
        self.call("purge")
        return f"store {' '.join(self.calls)} -> {' '.join(self.answers)}"


def sparse_lines(rng):
    """Blocks have 1,024 messages."""
    few = [(1024 * block + 1, 1023) for block in range(3)]
    yield Run(rng, 1).sparse_line(3100, few)
    yield Run(rng, 1).sparse_line(3100, few[::-1])
    pieces = [(start + rng.randrange(1, 40), 200) for start in range(0, 2800, 250)]
    rng.shuffle(pieces)
    yield Run(rng, 1).sparse_line(3000, pieces)


def lines():
    rng = random.Random(SEED)
    yield HEAD
    yield "# A few messages at a time."
    for _ in range(RUNS):
        yield Run(rng, 3).line(CALLS)
    yield ""
    yield "# Some hundred at a time, so that slots are in several words of marks."
    for _ in range(RUNS // 8):
        yield Run(rng, 150).line(CALLS // 2)
    yield ""
    yield "# Several blocks, of which few messages stay, so that neighbours are joined."
    yield from sparse_lines(rng)


if __name__ == "__main__":
    print("\n".join(lines()))
