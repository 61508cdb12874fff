"""What a client does at a broker over a topology, at random: publishes under confirms, takes, settles, and at last empties every queue.

Each step waits until it has taken effect, so that one order of messages is right: a publish for its confirm, and a rejection until the queue has
handled it.
"""

import struct

from dev.agree import operations
from dev.agree.operations import Closed, Got
from dev.agree.topologies import exchange, key
from warrenctl.amqp import wire

HEADERS = wire.short_text("kind") + b"S" + wire.long_text(b"new") + wire.short_text("n") + b"I" + struct.pack(">i", 7)
# flags and values: none, persistent, a content type with a message-id, headers
PROPERTIES = (
    b"\0\0",
    b"\0\0",
    b"\x10\0\x02",
    b"\x80\x80" + wire.short_text("text/plain") + wire.short_text("m-1"),
    b"\x20\0" + wire.long_text(HEADERS),
)


class Over(Exception):
    """The broker closed the channel or the connection."""


class Scenario:
    """One run over a topology. `broker.ask` performs an operation and returns its answers, `broker.settle` waits for what a queue rejected.

    `done` has each operation with its answers, as they came.
    """

    def __init__(self, chance, definitions, broker):
        self._chance, self._definitions, self._broker = chance, definitions, broker
        self._queues = [it["name"] for it in definitions["queues"]]
        self._held = {}  # by delivery tag, lowest first: the queue from which the message was taken
        self.done = []

    def run(self, keys):
        try:
            self._do(operations.select())
            for number in range(keys):
                self._publish(number)
                while self._chance.random() < 0.55:
                    self._step()
            for _ in range(keys):
                self._step()
            self._do(operations.recover())
            for queue in self._queues:
                while self._do(operations.get(queue, needs_ack=False)):
                    pass
        except Over:
            pass
        return self.done

    def _do(self, operation):
        """Performs an operation. Returns the message that it got, if any."""
        answers = self._broker.ask(operation)
        self.done.append((operation, answers))
        if any(isinstance(it, Closed) for it in answers):
            raise Over
        return next((it for it in answers if isinstance(it, Got)), None)

    def _publish(self, number):
        chance = self._chance
        body = f"{number}".encode() + b"." * chance.choice((0, 0, 0, 3, 10, 40)) if chance.random() < 0.95 else b""
        to, under = exchange(chance, self._definitions), key(chance, self._definitions)
        self._do(operations.publish(to, under, chance.choice(PROPERTIES), body, chance.random() < 0.4))

    def _step(self):
        """Takes a message, settles one or several, or seldom empties a queue."""
        kind = self._chance.random()
        if kind < 0.02:
            self._do(operations.purge(self._chance.choice(self._queues)))
        elif kind < 0.5 or not self._held:
            self._take(self._chance.choice(self._queues))
        elif kind < 0.9:
            self._settle_one()
        else:
            self._settle_several()

    def _take(self, queue):
        got = self._do(operations.get(queue))
        if got is not None:
            self._held[got.tag] = queue

    def _settle_one(self):
        tag = self._chance.choice(list(self._held))
        queue, kind = self._held.pop(tag), self._chance.random()
        if kind < 0.2:
            self._do(operations.acknowledge(tag))
        elif kind < 0.4:
            self._do(self._chance.choice((operations.reject(tag, True), operations.nack(tag, False, True))))
        else:
            self._do(self._chance.choice((operations.reject(tag, False), operations.nack(tag, False, False))))
            self._broker.settle(queue)

    def _settle_several(self):
        """Settles all messages up to a tag. What dies so is of one queue: in which order two queues' messages die is the broker's to choose."""
        tags = list(self._held)
        queue = self._held[tags[0]]
        if self._chance.random() < 0.6:
            same = next((at for at, tag in enumerate(tags) if self._held[tag] != queue), len(tags))
            last = self._chance.randint(1, same)
            operation = operations.nack(tags[last - 1], True, False)
        else:
            last, queue = self._chance.randint(1, len(tags)), None
            operation = self._chance.choice((operations.acknowledge(tags[last - 1], True), operations.nack(tags[last - 1], True, True)))
        for tag in tags[:last]:
            del self._held[tag]
        self._do(operation)
        if queue is not None:
            self._broker.settle(queue)
