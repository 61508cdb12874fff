"""What takes messages out of a large queue, or puts them back: a purge, the loss of a connection, a rejection of all at once; and how long another client
waits meanwhile. Servers of their own, so that no row takes memory that another gave back."""

import contextlib
import multiprocessing
import time

from examples.load.client import Client, cancel, declare, method, properties, publish
from examples.load.process import copied, started, with_dead_letters
from examples.load.rare import cost, publish_all, taken

SMALL = b"x" * 12
WINDOW = 1000
PURGED = 1_000_000
HELD, LOSSES = 10_000, 10
REJECTED = 300_000
LARGE = 2_000_000
"""So many messages wait at first; half of them are then delivered, and one in ten of these is held."""

HELD_OF = 10
# seconds between two requests of the client that waits
GAP = 0.002


def filled(server, queue, count, given=properties()):
    """Publishes messages into a queue, by the default exchange."""
    with contextlib.closing(Client(server.port)) as client:
        client.select()
        publish_all(client, publish("", queue, SMALL, given), count, WINDOW)


def held(client, queue, count):
    """Consumes so many messages, and returns the tag of the last."""
    client.consume(queue)
    last = None
    for tags in client.deliveries(count):
        last = tags[-1]
    return last


def purge(server):
    filled(server, "one", PURGED)
    [client] = server.clients(1)
    taken(server, f"a purge of {PURGED} waiting messages", PURGED, lambda: client.purge("one"))
    client.close()


def losses(server):
    """A connection is lost that holds messages, again and again."""
    filled(server, "two", HELD)
    total = 0.0
    for _ in range(LOSSES):
        [client] = server.clients(1)
        held(client, "two", HELD)

        def lose(client=client):
            client.close()
            server.settle()

        total += cost(server, HELD, lose)
    print(f"the loss of a connection that holds {HELD} messages: {total / LOSSES:.2f} us a message", flush=True)


def reject_all(client, tag, queue):
    """Rejects all messages up to a tag; the answer to the purge comes once that is done."""
    client.socket.sendall(method(1, 60, 120, tag + b"\1"))
    client.purge(queue)


def rejection(program, name, count, limit=None, given=properties()):
    with with_dead_letters(program, count, limit) as server:
        filled(server, "dying", REJECTED, given)
        [client] = server.clients(1)
        tag = held(client, "dying", REJECTED)
        resident, greatest = server.resident(), server.greatest()
        each = cost(server, REJECTED, lambda: reject_all(client, tag, "dying"))
        left, most = server.resident() - resident, server.greatest() - greatest
        print(
            f"a rejection of {REJECTED} messages at once, {name}: {each:.2f} us a message; "
            f"{left / REJECTED:.0f} bytes a message more, {most / REJECTED:.0f} at most meanwhile",
            flush=True,
        )
        client.close()


def rejections(program):
    rejection(program, "into one queue", 1)
    rejection(program, "into one queue, delivery-mode and content-type", 1, given=properties("application/octet-stream", 2))
    rejection(program, "into 20 queues of at most 10 messages", 20, 10)


def ask_on(port, longest, count, over):
    """Asks for the depth of a queue again and again, and notes the longest wait."""
    with contextlib.closing(Client(port)) as client:
        while not over.is_set():
            began = time.perf_counter()
            client.ask(declare("three"), 50, 11)
            waited = time.perf_counter() - began
            with longest.get_lock():
                longest.value = max(longest.value, waited)
                count.value += 1
            time.sleep(GAP)


class Waits:
    """A client in a process of its own that asks again and again, and how long it waited at most."""

    def __init__(self, port):
        self.longest, self.count, self.over = multiprocessing.Value("d", 0.0), multiprocessing.Value("q", 0), multiprocessing.Event()
        self.process = multiprocessing.Process(target=ask_on, args=(port, self.longest, self.count, self.over))

    def __enter__(self):
        self.process.start()
        return self

    def __exit__(self, *_):
        self.over.set()
        self.process.join()

    def end_of_a_wait(self):
        before = self.count.value
        while self.count.value == before and self.process.is_alive():
            time.sleep(GAP)

    def beside(self, name, work):
        with self.longest.get_lock():
            self.longest.value, self.count.value = 0.0, 0
        work()
        self.end_of_a_wait()
        with self.longest.get_lock():
            print(f"another client's longest wait beside {name}: {1000 * self.longest.value:.1f} ms, of {self.count.value} waits", flush=True)


def make_gaps(client, queue, count):
    """Consumes so many messages and acknowledges nine of each ten, and goes on holding the others."""
    client.consume(queue)
    place = 0
    for tags in client.deliveries(count):
        acks = [tag for number, tag in enumerate(tags, place) if number % HELD_OF]
        place += len(tags)
        client.socket.sendall(b"".join(method(1, 60, 80, tag + b"\0") for tag in acks))
    client.socket.sendall(cancel("c"))
    while not any(it[:2] == (60, 31) for it in client.methods()):
        pass


def waits(server):
    """How long a client waits while another works on one large queue."""
    publisher, consumer = server.clients(2)
    publisher.select()
    words = publish("direct", "new", SMALL)
    with Waits(server.port) as it:
        it.beside(f"publishes of {LARGE}", lambda: publish_all(publisher, words, LARGE, WINDOW))
        it.beside(f"deliveries of {LARGE // 2}, nine of each ten acknowledged", lambda: make_gaps(consumer, "one", LARGE // 2))
        it.beside(f"publishes of {LARGE // 2} behind the gaps", lambda: publish_all(publisher, words, LARGE // 2, WINDOW))
        it.beside("the purge of what is not held", lambda: publisher.purge("one"))
        it.beside(f"publishes of {LARGE // 2} behind the purge", lambda: publish_all(publisher, words, LARGE // 2, WINDOW))
    publisher.close()
    consumer.close()


def removals(program):
    with copied() as folder:
        for row in (purge, losses, waits):
            with started(program, folder) as server:
                row(server)
    rejections(program)
