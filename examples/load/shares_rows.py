"""The rows of `shares`: what one client gets beside others."""

import contextlib
import dataclasses
import multiprocessing
import os
import select
import socket
import struct
import subprocess
import time

from examples.load.client import Client, frame, method, publish, short_text
from examples.load.neighbours import IDLE, LARGE, NEVER_READ, Deaf, held, large_publish
from examples.load.steady import OPENING, until_opened

FLOOD = (64, 1000)
"""Publishers that never pause, and their window."""

GAP = 0.02
"""Seconds between two publishes of a client that publishes now and then."""

ANSWERS_WITHIN = 20
"""How many seconds a client may take for its figures, beside those in which they are counted."""

SLOW_ACKS = 10
"""Acknowledgements a second of a slow consumer."""

GET_GAP = 0.5
"""Seconds between two gets."""

GONE = 1.0
"""How many seconds after its end a slow consumer is to cost nothing any more."""

WAITING = 1000
"""Messages that wait before a slow consumer comes."""

BESIDE_IDLE = 900
"""Connections that say nothing, beside a flood."""

TAKERS, TAKEN = 200, 1_000_000
"""Consumers that give back what they get, and the bytes of a message."""

SIZES = (60_000, 70_000, 1_000_000)
"""Bytes of a large publish: less than a read may get, a little more, and many reads."""

SMALL = b"x" * 12
TO_ONE, TO_TWO, TO_FULL = ("direct", "new", "one"), ("direct", "other", "two"), ("direct", "full", "full")
"""An exchange, a routing key, and the queue to which they lead."""
FANOUT = ("fanout", "", "one")


class Unanswered(Exception):
    """A client got no figures in time."""


@dataclasses.dataclass
class Row:
    name: str
    says: str
    measure: object
    """Takes a server and seconds, and yields its figures, as texts."""


class Group:
    """Clients of `busy.c` that never pause, in a process of their own, from the time on when all have logged in."""

    def __init__(self, server, publishers, window, consumers=0, prefetch=0, style="free", way=TO_ONE, size=len(SMALL)):
        words = [server.port, 0, publishers, window, consumers, prefetch, size, style, *way]
        self.process = subprocess.Popen([os.environ["BUSY"], *map(str, words)], stdin=subprocess.PIPE, stdout=subprocess.PIPE, bufsize=0)
        try:
            self.line()
        except Unanswered:
            self.end()
            raise

    def line(self):
        came = b""
        until = time.monotonic() + ANSWERS_WITHIN
        while not came.endswith(b"\n"):
            if not select.select([self.process.stdout], [], [], max(0, until - time.monotonic()))[0]:
                raise Unanswered(f"no figures within {ANSWERS_WITHIN} seconds")
            more = os.read(self.process.stdout.fileno(), 256)
            if not more:
                raise Unanswered("a client ended")
            came += more
        return came

    def mark(self):
        """What was published and taken a second since the last mark."""
        self.process.stdin.write(b"\n")
        published, taken = self.line().split()
        return int(published), int(taken)

    def over(self, seconds):
        """What is published and taken a second over these seconds."""
        self.mark()
        time.sleep(seconds)
        return self.mark()

    def end(self):
        self.process.kill()
        self.process.wait()
        self.process.stdin.close()
        self.process.stdout.close()


@contextlib.contextmanager
def group(server, *given, **named):
    it = Group(server, *given, **named)
    try:
        yield it
    finally:
        it.end()
        server.settle()


def milliseconds(taken):
    """The median and the greatest of these seconds."""
    taken = sorted(taken)
    return f"median {1000 * taken[len(taken) // 2]:.2f} ms, greatest {1000 * taken[-1]:.2f} ms"


# ---- one client beside a flood


def confirms(server, seconds):
    """How many seconds each of the publishes of a client took to be acked that publishes now and then."""
    words, taken = publish(*TO_TWO[:2], SMALL), []
    with contextlib.closing(Client(server.port)) as client:
        client.select()
        until = time.monotonic() + seconds
        while time.monotonic() < until:
            time.sleep(GAP)
            began = time.perf_counter()
            client.socket.sendall(words)
            client.await_acks(1)
            taken.append(time.perf_counter() - began)
    return milliseconds(taken)


def pipeline(window):
    """A publisher that waits for its acks and deliveries, and its consumer."""

    def measured(server, seconds):
        with group(server, 1, window, 1, window, "awaited", TO_TWO) as it:
            return f"{it.over(seconds)[1]:,} taken a second"

    return measured


def logins(server, seconds):
    """How many seconds it takes until a client is open that logs in now and then."""
    taken, until = [], time.monotonic() + seconds
    while time.monotonic() < until:
        began = time.perf_counter()
        with socket.create_connection(("127.0.0.1", server.port), ANSWERS_WITHIN) as one:
            one.sendall(OPENING)
            until_opened(one)
            taken.append(time.perf_counter() - began)
        time.sleep(GAP)
    return milliseconds(taken)


def beside_flood(client, way=None):
    """A client beside publishers that never pause, or alone; and what these publish meanwhile."""

    def measured(server, seconds):
        if way is None:
            yield client(server, seconds)
            return
        with group(server, *FLOOD, way=way) as flood:
            flood.mark()
            figures = client(server, seconds)
            yield f"{figures}; the flood {flood.mark()[0]:,} a second"

    return measured


KINDS = (
    ("confirm", f"one publish each {1000 * GAP:.0f} ms", confirms),
    ("1x1", "another queue, 1 x 1 delivered and acked, prefetch 1", pipeline(1)),
    ("1x100", "another queue, 1 x 100 delivered and acked, prefetch 100", pipeline(100)),
    ("login", "one login after another", logins),
)
THE_FLOOD = " x ".join(f"{it:,}" for it in FLOOD)


def flood_rows():
    places = (("alone", "alone", None), ("flood", f"beside {THE_FLOOD} into a queue that nobody consumes", TO_ONE), ("full", f"beside {THE_FLOOD} into a full queue", TO_FULL))
    return [Row(f"{kind}.{place}", f"{says}, {where}", beside_flood(client, way)) for kind, says, client in KINDS for place, where, way in places]


# ---- one client beside a flood and connections that say nothing, and beside consumers of large messages


def beside_idle_and_flood(client):
    def measured(server, seconds):
        with held(server.clients(BESIDE_IDLE)):
            server.settle()
            yield from beside_flood(client, TO_ONE)(server, seconds)
        server.settle()

    return measured


def beside_takers(client):
    """A client beside consumers that give each message back at once, of which there is one for each; and what these take meanwhile."""

    def measured(server, seconds):
        with contextlib.closing(Client(server.port)) as publisher:
            publisher.select()
            for _ in range(TAKERS):
                publisher.socket.sendall(publish(*TO_ONE[:2], b"x" * TAKEN))
                publisher.await_acks(1)
        with group(server, 0, 1, TAKERS, 1, "returned", TO_ONE) as takers:
            takers.mark()
            figures = client(server, seconds)
            yield f"{figures}; the consumers {takers.mark()[1]:,} a second"

    return measured


def crowd_rows():
    idle = [Row(f"{kind}.idle", f"{says}, beside {THE_FLOOD} and {BESIDE_IDLE} idle", beside_idle_and_flood(client)) for kind, says, client in KINDS]
    takers = f"beside {TAKERS} consumers of {TAKEN:,} bytes that give each back"
    return idle + [Row(f"{kind}.takers", f"{says}, {takers}", beside_takers(client)) for kind, says, client in KINDS if kind != "1x100"]


# ---- large publishes beside a flood


def filled_up(server):
    """Fills the queue `full`, so that further publishes are refused and take no memory."""
    with contextlib.closing(Client(server.port)) as client:
        client.select()
        client.socket.sendall(publish(*TO_FULL[:2], SMALL) * WAITING)
        client.await_acks(WAITING)


def large(publishers, size):
    """What large publishes get into a full queue, one at a time for each publisher: alone, and beside publishers that never pause."""

    def measured(server, seconds):
        filled_up(server)
        with group(server, publishers, 1, way=TO_FULL, size=size) as it:
            alone = it.over(seconds)[0]
            with group(server, *FLOOD, way=TO_ONE) as flood:
                flood.mark()
                beside = it.over(seconds)[0]
                others = flood.mark()[0]
        yield f"alone {alone:,} a second, beside them {beside:,} (1/{alone / max(beside, 1):.0f}); the flood {others:,} a second"

    return measured


def many(publishers, window):
    """What publishers with small windows get, and what a message costs."""

    def measured(server, seconds):
        it = Cost(server, seconds, publishers, window)
        yield f"{it.rate:,} a second, {it.microseconds:.2f} us a message"

    return measured


def large_rows():
    rows = [Row(f"large.{count}x{size}", f"{count} publishers of {size:,} bytes, one at a time, beside {THE_FLOOD}", large(count, size)) for count in (1, 16) for size in SIZES]
    return rows + [Row("many.1000x20", "1,000 x 20 publishes", many(1000, 20))]


# ---- a queue with a slow consumer


def taken_slowly(port, begun, over):
    """Consumes `one` with a prefetch of 1, and acknowledges so often a second."""
    client = Client(port)
    client.ask(method(1, 60, 10, struct.pack(">IHB", 0, 1, 0)), 60, 11)
    client.consume("one")
    begun.set()
    while not over.is_set():
        [tags] = client.deliveries(1)
        if over.wait(1 / SLOW_ACKS):
            break
        client.socket.sendall(b"".join(method(1, 60, 80, tag + b"\0") for tag in tags))
    client.close()


def got_slowly(port, begun, over):
    """Gets a message of `one` without an ack each half second."""
    client = Client(port)
    begun.set()
    while not over.wait(GET_GAP):
        client.socket.sendall(method(1, 60, 70, b"\0\0" + short_text("one") + b"\1"))
        client.frames()
    client.close()


@contextlib.contextmanager
def taker(server, kind):
    """A slow consumer, or one who gets, in a process of its own."""
    begun, over = multiprocessing.Event(), multiprocessing.Event()
    process = multiprocessing.Process(target=kind, args=(server.port, begun, over))
    process.start()
    try:
        if not begun.wait(ANSWERS_WITHIN):
            raise Unanswered(f"the slow consumer did not begin within {ANSWERS_WITHIN} seconds")
        yield
        if not process.is_alive():
            raise Unanswered("the slow consumer ended")
    finally:
        over.set()
        process.join(ANSWERS_WITHIN)
        if process.is_alive():
            process.kill()
            process.join()


def filled(server):
    """Puts messages into `one`."""
    with contextlib.closing(Client(server.port)) as client:
        client.select()
        client.socket.sendall(publish(*TO_ONE[:2], SMALL) * WAITING)
        client.await_acks(WAITING)


def beside_slow(publishers, window, kind, way=TO_ONE, beside=None):
    """What publishers get where nobody takes, where one takes slowly, and a second after that one has gone."""

    def measured(server, seconds):
        filled(server)
        with contextlib.ExitStack() as stack:
            if beside is not None:
                stack.enter_context(group(server, *FLOOD, way=beside))
            it = stack.enter_context(group(server, publishers, window, way=way))
            before = it.over(seconds)[0]
            with taker(server, kind):
                time.sleep(0.5)
                with_it = it.over(seconds)[0]
            time.sleep(GONE)
            after = it.over(seconds)[0]
        parts = ", ".join(f"{name} {rate:,} ({rate / max(before, 1):.2f})" for name, rate in (("with it", with_it), ("after it", after)))
        yield f"nobody takes: {before:,} a second, {parts}"

    return measured


def slow_rows():
    loads = (
        ("1x100", "1 x 100", (1, 100), TO_ONE, None),
        ("64x1000", "64 x 1,000", FLOOD, TO_ONE, None),
        ("fanout", "fanout of three, of which one has it, 8 x 100", (8, 100), FANOUT, None),
        ("beside", "1 x 100 beside 64 x 1,000 into another queue", (1, 100), TO_ONE, TO_TWO),
    )
    kinds = (("slow", f"a consumer of prefetch 1 with {SLOW_ACKS} acks a second", taken_slowly), ("get", "a get each half second", got_slowly))
    return [
        Row(f"{name}.{load}", f"{says}, published by {by}", beside_slow(*count, taken, way, beside))
        for load, by, count, way, beside in loads
        for name, says, taken in kinds
    ]


# ---- clients that have not logged in

HEARTBEATS = frame(8, 0, b"") * 32768
START = b"AMQP\0\0\x09\x01"


def say_heartbeats(port, count, begun, over):
    """Opens sockets that send heartbeats without end, and never log in. One that the server ends is opened anew."""
    poll = select.epoll()
    strangers = {}

    def come():
        one = socket.create_connection(("127.0.0.1", port), ANSWERS_WITHIN)
        one.sendall(START)
        one.setblocking(False)
        strangers[one.fileno()] = [one, 0]
        poll.register(one, select.EPOLLOUT)

    for _ in range(count):
        come()
    begun.set()
    while not over.is_set():
        for number, _ in poll.poll(0.1):
            one, at = strangers[number]
            try:
                strangers[number][1] = (at + one.send(memoryview(HEARTBEATS)[at:])) % len(HEARTBEATS)
            except BlockingIOError:
                pass
            except OSError:
                poll.unregister(number)
                del strangers[number]
                one.close()
                come()


@contextlib.contextmanager
def strangers(server, count):
    begun, over = multiprocessing.Event(), multiprocessing.Event()
    process = multiprocessing.Process(target=say_heartbeats, args=(server.port, count, begun, over))
    process.start()
    try:
        if not begun.wait(ANSWERS_WITHIN):
            raise Unanswered(f"{count} strangers did not come within {ANSWERS_WITHIN} seconds")
        yield
        if not process.is_alive():
            raise Unanswered("the strangers ended")
    finally:
        over.set()
        process.join(1)
        if process.is_alive():
            process.kill()
            process.join()
        server.settle()


def beside_strangers(count):
    def measured(server, seconds):
        with group(server, 1, 100) as it:
            alone = it.over(seconds)[0]
            with strangers(server, count):
                beside = it.over(seconds)[0]
        yield f"alone {alone:,} a second, beside them {beside:,} ({beside / max(alone, 1):.2f})"

    return measured


def stranger_rows():
    return [Row(f"strangers.{it}", f"1 x 100 publishes beside {it} that send heartbeats and never log in", beside_strangers(it)) for it in (100, 900)]


# ---- neighbours that do nothing


class Cost:
    """What a message of a group costs the server's process, and how many there are a second."""

    def __init__(self, server, seconds, *given):
        with group(server, *given) as it:
            it.mark()
            start = server.nanoseconds()
            time.sleep(seconds)
            taken = server.nanoseconds() - start
            self.rate = max(it.mark()[0], 1)
        self.microseconds = taken / 1000 / seconds / self.rate

    def told(self, alone):
        parts = f"cost {self.microseconds / alone.microseconds:.2f}, rate {self.rate / alone.rate:.2f} of alone"
        return f"{self.rate:,} a second, {self.microseconds:.2f} us a message: {parts}"


def beside_deaf(window):
    def measured(server, seconds):
        alone = Cost(server, seconds, 1, window)
        with contextlib.closing(Client(server.port)) as publisher:
            publisher.select()
            # one for each, since a connection that is paused behind a get holds its message
            for _ in range(NEVER_READ):
                publisher.socket.sendall(large_publish(LARGE))
            publisher.await_acks(NEVER_READ)
        with held([Deaf(server.port) for _ in range(NEVER_READ)]):
            server.settle()
            beside = Cost(server, seconds, 1, window)
        yield beside.told(alone)

    return measured


def beside_idle(window):
    def measured(server, seconds):
        load = (1, window, 1, window, "awaited", TO_TWO)
        alone = Cost(server, seconds, *load)
        with held(server.clients(IDLE)) as idle:
            yield "all there: " + Cost(server, seconds, *load).told(alone)
            idle.pop(IDLE // 2).close()
            server.settle()
            yield "one gone: " + Cost(server, seconds, *load).told(alone)

    return measured


def neighbour_rows():
    deaf = [Row(f"deaf.{it}", f"1 x {it} publishes beside {NEVER_READ} that never read", beside_deaf(it)) for it in (1, 100)]
    return deaf + [Row(f"idle.{it}", f"1 x {it} delivered and acked beside {IDLE} idle, and with one of them gone", beside_idle(it)) for it in (1, 100)]


def rows():
    return flood_rows() + crowd_rows() + large_rows() + slow_rows() + stranger_rows() + neighbour_rows()
