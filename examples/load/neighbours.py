"""What neighbours cost clients that are busy: clients that never read, idle ones, and files that are refused at each look."""

import contextlib
import json
import os
import socket
import struct

from examples.load.client import Client, method, publish, short_text
from examples.load.process import FILES, copied, started
from examples.load.steady import PREFETCH, Busy

NEVER_READ = 200
IDLE = 1000
LOOKS = 100
"""After so many turns a server looks at its files."""

LARGE = b"x" * 200_000
GETS = 30
"""So many gets of that body fill an output whose client never reads, and what the system keeps for it."""



def large_publish(body):
    """A publish to the queue `two`, by the fanout, in frames that fit."""
    arguments = b"\0\0" + short_text("fanout") + short_text("") + b"\0"
    header = struct.pack(">HHQH", 60, 0, len(body), 0)
    frames = [method(1, 60, 40, arguments), b"\x02" + struct.pack(">HI", 1, len(header)) + header + b"\xce"]
    for at in range(0, len(body), 131064):
        piece = body[at : at + 131064]
        frames.append(b"\x03" + struct.pack(">HI", 1, len(piece)) + piece + b"\xce")
    return b"".join(frames)


class Deaf(Client):
    """A client that gets one message again and again, gives it back each time, and never reads it."""

    def __init__(self, port):
        super().__init__(port)
        self.socket.setsockopt(socket.SOL_SOCKET, socket.SO_RCVBUF, 4096)
        words = b""
        for tag in range(1, GETS + 1):
            words += method(1, 60, 70, b"\0\0" + short_text("two") + b"\0")
            words += method(1, 60, 90, struct.pack(">Q?", tag, True))
        self.socket.sendall(words)


@contextlib.contextmanager
def held(clients):
    try:
        yield clients
    finally:
        for it in clients:
            it.close()


def tell_beside(name, alone, beside):
    """What a message beside neighbours costs, and how it compares with one alone."""
    beside.tell(name)
    print(f"{name}: {beside.cost / alone.cost:.2f} of alone, {beside.published / alone.published:.2f} of its rate", flush=True)


def beside_deaf(server, window):
    """A publisher beside clients that get and never read."""
    alone = Busy(server, 1, window, 0, 0)
    alone.tell(f"1 x {window} publishes, alone")
    with contextlib.closing(Client(server.port)) as publisher:
        publisher.select()
        # one for each, for whoever is paused behind a get holds its message
        for _ in range(NEVER_READ):
            publisher.socket.sendall(large_publish(LARGE))
        publisher.await_acks(NEVER_READ)
        publisher.purge("one")
        with held([Deaf(server.port) for _ in range(NEVER_READ)]):
            server.settle()
            tell_beside(f"1 x {window} publishes beside {NEVER_READ} that never read", alone, Busy(server, 1, window, 0, 0))
        server.settle()
        for queue in ("two", "three"):
            publisher.purge(queue)
    server.settle()


def deliveries(server, window):
    return Busy(server, 1, window, 1, PREFETCH, style="awaited")


def beside_idle(server):
    """Messages that are published, delivered and acknowledged beside idle clients, and beside as many of which one went away."""
    alone = {window: deliveries(server, window) for window in (1, 100)}
    for window, it in alone.items():
        it.tell(f"1 x {window} publishes, delivered and acknowledged, alone")
    with held(server.clients(IDLE)) as idle:
        for gap in (False, True):
            if gap:
                idle.pop(IDLE // 2).close()
                server.settle()
            for window in (1, 100):
                name = f"1 x {window} publishes, delivered and acknowledged, beside {IDLE} idle"
                tell_beside(name + (", a number missing" if gap else ""), alone[window], deliveries(server, window))
    server.settle()


def refused_certificates():
    """A file of a million bytes that no server admits: there is no guarantee that its certificate is of."""
    states = [[number % 7, number % 5, number % 3] for number in range(100_000)]
    wanted = {"mode": "reaches", "exchange": "direct", "pattern": "new", "queue": "one", "form": 2, "tracked": [0], "states": states}
    return json.dumps([wanted])


def beside_a_refused_reload(program):
    """A publisher while a server looks at its files, and while it refuses them at each look."""
    with copied() as folder:
        refused = os.path.join(folder, "refused")
        with open(refused, "w") as errors, started(program, folder, "--reload", str(LOOKS), errors=errors) as server:
            alone = Busy(server, 1, 100, 0, 0)
            alone.tell(f"1 x 100 publishes, --reload {LOOKS}")
            with open(os.path.join(folder, FILES[2]), "w") as file:
                file.write(refused_certificates())
            tell_beside(f"1 x 100 publishes, --reload {LOOKS}, a refused file of 1 MB", alone, Busy(server, 1, 100, 0, 0))
        with open(refused) as lines:
            print(f"  it was refused {len(lines.readlines())} times", flush=True)


def neighbours(server, program):
    for window in (1, 100):
        beside_deaf(server, window)
    beside_idle(server)
    beside_a_refused_reload(program)
