"""Publishers and consumers that never pause, by `busy.c`: whether consumers keep up, and what neighbours cost them."""

import contextlib
import os
import socket
import struct
import subprocess
import time

from examples.load.client import PATIENCE, START_OK, Client, method, short_text

SECONDS = 1.5
"""How long one such load is counted."""

ROWS = ((1, 100), (8, 100), (64, 100), (64, 1000))
"""Publishers, and their window."""

PREFETCH = 100

LOGINS = 200
"""So many clients log in at once beside the last row's publishers."""

OPENING = (
    b"AMQP\0\0\x09\x01"
    + method(0, 10, 11, START_OK)
    + method(0, 10, 31, struct.pack(">HIH", 255, 131072, 0))
    + method(0, 10, 40, short_text("/") + b"\0\0")
)
OPEN_OK = method(0, 10, 41, b"\0")


class Busy:
    """What came of one load, a second each, and what it cost the server."""

    def __init__(self, server, publishers, window, consumers, prefetch, size=12, style="free"):
        words = [server.port, SECONDS, publishers, window, consumers, prefetch, size, style]
        client = subprocess.Popen([os.environ["BUSY"], *map(str, words)], stdout=subprocess.PIPE, text=True)
        client.stdout.readline()
        start = server.nanoseconds()
        self.published, self.taken = map(int, client.stdout.readline().split())
        taken = server.nanoseconds() - start
        client.wait()
        self.cost = taken / 1000 / SECONDS / max(self.published, 1)
        with contextlib.closing(Client(server.port)) as purging:
            purging.purge("one")
        server.settle()

    def tell(self, name):
        kept_up = 100 * self.taken / max(self.published, 1)
        print(f"{name}: published {self.published} a second, taken {self.taken} ({kept_up:.1f} %), {self.cost:.2f} us a message", flush=True)


def until_opened(one):
    """Reads all answers to an opening."""
    came = b""
    while not came.endswith(OPEN_OK):
        more = one.recv(4096)
        if not more:
            raise EOFError("the server ended the connection")
        came += more


def logins(server, publishers, window):
    """How long it takes until clients are open that come at once, each with a whole opening, beside publishers that never pause."""
    words = [server.port, SECONDS + 1, publishers, window, 0, 0, 12, "free"]
    busy = subprocess.Popen([os.environ["BUSY"], *map(str, words)], stdout=subprocess.PIPE, text=True)
    busy.stdout.readline()
    began = time.monotonic()
    clients = [socket.create_connection(("127.0.0.1", server.port), PATIENCE) for _ in range(LOGINS)]
    for one in clients:
        one.sendall(OPENING)
    for one in clients:
        until_opened(one)
    taken = time.monotonic() - began
    for one in clients:
        one.close()
    busy.wait()
    print(f"{LOGINS} logins beside {publishers} x {window} publishes: {taken:.2f} s", flush=True)
    with contextlib.closing(Client(server.port)) as purging:
        purging.purge("one")
    server.settle()


def steady(server):
    """Whether a consumer keeps up with publishers that never pause."""
    for publishers, window in ROWS:
        for prefetch in (PREFETCH, 0):
            kind = f"a consumer of prefetch {prefetch}" if prefetch else "a consumer without acks"
            Busy(server, publishers, window, 1, prefetch).tell(f"{publishers} x {window} publishes, {kind}")
    logins(server, *ROWS[-1])
    for publishers, window in ((1, 100), (64, 1000)):
        Busy(server, publishers, window, 0, 0).tell(f"{publishers} x {window} publishes, no consumer")
