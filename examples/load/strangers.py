"""What memory a connection takes that isn't logged in, or whose login was refused, and begins a content on each channel."""

import contextlib
import socket
import struct

from examples.load.client import PATIENCE, START_OK, frame, method, short_text
from examples.load.process import copied, started

STRANGERS, CHANNELS = 200, 255
PIECE = 3_840
"""So many bytes of the body come, of 1,048,576 that its header declares."""

HEADER = b"AMQP\0\0\x09\x01"
REFUSED = struct.pack(">I", 0) + short_text("PLAIN") + struct.pack(">I", 8) + b"\0till\0no" + short_text("en_US")
PHASES = {
    "start-ok awaited": HEADER,
    "tune-ok awaited": HEADER + method(0, 10, 11, START_OK),
    "close-ok awaited": HEADER + method(0, 10, 11, REFUSED),
}


def begun_contents():
    """A publish on each channel, up to a part of its body."""
    words = b""
    for channel in range(1, CHANNELS + 1):
        words += method(channel, 60, 40, b"\0\0" + short_text("direct") + short_text("new") + b"\0")
        words += frame(2, channel, struct.pack(">HHQH", 60, 0, 1 << 20, 0)) + frame(3, channel, b"x" * PIECE)
    return words


def stranger(port, opening, contents):
    """A connection that has written all of it, as far as the server reads it."""
    it = socket.create_connection(("127.0.0.1", port), PATIENCE)
    with contextlib.suppress(ConnectionError, TimeoutError):
        it.sendall(opening)
        it.sendall(contents)
    return it


def strangers(program):
    contents = begun_contents()
    with copied() as folder:
        for name, opening in PHASES.items():
            with started(program, folder) as server:
                before = server.resident()
                some = [stranger(server.port, opening, contents) for _ in range(STRANGERS)]
                server.settle()
                taken = (server.resident() - before) / STRANGERS
                print(f"{STRANGERS} strangers, {name}, a content begun on each of {CHANNELS} channels: {taken:.0f} bytes of memory each", flush=True)
                for it in some:
                    it.close()
