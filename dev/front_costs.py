"""Measures what the front costs: python3 -m dev.front_costs WARREN

It serves the shop, and publishes to it directly and through the front, in turn. Of the front it prints the processor time of a message and of a
connection, its memory, and how much longer a publish waits for its ack. Standard error says what was measured how.
"""

import os
import re
import socket
import statistics
import struct
import subprocess
import sys
import time

from dev import SHOP
from dev.beds.commands import warrenctl
from dev.beds.example import run_example

FILES = [os.path.join(SHOP, f"{it}.json") for it in ("definitions", "guarantees", "certificates")]

ROUNDS, MESSAGES, WINDOW, ALONE, IDLE = 3, 10_000, 100, 100, 100


def frame(channel, payload, kind=1):
    return struct.pack(">BHI", kind, channel, len(payload)) + payload + b"\xce"


def method(channel, class_id, method_id, arguments=b""):
    return frame(channel, struct.pack(">HH", class_id, method_id) + arguments)


def publish(body):
    """A publish to `news`, behind which is `mail`, with no property."""
    arguments = bytes(2) + b"\4news" + b"\0" + b"\0"
    return method(1, 60, 40, arguments) + frame(1, struct.pack(">HHQH", 60, 0, len(body), 0), 2) + frame(1, body, 3)


class Connection:
    """A connection with a channel open, in confirm mode."""

    def __init__(self, port):
        self.socket = socket.create_connection(("127.0.0.1", port), 60)
        self.socket.setsockopt(socket.IPPROTO_TCP, socket.TCP_NODELAY, 1)
        self.incoming = self.socket.makefile("rb", 1 << 16)
        self.published = 0
        self.ask(b"AMQP\0\0\x09\x01", 10)
        self.ask(method(0, 10, 11, bytes(4) + b"\5PLAIN" + b"\0\0\0\x0a\0till\0till" + b"\5en_US"), 10)
        tune_ok = method(0, 10, 31, struct.pack(">HIH", 255, 131_072, 0))
        self.ask(tune_ok + method(0, 10, 40, b"\1/\0\0"), 10)
        self.ask(method(1, 20, 10, b"\0"), 20)
        self.ask(method(1, 85, 10, b"\0"), 85)

    def payload(self):
        size = struct.unpack(">BHI", self.incoming.read(7))[2]
        return self.incoming.read(size + 1)

    def ask(self, data, class_id):
        self.socket.sendall(data)
        came = struct.unpack_from(">H", self.payload())[0]
        assert came == class_id, came

    def publish(self, data, count):
        """Sends `data`, which is `count` publishes, and waits for all acks."""
        self.socket.sendall(data)
        self.published += count
        tag = 0
        # they come in order, some for several publishes
        while tag < self.published:
            ids, tag = struct.unpack_from(">IQ", self.payload())
            assert ids == 60 << 16 | 80, hex(ids)

    def purge(self):
        self.ask(method(1, 50, 30, bytes(2) + b"\4mail" + b"\0"), 50)

    def close(self):
        self.incoming.close()
        self.socket.close()


def processor_seconds(pid):
    """What a process with one thread took of the processor so far, by the nanosecond."""
    with open(f"/proc/{pid}/schedstat", encoding="utf-8") as file:
        return int(file.read().split()[0]) / 1e9


def resident_kilobytes(pid):
    with open(f"/proc/{pid}/status", encoding="utf-8") as file:
        return int(re.search(r"VmRSS:\s+(\d+)", file.read()).group(1))


def started(command):
    running = subprocess.Popen(command, stdout=subprocess.PIPE, text=True)
    return running, int(re.search(r":(\d+)", running.stdout.readline()).group(1))


def loads(port, pid, body):
    """Processor microseconds of a process for a message, over some rounds."""
    data, found = publish(body) * WINDOW, []
    for _ in range(ROUNDS):
        connection = Connection(port)
        before = processor_seconds(pid)
        for _ in range(MESSAGES // WINDOW):
            connection.publish(data, WINDOW)
        found.append((processor_seconds(pid) - before) / MESSAGES * 1e6)
        connection.purge()
        connection.close()
    return found


def waits(port):
    """Microseconds for which a publish waits for its ack, one at a time: the median."""
    connection, found = Connection(port), []
    data = publish(b"twelve bytes")
    for _ in range(ALONE):
        begun = time.perf_counter()
        connection.publish(data, 1)
        found.append((time.perf_counter() - begun) * 1e6)
    connection.purge()
    connection.close()
    return statistics.median(found)


def logins(port, pid):
    """Processor milliseconds of a process for a connection with its login and its end."""
    before = processor_seconds(pid)
    for _ in range(IDLE):
        Connection(port).close()
    time.sleep(0.5)
    return (processor_seconds(pid) - before) / IDLE * 1e3


def memory(port, pid):
    """Kilobytes of a process for an idle connection."""
    before = resident_kilobytes(pid)
    held = [Connection(port) for _ in range(IDLE)]
    took = (resident_kilobytes(pid) - before) / IDLE
    for it in held:
        it.close()
    return took


def measure(direct, port, pid):
    for name, body in (("12 bytes", b"twelve bytes"), ("1 KiB", bytes(1024))):
        found = loads(port, pid, body)
        print(f"a confirmed publish of {name}: {min(found):.1f} to {max(found):.1f} microseconds of processor time of the front")
    pairs = [(waits(direct), waits(port)) for _ in range(ROUNDS)]
    print(f"one at a time, a publish waits {statistics.median(a for a, _ in pairs):.0f} microseconds directly, {statistics.median(b for _, b in pairs):.0f} through the front")
    print(f"a connection with its login: {logins(port, pid):.2f} milliseconds of processor time")
    print(f"memory: {resident_kilobytes(pid) / 1024:.0f} MB, and {memory(port, pid):.0f} kB for an idle connection")


def main(warren):
    server, direct = started([warren, "serve", *FILES, "--listen", "127.0.0.1:0"])
    try:
        front, port = started([*warrenctl("front"), FILES[0], "--listen", "127.0.0.1:0", "--to", f"127.0.0.1:{direct}", "--most", "1000"])
        try:
            print(f"{ROUNDS} rounds of {MESSAGES} messages, {WINDOW} waiting", file=sys.stderr)
            measure(direct, port, front.pid)
        finally:
            front.kill()
            front.wait()
    finally:
        server.kill()
        server.wait()


if __name__ == "__main__":
    sys.exit(run_example("costs", __doc__, main))
