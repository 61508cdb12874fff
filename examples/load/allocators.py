"""Measures a broker with several allocators of memory: how much it has when a queue is full and after a drain, and what a message takes.

    python3 -m examples.load.allocators WARREN [COUNT]

WARREN is the program of that crate, COUNT the number of messages that wait (2,000,000). Of a message the instructions outside of the system's calls are counted. It wants
apt-get install --no-install-recommends libmimalloc2.0 libjemalloc2 valgrind, and leaves out with a line what is not here."""

import os
import re
import shutil
import signal
import subprocess
import sys
import tempfile
import time

from dev.beds.example import run_example
from examples.load.client import Client, publish

HERE = os.path.dirname(os.path.realpath(__file__))
sys.dont_write_bytecode = True


FILES = [os.path.join(HERE, it) for it in ("definitions.json", "guarantees.json", "certificates.json")]
# the name, the library, and what it is told
ALLOCATORS = (
    ("glibc", None, {}),
    ("glibc, trimmed", None, {"MALLOC_TRIM_THRESHOLD_": "131072", "MALLOC_TOP_PAD_": "0"}),
    ("mimalloc", "libmimalloc.so.2", {}),
    ("mimalloc, decommit at once", "libmimalloc.so.2", {"MIMALLOC_DECOMMIT_DELAY": "0"}),
    ("jemalloc", "libjemalloc.so.2", {}),
    ("jemalloc, decay in a second", "libjemalloc.so.2", {"MALLOC_CONF": "dirty_decay_ms:1000,muzzy_decay_ms:0"}),
    ("jemalloc, decay at once", "libjemalloc.so.2", {"MALLOC_CONF": "dirty_decay_ms:0,muzzy_decay_ms:0"}),
)
# what waits: bytes of a body, and how many of COUNT
SIZES = ((12, 1), (1024, 8))
# publishes that wait for their acks, while a queue is filled and while its messages are taken at once
FILLING, WINDOW = 2_000, 100
# messages of the two runs whose instructions are compared
FEW, MORE = 1_000, 11_000
# the limit of address space of examples/deploy/warren.service
LIMIT = 4 << 30
# seconds without a client, in which some allocators give memory back
IDLE = 15


def is_there(library):
    """Returns whether the loader finds a library: else it says so on standard error, and starts the program without it."""
    return library is None or not subprocess.run(["true"], env={**os.environ, "LD_PRELOAD": library}, capture_output=True).stderr


class Server:
    """The program over this folder's queues, with an allocator."""

    def __init__(self, warren, library, told, before=()):
        preload = {} if library is None else {"LD_PRELOAD": library}
        command = [*before, warren, "serve", *FILES, "--listen", "127.0.0.1:0"]
        self.process = subprocess.Popen(command, stdout=subprocess.PIPE, stderr=subprocess.DEVNULL, text=True, env={**os.environ, **preload, **told})
        self.port = int(self.process.stdout.readline().rsplit(":", 1)[1])

    def of_memory(self, name):
        """Returns a figure of the process's memory in megabytes."""
        with open(f"/proc/{self.process.pid}/status", encoding="ascii") as file:
            return int(re.search(rf"^{name}:\s+(\d+)", file.read(), re.MULTILINE).group(1)) / 1000

    def faults(self):
        """Returns how many pages the system has given to the process so far, without a read of a disk."""
        with open(f"/proc/{self.process.pid}/stat", encoding="ascii") as file:
            return int(file.read().rpartition(")")[2].split()[7])

    def nanoseconds(self):
        with open(f"/proc/{self.process.pid}/schedstat", encoding="ascii") as file:
            return int(file.read().split()[0])

    def fill(self, size, count):
        client = Client(self.port)
        client.select()
        words, left = publish("direct", "new", b"x" * size), count
        while left:
            some = min(left, FILLING)
            client.socket.sendall(words * some)
            client.await_acks(some)
            left -= some
        client.close()

    def drain(self, count):
        client = Client(self.port)
        client.consume("one")
        client.acknowledge(count)
        # it is answered once all acknowledgements are performed
        client.purge("one")
        client.close()

    def __enter__(self):
        return self

    def __exit__(self, *_):
        self.process.send_signal(signal.SIGTERM)
        self.process.wait()


def memory_of(warren, library, told, size, count):
    """Prints the memory of a full queue and of one that was drained, and whether that fits the unit's limit of address space."""
    with Server(warren, library, told, ("prlimit", f"--as={LIMIT}")) as server:
        begun = server.of_memory("VmRSS")
        server.fill(size, count)
        full, space = server.of_memory("VmRSS") - begun, server.of_memory("VmSize")
        server.drain(count)
        left = server.of_memory("VmRSS") - begun
        time.sleep(IDLE)
        later = server.of_memory("VmRSS") - begun
    print(f"  {count} of {size} bytes: {full:.0f} MB full, {left:.0f} MB after the drain, {later:.0f} MB {IDLE} seconds later, {space:.0f} MB of address space when full", flush=True)


def steady_of(warren, library, told, size, count):
    """Prints how many pages the system gives for messages that are taken at once, and the processor time of a message, the system's calls included."""
    with Server(warren, library, told) as server:
        publisher, consumer = Client(server.port), Client(server.port)
        publisher.select()
        consumer.consume("one")
        words = publish("direct", "new", b"x" * size) * WINDOW
        faults, began = server.faults(), server.nanoseconds()
        for _ in range(count // WINDOW):
            publisher.socket.sendall(words)
            publisher.await_acks(WINDOW)
            consumer.acknowledge(WINDOW)
        pages, took = server.faults() - faults, (server.nanoseconds() - began) / 1000 / count
    print(f"  {count} of {size} bytes, taken at once: {1000 * pages / count:.0f} pages for 1,000, {took:.1f} us of processor each", flush=True)


def instructions_of(warren, library, told, size, folder):
    """Prints how many instructions a message takes: its publish, its ack, its delivery and its acknowledgement."""
    counts = []
    for count in (FEW, MORE):
        out = os.path.join(folder, "counted")
        with Server(warren, library, told, ("valgrind", "--tool=callgrind", f"--callgrind-out-file={out}")) as server:
            server.fill(size, count)
            server.drain(count)
        with open(out, encoding="utf-8") as file:
            counts.append(int(re.search(r"^(?:totals|summary): (\d+)", file.read(), re.MULTILINE).group(1)))
    print(f"  a message of {size} bytes, published, delivered and acknowledged: {(counts[1] - counts[0]) / (MORE - FEW):.0f} instructions", flush=True)


def main(warren, count=2_000_000):
    has_valgrind = shutil.which("valgrind") is not None
    if not has_valgrind:
        print("instructions are left out: valgrind is not here")
    with tempfile.TemporaryDirectory() as folder:
        for name, library, told in ALLOCATORS:
            if not is_there(library):
                print(f"{name}: left out, {library} is not here")
                continue
            print(" ".join([f"{name}:", *(f"{it}={value}" for it, value in told.items())]), flush=True)
            for size, part in SIZES:
                memory_of(warren, library, told, size, count // part)
            for size, _ in SIZES:
                steady_of(warren, library, told, size, count // 100)
            for size, _ in SIZES if has_valgrind else ():
                instructions_of(warren, library, told, size, folder)
    return 0


if __name__ == "__main__":
    sys.exit(run_example("examples/load/allocators", __doc__, main, 2))
