"""A server's process: what it takes of the processor and of memory, and how a load starts a server of its own."""

import contextlib
import glob
import json
import os
import shutil
import subprocess
import sys
import tempfile
import time

from examples.load.client import Client

HERE = os.path.dirname(os.path.realpath(__file__))
FILES = ("definitions.json", "guarantees.json", "certificates.json")
LETTERS = "letters"
"""The fanout exchange of dead letters; its queues are `letters0`, `letters1`, .."""


def first_number(name):
    with open(name) as file:
        return int(file.read().split()[0])


class Server:
    def __init__(self, port, process):
        self.port = port
        self.process = process

    def nanoseconds(self):
        """Of processor time so far, of all threads, in the system's calls too."""
        return sum(first_number(name) for name in glob.glob(f"/proc/{self.process}/task/*/schedstat"))

    def resident(self):
        """Bytes of memory that are there."""
        with open(f"/proc/{self.process}/statm") as file:
            return int(file.read().split()[1]) * os.sysconf("SC_PAGE_SIZE")

    def greatest(self):
        """The most bytes of address space that the process ever had, reserved ones included."""
        with open(f"/proc/{self.process}/status") as file:
            return next(int(line.split()[1]) * 1024 for line in file if line.startswith("VmPeak:"))

    def clients(self, count):
        return [Client(self.port) for _ in range(count)]

    def settle(self):
        """Waits until what was closed is let go."""
        time.sleep(0.5)


@contextlib.contextmanager
def started(program, folder, *options, errors=None):
    """Serves the three files of a folder by the program, until the caller has done with the server."""
    words = [os.path.abspath(program), "serve", *FILES, "--listen", "127.0.0.1:0", *options]
    process = subprocess.Popen(words, cwd=folder, stdout=subprocess.PIPE, stderr=errors, text=True)
    try:
        line = process.stdout.readline()
        if not line:
            sys.exit(f"examples/load: the server ended with status {process.wait()}")
        yield Server(int(line.rsplit(":", 1)[1]), process.pid)
    finally:
        process.kill()
        process.wait()


@contextlib.contextmanager
def copied():
    """A folder with the files of this one, whose definitions may be changed."""
    with tempfile.TemporaryDirectory() as folder:
        for name in FILES:
            shutil.copy(os.path.join(HERE, name), folder)
        yield folder


def queue(name, **arguments):
    return {"name": name, "vhost": "/", "durable": True, "auto_delete": False, "arguments": arguments}


def with_letters(definitions, count, limit):
    """The definitions with the queue `dying` alone, whose dead letters come to `count` queues of at most `limit` messages, or of any number."""
    limits = {"x-max-length": limit, "x-overflow": "reject-publish"} if limit is not None else {}
    targets = [f"{LETTERS}{number}" for number in range(count)]
    exchange = {**queue(LETTERS), "type": "fanout", "internal": True}
    bound = {"source": LETTERS, "vhost": "/", "destination_type": "queue", "routing_key": "", "arguments": {}}
    return {
        **definitions,
        "exchanges": [exchange],
        "queues": [queue("dying", **{"x-dead-letter-exchange": LETTERS}), *(queue(name, **limits) for name in targets)],
        "bindings": [{**bound, "destination": name} for name in targets],
    }


@contextlib.contextmanager
def with_dead_letters(program, count, limit=None):
    """A server whose queue `dying` passes on what is rejected, to `count` queues of at most `limit` messages."""
    with copied() as folder:
        path = os.path.join(folder, FILES[0])
        with open(path) as file:
            definitions = with_letters(json.load(file), count, limit)
        with open(path, "w") as file:
            json.dump(definitions, file)
        with started(program, folder) as server:
            yield server
