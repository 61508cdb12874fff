"""Servers under load: a `warren` of these files, or a RabbitMQ of the same definitions."""

import contextlib
import glob
import json
import os
import subprocess
import time

from dev.beds.rabbit import Rabbit, RabbitFault
from examples.load.client import Client

HERE = os.path.dirname(os.path.realpath(__file__))

FILES = [os.path.join(HERE, it) for it in ("definitions.json", "guarantees.json", "certificates.json")]
QUEUES = ("one", "two", "three", "full")

PORT, DISTRIBUTION = 26072, 26073

GONE_WITHIN, UNCHANGED = 10, 0.3
"""Within how many seconds connections are gone, and for how many the number of open files is then the same."""


class NotStarted(Exception):
    """A server could not be started; the text says why."""


class Server:
    """A server that listens at a port of the loopback, by its process."""

    def __init__(self, port, process):
        self.port, self.process = port, process

    def nanoseconds(self):
        """Processor time of all its threads so far."""
        total = 0
        for name in glob.glob(f"/proc/{self.process}/task/*/schedstat"):
            with open(name) as file:
                total += int(file.read().split()[0])
        return total

    def clients(self, count):
        return [Client(self.port) for _ in range(count)]

    def purge_all(self):
        """Empties every queue."""
        with contextlib.closing(Client(self.port)) as client:
            for queue in QUEUES:
                client.purge(queue)
        self.settle()

    def settle(self):
        """Waits until connections that were closed are gone: until as many files have been open for a while."""
        until = time.monotonic() + GONE_WITHIN
        was, since = None, time.monotonic()
        while time.monotonic() < until:
            time.sleep(0.05)
            now = len(os.listdir(f"/proc/{self.process}/fd"))
            if now != was:
                was, since = now, time.monotonic()
            elif time.monotonic() - since >= UNCHANGED:
                return


@contextlib.contextmanager
def warren(path):
    """Serves the files of this folder by the program at `path`."""
    words = [path, "serve", *FILES, "--listen", "127.0.0.1:0"]
    try:
        process = subprocess.Popen(words, stdout=subprocess.PIPE, text=True)
    except OSError as error:
        raise NotStarted(f"{path}: {error.strerror}") from None
    try:
        said = process.stdout.readline()
        if not said:
            raise NotStarted(f"{path}: it ended with status {process.wait()}")
        yield Server(int(said.rsplit(":", 1)[1]), process.pid)
    finally:
        process.kill()
        process.wait()


@contextlib.contextmanager
def rabbitmq():
    """Serves the definitions of this folder by a RabbitMQ of its own, which collects no statistics."""
    with open(FILES[0], encoding="utf-8") as file:
        definitions = json.load(file)
    try:
        with Rabbit("shares", PORT, distribution=DISTRIBUTION, configuration="management_agent.disable_metrics_collector = true") as rabbit:
            rabbit.import_definitions(definitions)
            yield Server(rabbit.port, rabbit.pid)
    except RabbitFault as error:
        raise NotStarted(str(error)) from None
