"""For examples that serve by the program and look at what comes of it: a server, an outcome a line, and waiting.

    with Served(warren, folder) as broker, broker.client() as client:
        yield wanted("a publish is acked", is_acked(client))
"""

import json
import os
import shutil
import subprocess
import time

from dev import SHOP
from warrenctl.amqp.client import Client, Message

NAMES = ("definitions.json", "guarantees.json", "certificates.json")
LOOPBACK = "127.0.0.1"
# the user of the shop, and its password
USER = "till"
# seconds: a machine may be busy
PATIENCE = 60
REST = 0.1
NO_PROPERTIES = b"\0\0"


def wanted(what, is_so, found=None):
    """Prints an outcome, with what was found if it is not as wanted, and returns whether it is."""
    print(f"{what}: {'ok' if is_so else f'FAILED: {found}'}", flush=True)
    return bool(is_so)


def until(look, seconds=PATIENCE):
    """Looks until the answer is true, at most so long, and returns the last answer."""
    end = time.monotonic() + seconds
    while True:
        found = look()
        if found or time.monotonic() > end:
            return found
        time.sleep(REST)


def shop_in(folder):
    """Copies the three files of the shop into a folder."""
    for it in NAMES:
        shutil.copy(os.path.join(SHOP, it), folder)


def certify(warren, folder):
    """Has `warren check` write the certificates of a folder's definitions and guarantees. Returns its status."""
    files = [os.path.join(folder, it) for it in NAMES]
    return subprocess.run([warren, "check", *files[:2], "--out", files[2]], stdout=subprocess.DEVNULL).returncode


def write_json(path, value):
    with open(path, "w", encoding="utf-8") as file:
        json.dump(value, file)


class Served:
    """The program, serving the three files of a folder at a port of 127.0.0.1. It is killed with the block.

    `errors` is where its standard error goes, as `subprocess` takes it.
    """

    def __init__(self, warren, folder, *words, port=0, errors=None):
        self.files = [os.path.join(folder, it) for it in NAMES]
        command = [warren, "serve", *self.files, "--listen", f"{LOOPBACK}:{port}", *words]
        self.process = subprocess.Popen(command, stdin=subprocess.DEVNULL, stdout=subprocess.PIPE, stderr=errors, text=True)
        said = self.process.stdout.readline()
        if not said.startswith("warren: listening on "):
            self.end()
            raise OSError(f"{warren} does not serve {folder}")
        self.port = int(said.rsplit(":", 1)[1])

    def client(self):
        return Client(LOOPBACK, self.port, USER, USER)

    def depth(self, queue):
        with self.client() as client:
            return client.queue(queue)

    def end(self):
        self.process.kill()
        self.process.wait()

    def __enter__(self):
        return self

    def __exit__(self, *_):
        self.end()


def is_acked(client, exchange, key, body):
    """Publishes a message under confirms, and returns whether it was acked and not returned."""
    number = client.publish(Message(exchange.encode(), key.encode(), NO_PROPERTIES, body))
    return client.settled() == [(number, True)]
