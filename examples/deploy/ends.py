"""Tries what may end a broker, of which examples/deploy/README.md has a table: python3 -m examples.deploy.ends WARREN

WARREN is the program of that crate. It needs Python alone, and prlimit of util-linux for the last part. The status is not 0 if something differs."""

import json
import os
import re
import shutil
import subprocess
import sys
import tempfile

from dev.beds.example import run_example
from dev.beds.rabbit import free_ports
from dev.beds.staging import LOOPBACK, NAMES, USER, Served, is_acked, shop_in, until, wanted
from warrenctl.amqp.client import Client, Refused
from warrenctl.fault import Fault

HERE = os.path.dirname(os.path.realpath(__file__))
# bytes of address space in which the shop is served, and a body of which few fit
SPACE, BODY = 48_000_000, b"x" * 100_000
ENOUGH = 2_000
sys.dont_write_bytecode = True


class Unit:
    """The broker as warren.service starts it: by `files`, with a folder for its copy."""

    def __init__(self, warren, folder):
        self.link, self.kept = (os.path.join(folder, it) for it in ("current", "kept"))
        self.port, self.environment, self.said = free_ports(1)[0], {**os.environ, "WARREN": warren}, os.path.join(folder, "said")
        self.process = None

    def files(self, *words):
        return [os.path.join(HERE, "files"), words[0], self.link, self.kept, *words[1:]]

    def start(self):
        where = f"{LOOPBACK}:{self.port}"
        with open(self.said, "wb") as said:
            self.process = subprocess.Popen(self.files("serve", "--listen", where, "--reload", "2"), env=self.environment, stdout=said, stderr=said)
        subprocess.run(self.files("follow", where), env=self.environment, timeout=60)
        return until(self.answers)

    def client(self):
        return Client(LOOPBACK, self.port, USER, USER)

    def answers(self):
        try:
            with self.client():
                return True
        except Fault:
            return False

    def has(self, exchange):
        with self.client() as client:
            try:
                client.exchange(exchange)
                return True
            except Refused:
                return False

    def told(self):
        with open(self.said, encoding="utf-8") as file:
            return file.read()

    def end(self):
        self.process.kill()
        self.process.wait()


def of_a_typo(warren, folder):
    """A file that was changed in place is refused by the running broker, and at the next start."""
    os.mkdir(os.path.join(folder, "first"))
    os.mkdir(os.path.join(folder, "kept"))
    os.symlink("first", os.path.join(folder, "current"))
    shop_in(os.path.join(folder, "current"))
    unit, name = Unit(warren, folder), os.path.join(folder, "current", NAMES[0])
    with open(name, encoding="utf-8") as file:
        value = json.load(file)
    try:
        yield wanted("a unit starts", unit.start(), unit.told())
        with open(name, "w", encoding="utf-8") as file:
            file.write("{")
        unit.end()
        yield wanted("with a typo in its files it starts on those that were in force", unit.start(), unit.told())
        yield wanted("and says so", "starting on the files that were in force" in unit.told(), unit.told())
        with unit.client() as client:
            client.select()
            yield wanted("an order is acked", is_acked(client, "shop", "orders.new", b"two loaves"))
        value["exchanges"].append({**value["exchanges"][0], "name": "mended", "type": "fanout", "arguments": {}})
        with open(name + ".new", "w", encoding="utf-8") as file:
            json.dump(value, file)
        os.replace(name + ".new", name)
        yield wanted("mended files are put in force without a stop", until(lambda: unit.has("mended")), unit.told())
        with unit.client() as client:
            yield wanted("and the order is still there", client.queue("audit").ready == 1)
    finally:
        unit.end()


def of_a_full_log(warren, folder):
    """Its standard error is a full disk, and each look has a line for it."""
    shop_in(folder)
    with open("/dev/full", "wb") as full, Served(warren, folder, "--reload", "2", errors=full) as broker:
        with open(broker.files[1], "w", encoding="utf-8") as file:
            file.write("{")
        with broker.client() as client:
            client.select()
            acked = [is_acked(client, "shop", "orders.new", b"two loaves") for _ in range(1_000)]
        yield wanted("with a log that is full and files that are refused 1,000 orders are acked", all(acked) and broker.process.poll() is None)


def of_the_limit(warren, folder):
    """The image's own command, with less address space, under a publisher that never stops."""
    shop_in(folder)
    with open(os.path.join(HERE, "Containerfile"), encoding="utf-8") as file:
        entry = json.loads(re.search(r"^ENTRYPOINT (\[.*\])$", file.read(), re.MULTILINE).group(1))
    command = [it.replace("/usr/local/bin/warren", warren).replace("/etc/warren/current", folder) for it in entry]
    port = free_ports(1)[0]
    running = subprocess.Popen([*command, "--listen", f"{LOOPBACK}:{port}"], env={**os.environ, "ADDRESS_SPACE": str(SPACE)}, stdout=subprocess.DEVNULL)
    try:
        serves = until(lambda: published(port, 1) == 1 or running.poll() is not None) and running.poll() is None
        yield wanted("the image's command serves", serves, running.poll())
        if not serves:
            return
        count = published(port, ENOUGH)
        yield wanted("a publisher is cut off before the memory is used up", 0 < count < ENOUGH, count)
        with Client(LOOPBACK, port, USER, USER) as client:
            taken = sum(1 for _ in client.gets("audit", ENOUGH))
        yield wanted("the broker goes on, and all that was acked is there", running.poll() is None and taken >= count, (taken, count))
    finally:
        running.kill()
        running.wait()


def published(port, count):
    """How many of so many publishes are acked until the connection is lost."""
    acked = 0
    try:
        with Client(LOOPBACK, port, USER, USER) as client:
            client.select()
            while acked < count and is_acked(client, "shop", "orders.new", BODY):
                acked += 1
    except Fault:
        pass
    return acked


def main(warren):
    parts = [of_a_typo, of_a_full_log]
    if shutil.which("prlimit"):
        parts.append(of_the_limit)
    else:
        print("examples/deploy: the limit of memory is skipped, prlimit is not here: apt-get install util-linux")
    outcomes = []
    for part in parts:
        with tempfile.TemporaryDirectory() as folder:
            outcomes += part(warren, folder)
    return 0 if all(outcomes) else 1


if __name__ == "__main__":
    sys.exit(run_example("examples/deploy", __doc__, main))
