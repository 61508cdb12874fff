"""Cuts the shop into its parts, serves each by a process of its own behind HAProxy, one of them with a standby, and looks at what clients get.

    python3 -m examples.parts.run WARREN

WARREN is the program of that crate. It wants haproxy, openssl and pika: apt-get install --no-install-recommends haproxy openssl python3-pika. The
status is not 0 if something differs. Without one of them it ends with one line and status 0."""

import os
import re
import shutil
import socket
import subprocess
import sys
import tempfile
import time

from dev.beds.commands import warrenctl
from dev.beds.example import run_example
from dev.beds.rabbit import free_ports
from dev.beds.staging import LOOPBACK, SHOP, USER, Served, certify, is_acked, until, wanted
from warrenctl.amqp.client import Client, Refused
from warrenctl.fault import Fault

HERE = os.path.dirname(os.path.realpath(__file__))
sys.dont_write_bytecode = True



# Debian's Python has Debian's pika
PYTHON = "/usr/bin/python3"
HAPROXY = shutil.which("haproxy", path=os.environ["PATH"] + ":/usr/sbin")
# the ports of haproxy.cfg
FIRST, SECURE, SECOND, ACTIVE, STANDBY, ONLY = "5672", "5671", "5673", "6672", "6682", "6673"
MOST_OF_ONE_ADDRESS = 100


def missing():
    """Returns what is not on this machine, or `None`."""
    if HAPROXY is None:
        return "haproxy"
    if shutil.which("openssl") is None:
        return "openssl"
    has = subprocess.run([PYTHON, "-c", "import pika"], capture_output=True) if os.path.exists(PYTHON) else None
    return None if has is not None and has.returncode == 0 else "python3-pika"


class Proxy:
    """HAProxy over haproxy.cfg, with other ports and a certificate that is made here."""

    def __init__(self, folder, ports):
        self.ports = ports
        self.certificate, key, both = (os.path.join(folder, it) for it in ("certificate.pem", "key.pem", "both.pem"))
        command = "openssl req -x509 -newkey rsa:2048 -nodes -days 30 -subj /CN=localhost -addext subjectAltName=DNS:localhost"
        subprocess.run([*command.split(), "-keyout", key, "-out", self.certificate], check=True, capture_output=True)
        with open(both, "wb") as file:
            for it in (self.certificate, key):
                with open(it, "rb") as part:
                    file.write(part.read())
        with open(os.path.join(HERE, "haproxy.cfg"), encoding="utf-8") as file:
            text = re.sub(r"(?<=127\.0\.0\.1:)\d+", lambda found: str(ports[found.group()]), file.read()).replace("crt certificate.pem", f"crt {both}")
        config, self.log = os.path.join(folder, "haproxy.cfg"), os.path.join(folder, "haproxy.log")
        with open(config, "w", encoding="utf-8") as file:
            file.write(text)
        with open(self.log, "wb") as log:
            self.process = subprocess.Popen([HAPROXY, "-db", "-f", config], stdin=subprocess.DEVNULL, stdout=log, stderr=log)

    def client(self, port):
        return Client(LOOPBACK, self.ports[port], USER, USER)

    def answers(self, port):
        try:
            with self.client(port):
                return True
        except Fault:
            return False

    def lines(self):
        with open(self.log, encoding="utf-8") as file:
            return file.read()

    def end(self):
        self.process.kill()
        self.process.wait()


def folders_of(warren, folder):
    """Cuts the shop, and returns the folders of its parts with their certificates."""
    parts = os.path.join(folder, "parts")
    files = [os.path.join(SHOP, it) for it in ("definitions.json", "guarantees.json")]
    subprocess.run([*warrenctl("split"), *files, parts], check=True, stdout=subprocess.DEVNULL)
    found = [os.path.join(parts, it) for it in ("part1", "part2")]
    if any(certify(warren, it) for it in found):
        raise OSError("a guarantee of a part does not hold")
    return found


def is_published(proxy, port, exchange, key):
    """Publishes by a connection of its own, and returns whether that was acked."""
    try:
        with proxy.client(port) as client:
            client.select()
            return is_acked(client, exchange, key, b"two loaves")
    except Fault:
        return False


def code_of(call, *given):
    try:
        call(*given)
    except Refused as error:
        return error.code
    return None


def of_ports(proxy, active, standby, only):
    done = subprocess.run([PYTHON, os.path.join(HERE, "../deploy/tls.py"), str(proxy.ports[SECURE]), proxy.certificate], capture_output=True, text=True)
    yield wanted("an order by TLS", done.stdout == "over TLS: two loaves\n", done.stdout + done.stderr)
    yield wanted("an order at the first port is acked", is_published(proxy, FIRST, "shop", "orders.new"))
    yield wanted("it is in the active process alone", (active.depth("audit").ready, standby.depth("audit").ready) == (1, 0))
    yield wanted("news at the second port are acked", is_published(proxy, SECOND, "news", "") and only.depth("mail").ready == 1)
    with proxy.client(FIRST) as first, proxy.client(SECOND) as second:
        codes = [code_of(first.exchange, "news"), code_of(first.queue, "mail"), code_of(second.exchange, "shop"), code_of(second.queue, "audit")]
        yield wanted("what is of the other part is 404", codes == [404] * 4, codes)


def of_failure(proxy, active, standby, warren, folder):
    """The active process is killed, and comes back."""
    with proxy.client(FIRST) as connected:
        active.end()
        try:
            ended = until(lambda: connected.queue("audit") is None, 10)
        except Fault:
            ended = True
    yield wanted("its clients are told by the end of their connections", ended)
    yield wanted("the next order is acked by the standby", until(lambda: is_published(proxy, FIRST, "shop", "orders.new")))
    yield wanted("which has what came since, and nothing of before", standby.depth("audit").ready == 1, standby.depth("audit"))
    with Served(warren, folder, port=proxy.ports[ACTIVE]) as again:
        yield wanted("the first is up again", until(lambda: "part1/active is UP" in proxy.lines()))
        yield wanted("clients stay with the one that has the messages", is_published(proxy, FIRST, "shop", "orders.new") and standby.depth("audit").ready == 2, again.depth("audit"))
        yield wanted("the first is empty, and stands by", again.depth("audit").ready == 0)
        standby.end()
        yield wanted("it takes over in its turn", until(lambda: is_published(proxy, FIRST, "shop", "orders.new")) and again.depth("audit").ready == 1)


def of_one_address(proxy):
    """More connections from one address than HAProxy lets through."""
    held = [socket.create_connection((LOOPBACK, proxy.ports[SECOND])) for _ in range(MOST_OF_ONE_ADDRESS + 30)]
    answered = 0
    for it in held:
        it.settimeout(10)
        try:
            it.sendall(b"AMQP\0\0\x09\x01")
            answered += len(it.recv(1))
        except OSError:
            pass
    yield wanted(f"{MOST_OF_ONE_ADDRESS} connections of one address, and no more", MOST_OF_ONE_ADDRESS - 5 <= answered <= MOST_OF_ONE_ADDRESS, answered)
    for it in held:
        it.close()
    yield wanted("once they are gone others are served", until(lambda: proxy.answers(SECOND)))


def outcomes(warren, folder):
    names = (FIRST, SECURE, SECOND, ACTIVE, STANDBY, ONLY)
    ports = dict(zip(names, free_ports(len(names))))
    part1, part2 = folders_of(warren, folder)
    with Served(warren, part1, port=ports[ACTIVE]) as active, Served(warren, part1, port=ports[STANDBY]) as standby, Served(warren, part2, port=ports[ONLY]) as only:
        proxy = Proxy(folder, ports)
        try:
            yield wanted("HAProxy lets clients through", until(lambda: proxy.answers(FIRST) and proxy.answers(SECOND)), proxy.lines())
            with proxy.client(SECOND) as silent:
                began = time.monotonic()
                yield from of_ports(proxy, active, standby, only)
                yield from of_failure(proxy, active, standby, warren, part1)
                time.sleep(max(0, began + 12 - time.monotonic()))
                yield wanted("a client that was silent for 12 seconds is served", silent.queue("mail").ready == 1)
            yield from of_one_address(proxy)
        finally:
            proxy.end()


def main(warren):
    lacks = missing()
    if lacks:
        print(f"examples/parts: skipped, {lacks} is not here: apt-get install --no-install-recommends haproxy openssl python3-pika")
        return 0
    with tempfile.TemporaryDirectory() as folder:
        return 0 if all(list(outcomes(warren, folder))) else 1


if __name__ == "__main__":
    sys.exit(run_example("examples/parts", __doc__, main))
