"""Opens as many sockets as a server has room for, none of which runs, and waits for their ends.

    python3 -m examples.refusals.silent WARREN

First they say nothing, or a part of a login, then a login that is refused, and then they log in and are sent connection.close, which they
never answer. Each is ended after 30 seconds. Not so a client that logs in slowly, one that has logged in and opens no channel, and one that
answers its close late, which ends at once. A later one is served each time."""

import resource
import select
import socket
import struct
import subprocess
import sys
import time

from dev.beds.example import run_example
from examples.refusals.serve import LOAD, Client, Lost, method, opening, shortstr

sys.dont_write_bytecode = True


ROOM = 1024
PATIENCE, LATE = 30, 1
LATEST = 60
ACCOUNT, QUEUE = ("till", "till"), "one"
# the bytes of start-ok in an opening
START = 42
OPEN_CHANNEL = method(1, 20, 10, b"\0")
# a second connection.open, a get on a channel that is not open, and a prefetch size: connection.close with 503, 504 and 540
FAULTS = (method(0, 10, 40, shortstr("/") + b"\0\0"), method(7, 60, 70, b"\0\0" + shortstr(QUEUE) + b"\0"), OPEN_CHANNEL + method(1, 60, 10, b"\0\0\0\1\0\0\0"))
CLOSE_OK = method(0, 10, 51)
# how much of a login one says
PARTS = (0, 8, 64, 200)


def long_login():
    """A login of more bytes than any of the parts."""
    product = shortstr("product") + b"S" + struct.pack(">I", 300) + b"x" * 300
    return b"AMQP\0\0\x09\1" + method(0, 10, 11, struct.pack(">I", len(product)) + product + shortstr("PLAIN"))


class Slow(Client):
    """A client that takes most of the time that it has to log in."""

    def __init__(self, port):
        self.unread = b""
        self.socket = socket.create_connection(("127.0.0.1", port), timeout=3)
        self.began = time.monotonic()
        self.left = opening(*ACCOUNT)

    def say(self, seconds, count):
        """Sends so many bytes more of the opening, once so many seconds are over."""
        time.sleep(max(0.0, self.began + seconds - time.monotonic()))
        self.send(self.left[:count])
        self.left = self.left[count:]


class Quiet(Client):
    """A client that logs in, and opens no channel until it is asked to."""

    def __init__(self, port):
        self.unread = b""
        self.socket = socket.create_connection(("127.0.0.1", port), timeout=3)
        self.send(opening(*ACCOUNT)[: -len(OPEN_CHANNEL)])
        self.until(10, 41)

    def open(self):
        self.send(OPEN_CHANNEL)
        self.until(20, 11)


def sockets_that_say(port, each):
    """Sockets that say these, one after the other, and when each was there."""
    found = {}
    for words in each:
        one = socket.create_connection(("127.0.0.1", port), timeout=3)
        found[one] = time.monotonic()
        one.sendall(words)
    return found


def ends_of(silent, latest):
    """After how many seconds each of them was ended, as long as it is not later than this."""
    poll = select.poll()
    named = {}
    for one in silent:
        named[one.fileno()] = one
        poll.register(one, select.POLLIN)
    found = []
    while named and time.monotonic() < latest:
        for number, _ in poll.poll(100):
            one = named.pop(number)
            poll.unregister(number)
            try:
                is_ended = one.recv(65536) == b""
            except OSError:
                is_ended = True
            if is_ended:
                found.append(time.monotonic() - silent[one])
            else:
                named[number] = one
                poll.register(one, select.POLLIN)
    return found


def is_served(port):
    try:
        return Client(port, ACCOUNT).confirmed(QUEUE, [b"served"]) == 1
    except Lost:
        return False


def wrong_ends(name, sockets, ends):
    """What is wrong with the seconds after which sockets were ended, as lines."""
    if len(ends) < len(sockets):
        return [f"{len(sockets) - len(ends)} {name} were not ended"]
    if min(ends) < PATIENCE - 0.5 or max(ends) > PATIENCE + LATE:
        return [f"{name} were ended after {min(ends):.1f} to {max(ends):.1f} seconds"]
    print(f"{len(ends)} {name} were ended after {min(ends):.1f} to {max(ends):.1f} seconds", flush=True)
    return []


def beside_parts(port):
    """Sockets that say a part of a login, beside one that says all of it slowly."""
    slow = Slow(port)
    slow.say(0, 8)
    began = time.monotonic()
    login = long_login()
    silent = sockets_that_say(port, (login[: PARTS[it % len(PARTS)]] for it in range(ROOM - 2)))
    wrong = ["a client is served beside as many as there is room for"] if is_served(port) else []
    slow.say(10, START)
    slow.say(20, len(slow.left))
    slow.until(20, 11)
    wrong += wrong_ends("sockets with a part of a login", silent, ends_of(silent, began + LATEST))
    if not is_served(port):
        wrong.append("a later client is not served")
    if slow.confirmed(QUEUE, [b"slow"]) != 1:
        wrong.append("the slow client was lost")
    slow.socket.close()
    return wrong


def beside_refused(port):
    """Sockets whose login is refused."""
    began = time.monotonic()
    refused = sockets_that_say(port, [opening(ACCOUNT[0], "wrong")] * (ROOM - 1))
    wrong = wrong_ends("refused logins", refused, ends_of(refused, began + LATEST))
    if not is_served(port):
        wrong.append("a later client is not served behind refused logins")
    return wrong


def ends_soon(client):
    """Whether a client gets no more, and its socket is ended."""
    try:
        client.frame()
    except Lost:
        return True
    return False


def beside_closed(port):
    """Sockets whose connection ran and is closed, beside one that answers its close late."""
    late = Quiet(port)
    closed = [Quiet(port) for _ in range(ROOM - 2)]
    began = time.monotonic()
    late.send(FAULTS[0])
    late.until(10, 50)
    told = {}
    for number, one in enumerate(closed):
        told[one.socket] = time.monotonic()
        one.send(FAULTS[number % len(FAULTS)])
    wrong = ["a client is served beside as many closes as there is room for"] if is_served(port) else []
    time.sleep(max(0.0, began + 20 - time.monotonic()))
    late.send(CLOSE_OK)
    if not ends_soon(late):
        wrong.append("a late close-ok does not end its connection")
    wrong += wrong_ends("closes that were not answered", told, ends_of(told, began + LATEST))
    if not is_served(port):
        wrong.append("a later client is not served behind closes that were not answered")
    return wrong


def trial(port):
    """What is wrong, as lines."""
    quiet = Quiet(port)
    wrong = beside_parts(port) + beside_refused(port) + beside_closed(port)
    try:
        quiet.open()
    except Lost:
        return wrong + ["the quiet client was lost"]
    return wrong


def main(warren):
    _, hard = resource.getrlimit(resource.RLIMIT_NOFILE)
    resource.setrlimit(resource.RLIMIT_NOFILE, (min(hard, 4096), hard))
    words = [warren, "serve", "definitions.json", "guarantees.json", "certificates.json", "--listen", "127.0.0.1:0"]
    server = subprocess.Popen(words, cwd=LOAD, stdout=subprocess.PIPE)
    try:
        wrong = trial(int(server.stdout.readline().rsplit(b":", 1)[1]))
    finally:
        server.kill()
        server.wait()
    print("silent: " + (", ".join(wrong) or "the slow client, the quiet one and later ones are served"))
    return 1 if wrong else 0


if __name__ == "__main__":
    sys.exit(run_example("silent.py", __doc__, main))
