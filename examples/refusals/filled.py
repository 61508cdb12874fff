"""For full.py and chaos.py: a server under a limit of address space, and clients that fill it and empty it."""

import json
import os
import resource
import select
import struct
import subprocess
import sys
import tempfile
import time

from examples.refusals.serve import LOAD, Client, Lost, method, publish, shortstr

ACCOUNT = ("till", "till")
NAMES = ("definitions.json", "guarantees.json", "certificates.json")
# the key of a publish is a queue, if it is to the default exchange
EXCHANGE, KEY = "all", "q0"
# publishes that wait for their acks
WINDOW = 200
LOGINS = 100
# bytes that are published at once to see that publishes are taken again
ONCE = 1_000_000
# the library of an allocator, as the loader finds it, and what it is told (examples/deploy/warren.service)
ALLOCATORS = {
    "glibc": (None, {}),
    "jemalloc": ("libjemalloc.so.2", {"MALLOC_CONF": "dirty_decay_ms:0,muzzy_decay_ms:0"}),
    "mimalloc": ("libmimalloc.so.2", {}),
}
# the numbers of another publisher's messages begin at a multiple of this
OTHERS = 10**9
# seconds without an answer after which a client is lost: a machine may be busy
PATIENCE = 60
# seconds from one turn to the next, and turns in which publishes have to be taken again
REST, TURNS = 0.5, 20
# the closes by the server, which are no answer to anything
CLOSES = {(10, 50): "connection", (20, 40): "channel"}
# lines of the server's standard error that are told of a row that fails
SAID_LAST = 3


def is_here(library):
    """Returns whether the loader finds a library."""
    return library is None or not subprocess.run(["true"], env={**os.environ, "LD_PRELOAD": library}, capture_output=True).stderr


# ---- files


def entry(**given):
    return {"vhost": "/", "arguments": {}, **given}


def topology(queues):
    """Returns a definitions file's value with these queues, bound to a fanout."""
    with open(os.path.join(LOAD, NAMES[0]), encoding="utf-8") as file:
        given = json.load(file)
    given["exchanges"] = [entry(name=EXCHANGE, type="fanout", durable=True, auto_delete=False, internal=False)]
    given["queues"] = [entry(name=name, durable=True, auto_delete=False) for name in queues]
    given["bindings"] = [entry(source=EXCHANGE, destination=name, destination_type="queue", routing_key="") for name in queues]
    return given


def write_files(warren, folder, definitions):
    """Puts definitions, no guarantees and the certificates of these into a folder."""
    for name, value in zip(NAMES, (definitions, {"guarantees": []})):
        with open(os.path.join(folder, name), "w", encoding="utf-8") as file:
            json.dump(value, file)
    subprocess.run([warren, "check", *NAMES[:2], "--out", NAMES[2]], cwd=folder, check=True, stdout=subprocess.DEVNULL)


class Server:
    """`warren serve` over the three files of a folder, with a limit of address space in MB and an allocator."""

    def __init__(self, warren, folder, limit, allocator, *words):
        library, told = ALLOCATORS[allocator]
        environment = {**os.environ, **told, **({"LD_PRELOAD": library} if library else {})}
        command = [warren, "serve", *(os.path.join(folder, it) for it in NAMES), "--listen", "127.0.0.1:0", *words]

        def limited():
            resource.setrlimit(resource.RLIMIT_AS, (limit << 20, limit << 20))

        self.said = tempfile.TemporaryFile()
        self.process = subprocess.Popen(command, env=environment, stdout=subprocess.PIPE, stderr=self.said, preexec_fn=limited)
        line = self.process.stdout.readline()
        if not line.startswith(b"warren: listening on "):
            self.stop()
            raise Lost(f"the server does not start: {' / '.join(self.lines()) or 'it says nothing'}")
        self.port = int(line.rsplit(b":", 1)[1])

    def has_ended(self):
        return self.process.poll() is not None

    def lines(self):
        """Returns what it wrote on its standard error, a line each."""
        self.said.seek(0)
        return self.said.read().decode(errors="replace").splitlines()

    def stop(self):
        self.process.kill()
        self.process.wait()


# ---- messages, which begin with their number


def body_of(number, size):
    return (b"%012d" % number).ljust(size, b".")


def number_of(body):
    return int(body[:12])


class Quick(Client):
    """A client that reads many frames at once, and waits for a busy machine."""

    patience = PATIENCE
    # up to where the frames of what was read were taken
    at = 0

    def frame(self):
        while True:
            have = len(self.unread) - self.at
            if have >= 8:
                length = 8 + int.from_bytes(self.unread[self.at + 3 : self.at + 7], "big")
                if have >= length:
                    begin, self.at = self.at, self.at + length
                    return self.unread[begin : self.at]
            self.unread, self.at = self.unread[self.at :] + self.more(), 0

    def more(self):
        try:
            data = self.socket.recv(1 << 18)
        except TimeoutError:
            raise Lost(f"no answer for {self.patience} seconds") from None
        except OSError as error:
            raise Lost(error.strerror) from error
        if not data:
            raise Lost("the connection is lost")
        return data

    def until(self, *wanted):
        """Returns the next method of these two numbers, or of the second pair of them. A close ends the wait, and is a `Lost`."""
        while True:
            frame = self.frame()
            ids = struct.unpack(">HH", frame[7:11])
            if frame[0] == 1 and ids in CLOSES:
                raise Lost(f"{CLOSES[ids]}.close {int.from_bytes(frame[11:13], 'big')}")
            if frame[0] == 1 and ids in zip(wanted[::2], wanted[1::2]):
                return frame

    def has_more(self, seconds):
        """Returns whether something comes within so many seconds."""
        return self.at < len(self.unread) or bool(select.select([self.socket], [], [], seconds)[0])

    def close(self):
        """Closes the channel and the connection, each of which is answered."""
        self.send(method(1, 20, 40, struct.pack(">H", 0) + shortstr("") + struct.pack(">HH", 0, 0)))
        self.until(20, 41)
        self.send(method(0, 10, 50, struct.pack(">H", 0) + shortstr("") + struct.pack(">HH", 0, 0)))
        self.until(10, 51)
        self.socket.close()


class Publisher(Quick):
    """A client that publishes with a window of confirms until it is lost. Its bodies begin with a number."""

    sent = acked = 0
    # why no more are taken
    why = ""

    def fill(self, exchange, key, size, most=1 << 60, first=0):
        """Publishes until `most` messages are acked, numbered from `first` on. `acked` tells how many of those `sent` are, without a gap."""
        try:
            if not self.sent:
                self.send(method(1, 85, 10, b"\0"))
                self.until(85, 11)
            while self.acked < most:
                wave = range(self.sent, min(self.sent + WINDOW, most))
                self.sent += len(wave)
                self.send(b"".join(publish(key, body_of(first + number, size), exchange) for number in wave))
                while self.acked < self.sent:
                    self.acked = max(self.acked, int.from_bytes(self.until(60, 80)[11:19], "big"))
        except Lost as error:
            self.why = str(error)
        return self


class Taken:
    """The messages that were taken of a queue, of which those of these numbers have to come."""

    def __init__(self, numbers):
        self.missing = set(numbers)
        self.seen, self.wrong = set(), []
        self.last = {}

    def add(self, body, redelivered=False):
        """Notes a message. One that is new comes behind all before it of its publisher, and one that was seen is redelivered."""
        number = number_of(body)
        last = self.last.setdefault(number // OTHERS, -1)
        if number in self.seen and not redelivered:
            self.wrong.append(f"{number} came twice")
        elif number not in self.seen and not redelivered and number < last:
            self.wrong.append(f"{number} came behind {last}")
        self.last[number // OTHERS] = max(last, number)
        self.seen.add(number)
        self.missing.discard(number)


class Drain(Quick):
    """A client that takes what waits in a queue."""

    def content(self):
        size = int.from_bytes(self.frame()[11:19], "big")
        body = b""
        while len(body) < size:
            body += self.frame()[7:-1]
        return body

    def depth(self, queue):
        """Returns the number of ready messages, by a passive declare."""
        self.send(method(1, 50, 10, struct.pack(">H", 0) + shortstr(queue) + b"\x01" + struct.pack(">I", 0)))
        frame = self.until(50, 11)
        return int.from_bytes(frame[12 + frame[11] : 16 + frame[11]], "big")

    def purge(self, queue):
        """Returns the number of messages that were purged."""
        self.send(method(1, 50, 30, struct.pack(">H", 0) + shortstr(queue) + b"\0"))
        return int.from_bytes(self.until(50, 31)[11:15], "big")

    def get(self, queue, no_ack, taken):
        """Takes the first message, and acks it unless that is not wanted. Returns whether there was one."""
        self.send(method(1, 60, 70, struct.pack(">H", 0) + shortstr(queue) + (b"\x01" if no_ack else b"\0")))
        frame = self.until(60, 71, 60, 72)
        if frame[9:11] == b"\x00\x48":
            return False
        taken.add(self.content(), frame[19] & 1 == 1)
        if not no_ack:
            self.send(method(1, 60, 80, frame[11:19] + b"\0"))
        return True

    def consume(self, queue, prefetch, no_ack):
        """Becomes a consumer, whose tag is `it`."""
        self.send(method(1, 60, 10, struct.pack(">IHB", 0, prefetch, 0)))
        self.until(60, 11)
        self.send(method(1, 60, 20, struct.pack(">H", 0) + shortstr(queue) + shortstr("it") + (b"\x02" if no_ack else b"\0") + struct.pack(">I", 0)))
        self.until(60, 21)

    def delivery(self):
        """Returns the tag, the mark `redelivered` and the body of the next delivery."""
        frame = self.until(60, 60)
        behind = 12 + frame[11]
        return frame[behind : behind + 8], frame[behind + 8] == 1, self.content()

    def settle(self, tag, how):
        """Acks a message, rejects it, or gives it back."""
        self.send(method(1, 60, 80, tag + b"\0") if how == "ack" else method(1, 60, 90, tag + (b"\x01" if how == "requeue" else b"\0")))

    def cancel(self, taken=None):
        """Cancels the consumer. What is delivered until that is answered is taken, or is left to the end of the connection."""
        self.send(method(1, 60, 30, shortstr("it") + b"\0"))
        while True:
            frame = self.until(60, 31, 60, 60)
            if frame[9:11] == b"\x00\x1f":
                return
            body = self.content()
            if taken is not None:
                taken.add(body, frame[20 + frame[11]] == 1)


class Tally:
    """What was tried, how often, and why it was refused."""

    def __init__(self):
        self.rows, self.told = {}, []

    def tried(self, name, work):
        """Does this. Returns its answer, or none if the connection was lost by it."""
        row = self.rows.setdefault(name, [0, []])
        row[0] += 1
        try:
            return work()
        except (Lost, OSError) as error:
            row[1].append(str(error) or "the connection is lost")
            return None

    def refused(self):
        """Returns a line for each of these that was refused."""
        return [f"{name}: {len(reasons)} of {tried} refused ({', '.join(sorted(set(reasons)))})" for name, (tried, reasons) in self.rows.items() if reasons]


class Outcome:
    """What came of a row: what it says of itself, and what is wrong, with the last lines of the server's standard error."""

    def __init__(self, name, told, wrong, said=()):
        self.name, self.told, self.wrong, self.said = name, told, wrong, said

    def holds(self):
        return not self.wrong

    def verdict(self):
        return "holds" if self.holds() else "FAILS"

    def tell(self):
        print(f"{self.name}: {self.verdict()}; {', '.join(self.told)}")
        for it in self.wrong:
            print(f"  {it}")
        for it in self.said if self.wrong else ():
            print(f"  it says: {it}")
        sys.stdout.flush()


def tried_with(name, start, trial):
    """Starts a server and tries it: `trial` yields what is wrong, and tallies what was refused. Returns the outcome."""
    tally = Tally()
    try:
        server = start()
    except Lost as error:
        return Outcome(name, [], [str(error)])
    wrong = []
    try:
        wrong.extend(trial(server, tally))
    except Lost as error:
        wrong.append(str(error))
    finally:
        wrong += ["the server ended"] if server.has_ended() else []
        server.stop()
    return Outcome(name, tally.told, wrong + tally.refused(), server.lines()[-SAID_LAST:])


def logins(port, tally):
    """Opens `LOGINS` connections that stay until all are there, and closes them."""
    clients = [tally.tried("login", lambda: Drain(port, ACCOUNT)) for _ in range(LOGINS)]
    for client in filter(None, clients):
        tally.tried("close", client.close)


def by_a_client(port, tally, name, work):
    """Has a client of its own do this, and leave. Returns the answer, or none if it was refused."""

    def all_of_it():
        client = Drain(port, ACCOUNT)
        found = work(client)
        client.close()
        return found

    return tally.tried(name, all_of_it)


def publishes_taken(server, exchange, size, tally):
    """Publishes some messages, of a megabyte at most, by one client after another until all of one are acked, for some seconds. Yields what is wrong if none are."""
    count = max(1, min(LOGINS, ONCE // size))
    for turn in range(1, TURNS + 1):
        last = tally.tried("publish", lambda: Publisher(server.port, ACCOUNT).fill(exchange, KEY, size, count))
        if last is not None and last.acked == count:
            if turn > 1:
                tally.told.append(f"publishes taken at turn {turn}")
            return
        time.sleep(REST)
    yield f"publishes are not taken: {last and last.acked} of {count} ({last and last.why})"
