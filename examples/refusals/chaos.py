"""A row of full.py: many clients at once fill a server past its memory and empty it, while its files are replaced.

Publishers send bodies of 12 to 100,000 bytes and leave at will; consumers ack, reject, give back, and leave with what they hold; others purge, send what
is no login, or log in and out. Then the publishers stop. From then on nobody is refused a login, what is in the files is in force, and each
message is accounted for: one that was acked was settled by a client, or comes to the last one; none comes twice but as redelivered, or was never sent."""

import functools
import multiprocessing
import os
import random
import socket
import tempfile
import time

from examples.refusals.filled import (
    ACCOUNT,
    OTHERS,
    PATIENCE,
    REST,
    Drain,
    Publisher,
    Server,
    by_a_client,
    logins,
    number_of,
    publishes_taken,
    topology,
    tried_with,
    write_files,
)
from examples.refusals.serve import Lost

SIZES = (12, 100, 1_000, 5_000, 100_000)
PUBLISHERS, CONSUMERS, STRANGERS = 6, 3, 2
DRAINED, PURGED, EXTRA = "q0", "q1", "extra"
# of so many connections of a client, or messages of a consumer, one leaves without a word, is rejected, or is given back
LEAVES, REJECTED, REQUEUED = 4, 97, 31
PREFETCH = 50
# seconds in which a client ends: longer than one waits for an answer
LAST = 2 * PATIENCE
# turns of the server from one look at the files to the next, and seconds from one change of them to the next
LOOK, CHANGE = 20, 0.2
NO_LOGINS = (b"", b"AMQP", b"AMQP\0\0\x09\x01", b"AMQP\0\1\0\0", b"GET / HTTP/1.1\r\n\r\n", b"AMQP\0\0\x09\x01" + b"\x01\0\0\xff\xff\xff\xff")
FORK = multiprocessing.get_context("fork")


class Actor:
    """A process that does one thing again and again, by a connection each time, until it is told to stop. Then it hands back what it notes."""

    def __init__(self, port, seed):
        self.port, self.random = port, random.Random(seed)
        self.stop = FORK.Event()
        self.mine, self.theirs = FORK.Pipe(duplex=False)
        self.process = FORK.Process(target=self.work, daemon=True)
        self.process.start()

    def work(self):
        while not self.stop.is_set():
            try:
                self.turn()
            except Lost:
                time.sleep(0.01)
        self.theirs.send(self.notes())

    def finish(self):
        """Returns its notes, once it was told to stop; `Lost` if it has none in time."""
        if not self.mine.poll(LAST):
            raise Lost(f"{type(self).__name__} does not end")
        found = self.mine.recv()
        self.process.join()
        return found


class Publishes(Actor):
    """Notes the queue of each connection's messages, their first number, and how many were sent and acked."""

    def __init__(self, port, seed):
        self.ranges, self.next = [], (seed + 1) * OTHERS
        super().__init__(port, seed)

    def turn(self):
        queue = self.random.choice((DRAINED, DRAINED, PURGED))
        client = Publisher(self.port, ACCOUNT)
        size = self.random.choice(SIZES)
        while not self.stop.is_set():
            client.fill("", queue, size, most=client.sent + self.random.randrange(1, 2000), first=self.next)
            if client.acked < client.sent or self.random.randrange(LEAVES) == 0:
                break
        self.ranges.append((queue, self.next, client.sent, client.acked))
        self.next += client.sent
        client.socket.close()

    def notes(self):
        return self.ranges


class Consumes(Actor):
    """Notes the number of each message that came, whether it was redelivered, and whether it was settled for good."""

    def __init__(self, port, seed):
        self.came = []
        super().__init__(port, seed)

    def turn(self):
        client = Drain(self.port, ACCOUNT)
        client.consume(DRAINED, PREFETCH, no_ack=False)
        for _ in range(self.random.randrange(1, 2000)):
            if self.stop.is_set() or not client.has_more(0.2):
                break
            tag, redelivered, body = client.delivery()
            how = self.how()
            self.came.append((number_of(body), redelivered, how != "requeue"))
            client.settle(tag, how)
        if self.random.randrange(LEAVES):
            client.cancel()
            client.close()
        client.socket.close()

    def how(self):
        if self.random.randrange(REQUEUED) == 0:
            return "requeue"
        return "reject" if self.random.randrange(REJECTED) == 0 else "ack"

    def notes(self):
        return self.came


class Purges(Actor):
    """Notes how many messages were purged, and how many purges had no answer."""

    def __init__(self, port, seed):
        self.count = self.lost = 0
        super().__init__(port, seed)

    def turn(self):
        client = Drain(self.port, ACCOUNT)
        self.lost += 1
        self.count += client.purge(PURGED)
        self.lost -= 1
        client.close()
        time.sleep(0.05)

    def notes(self):
        return self.count, self.lost


class Says(Actor):
    """A stranger who says what is no login, and leaves."""

    def turn(self):
        try:
            with socket.create_connection(("127.0.0.1", self.port), PATIENCE) as one:
                one.sendall(self.random.choice(NO_LOGINS))
                time.sleep(self.random.random() / 20)
        except OSError as error:
            raise Lost from error

    def notes(self):
        return None


class LogsIn(Actor):
    """Notes how often it logged in, and how often that was refused."""

    def __init__(self, port, seed):
        self.tried = self.refused = 0
        super().__init__(port, seed)

    def turn(self):
        self.tried += 1
        try:
            Drain(self.port, ACCOUNT).close()
        except Lost:
            self.refused += 1
        time.sleep(0.01)

    def notes(self):
        return self.tried, self.refused


class Files:
    """Two folders with files, and a link to one of them that is replaced at once."""

    def __init__(self, warren, folder):
        self.folder, self.link, self.turns = folder, os.path.join(folder, "current"), 0
        for name, queues in (("0", [DRAINED, PURGED]), ("1", [DRAINED, PURGED, EXTRA])):
            os.mkdir(os.path.join(folder, name))
            write_files(warren, os.path.join(folder, name), topology(queues))
        os.symlink("0", self.link)

    def replace(self):
        self.turns += 1
        os.symlink(str(self.turns % 2), self.link + ".new")
        os.replace(self.link + ".new", self.link)


class Account:
    """What was sent, acked and taken, by what the clients noted."""

    def __init__(self, ranges, came):
        self.sent, self.acked = {DRAINED: set(), PURGED: set()}, {DRAINED: set(), PURGED: set()}
        for queue, first, sent, acked in ranges:
            self.sent[queue].update(range(first, first + sent))
            self.acked[queue].update(range(first, first + acked))
        self.fresh, self.settled, self.wrong = set(), set(), []
        for each in came:
            self.note(*each)

    def note(self, number, redelivered, is_settled):
        """Notes that a message came, and whether it was settled for good."""
        if number not in self.sent[DRAINED]:
            self.wrong.append(f"{number} came, which was not sent")
        if not redelivered and number in self.fresh:
            self.wrong.append(f"{number} came twice")
        if not redelivered:
            self.fresh.add(number)
        if is_settled:
            self.settled.add(number)

    def add(self, body, redelivered):
        """Notes a message that is acknowledged once it came."""
        self.note(number_of(body), redelivered, True)

    def missing(self):
        return self.acked[DRAINED] - self.settled


class Row:
    """A server under a limit of address space, and clients that do all of that at once for some seconds."""

    def __init__(self, limit, seconds, allocator):
        self.limit, self.seconds, self.allocator = limit, seconds, allocator
        self.name = f"{limit} MB, chaos of {seconds} seconds with reloads, {allocator}"

    def run(self, warren):
        """Tries it all, and returns what came of it."""
        with tempfile.TemporaryDirectory() as folder:
            files = Files(warren, folder)
            start = functools.partial(Server, warren, files.link, self.limit, self.allocator, "--reload", str(LOOK))
            return tried_with(self.name, start, lambda server, tally: self.trial(files, server, tally))

    def trial(self, files, server, tally):
        """Yields what is wrong, a line each."""
        account, purged, unanswered = self.press(files, server.port, tally)
        time.sleep(REST)
        logins(server.port, tally)
        yield from self.drained(server, tally, account)
        rest = by_a_client(server.port, tally, "purge", lambda it: it.purge(PURGED))
        least, most = len(account.acked[PURGED]), len(account.sent[PURGED])
        if rest is not None and not (least <= purged + rest <= most or unanswered and purged + rest <= most):
            yield f"{PURGED}: {purged} and {rest} purged, {least} acked, {most} sent"
        files.replace()
        if not until(lambda: self.is_in_force(server.port, files)):
            yield "the last files are not in force"
        yield from publishes_taken(server, "", 12, tally)

    def press(self, files, port, tally):
        """All clients at once. Returns what the queue that is drained has to have by it, how many messages were purged, and how many purges had no answer."""
        publishers = [Publishes(port, seed) for seed in range(PUBLISHERS)]
        consumers = [Consumes(port, seed) for seed in range(CONSUMERS)]
        others = [Purges(port, 0), LogsIn(port, 0), *(Says(port, seed) for seed in range(STRANGERS))]
        end = time.monotonic() + self.seconds
        while time.monotonic() < end:
            time.sleep(CHANGE)
            files.replace()
        for it in (*publishers, *consumers, *others):
            it.stop.set()
        ranges, came = ([each for one in some for each in one.finish()] for some in (publishers, consumers))
        (purged, unanswered), (tried, refused), *_ = [it.finish() for it in others]
        account = Account(ranges, came)
        acked = sum(map(len, account.acked.values()))
        tally.told += [f"{acked} acked", f"{len(account.settled)} settled", f"{purged} purged", f"{files.turns} changes of files"]
        tally.told.append(f"while all pressed {refused} of {tried} logins refused, {sum(acked < sent for *_, sent, acked in ranges)} publishers lost")
        return account, purged, unanswered

    def drained(self, server, tally, account):
        """The queue is drained by a client; yields what is wrong with what came."""

        def drain(client):
            while client.get(DRAINED, False, account):
                pass

        by_a_client(server.port, tally, "drain", drain)
        yield from account.wrong[:3]
        if account.missing():
            yield f"{DRAINED}: {len(account.missing())} acked messages did not come"

    def is_in_force(self, port, files):
        """Whether the server has the queue that the files in force have."""
        try:
            Drain(port, ACCOUNT).depth(EXTRA)
            return files.turns % 2 == 1
        except Lost as error:
            return str(error) == "channel.close 404" and files.turns % 2 == 0


def until(look):
    """Looks until that is so, for a minute at most. Returns whether it is."""
    end = time.monotonic() + PATIENCE
    while time.monotonic() < end:
        if look():
            return True
        time.sleep(REST)
    return False
