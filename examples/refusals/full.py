"""Fills servers until memory is refused, and looks whether they can be emptied then.

    python3 -m examples.refusals.full WARREN [--limit MB ..] [--body BYTES ..] [--queues N ..] [--pressing N ..] [--allocator NAME ..] [--chaos SECONDS] [--burst CONSUMERS] [--jobs N]

A row is one server with a limit of address space and an allocator. One publisher confirms publishes to a queue without a limit, or to several
by a fanout, until it is lost. All clients leave; in some rows eight others press on by publishing. Then 100 clients log in and stay, others
declare passively, get and consume with and without acks, ack, reject, give back, cancel, purge and close, and each acked message comes once,
in order. Publishes fill the server again, and a queue is purged then. A row of chaos.py is added for each allocator, and with
--burst one of burst.py for each limit and allocator, with bodies of 1,000 bytes.

Without options all rows are tried, one after the other, which takes hours. Each option takes some values in place of all: --limit 48 --body 12 100
--pressing 0. --body without a value leaves all rows but chaos out. The table in the end has a verdict for each row. Status: 0 all hold; 1 one does not;
3 nothing was tried."""

import argparse
import concurrent.futures
import itertools
import os
import sys
import tempfile
import time

from examples.refusals import burst, chaos
from examples.refusals.filled import (
    ACCOUNT,
    ALLOCATORS,
    EXCHANGE,
    KEY,
    OTHERS,
    REST,
    Publisher,
    Server,
    Taken,
    Tally,
    by_a_client,
    is_here,
    logins,
    number_of,
    publishes_taken,
    topology,
    tried_with,
    write_files,
)
from examples.refusals.serve import Lost
from warrenctl.cli.run import run
from warrenctl.cli.words import Words

sys.dont_write_bytecode = True


HOLDS, FAILS, REFUSED = 0, 1, 3
# messages got one by one, and those consumed without acks at least
GOT, WITHOUT_ACKS = 40, 100
PREFETCH = 100
# of so many messages one is rejected without a dead letter, and one is given back once
REJECTED, REQUEUED = 97, 89
# bytes of a body that goes into one frame, and of one behind a burst
LARGEST, BURST_BODY = 131_064, 1_000


def gets(client, queue, taken):
    """Gets some messages, every other with an ack."""
    for turn in range(GOT):
        if not client.get(queue, turn % 2 == 0, taken):
            return


def consumes_without_acks(client, queue, taken):
    """Consumes some messages without acks, and those that are under way once it cancels."""
    client.consume(queue, PREFETCH, no_ack=True)
    for _ in range(min(WITHOUT_ACKS, len(taken.missing))):
        _, redelivered, body = client.delivery()
        taken.add(body, redelivered)
    client.cancel(taken)


def how_settled(number, given_back):
    if number % REQUEUED == 0 and number not in given_back:
        return "requeue"
    return "reject" if number % REJECTED == 0 else "ack"


def consumes(client, queue, taken):
    """Consumes what is left, and acks each, rejects it, or gives it back once."""
    client.consume(queue, PREFETCH, no_ack=False)
    given_back = set()
    while taken.missing:
        tag, redelivered, body = client.delivery()
        number = number_of(body)
        how = "ack" if redelivered and number not in given_back else how_settled(number, given_back)
        client.settle(tag, how)
        if how == "requeue":
            given_back.add(number)
        else:
            taken.add(body, redelivered)
    client.cancel()


def emptied(port, queue, filler, tally):
    """Takes what waits in a queue by clients that come one after another. Returns what is wrong."""
    taken = Taken(range(filler.acked))
    depth = by_a_client(port, tally, "declare", lambda it: it.depth(queue))
    if depth is not None and depth < filler.acked:
        return [f"{queue} has {depth} of {filler.acked} acked messages"]
    for name, work in (("get", gets), ("consume without acks", consumes_without_acks), ("consume", consumes)):
        by_a_client(port, tally, name, lambda it, work=work: work(it, queue, taken))
    # once more if some were refused, so that what is lost is told from what was not taken
    while taken.missing:
        before = len(taken.missing)
        by_a_client(port, Tally(), "consume", lambda it: consumes(it, queue, taken))
        if len(taken.missing) == before:
            return [*taken.wrong[:3], f"{queue}: {before} acked messages did not come"]
    return [f"{queue}: {it}" for it in taken.wrong[:3]]


def press(port, exchange, size, count):
    """Starts processes that publish until they are ended."""
    started = []
    for place in range(1, count + 1):
        process = os.fork()
        if process == 0:
            try:
                press_on(port, exchange, size, OTHERS * place)
            finally:
                os._exit(0)
        started.append(process)
    return started


def press_on(port, exchange, size, first):
    """Publishes until the script that started this is gone."""
    parent = os.getppid()
    while os.getppid() == parent:
        try:
            first += Publisher(port, ACCOUNT).fill(exchange, KEY, size, first=first).sent
        except Lost:
            time.sleep(0.01)


def end(started):
    """Ends these processes."""
    while started:
        process = started.pop()
        os.kill(process, 9)
        os.waitpid(process, 0)


class Row:
    """One server, and what is tried of it."""

    def __init__(self, limit, body, queues, pressing, allocator):
        self.limit, self.body, self.pressing, self.allocator = limit, body, pressing, allocator
        self.queues = [f"q{number}" for number in range(queues)]
        self.exchange = EXCHANGE if queues > 1 else ""
        self.name = f"{limit} MB, {body} bytes, {queues} queue{'s' * (queues > 1)}, {f'{pressing} press on' if pressing else 'alone'}, {allocator}"

    def run(self, warren):
        """Tries it all, and returns what came of it."""
        with tempfile.TemporaryDirectory() as folder:
            write_files(warren, folder, topology(self.queues))
            return tried_with(self.name, lambda: Server(warren, folder, self.limit, self.allocator), self.trial)

    def trial(self, server, tally):
        """Yields what is wrong, a line each."""
        filler = self.filled(server, tally, "fill")
        if filler is None:
            return
        pressing = press(server.port, self.exchange, self.body, self.pressing)
        try:
            logins(server.port, tally)
            yield from self.emptied(server, filler, tally)
        finally:
            end(pressing)
        time.sleep(REST)
        yield from self.again(server, filler, tally)

    def filled(self, server, tally, name):
        """Fills the server by one publisher, which leaves. None if it was not let in."""
        filler = tally.tried(name, lambda: Publisher(server.port, ACCOUNT).fill(self.exchange, KEY, self.body))
        time.sleep(REST)
        if filler is not None:
            tally.told.append(f"{filler.acked} acked ({filler.why})")
        return filler

    def emptied(self, server, filler, tally):
        """Each queue is drained, but for one of several, which is purged."""
        first, *others = reversed(self.queues)
        if others:
            count = by_a_client(server.port, tally, "purge", lambda it: it.purge(first))
            if count is None:
                others.append(first)
            elif not filler.acked <= count <= (OTHERS if self.pressing else filler.sent):
                yield f"{first}: {count} purged, {filler.acked} were acked"
        for queue in others or [first]:
            yield from emptied(server.port, queue, filler, tally)

    def purged(self, server, tally, queue):
        """Purges what is left of a queue, until what publishers wrote before they were ended is gone, too. Returns how much the first purge removed."""
        first = left = by_a_client(server.port, tally, "purge of the rest", lambda it: it.purge(queue))
        while self.pressing and left:
            time.sleep(REST)
            left = by_a_client(server.port, tally, "purge of the rest", lambda it: it.purge(queue))
        return first

    def again(self, server, filler, tally):
        """It is filled once more, each queue is purged while it is full, and publishes are taken."""
        for queue in self.queues:
            left = self.purged(server, tally, queue)
            if left and not self.pressing and left > filler.sent - filler.acked:
                yield f"{queue}: {left} were left"
        filler = self.filled(server, tally, "fill again")
        for queue in self.queues if filler else ():
            count = by_a_client(server.port, tally, "purge", lambda it, queue=queue: it.purge(queue))
            if count is None:
                yield from emptied(server.port, queue, filler, tally)
            elif not filler.acked <= count <= filler.sent:
                yield f"{queue}: {count} purged, {filler.acked} were acked"
        yield from publishes_taken(server, self.exchange, self.body, tally)


def words():
    parser = Words("full.py", __doc__, None, "python3 -m examples.refusals.full", formatter_class=argparse.RawDescriptionHelpFormatter)
    parser.add_argument("warren", metavar="WARREN", help="the program")
    parser.add_argument("--limit", type=int, nargs="+", default=[48, 150, 300], help="of address space, in MB")
    parser.add_argument("--body", type=int, nargs="*", default=[12, 100, 1_000, 5_000, 100_000], help="bytes of a body, 12 at least")
    parser.add_argument("--queues", type=int, nargs="+", default=[1, 20], help="queues of the fanout; 1 is a queue of the default exchange")
    parser.add_argument("--pressing", type=int, nargs="+", default=[0, 8], help="publishers that go on")
    parser.add_argument("--allocator", choices=ALLOCATORS, nargs="+", default=list(ALLOCATORS), help="what gives memory")
    parser.add_argument("--chaos", type=int, default=30, metavar="SECONDS", help="of a row of chaos; 0 leaves these out")
    parser.add_argument("--burst", type=int, default=0, metavar="CONSUMERS", help="of the rows of burst; 0 leaves these out")
    parser.add_argument("--jobs", type=int, default=1, help="rows side by side")
    given = parser.parse_args()
    if not (os.path.isfile(given.warren) and os.access(given.warren, os.X_OK)):
        parser.error(f"{given.warren} is no program")
    if min([*given.limit, given.jobs, *given.queues]) < 1 or not 12 <= min([12, *given.body]) <= max([12, *given.body]) <= LARGEST or min([given.chaos, given.burst, *given.pressing]) < 0:
        parser.error(f"limits, queues and jobs are 1 at least, a body has 12 to {LARGEST} bytes, and nothing is less than 0")
    return given


def allocators_here(names):
    """Returns those of these allocators that the loader finds. Of another a line says that its rows are left out."""
    found = []
    for name in names:
        library, _ = ALLOCATORS[name]
        if is_here(library):
            found.append(name)
        else:
            print(f"{name}: left out, {library} is not here: apt-get install --no-install-recommends libjemalloc2 libmimalloc2.0")
    return found


def rows_of(given):
    allocators = allocators_here(given.allocator)
    rows = [Row(*each) for each in itertools.product(given.limit, given.body, given.queues, given.pressing, allocators)]
    bursts = [burst.Row(limit, BURST_BODY, given.burst, it) for limit in given.limit for it in allocators if given.burst]
    return rows + bursts + [chaos.Row(given.limit[0], given.chaos, it) for it in allocators if given.chaos]


def main():
    given = words()
    rows = rows_of(given)
    if not rows:
        print("full.py: nothing is tried", file=sys.stderr)
        return REFUSED
    warren, outcomes = os.path.realpath(given.warren), []
    with concurrent.futures.ProcessPoolExecutor(given.jobs) as pool:
        for outcome in pool.map(run_row, rows, [warren] * len(rows)):
            outcome.tell()
            outcomes.append(outcome)
    print(f"\n{sum(it.holds() for it in outcomes)} of {len(outcomes)} rows hold")
    for it in outcomes:
        print(f"{it.verdict():5}  {it.name}")
    return HOLDS if all(it.holds() for it in outcomes) else FAILS


def run_row(row, warren):
    return row.run(warren)


if __name__ == "__main__":
    sys.exit(run("full.py", main))
