"""For full.py: whether a server that has made a burst of deliveries takes as many messages as one that has made none."""

import contextlib
import tempfile

from examples.refusals.filled import ACCOUNT, KEY, Drain, Publisher, Server, logins, topology, tried_with, write_files
from examples.refusals.serve import Lost

# the least part of the messages that are taken without a burst
PART = 0.9


class Row:
    """Two servers under one limit, each filled by one publisher: the second makes deliveries to many consumers before."""

    def __init__(self, limit, body, consumers, allocator):
        self.limit, self.body, self.consumers, self.allocator = limit, body, consumers, allocator
        self.name = f"{limit} MB, {body} bytes, behind a burst to {consumers} consumers, {allocator}"

    def run(self, warren):
        """Fills both, and returns what came of it."""
        with tempfile.TemporaryDirectory() as folder:
            write_files(warren, folder, topology([KEY]))

            def start():
                return Server(warren, folder, self.limit, self.allocator)

            alone = tried_with(self.name, start, lambda server, tally: self.filled(server, tally, 0))
            if not alone.holds():
                return alone
            return tried_with(self.name, start, lambda server, tally: self.trial(server, tally, int(alone.told[0])))

    def filled(self, server, tally, least):
        """Fills the server by one publisher after another, until one is let in no longer or gets nothing in. Yields what is wrong."""
        filler = tally.tried("fill", lambda: Publisher(server.port, ACCOUNT).fill("", KEY, self.body))
        if filler is None:
            return
        tally.told.append(str(filler.acked))
        if filler.acked < least:
            yield f"{filler.acked} messages were taken, {least} at least have to be ({filler.why})"

    def trial(self, server, tally, alone):
        """Makes the burst, fills the server, and lets clients log in. Yields what is wrong."""
        tally.tried("burst", lambda: burst(server.port, self.consumers, self.body))
        yield from self.filled(server, tally, int(alone * PART))
        tally.told.append(f"of {alone} without the burst")
        logins(server.port, tally)


def burst(port, count, size):
    """Has one client hold so many messages, and as many others consume; once the holder is lost each of them gets one, all in one turn. Then all leave."""
    with contextlib.ExitStack() as stack:

        def joined(client):
            stack.callback(client.socket.close)
            return client

        holder = joined(Drain(port, ACCOUNT))
        holder.consume(KEY, 0, no_ack=False)
        publisher = joined(Publisher(port, ACCOUNT)).fill("", KEY, size, count)
        if publisher.acked < count:
            raise Lost(f"{publisher.acked} of {count} were taken: {publisher.why}")
        for _ in range(count):
            holder.delivery()
        clients = [joined(Drain(port, ACCOUNT)) for _ in range(count)]
        for client in clients:
            client.consume(KEY, 1, no_ack=True)
        holder.socket.close()
        for client in clients:
            client.delivery()
