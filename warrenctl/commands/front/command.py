"""Serves clients that ask for heartbeats, declare and bind, before a warren that takes none of these. With a certificate, over TLS;
one that is renewed is read without a restart."""

import asyncio
import resource
import signal
import ssl
import threading
import time
from collections import Counter
from datetime import datetime, timezone

from warrenctl.cli.words import Words, address, whole_number
from warrenctl.commands.front.counting import Counts
from warrenctl.commands.front.definitions import DefinitionsFile
from warrenctl.commands.front.sessions import Session
from warrenctl.commands.front.tls import Certificate
from warrenctl.fault import Fault
from warrenctl.prometheus.server import server_at

DONE, NOT_LISTENING = 0, 4
STATUSES = "Status: 0 it was ended by TERM or Ctrl-C; 3 a file or a word is refused; 4 it cannot listen."
HEARTBEAT = 60
MOST = 64
TLS_SECONDS = 10
# above what any front serves, below what a system may give without a limit
MOST_FILES = 65_536


def words(arguments):
    parser = Words("front", __doc__, STATUSES)
    parser.add_argument("definitions", help="the definitions file that warren serves; read again when it has changed")
    parser.add_argument("--listen", required=True, type=address, metavar="IP:PORT", help="where clients connect")
    parser.add_argument("--to", required=True, type=address, metavar="IP:PORT", help="where warren listens")
    parser.add_argument("--certificate", metavar="FILE", help="a chain of certificates in PEM, for TLS")
    parser.add_argument("--key", metavar="FILE", help="its key in PEM, if it is not in the same file")
    parser.add_argument("--metrics", type=address, metavar="IP:PORT", help="where Prometheus asks for counts of what passes")
    parser.add_argument("--heartbeat", type=seconds, default=HEARTBEAT, help=f"seconds that clients are offered; without it, {HEARTBEAT}")
    parser.add_argument("--most", type=count, default=MOST, metavar="N", help=f"the most connections of one address; without it, {MOST}")
    given = parser.parse_args(arguments)
    if given.key and not given.certificate:
        parser.error("--key needs --certificate: without one the front serves in clear")
    return given


def seconds(text):
    return whole_number(text, 1, 65_535)


def count(text):
    return whole_number(text, 1, 1_000_000)


def say(line):
    print(line, flush=True)


class House:
    """What all connections share."""

    def __init__(self, given):
        self.file = DefinitionsFile(given.definitions, self.note)
        self.heartbeat, self.most, self.server = given.heartbeat, given.most, given.to
        self.counts = Counts(self.file) if given.metrics else None
        self._open = Counter()
        self._last_fault = 0.0, ""

    def note(self, line):
        say(f"{datetime.now(timezone.utc):%Y-%m-%dT%H:%M:%SZ} {line}")

    def fault(self, line):
        """Notes what is against a socket, once a second: without a descriptor left asyncio says it for each client that waits."""
        now = time.monotonic()
        if line != self._last_fault[1] or now - self._last_fault[0] >= 1:
            self._last_fault = now, line
            self.note(line)

    def enter(self, address):
        """Counts a connection of an address, unless there are as many as may be."""
        if self._open[address] >= self.most:
            return False
        self._open[address] += 1
        return True

    def leave(self, address):
        self._open[address] -= 1
        if not self._open[address]:
            del self._open[address]

    def metrics(self):
        """Yields what Prometheus is told. Another thread may call this."""
        return self.counts.families(sum(list(self._open.values())))


def fault_of(context):
    """What asyncio has against a connection or a socket, in one line: no descriptor is left, or a client's TLS is refused."""
    what, error = context.get("message", "fault"), context.get("exception")
    return " ".join(f"{what}: {error}".split()) if error else what


def raise_limit():
    """Raises the soft limit of descriptors as far as the hard one lets it: each client takes two."""
    soft, hard = resource.getrlimit(resource.RLIMIT_NOFILE)
    wanted = MOST_FILES if hard == resource.RLIM_INFINITY else min(hard, MOST_FILES)
    if soft != resource.RLIM_INFINITY and soft < wanted:
        resource.setrlimit(resource.RLIMIT_NOFILE, (wanted, hard))


def begin_metrics(house, given):
    """Serves the counts by threads of their own, if they are wanted."""
    if given.metrics:
        server = server_at(given.metrics, house.metrics, NOT_LISTENING)
        threading.Thread(target=server.serve_forever, daemon=True).start()
        say(f"front: metrics at {server.server_name}:{server.server_port}")


async def serve(house, given, tls):
    loop, ended = asyncio.get_running_loop(), asyncio.Event()
    loop.set_exception_handler(lambda _, context: house.fault(fault_of(context)))
    for it in (signal.SIGINT, signal.SIGTERM):
        loop.add_signal_handler(it, ended.set)
    handshake = {"ssl": tls, "ssl_handshake_timeout": TLS_SECONDS} if tls else {}
    server = await loop.create_server(lambda: Session(house).client, *given.listen, **handshake)
    host, port = server.sockets[0].getsockname()[:2]
    say(f"front: listening on {host}:{port}{' with TLS' if tls else ''}, before {given.to[0]}:{given.to[1]}")
    await ended.wait()
    server.close()


def main(given):
    raise_limit()
    try:
        house = House(given)
        tls = Certificate(given.certificate, given.key, house.note).context if given.certificate else None
    except ssl.SSLError as error:
        raise Fault(f"{given.certificate}: no certificate with its key in PEM: {error.reason or 'not read'}") from None
    except OSError as error:
        raise Fault(f"{error.filename or given.certificate}: {error.strerror}") from None
    begin_metrics(house, given)
    try:
        asyncio.run(serve(house, given, tls))
        return DONE
    except OSError as error:
        raise Fault(f"{given.listen[0]}:{given.listen[1]}: {error.strerror or error}", NOT_LISTENING) from None
