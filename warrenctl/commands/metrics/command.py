"""Serves metrics of a broker for Prometheus, over HTTP: ready messages and consumers of each queue of a definitions file, connections, memory,
processor time and descriptors of the process, and how many reloads were refused. Queues are asked by passive declares, at each scrape. The process
is the one that listens at the broker's port, if it is on this machine and this user may see it."""

import os
import signal
import sys
import threading

from warrenctl.cli.login import address_of, password_for
from warrenctl.cli.run import tell
from warrenctl.cli.words import Words, address
from warrenctl.commands.metrics.collecting import Collector
from warrenctl.commands.metrics.errors import Errors, followed, open_log
from warrenctl.prometheus.server import server_at

STATUSES = "Status: 3 it could not begin, and a line says why; 130 Ctrl-C; 143 TERM."


def words(arguments):
    parser = Words("metrics", __doc__, STATUSES)
    parser.add_server()
    parser.add_argument("definitions", metavar="DEFS", help="the definitions file that is in force; it is read again at each scrape")
    parser.add_argument("--listen", type=address, default="127.0.0.1:9419", metavar="IP:PORT", help="where Prometheus asks (%(default)s)")
    parser.add_argument("--errors", metavar="FILE", help="the broker's standard error: a file that is followed from its end, or - for standard input")
    parser.add_argument("--hand-on", action="store_true", help="print each line of --errors on standard error, for the journal")
    given = parser.parse_args(arguments)
    if given.hand_on and given.errors is None:
        parser.error("--hand-on needs --errors")
    return given


def collector_for(given, errors):
    user, host, port = address_of(given.server)
    return Collector(host, port, user, password_for(user, given.password_file), given.definitions, errors, lambda text: tell("metrics", text))


def lines_of(name):
    """Returns the lines of the broker's standard error, none without a name."""
    if name == "-":
        sys.stdin.reconfigure(encoding="utf-8", errors="replace")
        return sys.stdin
    return followed(name, open_log(name)) if name is not None else ()


def main(given):
    # that a server is ended is nothing to be told
    for it in (signal.SIGTERM, signal.SIGINT):
        signal.signal(it, lambda number, _: os._exit(128 + number))
    errors = Errors()
    collector = collector_for(given, errors)
    lines = lines_of(given.errors)
    with server_at(given.listen, collector.collect) as server:
        threading.Thread(target=errors.read, args=(lines, given.hand_on), daemon=True).start()
        print(f"metrics: listening on {server.server_name}:{server.server_port}", flush=True)
        server.serve_forever()
