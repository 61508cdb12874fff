"""Measures what clients of several kinds get beside others that never pause: one row for each kind, one column for each server.

Each PROGRAM is a `warren`, given as a path or as NAME=PATH, and served at a free port of the loopback. With --rabbitmq a RabbitMQ
(Debian's package `rabbitmq-server`) is started too, and stopped at the end. All servers run throughout; each row is measured on one
server after the other, so compare columns of one row. Wants Linux, `cc` and 3,000 open files. Other work on the machine changes every figure.
"""

import argparse
import contextlib
import fnmatch
import os
import resource
import signal
import subprocess
import sys
import tempfile

from examples.load.servers import NotStarted, rabbitmq, warren
from examples.load.shares_rows import Unanswered, rows
from warrenctl.cli.words import Words

HERE = os.path.dirname(os.path.realpath(__file__))
sys.dont_write_bytecode = True

STATUSES = "Status: 0 all rows were measured; 1 some row was not, which says why; 3 the command line is refused, or a server or `cc` does not start."
UNMEASURED, REFUSED = 1, 3
OPEN_FILES = 3000


def words():
    parser = Words("shares", __doc__, STATUSES, "python3 -m examples.load.shares", formatter_class=argparse.RawDescriptionHelpFormatter)
    parser.add_argument("programs", nargs="*", metavar="PROGRAM", help="a path to a program `warren`, or NAME=PATH")
    parser.add_argument("--rabbitmq", action="store_true", help="measure RabbitMQ as well")
    parser.add_argument("--rows", action="append", metavar="PATTERN", help="only the rows whose name this matches, as a shell pattern; may be repeated")
    parser.add_argument("--list", action="store_true", help="print the names of the rows and end")
    parser.add_argument("--seconds", type=float, default=1.5, help="how long each figure is counted (default: 1.5)")
    given = parser.parse_args()
    if not 0.1 <= given.seconds <= 60:
        parser.error("--seconds wants a number from 0.1 to 60")
    if not (given.programs or given.rabbitmq or given.list):
        parser.error("a program or --rabbitmq is wanted")
    return given


def chosen(all_rows, patterns):
    """The rows that one of the patterns matches, or all of them."""
    if not patterns:
        return all_rows
    return [row for row in all_rows if any(fnmatch.fnmatchcase(row.name, pattern) for pattern in patterns)]


def busy_client(folder):
    """Compiles the client, and returns its path."""
    made = os.path.join(folder, "busy")
    try:
        done = subprocess.run(["cc", "-O2", "-o", made, os.path.join(HERE, "busy.c")], capture_output=True, text=True)
    except OSError as error:
        raise NotStarted(f"cc does not start: {error.strerror}") from None
    if done.returncode:
        raise NotStarted(f"cc does not compile busy.c: {done.stderr.strip()}")
    return made


def started(given, stack):
    """Each server with the name of its column."""
    found = []
    for number, program in enumerate(given.programs, 1):
        name, _, path = program.rpartition("=")
        found.append((name or ("warren" if len(given.programs) == 1 else f"warren {number}"), stack.enter_context(warren(path))))
    if given.rabbitmq:
        found.append(("RabbitMQ", stack.enter_context(rabbitmq())))
    return found


def measure(row, servers, seconds):
    """Prints the row's figures, server by server; whether all were measured."""
    print(f"{row.name}: {row.says}", flush=True)
    is_whole = True
    for name, server in servers:
        try:
            with contextlib.ExitStack() as after:
                after.callback(server.purge_all)
                for figures in row.measure(server, seconds):
                    print(f"    {name:<10} {figures}", flush=True)
        except (Unanswered, EOFError, OSError, ValueError) as error:
            print(f"    {name:<10} not measured: {error}", flush=True)
            is_whole = False
    return is_whole


def main():
    given = words()
    wanted = chosen(rows(), given.rows)
    if given.list:
        for row in wanted:
            print(f"{row.name}: {row.says}")
        return 0
    if not wanted:
        print("shares: no row has such a name", file=sys.stderr)
        return REFUSED
    # so that servers are stopped, too, if this is ended from outside
    signal.signal(signal.SIGTERM, lambda *_: sys.exit(UNMEASURED))
    _, hard = resource.getrlimit(resource.RLIMIT_NOFILE)
    resource.setrlimit(resource.RLIMIT_NOFILE, (min(hard, OPEN_FILES), hard))
    with tempfile.TemporaryDirectory() as folder, contextlib.ExitStack() as stack:
        try:
            os.environ["BUSY"] = busy_client(folder)
            servers = started(given, stack)
        except NotStarted as error:
            print(f"shares: {error}", file=sys.stderr)
            return REFUSED
        return 0 if all([measure(row, servers, given.seconds) for row in wanted]) else UNMEASURED


if __name__ == "__main__":
    sys.exit(main())
