"""Shows how many messages are ready in each queue of a definitions file, and how many consumers it has. It asks by passive declares over
one connection, each second. Messages that were given out and wait for their acknowledgement are not counted: no declare returns them."""

import sys
import time

from warrenctl.amqp.client import quoted
from warrenctl.cli.login import log_in
from warrenctl.cli.run import DONE, NOT_WHOLE, tell
from warrenctl.cli.words import Words
from warrenctl.commands.depths.telling import in_alarm, limits_in, metrics_of, table_of
from warrenctl.fault import Fault

CLEARED = "\x1b[H\x1b[2J"


def share(text):
    number = float(text)
    if not 0 < number <= 1:
        raise ValueError
    return number


def words(arguments):
    parser = Words("depths", __doc__, "Status: 0 done; 1 with --alarm: a queue is that full; 3 not done, and a line says why.")
    parser.add_server()
    parser.add_argument("definitions", metavar="DEFS", help="the definitions file that is in force")
    how = parser.add_mutually_exclusive_group()
    how.add_argument("--once", action="store_true", help="print the table once")
    how.add_argument("--prometheus", action="store_true", help="print once, as Prometheus reads it")
    parser.add_argument("--alarm", metavar="SHARE", type=share, help="mark each queue that has this share of its x-max-length, from above 0 to 1, such as 0.8")
    return parser.parse_args(arguments)


def print_once(given, client, limits):
    depths = client.queues(limits)
    sys.stdout.write(metrics_of(depths, limits) if given.prometheus else table_of(depths, limits, {}, given.alarm))
    full = in_alarm(depths, limits, given.alarm)
    for name in full:
        tell("depths", f"{quoted(name)}: {depths[name].ready} of {limits[name]} messages")
    return NOT_WHOLE if full else DONE


def print_each_second(given, client, limits):
    before = {}
    while True:
        depths = client.queues(limits)
        sys.stdout.write((CLEARED if sys.stdout.isatty() else "") + table_of(depths, limits, before, given.alarm) + "\n")
        sys.stdout.flush()
        before = depths
        time.sleep(1)


def main(given):
    limits = limits_in(given.definitions)
    try:
        with log_in(given) as client:
            return print_once(given, client, limits) if given.once or given.prometheus else print_each_second(given, client, limits)
    except Fault:
        if given.prometheus:
            sys.stdout.write(metrics_of(None, limits))
            sys.stdout.flush()
        raise
