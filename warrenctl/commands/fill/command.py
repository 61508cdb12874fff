"""Publishes the messages of a file of `drain` under confirms, with their properties. They go to their queue by its name, so a consumer sees
the exchange "" and the name of the queue as their key. What was not confirmed is then in FILE.left, which can be filled in turn."""

import os

from warrenctl.amqp.client import quoted
from warrenctl.cli.login import log_in
from warrenctl.cli.run import DONE, NOT_WHOLE, held_back, tell
from warrenctl.cli.words import Words
from warrenctl.commands.fill.filling import Filling
from warrenctl.fault import Fault
from warrenctl.files.message_file import lines_in, look_through, new_file


def words(arguments):
    parser = Words("fill", __doc__, "Status: 0 all are confirmed; 1 some are, and FILE.left has the others; 3 none is, and a line says why.")
    parser.add_server()
    parser.add_argument("file", metavar="FILE", help="the file, which stays as it is")
    to = parser.add_mutually_exclusive_group()
    to.add_argument("--queue", metavar="QUEUE", help="another queue than that of the file")
    as_sent = "publish each message to the exchange and under the key that it was sent with; it comes to all queues that these lead to"
    to.add_argument("--as-sent", action="store_true", help=as_sent)
    return parser.parse_args(arguments)


def main(given):
    queue, count, is_cut = look_through(given.file)
    queue = given.queue if given.queue is not None else queue
    rest = given.file + ".left"
    if os.path.lexists(rest):
        raise Fault(f"{rest} is there already")
    with log_in(given) as client:
        if not given.as_sent:
            client.queue(queue)
        client.select()
        filling = Filling(client, lines_in(given.file), () if given.as_sent else ("", queue))
        with held_back():
            filling.all()
            where = "as they were sent" if given.as_sent else f"to {quoted(queue)}"
            told = f"{filling.taken} of {count} messages were published {where}"
            return outcome(filling, told, queue, rest, is_cut)


def outcome(filling, told, queue, rest, is_cut):
    """Tells what was done, and keeps what was not."""
    cut = "; the last line was cut off, and is left out: its message was not acknowledged" if is_cut else ""
    if filling.why is None:
        tell("fill", told + cut)
        return NOT_WHOLE if is_cut else DONE
    unsure = f", of which {len(filling.waiting)} may have come in" if filling.waiting else ""
    if not filling.taken:
        raise Fault(f"{filling.why}; none was confirmed{unsure}")
    with new_file(rest, queue) as kept:
        for line in filling.left():
            kept.write_line(line)
    tell("fill", f"{filling.why}; {told}; left in {rest}: {kept.count}{unsure}{cut}")
    return NOT_WHOLE
