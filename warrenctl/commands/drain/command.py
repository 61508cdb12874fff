"""Moves the messages that are ready in a queue into a file, with their properties, so that `fill` can put them back. A message is acknowledged
once it is on the disk, so none is lost if this ends at any point; those of the last batch may then be in the file and in the queue."""

from warrenctl.amqp.client import quoted
from warrenctl.cli.login import log_in
from warrenctl.cli.run import DONE, NOT_WHOLE, tell
from warrenctl.cli.words import Words
from warrenctl.commands.drain.draining import drain
from warrenctl.fault import Fault
from warrenctl.files.message_file import file_to_append, new_file


def words(arguments):
    parser = Words("drain", __doc__, "Status: 0 done; 1 done, and consumers may still hold messages of the queue; 3 not done, and a line says why.")
    parser.add_server()
    parser.add_argument("queue", metavar="QUEUE", help="the name of the queue")
    parser.add_argument("file", metavar="FILE", help="the file, which must not be there yet")
    parser.add_argument("--append", action="store_true", help="the file is there, from a drain of this queue before; write behind what is in it")
    return parser.parse_args(arguments)


def move(client, queue, kept):
    """Moves all, and returns the number of consumers that are left. Whatever is wrong is told with what is in the file."""
    moved = 0
    try:
        for count in drain(client, queue, kept):
            moved += count
        return moved, client.queue(queue).consumers
    except (Fault, OSError, KeyboardInterrupt) as error:
        why = getattr(error, "strerror", None) or str(error) or "broken off"
        unsure = f"; up to {kept.count - moved} more may be in both" if kept.count > moved else ""
        raise Fault(f"{why}; {moved} messages were moved to {kept.name}{unsure}") from None


def main(given):
    with log_in(given) as client:
        client.queue(given.queue)
        with file_to_append(given.file, given.queue) if given.append else new_file(given.file, given.queue) as kept:
            moved, consumers = move(client, given.queue, kept)
    told = f"{moved} messages of {quoted(given.queue)} were moved to {given.file}"
    if consumers:
        tell("drain", f"{told}; consumers that are there: {consumers}, and what they hold is not in it")
        return NOT_WHOLE
    tell("drain", told)
    return DONE
