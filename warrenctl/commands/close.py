"""Shuts publishers out of a broker that runs with --reload, while consumers go on: makes every exchange of its definitions file internal, so that a
publish is refused with 403. A publish to a queue by its name, through the default exchange, is still accepted. `warrenctl open` goes back."""

from warrenctl.amqp.probes import Probe, look, seconds
from warrenctl.cli.login import log_in
from warrenctl.cli.run import DONE, NOT_WHOLE, tell
from warrenctl.cli.words import Words
from warrenctl.fault import Fault
from warrenctl.files import closing
from warrenctl.files.definitions_file import read, replace

STATUSES = "Status: 0 done; 1 the file is written, and the broker has it not in force yet; 3 not done, and a line says why."


def words(arguments, name="close", about=__doc__):
    parser = Words(name, about, STATUSES)
    parser.add_argument("definitions", help="the definitions file of the broker, which keeps its owner and its mode")
    parser.add_argument("--look", dest="server", metavar="USER@HOST[:PORT]", help="the broker to ask whether it is in force; without it nobody is asked")
    parser.add_password()
    parser.add_argument("--seconds", type=seconds, default=60, help="how long to wait until it is in force (60)")
    return parser.parse_args(arguments)


def change(given, command, work, done, is_new):
    """Changes the file by `work`, which returns the mark and a count, and asks whether the broker has the mark, or no longer has it.

    `done` says what was done, with the count and the file in braces.
    """
    definitions = read(given.definitions, "exchanges", "bindings")
    try:
        mark, count = work(definitions)
    except Fault as error:
        raise Fault(f"{given.definitions}: {error}") from None
    told = done.format(count=count, file=given.definitions)
    if given.server is None:
        replace(given.definitions, definitions)
        tell(command, f"{told}; whether that is in force was not asked (--look)")
        return DONE
    with log_in(given) as client:
        replace(given.definitions, definitions)
        try:
            took = look(client, Probe("exchange", mark, is_new), given.seconds)
        except Fault as error:
            tell(command, f"{told}; whether that is in force is not known: {error}")
            return NOT_WHOLE
    if took is None:
        tell(command, f"{told}, which is not in force after {given.seconds:g} seconds; the broker's standard error says why")
        return NOT_WHOLE
    tell(command, f"{told}, which is in force after {took:.1f} seconds")
    return DONE


def main(given):
    return change(given, "close", closing.close, "every exchange of {file} is closed to publishers ({count} were open)", True)
