"""Cuts a topology into parts that share no exchange and no queue, each with a definitions and a guarantees file of its own, so that each can be
served by a process of its own. Says which port a client has to connect to for which exchange and which queue."""

import json
import os

from warrenctl.cli.words import Words
from warrenctl.commands.split.parting import at_most, definitions_of, members_of, parts_of, place_of, ties
from warrenctl.fault import Fault
from warrenctl.files.causes import quoted
from warrenctl.files.definitions_file import text_of
from warrenctl.files.reading import read_definitions, read_guarantees
from warrenctl.files.writing import write

WRITTEN, ONE_PART = 0, 1
STATUSES = "Status: 0 the parts were written; 1 there is one part alone, and nothing was written; 3 not done, and a line says why."
MOST_TIES = 5
DEFAULT_EXCHANGE = (
    "A client that needs two parts opens a connection to each. A publish to the default exchange goes to the port of its queue:\n"
    "at another port it is routed nowhere: it is acked and gone, or returned if it is `mandatory`."
)


def words(arguments):
    parser = Words("split", __doc__, STATUSES)
    parser.add_argument("definitions", help="a definitions file")
    parser.add_argument("guarantees", help="a guarantees file")
    parser.add_argument("folder", help="a new folder for part1, part2 .. with their files, and for ports.json")
    parser.add_argument("--parts", type=int, metavar="N", help="at most N parts: small ones are joined, by the number of their queues")
    parser.add_argument("--together", nargs="+", action="append", default=[], metavar="NAME", help="keep these exchanges and queues in one part")
    parser.add_argument("--port", type=int, default=5672, help="the port of the first part; those of the others follow it (%(default)s)")
    given = parser.parse_args(arguments)
    if given.parts is not None and given.parts < 2:
        parser.error("--parts: at least 2")
    if not 0 < given.port < 65_536:
        parser.error(f"--port: {given.port} is no port")
    return given


def named(names, definitions):
    """Returns every exchange and queue that has one of these names."""
    members = members_of(definitions)
    for name in names:
        if name not in {it for _, it in members}:
            raise Fault(f"--together: there is no exchange or queue {quoted(name)}")
    return [it for it in members if it[1] in names]


def tell_one_part(definitions, guarantees):
    """Says which exchanges and queues tie the only part together."""
    print("There is one part: bindings, alternate exchanges, dead letters and `reaches` guarantees tie all of it together.")
    for (kind, name), count in ties(definitions, guarantees)[:MOST_TIES]:
        print(f"Without {kind} {quoted(name)} there would be {count}.")


def listed(names):
    return ", ".join(map(quoted, names)) or "nothing"


def tell_part(name, port, part, definitions, numbers):
    internal = {it["name"] for it in definitions["exchanges"] if it["internal"]}
    print(f"{name}: port {port}, guarantees {' '.join(map(str, numbers)) or 'none'}")
    print(f"  publish to {listed(it for it in part.exchanges if it not in internal)}")
    print(f"  take from {listed(part.queues)}")


def sentence_of(it):
    excepts = "".join(f" except {quoted(one)}" for one in it.get("except", []))
    return f"{it['mode']} {quoted(it['exchange'])} {quoted(it['pattern'])} {quoted(it['queue'])}{excepts}"


def tell_left_out(number, guarantee, parts):
    exchange = next(number for number, it in enumerate(parts, 1) if guarantee["exchange"] in it.exchanges)
    queue = next(number for number, it in enumerate(parts, 1) if guarantee["queue"] in it.queues)
    print(f"guarantee {number} ({sentence_of(guarantee)}) is in no file. It holds: its exchange is in part{exchange}, and its queue in part{queue}.")


def write_part(given, definitions, guarantees, name, part):
    folder = os.path.join(given.folder, name)
    os.mkdir(folder)
    # it has password hashes, so nobody may read it who could not read the file of before
    write(os.path.join(folder, "definitions.json"), text_of(definitions_of(definitions, part)), given.definitions)
    write(os.path.join(folder, "guarantees.json"), text_of({"guarantees": guarantees}), given.guarantees)


def ports_of(parts, first):
    """Returns the port of each exchange and each queue."""
    found = {"exchanges": {}, "queues": {}}
    for port, part in enumerate(parts, first):
        found["exchanges"].update(dict.fromkeys(part.exchanges, port))
        found["queues"].update(dict.fromkeys(part.queues, port))
    return found


def main(given):
    definitions = read_definitions(given.definitions)
    guarantees = read_guarantees(given.guarantees, definitions)
    parts = parts_of(definitions, guarantees, [named(names, definitions) for names in given.together])
    parts = at_most(parts, given.parts, definitions) if given.parts else parts
    if len(parts) < 2:
        tell_one_part(definitions, guarantees)
        return ONE_PART
    if given.port + len(parts) > 65_536:
        raise Fault(f"--port: {len(parts)} parts from port {given.port} on would pass 65535")
    os.mkdir(given.folder)
    places = [place_of(it, parts) for it in guarantees]
    for place, part in enumerate(parts):
        numbers = [number for number, at in enumerate(places, 1) if at == place]
        write_part(given, definitions, [guarantees[it - 1] for it in numbers], f"part{place + 1}", part)
        tell_part(f"part{place + 1}", given.port + place, part, definitions, numbers)
    write(os.path.join(given.folder, "ports.json"), json.dumps(ports_of(parts, given.port), ensure_ascii=False, indent=2) + "\n", given.guarantees)
    for number, (guarantee, at) in enumerate(zip(guarantees, places), 1):
        if at is None:
            tell_left_out(number, guarantee, parts)
    print(DEFAULT_EXCHANGE)
    return WRITTEN
