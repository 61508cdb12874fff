"""Writes a first guarantees file: what holds of a topology today, to strike out from. Each guarantee is checked before it is written. Prints on
standard error what does not hold, each with a key that breaks it, and which exchanges can reach which queue."""

import json
import os
import sys
from collections import Counter
from itertools import islice

from warrenctl.cli.words import Words
from warrenctl.commands.suggest.candidates import candidates, reaching
from warrenctl.commands.suggest.patterns import includes
from warrenctl.fault import Fault
from warrenctl.files.guarantees import MOST_GUARANTEES
from warrenctl.files.reading import Refused, read_definitions
from warrenctl.files.writing import write
from warrenctl.program import program_of
from warrenctl.routing.asking import BROKEN, HOLDS, UNDECIDED, answers_of
from warrenctl.routing.checker import Topology
from warrenctl.routing.sentences import broken, listed, promise, told

WRITTEN, REFUSED = 0, 1
STATUSES = "Status: 0 it was written; 1 warren refuses the definitions file; 3 this could not be done."
# why a candidate is left out, beside BROKEN and UNDECIDED
UNASKED, IMPLIED = "unasked", "implied"
# the number of broken guarantees that are printed
MOST_PRINTED = 20


def words(arguments):
    parser = Words("suggest", __doc__, STATUSES)
    parser.add_argument("definitions", help="a definitions file")
    parser.add_argument("file", nargs="?", help="the guarantees file to be written; without it, standard output")
    parser.add_argument("--force", action="store_true", help="replace the guarantees file if there is one")
    parser.add_program()
    return parser.parse_args(arguments)


def tell(line):
    print(line, file=sys.stderr)


def text_of(guarantees):
    """The file, a guarantee a line."""
    lines = ",\n".join("  " + json.dumps(it, ensure_ascii=False) for it in guarantees)
    return '{"guarantees": [\n' + lines + "\n]}\n" if guarantees else '{"guarantees": []}\n'


def implies(one, other):
    """Whether a guarantee that holds makes another hold: of the same exchange and queue, over all keys of the other."""
    same = all(one[name] == other[name] for name in ("mode", "exchange", "queue"))
    return same and includes(one["pattern"], other["pattern"])


class Kept:
    """Guarantees that hold, none of which implies another."""

    def __init__(self):
        self.all = []

    def has(self, guarantee):
        return any(implies(it, guarantee) for it in self.all)

    def add(self, guarantee):
        """Keeps a guarantee in place of those that it implies, and tells how many these are."""
        stay = [it for it in self.all if not implies(guarantee, it)]
        gone = len(self.all) - len(stay)
        self.all = [*stay, guarantee]
        return gone


class Left:
    """What is left out: counts by the reason, and those that are broken, each with its answer."""

    def __init__(self):
        self.counts, self.broken = Counter(), []

    def add(self, guarantee, answer):
        self.counts[answer.kind] += 1
        if answer.kind == BROKEN:
            self.broken.append((guarantee, answer))


def holding(found, ask):
    """Returns the candidates that hold, at most as many as a file may have and none that another implies, and what is left out."""
    kept, left, asked = Kept(), Left(), 0
    while len(kept.all) < MOST_GUARANTEES:
        batch = list(islice(found, MOST_GUARANTEES))
        if not batch:
            break
        some = [it for it in batch if not kept.has(it)]
        left.counts[IMPLIED] += len(batch) - len(some)
        if sys.stderr.isatty():
            tell(f"checking {asked + 1} to {asked + len(batch)}")
        asked += len(batch)
        for it, answer in zip(some, ask(some) if some else ()):
            if answer.kind != HOLDS:
                left.add(it, answer)
            elif kept.has(it):
                left.counts[IMPLIED] += 1
            else:
                left.counts[IMPLIED] += kept.add(it)
    left.counts[HOLDS] = len(kept.all[MOST_GUARANTEES:])
    left.counts[UNASKED] = next(found, None) is not None
    return kept.all[:MOST_GUARANTEES], left


def tell_broken(topology, found):
    """Prints what does not hold, each with the key that breaks it."""
    tell(f"{len(found)} do{'es' * (len(found) == 1)} not hold, and {'is' if len(found) == 1 else 'are'} left out:")
    for it, answer in found[:MOST_PRINTED]:
        tell(f"  {promise(it)}: NO: {broken(topology, it, answer.key, list(answer.path))}")
    if len(found) > MOST_PRINTED:
        tell(f"  and {len(found) - MOST_PRINTED} more")


def tell_reaching(topology):
    """Prints the exchanges that can reach each queue."""
    rows = [(told(queue), listed(map(told, names)) if names else "none") for queue, names in reaching(topology).items()]
    width = max((len(queue) for queue, _ in rows), default=0)
    if rows:
        tell("queue: exchanges that can reach it, also by dead letters; internal ones and the default exchange are not listed:")
    for queue, names in rows:
        tell(f"  {queue.ljust(width)}  {names}")


def tell_outcome(topology, written, left, program):
    by = "`warren check`" if program else "matching alone; `warren check` decides (make try)"
    tell(f"{len(written)} guarantee{' holds' if len(written) == 1 else 's hold'}, by {by}. Strike out what you do not want to promise.")
    if left.broken:
        tell_broken(topology, left.broken)
    for reason, why in (
        (IMPLIED, "follow from those that are written"),
        (UNDECIDED, "are undecided"),
        (HOLDS, f"hold too, and a file has at most {MOST_GUARANTEES}"),
    ):
        if left.counts[reason]:
            tell(f"{left.counts[reason]} more are left out: they {why}")
    if left.counts[UNASKED]:
        tell(f"the rest was not checked, since a file has at most {MOST_GUARANTEES}")
    tell_reaching(topology)


def suggest(given):
    if given.file and os.path.isfile(given.file) and not given.force:
        raise Fault(f"{given.file} is there already; --force replaces it")
    definitions = read_definitions(given.definitions)
    topology = Topology(definitions)
    program = program_of(given)
    written, left = holding(candidates(topology, definitions), lambda some: answers_of(program, given.definitions, topology, some))
    text = text_of(written)
    if given.file is None:
        sys.stdout.write(text)
    else:
        write(given.file, text, given.definitions)
    tell_outcome(topology, written, left, program)
    return WRITTEN


def main(given):
    try:
        return suggest(given)
    except Refused as refused:
        raise Fault(str(refused), REFUSED) from None
