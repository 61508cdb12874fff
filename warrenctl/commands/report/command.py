"""Writes one HTML page of a topology and its guarantees, which opens from a folder or a pipeline's artefacts: a picture, each guarantee with its verdict and
its way, the keys that exchanges drop, and the queues that are dead ends. It has no scripts, and loads nothing."""

import sys
from collections import defaultdict

from warrenctl.cli.words import Words
from warrenctl.commands.report.page import page
from warrenctl.commands.report.picture import Picture
from warrenctl.commands.report.ways import Ways
from warrenctl.commands.suggest.candidates import reaching
from warrenctl.commands.unrouted import EVERY, Asked
from warrenctl.fault import Fault
from warrenctl.files.reading import Refused, read_definitions, read_guarantees
from warrenctl.files.writing import write
from warrenctl.program import program_of
from warrenctl.routing.asking import BROKEN, answers_of, worst
from warrenctl.routing.checker import Topology
from warrenctl.routing.dropping import public_exchanges
from warrenctl.routing.topology import Topology as Drawn

REFUSED = 1
STATUSES = "Status: 0 all guarantees hold; 1 one is broken, or a file is refused; 2 some are undecided; 3 no page was written."


def words(arguments):
    parser = Words("report", __doc__, STATUSES)
    parser.add_argument("definitions", help="a definitions file")
    parser.add_argument("guarantees", nargs="?", help="a guarantees file; without it the page has none")
    parser.add_argument("--out", metavar="FILE", help="the page; without it, standard output")
    parser.add_program()
    return parser.parse_args(arguments)


def marks_of(guarantees, answers, ways):
    """The classes of each step and place in the picture: g1 for guarantee 1, r1 if it is broken."""
    marks = defaultdict(list)
    for number, (it, answer) in enumerate(zip(guarantees, answers), 1):
        mark = f"{'r' if answer.kind == BROKEN else 'g'}{number}"
        ends = {("exchange", it["exchange"]), ("queue", it["queue"])}
        steps = ways.of(it, answer)
        for place in ends | {end for step in steps for end in step} | set(steps):
            marks[place].append(mark)
    return {place: " ".join(them) for place, them in marks.items()}


def html_of(given):
    """The page, and the kinds of its verdicts."""
    definitions = read_definitions(given.definitions)
    guarantees = read_guarantees(given.guarantees, definitions) if given.guarantees else []
    program = program_of(given)
    topology, drawn = Topology(definitions), Drawn(definitions)
    for it in guarantees:
        drawn.with_default(it["exchange"])
    answers = answers_of(program, given.definitions, topology, guarantees)
    marks = marks_of(guarantees, answers, Ways(topology, drawn, definitions))
    dropped = list(Asked(definitions, program, False).of([(it, EVERY) for it in public_exchanges(definitions)]))
    text = page(given, topology, zip(guarantees, answers), Picture(drawn, marks).svg(), dropped, reaching(topology), bool(program))
    return text, {it.kind for it in answers}


def main(given):
    try:
        text, kinds = html_of(given)
    except Refused as refused:
        raise Fault(str(refused), REFUSED) from None
    if given.out is None:
        sys.stdout.write(text)
    else:
        write(given.out, text, given.definitions)
    return worst(kinds)
