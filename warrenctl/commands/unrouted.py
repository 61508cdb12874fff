"""Says which messages are confirmed and dropped, because they match no binding. For each exchange that clients may publish to it prints a key that enters
no queue, or that there is none; of a topic exchange that drops one, also for the keys that begin with the first word of a binding. Checked is a
topology with one queue in place of all."""

import json
import os
import tempfile

from warrenctl.cli.run import tell
from warrenctl.cli.words import Words
from warrenctl.fault import Fault
from warrenctl.files.causes import wrong_pattern
from warrenctl.files.reading import Refused, read_definitions
from warrenctl.program import program_of
from warrenctl.routing.asking import BROKEN, HOLDS, UNDECIDED, answers_of, worst
from warrenctl.routing.checker import Topology
from warrenctl.routing.dropping import enters, first_words, keeps, public_exchanges, with_one_queue, with_probe
from warrenctl.routing.sentences import key_told, told

REFUSED = 1
STATUSES = "Status: 0 none is dropped; 1 a key is, or warren refuses the definitions file; 2 some are undecided; 3 there is no answer."
EVERY = "#"
# of one exchange the first words that are asked for
MOST_FIRST = 64


def words(arguments):
    parser = Words("unrouted", __doc__, STATUSES)
    parser.add_argument("definitions", help="a definitions file")
    parser.add_argument("--exchange", help="of this exchange alone")
    parser.add_argument("--pattern", help="of the keys that match this topic pattern alone, such as orders.#")
    parser.add_argument("--copies", action="store_true", help="also count a copy that an exchange on the way drops, though another copy enters a queue")
    parser.add_program()
    given = parser.parse_args(arguments)
    if given.pattern is not None and wrong_pattern(given.pattern):
        parser.error(f"--pattern {wrong_pattern(given.pattern)}")
    return given


class Asked:
    """Asks whether keys are dropped, over a topology that was changed for it."""

    def __init__(self, definitions, program, copies):
        self.probe = None
        if copies:
            self.changed, self.probe = with_probe(definitions)
        else:
            self.changed = with_one_queue(definitions)
        self.topology, self.program = Topology(self.changed), program

    def guarantee(self, exchange, pattern):
        return keeps(exchange, pattern, self.probe) if self.probe else enters(exchange, pattern)

    def answers(self, guarantees):
        with tempfile.TemporaryDirectory() as folder:
            name = os.path.join(folder, "definitions.json")
            with open(name, "w", encoding="utf-8") as file:
                json.dump(self.changed, file)
            return answers_of(self.program, name, self.topology, guarantees)

    def of(self, pairs):
        """Yields for each exchange and pattern the answer. A key that has words comes before the empty key."""
        guarantees = [self.guarantee(*it) for it in pairs]
        answers = self.answers(guarantees)
        again = [place for place, it in enumerate(answers) if it.kind == BROKEN and not it.key]
        others = self.answers([{**guarantees[it], "except": [""]} for it in again]) if again else []
        for place, other in zip(again, others):
            answers[place] = other if other.kind == BROKEN else answers[place]
        yield from zip(pairs, answers)

    def said(self, exchange, pattern, answer):
        keys = "" if pattern == EVERY else f", {told(pattern)}"
        if answer.kind == HOLDS:
            return f"{told(exchange)}{keys}: no {'copy' if self.probe else 'message'} is dropped"
        if answer.kind == UNDECIDED:
            return f"{told(exchange)}{keys}: UNDECIDED: no key was found that is dropped"
        what = f"a copy is dropped at {told(answer.path[-3])}" if self.probe else "enters no queue"
        return f"{told(exchange)}{keys}: NO: {key_told(answer.key)}{': ' if self.probe else ' '}{what}"


def print_answers(asked, pairs):
    """Prints what is said of each exchange and pattern, and returns what was found."""
    found = list(asked.of(pairs)) if pairs else []
    for (exchange, pattern), answer in found:
        print(asked.said(exchange, pattern, answer), flush=True)
    return found


def unrouted(given):
    definitions = read_definitions(given.definitions)
    names = public_exchanges(definitions)
    if given.exchange is not None and given.exchange not in names:
        raise Fault(f"{given.definitions}: there is no exchange {told(given.exchange)} that clients may publish to")
    names = names if given.exchange is None else [given.exchange]
    program = program_of(given)
    asked = Asked(definitions, program, given.copies)
    found = print_answers(asked, [(it, EVERY if given.pattern is None else given.pattern) for it in names])
    dropping = [exchange for (exchange, _), answer in found if answer.kind != HOLDS]
    if given.pattern is None:
        print_answers(asked, [(it, first) for it in dropping for first in first_words(definitions, it)[:MOST_FIRST]])
    if not program:
        tell("unrouted", "by matching alone; `warren check` decides (make try)")
    kinds = {answer.kind for _, answer in found}
    return worst(kinds)


def main(given):
    try:
        return unrouted(given)
    except Refused as refused:
        raise Fault(str(refused), REFUSED) from None
