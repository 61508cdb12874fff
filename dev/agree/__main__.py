#!/usr/bin/env python3
"""Compares `warren replay` with a RabbitMQ: topologies at random, keys at random published to both, every queue message by message.

Each topology is one definitions file, which both take. A client publishes under confirms, takes, settles and purges; what both answered has to be
the same, and in the end every queue is emptied, in order. Then each topology is changed on purpose for warren alone, and some of that has to be seen.
"""

import argparse
import os
import random
import sys
import tempfile
from collections import Counter

from dev.agree.changes import CHANGES
from dev.agree.differences import difference, freely
from dev.agree.operations import NoAnswer
from dev.agree.replayed import NotReplayed, replay, transcript
from dev.agree.scenario import Scenario
from dev.agree.served import Conversation
from dev.agree.topologies import file_of, topology
from dev.beds.rabbit import NotHere, Rabbit, RabbitFault, is_here
from warrenctl.cli.run import run
from warrenctl.cli.words import Words
from warrenctl.fault import Fault
from warrenctl.program import program_here

AGREE, DIFFER = 0, 1
# how many topologies are in one file, with names of their own
TOGETHER = 20
TELL_EACH = 100
# with fewer topologies something may be met by none
ENOUGH = 100
WANTED = ("published", "entered publish", "entered dead", "refused", "returned", "confirmed ack", "confirmed nack", "left rejected", "left purged")


def from_1(word):
    number = int(word) if word.isascii() and word.isdigit() else 0
    if not 1 <= number <= 1_000_000:
        raise argparse.ArgumentTypeError(f"{word} is no whole number from 1 to 1000000")
    return number


def words():
    epilog = "Status: 0 they agree, or RabbitMQ is not installed, which a line says; 1 they differ; 3 there is no answer."
    parser = Words("agree", __doc__, epilog, "python3 -m dev.agree")
    parser.add_argument("warren", nargs="?", help="the program; without it, that of `make try`, a proved one, or the one on the path")
    parser.add_argument("--topologies", type=from_1, default=500, metavar="N", help="how many; 500 without it")
    parser.add_argument("--keys", type=from_1, default=40, metavar="N", help="how many publishes for each; 40 without it")
    parser.add_argument("--seed", default="1", help="what is drawn at random; the same seed draws the same")
    parser.add_argument("--only", type=from_1, metavar="I", help="topology I of this seed alone")
    return parser.parse_args()


class Comparison:
    """The files so far: what was noted in their runs, what was seen of changes made on purpose, and what differed."""

    def __init__(self, given, warren, rabbit, folder):
        self._given, self._warren, self._rabbit, self._folder = given, warren, rabbit, folder
        self.notes, self.seen, self.tried, self.free, self.differ = Counter(), Counter(), Counter(), Counter(), 0

    def compare(self, numbers):
        """Compares the runs over these topologies, which are in one file."""
        chances = [random.Random(f"{self._given.seed}/{number}") for number in numbers]
        topologies = [topology(chance, f"t{number}-") for chance, number in zip(chances, numbers)]
        self._rabbit.import_definitions(file_of(topologies))
        runs = [self._served(chance, it) for chance, it in zip(chances, topologies)]
        found, notes = replay(self._warren, self._folder, file_of(topologies), runs)
        self.notes += notes
        differs = [difference(done, answers) for done, answers in zip(runs, found)]
        self.free += sum((freely(done, answers) for done, answers in zip(runs, found)), Counter())
        for number, it, done, how in zip(numbers, topologies, runs, differs):
            if how:
                self._tell(number, it, done, *how)
        if not any(differs):
            self._change(chances, topologies, runs)

    def _served(self, chance, definitions):
        with Conversation("127.0.0.1", self._rabbit.port, "till", "till") as client:
            return Scenario(chance, definitions, client).run(self._given.keys)

    def _tell(self, number, definitions, done, place, text, answers, others):
        """Says where they differ, and keeps the files with which warren can be asked again."""
        self.differ += 1
        folder = tempfile.mkdtemp(prefix=f"agree-{number}-")
        transcript(self._warren, folder, file_of([definitions]), [done])
        print(f"topology {number} of seed {self._given.seed}, operation {place + 1}: {text}")
        print(f"  RabbitMQ: {answers}\n  warren:   {others}\n  kept: {folder}", flush=True)

    def _change(self, chances, topologies, runs):
        """Replays over each topology changed in one place, for each kind of change that it has a place for, and looks which are seen."""
        for kind, change in CHANGES.items():
            changed = [change(chance, it) for chance, it in zip(chances, topologies)]
            file = file_of([new or old for new, old in zip(changed, topologies)])
            found, _ = replay(self._warren, self._folder, file, runs)
            self.tried[kind] += sum(it is not None for it in changed)
            self.seen[kind] += sum(difference(done, answers) is not None for done, answers in zip(runs, found))

    def lacks(self):
        """What no run came by, and which changes were never seen."""
        return [it for it in WANTED if not self.notes[it]] + [f"a changed {it} that is seen" for it in CHANGES if not self.seen[it]]


    def tell(self, count):
        """Prints what the runs came by, where the two differ freely, and which changes were seen."""
        print("in the runs: " + ", ".join(f"{kind} {count}" for kind, count in sorted(self.notes.items())))
        print("differ freely: " + ", ".join(f"{it} {count}" for it, count in sorted(self.free.items())))
        print("changed on purpose, and seen: " + ", ".join(f"{it} {self.seen[it]} of {self.tried[it]}" for it in CHANGES))
        lacks = self.lacks() if count >= ENOUGH else []
        if lacks:
            print(f"NOT MET by any run: {', '.join(lacks)}")
        print(f"{count} topologies, {self._given.keys} keys each, seed {self._given.seed}: {self.differ} differ")
        return DIFFER if self.differ or lacks else AGREE


def agree(given):
    warren = given.warren or program_here()
    if warren is None:
        raise NotReplayed("there is no warren here: make try")
    # without a RabbitMQ no program is asked for either
    if is_here() and not (os.path.isfile(warren) and os.access(warren, os.X_OK)):
        raise NotReplayed(f"{warren} is no program")
    numbers = list(range(1, given.topologies + 1)) if given.only is None else [given.only]
    with Rabbit("agree") as rabbit, tempfile.TemporaryDirectory() as folder:
        comparison = Comparison(given, warren, rabbit, folder)
        for at in range(0, len(numbers), TOGETHER):
            comparison.compare(numbers[at : at + TOGETHER])
            if at % TELL_EACH == 0 and at:
                print(f"{at} topologies: {comparison.differ} differ", flush=True)
    return comparison.tell(len(numbers))


def main(given):
    try:
        return agree(given)
    except NotHere as error:
        print(f"agree: skipped, {error}")
        return AGREE
    except (RabbitFault, NotReplayed, NoAnswer) as error:
        raise Fault(str(error)) from None


if __name__ == "__main__":
    sys.exit(run("agree", lambda: main(words())))
