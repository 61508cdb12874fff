"""The tests of unrouted, which want Python 3 alone: python3 -m dev.unit test_unrouted

Which keys are dropped was worked out by hand, and for topologies made at random by routing each key.
"""

import itertools
import json
import os
import random
import subprocess
import tempfile
import unittest

from dev import SHOP
from dev.beds.commands import warrenctl
from warrenctl.commands.unrouted import Asked
from warrenctl.routing.asking import BROKEN, HOLDS
from warrenctl.routing.checker import Topology, by_key
from warrenctl.tests.broken import seventy, topology


def run(definitions, *words):
    with tempfile.NamedTemporaryFile("w", suffix=".json", encoding="utf-8") as file:
        json.dump(definitions, file)
        file.flush()
        done = subprocess.run([*warrenctl("unrouted"), file.name, *(words or ("--alone",))], capture_output=True, text=True)
    return done.returncode, done.stdout.splitlines(), done.stderr.replace(file.name, "FILE").splitlines()


class Drops(unittest.TestCase):
    def test_a_pattern_that_loses_its_first_word(self):
        definitions = topology({"shop": "topic", "all": "topic"}, {"q": None}, [("shop", "stock.*", "q"), ("shop", "orders.#", "q"), ("all", "#", "q")])
        told = ["`shop`: NO: `stock` enters no queue", "`all`: no message is dropped", "`shop`, `stock.#`: NO: `stock` enters no queue", "`shop`, `orders.#`: no message is dropped"]
        self.assertEqual(run(definitions), (1, told, ["unrouted: by matching alone; `warren check` decides (make try)"]))
        self.assertEqual(run(definitions, "--alone", "--exchange", "shop", "--pattern", "orders.#")[:2], (0, ["`shop`, `orders.#`: no message is dropped"]))
        self.assertEqual(run(definitions, "--alone", "--exchange", "all")[:2], (0, ["`all`: no message is dropped"]))

    def test_the_empty_key_alone(self):
        definitions = topology({"X": "topic"}, {"q": None}, [("X", "*.#", "q")])
        self.assertEqual(run(definitions)[:2], (1, ["`X`: NO: the empty key enters no queue"]))

    def test_alternates_and_internal_exchanges(self):
        definitions = topology({"X": "topic Else", "Else": "fanout"}, {"q": None, "lost": None}, [("X", "a", "q"), ("Else", "", "lost")])
        definitions["exchanges"][1]["internal"] = True
        self.assertEqual(run(definitions)[:2], (0, ["`X`: no message is dropped"]))
        definitions["bindings"].pop()
        self.assertEqual(run(definitions)[:2], (1, ["`X`: NO: `w0` enters no queue", "`X`, `a.#`: NO: `a.w0` enters no queue"]))

    def test_a_ring_without_a_queue(self):
        definitions = topology({"A": "topic", "B": "fanout"}, {"q": None}, [("A", "a", "B"), ("B", "", "A"), ("A", "b", "q")])
        self.assertEqual(run(definitions, "--alone", "--exchange", "A", "--pattern", "a")[:2], (1, ["`A`, `a`: NO: `a` enters no queue"]))

    def test_copies(self):
        definitions = topology({"X": "fanout", "Y": "topic"}, {"q": ("Y",)}, [("X", "", "q"), ("X", "", "Y"), ("Y", "a", "q")])
        self.assertEqual(run(definitions, "--alone", "--exchange", "X")[:2], (0, ["`X`: no message is dropped"]))
        self.assertEqual(run(definitions, "--alone", "--exchange", "X", "--copies")[:2], (1, ["`X`: NO: `w0`: a copy is dropped at `Y`"]))

    def test_by_all_keys_of_up_to_three_words(self):
        """A key that is named enters no queue; where none is named, each key enters one."""
        chance, keys = random.Random(7), [".".join(it) for count in range(4) for it in itertools.product("abz*#", repeat=count)]
        found = set()
        for _ in range(150):
            exchanges = {name: chance.choice(("topic", "direct", "fanout")) + chance.choice(("", "", " C")) for name in "ABC"}
            patterns = ["#", "*", "a", "a.#", "*.b", "b", ""]
            bindings = [(chance.choice("ABC"), chance.choice(patterns), chance.choice("ABCqr")) for _ in range(chance.randint(1, 7))]
            definitions = topology(exchanges, {"q": None, "r": None}, bindings)
            there = Topology(definitions)
            for (name, _), answer in Asked(definitions, None, False).of([(it, "#") for it in "ABC"]):
                lost = [key for key in keys if not any(kind == "queue" for kind, _ in there.routed(name, by_key(key)))]
                self.assertEqual(answer.kind, BROKEN if lost else HOLDS, (definitions, name))
                if lost:
                    self.assertFalse(any(kind == "queue" for kind, _ in there.routed(name, by_key(answer.key))))
                found.add(answer.kind)
        self.assertEqual(found, {BROKEN, HOLDS})


class Asks(unittest.TestCase):
    def program(self, lines):
        file = tempfile.NamedTemporaryFile("w", suffix=".sh", delete=False)
        self.addCleanup(os.remove, file.name)
        with file:
            file.write(f"#!/bin/sh\n{lines}\n")
        os.chmod(file.name, 0o755)
        return file.name

    def test_what_the_program_says_counts(self):
        definitions = topology({"X": "topic"}, {"q": None}, [*seventy("X", "a%", "q"), ("X", "#", "q")])
        for line, status, told in (("yes states 7", 0, "no message is dropped"), ("undecided states", 2, "UNDECIDED: no key was found that is dropped")):
            asked = ["--exchange", "X", "--pattern", "a", "--warren", self.program(f"echo '1 {line}'")]
            self.assertEqual(run(definitions, *asked), (status, [f"`X`, `a`: {told}"], []))
        for lines in ("", "kill -9 $$", "echo '1 no key \"a\"'; exit 1", "echo warren: memory >&2; exit 4"):
            status, out, said = run(definitions, "--warren", self.program(lines))
            self.assertEqual((status, out, len(said)), (3, [], 1), said)

    def test_what_is_wrong_is_one_line(self):
        definitions = topology({"X": "topic"}, {"q": None}, [])
        for words, status in ((["--exchange", "Y"], 3), (["--pattern", "a..b"], 3), (["--alone", "more"], 3)):
            found, out, said = run(definitions, *words)
            self.assertEqual((found, out, len(said)), (status, [], 1), said)
        self.assertEqual(run({**definitions, "vhosts": []})[:2], (1, []))
        done = subprocess.run([*warrenctl("unrouted"), os.path.join(SHOP, "guarantees.json")], capture_output=True, text=True)
        self.assertEqual((done.returncode, done.stdout, done.stderr.count("\n")), (1, "", 1))


if __name__ == "__main__":
    unittest.main()
