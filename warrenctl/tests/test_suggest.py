"""The tests of suggest, which want Python 3 alone: python3 -m dev.unit test_suggest

What holds of the topologies below was worked out by hand.
"""

import itertools
import json
import os
import random
import subprocess
import tempfile
import unittest

from dev import SHOP
from dev.beds.commands import warrenctl
from warrenctl.commands.suggest.patterns import includes, meets
from warrenctl.routing.checker import Pattern
from warrenctl.tests.broken import seventy, topology


def run(*words):
    done = subprocess.run([*warrenctl("suggest"), *words], capture_output=True, text=True)
    return done.returncode, done.stdout, done.stderr


def suggested(definitions, *words):
    with tempfile.NamedTemporaryFile("w", suffix=".json", encoding="utf-8") as file:
        json.dump(definitions, file)
        file.flush()
        status, out, said = run(file.name, *(words or ("--alone",)))
    return status, [tuple(it[name] for name in ("mode", "exchange", "pattern", "queue")) for it in json.loads(out)["guarantees"]] if out else out, said


class Suggests(unittest.TestCase):
    def test_each_binding_and_what_lies_behind_it(self):
        definitions = topology(
            {"X": "topic", "Y": "fanout", "D": "direct"},
            {"q": None, "r": None, "s": None, "lonely": None},
            [("X", "a.#", "q"), ("X", "b.*", "Y"), ("Y", "ignored", "r"), ("Y", "", "s"), ("D", "paid", "q"), ("D", "*", "r")],
        )
        status, found, said = suggested(definitions)
        self.assertEqual(status, 0)
        by_bindings = [("X", "a.#", "q"), ("X", "b.*", "r"), ("X", "b.*", "s"), ("Y", "#", "r"), ("Y", "#", "s"), ("D", "paid", "q")]
        self.assertEqual(sorted(found), sorted(("reaches", *it) for it in by_bindings))
        self.assertEqual(found[:3], [("reaches", *by_bindings[it]) for it in (0, 3, 5)])
        self.assertTrue(said.startswith("6 guarantees hold, by matching alone; `warren check` decides"), said)

    def test_what_does_not_hold_is_left_out(self):
        definitions = topology({"X": "topic", "Y": "topic"}, {"q": None}, [("X", "#", "Y"), ("Y", "a", "q")])
        status, found, said = suggested(definitions)
        self.assertEqual((status, found), (0, [("reaches", "Y", "a", "q"), ("reaches", "X", "a", "q")]))
        told = ["1 does not hold, and is left out:", "  everything of `X` reaches `q`: NO: the empty key goes nowhere"]
        self.assertEqual(said.splitlines()[1:3], told)

    def test_the_number_that_is_printed_is_bounded(self):
        definitions = topology({"X": "topic", "Y": "topic"}, {"q": None}, [*[("X", f"k{it}.*", "Y") for it in range(23)], ("Y", "a", "q")])
        said = suggested(definitions)[2].splitlines()
        self.assertEqual(said[1], "23 do not hold, and are left out:")
        self.assertEqual(said[2], "  every `k0.*` of `X` reaches `q`: NO: `k0.w0` goes nowhere")
        self.assertEqual(said[22], "  and 3 more")

    def test_an_alternate_gets_nothing(self):
        """That is proposed first; if a key does go there, it is named."""
        definitions = topology({"X": "topic Else", "Y": "topic Else", "Else": "fanout"}, {"q": None, "lost": None}, [("X", "#", "q"), ("Y", "a.#", "q"), ("Else", "", "lost")])
        _, found, said = suggested(definitions)
        self.assertEqual(found[0], ("never", "X", "#", "lost"))
        self.assertIn("  nothing of `Y` reaches `lost`: NO: the empty key goes from `Y` to `Else` to `lost`", said.splitlines())

    def test_what_both_bindings_let_pass(self):
        definitions = topology(
            {"X": "topic", "Y": "topic", "Z": "direct"},
            {"q": None, "r": None},
            [("X", "orders.#", "Y"), ("Y", "*.eu", "q"), ("Y", "#", "Z"), ("Z", "orders.us.new", "r"), ("Z", "bills", "r")],
        )
        _, found, _ = suggested(definitions)
        self.assertEqual([it[1:] for it in found if it[0] == "reaches" and it[1] == "X"], [("X", "orders.eu", "q"), ("X", "orders.us.new", "r")])

    def test_none_that_another_implies(self):
        definitions = topology({"X": "topic"}, {"q": None}, [("X", it, "q") for it in ("a.b", "a.*", "a.#", "b.c", "*.c")])
        _, found, said = suggested(definitions)
        self.assertEqual(found, [("reaches", "X", it, "q") for it in ("a.#", "*.c")])
        self.assertEqual(said.splitlines()[1], "3 more are left out: they follow from those that are written")

    def test_exchanges_take_turns(self):
        bindings = [(f"X{it}", f"k{number}", "q") for it in range(12) for number in range(20)]
        _, found, said = suggested(topology({f"X{it}": "topic" for it in range(12)}, {"q": None}, bindings))
        self.assertEqual(len(found), 64)
        self.assertEqual({name: sum(it[1] == name for it in found) for name in ("X0", "X3", "X4", "X11")}, {"X0": 6, "X3": 6, "X4": 5, "X11": 5})
        self.assertIn("the rest was not checked, since a file has at most 64", said.splitlines())

    def test_which_exchanges_can_reach_a_queue(self):
        queues = {"a": ("B",), "b": None, "lonely": None}
        definitions = topology({"A": "topic", "B": "topic", "C": "topic"}, queues, [("A", "#", "a"), ("C", "x", "A"), ("B", "#", "b")])
        definitions["exchanges"][1]["internal"] = True
        _, found, said = suggested(definitions)
        self.assertEqual([it for it in found if it[0] == "never"], [])
        self.assertEqual(said.splitlines()[-3:], ["  `a`       `A` and `C`", "  `b`       `A` and `C`", "  `lonely`  none"])

    def test_dead_letters(self):
        definitions = topology(
            {"X": "topic", "D": "topic"},
            {"kept": ("D",), "named": ("D", "dead"), "own": ("", "store"), "store": None, "graves": None},
            [("X", "a.*", "kept"), ("X", "b", "named"), ("X", "c", "own"), ("D", "#", "graves")],
        )
        _, found, _ = suggested(definitions)
        for it in (("D", "#", "graves"), ("", "store", "store")):
            self.assertIn(("reaches", *it), found)
        self.assertNotIn(("reaches", "D", "a.*", "graves"), found)
        self.assertNotIn(("never", "X", "#", "graves"), found)
        self.assertNotIn(("never", "X", "#", "store"), found)
        self.assertEqual([it for it in found if it[0] == "never"], [])

    def test_a_file_has_at_most_64(self):
        status, found, said = suggested(topology({"X": "topic", "Y": "topic"}, {"q": None}, [*seventy("X", "a%", "q"), *seventy("Y", "a%", "q")]))
        self.assertEqual((status, len(found)), (0, 64))
        self.assertEqual({it[1] for it in found}, {"X", "Y"})
        self.assertIn("the rest was not checked, since a file has at most 64", said.splitlines())

    def test_an_internal_exchange_comes_last(self):
        with open(os.path.join(SHOP, "definitions.json"), encoding="utf-8") as file:
            _, found, _ = suggested(json.load(file))
        reaches = [it[1:] for it in found if it[0] == "reaches"]
        self.assertEqual(reaches[:2], [("shop", "orders.*", "packing"), ("payments", "paid", "billing")])
        self.assertEqual(reaches[-2:], [("records", "#", "audit"), ("strays", "#", "lost")])
        self.assertEqual([it for it in found if it[0] == "never"], [])


class Patterns(unittest.TestCase):
    def test_by_all_keys_of_up_to_four_words(self):
        """A pattern has all keys of another, and two have keys in common, exactly as matching each key says."""
        keys = [".".join(it) for count in range(5) for it in itertools.product("abc", repeat=count)]
        chance = random.Random(1)
        for _ in range(400):
            one, other = (".".join(chance.choice("ab*#") for _ in range(chance.randint(0, 3))) for _ in range(2))
            matched = [{key for key in keys if Pattern(True, it).matches(key)} for it in (one, other)]
            self.assertEqual(includes(one, other), matched[1] <= matched[0], (one, other))
            both = meets(one, other)
            self.assertEqual({key for key in keys if any(Pattern(True, it).matches(key) for it in both)}, matched[0] & matched[1], (one, other))
            self.assertFalse([it for it in both for wide in both if wide != it and includes(wide, it)])

    def test_two_places_where_a_word_may_be(self):
        self.assertEqual(sorted(meets("#.x.#", "#.y.#")), ["#.x.#.y.#", "#.y.#.x.#"])
        self.assertEqual(meets("orders.#", "*.eu"), ["orders.eu"])
        self.assertEqual(meets("a.#", "b.#"), [])


class Asks(unittest.TestCase):
    def program(self, lines):
        file = tempfile.NamedTemporaryFile("w", suffix=".sh", delete=False)
        self.addCleanup(os.remove, file.name)
        with file:
            file.write(f"#!/bin/sh\n{lines}\n")
        os.chmod(file.name, 0o755)
        return file.name

    def test_what_the_program_says_counts(self):
        program = self.program('echo "1 yes states 3"; echo "2 undecided states"; echo \'3 no key "b"\'; exit 1')
        definitions = topology({"X": "topic", "Y": "topic"}, {"q": None, "r": None}, [("X", "a", "q"), ("Y", "c", "q"), ("X", "b", "Y")])
        status, found, said = suggested(definitions, "--warren", program)
        self.assertEqual((status, found), (0, [("reaches", "X", "a", "q")]))
        lines = said.splitlines()
        self.assertEqual(lines[0], "1 guarantee holds, by `warren check`. Strike out what you do not want to promise.")
        self.assertEqual(lines[1:4], ["1 does not hold, and is left out:", "  `b` of `X` reaches `q`: NO: `b` goes nowhere", "1 more are left out: they are undecided"])

    def test_what_is_no_whole_answer(self):
        """A killed check, a missing line, a strange line and a key that breaks nothing are status 3, and the file stays as it was."""
        definitions = topology({"X": "topic"}, {"q": None}, [("X", "a", "q"), ("X", "b", "q")])
        yes = "echo '1 yes states 3'"
        for lines in ("kill -9 $$", f"{yes}; kill -15 $$", yes, f"{yes}; echo '2 perhaps yes states 3'", f"{yes}; echo '2 no key \"b\"'; exit 1", f"{yes}; echo '2 no key'; exit 1"):
            with tempfile.TemporaryDirectory() as folder:
                names = [os.path.join(folder, it) for it in ("definitions.json", "guarantees.json")]
                for name, value in zip(names, (definitions, "kept")):
                    with open(name, "w", encoding="utf-8") as file:
                        json.dump(value, file)
                status, out, said = run(*names, "--force", "--warren", self.program(lines))
                self.assertEqual((status, out, said.count("\n")), (3, "", 1), (lines, said))
                with open(names[1], encoding="utf-8") as file:
                    self.assertEqual(file.read(), '"kept"')

    def test_a_key_is_no_verdict(self):
        program = self.program("echo '1 no key \" yes \"'; echo '2 yes states 1'; echo '3 yes states 1'; exit 1")
        definitions = topology({"X": "topic", "Y": "topic"}, {"q": None}, [("X", "*", "Y"), ("Y", "a", "q")])
        status, found, said = suggested(definitions, "--warren", program)
        self.assertEqual((status, found), (0, [("reaches", "Y", "a", "q"), ("reaches", "X", "a", "q")]))
        self.assertIn("` yes ` goes nowhere", said)

    def test_a_file_is_replaced_by_force_alone(self):
        definitions = os.path.join(SHOP, "definitions.json")
        with tempfile.TemporaryDirectory() as folder:
            name = os.path.join(folder, "guarantees.json")
            self.assertEqual(run(definitions, name, "--alone")[0], 0)
            before = os.stat(name).st_ino
            self.assertEqual(run(definitions, name, "--alone"), (3, "", f"suggest: {name} is there already; --force replaces it\n"))
            self.assertEqual(os.stat(name).st_ino, before)
            self.assertEqual(run(definitions, name, "--alone", "--force")[0], 0)

    def test_a_program_that_fails(self):
        status, _, said = suggested(topology({"X": "topic"}, {"q": None}, [("X", "a", "q")]), "--warren", self.program("echo 'warren: memory' >&2; exit 4"))
        self.assertEqual((status, said.count("\n")), (3, 1))
        self.assertTrue(said.endswith(": warren: memory\n"), said)


class Bad(unittest.TestCase):
    def test_one_line_each(self):
        shop = os.path.join(SHOP, "definitions.json")
        refused = [([os.path.join(SHOP, "guarantees.json")], 1)]
        failed = ([], ["/nowhere"], ["/"], [shop, "/nowhere/file", "--alone"], [shop, "--warren", "/nowhere"], [shop, "a", "b"])
        for words, status in refused + [(it, 3) for it in failed]:
            found, out, said = run(*words)
            self.assertEqual((found, out, said.count("\n")), (status, "", 1), (words, said))
            self.assertTrue(said.startswith("suggest: "), said)
        self.assertEqual(run("--help")[0], 0)

    def test_no_entry(self):
        self.assertEqual(suggested(topology({}, {}, []))[:2], (0, []))


if __name__ == "__main__":
    unittest.main()
