"""The tests of split, which want Python 3 alone: python3 -m dev.unit test_split

What a message does in a part is compared with what it does in the whole, by the checker of `audit` and the search of `why`.
"""

import json
import os
import random
import stat
import subprocess
import tempfile
import unittest
from collections import Counter

from dev import ROOT
from dev.beds.commands import warrenctl
from warrenctl.commands.split.parting import at_most, definitions_of, parts_of, place_of
from warrenctl.files.causes import causes_in
from warrenctl.files.guarantees import guarantee_causes
from warrenctl.routing.checker import Topology, by_key
from warrenctl.routing.search import search
from warrenctl.tests.topologies import a_key, a_topology, some_guarantees

SHOP = [os.path.join(ROOT, "examples/shop", f"{it}.json") for it in ("definitions", "guarantees")]
COMMON = {"vhost": "/", "durable": True, "auto_delete": False}


def exchange(name, kind="direct", **arguments):
    return {"name": name, "type": kind, "internal": False, "arguments": {it.replace("_", "-"): value for it, value in arguments.items()}, **COMMON}


def queue(name, dead=None, key=None):
    arguments = {"x-dead-letter-exchange": dead, "x-dead-letter-routing-key": key}
    return {"name": name, "arguments": {it: value for it, value in arguments.items() if value is not None}, **COMMON}


def binding(source, to, key="", kind="queue"):
    return {"source": source, "vhost": "/", "destination": to, "destination_type": kind, "routing_key": key, "arguments": {}}


def topology(exchanges, queues, bindings=()):
    return {"vhosts": [{"name": "/"}], "users": [], "permissions": [], "exchanges": exchanges, "queues": queues, "bindings": list(bindings)}


def names(parts):
    return [(it.exchanges, it.queues) for it in parts]


class Parts(unittest.TestCase):
    def parts(self, definitions, guarantees=(), together=()):
        self.assertEqual(causes_in(definitions), [])
        return names(parts_of(definitions, guarantees, together))

    def test_bindings(self):
        made = topology([exchange("x"), exchange("y"), exchange("z")], [queue("a"), queue("b"), queue("c")], [binding("x", "a"), binding("y", "b"), binding("y", "z", kind="exchange")])
        self.assertEqual(self.parts(made), [(["x"], ["a"]), (["y", "z"], ["b"]), ([], ["c"])])

    def test_alternates(self):
        made = topology([exchange("x", alternate_exchange="z"), exchange("y"), exchange("z")], [])
        self.assertEqual(self.parts(made), [(["x", "z"], []), (["y"], [])])

    def test_dead_letters(self):
        made = topology([exchange("x"), exchange("y")], [queue("a", "y"), queue("b", "", "c"), queue("c"), queue("d", "", "nowhere")])
        self.assertEqual(self.parts(made), [(["x"], []), (["y"], ["a"]), ([], ["b", "c"]), ([], ["d"])])

    def test_dead_letters_that_keep_their_key(self):
        """A message of the key `b` comes to `a`, and on to `b` as a dead letter; none of the key `c` comes to `a`."""
        queues = [queue("a", ""), queue("b"), queue("c")]
        self.assertEqual(self.parts(topology([exchange("x")], queues, [binding("x", "a", "b")])), [(["x"], ["a", "b"]), ([], ["c"])])
        self.assertEqual(self.parts(topology([exchange("x", "topic")], queues, [binding("x", "a", "*")])), [(["x"], ["a", "b", "c"])])
        self.assertEqual(self.parts(topology([exchange("x")], queues, [binding("x", "a", "other")])), [(["x"], ["a"]), ([], ["b"]), ([], ["c"])])

    def test_dead_letters_under_a_key_that_a_queue_fixes(self):
        """`d` sends to `x` under `b`, which leads to `a`, and from there under the same key to `b`."""
        made = topology([exchange("x")], [queue("d", "x", "b"), queue("a", ""), queue("b")], [binding("x", "a", "b")])
        self.assertEqual(self.parts(made), [(["x"], ["d", "a", "b"])])

    def test_guarantees_and_words(self):
        made = topology([exchange("x"), exchange("y")], [queue("a"), queue("b")], [binding("x", "a"), binding("y", "b")])
        apart = [(["x"], ["a"]), (["y"], ["b"])]
        for mode, found in (("never", apart), ("reaches", [(["x", "y"], ["a", "b"])])):
            self.assertEqual(self.parts(made, [{"mode": mode, "exchange": "x", "pattern": "#", "queue": "b"}]), found)
        self.assertEqual(self.parts(made, [{"mode": "reaches", "exchange": "", "pattern": "b", "queue": "b"}]), apart)
        self.assertEqual(self.parts(made, together=[[("queue", "a"), ("exchange", "y")]]), [(["x", "y"], ["a", "b"])])

    def test_at_most(self):
        made = topology([], [queue(it) for it in "abcdefg"])
        found = at_most(parts_of(made, []), 3, made)
        self.assertEqual(sorted(len(it.queues) for it in found), [2, 2, 3])
        self.assertEqual(sorted(name for it in found for name in it.queues), list("abcdefg"))
        self.assertEqual(len(at_most(parts_of(made, []), 9, made)), 7)


class Same(unittest.TestCase):
    """A part is what it was, over 200 topologies at random."""

    def test_verdicts_and_routes(self):
        chance, counts = random.Random(73), Counter()
        for _ in range(200):
            whole = a_topology(chance)
            self.assertEqual(causes_in(whole), [])
            guarantees = some_guarantees(chance, whole)
            parts = parts_of(whole, guarantees)
            parts = at_most(parts, 2, whole) if chance.random() < 0.3 else parts
            counts[f"{min(len(parts), 3)} parts"] += 1
            self.same_verdicts(whole, guarantees, parts, counts)
            self.same_routes(chance, whole, parts, counts)
        for it in ("1 parts", "2 parts", "3 parts", "holds", "broken", "in no file", "routed", "routed nowhere", "died"):
            self.assertGreater(counts[it], 20, counts)

    def same_verdicts(self, whole, guarantees, parts, counts):
        files = [definitions_of(whole, it) for it in parts]
        for it in guarantees:
            place, found = place_of(it, parts), search(Topology(whole), it)
            self.assertTrue(found.all)
            if place is None:
                self.assertIsNone(found.key, it)
                counts["in no file"] += 1
                continue
            self.assertEqual(guarantee_causes({"guarantees": [it]}, files[place]), [])
            in_part = search(Topology(files[place]), it)
            self.assertTrue(in_part.all)
            self.assertEqual(in_part.key is None, found.key is None, (it, whole))
            counts["holds" if found.key is None else "broken"] += 1

    def same_routes(self, chance, whole, parts, counts):
        """A key sent to an exchange of a part is routed to the same queues as in the whole, and comes to the same queues as a dead letter."""
        in_whole = Topology(whole)
        for it in parts:
            made = definitions_of(whole, it)
            self.assertEqual(causes_in(made), [])
            in_part = Topology(made)
            for name in it.exchanges:
                says = by_key(a_key(chance, [one["name"] for one in whole["queues"]]))
                self.assertEqual(in_part.routed(name, says), in_whole.routed(name, says))
                self.assertEqual(in_part.visited(name, says), in_whole.visited(name, says))
                queues = [1 for kind, _ in in_part.routed(name, says) if kind == "queue"]
                died = [1 for kind, _, _ in in_part.visited(name, says) if kind == "queue"]
                counts["routed" if queues else "routed nowhere"] += 1
                counts["died"] += len(died) > len(queues)
            for name in it.queues:
                says = by_key(name)
                self.assertEqual(in_part.visited("", says), in_whole.visited("", says))

    def test_nothing_is_in_two_parts(self):
        chance = random.Random(74)
        for _ in range(200):
            whole = a_topology(chance)
            parts = [definitions_of(whole, it) for it in parts_of(whole, [])]
            for name in ("exchanges", "queues", "bindings"):
                self.assertCountEqual([json.dumps(one) for it in parts for one in it[name]], [json.dumps(it) for it in whole[name]])


class Script(unittest.TestCase):
    def setUp(self):
        work = tempfile.TemporaryDirectory()
        self.addCleanup(work.cleanup)
        self.work = work.name
        self.folder = os.path.join(self.work, "parts")

    def run_tool(self, *words):
        done = subprocess.run([*warrenctl("split"), *words], capture_output=True, text=True, timeout=60)
        return done.returncode, done.stdout, done.stderr

    def write(self, name, value):
        path = os.path.join(self.work, name)
        with open(path, "w", encoding="utf-8") as file:
            file.write(value if isinstance(value, str) else json.dumps(value))
        return path

    def read(self, name):
        with open(os.path.join(self.folder, name), encoding="utf-8") as file:
            return json.load(file)

    def test_the_shop(self):
        with open(SHOP[1], encoding="utf-8") as file:
            guarantees = json.load(file)["guarantees"]
        guarantees.insert(3, {"mode": "never", "exchange": "payments", "pattern": "#", "queue": "mail", "except": ["free"]})
        status, out, said = self.run_tool(SHOP[0], self.write("guarantees.json", {"guarantees": guarantees}), self.folder, "--port", "6000")
        self.assertEqual((status, said), (0, ""))
        self.assertEqual(
            out.splitlines()[:7],
            [
                "part1: port 6000, guarantees 1 2 3 6 7",
                '  publish to "shop", "payments"',
                '  take from "packing", "audit", "billing", "lost"',
                "part2: port 6001, guarantees 5",
                '  publish to "news"',
                '  take from "mail"',
                'guarantee 4 (never "payments" "#" "mail" except "free") is in no file. It holds: its exchange is in part1, and its queue in part2.',
            ],
        )
        with open(SHOP[0], encoding="utf-8") as file:
            shop = json.load(file)
        second = self.read("part2/definitions.json")
        self.assertEqual([it["name"] for it in second["exchanges"] + second["queues"]], ["news", "mail"])
        self.assertEqual(second["bindings"], [it for it in shop["bindings"] if it["source"] == "news"])
        self.assertEqual((second["users"], second["permissions"]), (shop["users"], shop["permissions"]))
        self.assertEqual(self.read("part1/guarantees.json")["guarantees"], [it for place, it in enumerate(guarantees) if place not in (3, 4)])
        self.assertEqual(self.read("part2/guarantees.json")["guarantees"], [guarantees[4]])
        first = dict.fromkeys(["shop", "payments", "records", "strays"], 6000)
        queues = dict.fromkeys(["packing", "audit", "billing", "lost"], 6000)
        self.assertEqual(self.read("ports.json"), {"exchanges": {**first, "news": 6001}, "queues": {**queues, "mail": 6001}})

    def test_who_may_read_it(self):
        with open(SHOP[0], encoding="utf-8") as file:
            mine = self.write("mine.json", file.read())
        os.chmod(mine, 0o600)
        self.assertEqual(self.run_tool(mine, SHOP[1], self.folder)[0], 0)
        self.assertEqual(stat.S_IMODE(os.stat(os.path.join(self.folder, "part1/definitions.json")).st_mode), 0o600)

    def test_one_part(self):
        made = topology(
            [exchange("x"), exchange("y"), exchange("all")],
            [queue("a"), queue("b"), queue("dead")],
            [binding("x", "a"), binding("y", "b"), binding("x", "all", kind="exchange"), binding("y", "all", kind="exchange"), binding("all", "dead")],
        )
        files = self.write("definitions.json", made), self.write("guarantees.json", {"guarantees": []})
        status, out, said = self.run_tool(*files, self.folder)
        self.assertEqual((status, said), (1, ""))
        self.assertEqual(out.splitlines()[1:], ['Without exchange "all" there would be 2.'])
        self.assertFalse(os.path.exists(self.folder))
        self.assertEqual(self.run_tool(*SHOP, self.folder, "--together", "mail", "audit")[0], 1)

    def test_what_is_wrong_is_one_line(self):
        def refused(*words):
            status, out, said = self.run_tool(*words)
            self.assertEqual((status, out, said.count("\n"), said[:7]), (3, "", 1, "split: "), said)
            return said

        refused()
        refused(*SHOP)
        for number in ("0", "1", "x"):
            refused(*SHOP, self.folder, "--parts", number)
        for port in ("0", "65536", "x"):
            refused(*SHOP, self.folder, "--port", port)
        self.assertIn("65535", refused(*SHOP, self.folder, "--port", "65535"))
        self.assertIn('"nobody"', refused(*SHOP, self.folder, "--together", "nobody"))
        self.assertIn("File exists", refused(*SHOP, self.work))
        self.assertIn("No such file", refused("/nowhere/a.json", SHOP[1], self.folder))
        self.assertIn("refused 1", refused(self.write("broken.json", "{"), SHOP[1], self.folder))
        wrong = self.write("wrong.json", {"guarantees": [{"mode": "never", "exchange": "none", "pattern": "#", "queue": "mail"}]})
        self.assertIn("refused 5", refused(SHOP[0], wrong, self.folder))
        self.assertEqual(self.run_tool("--help")[0], 0)


if __name__ == "__main__":
    unittest.main()
