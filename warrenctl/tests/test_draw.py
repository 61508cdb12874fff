"""The tests of draw, which want Python 3 alone: python3 -m dev.unit test_draw

Routes are those that `warren route` has in crates/line_cases/data/routes.lines; what breaks a guarantee was worked out by hand.
"""

import json
import os
import shlex
import subprocess
import tempfile
import unittest

from dev import ROOT, SHOP
from dev.beds.commands import warrenctl
from warrenctl.routing.checker import Pattern
from warrenctl.routing.topology import Topology, read_guarantees, read_verdicts


def text(name):
    with open(os.path.join(SHOP, name), encoding="utf-8") as file:
        return file.read()


def run(*words):
    done = subprocess.run([*warrenctl("draw"), *words], capture_output=True, text=True)
    return done.returncode, done.stdout, done.stderr


class Routes(unittest.TestCase):
    def test_patterns(self):
        checked = 0
        with open(os.path.join(ROOT, "crates/line_cases/data/patterns.lines"), encoding="utf-8") as file:
            for line in file:
                asked, _, wanted = line.strip().partition(" -> ")
                kind, *row = shlex.split(asked, comments=False) if line.startswith(("match ", "places ")) else [""]
                if kind == "match":
                    self.assertEqual("yes" if Pattern(True, row[0]).matches(row[1]) else "no", wanted, line)
                elif kind == "places":
                    found = [str(place) for place, it in enumerate(row[1:]) if Pattern(True, it).matches(row[0])]
                    self.assertEqual(" ".join(found) or "none", wanted, line)
                checked += bool(kind)
        self.assertGreater(checked, 40)

    def test_ways_of_the_shop(self):
        shop = Topology(json.loads(text("definitions.json")))

        def queues(exchange, key):
            return sorted(name for _, (kind, name) in shop.way(exchange, key) if kind == "queue")

        self.assertEqual(queues("shop", "orders.new"), ["audit", "packing"])
        self.assertEqual(queues("shop", "returns"), ["lost"])
        self.assertEqual(queues("payments", "paid"), ["audit", "billing"])
        self.assertEqual(queues("", "mail"), ["mail"])


class Pictures(unittest.TestCase):
    def drawn(self, definitions, guarantees, verdicts, *words):
        with tempfile.TemporaryDirectory() as work:
            names = [os.path.join(work, it) for it in ("definitions", "guarantees", "verdicts")]
            for name, given in zip(names, (definitions, guarantees, verdicts)):
                with open(name, "w", encoding="utf-8") as file:
                    file.write(given)
            status, out, said = run(names[0], "--guarantees", names[1], "--verdicts", names[2], *words)
        self.assertEqual((status, said), (0, ""))
        return out

    def red(self, out):
        return sorted(line.strip().split(" [")[0] for line in out.splitlines() if "red" in line and "label=" != line.strip()[:6])

    def test_a_broken_reaches_shows_where_the_key_goes(self):
        changed = text("definitions.json").replace('"orders.#"', '"orders.*.#"')
        out = self.drawn(changed, text("guarantees.json"), '1 no key "orders"\n2 yes states 3\n3 yes states 3\n4 yes states 2\n5 yes states 7\n')
        self.assertEqual(self.red(out), ['"exchange shop" -> "exchange strays"', '"exchange strays" -> "queue lost"', '"queue audit"'])
        self.assertIn('<font color="red">1 reaches shop orders.# audit: no key &quot;orders&quot;</font>', out)
        self.assertIn('<font color="black">2 reaches payments paid audit: yes states 3</font>', out)
        self.assertIn('"queue audit" [label="audit", shape=cylinder, style="filled,dashed"', out)
        self.assertIn('"queue lost" [label="lost\\nat most 1000", shape=cylinder, style=filled,', out)

    def test_one_guarantee_alone(self):
        changed = text("definitions.json").replace('"orders.#"', '"orders.*.#"')
        verdicts = '1 no key "orders"\n2 yes states 3\n3 undecided states\n'
        out = self.drawn(changed, text("guarantees.json"), verdicts, "--only", "2")
        self.assertEqual(self.red(out), [])
        self.assertIn("2 reaches payments paid audit: yes states 3", out)
        self.assertNotIn("1 reaches", out)
        out = self.drawn(changed, text("guarantees.json"), verdicts, "--only", "1")
        self.assertEqual(self.red(out), ['"exchange shop" -> "exchange strays"', '"exchange strays" -> "queue lost"', '"queue audit"'])
        self.assertIn('<font color="#777777">3 reaches payments paid billing: undecided states</font>', self.drawn(changed, text("guarantees.json"), verdicts, "--only", "3"))

    def test_legend_lines_are_texts(self):
        definitions = {"exchanges": [{"name": "<b>&", "type": "fanout"}], "queues": [{"name": 'q"\x01'}], "bindings": []}
        guarantees = {"guarantees": [{"mode": "reaches", "exchange": "<b>&", "pattern": "#", "queue": 'q"\x01'}]}
        self.assertIn("1 reaches &lt;b&gt;&amp; # q&quot;?", self.drawn(json.dumps(definitions), json.dumps(guarantees), ""))

    def test_a_broken_never_shows_its_path(self):
        definitions = {
            "exchanges": [{"name": "X", "type": "topic", "arguments": {}}],
            "queues": [{"name": "q", "arguments": {"x-dead-letter-exchange": "X", "x-dead-letter-routing-key": "b"}}, {"name": "r", "arguments": {}}],
            "bindings": [
                {"source": "X", "destination": "q", "destination_type": "queue", "routing_key": "a"},
                {"source": "X", "destination": "r", "destination_type": "queue", "routing_key": "b"},
            ],
        }
        guarantees = {"guarantees": [{"mode": "never", "exchange": "X", "pattern": "a", "queue": "r"}]}
        out = self.drawn(json.dumps(definitions), json.dumps(guarantees), '1 no key "a" path "X" "q" "X" "r"\n')
        self.assertEqual(self.red(out), ['"exchange X" -> "queue q"', '"exchange X" -> "queue r"', '"queue q" -> "exchange X"', '"queue r"'])
        self.assertIn('"queue q" -> "exchange X" [label="rejected as b", style=dashed', out)
        self.assertIn('"queue r" [label="r", shape=cylinder, style=filled, fillcolor="#fff4d6", color="red"]', out)

    def test_the_default_exchange_is_there_for_a_path(self):
        definitions = {"exchanges": [], "queues": [{"name": "q", "arguments": {}}], "bindings": []}
        guarantees = {"guarantees": [{"mode": "never", "exchange": "", "pattern": "#", "queue": "q"}]}
        out = self.drawn(json.dumps(definitions), json.dumps(guarantees), '1 no key "q" path "" "q"\n')
        self.assertEqual(self.red(out), ['"exchange " -> "queue q"', '"queue q"'])

    def test_names_are_quoted(self):
        name = 'a"b\\c'
        definitions = {"exchanges": [{"name": name, "type": "fanout"}], "queues": [], "bindings": []}
        with tempfile.NamedTemporaryFile("w", suffix=".json") as file:
            json.dump(definitions, file)
            file.flush()
            status, out, _ = run(file.name)
        self.assertEqual(status, 0)
        self.assertIn('label="a\\"b\\\\c\\nfanout"', out)


    def test_a_control_character_is_shown(self):
        """Two names that differ by it alone stay two."""
        names = ["a\x07b", "a\x00b", "a\nb"]
        definitions = {"exchanges": [{"name": it, "type": "fanout"} for it in names], "queues": [], "bindings": []}
        with tempfile.NamedTemporaryFile("w", suffix=".json") as file:
            json.dump(definitions, file)
            file.flush()
            status, out, _ = run(file.name)
        self.assertEqual(status, 0)
        self.assertTrue(out.replace("\n", "").isprintable())
        self.assertEqual(len({line.partition("[")[0] for line in out.splitlines() if "fanout" in line}), 3)
        self.assertIn('label="a\\\\x07b\\nfanout"', out)


class Bad(unittest.TestCase):
    def test_nothing_is_drawn_of(self):
        for given in ("", "[]", "{", "null", '{"exchanges":1}', '{"exchanges":[1],"queues":[],"bindings":[]}', '{"exchanges":[{"name":1,"type":""}],"queues":[],"bindings":[]}', "[" * 100_000):
            with self.subTest(given[:40]), tempfile.NamedTemporaryFile("w") as file:
                file.write(given)
                file.flush()
                status, out, said = run(file.name)
                self.assertEqual((status, out), (3, ""))
                self.assertTrue(said.startswith("draw: "), said)
        self.assertEqual(run("/nowhere")[0], 3)

    def test_command_lines(self):
        shop = [os.path.join(SHOP, f"{it}.json") for it in ("definitions", "guarantees")]
        for words in ((), ("--x",), (shop[0], "--only", "1"), (shop[0], "--guarantees", shop[1], "--only", "7"), (shop[0], "--verdicts", "x")):
            status, out, said = run(*words)
            self.assertEqual((status, out, said.count("\n")), (3, "", 1), said)
            self.assertTrue(said.startswith("draw: "), said)
        self.assertEqual(run("--help")[0], 0)

    def test_lines_of_another_program(self):
        for line in ("x", "0 yes", "2 yes", "1 no key x", '1 no key "a" path', "1 no key ", "9" * 30 + " yes"):
            guarantees = read_guarantees({"guarantees": [{"mode": "never", "exchange": "", "pattern": "#", "queue": "q"}]})
            with self.subTest(line), self.assertRaises(Exception) as raised:
                read_verdicts([line], len(guarantees))
            self.assertEqual(type(raised.exception).__name__, "BadFile")


if __name__ == "__main__":
    unittest.main()
