"""The tests of audit, which want Python 3 alone: python3 -m dev.unit test_audit

What is expected stands in crates/line_cases/data/certificates.lines, whose states, keys and faults were written by hand.
"""

import contextlib
import json
import os
import subprocess
import tempfile
import unittest

from dev import SHOP
from dev.beds.commands import warrenctl
from dev.beds.rows import guarantee_of, rows
from warrenctl.files.reading import Refused, read_certificates
from warrenctl.routing.checker import Check, Fault, Pattern, Topology, refutes, words_of
from warrenctl.tests.broken import never, reaches, topology


def run(*words):
    done = subprocess.run([*warrenctl("audit"), *words], capture_output=True, text=True)
    return done.returncode, done.stdout, done.stderr


@contextlib.contextmanager
def written(*texts):
    """Files of these texts or bytes."""
    with tempfile.TemporaryDirectory() as folder:
        names = [os.path.join(folder, f"{place}.json") for place in range(len(texts))]
        for name, text in zip(names, texts):
            with open(name, "wb") as file:
                file.write(text if isinstance(text, bytes) else text.encode())
        yield names


def told(topology, guarantee, certificate):
    """What a row says of a certificate."""
    fault = Check(Topology(json.loads(topology)), guarantee, certificate).fault()
    if fault is None:
        return "ok"
    letter = f" letter {json.dumps(fault.letter) if isinstance(fault.letter, str) else 'other'}" if fault.letter is not None else ""
    return f"fault {fault.number}" + (f" state {fault.state}" if fault.state is not None else "") + letter


class Rows(unittest.TestCase):
    def each(self, kind, least):
        found = [it for it in rows("certificates.lines") if it.kind == kind]
        self.assertGreaterEqual(len(found), least)
        for it in found:
            with self.subTest(it.line[:200]):
                yield it, *guarantee_of(it.words)

    def test_checks(self):
        for row, guarantee, _ in self.each("check", 55):
            topology, certificates = row.files
            self.assertEqual(told(topology, guarantee, json.loads(certificates)[0]), row.wanted)

    def test_what_a_search_finds_is_accepted(self):
        for row, guarantee, _ in self.each("certificate", 15):
            self.assertEqual(told(row.files[0], guarantee, json.loads(row.wanted)[0]), "ok")

    def test_keys(self):
        for row, guarantee, words in self.each("disprove", 25):
            self.assertEqual("yes" if refutes(Topology(json.loads(row.files[0])), guarantee, words[0], words[1:]) else "no", row.wanted)

    def test_keys_that_a_search_finds(self):
        decoder, checked = json.JSONDecoder(), 0
        for row, guarantee, _ in self.each("search", 35):
            if row.wanted.startswith("no key "):
                rest, names = row.wanted.removeprefix("no key ").replace(" path ", " "), []
                while rest:
                    name, at = decoder.raw_decode(rest)
                    names, rest = names + [name], rest[at + 1 :]
                self.assertTrue(refutes(Topology(json.loads(row.files[0])), guarantee, names[0], names[1:]))
                checked += 1
        self.assertGreater(checked, 15)

    def test_files(self):
        found = [it for it in rows("certificates.lines") if it.kind in ("certificates", "certificates-hex")]
        self.assertGreater(len(found), 40)
        for row in found:
            with self.subTest(row.line[:200]):
                text = row.files[0] if row.files else b"".join(bytes.fromhex(it[0]) * int(it[1] if it[1:] else 1) for it in (word.split("*") for word in row.words))
                with written(text) as names:
                    try:
                        self.assertEqual(f"read {len(read_certificates(names[0]))}", row.wanted)
                    except Refused as error:
                        self.assertEqual(f"refused {error.number}", row.wanted)

    def test_patterns(self):
        checked = 0
        for row in rows("patterns.lines"):
            if row.kind == "match":
                self.assertEqual("yes" if Pattern(True, row.words[0]).matches(row.words[1]) else "no", row.wanted, row.line)
            elif row.kind == "places":
                found = [str(place) for place, it in enumerate(row.words[1:]) if Pattern(True, it).matches(row.words[0])]
                self.assertEqual(" ".join(found) or "none", row.wanted, row.line)
            checked += row.kind in ("match", "places")
        self.assertGreater(checked, 40)
        self.assertEqual(words_of("a..b"), ["a", "", "b"])


class ByHand(unittest.TestCase):
    """What no row tells apart, worked out by docs/FORMATS.md."""

    def fault(self, definitions, guarantee, tracked, states):
        return Check(Topology(definitions), guarantee, {**guarantee, "form": 2, "tracked": tracked, "states": states}).fault()

    def test_what_is_not_tracked_may_be_of_a_never(self):
        bound = topology({"X": "topic"}, {"q": None}, [("X", "pay", "q")])
        self.assertEqual(self.fault(bound, never("X", "#", "q"), [0], [[2], [3]]), Fault(4, 0))
        beside = topology({"X": "topic U", "U": "fanout"}, {"A": None, "B": None}, [("X", "pay", "A"), ("U", "", "B")])
        self.assertEqual(self.fault(beside, never("X", "#", "B"), [0], [[2], [3]]), Fault(4, 0))
        by_name = topology({}, {"q": None, "r": None}, [])
        self.assertEqual(self.fault(by_name, never("", "q", "r"), [0], [[1], [2]]), Fault(4, 1))
        self.assertEqual(self.fault(by_name, never("", "q", "r"), [0, 2], [[1, 1], [2, 0]]), None)

    def test_the_guarantees_own_pattern_is_tracked(self):
        """Without it nothing would be covered, and everything be kept."""
        definitions = topology({"X": "topic"}, {"q": None}, [("X", "a", "q")])
        self.assertEqual(self.fault(definitions, reaches("X", "b", "q"), [1], [[1], [2]]), Fault(5))
        self.assertEqual(self.fault(definitions, reaches("X", "b", "q"), [0], [[1], [2]]), Fault(3, 1))

    def test_lists_of_tracked_patterns(self):
        def listed(definitions, guarantee):
            return [("topic" if it.is_topic else "literal", it.text) for it in Topology(definitions).tracked(guarantee)]

        dying = topology({"D": "topic", "X": "topic", "F": "fanout"}, {"q": ("D",), "r": None}, [("X", "a", "q"), ("D", "b", "r"), ("X", "f", "F"), ("F", "g", "r")])
        self.assertEqual(listed(dying, reaches("X", "p", "q")), [("topic", "p"), ("topic", "a"), ("topic", "f")])
        self.assertEqual(listed(dying, never("X", "p", "q")), [("topic", "p"), ("topic", "b"), ("topic", "a"), ("topic", "f")])
        by_name = topology({"X": "topic", "Y": "direct"}, {"q": ("",), "r": None, "k": None}, [("X", "k", "q"), ("Y", "k", "q"), ("Y", "*", "r"), ("X", "z", "Y"), ("X", "*", "r")])
        names = [("literal", "q"), ("literal", "r"), ("literal", "k")]
        keys = [("topic", "k"), ("topic", "z"), ("topic", "*")]
        self.assertEqual(listed(by_name, never("X", "#", "r")), [("topic", "#"), *names, *keys, ("literal", "*")])
        self.assertEqual(listed(by_name, {**reaches("X", "k", "q"), "except": ["*", "k", "*"]}), [("topic", "k"), ("topic", "*"), ("topic", "z"), ("literal", "k"), ("literal", "*")])
        fixed = topology({"X": "fanout", "D": "topic"}, {"q": ("D", "b")}, [("X", "", "q"), ("D", "b", "q")])
        self.assertEqual(listed(fixed, never("X", "#", "q")), [("topic", "#")])


class Lines(unittest.TestCase):
    """The lines and statuses are those of docs/OPERATIONS.md."""

    def shop(self, certificates, *words):
        with written(certificates) as names:
            return run(os.path.join(SHOP, "definitions.json"), os.path.join(SHOP, "guarantees.json"), names[0], *words)

    def certificates(self):
        with open(os.path.join(SHOP, "certificates.json"), encoding="utf-8") as file:
            return file.read()

    def test_all_are_ok(self):
        self.assertEqual(self.shop(self.certificates()), (0, "".join(f"{it} ok\n" for it in range(1, 7)), ""))
        self.assertEqual(self.shop(self.certificates(), "--only", "3"), (0, "3 ok\n", ""))

    def test_too_few_and_too_many(self):
        made = json.loads(self.certificates())
        self.assertEqual(self.shop(json.dumps(made[:-1])), (1, "".join(f"{it} ok\n" for it in range(1, 6)) + "6 fault 5\n", ""))
        self.assertEqual(self.shop("[]"), (1, "".join(f"{it} fault 5\n" for it in range(1, 7)), ""))
        self.assertEqual(self.shop(json.dumps(made + made[:2])), (1, "".join(f"{it} ok\n" for it in range(1, 7)) + "7 fault 5\n", ""))

    def test_faults(self):
        made = json.loads(self.certificates())
        del made[1]["states"][0]
        status, out, _ = self.shop(json.dumps(made))
        self.assertEqual((status, out.splitlines()[1]), (1, "2 fault 2 state 0 letter other"))

    def test_keys(self):
        with open(os.path.join(SHOP, "definitions.json"), encoding="utf-8") as file:
            broken = file.read().replace('"orders.#"', '"orders.*.#"')
        guarantees = os.path.join(SHOP, "guarantees.json")
        with written(broken) as names:
            self.assertEqual(run(names[0], guarantees, "--only", "1", "--key", "orders"), (0, "1 broken\n", ""))
            self.assertEqual(run(names[0], guarantees, "--only", "1", "--key", "orders.new"), (1, "1 not broken by this\n", ""))
            self.assertEqual(run(names[0], guarantees, "--only", "1", "--key", "orders", "shop"), (1, "1 not broken by this\n", ""))


class Bad(unittest.TestCase):
    def test_one_line_each(self):
        good = [os.path.join(SHOP, f"{it}.json") for it in ("definitions", "guarantees", "certificates")]
        texts = ("", "[", "{}", "7", '{"guarantees":7}', "[" * 100_000, '[{"form":1}]', b"\xff\xfe", "[1e999]")
        with written(*texts) as names:
            for place in range(3):
                for name in [*names, "/nowhere", "/"]:
                    words = [*good[:place], name, *good[place + 1 :]]
                    with self.subTest(words):
                        status, out, said = run(*words)
                        self.assertEqual((out, said.count("\n")), ("", 1), said)
                        self.assertTrue(said.startswith(f"audit: {name}: refused ") and status == 3 or said == f"audit: {name}: cannot read\n" and status == 4, said)

    def test_command_lines(self):
        good = [os.path.join(SHOP, f"{it}.json") for it in ("definitions", "guarantees", "certificates")]
        for words in ([], good[:2], [*good, "more"], [*good, "--key", "a"], [*good[:2], "--key", "a"], [*good, "--only", "x"], [*good, "--only", "0"], [*good, "--only", "7"]):
            status, out, said = run(*words)
            self.assertEqual((status, out, said.count("\n")), (3, "", 1), said)
            self.assertTrue(said.startswith("audit: "))
        self.assertEqual(run("--help")[0], 0)


if __name__ == "__main__":
    unittest.main()
