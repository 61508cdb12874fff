"""The tests of why, which want Python 3 alone: python3 -m dev.unit test_why

Which key breaks a guarantee, and where it goes, was worked out by hand (broken.py); that a key breaks it is also asked of the checker of
`audit`, which has rows of its own. That `warren check` leaves those undecided is looked at by with_warren/why.py.
"""

import contextlib
import json
import os
import subprocess
import tempfile
import unittest
import xml.etree.ElementTree as tree

from dev import SHOP
from dev.beds.commands import warrenctl
from dev.beds.rows import guarantee_of, rows
from warrenctl.routing.sentences import promise
from warrenctl.files.places import lines_of
from warrenctl.files.reading import Refused, read_guarantees
from warrenctl.routing.checker import Topology, refutes
from warrenctl.routing.search import search
from warrenctl.tests.broken import BROKEN, never, reaches, seventy, topology


def run(*words, given=""):
    done = subprocess.run([*warrenctl("why"), *words], capture_output=True, text=True, input=given)
    return done.returncode, done.stdout, done.stderr


@contextlib.contextmanager
def written(*values):
    """Files of these values, or of these texts."""
    with tempfile.TemporaryDirectory() as folder:
        names = [os.path.join(folder, f"{place}.json") for place in range(len(values))]
        for name, value in zip(names, values):
            with open(name, "w", encoding="utf-8") as file:
                file.write(value if isinstance(value, str) else json.dumps(value))
        yield names


class Searches(unittest.TestCase):
    def test_the_broken_ones(self):
        self.assertGreaterEqual(len(BROKEN), 10)
        for title, definitions, guarantee, key, _ in BROKEN:
            with self.subTest(title):
                found = search(Topology(definitions), guarantee)
                self.assertEqual(found.key, key)
                self.assertTrue(refutes(Topology(definitions), guarantee, found.key, found.path))

    def test_what_a_search_of_warren_found(self):
        """Each `no` of certificates.lines is found, and nothing is found that breaks a `yes`."""
        kinds = {"yes": 0, "no": 0}
        for row in rows("certificates.lines"):
            if row.kind != "search" or row.wanted.startswith("undecided"):
                continue
            guarantee, _ = guarantee_of(row.words)
            found = search(Topology(json.loads(row.files[0])), guarantee)
            self.assertEqual(found.key is None, row.wanted.startswith("yes"), row.line)
            kinds[row.wanted.split()[0]] += 1
            if found.key is not None:
                self.assertTrue(refutes(Topology(json.loads(row.files[0])), guarantee, found.key, found.path), row.line)
                self.assertEqual(len(found.key.split(".")), len(json.loads(row.wanted.split(" ")[2]).split(".")), row.line)
        self.assertGreater(min(kinds.values()), 10)

    def test_it_is_bounded(self):
        definitions = topology({"X": "topic"}, {"q": None}, seventy("X", "#.a%.#", "q"))
        guarantee = reaches("X", "#.a1.#.a2.#.a3.#.a4.#.a5.#", "q")
        found = search(Topology(definitions), guarantee, 500)
        self.assertEqual((found.key, found.all, found.states), (None, False, 500))

    def test_a_key_of_255_bytes(self):
        word = "x" * 253
        definitions = topology({"X": "topic"}, {"q": None}, [("X", word, "q")])
        self.assertEqual(search(Topology(definitions), reaches("X", f"{word}.*", "q")).key, None)
        definitions = topology({"X": "topic"}, {"q": None}, [("X", word[1:], "q")])
        self.assertEqual(search(Topology(definitions), reaches("X", f"{word[1:]}.*", "q")).key, f"{word[1:]}.w0")


class Sentences(unittest.TestCase):
    def test_of_the_broken_ones(self):
        for title, definitions, guarantee, _, said in BROKEN:
            with self.subTest(title), written(definitions, {"guarantees": [guarantee]}) as names:
                self.assertEqual(run(*names, "--alone"), (1, f"1: {promise(guarantee)}: NO: {said}\n", ""))
                status, out, _ = run(*names, "-", "--alone", given="1 undecided states\n")
                self.assertEqual((status, out), (1, f"1: {promise(guarantee)}: UNDECIDED by `check`, but NO: {said}\n"))

    def test_promises(self):
        for guarantee, said in (
            (reaches("X", "#", "q"), "everything of `X` reaches `q`"),
            (reaches("", "q.a", "q.a"), "`q.a` of the default exchange reaches `q.a`"),
            (reaches("X", "", "q"), "the empty key of `X` reaches `q`"),
            (reaches("X", "a.*", "q", "a.b"), "every `a.*` of `X` but `a.b` reaches `q`"),
            (reaches("X", "#", "q", "a", "b", "c"), "everything of `X` but `a`, `b` and `c` reaches `q`"),
            (never("X", "#", "q`"), 'nothing of `X` reaches "q`"'),
            (never("X", "a.#", "q"), "nothing under `a.#` of `X` reaches `q`"),
        ):
            self.assertEqual(promise(guarantee), said)

    def test_verdicts_of_the_shop(self):
        with open(os.path.join(SHOP, "definitions.json"), encoding="utf-8") as file:
            changed = file.read().replace('"orders.#"', '"orders.*.#"')
        guarantees = os.path.join(SHOP, "guarantees.json")
        with written(changed, '1 no key "orders"\n2 yes states 3\n3 undecided key\n4 undecided states\n5 yes states 7\n6 yes states 5\n') as names:
            status, out, said = run(names[0], guarantees, names[1])
            self.assertEqual((status, said), (1, ""))
            lines = out.splitlines()
            self.assertEqual(lines[0], "1: every `orders.#` of `shop` reaches `audit`: NO: `orders` goes to `lost` alone")
            self.assertEqual(lines[1], "2: `paid` of `payments` reaches `audit`: yes")
            self.assertIn("a key of more than 255 bytes", lines[2])
            self.assertEqual(lines[3], "4: everything of `news` reaches `mail`: UNDECIDED by `check`; no key breaks it by matching alone, and yet there is no certificate")
            self.assertEqual(run(names[0], guarantees, names[1], "--only", "2"), (0, lines[1] + "\n", ""))
            self.assertEqual(run(names[0], guarantees, names[1], "--only", "4")[0], 2)
            status, out, _ = run(os.path.join(SHOP, "definitions.json"), guarantees, names[1], "--only", "1")
            self.assertEqual((status, out), (2, "1: every `orders.#` of `shop` reaches `audit`: the verdict is of other files: `orders` does not break it here\n"))

    def test_lines_of_verify(self):
        good = [os.path.join(SHOP, f"{it}.json") for it in ("definitions", "guarantees")]
        status, out, _ = run(*good, "-", given='1 ok\n2 fault 1\n3 fault 2 state 4 letter "a b"\n4 fault 2 state 0 letter other\n5 fault 3 state 1\n6 fault 5\n')
        self.assertEqual(status, 1)
        said = [it.split(": ", 2)[2] for it in out.splitlines()]
        before = "its certificate does not show it: "
        self.assertEqual(said[0], "yes")
        self.assertEqual(said[1], before + "the state of no words is not listed")
        self.assertEqual(said[2], before + 'from state 4 the word "a b" leads to a state that is not listed')
        self.assertEqual(said[3], before + "from state 0 the word other leads to a state that is not listed")
        self.assertEqual(said[4], before + "at state 1 the guarantee covers the key, and the queue is not sure to be reached")
        self.assertEqual(said[5], before + "it has not the form that the guarantee needs, or there is none")

    def test_a_path_of_warren(self):
        definitions = topology({"payments": "direct", "news": "fanout"}, {"billing": ("news",), "mail": None}, [("payments", "paid", "billing"), ("news", "", "mail")])
        with written(definitions, {"guarantees": [never("payments", "#", "mail")]}, '1 no key "paid" path "payments" "billing" "news" "mail"\n') as names:
            said = "1: nothing of `payments` reaches `mail`: NO: `paid` goes from `payments` to `billing`; rejected there, it goes on to `news` and so to `mail`\n"
            self.assertEqual(run(*names), (1, said, ""))

    def test_a_program_is_asked(self):
        """A program made up here: it checks nothing, and routes as its second line says."""
        _, definitions, guarantee, _, said = BROKEN[0]
        for routed, witness in ("", "(`warren route` says so too)"), ('"q"', "(but `warren route` says otherwise)"):
            with written(definitions, {"guarantees": [guarantee]}, f"#!/bin/sh\nif [ $1 = check ]; then echo 1 undecided states; exit 2; fi; echo '{routed}'\n") as names:
                os.chmod(names[2], 0o755)
                status, out, _ = run(*names[:2], "--warren", names[2])
                self.assertEqual((status, out), (1, f"1: {promise(guarantee)}: UNDECIDED by `check`, but NO: {said} {witness}\n"))

    def test_a_program_that_does_not_answer(self):
        """No verdict is taken from silence: not of a program that is killed or prints less, and not of a file that has less."""
        _, definitions, guarantee, _, _ = BROKEN[0]
        for lines, why in (("exit 0", "says nothing of guarantee 1"), ("kill -9 $$", "was ended by signal 9"), ("echo 1 yes states 2; exit 0", "says nothing of guarantee 2")):
            with written(definitions, {"guarantees": [guarantee, guarantee]}, f"#!/bin/sh\n{lines}\n") as names:
                os.chmod(names[2], 0o755)
                self.assertEqual(run(*names[:2], "--warren", names[2]), (3, "", f"why: {names[2]} {why}\n"))
        with written(definitions, {"guarantees": [guarantee, guarantee]}, "1 yes states 2\n") as names:
            self.assertEqual(run(*names), (3, "", f"why: {names[2]} says nothing of guarantee 2\n"))
            self.assertEqual(run(*names, "--only", "1")[0], 0)


class Refusals(unittest.TestCase):
    def test_lines_of_entries(self):
        text = '{"a": 1,\n "queues": [\n  {"x":"]"},\n\n {"y":[1,\n2]}, 3\n], "b": {"queues": [7]},\n"users":[\n]}'
        self.assertEqual(lines_of(text), {"queues": [3, 5, 6], "users": []})
        self.assertEqual(lines_of('[ {},\n\n{}]'), {"": [1, 3]})
        self.assertEqual(lines_of('{"a":[1],\n"a":[\n2]}'), {"a": [3]})

    def test_a_definitions_file(self):
        with open(os.path.join(SHOP, "definitions.json"), encoding="utf-8") as file:
            text = file.read()
        wrong = text.replace('"routing_key": "paid"', '"routing_key": "paid..", "since": 1', 1).replace('"arguments": {}}', '"arguments": {"x-message-ttl": 1}}', 1)
        with written(wrong) as names:
            status, out, said = run(names[0])
        number = next(number for number, line in enumerate(wrong.splitlines(), 1) if "paid.." in line)
        first = next(number for number, line in enumerate(wrong.splitlines(), 1) if "x-message-ttl" in line)
        binding = f'{names[0]}:{number}: binding "payments" to queue "billing", key "paid..": '
        self.assertEqual((status, said), (1, ""))
        wanted = {
            binding + "its key has an empty word (refused 9)",
            binding + 'member "since" (refused 7)',
            f'{names[0]}:{first}: exchange "payments": argument "x-message-ttl" (refused 7)',
        }
        self.assertEqual(set(out.splitlines()[:-1]), wanted)
        self.assertEqual(out.splitlines()[-1], f"{names[0]}: 3 causes; the lowest is what warren prints: refused 7")

    def test_policies_and_topic_permissions(self):
        definitions = {**topology({}, {}, []), "policies": [{"name": "p"}], "topic_permissions": [{"user": "till"}]}
        with written(json.dumps(definitions, indent=1)) as names:
            lines = json.dumps(definitions, indent=1).splitlines()
            status, out, _ = run(names[0])
        # an entry begins a line before its name
        policy, till = (next(number for number, line in enumerate(lines) if name in line) for name in ('"p"', '"till"'))
        self.assertEqual(status, 1)
        self.assertEqual(out.splitlines()[0], f'{names[0]}:{policy}: policy "p": none is taken (refused 7)')
        self.assertEqual(out.splitlines()[1], f'{names[0]}:{till}: topic permission "till": none is taken (refused 7)')

    def test_guarantees_by_the_rows(self):
        """The least cause is the one that stands in the rows of the reader of guarantees files."""
        checked = 0
        for row in rows("guarantees.lines"):
            if row.kind == "guarantees":
                definitions, guarantees = row.files
                with written(guarantees) as names:
                    try:
                        told = f"read {len(read_guarantees(names[0], json.loads(definitions)))}"
                    except Refused as refused:
                        told = f"refused {refused.number}"
                self.assertEqual(told, row.wanted, row.line)
                checked += 1
        self.assertGreater(checked, 40)

    def test_places_of_guarantees_and_certificates(self):
        guarantees = '{"guarantees": [\n {"mode": "reaches", "exchange": "X", "pattern": "a..b", "queue": "r"},\n {"mode": "ever"}]}'
        definitions = topology({"X": "topic"}, {"q": None}, [])
        with written(definitions, guarantees, '{"guarantees": []}', '[{"form": 1}]') as names:
            status, out, _ = run(names[0], names[1])
            self.assertEqual(status, 1)
            self.assertIn(f'{names[1]}:3: guarantee 2: mode "ever"; only "reaches" and "never" are taken (refused 2)', out.splitlines())
            self.assertIn(f'{names[1]}:2: guarantee 1: its queue "r" is not there (refused 5)', out.splitlines())
            self.assertIn(f'{names[1]}:2: guarantee 1: its pattern "a..b" has an empty word (refused 9)', out.splitlines())
            status, out, _ = run(names[0], names[2], "--alone", "--certificates", names[3])
            self.assertEqual(status, 1)
            self.assertIn(f'{names[3]}:1: certificate 1: member "states" is missing (refused 2)', out.splitlines())

    def test_what_is_taken(self):
        name = os.path.join(SHOP, "definitions.json")
        self.assertEqual(run(name), (0, f"warren accepts {name}\n", ""))


class Junit(unittest.TestCase):
    """The form is that of JUnit's XML as pipelines read it: suites, a suite, a case for each test, in it a failure or an error."""

    def report(self, *words):
        with tempfile.TemporaryDirectory() as folder:
            name = os.path.join(folder, "report.xml")
            status, _, said = run(*words, "--junit", name)
            suites = tree.parse(name).getroot()
        self.assertEqual((suites.tag, [it.tag for it in suites]), ("testsuites", ["testsuite"]))
        counts = [[it.get(of) for of in ("tests", "failures", "errors", "skipped")] for it in (suites, suites[0])]
        self.assertEqual(*counts)
        self.assertEqual({it.get("classname") for it in suites[0]}, {os.path.splitext(os.path.basename(words[0]))[0]})
        cases = [(case.get("name"), [(it.tag, it.get("type"), it.get("message"), it.text) for it in case]) for case in suites[0]]
        return status, said, ":".join(counts[0]), cases

    def test_a_test_for_each_guarantee(self):
        definitions = topology({"X": "topic"}, {"q": None, "r": ("X", "b.c")}, [("X", "a.#", "q"), ("X", "c", "r"), ("X", "b.*", "q")])
        guarantees = {"guarantees": [reaches("X", "a.#", "q"), reaches("X", "#", "q"), never("X", "c", "q"), never("X", "d", "q")]}
        with written(definitions, guarantees, '1 yes states 2\n2 no key ""\n3 no key "c" path "X" "r" "X" "q"\n4 undecided key\n') as names:
            status, said, counts, cases = self.report(*names)
        self.assertEqual((status, said, counts), (1, "", "4:3:0:0"))
        missed = ("everything of `X` reaches `q`", "NO: the empty key goes nowhere")
        entered = ("nothing under `c` of `X` reaches `q`", "NO: `c` goes from `X` to `r`; rejected there, it goes on as `b.c` to `X` and so to `q`")
        undecided = "UNDECIDED: a key of more than 255 bytes, which no client can send, breaks it, and no key of fewer words does; take a shorter pattern"
        open_one = ("nothing under `d` of `X` reaches `q`", undecided)
        failed = [(name, [("failure", kind, why, f"{name}: {why}")]) for (name, why), kind in ((missed, "broken"), (entered, "broken"), (open_one, "undecided"))]
        self.assertEqual(cases, [("every `a.#` of `X` reaches `q`", []), *failed])

    def test_a_file_that_is_refused_and_one_that_is_taken(self):
        definitions = topology({"X": "topic"}, {"q": None}, [("X", "a..b", "q")])
        with written(definitions) as names:
            status, said, counts, cases = self.report(names[0])
            what = "its key has an empty word (refused 9)"
            entry = f'{names[0]}:1: binding "X" to queue "q", key "a..b"'
            self.assertEqual((status, said, counts, cases), (1, "", "1:0:1:0", [(entry, [("error", "refused 9", what, f"{entry}: {what}")])]))
        self.assertEqual(self.report(os.path.join(SHOP, "definitions.json")), (0, "", "1:0:0:0", [("warren accepts it", [])]))

    def test_what_could_not_be_told_is_an_error(self):
        shop = os.path.join(SHOP, "definitions.json")
        status, said, counts, cases = self.report(shop, "/nowhere")
        why = "/nowhere: No such file or directory"
        self.assertEqual((status, said, counts), (3, f"why: {why}\n", "1:0:1:0"))
        self.assertEqual(cases, [("there is no answer", [("error", "failed", why, f"there is no answer: {why}")])])
        self.assertEqual(run(shop, "--junit", "/no/where.xml"), (3, "", "why: /no/where.xml: No such file or directory\n"))

    def test_names_of_any_text(self):
        name = "<&\"'>\x01\ufffe\n\ud7ff\U0001f600]]>"
        definitions = topology({name: "topic"}, {"q": None}, [])
        with written(definitions, {"guarantees": [reaches(name, "#", "q"), never(name, "#", "q")]}) as names:
            status, said, counts, cases = self.report(*names, "--alone")
        self.assertEqual((status, said, counts), (1, "", "2:1:0:0"))
        for told, _ in cases:
            self.assertIn("<&", told)
            self.assertIn("\U0001f600]]>", told)


class Bad(unittest.TestCase):
    def test_one_line_each(self):
        good = [os.path.join(SHOP, f"{it}.json") for it in ("definitions", "guarantees")]
        with written("1 maybe", "7 yes", "", "x") as names:
            for words in (
                [],
                ["/nowhere"],
                ["/"],
                [good[0], "/nowhere"],
                [*good, "/nowhere"],
                [*good, names[0]],
                [*good, names[1]],
                [*good, names[3]],
                [*good, "--only", "9"],
                [*good, "--only", "x"],
                [*good, "--warren", "/nowhere"],
                [*good, "--x"],
            ):
                status, out, said = run(*words)
                self.assertEqual((status, out, said.count("\n")), (3, "", 1), (words, said))
                self.assertTrue(said.startswith("why: "), said)
        self.assertEqual(run("--help")[0], 0)

    def test_files_that_are_no_json(self):
        for text in ("", "{", "[" * 100_000, "null", "7", '"', "NaN", '{"vhosts":"\\ud800"}', "\ufeff{}"):
            with written(text) as names:
                status, out, said = run(names[0])
                self.assertEqual((status, said), (1, ""))
                self.assertTrue(out.startswith(names[0]) and "Traceback" not in out, out)


if __name__ == "__main__":
    unittest.main()
