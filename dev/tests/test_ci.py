"""The tests of examples/ci without a program, which want Python 3 alone: python3 -m dev.unit test_ci"""

import json
import os
import re
import shutil
import subprocess
import sys
import tempfile
import unittest
import xml.etree.ElementTree as tree

from dev import ROOT, archive

CI = os.path.join(ROOT, "examples/ci")
# a path without the toolchain, and without a warren
PLAIN = {"PATH": f"{os.path.dirname(sys.executable)}:/usr/bin:/bin"}


class Alone(unittest.TestCase):
    def setUp(self):
        folder = tempfile.TemporaryDirectory()
        self.addCleanup(folder.cleanup)
        self.folder = folder.name
        archive.make(self.path("warrenctl"), "/usr/bin/env python3")
        for it in ("export.json", "guarantees.json", "alone"):
            shutil.copy(os.path.join(CI, it), self.folder)

    def path(self, name):
        return os.path.join(self.folder, name)

    def change(self, old, new):
        with open(self.path("export.json"), encoding="utf-8") as file:
            text = file.read()
        self.assertIn(old, text)
        with open(self.path("export.json"), "w", encoding="utf-8") as file:
            file.write(text.replace(old, new))

    def run_command(self, *words):
        done = subprocess.run(words, cwd=self.folder, capture_output=True, text=True, env=PLAIN, timeout=120)
        return done.returncode, done.stdout, done.stderr

    def alone(self):
        return self.run_command("./alone", "export.json", "guarantees.json", "report.xml")

    def failures(self):
        return [it.get("name") for it in tree.parse(self.path("report.xml")).iter("testcase") if it.find("failure") is not None]

    def test_the_shell(self):
        status, out, _ = self.alone()
        self.assertEqual((status, out.count("no key breaks it"), self.failures()), (0, 5, []))
        self.change('"orders.#"', '"orders.*.#"')
        status, out, _ = self.alone()
        self.assertEqual((status, self.failures()), (1, ["every `orders.#` of `shop` reaches `audit`"]))
        self.assertIn("NO: `orders` goes to `lost` alone", out)

    def test_what_cannot_be_told(self):
        """A change that may break a guarantee, an answer that is no export, and words that are missing."""
        with open(self.path("export.json"), encoding="utf-8") as file:
            value = json.load(file)
        value["queues"].append({"name": "session", "durable": True, "auto_delete": True, "arguments": {}})
        value["bindings"].append({"source": "shop", "destination": "session", "destination_type": "queue", "routing_key": "orders.*", "arguments": {}})
        for it, wanted in ((value, 1), ({"error": "not_authorised"}, 3)):
            with open(self.path("export.json"), "w", encoding="utf-8") as file:
                json.dump(it, file)
            self.assertEqual(self.alone()[0], wanted)
        self.assertEqual(self.run_command("./alone", "export.json")[0], 3)

    def test_the_workflow(self):
        """Each of its commands runs, and the last one fails once a binding is changed."""
        with open(os.path.join(CI, "workflow.yml"), encoding="utf-8") as file:
            text = file.read()
        self.assertLessEqual(len(text.splitlines()), 10)
        commands = re.findall(r"^      - run: (.*)$", text, re.MULTILINE)
        self.assertEqual(len(commands), 2)
        self.assertEqual([self.run_command("sh", "-c", it)[0] for it in commands], [0, 0])
        self.change('"orders.#"', '"orders.*.#"')
        self.assertEqual([self.run_command("sh", "-c", it)[0] for it in commands], [0, 1])


if __name__ == "__main__":
    unittest.main()
