"""The tests of promise, which want Python 3 alone: python3 -m dev.unit test_promise

Each name on the page is changed in turn, and then what it names; each time the script has to say so.
"""

import os
import re
import shutil
import subprocess
import sys
import tempfile
import unittest

from dev import ROOT
from dev.checks import promise

PAGE = "docs/PROMISE.md"
CRATES = ["model", "broker", "commands", "laws", "engine", "serving", "certificate_laws", "certificate", "guarantee_search"]
PARTS = [PAGE] + [f"crates/{crate}/{part}" for crate in CRATES for part in ("specs", "src") if os.path.isdir(os.path.join(ROOT, f"crates/{crate}/{part}"))]


def run(root):
    done = subprocess.run([sys.executable, "-m", "dev.checks.promise", root], capture_output=True, text=True)
    return done.returncode, done.stdout + done.stderr


class Promise(unittest.TestCase):
    def setUp(self):
        self.work = tempfile.TemporaryDirectory()
        self.root = self.work.name
        edits = [f"crates/{it}/must-fail" for it in os.listdir(os.path.join(ROOT, "crates"))]
        for part in PARTS + [it for it in edits if os.path.isdir(os.path.join(ROOT, it))]:
            to = os.path.join(self.root, part)
            os.makedirs(os.path.dirname(to), exist_ok=True)
            (shutil.copytree if os.path.isdir(os.path.join(ROOT, part)) else shutil.copy)(os.path.join(ROOT, part), to)

    def tearDown(self):
        self.work.cleanup()

    def change(self, name, old, new, count=1):
        path = os.path.join(self.root, name)
        with open(path, encoding="utf-8") as file:
            before = file.read()
        after = before.replace(old, new, count)
        self.assertNotEqual(before, after, (name, old))
        with open(path, "w", encoding="utf-8") as file:
            file.write(after)
        return before

    def restore(self, name, text):
        with open(os.path.join(self.root, name), "w", encoding="utf-8") as file:
            file.write(text)

    def refused(self, what):
        status, said = run(self.root)
        self.assertEqual(status, 1, what)
        self.assertNotIn("Traceback", said)

    def test_the_page_is_right(self):
        self.assertEqual(run(self.root)[0], 0, run(self.root)[1])

    def test_each_name_of_the_page_counts(self):
        with open(os.path.join(self.root, PAGE), encoding="utf-8") as file:
            text = file.read()
        sources = promise.Sources(self.root)
        rows = [line for line in text.splitlines() if line.startswith("|") and "`" in line]
        self.assertGreater(len(rows), 30)
        for row in rows:
            cells = row.strip("|").split("|")
            for name in re.findall(r"`([^`]+)`", "|".join(cells if len(cells) == 3 else cells[1:])):
                with self.subTest(name):
                    sources.texts[PAGE] = text.replace(row, row.replace(f"`{name}`", f"`{name}s`", 1))
                    self.assertNotEqual(promise.Page(sources).check(), [])
        sources.texts[PAGE] = text
        self.assertEqual(promise.Page(sources).check(), [])

    def test_what_is_named_counts(self):
        changes = [
            ("crates/model/specs/Headline.antt", "pub order :", "pub ordered :"),
            ("crates/model/specs/Headline.antt", "  pub order :", "  pub further : IsSound\n  pub order :"),
            ("crates/model/specs/Headline.antt", "AllByRecursion SettlesAsAsked", "AllByRecursion NoneIsForgotten"),
            ("crates/model/specs/Settled.antt", "SettlesAsAsked", "SettlesAtAll"),
            ("crates/laws/src/lib.rt", "pub fn rejected_messages_go_on", "pub fn rejected_messages_may_go_on"),
            ("crates/laws/src/lib.rt", "ensures { AckedEnterOnce }", "ensures { CausesAreShown }"),
            ("crates/laws/src/lib.rt", "ensures accounts { AccountsRefuse }", ""),
            ("crates/laws/specs/Accounts.antt", "pub purge_leaves_one :", "pub purge_leaves_two :"),
            ("crates/engine/src/machines.rt", "CertifiedDelivery (in_force", "IsSound (in_force"),
            ("crates/engine/specs/Pumping.antt", "pub promises : KeepsEvents", "pub promises : AreSaid"),
        ]
        for name, old, new in changes:
            with self.subTest(old):
                before = self.change(name, old, new, -1)
                self.refused(old)
                self.restore(name, before)
        self.assertEqual(run(self.root)[0], 0)

    def test_edits_count(self):
        os.remove(os.path.join(self.root, "crates/queue/must-fail/delivers_newest.edit"))
        self.refused("delivers_newest")

    def test_a_row_that_is_gone(self):
        with open(os.path.join(self.root, PAGE), encoding="utf-8") as file:
            lines = file.read().splitlines(keepends=True)
        self.restore(PAGE, "".join(it for it in lines if "KeepsPromises.purges" not in it))
        self.refused("purges")

    def test_no_page(self):
        os.remove(os.path.join(self.root, PAGE))
        self.refused("page")


if __name__ == "__main__":
    unittest.main()
