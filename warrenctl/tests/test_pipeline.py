"""The tests of examples/ci/check, which want Python 3 alone: python3 -m dev.unit test_pipeline

A build is red exactly if its report has a failure or an error, whatever is wrong.
"""

import json
import os
import signal
import subprocess
import tempfile
import unittest
import xml.etree.ElementTree as tree

from dev import ROOT
from warrenctl.cli.junit import ERROR, FAILURE, Case, cases_in, report
from warrenctl.fault import Fault
from warrenctl.tests.stays import export, queue

CHECK = os.path.join(ROOT, "examples/ci/check")
GOOD = export(queues=[queue("audit")])
GUARANTEE = {"mode": "reaches", "exchange": "", "pattern": "audit", "queue": "audit"}
GUARANTEES = {"guarantees": [GUARANTEE]}
YES = "echo '1 yes states 3'"


class Builds(unittest.TestCase):
    def setUp(self):
        folder = tempfile.TemporaryDirectory()
        self.addCleanup(folder.cleanup)
        self.folder, self.report = folder.name, os.path.join(folder.name, "report.xml")

    def put(self, name, value, mode=0o644):
        path = os.path.join(self.folder, name)
        with open(path, "w", encoding="utf-8") as file:
            file.write(value if isinstance(value, str) else json.dumps(value))
        os.chmod(path, mode)
        return path

    def command(self, export_, guarantees, lines, *words):
        program = self.put("program", f"#!/bin/sh\n{lines}\n", 0o755)
        env = {**{it: value for it, value in os.environ.items() if it != "WARRENCTL"}, "WARREN": program}
        return {"args": [CHECK, self.put("export.json", export_), self.put("guarantees.json", guarantees), self.report, *words], "env": env}

    def built(self, *given, stdout=subprocess.PIPE):
        """The status, the report's failures and errors, and what was said."""
        done = subprocess.run(**self.command(*given), stdout=stdout, stderr=subprocess.PIPE, text=True, timeout=120)
        self.assertNotIn("Traceback", done.stderr)
        return done.returncode, self.wrong(), done.stderr

    def wrong(self):
        suite = tree.parse(self.report).getroot()
        found = [it.get("name") for it in suite.iter("testcase") if len(it)]
        self.assertEqual(int(suite.get("failures")) + int(suite.get("errors")), len(found))
        return found

    def test_a_good_build(self):
        status, wrong, said = self.built(GOOD, GUARANTEES, YES)
        self.assertEqual((status, wrong), (0, []), said)
        self.assertEqual(len(cases_in(self.report)), 2)

    def test_bad_builds(self):
        no = "echo '1 no key \"audit\"'; exit 1"
        for what, status, *given in (
            ("a queue that goes by itself", 1, export(queues=[queue("audit", auto_delete=True)]), GUARANTEES, YES),
            ("a queue that a restart removes", 1, export(queues=[queue("audit", durable=False)]), GUARANTEES, YES),
            ("a queue that goes, and a guarantee that is undecided", 1, export(queues=[queue("audit", auto_delete=True)]), GUARANTEES, "echo '1 undecided key'; exit 2"),
            ("no export", 3, {"error": "not_authorised", "reason": "Login failed"}, GUARANTEES, YES),
            ("an empty file, as a refused curl leaves", 3, "", GUARANTEES, YES),
            ("an export that is cut off", 3, json.dumps(GOOD)[:-40], GUARANTEES, YES),
            ("a virtual host that is not there", 3, GOOD, GUARANTEES, YES, "--vhost", "other"),
            ("a word that is none", 3, GOOD, GUARANTEES, YES, "--no-such-word"),
            ("guarantees that are not JSON", 1, GOOD, "{", YES),
            ("guarantees that are refused", 1, GOOD, {"guarantees": [{**GUARANTEE, "queue": "gone"}]}, YES),
            ("a guarantee that is broken", 1, GOOD, {"guarantees": [{**GUARANTEE, "mode": "never"}]}, "echo '1 no key \"audit\" path \"\" \"audit\"'; exit 1"),
            ("a guarantee that is undecided", 2, GOOD, GUARANTEES, "echo '1 undecided key'; exit 2"),
            ("verdicts of other files", 2, GOOD, GUARANTEES, no),
            ("a program that is killed", 3, GOOD, GUARANTEES, "kill -9 $$"),
            ("a program that says nothing", 3, GOOD, GUARANTEES, "exit 0"),
            ("a program that fails", 3, GOOD, GUARANTEES, "echo warren: memory >&2; exit 4"),
        ):
            with self.subTest(what):
                found, wrong, said = self.built(*given)
                self.assertEqual((found, bool(wrong)), (status, True), said)
                os.unlink(self.report)

    def test_output_that_nobody_takes(self):
        read, write = os.pipe()
        os.close(read)
        self.addCleanup(os.close, write)
        with open("/dev/full", "w", encoding="utf-8") as full:
            for output in (write, full):
                status, wrong, said = self.built(GOOD, GUARANTEES, YES, stdout=output)
                self.assertEqual((status, bool(wrong)), (3, True), said)

    def test_a_build_that_is_ended(self):
        """The report of an earlier build is gone, and that of this one is red."""
        self.assertEqual(self.built(GOOD, GUARANTEES, YES)[0], 0)
        running = subprocess.Popen(**self.command(GOOD, GUARANTEES, f"echo begun > {self.folder}/begun; exec sleep 60"), stderr=subprocess.DEVNULL, start_new_session=True)
        while not os.path.exists(os.path.join(self.folder, "begun")):
            self.assertIsNone(running.poll())
        os.killpg(running.pid, signal.SIGKILL)
        running.wait(60)
        self.assertEqual(self.wrong(), ["this came to an end"])


class Reports(unittest.TestCase):
    def test_cases_are_read_as_they_were_written(self):
        cases = [Case("a", "one"), Case("a", "two", FAILURE, "broken", "`x` goes <nowhere> & \"back\""), Case("b", "three", ERROR, "failed", "no")]
        with tempfile.NamedTemporaryFile() as file:
            file.write(report("a", cases))
            file.flush()
            self.assertEqual(cases_in(file.name), cases)
            for text in (b"", b"{}", b"<a><testcase/></a>"):
                file.seek(0)
                file.truncate()
                file.write(text)
                file.flush()
                self.assertRaises(Fault, cases_in, file.name)


if __name__ == "__main__":
    unittest.main()
