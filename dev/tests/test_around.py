"""The tests of dev/around, without a RabbitMQ and without a program: python3 -m dev.unit test_around"""

import os
import subprocess
import sys
import tempfile
import unittest

from dev import ROOT, archive, around
from dev.beds import one_file

# a module of the folder that says where warrenctl's parts are from
FROM = """import sys
import warrenctl
from warrenctl.amqp import client
from warrenctl.tests import topologies
print(warrenctl.__file__, client.__file__, topologies.__file__, *sys.argv[1:], sep="\\n")
"""


class Folder(unittest.TestCase):
    def setUp(self):
        place = tempfile.TemporaryDirectory()
        self.addCleanup(place.cleanup)
        self.folder, self.file = os.path.join(place.name, "bed"), os.path.join(place.name, "warrenctl")
        archive.make(self.file, "/usr/bin/env python3")
        one_file.lay_out(self.folder)

    def run_here(self, *command):
        done = subprocess.run(command, cwd=self.folder, env=one_file.environment(self.file), capture_output=True, text=True, timeout=120)
        self.assertEqual((done.returncode, done.stderr), (0, ""))
        return done.stdout

    def test_where_warrenctl_is_from(self):
        self.assertFalse(os.path.exists(os.path.join(self.folder, "warrenctl")))
        with open(os.path.join(self.folder, "where.py"), "w", encoding="utf-8") as file:
            file.write(FROM)
        package, module, test, *words = self.run_here(*one_file.command("where", "a word")).splitlines()
        self.assertEqual((package, module), (f"{self.file}/warrenctl/__init__.py", f"{self.file}/warrenctl/amqp/client.py"))
        self.assertEqual((test, words), (f"{self.folder}/{one_file.TESTS}/tests/topologies.py", ["a word"]))

    def test_all_that_a_part_imports_is_there(self):
        listed = [it for lists in (around.MODULES, around.ALONE) for modules in lists.values() for it in modules]
        lines = "\n".join(f"import {it}" for it in listed)
        self.assertEqual(self.run_here(sys.executable, "-c", f"import warrenctl; warrenctl.__path__.append({one_file.TESTS!r})\n{lines}"), "")

    def test_commands(self):
        script, module = around.commands("deploy", "/warren", "/bed")
        self.assertEqual((script, module[-2:]), (["/bed/examples/deploy/run", "/warren"], ["examples.deploy.ends", "/warren"]))
        self.assertEqual([it[-2:] for it in around.commands("agree", "/warren", "/bed")], [["dev.agree", "/warren"]])
        self.assertEqual([it[-1] for it in around.commands("exports", "/warren", "/bed")], around.ALONE["exports"])

    def test_what_is_refused(self):
        for words, why in (([self.folder], "is no program"), ([self.file, "nothing"], "there is no part nothing")):
            done = subprocess.run([sys.executable, "-m", "dev.around", "/bin/true", *words], cwd=ROOT, capture_output=True, text=True)
            self.assertEqual((done.returncode, done.stdout, len(done.stderr.splitlines())), (3, "", 1))
            self.assertIn(why, done.stderr)


if __name__ == "__main__":
    unittest.main()
