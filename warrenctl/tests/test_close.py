"""The tests of close and open, which want Python 3 alone: python3 -m dev.unit test_close"""

import json
import os
import stat
import subprocess
import tempfile
import unittest

from dev import SHOP
from dev.beds.commands import warrenctl
from warrenctl.files.causes import causes_in
from warrenctl.files.closing import MARK
from warrenctl.tests.fake import Broker, Queue

LOGIN = {**os.environ, "WARREN_PASSWORD": "till"}


def run(command, *words):
    done = subprocess.run([*warrenctl(command), *words], capture_output=True, text=True, env=LOGIN, stdin=subprocess.DEVNULL, timeout=120)
    return done.returncode, done.stdout, done.stderr


class InForce:
    """The exchanges of a broker that has read a definitions file."""

    def __init__(self, file):
        self.file = file

    def __contains__(self, name):
        with open(self.file, encoding="utf-8") as file:
            return name in [it["name"] for it in json.load(file)["exchanges"]]


class Closes(unittest.TestCase):
    def setUp(self):
        folder = tempfile.TemporaryDirectory()
        self.addCleanup(folder.cleanup)
        self.file = os.path.join(folder.name, "definitions.json")
        with open(os.path.join(SHOP, "definitions.json"), encoding="utf-8") as file:
            self.before = json.load(file)

    def put(self, **how):
        with open(self.file, "w", encoding="utf-8") as file:
            json.dump(self.before, file, **how)

    def value(self):
        with open(self.file, encoding="utf-8") as file:
            return json.load(file)

    def open_ones(self):
        return [it["name"] for it in self.value()["exchanges"] if not it["internal"]]

    def test_any_layout(self):
        for how in ({"separators": (",", ":")}, {}, {"indent": 4}, {"indent": 0, "separators": (" ,", " : ")}):
            with self.subTest(how):
                self.put(**how)
                status, out, said = run("close", self.file)
                told = f"close: every exchange of {self.file} is closed to publishers (3 were open); whether that is in force was not asked (--look)\n"
                self.assertEqual((status, out, said), (0, "", told))
                self.assertEqual((self.open_ones(), causes_in(self.value())), ([], []))
                status, out, said = run("open", self.file)
                self.assertEqual((status, out), (0, ""))
                self.assertTrue(said.startswith(f"open: 3 exchanges of {self.file} are open to publishers again; "), said)
                self.assertEqual(self.value(), self.before)

    def test_owner_and_mode_stay(self):
        self.put()
        os.chmod(self.file, 0o640)
        if os.geteuid() == 0:
            os.chown(self.file, 12, 34)
        before = os.stat(self.file)
        for command in ("close", "open"):
            self.assertEqual(run(command, self.file)[0], 0)
            after = os.stat(self.file)
            self.assertEqual((after.st_uid, after.st_gid, stat.S_IMODE(after.st_mode)), (before.st_uid, before.st_gid, 0o640))

    def test_twice(self):
        """A file that is closed again, with an exchange more, is opened as it was before."""
        self.put()
        self.assertEqual(run("close", self.file)[0], 0)
        value = self.value()
        more = {**self.before["exchanges"][0], "name": "more"}
        value["exchanges"].append(more)
        with open(self.file, "w", encoding="utf-8") as file:
            json.dump(value, file)
        self.assertIn("(1 were open)", run("close", self.file)[2])
        closed = self.value()
        self.assertEqual(len([it for it in closed["exchanges"] if MARK.fullmatch(it["name"])]), 1)
        self.assertIn("(0 were open)", run("close", self.file)[2])
        self.assertEqual(run("open", self.file)[0], 0)
        self.assertEqual(self.value(), {**self.before, "exchanges": [*self.before["exchanges"], more]})

    def test_a_broker_is_asked(self):
        self.put()
        with Broker({"audit": Queue()}, InForce(self.file)) as server:
            look = ["--look", f"till@127.0.0.1:{server.port}"]
            status, _, said = run("close", self.file, *look)
            self.assertEqual(status, 0, said)
            self.assertRegex(said, r"^close: .* \(3 were open\), which is in force after 0\.\d seconds\n$")
            status, _, said = run("open", self.file, *look)
            self.assertEqual((status, said.count("\n"), ", which is in force after " in said), (0, 1, True), said)

    def test_a_broker_that_has_it_not(self):
        self.put()
        with Broker({}, {"shop": {}}) as server:
            status, _, said = run("close", self.file, "--look", f"till@127.0.0.1:{server.port}", "--seconds", "0.3")
        self.assertEqual((status, said.count("\n")), (1, 1))
        self.assertIn("which is not in force after 0.3 seconds; the broker's standard error says why", said)
        self.assertEqual(self.open_ones(), [])

    def test_what_is_wrong_is_one_line(self):
        self.put()
        for words in (["open", self.file], ["close", "/nowhere"], ["close"], ["close", self.file, "--look", "till@127.0.0.1:1"], ["close", self.file, "--seconds", "x"]):
            status, out, said = run(*words)
            self.assertEqual((status, out, said.count("\n"), self.value()), (3, "", 1, self.before), words)
        for members in ({"internal": "no"}, {"name": 7}):
            value = {**self.before, "exchanges": [{**self.before["exchanges"][0], **members}]}
            with open(self.file, "w", encoding="utf-8") as file:
                json.dump(value, file)
            self.assertEqual((run("close", self.file)[0], self.value()), (3, value))

    def test_a_file_without_room_for_the_mark(self):
        self.before["exchanges"] += [{**self.before["exchanges"][0], "name": f"x{it}"} for it in range(251)]
        self.put()
        self.assertEqual(run("close", self.file), (3, "", f"close: {self.file}: with the mark there are 257 exchanges; 256 are the most\n"))
        self.assertEqual(self.value(), self.before)


if __name__ == "__main__":
    unittest.main()
