"""The tests of user, which want Python 3 alone: python3 -m dev.unit test_user

The hashes are RabbitMQ's own example (its guide on passwords) and that of the shop's user.
"""

import base64
import hashlib
import json
import os
import pty
import stat
import subprocess
import sys
import tempfile
import unittest

from dev import SHOP
from dev.beds.commands import warrenctl
from warrenctl.commands.user.entries import hash_of

DEFINITIONS = os.path.join(SHOP, "definitions.json")
def run(*words, given=b"secret\n"):
    done = subprocess.run([*warrenctl("user"), *words], input=given, capture_output=True, timeout=120)
    return done.returncode, done.stdout.decode(), done.stderr.decode()


def is_of(entry, password):
    """Whether this is a hash of the password."""
    data = base64.b64decode(entry["password_hash"], validate=True)
    return len(data) == 36 and data[4:] == hashlib.sha256(data[:4] + password).digest()


class Entries(unittest.TestCase):
    def test_the_hash(self):
        self.assertEqual(hash_of(b"test12", bytes.fromhex("908dc60a")), "kI3GCqW5JLMJa4iX1lo7X4D6XbYqlLgxIs30+P6tENUV2POR")
        with open(DEFINITIONS, encoding="utf-8") as file:
            self.assertEqual(hash_of(b"till", b"abcd"), json.load(file)["users"][0]["password_hash"])

    def test_they_are_printed(self):
        status, out, said = run("robot")
        made = json.loads(out)
        self.assertEqual((status, said), (0, ""))
        self.assertEqual(made["permissions"], [{"user": "robot", "vhost": "/", "configure": "^$", "write": ".*", "read": ".*"}])
        (user,) = made["users"]
        self.assertEqual((user["name"], user["hashing_algorithm"]), ("robot", "rabbit_password_hashing_sha256"))
        self.assertTrue(is_of(user, b"secret"))
        self.assertNotEqual(run("robot")[1], out, "each has its own salt")


class Files(unittest.TestCase):
    def setUp(self):
        folder = tempfile.TemporaryDirectory()
        self.addCleanup(folder.cleanup)
        self.folder, self.file = folder.name, os.path.join(folder.name, "definitions.json")
        with open(DEFINITIONS, "rb") as source, open(self.file, "wb") as target:
            target.write(source.read())
        os.chmod(self.file, 0o640)
        self.before = self.value()

    def value(self):
        with open(self.file, encoding="utf-8") as file:
            return json.load(file)

    def test_a_user_is_added(self):
        self.assertEqual(run("robot", self.file), (0, "", f'user: "robot" is added in {self.file}\n'))
        value = self.value()
        self.assertEqual([it["name"] for it in value["users"]], ["till", "robot"])
        self.assertEqual([it["user"] for it in value["permissions"]], ["till", "robot"])
        self.assertTrue(is_of(value["users"][1], b"secret"))
        del value["users"][1], value["permissions"][1]
        self.assertEqual(value, self.before)
        self.assertEqual(stat.S_IMODE(os.stat(self.file).st_mode), 0o640)
        self.assertEqual(os.listdir(self.folder), ["definitions.json"])

    def test_a_password_is_changed(self):
        link = os.path.join(self.folder, "link")
        os.symlink("definitions.json", link)
        self.assertEqual(run("till", link)[2], f'user: "till" has a new password in {link}\n')
        value = self.value()
        self.assertTrue(is_of(value["users"][0], b"secret"))
        value["users"][0]["password_hash"] = self.before["users"][0]["password_hash"]
        self.assertEqual(value, self.before)
        self.assertTrue(os.path.islink(link))

    def test_users_are_listed_and_removed(self):
        run("robot", self.file)
        self.assertEqual(run("--list", self.file), (0, "till\nrobot\n", ""))
        self.assertEqual(run("robot", self.file, "--remove"), (0, "", f'user: "robot" is removed from {self.file}\n'))
        self.assertEqual(self.value(), self.before)
        self.assertEqual(stat.S_IMODE(os.stat(self.file).st_mode), 0o640)
        self.assertIn('has no user "robot"', self.refused("robot", self.file, "--remove"))
        for words in (("--list",), ("a", "--list", self.file), ("a", "--remove"), ("--remove",), ("--list", "/nowhere/file")):
            self.refused(*words)
        self.assertEqual(self.value(), self.before)

    def test_a_terminal_is_asked_twice(self):
        for again, wanted in ((b"secret\n", b"is added"), (b"Secret\n", b"these are two passwords")):
            child, terminal = pty.fork()
            if child == 0:
                os.execv(sys.executable, [*warrenctl("user"), "robot", self.file])
            shown = b""
            for prompt, typed in ((b"password of robot: ", b"secret\n"), (b"again: ", again)):
                while not shown.endswith(prompt):
                    shown += os.read(terminal, 1000)
                os.write(terminal, typed)
            try:
                while True:
                    shown += os.read(terminal, 1000)
            except OSError:
                os.waitpid(child, 0)
            os.close(terminal)
            self.assertIn(wanted, shown)
            self.assertNotIn(b"ecret", shown)

    def refused(self, *words, given=b"secret\n"):
        """What is said in the one line of a refusal."""
        status, out, said = run(*words, given=given)
        self.assertEqual((status, out, said[:6], said.count("\n")), (3, "", "user: ", 1), said)
        return said

    def test_words_and_passwords_that_are_wrong(self):
        for typed, said in ((b"\n", "0 bytes"), (b"", "0 bytes"), (b"x\0y\n", "no NUL"), (b"x" * 1025, "1025 bytes"), (b"\xff\n", "no UTF-8")):
            self.assertIn(said, self.refused("robot", self.file, given=typed))
        for name, said in (("", "0 bytes"), ("x" * 256, "256 bytes"), (b"\xff", "no UTF-8")):
            self.assertIn(said, self.refused(name, self.file))
        self.assertIn("required", self.refused())
        self.assertIn("unrecognized", self.refused("a", self.file, "c"))
        self.assertIn("/nowhere/file: No such file", self.refused("a", "/nowhere/file"))
        self.assertIn("irectory", self.refused("a", "/"))
        self.assertEqual(self.value(), self.before)

    def test_files_that_are_wrong(self):
        rows = [(it, "is not JSON") for it in (b"", b"{", b"\xff", b"[" * 100_000)]
        others = (b"[]", b"7", b"{}", b'{"users":[]}', b'{"users":[7],"permissions":[]}', b'{"users":{},"permissions":[]}')
        rows += [(it, "no definitions file") for it in others]
        rows += [(b'{"users":[],"permissions":[],"vhosts":"\\ud800"}', "no UTF-8")]
        for data, said in rows:
            with self.subTest(data[:50]):
                with open(self.file, "wb") as file:
                    file.write(data)
                self.assertIn(said, self.refused("a", self.file))
                with open(self.file, "rb") as file:
                    self.assertEqual(file.read(), data)
                self.assertEqual(os.listdir(self.folder), ["definitions.json"])


if __name__ == "__main__":
    unittest.main()
