"""The tests of reload, which want Python 3 alone: python3 -m dev.unit test_reload

The program is a script that answers as `warren check` and `warren verify` do, and the broker has what the files of the link say, a moment later.
"""

import json
import os
import stat
import subprocess
import tempfile
import threading
import unittest

from dev.beds.commands import warrenctl
from warrenctl.commands.reload.folders import swap
from warrenctl.tests.fake import Broker, Queue

LOGIN = {**os.environ, "WARREN_PASSWORD": "till"}
# it ends with the status that the guarantees file has; `check` writes certificates if that is 0, and `verify` wants them
PROGRAM = """#!/bin/sh
echo "$1 ${2##*/} ${3##*/}${4:+ ${4##*/}}${5:+ ${5##*/}}" >> "$0.asked"
read -r text < "$3"
status=${text#*: }
status=${status%?}
case $1$status in
    check0) printf '[]' > "$5"; echo "1 yes states 5" ;;
    check1) echo '1 no key "orders"' ;;
    check2) echo "1 undecided states" ;;
    check3) echo "warren: $3: refused 5" >&2 ;;
    verify0) [ "$(cat "$4")" = "[]" ] || status=1 ;;
esac
exit "$status"
"""


def definitions(exchanges, queues):
    return {"exchanges": [{"name": it} for it in exchanges], "queues": [{"name": it} for it in queues]}


class Following(Broker):
    """A broker that has what the definitions file in a folder says, a moment after that has changed."""

    def __init__(self, folder, delay=0.2):
        super().__init__({}, {})
        self.file, self.delay, self.now = os.path.join(folder, "definitions.json"), delay, None
        self.load()

    def load(self):
        with open(self.file, encoding="utf-8") as file:
            value = json.load(file)
        self.now = os.path.realpath(self.file)
        self.exchanges = {it["name"]: {} for it in value["exchanges"]}
        self.queues = {it["name"]: Queue() for it in value["queues"]}

    def answer(self, connection, incoming):
        over = threading.Event()

        def follow():
            while not over.wait(0.05):
                if self.delay is not None and os.path.realpath(self.file) != self.now:
                    over.wait(self.delay)
                    self.load()

        self.begin(follow)
        try:
            super().answer(connection, incoming)
        finally:
            over.set()


class Reloads(unittest.TestCase):
    def setUp(self):
        folder = tempfile.TemporaryDirectory()
        self.addCleanup(folder.cleanup)
        self.top, self.link = folder.name, os.path.join(folder.name, "current")
        self.program = os.path.join(self.top, "program")
        with open(self.program, "w", encoding="utf-8") as file:
            file.write(PROGRAM)
        os.chmod(self.program, 0o755)
        self.old = self.folder("old", definitions(["shop"], ["audit"]))
        os.symlink("old", self.link)

    def folder(self, name, value, status=0):
        path = os.path.join(self.top, name)
        os.mkdir(path)
        for file, it in (("definitions.json", value), ("guarantees.json", {"status": status})):
            with open(os.path.join(path, file), "w", encoding="utf-8") as target:
                json.dump(it, target)
        return path

    def run_tool(self, *words, env=LOGIN):
        words = [*warrenctl("reload"), self.link, *words, "--warren", self.program]
        done = subprocess.run(words, capture_output=True, text=True, timeout=120, env=env, stdin=subprocess.DEVNULL)
        self.assertEqual((done.stderr[:8], done.stderr.count("\n")), ("reload: ", 1), done.stderr)
        return done.returncode, done.stdout, done.stderr[8:].rstrip("\n").replace(self.top + "/", "")

    def look(self, server, new, *words):
        return self.run_tool(new, "--look", f"till@127.0.0.1:{server.port}", *words)

    def leads_to(self):
        return os.readlink(self.link)

    def asked(self):
        with open(self.program + ".asked", encoding="utf-8") as file:
            return file.read().splitlines()

    def test_the_broker_can_read_what_is_made(self):
        """Under umask 077, and as root of a broker that runs as another user: certificates are as readable as those in force, else as the definitions."""
        for like, mode in (("definitions.json", 0o644), ("certificates.json", 0o640)):
            name = os.path.join(self.old, like)
            with open(name, "a", encoding="utf-8"):
                pass
            os.chmod(name, mode)
            if os.geteuid() == 0:
                os.chown(name, 12, 34)
            wanted, new = os.stat(name), self.folder(f"new of {like}", definitions(["shop"], []))
            words = [*warrenctl("reload"), self.link, new, "--warren", self.program]
            done = subprocess.run(words, capture_output=True, text=True, preexec_fn=lambda: os.umask(0o077))
            self.assertEqual(done.returncode, 0, done.stderr)
            made = os.stat(os.path.join(new, "certificates.json"))
            self.assertEqual((made.st_uid, made.st_gid, stat.S_IMODE(made.st_mode)), (wanted.st_uid, wanted.st_gid, mode))
            swap(self.link, self.old)

    def test_certificates_that_are_there_keep_owner_and_mode(self):
        new = self.folder("new", definitions(["shop"], []))
        name = os.path.join(new, "certificates.json")
        with open(name, "w", encoding="utf-8") as file:
            file.write("old")
        os.chmod(name, 0o604)
        self.assertEqual(self.run_tool(new)[0], 0)
        with open(name, encoding="utf-8") as file:
            self.assertEqual((file.read(), stat.S_IMODE(os.stat(name).st_mode)), ("[]", 0o604))

    def test_a_name_that_came_and_one_that_went(self):
        rows = [(["shop", "news"], ["audit"], 'the exchange "news"'), (["shop"], ["audit", "mail"], 'the queue "mail"')]
        rows += [(["shop"], [], 'no longer the queue "audit"')]
        for place, (exchanges, queues, said) in enumerate(rows):
            new = self.folder(f"new{place}", definitions(exchanges, queues))
            with Following(self.link) as server:
                status, out, told = self.look(server, new)
            self.assertEqual((status, out), (0, ""))
            self.assertRegex(told, f"^new{place} is in force: after [0-9.]+ seconds the broker has {said}$")
            self.assertEqual(self.leads_to(), f"new{place}")
            os.unlink(self.link)
            os.symlink("old", self.link)
        files = "definitions.json guarantees.json"
        self.assertEqual(self.asked()[:2], [f"check {files} --out certificates.json", f"verify {files} certificates.json"])
        self.assertEqual(sorted(os.listdir(self.top)), ["current", "new0", "new1", "new2", "old", "program", "program.asked"])

    def test_nobody_is_asked(self):
        new = self.folder("new", definitions([], []))
        self.assertEqual(self.run_tool(new), (0, "", "current leads to new; whether it is in force was not asked"))
        self.assertEqual(self.leads_to(), "new")
        with tempfile.TemporaryDirectory() as elsewhere:
            self.assertEqual(self.run_tool(self.old)[0], 0)
            os.rename(new, elsewhere + "/far")
            self.assertEqual(self.run_tool(elsewhere + "/far")[0], 0)
            self.assertEqual(self.leads_to(), elsewhere + "/far")

    def test_the_link_always_leads_somewhere(self):
        new, over, missed = self.folder("new", definitions([], [])), threading.Event(), []

        def read():
            while not over.is_set():
                if not os.path.exists(self.link + "/definitions.json"):
                    missed.append(1)

        reader = threading.Thread(target=read)
        reader.start()
        for it in (self.old, new) * 300:
            swap(self.link, it)
        over.set()
        reader.join()
        self.assertEqual(missed, [])

    def test_guarantees_that_do_not_hold(self):
        rows = [(1, '1 no key "orders"\n', "a guarantee does not hold, or a certificate has a fault")]
        rows += [(2, "1 undecided states\n", "a guarantee is undecided"), (3, "", "warren: new3/guarantees.json: refused 5")]
        for status, shown, said in rows:
            new = self.folder(f"new{status}", definitions([], []), status)
            self.assertEqual(self.run_tool(new), (3, shown, f"nothing was changed: check ended with {status}: {said}"))
            self.assertEqual(self.leads_to(), "old")

    def test_it_is_not_in_force(self):
        """The link is put back, unless it is to be left."""
        new = self.folder("new", definitions(["shop", "news"], ["audit"]))
        kept = os.path.join(self.top, "kept")
        os.mkdir(kept)
        why = "after 0.5 seconds; the broker's standard error says why"
        with Following(self.link, delay=None) as server:
            told = f"new is not in force {why}; current leads to old again"
            self.assertEqual(self.look(server, new, "--seconds", "0.5", "--kept", kept), (3, "", told))
            self.assertEqual(self.leads_to(), "old")
            told = f"current leads to new, which is not in force {why}, and `reload current old` goes back"
            self.assertEqual(self.look(server, new, "--seconds", "0.5", "--leave"), (1, "", told))
        self.assertEqual((self.leads_to(), os.listdir(kept)), ("new", []))

    def test_a_copy_of_what_is_in_force(self):
        """It is for the owner of its folder, whoever runs this, and in the place of the one before."""
        kept = os.path.join(self.top, "kept")
        os.makedirs(os.path.join(kept, "last"))
        owner = (12, 34) if os.geteuid() == 0 else (os.getuid(), os.getgid())
        for it in (self.top, kept, os.path.join(kept, "last")):
            os.chown(it, *owner)
        new = self.folder("new", definitions(["shop", "news"], ["audit"]))
        with Following(self.link) as server:
            self.assertEqual(self.look(server, new, "--kept", kept)[0], 0)
        made = os.path.join(kept, "last")
        self.assertEqual((os.listdir(kept), sorted(os.listdir(made))), (["last"], ["certificates.json", "definitions.json", "guarantees.json"]))
        for name, mode in ((made, 0o700), *((os.path.join(made, it), 0o600) for it in os.listdir(made))):
            status = os.stat(name)
            self.assertEqual((status.st_uid, status.st_gid, stat.S_IMODE(status.st_mode)), (*owner, mode), name)
        with open(os.path.join(made, "definitions.json"), encoding="utf-8") as file:
            self.assertEqual(json.load(file), definitions(["shop", "news"], ["audit"]))

    def test_another_broker(self):
        new = self.folder("new", definitions(["shop", "news"], ["audit"]))
        with Following(new) as server:
            told = 'the broker has the exchange "news" before anything was changed: its files are not those of current'
            self.assertEqual(self.look(server, new), (3, "", told))
        self.assertIn("Connection refused", self.look(server, new)[2])
        self.assertEqual(self.leads_to(), "old")

    def test_a_broker_that_ends_meanwhile(self):
        new = self.folder("new", definitions(["shop", "news"], ["audit"]))
        with Broker({}, {"shop": {}}, methods=8) as server:
            told = 'current leads to new; whether it is in force is not known: exchange "news": the server ended the connection'
            self.assertEqual(self.look(server, new), (1, "", told))

    def test_the_same_names(self):
        new = self.folder("new", definitions(["shop"], ["audit"]))
        with Following(self.link) as server:
            told = "current leads to new; no queue and no exchange came or went, so the broker can't be asked whether it is in force; --mark makes it so"
            self.assertEqual(self.look(server, new), (1, "", told))

    def test_marks(self):
        """Each time the mark is another one, and the one of before is gone; an exchange of a user's own stays."""
        marks = []
        with Following(self.link) as server:
            for place, queues in enumerate((["audit"], ["audit"], ["mail"])):
                exchanges = ["shop", "reload.mine", *marks[-1:]]
                new = self.folder(f"new{place}", definitions(exchanges, queues))
                status, _, told = self.look(server, new, "--mark")
                with open(new + "/definitions.json", encoding="utf-8") as file:
                    made = json.load(file)["exchanges"]
                marks.append(made[-1]["name"])
                self.assertEqual([it["name"] for it in made], ["shop", "reload.mine", marks[-1]])
                self.assertEqual((made[-1]["type"], made[-1]["internal"]), ("fanout", True))
                self.assertEqual(status, 1 if place == 1 else 0, told)
                self.assertEqual(told.endswith("asked whether it is in force; the files are as before"), place == 1, told)
        self.assertEqual(marks[0], marks[1], "the same files have the same mark")
        self.assertNotEqual(marks[1], marks[2])

    def test_what_is_wrong_is_one_line(self):
        new = self.folder("new", definitions([], []))

        def refused(*words):
            status, out, said = self.run_tool(*words)
            self.assertEqual((status, out, self.leads_to() if os.path.islink(self.link) else "old"), (3, "", "old"))
            return said

        self.assertEqual(refused(self.old), "current leads to old already; copy the folder, and change the copy")
        self.assertEqual(refused(self.top + "/nowhere"), "nowhere is no folder")
        self.assertEqual(refused(new, "--look", "127.0.0.1"), "127.0.0.1: a user and a host are required, as in till@127.0.0.1:5672")
        self.assertIn("--seconds", refused(new, "--seconds", "nan"))
        self.assertIn("--kept needs --look", refused(new, "--kept", self.top))
        self.assertEqual(refused(new, "--kept", self.top + "/nowhere", "--look", "till@127.0.0.1:1"), "nowhere is no folder")
        os.rename(self.program, self.program + ".away")
        self.assertEqual(refused(new), "program: No such file or directory")
        os.rename(self.program + ".away", self.program)
        with open(self.old + "/definitions.json", "w", encoding="utf-8") as file:
            file.write("{")
        self.assertEqual(refused(new, "--look", "till@127.0.0.1:1"), "old/definitions.json is not JSON")
        with open(new + "/definitions.json", "w", encoding="utf-8") as file:
            file.write('{"exchanges":7}')
        self.assertEqual(refused(new, "--mark"), "new/definitions.json is no definitions file: it has no exchanges")
        os.unlink(new + "/guarantees.json")
        self.assertEqual(refused(new), "new/guarantees.json is not there")
        os.unlink(self.link)
        self.assertEqual(refused(new), "current is not there; make the link to the folder in force by ln -s")
        os.mkdir(self.link)
        self.assertEqual(refused(new), "current is no link; move it to another name, and make the link by ln -s")


if __name__ == "__main__":
    unittest.main()
