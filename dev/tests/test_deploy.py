"""The tests of examples/deploy that need no broker: python3 -m dev.unit test_deploy

The program is a script: `verify` refuses a file that has the word `wrong`, and `serve` prints its words.
"""

import configparser
import json
import os
import re
import shutil
import socket
import subprocess
import tempfile
import unittest

from dev import ROOT

DEPLOY = os.path.join(ROOT, "examples/deploy")
NAMES = ("definitions.json", "guarantees.json", "certificates.json")
PROGRAM = """#!/bin/sh
word=$1
shift
[ "$word" = verify ] || { echo "$word $*"; ulimit -v; ulimit -c; exit; }
for it in "$@"; do
    ! grep -q wrong "$it" || { echo "warren: $it: refused 1" >&2; exit 3; }
done
echo "1 ok"
"""


def text_of(name):
    with open(os.path.join(DEPLOY, name), encoding="utf-8") as file:
        return file.read()


class Served(unittest.TestCase):
    def setUp(self):
        place = tempfile.TemporaryDirectory()
        self.addCleanup(place.cleanup)
        self.top = place.name
        self.program, self.kept, self.link = (os.path.join(self.top, it) for it in ("warren", "kept", "current"))
        with open(self.program, "w", encoding="utf-8") as file:
            file.write(PROGRAM)
        os.chmod(self.program, 0o755)
        os.mkdir(self.kept)
        os.mkdir(os.path.join(self.top, "first"))
        os.symlink("first", self.link)
        self.put("good")

    def put(self, text):
        """The three files in force have this text."""
        for it in NAMES:
            with open(os.path.join(self.link, it), "w", encoding="utf-8") as file:
                file.write(text)

    def run_files(self, *words):
        command = [os.path.join(DEPLOY, "files"), *words]
        return subprocess.Popen(command, env={**os.environ, "WARREN": self.program}, stdout=subprocess.PIPE, stderr=subprocess.PIPE, text=True)

    def serve(self):
        """Its status, the folder of the files that are served, and what was said."""
        with self.run_files("serve", self.link, self.kept, "--listen", "127.0.0.1:1") as running:
            out, said = running.communicate(timeout=60)
        word, *names = next(iter(out.splitlines()), "nothing").split()
        if word == "serve":
            self.assertEqual([os.path.basename(it) for it in names[:3]] + names[3:], [*NAMES, "--listen", "127.0.0.1:1"])
        return running.returncode, word == "serve" and os.path.dirname(names[0]).removeprefix(self.top + "/"), said.replace(self.top + "/", "")

    def in_copy(self):
        """What the copy has, and that nobody else reads it."""
        last = os.path.join(self.kept, "last")
        self.assertEqual({oct(os.stat(os.path.join(last, it)).st_mode & 0o777) for it in NAMES}, {"0o600"})
        found = set()
        for it in NAMES:
            with open(os.path.join(last, it), encoding="utf-8") as file:
                found.add(file.read())
        return found

    def test_files_that_are_accepted(self):
        for text in ("good", "good too"):
            self.put(text)
            self.assertEqual(self.serve(), (0, "current", ""))
            self.assertEqual((self.in_copy(), os.listdir(self.kept)), ({text}, ["last"]))

    def test_files_that_are_refused(self):
        self.assertEqual(self.serve()[0], 0)
        self.put("wrong")
        status, folder, said = self.serve()
        self.assertEqual((status, folder, self.in_copy()), (0, "kept/now", {"good"}))
        self.assertRegex(said, r"^warren: current/definitions.json: refused 1\nwarren's files: current is refused: starting on the files that were in force on [-0-9]+ [0-9:]+\n$")
        self.assertEqual(os.readlink(os.path.join(self.kept, "now")), "last")
        self.put("mended")
        self.assertEqual(self.serve(), (0, "current", ""))
        self.assertEqual((self.in_copy(), os.listdir(self.kept)), ({"mended"}, ["last"]))

    def test_files_that_are_gone(self):
        self.assertEqual(self.serve()[0], 0)
        os.unlink(os.path.join(self.link, NAMES[1]))
        status, folder, said = self.serve()
        self.assertEqual((status, folder), (0, "kept/now"))
        self.assertIn("current/guarantees.json can't be read\n", said)

    def test_nothing_was_in_force(self):
        self.put("wrong")
        status, folder, said = self.serve()
        self.assertEqual((status, folder), (3, False))
        self.assertIn("no files were in force before", said)

    def test_no_copy_can_be_kept(self):
        shutil.rmtree(self.kept)
        status, folder, said = self.serve()
        self.assertEqual((status, folder, said.splitlines()[-1]), (0, "current", "warren's files: no copy of current is kept"))

    def follow(self, listening, behind=lambda: None):
        """Follows the files of the link, and has the socket listen a second later."""
        with self.run_files("follow", self.link, self.kept, f"127.0.0.1:{listening.getsockname()[1]}") as running:
            self.assertRaises(subprocess.TimeoutExpired, running.wait, 1)
            behind()
            listening.listen()
            self.assertEqual(running.wait(30), 0)

    def test_the_files_are_followed_again(self):
        """Once it listens it looks at the files of the link, as if it had never been ended; systemd begins to follow before the files were judged."""
        now = os.path.join(self.kept, "now")
        self.assertEqual(self.serve()[0], 0)
        self.put("wrong")
        with socket.socket() as listening:
            listening.bind(("127.0.0.1", 0))
            self.follow(listening, lambda: self.assertEqual((self.serve()[1], os.readlink(now)), ("kept/now", "last")))
        self.assertEqual(os.readlink(now), self.link)
        # the next start doesn't take the link for the copy, and one on accepted files has none
        self.assertEqual((self.serve()[1], os.readlink(now)), ("kept/now", "last"))
        self.put("good")
        with socket.socket() as listening:
            listening.bind(("127.0.0.1", 0))
            self.follow(listening, self.serve)
        self.assertFalse(os.path.lexists(now))


class WhatMayEndIt(unittest.TestCase):
    def test_units(self):
        for name in ("warren.service", "warren@.service"):
            unit = configparser.ConfigParser(strict=False, interpolation=None, delimiters="=")
            unit.optionxform = str
            unit.read_string(text_of(name))
            service = unit["Service"]
            self.assertEqual((service["OOMScoreAdjust"], service["LimitCORE"], service["StandardError"]), ("-900", "0", "journal"))
            _, verb, folder, kept, *_ = service["ExecStart"].split()
            self.assertEqual((verb, service["ExecStartPost"].split()[1:4]), ("serve", ["follow", folder, kept]))
            self.assertEqual(kept, f"/var/lib/{service['StateDirectory']}")

    def test_the_image(self):
        """Its check logs in nowhere; its program has less address space than Kubernetes gives memory, and no core."""
        image, kubernetes = text_of("Containerfile"), text_of("kubernetes.yml")
        check = json.loads(re.search(r"^HEALTHCHECK .* CMD (\[.*\])$", image, re.MULTILINE).group(1))
        probe = json.loads(re.search(r"^ +command: (\[.*\])$", kubernetes, re.MULTILINE).group(1))
        self.assertEqual((check, probe), (["warrenctl", "ping", "--hello", "127.0.0.1:5672"],) * 2)
        space = int(re.search(r"^ENV ADDRESS_SPACE=(\d+)$", image, re.MULTILINE).group(1))
        asked = int(re.search(r"name: ADDRESS_SPACE\n *value: \"(\d+)\"", kubernetes).group(1))
        requests, limits = (int(it) << 30 for it in re.findall(r"memory: (\d+)Gi", kubernetes))
        self.assertEqual((space, requests), (asked, limits))
        self.assertLess(asked, limits)

    @unittest.skipUnless(shutil.which("prlimit"), "util-linux")
    def test_the_entrypoint(self):
        with tempfile.TemporaryDirectory() as folder:
            program = os.path.join(folder, "warren")
            with open(program, "w", encoding="utf-8") as file:
                file.write(PROGRAM)
            os.chmod(program, 0o755)
            entry, words = (json.loads(re.search(rf"^{it} (\[.*\])$", text_of("Containerfile"), re.MULTILINE).group(1)) for it in ("ENTRYPOINT", "CMD"))
            command = [it.replace("/usr/local/bin/warren", program) for it in entry] + words
            done = subprocess.run(command, env={**os.environ, "ADDRESS_SPACE": "1073741824"}, capture_output=True, text=True)
        files = " ".join(f"/etc/warren/current/{it}" for it in NAMES)
        self.assertEqual(done.stdout.splitlines(), [f"serve {files} --listen 0.0.0.0:5672 --reload 100", "1048576", "0"], done.stderr)

    def test_an_eviction(self):
        text = text_of("kubernetes.yml")
        self.assertIn('cluster-autoscaler.kubernetes.io/safe-to-evict: "false"', text)
        self.assertRegex(text, r"kind: PodDisruptionBudget\n(.*\n)+  maxUnavailable: 0\n  selector:\n    matchLabels:\n      app: warren\n")
        self.assertNotIn("livenessProbe:\n", text)

    @unittest.skipUnless(shutil.which("perl"), "perl")
    def test_a_library_that_is_upgraded(self):
        """needrestart reads its file as Perl: brokers are not restarted, the front and the exporter may be."""
        names = ["warren.service", "warren@orders.service", "warren-front.service", "warren-metrics.service", "dbus.service"]
        code = 'our %nrconf; defined(do $ARGV[0]) or die $@; shift; for my $n (@ARGV) { print "$n\\n" if grep { $n =~ $_ } keys %{$nrconf{override_rc}}; }'
        done = subprocess.run(["perl", "-e", code, os.path.join(DEPLOY, "needrestart.conf"), *names], capture_output=True, text=True)
        self.assertEqual((done.returncode, done.stdout.split()), (0, names[:2]), done.stderr)


if __name__ == "__main__":
    unittest.main()
