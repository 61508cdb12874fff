"""The tests of how a command ends, and of the command line of warrenctl: python3 -m dev.unit test_run"""

import os
import signal
import subprocess
import sys
import tempfile
import unittest

from dev import ROOT, SHOP
from dev.beds.commands import warrenctl
from warrenctl import VERSION
from warrenctl.commands import COMMANDS

DEFINITIONS = os.path.join(SHOP, "definitions.json")
DRAW = [*warrenctl("draw"), DEFINITIONS]


def ran(command, closed=(), **how):
    """The status, the standard output and the standard error of a command that is started with these descriptors closed."""
    close = lambda: [os.close(it) for it in closed]  # noqa: E731
    done = subprocess.run(command, capture_output=True, text=True, preexec_fn=close, cwd=ROOT, **how)
    return done.returncode, done.stdout, done.stderr


def program(work):
    """A program that does this as a command does."""
    return [sys.executable, "-c", f"import sys\nfrom warrenctl.cli.run import run\nfrom warrenctl.fault import Fault\n{work}\nsys.exit(run('it', work))"]


class Ends(unittest.TestCase):
    def test_a_status(self):
        self.assertEqual(ran(program("work = lambda: 7")), (7, "", ""))

    def test_a_fault(self):
        self.assertEqual(ran(program("def work(): raise Fault('no')")), (3, "", "it: no\n"))
        self.assertEqual(ran(program("def work(): raise Fault('no', 1)")), (1, "", "it: no\n"))

    def test_a_fault_of_its_own(self):
        status, out, said = ran(program("def work(): return {}['a\\nb']"))
        self.assertEqual((status, out, said.count("\n")), (3, "", 1))
        self.assertRegex(said, r"^it: a fault of its own: KeyError: 'a\\nb' \(.*, line 4\)$")

    def test_a_file_that_is_not_there(self):
        self.assertEqual(ran(program("def work(): open('/nowhere')")), (3, "", "it: /nowhere: No such file or directory\n"))

    def test_a_full_disk(self):
        with open("/dev/full", "w", encoding="utf-8") as full:
            done = subprocess.run(DRAW, stdout=full, stderr=subprocess.PIPE, text=True, cwd=ROOT)
        self.assertEqual(done.returncode, 3)
        self.assertRegex(done.stderr, r"\Adraw: (standard output: )?No space left on device\n\Z")

    def test_a_closed_pipe(self):
        read, write = os.pipe()
        os.close(read)
        done = subprocess.run(DRAW, stdout=write, stderr=subprocess.PIPE, text=True, cwd=ROOT)
        os.close(write)
        self.assertEqual((done.returncode, done.stderr), (3, ""))

    def test_closed_streams(self):
        self.assertEqual(ran(DRAW, (1,)), (3, "", "draw: standard output: Bad file descriptor\n"))
        self.assertEqual(ran(DRAW, (0,))[0], 0)
        self.assertEqual(ran(DRAW, (2,))[0], 0)
        self.assertEqual(ran(DRAW, (0, 1, 2))[0], 3)
        self.assertEqual(ran([*warrenctl("convert"), "-"], (0,)), (3, "", "convert: standard input: Bad file descriptor\n"))

    def test_no_file_takes_the_place_of_a_closed_stream(self):
        with tempfile.TemporaryDirectory() as folder:
            name = os.path.join(folder, "made")
            ran(program(f"def work():\n    with open({name!r}, 'w') as file:\n        print('verdict', flush=True)\n    return 0"), (1,))
            self.assertEqual(os.path.getsize(name), 0)

    def ended_by(self, number, before=signal.SIG_DFL):
        work = "import time\ndef work():\n    try:\n        print('begun', flush=True)\n        time.sleep(60)\n    finally:\n        print('tidy')"
        pipes = {"stdout": subprocess.PIPE, "stderr": subprocess.PIPE, "text": True, "cwd": ROOT}
        running = subprocess.Popen(program(work), preexec_fn=lambda: signal.signal(number, before), **pipes)
        running.stdout.readline()
        running.send_signal(number)
        out, said = running.communicate(timeout=60)
        return running.returncode, out, said

    def test_signals(self):
        for number in (signal.SIGINT, signal.SIGHUP, signal.SIGTERM):
            self.assertEqual(self.ended_by(number), (128 + number, "tidy\n", f"it: broken off by {number.name[3:]}\n"))

    def test_a_shell_that_has_sigint_ignored(self):
        self.assertEqual(self.ended_by(signal.SIGINT, signal.SIG_IGN)[0], 130)


class CommandLine(unittest.TestCase):
    COMMAND = warrenctl("x")[:-1]

    def test_help(self):
        for words in ([], ["-h"], ["--help"], ["help"]):
            status, out, said = ran([*self.COMMAND, *words])
            self.assertEqual((status, said), (0, ""))
            for name, about in COMMANDS.items():
                self.assertRegex(out, f"(?m)^  {name} +{about}$")

    def test_version(self):
        self.assertEqual(ran([*self.COMMAND, "--version"]), (0, f"warrenctl {VERSION}\n", ""))

    def test_no_such_command(self):
        for words in (["chop"], ["--chop"], [""]):
            self.assertEqual(ran([*self.COMMAND, *words]), (3, "", f"warrenctl: there is no command {words[0]}; --help lists them\n"))

    def test_each_command(self):
        for name in COMMANDS:
            status, out, said = ran([*warrenctl(name), "--help"])
            self.assertEqual((status, said, out.startswith(f"usage: warrenctl {name} ")), (0, "", True), name)
            status, out, said = ran([*warrenctl(name), "--no-such-word"])
            self.assertEqual((status, out, said.count("\n"), said.startswith(f"{name}: ")), (3, "", 1, True), said)

    def test_the_version_is_that_of_the_program(self):
        """It is a release of the changelog."""
        with open(os.path.join(ROOT, "CHANGELOG.md"), encoding="utf-8") as file:
            self.assertRegex(file.read(), rf"(?m)^## {VERSION} ")


if __name__ == "__main__":
    unittest.main()
