"""The tests of manual, which want Python 3 and bash: python3 -m dev.unit test_manual"""

import os
import shutil
import subprocess
import sys
import tempfile
import unittest

from dev import ROOT
from dev.manual.help_texts import NotRead, Option, read_help
from dev.manual.pages import made_of
from dev.manual.programs import warren, warrenctl
from warrenctl.commands import COMMANDS

MADE = os.path.join(ROOT, "dev/manual/made")
ONE = """Tells it

Usage: warren tell [OPTIONS] --to <IP:PORT> <DEFS> <KEY>

Arguments:
  <DEFS>  The file
  <KEY>   A key: 'its' [own] \\ name

Options:
      --to <IP:PORT>  Where to
  -h, --help          Print help
"""
WHOLE = """A program

Usage: warren <COMMAND>

Commands:
  tell  Tells it
  help  Print this message

Options:
  -h, --help  Print help
"""


def run(*words):
    done = subprocess.run([sys.executable, "-m", "dev.manual", *words], capture_output=True, text=True, timeout=120)
    return done.returncode, done.stdout, done.stderr


# a program whose help says one word otherwise
OTHER = """#!/bin/sh
cd "{help}"
case "$1" in
    --version) cat version ;;
    --help) cat warren ;;
    serve) sed s/Serves/Feeds/ serve ;;
    *) cat "$1" ;;
esac >&2
exit 3
"""


class Kept(unittest.TestCase):
    def test_what_is_made_is_up_to_date(self):
        self.assertEqual(run("--check"), (0, "", ""))

    def test_what_is_not_is_told(self):
        with tempfile.TemporaryDirectory() as folder:
            program = os.path.join(folder, "warren")
            with open(program, "w", encoding="utf-8") as file:
                file.write(OTHER.format(help=ROOT + "/dev/manual/help"))
            os.chmod(program, 0o755)
            status, out, said = run("--check", "--program", program)
        self.assertEqual((status, out), (1, ""))
        self.assertEqual([line.split(" is ")[0] for line in said.splitlines()], ["manual: help/serve", "manual: made/warren.1"])

    def test_programs_that_are_none(self):
        for program, wanted in (("/nowhere/warren", "No such file"), ("/bin/echo", "does not say that it is warren"), ("/", "ermission")):
            status, out, said = run("--program", program)
            self.assertEqual((status, out, said.count("\n"), said[:8]), (3, "", 1, "manual: "))
            self.assertIn(wanted, said)


class Reading(unittest.TestCase):
    def test_a_help(self):
        it = read_help(ONE)
        self.assertEqual((it.about, it.usage), ("Tells it", "warren tell [OPTIONS] --to <IP:PORT> <DEFS> <KEY>"))
        self.assertEqual(it.arguments, [("DEFS", "The file"), ("KEY", "A key: 'its' [own] \\ name")])
        self.assertEqual(it.options, [Option(None, "--to", "IP:PORT", "Where to"), Option("-h", "--help", None, "Print help")])
        self.assertEqual(read_help(WHOLE).commands, [("tell", "Tells it"), ("help", "Print this message")])

    def test_texts_that_are_none(self):
        for text in ("", "A\n", "A\n\nB\n", ONE.replace("--to <", "to <"), ONE.replace("  <DEFS>", "<DEFS>"), "error: no\n\nUsage: x\n\nMore\n"):
            with self.assertRaises(NotRead):
                read_help(text)

    def test_marks_are_escaped(self):
        made = made_of(warren({"version": "warren 1\n", "warren": WHOLE, "tell": ONE}))
        self.assertIn("\\fBwarren\\fR \\fBtell\\fR [OPTIONS] \\fB\\-\\-to\\fR \\fIIP:PORT\\fR \\fIDEFS\\fR \\fIKEY\\fR", made["warren.1"])
        self.assertIn("A key: 'its' [own] \\e name.", made["warren.1"])
        self.assertIn("'2:A key\\: '\\''its'\\'' \\[own\\] \\\\ name: '", made["_warren"])


class Commands(unittest.TestCase):
    def test_each_says_what_it_takes(self):
        """What it is for, each argument and option, and its statuses."""
        for name, it in warrenctl().commands:
            self.assertTrue(it.about.endswith(".") and it.usage.startswith(f"warrenctl {name} "), name)
            self.assertTrue(all(what for _, what in it.arguments) and all(option.what for option in it.options), name)
            self.assertIn("Status: ", it.ends, name)


@unittest.skipUnless(shutil.which("man"), "man-db")
class Manual(unittest.TestCase):
    def page(self, name):
        setting = {**os.environ, "LC_ALL": "C.UTF-8", "MANWIDTH": "80"}
        command = ["man", "--warnings", "-E", "UTF-8", "-l", os.path.join(MADE, name)]
        done = subprocess.run(command, capture_output=True, text=True, env=setting, timeout=120)
        self.assertEqual((done.returncode, done.stderr), (0, ""))
        return [line.strip() for line in done.stdout.splitlines()]

    def test_it_is_read_without_a_warning(self):
        lines = self.page("warren.1")
        self.assertIn("warren serve [OPTIONS] --listen IP:PORT DEFS GUARANTEES CERTS", lines)
        self.assertIn("--reload N", lines)

    def test_that_of_warrenctl(self):
        lines = self.page("warrenctl.1")
        self.assertIn("warrenctl front [OPTIONS] --listen IP:PORT --to IP:PORT DEFINITIONS", lines)
        self.assertFalse([it for it in COMMANDS if it not in lines])


class Bash(unittest.TestCase):
    def setUp(self):
        folder = tempfile.TemporaryDirectory()
        self.addCleanup(folder.cleanup)
        self.folder = folder.name
        for name in ("a.json", "b.json"):
            with open(os.path.join(self.folder, name), "w", encoding="utf-8"):
                pass

    def completed(self, *words, program="warren"):
        """What is offered for the last of these words."""
        script = 'source "$1"; shift; COMP_WORDS=("$@"); COMP_CWORD=$(($# - 1)); "_$1"; printf "%s\\n" "${COMPREPLY[@]}"'
        command = ["bash", "-c", script, "bash", os.path.join(MADE, f"{program}.bash"), program, *words]
        done = subprocess.run(command, capture_output=True, text=True, cwd=self.folder, timeout=120)
        self.assertEqual((done.returncode, done.stderr), (0, ""))
        return done.stdout.split()

    def test_each(self):
        files = ["a.json", "b.json"]
        rows = [(["ch"], ["check"]), (["r"], ["replay", "route"]), (["--v"], ["--version"]), (["help", "se"], ["serve"])]
        rows += [(["help", "serve", ""], []), (["nothing", ""], [])]
        rows += [(["check", ""], files), (["check", "a.json", ""], files), (["check", "a.json", "b.json", ""], []), (["check", "--o"], ["--out"])]
        rows += [(["check", "--out", "a"], ["a.json"]), (["check", "--out", "x", ""], files), (["check", "a.json", "--out", "x", "b"], ["b.json"])]
        rows += [(["check", "--out", "x", "a.json", "b.json", ""], [])]
        rows += [(["route", "a"], ["a.json"]), (["route", "a.json", ""], []), (["route", "a.json", "shop", ""], [])]
        rows += [(["replay", "a"], ["a.json"]), (["replay", "--guarantees", "b"], ["b.json"])]
        rows += [(["serve", "--l"], ["--listen"]), (["serve", "--listen", ""], []), (["serve", "--turns", ""], [])]
        rows += [(["serve", "-"], ["--listen", "--turns", "--reload", "-h", "--help"]), (["serve", "a.json", "b.json", "a.json", ""], [])]
        rows += [(["serve", "--listen", "127.0.0.1:0", "a.json", "b.json", "a"], ["a.json"])]
        # as bash parts it
        rows += [(["serve", "--listen", "127.0.0.1", ":", "0", "a.json", "b.json", "a"], ["a.json"]), (["serve", "--listen", "127.0.0.1", ":", ""], [])]
        for words, wanted in rows:
            with self.subTest(words=words):
                self.assertEqual(sorted(self.completed(*words)), sorted(wanted))


    def test_warrenctl(self):
        files = ["a.json", "b.json"]
        rows = [(["d"], ["draw", "depths", "drain"]), (["help", "pi"], ["ping"]), (["--v"], ["--version"])]
        rows += [(["depths", ""], []), (["depths", "till@127.0.0.1", ""], files), (["depths", "--o"], ["--once"]), (["depths", "--password-file", "a"], ["a.json"])]
        rows += [(["ping", "--hello", ""], []), (["front", "a"], ["a.json"]), (["front", "--listen", ""], []), (["front", "--certificate", "b"], ["b.json"])]
        rows += [(["convert", "a.json", ""], files), (["why", "--junit", "a"], ["a.json"])]
        for words, wanted in rows:
            with self.subTest(words=words):
                self.assertEqual(sorted(self.completed(*words, program="warrenctl")), sorted(wanted))


@unittest.skipUnless(shutil.which("zsh"), "zsh")
class Zsh(unittest.TestCase):
    def test_it_is_a_script(self):
        for name in ("_warren", "_warrenctl"):
            done = subprocess.run(["zsh", "-n", os.path.join(MADE, name)], capture_output=True, text=True, timeout=120)
            self.assertEqual((done.returncode, done.stderr), (0, ""))


if __name__ == "__main__":
    unittest.main()
