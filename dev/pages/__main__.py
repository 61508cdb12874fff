"""Runs every command in the blocks of the pages as it is written: python3 -m dev.pages WARREN

It makes a release of the program WARREN, and installs it as README says, in a root that has this machine's Debian packages and a network of its own.
There it runs the commands of README, docs, examples and warrenctl, each block in a folder with the files that its page speaks of. A command has to end
as its page says, and to print the lines below it. It needs root, and is skipped otherwise. Commands of a package that is not installed are left out,
each with a line. The status is not 0 if a command does something else."""

import contextlib
import io
import os
import shutil
import sys
import tempfile
from types import SimpleNamespace

from dev import ROOT
from dev.beds.clean_root import run_inside, why_not
from dev.beds.example import run_example
from dev.beds.one_file import lay_out
from dev.release.__main__ import main as release

# a machine may be busy
SECONDS = 1800
STARTS = "PYTHONPATH=/mnt/release/{}/warrenctl PYTHONDONTWRITEBYTECODE=1 exec /usr/bin/python3 -m dev.pages.inside"
INSIDE = f"unshare --net sh -c 'ip link set lo up; cd repository; {STARTS}'"


def main(warren):
    lacks = why_not()
    if lacks:
        print(f"pages: skipped, this needs {lacks}")
        return 0
    with tempfile.TemporaryDirectory() as folder:
        with contextlib.redirect_stdout(io.StringIO()):
            os.mkdir(f"{folder}/release")
            release(SimpleNamespace(program=warren, folder=f"{folder}/release", maintainer="warren <root@localhost>", key=None))
        lay_out(f"{folder}/repository")
        for it in ("README.md", "docs", "warrenctl/README.md", "examples"):
            copy(it, f"{folder}/pages")
        (made,) = os.listdir(f"{folder}/release")
        done = run_inside(folder, INSIDE.format(made), SECONDS)
        print(done.stdout, done.stderr, sep="", end="")
        return done.returncode


def copy(name, to):
    source, goal = os.path.join(ROOT, name), os.path.join(to, name)
    os.makedirs(os.path.dirname(goal), exist_ok=True)
    shutil.copytree(source, goal) if os.path.isdir(source) else shutil.copy(source, goal)


if __name__ == "__main__":
    sys.exit(run_example("pages", __doc__, main))
