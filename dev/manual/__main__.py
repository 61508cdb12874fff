#!/usr/bin/env python3
"""Makes the manual pages of warren and of warrenctl and their completions for bash and zsh, of what the programs say with --help. The texts of warren
are kept beside this script, in `help`, and what is made in `made`."""

import os
import subprocess
import sys

from dev.manual.help_texts import NotRead, taken_from
from dev.manual.pages import made_of
from dev.manual.programs import warren, warrenctl
from warrenctl.cli.run import DONE, NOT_WHOLE, run, tell
from warrenctl.cli.words import Words
from warrenctl.fault import Fault

HERE = os.path.dirname(os.path.abspath(__file__))


def words():
    parser = Words("manual", __doc__, "Status: 0 done; 1 with --check: a file is not up to date; 3 not done, and a line says why.", "python3 -m dev.manual")
    parser.add_argument("--program", metavar="PROGRAM", help="take the help texts from this program first")
    parser.add_argument("--check", action="store_true", help="write nothing, and print each file that is not up to date")
    return parser.parse_args()


def files_in(folder):
    """The texts of a folder by their names."""
    found = {}
    for name in sorted(os.listdir(os.path.join(HERE, folder))):
        with open(os.path.join(HERE, folder, name), encoding="utf-8") as file:
            found[name] = file.read()
    return found


def stale(folder, wanted):
    there = files_in(folder)
    return [f"{folder}/{name}" for name in sorted(there.keys() | wanted.keys()) if there.get(name) != wanted.get(name)]


def write(folder, texts):
    for name, text in texts.items():
        with open(os.path.join(HERE, folder, name), "w", encoding="utf-8") as file:
            file.write(text)


def work(given):
    try:
        kept = taken_from(given.program) if given.program else files_in("help")
        made = {**made_of(warren(kept)), **made_of(warrenctl())}
    except NotRead as error:
        raise Fault(str(error)) from None
    except subprocess.TimeoutExpired:
        raise Fault(f"{given.program} gives no answer") from None
    if not given.check:
        write("help", kept)
        write("made", made)
        return DONE
    differing = stale("help", kept) + stale("made", made)
    for it in differing:
        tell("manual", f"{it} is not up to date; `python3 -m dev.manual --program PROGRAM` makes it so")
    return NOT_WHOLE if differing else DONE


if __name__ == "__main__":
    sys.exit(run("manual", lambda: work(words())))
