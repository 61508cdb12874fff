"""The program warren: where it is."""

import glob
import os
import shutil
import sys

# in the repository, a program that was made there comes before the one on the path
ROOT = os.path.dirname(os.path.dirname(os.path.abspath(__file__)))
UNPROVED, PROVED = (os.path.join(ROOT, it) for it in ("out/try/warren", "crates/warren/out/warren"))


def is_stale(program):
    """Returns whether a source of a crate is newer than a program that was made of them."""
    made = os.stat(program).st_mtime
    return any(os.stat(it).st_mtime > made for it in glob.iglob(os.path.join(ROOT, "crates/*/src/**/*.rt"), recursive=True))


def program_here():
    """A program that was made before, proved or not, or the one on the path; or nothing. One that is older than its sources is named."""
    made = next((it for it in (UNPROVED, PROVED) if os.path.exists(it)), None)
    if made and is_stale(made):
        print(f"{os.path.relpath(made, ROOT)} is older than its sources; `make try` makes it again", file=sys.stderr)
    return made or shutil.which("warren")


def program_of(given):
    """Returns the program that a command line names, or the one that is here; nothing with `--alone`."""
    return None if given.alone else given.warren or program_here()
