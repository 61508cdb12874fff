"""Checks pages and names: python3 -m dev.checks [WORD ..], with the words below; without one, all of them.

edits    each must-fail edit still applies, and has its row in the table of wrong bodies
map      the calls that docs/inside/ARCHITECTURE.md lists are where it says, and its tables have all crates
names    what several proof files of a crate import is in one file of it
promise  what docs/PROMISE.md names is where it says
prose    links that lead nowhere, a long README, words that readers stumble over
widths   no line of a contract or a definition is wider than a reader sees at once

Status: 0 nothing is wrong; 1 something is, and a line says what; 3 the command line is refused.
"""

import importlib
import sys

from dev import ROOT
from warrenctl.cli.run import DONE, run
from warrenctl.fault import Fault

CHECKS = ("edits", "map", "names", "promise", "prose", "widths")


def main(words):
    if words in (["-h"], ["--help"]):
        print(__doc__)
        return DONE
    unknown = next((it for it in words if it not in CHECKS), None)
    if unknown is not None:
        raise Fault(f"there is no check {unknown}; --help lists them")
    return max(importlib.import_module(f"dev.checks.{it}").main(ROOT) for it in words or CHECKS)


if __name__ == "__main__":
    sys.exit(run("checks", lambda: main(sys.argv[1:])))
