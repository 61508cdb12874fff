#!/usr/bin/env python3
"""Checks guarantees by a build of warren that proves nothing, which is made once and kept; without words, those of examples/shop."""

import os
import subprocess
import sys

from dev import SHOP
from dev.program import check_readable, unproved
from warrenctl.cli.run import run
from warrenctl.cli.words import Words
from warrenctl.fault import Fault

STATUSES = "Status: that of `warren check`: 0 all hold; 1 some do not; 2 none is broken, some are undecided; 3 a file is refused, or there is no build; 4 a file cannot be read."
UNREADABLE = 4
MEANINGS = {
    0: "Nothing was proved. `make run` proves all of it first.",
    1: "A line `no` is a guarantee that does not hold, with a key that breaks it: no broker runs under it (docs/GUARANTEES.md, \"Reading a `no`\").",
    2: "A line `undecided` is a guarantee that may hold or not: no broker runs under it (docs/GUARANTEES.md). `python3 -m warrenctl why` looks for a key that breaks it.",
    3: "A file is refused: `python3 -m warrenctl why` names each cause with its entry (docs/FORMATS.md).",
    4: "A file could not be read.",
}


def words():
    parser = Words("try", __doc__, STATUSES, "python3 -m dev.try")
    parser.add_argument("definitions", nargs="?", help="a definitions file")
    parser.add_argument("guarantees", nargs="?", help="a guarantees file")
    given = parser.parse_args()
    if given.definitions and not given.guarantees:
        parser.error("definitions need guarantees")
    if not given.definitions:
        given.definitions, given.guarantees = (os.path.join(SHOP, it) for it in ("definitions.json", "guarantees.json"))
    return given


def tell(line):
    print(line, file=sys.stderr, flush=True)


def main(given):
    check_readable(given.definitions, given.guarantees, status=UNREADABLE)
    warren = unproved(tell)
    print(f"warren check {os.path.basename(given.definitions)} {os.path.basename(given.guarantees)}", flush=True)
    try:
        status = subprocess.run([warren, "check", given.definitions, given.guarantees]).returncode
    except OSError as error:
        raise Fault(f"{warren}: {error.strerror}") from None
    print(MEANINGS.get(status, f"It ended with status {status}."))
    return status


if __name__ == "__main__":
    sys.exit(run("try", lambda: main(words())))
