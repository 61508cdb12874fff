#!/usr/bin/env python3
"""Prints how long files at the limits take, and how much memory, with a program that is named."""

import json
import multiprocessing
import os
import subprocess
import sys
import tempfile

from dev.limits import families
from warrenctl.cli.run import DONE, run
from warrenctl.cli.words import Words

# what is reloaded beside how many messages, each with a key of its own, and to how many queues these go
RELOADS = [
    ("64 queues with keys of their own, one `never`", families.judged_at_a_reload, 300, 1),
    ("8 queues that keep keys, 101 bindings, 10 `never`", lambda: families.many_at_a_reload(10), 100_000, 8),
    ("8 queues that keep keys, 101 bindings, 64 `never`", families.many_at_a_reload, 100_000, 8),
    ("8 queues that keep keys, through 200 exchanges, 64 `never`", families.many_through_exchanges, 10_000, 8),
]
# each family with the commands that are measured over its files
FAMILIES = [
    ("255 queues with keys of their own in a chain, one `never`", families.chain_of_own_keys, ("check --out", "verify")),
    ("255 queues with keys of their own through a ring of 255 exchanges, one `never`", families.ring_of_own_keys, ("check --out", "verify")),
    ("64 `never` over such a ring", families.ring_of_many, ("check --out", "verify")),
    ("a `never` that is broken through such a ring", families.broken_through_the_ring, ("check",)),
    ("the same through 205 exchanges of 17 patterns", lambda: families.broken_through_the_ring(205, 17), ("check",)),
    ("the same through 27 exchanges of 129 patterns", lambda: families.broken_through_the_ring(27, 129), ("check",)),
    ("the same through 6 exchanges of 512 patterns", lambda: families.broken_through_the_ring(6, 512), ("check",)),
    ("47 certificates of 32,769 states, in each of which a message comes through 255 exchanges", families.many_listed, ("verify",)),
    ("16 certificates of 16,385 states, each of which other patterns accept, through 255 exchanges", families.many_that_differ, ("verify",)),
    ("34,660 states of 63 patterns and 1,893 letters", families.many_letters, ("check --out", "verify")),
    ("64,000 states, 64 letters of each", families.letters_that_all_lead, ("check --out", "verify")),
    ("more than 65,536 states by all patterns and by a slice", families.undecided_by_states, ("check",)),
    ("a `never` through 255 keys, each of which reaches 256 exchanges: undecided", families.broken_at_the_end, ("check",)),
    ("3,500 patterns of 31 words, chosen for one slot of the trie", families.one_slot, ("route",)),
    ("4,096 patterns whose first words have one mark", families.same_marks, ("route",)),
    ("2 guarantees of 59,062 states of 59 patterns, with numbers near 2^32, too long for a file", families.wide_numbers, ("check", "check --out")),
    ("24 guarantees of 59,050 states, too long for a file", families.many_certificates, ("check", "check --out")),
]


def write(name, text):
    with open(name, "w", encoding="utf-8") as file:
        file.write(text)


def apart(function, *arguments):
    """Calls `function` in a process of its own: Linux counts what a process has when it starts a program to the program's greatest memory."""
    process = multiprocessing.get_context("fork").Process(target=function, args=arguments)
    process.start()
    process.join()
    if process.exitcode:
        sys.exit("limits: the files could not be written")


def measured(words):
    """The seconds of processor time that a command takes, its resident memory at most in megabytes, and its status."""
    process = subprocess.Popen(words, stdout=subprocess.DEVNULL, stderr=subprocess.DEVNULL)
    _, status, used = os.wait4(process.pid, 0)
    process.returncode = os.waitstatus_to_exitcode(status)
    return used.ru_utime + used.ru_stime, used.ru_maxrss / 1024, process.returncode


def print_measured(what, words):
    seconds, megabytes, status = measured(words)
    print(f"{what}: {seconds:.2f} seconds, {megabytes:.0f} MB, status {status}", flush=True)


class Files:
    """The files of a family, in a folder of their own."""

    def __init__(self, folder, family):
        self.definitions, self.guarantees, self.certificates, self.script = (os.path.join(folder, it) for it in ("d.json", "g.json", "c.json", "script"))
        apart(self.write, family)

    def write(self, family):
        definitions, guarantees, *certificates = family()
        write(self.definitions, json.dumps(definitions))
        write(self.guarantees, json.dumps({"guarantees": guarantees}))
        for listed in certificates:
            write(self.certificates, json.dumps(listed, separators=(",", ":")))

    def write_script(self, count, queues, *more):
        write(self.script, "\n".join([*families.publishes(count, queues), *more]) + "\n")

    def words(self, command):
        """The words behind `warren` for a command over these files."""
        both = [self.definitions, self.guarantees]
        return {
            "check": ["check", *both],
            "check --out": ["check", *both, "--out", self.certificates],
            "verify": ["verify", *both, self.certificates],
            "route": ["route", self.definitions, "x", "a.b"],
            "replay": ["replay", self.script, "--definitions", self.definitions],
        }[command]


def measure_reload(warren, what, family, count, queues):
    """Prints what a reload's own judgement takes beside so many messages: a script with it, less the same script without."""
    with tempfile.TemporaryDirectory() as folder:
        files = Files(folder, family)
        measured([warren, *files.words("check --out")])
        apart(files.write_script, count, queues)
        without, _, _ = measured([warren, *files.words("replay")])
        reload = f"reload {files.definitions} {files.guarantees} {files.certificates}"
        apart(files.write_script, count, queues, reload)
        took, megabytes, status = measured([warren, *files.words("replay")])
    print(f"{count} messages, {what}, a reload: {took - without:.2f} seconds more, {megabytes:.0f} MB, status {status}", flush=True)


def words():
    parser = Words("limits", __doc__, "Status: 0 all was measured; 3 it was not.", "python3 -m dev.limits")
    parser.add_argument("warren", help="the program")
    return parser.parse_args()


def main(given):
    warren = os.path.abspath(given.warren)
    for what, family, commands in FAMILIES:
        with tempfile.TemporaryDirectory() as folder:
            files = Files(folder, family)
            for command in commands:
                print_measured(f"{what}, {command}", [warren, *files.words(command)])
    for reload in RELOADS:
        measure_reload(warren, *reload)
    return DONE


if __name__ == "__main__":
    sys.exit(run("limits", lambda: main(words())))
