"""The processor time that a run takes, by crate: of its checks and builds, of its must-fail edits, and of its programs.

A sample reads each process of the run from /proc. What a process takes between its last sample and its end isn't seen; the sum of all is exact,
since it comes from the system once the run has ended.
"""

import os
import re
import resource
import threading

CHECKS, EDITS, RUNS = range(3)
# seconds between two samples, and the seconds over which a crate is named
PAUSE, NAMED = 0.5, 300
TICK = os.sysconf("SC_CLK_TCK")
CRATE = re.compile(rb"\0--crate-name\0([a-z0-9_]+)\0")
# rt gives the check of an edit, and what edits begin with, a folder of such a name
OF_EDITS = re.compile(r"/rt-edits?-[^/]*")
PROGRAM = re.compile(rb"(?:\A|\0)[^\0]*/rt-run-[^/\0]*/bin/([a-z0-9_]+)\0")


def read(path):
    try:
        with open(path, "rb") as file:
            return file.read()
    except OSError:
        return b""


def stat_of(number):
    """The parent of a process, its start, and the seconds that it and those of its children that have ended took; None if it is gone."""
    fields = read(f"/proc/{number}/stat").rpartition(b")")[2].split()
    if len(fields) < 20:
        return None
    return int(fields[1]), int(fields[19]), sum(map(int, fields[11:15])) / TICK


def kind_of(number):
    """The crate and the kind of a check, a build or a program; None of another process."""
    words = read(f"/proc/{number}/cmdline")
    crate, program = CRATE.search(words), PROGRAM.search(words)
    if crate:
        try:
            folder = os.readlink(f"/proc/{number}/cwd")
        except OSError:
            folder = ""
        return crate[1].decode(), EDITS if OF_EDITS.search(folder) else CHECKS
    if program:
        return program[1].decode().removesuffix("_tests"), RUNS
    return None


class Costs:
    """Samples the processes below this one while a run goes on, as `with Costs() as costs:`."""

    def __init__(self):
        self.taken, self.kinds, self.ended = {}, {}, threading.Event()
        self.before = children()

    def __enter__(self):
        self.sampling = threading.Thread(target=self.go_on, daemon=True)
        self.sampling.start()
        return self

    def __exit__(self, *_):
        self.ended.set()
        self.sampling.join()
        self.all = children() - self.before

    def go_on(self):
        while not self.ended.wait(PAUSE):
            self.sample()

    def sample(self):
        found = {}
        for name in os.listdir("/proc"):
            if name.isdigit() and (stat := stat_of(name)):
                found[int(name)] = stat
        for number in below(os.getpid(), found):
            _, start, seconds = found[number]
            process = number, start
            if self.kinds.get(process) is None:
                self.kinds[process] = kind_of(number)
            if self.kinds[process]:
                self.taken[process] = seconds

    def rows(self):
        """The crates with their three sums of seconds, the dearest first."""
        sums = {}
        for process, seconds in self.taken.items():
            crate, kind = self.kinds[process]
            sums.setdefault(crate, [0.0, 0.0, 0.0])[kind] += seconds
        return sorted(sums.items(), key=lambda it: (-sum(it[1]), it[0]))

    def lines(self):
        """The table, and a line that names each crate over the bound."""
        rows = self.rows()
        yield f"{'processor seconds':<28}{'checks':>8}{'edits':>8}{'runs':>8}"
        for crate, seconds in rows:
            yield f"{crate:<28}" + "".join(f"{it:8.0f}" for it in seconds)
        sums = [sum(of[kind] for _, of in rows) for kind in (CHECKS, EDITS, RUNS)]
        yield f"{'all crates':<28}" + "".join(f"{it:8.0f}" for it in sums)
        yield f"all, with rt and what no sample saw: {self.all:.0f} seconds of processor, {self.all / 60:.0f} minutes"
        over = [f"{crate} ({sum(seconds):.0f} s)" for crate, seconds in rows if sum(seconds) > NAMED]
        yield f"crates over {NAMED} seconds: {', '.join(over) or 'none'}"


def children():
    """The seconds of processor that the processes which this one waited for have taken."""
    used = resource.getrusage(resource.RUSAGE_CHILDREN)
    return used.ru_utime + used.ru_stime


def below(top, found):
    """The processes that descend from `top`, of those found."""
    of = {}
    for number, (parent, _, _) in found.items():
        of.setdefault(parent, []).append(number)
    rest = list(of.get(top, ()))
    for number in rest:
        rest += of.get(number, ())
    return rest
