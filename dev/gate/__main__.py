#!/usr/bin/env python3
"""Runs the gate: `rt ci`, with as many checks side by side as processors and memory allow, and then the proved programs with growths of memory
refused. It ends with the processor time of each crate, and the last line is `N passed, M failed`, both counted. A must-fail edit that is refused only
because a proof names what it takes away counts as failed. RT_JOBS in the environment sets the number of checks."""

import os
import re
import shutil
import subprocess
import sys

from dev import ROOT
from dev.gate.costs import Costs
from dev.gate.machine import checks_at_once, free_memory, processors
from warrenctl.cli.run import run
from warrenctl.cli.words import Words
from warrenctl.fault import Fault

STATUSES = "Status: 0 all passed; 1 something failed; 2 rt judged nothing; 3 rt or the command line is at fault; 130, 143 broken off."
PASSED, FAILED = 0, 1
SUM = re.compile(r"(\d+) passed, (\d+) failed\n?")
SAYS_LITTLE = re.compile(r"must-fail (\S+): refused, as it must be \(only because ")
REFUSALS = os.path.join(ROOT, "examples/refusals/run")
PROGRAMS = [os.path.join(ROOT, f"crates/{name}/out/{name}") for name in ("warren", "memory_refusals")]


def tell(line):
    print(line, flush=True)


def environment():
    """The environment of `rt ci`, with RT_JOBS set if rt would leave processors idle for want of memory that its checks do not take."""
    given = dict(os.environ)
    if "RT_JOBS" in given:
        tell(f"gate: RT_JOBS={given['RT_JOBS']}, as set")
        return given
    found, memory = processors(), free_memory()
    checks = checks_at_once(found, memory)
    machine = f"{found} processors, {memory / 1e9:.0f} GB free"
    if checks:
        tell(f"gate: RT_JOBS={checks}: {machine}")
        return {**given, "RT_JOBS": str(checks)}
    tell(f"gate: rt chooses how many checks run at once: {machine}")
    return given


def followed(command, see=lambda line: None, **how):
    """Runs a command and prints its lines as they come, but for the sum at its end; its status and that sum, if there is one. Each line goes to `see`."""
    counts, last = None, None
    with subprocess.Popen(command, cwd=ROOT, stdin=subprocess.DEVNULL, stdout=subprocess.PIPE, **how) as running:
        try:
            for line in running.stdout:
                if last is not None:
                    show(last)
                last = line
                see(line.decode("utf-8", "replace"))
        except (KeyboardInterrupt, SystemExit):
            running.terminate()
            raise
    if last is not None:
        found = SUM.fullmatch(last.decode("utf-8", "replace"))
        counts = found and [int(it) for it in found.groups()]
        if not counts:
            show(last)
    return running.returncode, counts


def show(line):
    sys.stdout.buffer.write(line)
    sys.stdout.flush()


def refusals():
    """How many lists of refused growths passed and failed, of the programs that `rt ci` left."""
    if not shutil.which("cc"):
        tell("gate: no growth of memory is refused to the programs: that needs cc, the C compiler, which is not here")
        return 0, 0
    missing = next((it for it in PROGRAMS if not os.path.exists(it)), None)
    if missing:
        tell(f"gate: {os.path.relpath(missing, ROOT)} is not there: no growth of memory was refused to it")
        return 0, 1
    status, counts = followed([sys.executable, REFUSALS, *PROGRAMS, "one"])
    return counts if counts and bool(status) == bool(counts[1]) else (0, 1)


def proofs():
    """The status and the counts of `rt ci`; an edit whose refusal says little of a contract counts as failed."""
    little = []

    def see(line):
        little.extend(SAYS_LITTLE.findall(line))

    with Costs() as costs:
        status, counts = followed(["rt", "ci"], see, env=environment())
    for line in costs.lines():
        tell(f"gate: {line}")
    for edit in little:
        tell(f"gate: {edit} keeps no name that a proof cites, so its refusal shows nothing of the contract: change a value")
    return status, counts and (counts[0] - len(little), counts[1] + len(little))


def gate():
    status, counts = proofs()
    if status or not counts:
        # what rt could not judge counts as one that failed
        passed, failed = counts or (0, 1)
        tell(f"{passed} passed, {max(failed, 1)} failed")
        return status or FAILED
    passed, failed = (sum(it) for it in zip(counts, refusals()))
    tell(f"{passed} passed, {failed} failed")
    return FAILED if failed else PASSED


def main():
    Words("gate", __doc__, STATUSES, "python3 -m dev.gate").parse_args()
    try:
        return gate()
    except FileNotFoundError as error:
        raise Fault(f"{error.filename} does not start: {error.strerror} (README, \"Toolchain\")") from None


if __name__ == "__main__":
    sys.exit(run("gate", main))
