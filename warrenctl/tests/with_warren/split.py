"""Compares verdicts of `warren check` on the parts of topologies at random with those on the whole:

python3 -m warrenctl.tests.with_warren.split WARREN [COUNT [SEED]]

A verdict is `yes`, `no` or `undecided`. The numbers of states differ, and so may the key that breaks a guarantee: it has to break it in the whole
as well, by the checker of `audit`. A guarantee in no file has to hold in the whole.
"""

import json
import os
import random
import subprocess
import sys
import tempfile
from collections import Counter

from warrenctl.commands.split.parting import definitions_of, parts_of, place_of
from warrenctl.routing.checker import Topology, refutes
from warrenctl.routing.topology import read_verdicts
from warrenctl.tests.topologies import a_topology, some_guarantees


def verdicts_of(warren, folder, definitions, guarantees):
    """Returns what `warren check` says of each guarantee, in their order."""
    files = [os.path.join(folder, it) for it in ("definitions.json", "guarantees.json")]
    for name, value in zip(files, (definitions, {"guarantees": guarantees})):
        with open(name, "w", encoding="utf-8") as file:
            json.dump(value, file)
    done = subprocess.run([warren, "check", *files], capture_output=True, text=True)
    if done.returncode > 2:
        sys.exit(f"warren check: {done.stderr.strip()}")
    found = read_verdicts(done.stdout.splitlines(), len(guarantees))
    return [found[number] for number in range(1, len(guarantees) + 1)]


def kind_of(verdict):
    return verdict.told.split(" ")[0]


def differences(warren, folder, chance, counts):
    """Yields what differs between a topology and its parts."""
    whole = a_topology(chance)
    guarantees = some_guarantees(chance, whole)
    parts = parts_of(whole, guarantees)
    counts[f"{len(parts)} parts"] += 1
    told = verdicts_of(warren, folder, whole, guarantees)
    for place in (None, *range(len(parts))):
        own = [number for number, it in enumerate(guarantees) if place_of(it, parts) == place]
        if place is None:
            yield from (("in no file", guarantees[it], told[it].told) for it in own if kind_of(told[it]) != "yes")
            counts["in no file"] += len(own)
            continue
        in_part = verdicts_of(warren, folder, definitions_of(whole, parts[place]), [guarantees[it] for it in own])
        for it, verdict in zip(own, in_part):
            counts[kind_of(verdict)] += 1
            if kind_of(verdict) != kind_of(told[it]):
                yield "verdict", guarantees[it], verdict.told, told[it].told
            elif verdict.key is not None and not refutes(Topology(whole), guarantees[it], verdict.key, verdict.path):
                yield "key", guarantees[it], verdict.told


def main(warren, count=200, seed=1):
    chance, counts, differ = random.Random(seed), Counter(), 0
    with tempfile.TemporaryDirectory() as folder:
        for _ in range(count):
            for it in differences(warren, folder, chance, counts):
                differ += 1
                print(*it)
    print(f"{count} topologies, {differ} verdicts differ")
    print(", ".join(f"{name}: {number}" for name, number in sorted(counts.items())))
    return 1 if differ else 0


if __name__ == "__main__":
    sys.exit(main(sys.argv[1], *(int(it) for it in sys.argv[2:])))
