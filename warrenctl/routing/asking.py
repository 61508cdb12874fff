"""Asks a program `warren check` which guarantees hold."""

import json
import os
import subprocess
import tempfile
from collections import namedtuple

from warrenctl.fault import Fault
from warrenctl.files.guarantees import MOST_GUARANTEES
from warrenctl.routing.checker import refutes
from warrenctl.routing.search import search
from warrenctl.routing.topology import BadFile, read_verdicts

HOLDS, BROKEN, UNDECIDED = range(3)

# kind: one of the three above; key and path: what breaks the guarantee, if it is known
Answer = namedtuple("Answer", "kind key path", defaults=(None, ()))


def worst(kinds):
    """Returns the status of some answers: a broken guarantee outweighs one that is undecided."""
    return next((it for it in (BROKEN, UNDECIDED) if it in kinds), HOLDS)


def ran(program, *words):
    """Runs a command of the program to its end."""
    try:
        return subprocess.run([program, *words], capture_output=True, text=True, errors="replace")
    except OSError as error:
        raise Fault(f"{program}: {error.strerror}") from None


def checked(program, definitions, guarantees, count):
    """Returns the verdict on each of the `count` guarantees of a file, by number. Fails if the program ends otherwise than with verdicts on all."""
    done = ran(program, "check", definitions, guarantees)
    if done.returncode < 0:
        raise Fault(f"{program} was ended by signal {-done.returncode}")
    if done.returncode > UNDECIDED:
        raise Fault(f"{program} refuses what warrenctl accepts: {done.stderr.strip()}")
    verdicts = read_verdicts(done.stdout.splitlines(), count)
    missing = next((it for it in range(1, count + 1) if it not in verdicts), None)
    if missing is not None:
        raise BadFile(f"{program} says nothing of guarantee {missing}")
    return verdicts


def answer_of(verdict):
    """Returns what a verdict of `warren check` means."""
    if verdict.key is not None:
        return Answer(BROKEN, verdict.key, verdict.path)
    if verdict.told.startswith("yes states "):
        return Answer(HOLDS)
    if verdict.told in ("undecided states", "undecided key"):
        return Answer(UNDECIDED)
    raise BadFile(f"this is no line of warren check: {verdict.told[:80]}")


def by_warren(program, definitions, topology, guarantees):
    """Returns the program's answer on each guarantee of a list of any length. `topology` is that of the file `definitions`."""
    answers = []
    for begin in range(0, len(guarantees), MOST_GUARANTEES):
        some = guarantees[begin : begin + MOST_GUARANTEES]
        with tempfile.TemporaryDirectory() as folder:
            name = os.path.join(folder, "guarantees.json")
            with open(name, "w", encoding="utf-8") as file:
                json.dump({"guarantees": some}, file)
            verdicts = checked(program, definitions, name, len(some))
        answers += [answer_of(verdicts[it]) for it in range(1, len(some) + 1)]
    for it, answer in zip(guarantees, answers):
        if answer.kind == BROKEN and not refutes(topology, it, answer.key, list(answer.path)):
            raise BadFile(f"{program} says that the key {json.dumps(answer.key)} breaks a guarantee, and it does not")
    return answers


def by_matching(topology, guarantee):
    """Returns the answer of a search by matching alone, which is not proved."""
    found = search(topology, guarantee)
    if found.key is not None:
        return Answer(BROKEN, found.key, found.path)
    return Answer(HOLDS if found.all else UNDECIDED)


def answers_of(program, definitions, topology, guarantees):
    """Returns the answer on each guarantee, by the program if there is one, else by matching alone."""
    if program:
        return by_warren(program, definitions, topology, guarantees)
    return [by_matching(topology, it) for it in guarantees]
