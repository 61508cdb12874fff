"""Compares audit with warren: python3 -m warrenctl.tests.with_warren.audit WARREN [COUNT [SEED]]

On each row of certificates.lines that is of a check or a file, and on COUNT (1,000) certificates that `warren check` found of topologies made
at random, each then changed at random: the lines, the status and the refusal have to be the same.
"""

import contextlib
import copy
import io
import json
import os
import random
import subprocess
import sys
import tempfile
from argparse import Namespace
from collections import Counter

from dev.beds.rows import guarantee_of, rows, text_of
from warrenctl.commands import audit
from warrenctl.files.reading import Refused

WORDS = ("a", "b", "*", "#", "é")
NAMES = ("X", "Y", "Z")
QUEUES = ("q", "r", "a", "a.b")


def of_audit(files):
    out = io.StringIO()
    with contextlib.redirect_stdout(out):
        try:
            status = audit.audit(Namespace(definitions=files[0], guarantees=files[1], certificates=files[2], only=None, key=None))
            return status, out.getvalue(), ""
        except Refused as error:
            return 3, "", f"{error.name}: refused {error.number}\n"


class Comparison:
    def __init__(self, warren, folder):
        self.warren, self.folder = warren, folder
        self.differ, self.answers = 0, Counter()

    def write(self, *texts):
        files = [os.path.join(self.folder, f"{it}.json") for it in ("definitions", "guarantees", "certificates")]
        for name, text in zip(files, texts):
            with open(name, "wb") as file:
                file.write(text if isinstance(text, bytes) else text.encode())
        return files

    def run(self, *words):
        done = subprocess.run([self.warren, *words], capture_output=True, text=True)
        return done.returncode, done.stdout, done.stderr.removeprefix("warren: ")

    def same(self, *texts):
        files = self.write(*texts)
        told, wanted = of_audit(files), self.run("verify", *files)
        for line in wanted[1].splitlines():
            self.answers[" ".join(line.split()[1:3])] += 1
        if wanted[2]:
            self.answers[wanted[2].split(": ")[-1].strip()] += 1
        if told != wanted:
            self.differ += 1
            kept = tempfile.mkdtemp(prefix="differ-")
            self.folder, before = kept, self.folder
            self.write(*texts)
            self.folder = before
            print(f"{kept}: audit {told}, warren {wanted}")


# ---- topologies, guarantees and certificates at random


def a_key(chance):
    return ".".join(chance.choice(WORDS) for _ in range(chance.randrange(4)))


def a_topology(chance):
    exchanges, queues, bindings = [], [], []
    for name in NAMES[: chance.randint(1, 3)]:
        exchanges.append({"name": name, "type": chance.choice(("topic", "topic", "direct", "fanout")), "internal": False, "arguments": {}})
    names = [it["name"] for it in exchanges]
    for it in exchanges:
        if chance.random() < 0.3:
            it["arguments"] = {"alternate-exchange": chance.choice(names)}
    for name in QUEUES[: chance.randint(1, 4)]:
        arguments = {}
        if chance.random() < 0.4:
            arguments["x-dead-letter-exchange"] = chance.choice(["", *names])
            if chance.random() < 0.4:
                arguments["x-dead-letter-routing-key"] = a_key(chance)
        queues.append({"name": name, "arguments": arguments})
    for _ in range(chance.choice((0, 2, 4, 6, 70))):
        kind = chance.choice(("queue", "queue", "exchange"))
        name = chance.choice([it["name"] for it in (queues if kind == "queue" else exchanges)])
        key = a_key(chance) if chance.random() < 0.7 else f"k{chance.randrange(70)}"
        bindings.append({"source": chance.choice(names), "destination": name, "destination_type": kind, "routing_key": key, "arguments": {}})
    common = {"vhost": "/", "durable": True, "auto_delete": False}
    bindings = [{"vhost": "/", **it} for it in bindings]
    return {"vhosts": [{"name": "/"}], "users": [], "permissions": [], "exchanges": [{**common, **it} for it in exchanges], "queues": [{**common, **it} for it in queues], "bindings": bindings}


def a_guarantee(chance, topology):
    it = {
        "mode": chance.choice(("reaches", "never")),
        "exchange": chance.choice(["", *(it["name"] for it in topology["exchanges"])]),
        "pattern": a_key(chance),
        "queue": chance.choice(topology["queues"])["name"],
    }
    if chance.random() < 0.3:
        it["except"] = [a_key(chance) for _ in range(chance.randint(0, 3))]
    return it


def other_number(chance, number):
    return chance.choice((number + 1, number - 1, number ^ 1 << chance.randrange(6), 0, 1, 1 << 63, 1 << 64, -1, 1.5, "1", None, True))


def change(chance, certificate):
    """One change of a certificate, in place."""
    states = certificate["states"]
    kind = chance.randrange(12)
    if kind < 3 and states:
        del states[chance.randrange(len(states))]
    elif kind < 5 and states:
        state = chance.choice(states)
        if state:
            place = chance.randrange(len(state))
            state[place] = other_number(chance, state[place]) if chance.random() < 0.2 or type(state[place]) is not int else state[place] ^ 1 << chance.randrange(4)
            if chance.random() < 0.8 and all(type(number) is int for it in states for number in it):
                certificate["states"] = [list(it) for it in sorted({tuple(it) for it in states})]
    elif kind == 5 and states:
        states.append([number + chance.randrange(2) for number in states[-1] if type(number) is int])
    elif kind == 6 and len(states) > 1:
        chance.shuffle(states)
    elif kind == 7:
        certificate["form"] = chance.choice((1, 2, 3, 4, "1", 2.0))
        members = {"tracked": list(range(len(states[0]) if states else 1)), "except": ["a"]}
        for name in ("tracked", "except"):
            if chance.random() < 0.7:
                certificate.setdefault(name, members[name])
    elif kind == 8 and "tracked" in certificate:
        drop_place(chance, certificate)
    elif kind == 9:
        certificate[chance.choice(("mode", "exchange", "pattern", "queue"))] = chance.choice(("X", "a", "#", "reaches", "never", "q", 7))
    elif kind == 10 and "except" in certificate and isinstance(certificate["except"], list):
        chance.shuffle(certificate["except"])
    elif kind == 11 and chance.random() < 0.3:
        del certificate[chance.choice(sorted(certificate))]


def drop_place(chance, certificate):
    """A pattern less or one more, with its numbers."""
    tracked = certificate["tracked"]
    if len(tracked) > 1 and chance.random() < 0.7:
        place = chance.randrange(1, len(tracked))
        del tracked[place]
        for it in certificate["states"]:
            del it[place : place + 1]
        with contextlib.suppress(TypeError):
            certificate["states"] = [list(it) for it in sorted({tuple(it) for it in certificate["states"]})]
    else:
        tracked.append(chance.choice((tracked[-1] + 1 if tracked and type(tracked[-1]) is int else 0, 64, 65, 0, -1)))
        for it in certificate["states"]:
            it.append(0)


def found(comparison, chance):
    """The texts of a topology, its guarantees and the certificates that `warren check` found for them."""
    while True:
        topology = a_topology(chance)
        guarantees = [a_guarantee(chance, topology) for _ in range(12)]
        files = comparison.write(json.dumps(topology), json.dumps({"guarantees": guarantees}))
        lines = comparison.run("check", *files[:2])[1].splitlines()
        guarantees = [it for it, line in zip(guarantees, lines) if " yes " in line]
        if guarantees:
            comparison.write(json.dumps(topology), json.dumps({"guarantees": guarantees}))
            comparison.run("check", *files[:2], "--out", files[2])
            with open(files[2], encoding="utf-8") as file:
                return topology, guarantees, json.load(file)


def main(warren, count, seed):
    chance = random.Random(seed)
    with tempfile.TemporaryDirectory() as folder:
        comparison = Comparison(warren, folder)
        compared = 0
        for row in rows("certificates.lines"):
            if row.kind == "check":
                guarantee, _ = guarantee_of(row.words)
                comparison.same(row.files[0], json.dumps({"guarantees": [guarantee]}), row.files[1])
            elif row.kind == "certificates":
                comparison.same(text_of("files/topic_orders.json"), json.dumps({"guarantees": []}), row.files[0])
            elif row.kind == "certificates-hex":
                data = b"".join(bytes.fromhex(it[0]) * int(it[1] if it[1:] else 1) for it in (word.split("*") for word in row.words))
                comparison.same(text_of("files/topic_orders.json"), json.dumps({"guarantees": []}), data)
            compared += row.kind in ("check", "certificates", "certificates-hex")
        print(f"{compared} rows, {comparison.differ} differ")
        mutated = 0
        while mutated < count:
            topology, guarantees, certificates = found(comparison, chance)
            comparison.same(json.dumps(topology), json.dumps({"guarantees": guarantees}), json.dumps(certificates))
            for _ in range(3):
                changed = copy.deepcopy(certificates)
                for it in changed:
                    for _ in range(chance.randint(0, 2)):
                        with contextlib.suppress(KeyError):
                            change(chance, it)
                if chance.random() < 0.1:
                    guarantees = chance.sample(guarantees, len(guarantees))
                # one by one, since a member of the wrong kind refuses the whole file
                for guarantee, it in zip(guarantees, changed):
                    if chance.random() < 0.4:
                        it["queue"] = chance.choice(topology["queues"])["name"]
                        guarantee = {**guarantee, "queue": it["queue"]}
                    comparison.same(json.dumps(topology), json.dumps({"guarantees": [guarantee]}), json.dumps([it]))
                    mutated += 1
        print(f"{mutated} mutated certificates, {comparison.differ} differ")
        print(", ".join(f"{name}: {number}" for name, number in sorted(comparison.answers.items())))
        return 1 if comparison.differ else 0


if __name__ == "__main__":
    sys.exit(main(sys.argv[1], *(int(it) for it in (sys.argv[2:] + ["1000", "5"][len(sys.argv[2:]) :]))))
