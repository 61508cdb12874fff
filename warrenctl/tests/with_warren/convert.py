"""Compares what convert tells with what warren tells: python3 -m warrenctl.tests.with_warren.convert WARREN

Of each file: the least cause. Of each that is made of an export: that it is taken, and that each queue is found by its name.
"""

import copy
import json
import random
import subprocess
import sys
import tempfile

from warrenctl.commands.convert.convert import NoFile, convert
from warrenctl.files.causes import causes_in
from warrenctl.tests.test_convert import Bad, export

OTHERS = [None, True, 0, -1, 5_000_000_000, 1.5, "", "a..b", ".", "x" * 300, "q", [], {}, [1], {"a": 1}, "headers", {"x-max-length": 3}]


class Comparison:
    def __init__(self, warren):
        self.warren = warren
        self.files = 0
        self.differ = 0

    def route(self, value, key):
        with tempfile.NamedTemporaryFile("w", suffix=".json", encoding="utf-8") as file:
            json.dump(value, file, ensure_ascii=False)
            file.flush()
            done = subprocess.run([self.warren, "route", file.name, "", "--", key], capture_output=True, text=True)
            return done.returncode, (done.stdout + done.stderr.replace(file.name, "FILE")).strip()

    def least(self, value):
        self.files += 1
        causes = causes_in(value)
        wanted = f"warren: FILE: refused {min(it.number for it in causes)}" if causes else ""
        self.same(self.route(value, "nothing_has_this_name"), (3 if causes else 0, wanted))

    def made(self, value):
        try:
            made, _ = convert(value)
        except NoFile:
            return
        self.least(made)
        for name in [it["name"] for it in made["queues"]][:3]:
            self.same(self.route(made, name), (0, json.dumps(name)))

    def same(self, got, wanted):
        if got != wanted:
            self.differ += 1
            print(f"got {got}, wanted {wanted}")


def main(warren):
    comparison = Comparison(warren)
    chance = random.Random(2)
    for name in ("shop_and_office.json", "office_alone.json", "control.json", "newer.json", "thirty.json"):
        value = json.loads(export(name))
        comparison.least(value)
        comparison.made(value)
        good, _ = convert(value)
        for _ in range(30):
            other = copy.deepcopy(chance.choice([value, good, good]))
            for _ in range(chance.randint(1, 2)):
                Bad().replace(other, chance, OTHERS)
            comparison.least(other)
            comparison.made(other)
    print(f"{comparison.files} files, {comparison.differ} differ")
    return 1 if comparison.differ else 0


if __name__ == "__main__":
    sys.exit(main(sys.argv[1]))
