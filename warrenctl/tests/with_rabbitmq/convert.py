"""Tries convert on a RabbitMQ: python3 -m warrenctl.tests.with_rabbitmq.convert [--write]

It declares at a node what declare.py declares, compares the node's exports with those of this folder, makes definitions files of them, and has
a new node take each. With --write it keeps the exports in place of those of this folder. Status 0 if all was as expected, or if RabbitMQ is
not installed, which a line says; 1 otherwise.
"""

import json
import os
import sys

from dev.beds.rabbit import NotHere, Rabbit
from warrenctl.commands.convert.convert import convert
from warrenctl.tests.declare import declare

HERE = os.path.dirname(os.path.abspath(__file__))

PARTS = ("exchanges", "queues", "bindings", "policies", "parameters")


def exports_of(rabbit):
    """The three exports, by name."""
    declare(rabbit.management)
    written = os.path.join(rabbit.folder, "control.json")
    rabbit.control("export_definitions", written)
    with open(written, encoding="utf-8") as file:
        control = json.load(file)
    return {"shop_and_office": rabbit.export_definitions(), "office_alone": rabbit.export_definitions("office"), "control": control}


def parts(value):
    """The entries of an export, in any order. Predeclared exchanges are in no export."""
    return {(part, json.dumps(it, sort_keys=True)) for part in PARTS for it in value.get(part, []) if not str(it.get("name")).startswith("amq.")}


def differ(what, one, other):
    """Tells what stands in one of two exports alone; whether anything does."""
    alone = [(part, it, "missing") for part, it in parts(one) - parts(other)] + [(part, it, "new") for part, it in parts(other) - parts(one)]
    for part, it, how in sorted(alone):
        print(f"{what}: {how} in {part}: {it}")
    return bool(alone)


def taken(made):
    """What a new node exports once it has taken this file."""
    with Rabbit() as rabbit:
        rabbit.add_user("reader", "reader", "administrator")
        rabbit.import_definitions(made)
        return rabbit.api("definitions", user="reader", password="reader")


def path_of(name):
    return os.path.join(HERE, "../exports", f"{name}.json")


def main(writes):
    with Rabbit() as rabbit:
        exports = exports_of(rabbit)
    wrong = False
    for name, value in exports.items():
        if writes:
            with open(path_of(name), "w", encoding="utf-8") as file:
                json.dump(value, file, separators=(",", ":"))
        with open(path_of(name), encoding="utf-8") as file:
            wrong |= differ(f"{name}.json", json.load(file), value)
        made, _ = convert(value)
        wrong |= differ(f"made of {name}.json", made, taken(made))
        print(f"{name}: taken by RabbitMQ")
    return 1 if wrong else 0


if __name__ == "__main__":
    try:
        sys.exit(main(sys.argv[1:] == ["--write"]))
    except NotHere as error:
        print(f"warrenctl.tests.with_rabbitmq.convert: skipped, {error}")
