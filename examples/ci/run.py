"""Checks an export as a pipeline does: as it is, with one binding changed, with one more, and with what may break a guarantee unseen.

    python3 -m examples.ci.run WARREN

WARREN is the program of that crate. Then a RabbitMQ takes each of these exports, and a message goes where the report says. It wants Debian's
rabbitmq-server: without it that is left out, which a line says. The status is not 0 if something differs."""

import json
import os
import re
import subprocess
import sys
import tempfile
import time
import xml.etree.ElementTree as tree

from dev.beds.example import run_example
from dev.beds.rabbit import NotHere, Rabbit
from dev.beds.staging import PATIENCE, REST, wanted

HERE = os.path.dirname(os.path.realpath(__file__))
sys.dont_write_bytecode = True


EXPORT, GUARANTEES = (os.path.join(HERE, f"{it}.json") for it in ("export", "guarantees"))
# which key breaks a guarantee is the program's choice: of the shop, those of two words come to the screen
KEY = re.compile(r"(?<=NO: )`(orders\.[^.`]+)`")


def lines_of(name):
    with open(os.path.join(HERE, name), encoding="utf-8") as file:
        return file.read().splitlines()


def exported():
    with open(EXPORT, encoding="utf-8") as file:
        return json.load(file)


def with_a_binding_changed():
    """The records no longer get the key `orders` itself."""
    value = exported()
    binding = next(it for it in value["bindings"] if it["routing_key"] == "orders.#")
    binding["routing_key"] = "orders.*.#"
    return value


def with_one_more():
    """What expires on the screen comes to `mail` as well."""
    value = exported()
    late = next(it for it in value["bindings"] if it["source"] == "late")
    value["bindings"].append({**late, "destination": "mail"})
    return value


def with_a_queue_that_goes():
    value = exported()
    value["queues"].append({"name": "session", "durable": True, "auto_delete": True, "arguments": {}})
    value["bindings"].append({"source": "shop", "destination": "session", "destination_type": "queue", "routing_key": "orders.*", "arguments": {}})
    return value


class Checked:
    """What `check` says of an export: its status, its lines, and its report."""

    def __init__(self, warren, value, *words):
        with tempfile.TemporaryDirectory() as folder:
            export, report = os.path.join(folder, "export.json"), os.path.join(folder, "report.xml")
            with open(export, "w", encoding="utf-8") as file:
                json.dump(value, file)
            command = [os.path.join(HERE, "check"), export, GUARANTEES, report, *words]
            done = subprocess.run(command, capture_output=True, text=True, env={**os.environ, "WARREN": warren})
            self.status, self.lines, self.said = done.returncode, done.stdout.splitlines(), done.stderr.splitlines()
            self.failed = self.tests = None
            if os.path.exists(report):
                cases = list(tree.parse(report).iter("testcase"))
                self.tests, self.failed = len(cases), [case.get("name") for case in cases if case.find("failure") is not None or case.find("error") is not None]


def of_the_pipeline(warren):
    passed, failed = lines_of("passed"), lines_of("failed")
    checked = Checked(warren, exported())
    yield wanted("the export as it is", (checked.status, checked.lines, checked.tests, checked.failed) == (0, passed, 6, []), vars(checked))
    yield wanted("and what a yes says of that RabbitMQ", checked.said == lines_of("stays"), checked.said)
    checked = Checked(warren, with_a_binding_changed())
    yield wanted("one binding is changed: a key breaks a guarantee", (checked.status, checked.lines) == (1, [failed[0], *passed[1:]]), vars(checked))
    yield wanted("and the report has it", (checked.tests, checked.failed) == (6, ["every `orders.#` of `shop` reaches `audit`"]), vars(checked))
    checked = Checked(warren, with_one_more())
    lines = [KEY.sub("`orders.new`", it) for it in checked.lines]
    yield wanted("one binding more: a path breaks a guarantee", (checked.status, lines) == (1, [*passed[:3], failed[1], passed[4]]), vars(checked))
    yield wanted("and the report has it", (checked.tests, checked.failed) == (6, ["nothing of `shop` reaches `mail`"]), vars(checked))
    checked = Checked(warren, with_a_queue_that_goes())
    yield wanted("an auto-delete queue: status 1, and all hold", (checked.status, checked.lines, checked.said[-1]) == (1, passed, "written, but 1 change MAY BREAK A `yes`"), vars(checked))
    yield wanted("and the report has it", checked.failed == ['queue "session": auto_delete is now false'], vars(checked))
    part = Checked(warren, with_a_queue_that_goes(), "--only", "audit", "billing", "screen", "late", "mail")
    yield wanted("the queues of the guarantees alone: status 0", (part.status, part.lines) == (0, passed), vars(part))
    checked = Checked(warren, {"error": "not_authorised", "reason": "Login failed"})
    yield wanted("an answer that is no export: status 3", (checked.status, len(checked.said), checked.failed) == (3, 1, ["a definitions file is made"]), vars(checked))


def arrives(rabbit, key, queue):
    """Publishes to the shop, and returns whether the message comes to a queue."""
    rabbit.api("exchanges/%2F/shop/publish", {"properties": {}, "routing_key": key, "payload": "two loaves", "payload_encoding": "string"}, "POST")
    end = time.monotonic() + PATIENCE
    while time.monotonic() < end:
        if rabbit.api(f"queues/%2F/{queue}/get", {"count": 1, "ackmode": "ack_requeue_false", "encoding": "auto"}, "POST"):
            return True
        time.sleep(REST)
    return False


def key_of(warren):
    """The key that breaks a guarantee once there is one binding more."""
    return next(it.group(1) for it in map(KEY.search, Checked(warren, with_one_more()).lines) if it)


def of_a_rabbitmq(warren):
    with Rabbit() as rabbit:
        rabbit.import_definitions(exported(), "/")
        yield wanted("in RabbitMQ: the key orders comes to audit", arrives(rabbit, "orders", "audit"))
    with Rabbit() as rabbit:
        rabbit.import_definitions(with_a_binding_changed(), "/")
        yield wanted("with the binding changed: it comes to lost", arrives(rabbit, "orders", "lost"))
        left = rabbit.api("queues/%2F/audit/get", {"count": 1, "ackmode": "ack_requeue_false", "encoding": "auto"}, "POST")
        yield wanted("and not to audit", left == [], left)
    with Rabbit() as rabbit:
        rabbit.import_definitions(with_one_more(), "/")
        key = key_of(warren)
        yield wanted(f"with one binding more: the key {key} comes to mail, once it expires", arrives(rabbit, key, "mail"))


def main(warren):
    outcomes = list(of_the_pipeline(warren))
    try:
        outcomes += of_a_rabbitmq(warren)
    except NotHere as error:
        print(f"examples/ci: the rest is skipped: {error}")
    return 0 if all(outcomes) else 1


if __name__ == "__main__":
    sys.exit(run_example("examples/ci", __doc__, main))
