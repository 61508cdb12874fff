"""The tests of convert, which want Python 3 alone: python3 -m dev.unit test_convert

What is expected was written by hand: the causes of crates/line_cases/data/definitions.lines, the lines of thirty.told, what declare.py
declared that warren does not take, and the rows of stays.py.
"""

import copy
import json
import os
import random
import re
import stat
import subprocess
import tempfile
import unittest

from dev import ROOT
from dev.beds.commands import warrenctl
from dev.beds.rows import text_of
from warrenctl.commands.convert import still
from warrenctl.commands.convert.convert import NoFile, convert
from warrenctl.commands.convert.part import part_of
from warrenctl.commands.convert.report import sections
from warrenctl.files.causes import causes_in, causes_of, read_json
from warrenctl.tests.stays import BREAKS, STAYS, binding, exchange, export as export_of, parameter, queue

HERE = os.path.dirname(os.path.abspath(__file__))
ROWS = os.path.join(ROOT, "crates/line_cases/data")


def export(name):
    with open(os.path.join(HERE, "exports", name), "rb") as file:
        return file.read()


def run(*words, given=b""):
    done = subprocess.run([*warrenctl("convert"), *words], input=given, capture_output=True)
    return done.returncode, done.stdout.decode(), done.stderr.decode()


class Rows(unittest.TestCase):
    """The least cause is the one that stands in the rows of the reader of definitions files."""

    def bytes_of(self, asked):
        kind, _, rest = asked.partition(" ")
        if kind == "definitions-hex":
            parts = (word.split("*") for word in rest.split())
            return b"".join(bytes.fromhex(it[0]) * (int(it[1]) if it[1:] else 1) for it in parts)
        name, *edits = rest.split(" | ")
        text = text_of(name)
        for edit in edits:
            old, _, new = edit.partition(" =>")
            self.assertIn(old, text)
            text = text.replace(old, new.removeprefix(" "), 1)
        return text.encode()

    def test_each(self):
        with open(os.path.join(ROWS, "definitions.lines"), encoding="utf-8") as file:
            rows = [line.rstrip("\n").rpartition(" -> ") for line in file if line.startswith("definitions")]
        self.assertGreater(len(rows), 100)
        for asked, _, wanted in rows:
            with self.subTest(asked[:150]):
                causes = causes_of(self.bytes_of(asked.rstrip()))
                told = f"refused {min(it.number for it in causes)}" if causes else "read"
                self.assertEqual(told, wanted)


class Told(unittest.TestCase):
    def test_a_file_of_many_causes_is_told_whole(self):
        status, out, _ = run("--check", os.path.join(HERE, "exports/thirty.json"))
        with open(os.path.join(HERE, "exports/thirty.told"), encoding="utf-8") as file:
            wanted = file.read().splitlines()
        self.assertEqual(status, 1)
        self.assertEqual(out.splitlines()[-1], wanted[-1])
        self.assertEqual(sorted(out.splitlines()), sorted(wanted))
        numbers = [int(line.split(":")[0].split()[1]) for line in out.splitlines()[:-1]]
        self.assertEqual(numbers, sorted(numbers))

    def test_a_file_that_is_taken(self):
        with open(os.path.join(ROWS, "files/whole.json"), "rb") as file:
            self.assertEqual(run("--check", "-", given=file.read())[0], 0)


# of each entry in declare.py that warren does not take as it is: the cause, and whether its meaning changes
OF_BOTH = {
    ('vhost "office"', 3, True),
    ('user "robot"', 13, True),
    ('user "till"', 12, True),
    ('user "guest"', 12, True),
    ('user "guest"', 0, True),
    ('user "clerk"', 12, False),
    ('permission "robot"', 12, False),
    ('permission "guest"', 3, False),
    ('permission "clerk"', 3, False),
    ('exchange "desk"', 3, False),
    ('queue "tray"', 3, False),
    ('binding "desk" to queue "tray", key "#"', 3, False),
    ('queue "session"', 7, True),
    ('queue "packing"', 7, True),
    ('queue "packing"', 7, False),
    ('queue "packing"', 8, True),
    ('queue "audit"', 7, True),
    ('queue "billing"', 7, False),
    ('queue "billing"', 8, True),
    ('queue "dead"', 7, False),
    ('queue "dead"', 8, True),
    ('operator policy "most"', 7, True),
    ('operator policy "most"', 7, False),
    ('queue "billing"', 11, True),
    ('queue "lost"', 7, True),
    ('queue "replay"', 7, True),
    ('queue "odd..name"', 9, True),
    ('exchange "by_header"', 6, True),
    ('exchange "payments"', 7, False),
    ('exchange "amq.topic"', 5, False),
    ('binding "by_header" to queue "audit", key ""', 5, True),
    ('binding "shop" to queue "odd..name", key "odd.*"', 5, True),
    ('binding "payments" to queue "billing", key "paid"', 7, False),
    ('policy "deaths"', 7, True),
    ('policy "others"', 7, False),
    ('parameter "limits"', 7, False),
    ('topic permission "clerk"', 7, False),
}
# rabbitmqctl leaves out `internal` and the exchange that is internal, and gives each queue a type
OF_CONTROL = OF_BOTH | {("file", 2, False), ("file", 2, True)}
OF_CONTROL |= {(f'queue "{name}"', 7, False) for name in ("session", "dead", "lost", "billing", "audit", "replay")}
OF_CONTROL |= {
    (f"binding {it}", 5, True)
    for it in (
        '"shop" to exchange "records", key "orders.#"',
        '"payments" to exchange "records", key "paid"',
        '"records" to queue "audit", key ""',
        '"records" to queue "replay", key ""',
    )
}
OF_OFFICE = {
    ("file", 2, False),
    ("file", 2, True),
    ("file", 3, False),
    ('exchange "desk"', 2, False),
    ('queue "tray"', 2, False),
    ('binding "desk" to queue "tray", key "#"', 2, False),
    ('parameter "limits"', 7, True),
}


class Exports(unittest.TestCase):
    """Exports of RabbitMQ 3.10.8, taken of what declare.py declares."""

    def changes(self, name, wanted):
        made, changes = convert(read_json(export(name)))
        self.assertEqual({(it.entry, it.number, it.meaning is not None) for it in changes}, wanted)
        self.assertEqual(causes_in(made), [])
        return made

    def test_of_the_management_interface(self):
        made = self.changes("shop_and_office.json", OF_BOTH)
        queues = {it["name"]: it["arguments"] for it in made["queues"]}
        self.assertEqual(queues["packing"], {"x-dead-letter-exchange": "strays", "x-max-length": 20, "x-overflow": "reject-publish"})
        self.assertEqual({name: queues[name]["x-max-length"] for name in ("billing", "dead", "lost")}, {"billing": 20, "dead": 20, "lost": 10})
        self.assertEqual(sorted(queues), ["audit", "billing", "dead", "lost", "packing", "replay", "session"])
        exchanges = {it["name"]: it for it in made["exchanges"]}
        self.assertEqual(exchanges["payments"]["arguments"], {"alternate-exchange": "strays"})
        self.assertTrue(exchanges["records"]["internal"])
        self.assertEqual(len(made["bindings"]), 8)
        self.assertEqual([it["name"] for it in made["users"]], [it["user"] for it in made["permissions"]])

    def test_of_one_virtual_host(self):
        made = self.changes("office_alone.json", OF_OFFICE)
        self.assertEqual(made["queues"][0]["arguments"], {"x-max-length": 5, "x-overflow": "reject-publish"})

    def test_of_rabbitmqctl(self):
        made = self.changes("control.json", OF_CONTROL)
        self.assertEqual(len(made["bindings"]), 4)

    def test_another_virtual_host_is_chosen(self):
        made, changes = convert(read_json(export("shop_and_office.json")), "office")
        self.assertEqual([it["name"] for it in made["queues"]], ["tray"])
        self.assertEqual(sorted(it["name"] for it in made["users"]), ["clerk", "guest"])
        self.assertIn('vhost "office"', [it.entry for it in changes])
        with self.assertRaises(NoFile):
            convert(read_json(export("shop_and_office.json")), "nowhere")

    def test_newer_forms(self):
        """Written by hand in the form of RabbitMQ 4: metadata and limits of hosts, a queue type for each queue, a delayed exchange."""
        made, changes = convert(read_json(export("newer.json")))
        self.assertEqual(causes_in(made), [])
        self.assertEqual([it["type"] for it in made["exchanges"]], ["topic"])
        self.assertEqual(made["queues"][0]["arguments"], {"x-max-length": 10, "x-overflow": "reject-publish"})
        told = {(it.entry, it.number, it.meaning is not None) for it in changes}
        wanted = {('user "app"', 12, False), ('user "app"', 0, True), ('queue "jobs"', 7, True), ('exchange "later"', 6, True), ('exchange "later"', 7, False)}
        self.assertEqual(told, wanted | {('queue "jobs"', 7, False), ('queue "jobs"', 8, True), ('operator policy "ops"', 7, False)})


def small(**lists):
    """An export of one virtual host with these entries, each short of what all have alike."""
    queues = [{"vhost": "/", "durable": True, "auto_delete": False, "arguments": {}, **it} for it in lists.get("queues", [])]
    exchanges = [{"vhost": "/", "type": "topic", "durable": True, "auto_delete": False, "internal": False, "arguments": {}, "name": it} for it in ("X", "retry")]
    hash_of = json.loads(export("newer.json"))["users"][0]["password_hash"]
    users = [{"name": name, "password_hash": hash_of, "hashing_algorithm": "rabbit_password_hashing_sha256", "tags": []} for name in lists.get("rights", {})]
    rights = [{"user": name, "vhost": "/", **dict(zip(("configure", "write", "read"), it))} for name, it in lists.get("rights", {}).items()]
    policies = [{"vhost": "/", "pattern": "", "priority": 0, "name": f"p{number}", **it} for number, it in enumerate(lists.get("policies", []))]
    operators = [{"pattern": "", "priority": 0, "apply-to": "queues", **it} for it in lists.get("operator_policies", [])]
    parameters = [{"vhost": "/", "component": "operator_policy", "name": f"o{number}", "value": it} for number, it in enumerate(operators)]
    topics = [{"user": it, "vhost": "/", "exchange": "X", "write": "^a", "read": ".*"} for it in lists.get("topics", [])]
    return {
        "vhosts": [{"name": "/"}],
        "users": users,
        "permissions": rights,
        "exchanges": exchanges,
        "queues": queues,
        "bindings": [],
        "policies": policies,
        "parameters": parameters,
        "topic_permissions": topics,
    }


class Meaning(unittest.TestCase):
    """What RabbitMQ does is in its documentation: queues and policies, "Dead Letter Exchanges", "Access Control"."""

    def arguments(self, **lists):
        made, _ = convert(small(**lists))
        return {it["name"]: it["arguments"] for it in made["queues"]}

    def meanings(self, **lists):
        _, changes = convert(small(**lists))
        return [f"{it.entry}: {it.meaning}" for it in changes if it.meaning]

    def test_a_policy_for_queues_of_another_type_hides_none(self):
        queues = [{"name": "plain"}, {"name": "old", "type": "classic"}, {"name": "copied", "arguments": {"x-queue-type": "quorum"}}]
        policies = [
            {"priority": 9, "apply-to": "quorum_queues", "definition": {"max-length": 7, "overflow": "reject-publish"}},
            {"priority": 1, "apply-to": "classic_queues", "definition": {"dead-letter-exchange": "X"}},
        ]
        classic, quorum = {"x-dead-letter-exchange": "X"}, {"x-max-length": 7, "x-overflow": "reject-publish"}
        self.assertEqual(self.arguments(queues=queues, policies=policies), {"plain": classic, "old": classic, "copied": quorum})
        for applies in ("all", "queues"):
            policies[1] |= {"priority": 10, "apply-to": applies}
            self.assertEqual(self.arguments(queues=queues, policies=policies), dict.fromkeys(("plain", "old", "copied"), classic))
        for applies in ("exchanges", "streams", "no_such", None):
            policies[1]["apply-to"] = applies
            self.assertEqual(self.arguments(queues=queues, policies=policies), {"plain": {}, "old": {}, "copied": quorum})

    def test_where_nothing_goes_on_any_more(self):
        dead = {"x-dead-letter-exchange": "retry"}
        rest = 'nothing goes on to "retry" any more but what is rejected'
        for arguments, told in (
            ({"x-message-ttl": 1000}, f"messages no longer expire, so {rest}"),
            ({"x-delivery-limit": 3}, f"a message may be given out again any number of times, so {rest}"),
            ({"x-max-length": 3, "x-overflow": "drop-head"}, f"a full queue refuses what comes and keeps what it has; {rest}"),
            ({"x-max-length": 3}, f"a full queue refuses what comes and keeps what it has; RabbitMQ drops the oldest; {rest}"),
        ):
            self.assertEqual(self.meanings(queues=[{"name": "q", "arguments": {**arguments, **dead}}]), [f'queue "q": {told}'])
            self.assertNotIn("goes on", self.meanings(queues=[{"name": "q", "arguments": arguments}])[0])
        here = self.meanings(queues=[{"name": "q", "arguments": {"x-message-ttl": 1, "x-dead-letter-exchange": "", "x-dead-letter-routing-key": "r"}}])
        self.assertEqual(here, ['queue "q": messages no longer expire, so nothing goes on to the default exchange any more but what is rejected'])

    def test_operator_policies(self):
        """tests/with_rabbitmq_limits.py asks a RabbitMQ the same."""
        queues = [{"name": "own", "arguments": {"x-max-length": 3}}, {"name": "loose", "arguments": {"x-max-length": 30}}, {"name": "plain"}]
        policies = [{"definition": {"max-length": 7, "overflow": "reject-publish"}}, {"pattern": "^plain", "definition": {"max-length": 1000}, "priority": 5}]
        operators = [{"definition": {"max-length": 5, "message-ttl": 9}, "priority": 1}, {"definition": {"max-length": 2}}]
        for some, wanted in (([], (3, 7, 1000)), (operators, (3, 5, 5)), (operators[1:], (2, 2, 2)), ([{**operators[1], "apply-to": "exchanges"}], (3, 7, 1000))):
            made = self.arguments(queues=queues, policies=policies, operator_policies=some)
            self.assertEqual(tuple(made[name]["x-max-length"] for name in ("own", "loose", "plain")), wanted)
        _, changes = convert(small(queues=queues, operator_policies=operators[:1]))
        told = {(it.entry, it.what) for it in changes}
        self.assertIn(('queue "loose"', 'x-max-length 5 is added, from operator policy "o0"'), told)
        self.assertIn(('operator policy "o0"', 'message-ttl 9 is left out, of queues "own", "loose", "plain"'), told)
        self.assertFalse([it for it in changes if it.entry.startswith("parameter") or it.entry == 'queue "own"' and "is added, from" in it.what])
        # as rabbitmqctl writes them
        pairs = small(queues=queues, operator_policies=[{"definition": [["max-length", 2]]}])
        self.assertEqual({it["arguments"]["x-max-length"] for it in convert(pairs)[0]["queues"]}, {2})
        _, changes = convert(small(operator_policies=[{"pattern": "("}, {"definition": 7}]))
        self.assertEqual([it.entry for it in changes if it.meaning], ['operator policy "o0"', 'operator policy "o1"'])

    def test_rights(self):
        rights = {"none": ("", "", ""), "shut": ("^$", "^$", ""), "same": ("", ".*", ".*"), "reader": ("^$", "", ".*"), "admin": (".*", ".*", ".*"), "keys": ("^$", ".*", ".*")}
        status, out, said = run("-", "--all", given=json.dumps(small(rights=rights, topics=["keys", "none"])).encode())
        self.assertEqual(status, 0)
        self.assertEqual([it["name"] for it in json.loads(out)["users"]], ["same", "reader", "admin", "keys"])
        self.assertEqual([it["user"] for it in json.loads(out)["permissions"]], ["same", "reader", "admin", "keys"])
        self.assertEqual(said.splitlines()[-1], 'RIGHTS GREW of users "reader", "keys"')
        guest = run("-", given=json.dumps(small(rights={"guest": ("^$", ".*", ".*")})).encode())[2].splitlines()
        self.assertEqual(guest[0], "who may do what:")
        self.assertIn("it may log in from everywhere", guest[1])
        self.assertEqual(guest[-1], 'RIGHTS GREW of user "guest"')
        told = {it for it in said.splitlines() if "CHANGES MEANING" in it}
        for name in ("none", "shut"):
            self.assertIn(f'  user "{name}": left out: it may neither publish nor consume, and each user of warren may do both (refused 12). CHANGES MEANING: this user can no longer log in', told)
        self.assertFalse([it for it in told if 'user "same"' in it])
        self.assertEqual(len([it for it in told if 'user "reader"' in it]), 1)
        self.assertFalse([it for it in told if 'topic permission "none"' in it])
        status, _, said = run("-", given=json.dumps(small(rights={"same": ("", ".*", ".*")})).encode())
        self.assertTrue(said.splitlines()[-1].startswith("written: "))

    def test_changes_of_meaning_come_last_and_by_weight(self):
        queues = [{"name": "q", "arguments": {"x-max-priority": 3, "x-max-length": 3}, "type": "classic"}]
        lines = run("-", "--all", given=json.dumps(small(queues=queues, rights={"till": ("^$", "^X$", ".*")})).encode())[2].splitlines()
        lines = lines[lines.index("all changes:") + 1 :]
        self.assertEqual([it.split(":")[0] for it in lines[:-2]], ['  queue "q"', '  user "till"', '  queue "q"', '  queue "q"'])
        self.assertNotIn("CHANGES MEANING", lines[0])
        self.assertIn("a full queue refuses", lines[2])
        self.assertIn("whatever their priority", lines[3])

    def test_what_a_policy_sets_is_said_once(self):
        queues = [{"name": f"q{it}"} for it in range(10)] + [{"name": "dead", "arguments": {"x-dead-letter-exchange": "X"}}]
        _, changes = convert(small(queues=queues, policies=[{"definition": {"message-ttl": 5, "ha-mode": "all"}}]))
        told = [(it.entry, it.what, it.meaning) for it in changes]
        names = ", ".join(f'"q{it}"' for it in range(8))
        rest = 'messages no longer expire, so nothing goes on any more from queue "dead" to a dead-letter exchange but what is rejected'
        self.assertEqual(told[0], ('policy "p0"', f"message-ttl 5 is left out, of queues {names} and 3 more", rest))
        self.assertEqual([it[0] for it in told], ['policy "p0"'] * 2)
        self.assertIn("ha-mode", told[1][1])

    def test_an_export_of_rabbitmqctl(self):
        lines = run("-", given=export("control.json"))[2].splitlines()
        self.assertTrue(lines[0].startswith("file: no exchange says whether it is internal, as in an export of rabbitmqctl, "), lines[0])
        self.assertEqual(len([it for it in lines if "internal" in it]), 2)
        _, changes = convert({"rabbitmq_version": "3.10.8", "queues": [], "exchanges": []})
        self.assertEqual(len([it for it in changes if "rabbitmqctl" in it.what]), 1)
        self.assertFalse(run("-", given=export("shop_and_office.json"))[2].startswith("file"))


def bound(*entries):
    """Bindings: of each the source, the key, the kind of what it leads to, and its name."""
    return [{"source": source, "vhost": "/", "destination": name, "destination_type": kind, "routing_key": key, "arguments": {}} for source, key, kind, name in entries]


class Table(unittest.TestCase):
    def told(self, value, *words):
        status, _, said = run("-", *words, given=json.dumps(value).encode())
        self.assertEqual(status, 0, said)
        return said.splitlines()

    def test_a_line_for_each_queue(self):
        names = ("kept", "late", "copied", "old", "a..b", "short")
        arguments = {"late": {"x-message-ttl": 5, "x-max-priority": 2}, "copied": {"x-queue-type": "quorum"}, "short": {"x-max-length": 3, "x-overflow": "reject-publish"}}
        queues = [{"name": it, "arguments": arguments.get(it, {})} for it in names]
        value = small(queues=queues, policies=[{"pattern": "^old", "definition": {"max-length": 9, "expires": 5}, "apply-to": "queues"}])
        wanted = [
            'queue     in warren',
            '"kept"    as before',
            '"late"    changed: priority, expiry',
            '"copied"  changed: quorum',
            '"old"     changed: drop-head, queue expiry',
            '"short"   as before',
            '"a..b"    cannot: its name has an empty word',
        ]
        lines = self.told(value)
        self.assertEqual([sorted(re.split(r"[:,] ?", it)) for it in lines[:7]], [sorted(re.split(r"[:,] ?", it)) for it in wanted])
        self.assertEqual(lines[7:11], ["where:", "  expiry: messages no longer expire", "  priority: messages are given out as they came, whatever their priority", "  queue expiry: the queue is no longer deleted when nobody uses it"])
        self.assertEqual(lines[11], "LOSES OR MISROUTES messages:")
        self.assertEqual([it.split(":")[0] for it in lines[12:15]], ['  queue "a..b"', '  queue "copied"', '  queue "old"'])
        self.assertFalse([it for it in lines if "CHANGES MEANING" in it])

    def test_what_is_without_meaning_is_told_by_all(self):
        value = small(queues=[{"name": "q", "type": "classic"}])
        self.assertFalse([it for it in self.told(value) if "classic" in it])
        self.assertIn('  queue "q": member "type" "classic" is left out (refused 7)', self.told(value, "--all"))

    def test_queues_behind_what_is_lost_are_changed(self):
        """`far` is behind X, to which the headers exchange led; `near` is bound by it; `other` has nothing to do with it."""
        value = small(queues=[{"name": it} for it in ("far", "near", "other")])
        value["exchanges"].append({**value["exchanges"][0], "name": "H", "type": "headers"})
        value["bindings"] = bound(("H", "", "exchange", "X"), ("X", "#", "queue", "far"), ("H", "", "queue", "near"), ("retry", "#", "queue", "other"))
        self.assertEqual([it.split(maxsplit=1)[1] for it in self.told(value)[1:4]], ["changed: routes", "changed: routes", "as before"])

    def test_alike_changes_are_one_line(self):
        lines = self.told(small(queues=[{"name": f"q{it}", "arguments": {"x-max-length": 3}} for it in range(32)]))
        self.assertEqual(len([it for it in lines if "drops the oldest" in it]), 1)
        self.assertLess(len(lines), 40)


class Only(unittest.TestCase):
    """shop leads to packing and, by records, to audit; strays catches what shop passes by, and leads to lost; packing's dead letters go to graves, by dead."""

    def value(self):
        queues = [{"name": "packing", "arguments": {"x-dead-letter-exchange": "dead"}}, *({"name": it} for it in ("audit", "lost", "graves", "bills"))]
        value = small(queues=queues)
        plain = value["exchanges"][0]
        value["exchanges"] = [{**plain, "name": it} for it in ("shop", "records", "strays", "dead", "pay")]
        value["exchanges"][0]["arguments"] = {"alternate-exchange": "strays"}
        value["bindings"] = bound(
            ("shop", "orders.*", "queue", "packing"),
            ("shop", "#.log", "exchange", "records"),
            ("records", "#", "queue", "audit"),
            ("strays", "#", "queue", "lost"),
            ("dead", "#", "queue", "graves"),
            ("pay", "#", "queue", "bills"),
        )
        return value

    def part(self, *names):
        part = part_of(self.value(), None, names)
        made, changes = convert(part.export, None, part.stays)
        self.assertEqual(causes_in(made), [])
        found = [{it["name"] for it in made[kind]} for kind in ("queues", "exchanges")]
        return *found, len(made["bindings"]), part.lines, changes

    def test_a_queue_and_what_leads_to_it(self):
        queues, exchanges, count, lines, changes = self.part("audit")
        self.assertEqual((queues, exchanges, count), ({"audit"}, {"shop", "records"}, 2))
        self.assertEqual(
            lines,
            [f'queue "{it}" stays: what is sent in warren to exchange "shop" does not reach it' for it in ("packing", "lost")],
        )
        self.assertIn('its alternate exchange "strays" is left out: it stays in RabbitMQ', [it.what for it in changes])

    def test_an_alternate_is_a_way(self):
        queues, exchanges, count, _, _ = self.part("lost")
        self.assertEqual((queues, exchanges, count), ({"lost"}, {"shop", "strays"}, 1))

    def test_dead_letters_between_the_part_and_the_rest(self):
        queues, exchanges, _, lines, _ = self.part("graves")
        self.assertEqual((queues, exchanges), ({"graves"}, {"dead"}))
        self.assertEqual(lines, ['queue "graves": dead letters of queue "packing", which stays, do not reach it: a shovel can bring them'])
        queues, exchanges, _, lines, changes = self.part("packing", "audit", "lost")
        self.assertEqual((queues, exchanges), ({"packing", "audit", "lost"}, {"shop", "records", "strays"}))
        self.assertEqual(lines, ['queue "graves" stays: dead letters of queue "packing", which went to it, do not reach it'])
        self.assertIn(('queue "packing"', "what is rejected is gone"), [(it.entry, it.meaning) for it in changes])
        queues, exchanges, _, lines, changes = self.part("packing", "graves", "audit", "lost")
        self.assertEqual((exchanges, lines), ({"shop", "records", "strays", "dead"}, []))
        self.assertFalse([it for it in changes if it.meaning])

    def test_an_exchange_stands_for_its_queues(self):
        self.assertEqual(self.part("shop")[:2], ({"packing", "audit", "lost"}, {"shop", "records", "strays"}))
        self.assertEqual(self.part("p*y")[:2], ({"bills"}, {"pay"}))
        self.assertEqual(self.part("*")[0], {"packing", "audit", "lost", "graves", "bills"})
        self.assertEqual(self.part("*")[3], [])
        with self.assertRaises(NoFile):
            self.part("audit", "p.y")

    def test_more_queues_than_warren_takes(self):
        value = json.loads(export("office_alone.json"))
        value["queues"] = [{**value["queues"][0], "name": f"q{it}"} for it in range(1_500)]
        value["bindings"] = [{**value["bindings"][0], "destination": it["name"]} for it in value["queues"]]
        status, out, _ = run("-", "--only", "q1*", given=json.dumps(value).encode())
        self.assertEqual((status, out), (3, ""))
        status, out, said = run("-", "--only", "q4", "q14*", given=json.dumps(value).encode())
        self.assertEqual((status, len(json.loads(out)["queues"])), (0, 112))
        self.assertEqual(causes_of(out.encode()), [])
        self.assertIn('queue "q0" stays: what is sent in warren to exchange "desk" does not reach it', said)

    def test_dead_letters_by_a_policy_and_by_what_warren_has_not(self):
        value = self.value()
        value["queues"][0]["arguments"] = {}
        value["exchanges"].append({**value["exchanges"][0], "name": "H", "type": "headers", "arguments": {}})
        value["bindings"] += bound(("H", "", "queue", "graves"))
        value["policies"] = [{"vhost": "/", "name": "p", "pattern": "^pack", "apply-to": "queues", "priority": 0, "definition": {"dead-letter-exchange": "H"}}]
        self.assertEqual(part_of(value, None, ["graves"]).lines, ['queue "graves": dead letters of queue "packing", which stays, do not reach it: a shovel can bring them'])

    def test_an_export_that_names_no_virtual_host(self):
        """As GET /api/definitions/VHOST gives it, if there are no policies."""
        value = {name: [{member: it for member, it in entry.items() if member != "vhost"} for entry in self.value()[name]] for name in ("exchanges", "queues", "bindings")}
        for words in ((), ("--vhost", "office")):
            status, out, _ = run("-", "--only", "audit", *words, given=json.dumps(value).encode())
            self.assertEqual((status, [it["name"] for it in json.loads(out)["queues"]]), (0, ["audit"]))

    def test_words(self):
        self.assertEqual(run("-", "--check", "--only", "q")[0], 3)
        self.assertEqual(run("-", "--check", "--strict")[0], 3)
        self.assertEqual(run("-", "--only", "no", given=json.dumps(self.value()).encode())[2], 'convert: -: --only "no": there is no such queue or exchange\n')


class Stays(unittest.TestCase):
    """What becomes of a `yes` for a RabbitMQ that stays; tests/with_rabbitmq_stays.py asks a RabbitMQ."""

    def test_each_kind(self):
        found = set()
        for row in STAYS:
            with self.subTest(row.title):
                made, changes = convert(row.export)
                self.assertEqual(causes_in(made), [])
                them = [it for it in changes if row.words in f"{it.entry}: {it.what}"]
                self.assertTrue(them, [f"{it.entry}: {it.what}" for it in changes])
                kinds = [kind for it in them for kind in it.still]
                self.assertEqual((still.TOLD[still.never_of(kinds)], still.TOLD[still.reaches_of(kinds)]), (row.never, row.reaches))
                found.update(kinds)
        self.assertEqual(found, set(still.KINDS))

    def test_each_change_is_marked(self):
        for row in STAYS:
            for it in convert(row.export)[1]:
                self.assertTrue(it.still and set(it.still) <= set(still.KINDS), it)

    def test_a_file_with_password_hashes_is_its_owners_alone(self):
        with tempfile.TemporaryDirectory() as folder:
            name = os.path.join(folder, "definitions.json")
            self.assertEqual(run("-", name, given=json.dumps(export_of()).encode())[0], 0)
            self.assertEqual(stat.S_IMODE(os.stat(name).st_mode), 0o600)
            os.chmod(name, 0o640)
            self.assertEqual(run("-", name, given=json.dumps(export_of()).encode())[0], 0)
            self.assertEqual(stat.S_IMODE(os.stat(name).st_mode), 0o640)

    def test_strict(self):
        for row in STAYS:
            with self.subTest(row.title):
                changes = convert(row.export)[1]
                if BREAKS in (row.never, row.reaches):
                    self.assertTrue(any(still.may_break(it.still) for it in changes))
        for export_, wanted in ((STAYS[0].export, 0), (export_of(queues=[queue("it", auto_delete=True)]), 1)):
            status, out, said = run("-", "--strict", given=json.dumps(export_).encode())
            self.assertEqual((status, "MAY BREAK" in said), (wanted, wanted == 1))
            self.assertEqual(causes_of(out.encode()), [])
            self.assertEqual(run("-", given=json.dumps(export_).encode())[:2], (0, out))

    def test_what_strict_tells(self):
        queues = [queue("late", {"x-message-ttl": 5}), queue("later", {"x-message-ttl": 9}), queue("gone", auto_delete=True)]
        said = run("-", "--strict", given=json.dumps(export_of(queues=queues)).encode())[2].splitlines()
        wanted = [
            "what a `yes` of warren check says of a RabbitMQ that stays:",
            '  queue "gone": auto_delete is now false: `reaches` may break: once it is gone, no binding leads to it',
            '  queues "late", "later": `reaches` says entered, not kept: what expires is gone, or goes where a rejected message goes',
            "written, but 1 change MAY BREAK A `yes`",
        ]
        self.assertEqual(said, wanted)
        self.assertEqual(run("-", "--strict", given=json.dumps(export_of()).encode())[2].splitlines(), [wanted[0], "  each holds"])
        every = run("-", "--all", given=json.dumps(export_of(queues=queues[2:])).encode())[2]
        self.assertIn(". FOR A RABBITMQ THAT STAYS: `reaches` may break: once it is gone, no binding leads to it\n", every)

    def strict(self, value, *names):
        status, _, said = run("-", "--strict", "--only", *names, given=json.dumps(value).encode())
        return status, said.splitlines()[1:]

    def test_a_part(self):
        """What is of the part alone counts; what comes back to it by dead letters does, and what an alternate exchange gets less of."""
        gone = queue("gone", auto_delete=True)
        value = export_of([exchange("Y")], [gone, queue("own")], [binding("Y", "a", "gone"), binding("X", "#", "own")])
        self.assertEqual(self.strict(value, "own"), (0, ["  each holds"]))
        self.assertEqual(self.strict(value, "gone")[0], 1)
        value = export_of([], [queue("stays", {"x-dead-letter-exchange": "F"})], [binding("X", "#", "stays")])
        back = '  queue "stays": it stays, and its dead letters may reach queue "q": `never` may break: in RabbitMQ a message goes a way that the file does not have'
        self.assertEqual(self.strict(value, "q"), (1, [back, "written, but 1 change MAY BREAK A `yes`"]))
        self.assertEqual(self.strict(value, "q", "stays"), (0, ["  each holds"]))
        value["queues"][1]["arguments"] = {"x-dead-letter-exchange": ""}
        self.assertEqual(self.strict(value, "q"), (1, [back, "written, but 1 change MAY BREAK A `yes`"]))
        value["queues"][1]["arguments"]["x-dead-letter-routing-key"] = "stays"
        self.assertEqual(self.strict(value, "q"), (0, ["  each holds"]))
        value = export_of([exchange("A", "direct", {"alternate-exchange": "F"})], [queue("stays")], [binding("A", "k", "stays")])
        less = '  exchange "A": it leads to what stays: "stays": `reaches` may break: what it takes goes to the alternate exchange in the file alone'
        self.assertEqual(self.strict(value, "q"), (1, [less, "written, but 1 change MAY BREAK A `yes`"]))
        self.assertEqual(self.strict(export_of(parameters=[parameter("shovel")]), "q")[0], 1)

    def test_a_pattern_that_some_pythons_only_warn_of(self):
        """Python 3.9 and 3.10 warn of flags inside a pattern, and later ones refuse it."""
        policies = [{"vhost": "/", "name": "p", "pattern": "it(?i)", "apply-to": "queues", "priority": 0, "definition": {"max-length": 7}}]
        _, changes = convert(export_of(queues=[queue("it")], policies=policies))
        self.assertIn("left out: its pattern or its settings cannot be read", [it.what for it in changes])

    def test_a_policy_that_is_not_of_a_type_hides_none(self):
        """RabbitMQ 3.10.8 was asked: a classic queue has no delivery limit, so a policy with one is not of it, and another is."""
        first = {"delivery-limit": 3, "dead-letter-exchange": "X"}
        policies = [{"vhost": "/", "name": name, "pattern": "^it", "apply-to": "queues", "priority": place, "definition": them} for place, (name, them) in enumerate((("b", {"dead-letter-exchange": "F"}), ("a", first)))]
        for arguments, wanted in (({}, "F"), ({"x-queue-type": "quorum"}, "X"), ({"x-queue-type": "stream"}, None)):
            made, _ = convert(export_of(queues=[queue("it", arguments)], policies=policies))
            self.assertEqual(made["queues"][1]["arguments"].get("x-dead-letter-exchange"), wanted)

    def test_a_policy_gives_an_exchange_of_rabbitmqs_own_an_alternate(self):
        """RabbitMQ 3.10.8 was asked: what no binding of amq.topic takes goes there."""
        policies = [{"vhost": "/", "name": "p", "pattern": "", "apply-to": "exchanges", "priority": 0, "definition": {"alternate-exchange": "F"}}]
        made, changes = convert(export_of(queues=[queue("it", auto_delete=True)], bindings=[binding("amq.topic", "a", "it")], policies=policies))
        self.assertEqual({it["name"]: it["arguments"] for it in made["exchanges"]}["amq.topic"], {"alternate-exchange": "F"})
        self.assertEqual([it.still for it in changes if "auto_delete" in it.what], [(still.GOES, still.GOES_UNMATCHED)])

    def test_the_page_has_the_kinds(self):
        with open(os.path.join(ROOT, "docs/RABBITMQ.md"), encoding="utf-8") as file:
            rows = [line.strip() for line in file if line.startswith("|")]
        for it in still.KINDS:
            self.assertIn(f"| {it.what} | {still.TOLD[it.never]} | {still.TOLD[it.reaches]} | {it.why} |", rows)
        self.assertEqual(len([it for it in rows if it.count("|") == 5]), len(still.KINDS) + 2)


class Bad(unittest.TestCase):
    """Whatever stands in a file, the answer is a line and a status."""

    def test_no_file_is_made_of(self):
        inputs = [b"", b"{", b"[]", b"null", b"7", b'"', b"\xff\xfe", b"\xff\xfe{", b"\x00" * 100, b"[" * 100_000, b'{"a":' * 5_000, b"NaN", b" " * 16_777_216]
        inputs += [b'{"vhosts":1e999}', b'{"vhosts":' + b"9" * 10_000 + b"}", b'{"vhosts":"\\ud800"}', b"[" * 8_000_000, os.urandom(1000), b'{"queues":[],"vhosts":[{"name":"a"},{"name":"b"}]}']
        for given in inputs:
            with self.subTest(given[:20]):
                status, out, said = run("-", given=given)
                self.assertEqual((status, out), (3, ""))
                self.assertNotIn("Traceback", said)
                self.assertTrue(said.startswith("convert: ") or "\nconvert: " in said)
                status, out, said = run("--check", "-", given=given)
                self.assertEqual((status, said), (1, ""))
                self.assertTrue(out.splitlines()[-1].startswith("1 causes") or len(given) < 100)

    def test_an_answer_that_is_no_export(self):
        """What RabbitMQ 3.10.8 answered to a wrong password and to a user who is no administrator, and what has no part of a topology."""
        for given, why in (
            ('{"error":"not_authorized","reason":"Login failed"}', 'no export: RabbitMQ said "not_authorized: Login failed"'),
            ('{"error":"not_authorised","reason":"Not administrator user"}', 'no export: RabbitMQ said "not_authorised: Not administrator user"'),
            ('{"error":{"a":1}}', 'no export: RabbitMQ said ""'),
            ("{}", 'no export: it has none of "queues", "exchanges", "bindings"'),
            ('{"users":[],"vhosts":[{"name":"/"}]}', 'no export: it has none of "queues", "exchanges", "bindings"'),
        ):
            for words in ((), ("--check",), ("--only", "q")):
                self.assertEqual(run("-", *words, given=given.encode()), (3, "", f"convert: -: {why}\n"))
        self.assertEqual(run("-", given=b'{"queues":[]}')[0], 0)

    def test_files_that_are_not_there(self):
        self.assertEqual(run("/nowhere/export.json")[0], 3)
        self.assertEqual(run("/")[0], 3)
        self.assertEqual(run(os.path.join(HERE, "exports/office_alone.json"), "/nowhere/file.json")[0], 3)

    def test_what_windows_writes(self):
        text = export("office_alone.json").decode()
        for coding in ("utf-8-sig", "utf-16"):
            status, out, said = run("-", given=text.encode(coding))
            self.assertEqual(status, 0)
            self.assertIn("byte order mark", said)
            self.assertEqual(causes_of(out.encode()), [])

    def test_too_many_entries_are_not_mended(self):
        value = json.loads(export("office_alone.json"))
        value["queues"] = [{**value["queues"][0], "name": f"q{it}"} for it in range(257)]
        value["bindings"] = []
        status, out, said = run("-", given=json.dumps(value).encode())
        self.assertEqual((status, out), (3, ""))
        self.assertIn("NOT MENDED: file: 257 queues; 256 are the most (refused 10)", said)
        self.assertIn("--only takes a part", said)

    def test_any_member_may_be_anything(self):
        """A member of an export is replaced by something else: what is made is taken, or it is said why nothing is made."""
        chance = random.Random(1)
        others = [None, True, 0, -1, 5_000_000_000, 1.5, "", "a..b", ".", "x" * 300, "q", [], {}, [1], {"a": 1}, "headers", ["x"], {"x-max-length": -1}]
        for name in ("shop_and_office.json", "control.json", "newer.json"):
            for number in range(150):
                value = json.loads(export(name))
                for _ in range(chance.randint(1, 4)):
                    self.replace(value, chance, others)
                causes_in(value)
                try:
                    made, _ = convert(value)
                except NoFile:
                    continue
                self.assertEqual(causes_in(made), [])
                json.dumps(made)
                names = [it["name"] for kind in ("queues", "exchanges") for it in made[kind] if "*" not in it["name"]]
                if names and number % 5 == 0:
                    part = part_of(value, None, [chance.choice(names)])
                    made, changes = convert(part.export, None, part.stays)
                    self.assertEqual(causes_in(made), [])
                    list(sections(made, changes))

    def replace(self, value, chance, others):
        while True:
            if isinstance(value, dict) and value:
                key = chance.choice(sorted(value))
            elif isinstance(value, list) and value:
                key = chance.randrange(len(value))
            else:
                return
            if chance.random() < 0.3 or not isinstance(value[key], (dict, list)):
                value[key] = copy.deepcopy(chance.choice(others))
                return
            value = value[key]


if __name__ == "__main__":
    unittest.main()
