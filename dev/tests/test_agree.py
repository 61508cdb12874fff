"""The tests of agree, which want Python 3 alone: python3 -m dev.unit test_agree

Frames were written by hand from the standard; those of a publish stand in examples/first_publish/script. The program is made up.
"""

import io
import os
import random
import subprocess
import sys
import tempfile
import unittest

from dev import ROOT
from dev.agree import operations
from dev.agree.changes import CHANGES
from dev.agree.differences import difference, freely, properties_of
from dev.agree.operations import Closed, Confirmed, Counted, Done, Empty, Got, NoAnswer, Returned
from dev.agree.replayed import NotReplayed, kind_of, replay, script_of
from dev.agree.scenario import PROPERTIES, Scenario
from dev.agree.topologies import exchange, file_of, key, topology
from dev.beds.rabbit import is_here
from warrenctl.files.causes import causes_in

HERE = os.path.dirname(os.path.abspath(__file__))


class Topologies(unittest.TestCase):
    def test_each_file_is_one_that_warren_takes(self):
        chance = random.Random(1)
        for number in range(100):
            self.assertEqual(causes_in(file_of([topology(chance, f"t{number}-{it}-") for it in range(3)])), [])

    def test_what_is_in_one_topology_leads_nowhere_else(self):
        chance = random.Random(2)
        for _ in range(100):
            made = topology(chance, "here-")
            names = [it["name"] for it in made["exchanges"] + made["queues"]]
            self.assertEqual(len(set(names)), len(names))
            for it in made["bindings"]:
                self.assertIn(it["source"], names)
                self.assertIn(it["destination"], names)
            named = [it["arguments"].get("alternate-exchange") for it in made["exchanges"]]
            named += [it["arguments"].get("x-dead-letter-exchange") for it in made["queues"]]
            self.assertTrue(all(it in ("", None, *names) for it in named))

    def test_one_seed_draws_one_topology(self):
        drawn = [topology(random.Random("5/7"), "t-") for _ in range(2)]
        self.assertEqual(*drawn)
        self.assertNotEqual(topology(random.Random("5/8"), "t-"), drawn[0])

    def test_all_kinds_are_drawn(self):
        chance, kinds, arguments, targets = random.Random(3), set(), set(), set()
        for _ in range(100):
            made = topology(chance, "t-")
            kinds |= {(it["type"], it["internal"]) for it in made["exchanges"]}
            arguments |= {name for it in made["exchanges"] + made["queues"] for name in it["arguments"]}
            targets |= {it["destination_type"] for it in made["bindings"]}
        self.assertEqual(kinds, {(kind, internal) for kind in ("direct", "fanout", "topic") for internal in (True, False)})
        self.assertEqual(targets, {"queue", "exchange"})
        wanted = {"alternate-exchange", "x-dead-letter-exchange", "x-dead-letter-routing-key", "x-max-length", "x-max-length-bytes", "x-overflow"}
        self.assertEqual(arguments, wanted)

    def test_keys_and_exchanges_may_be_published_to(self):
        chance = random.Random(4)
        keys = set()
        for _ in range(50):
            made = topology(chance, "t-")
            internal = [it["name"] for it in made["exchanges"] if it["internal"]]
            for _ in range(40):
                self.assertNotIn(exchange(chance, made), internal)
                keys.add(key(chance, made))
        self.assertLessEqual(max(map(len, keys)), 255)
        self.assertTrue({b"", b".", b"*", b"#"} <= keys)
        self.assertTrue(any(b"\xff" in it for it in keys))


class Changes(unittest.TestCase):
    def test_each_changes_one_entry(self):
        chance, made = random.Random(6), 0
        for _ in range(50):
            before = topology(chance, "t-")
            for change in CHANGES.values():
                after = change(chance, before)
                if after is None:
                    continue
                made += 1
                entries = [(one, two) for name in ("exchanges", "queues") for one, two in zip(before[name], after[name])]
                changed = sum(one != two for one, two in entries) + len(before["bindings"]) - len(after["bindings"])
                self.assertEqual(changed, 1)
                self.assertEqual(causes_in(file_of([after])), [])
        self.assertGreater(made, 100)


class Bytes(unittest.TestCase):
    def test_what_is_asked(self):
        with open(os.path.join(ROOT, "examples/first_publish/script"), encoding="utf-8") as file:
            select, *publish = (bytes.fromhex(line.split()[2]) for line in file if line.startswith("in "))
        self.assertEqual(operations.select().asked, select)
        self.assertEqual(operations.publish("orders", b"new", b"\0\0", b"hi", False).asked, b"".join(publish))
        rows = (
            (operations.get("q"), "01 0001 00000009 003C0046 0000 0171 00 CE"),
            (operations.get("q", needs_ack=False), "01 0001 00000009 003C0046 0000 0171 01 CE"),
            (operations.acknowledge(5), "01 0001 0000000D 003C0050 0000000000000005 00 CE"),
            (operations.acknowledge(5, True), "01 0001 0000000D 003C0050 0000000000000005 01 CE"),
            (operations.reject(5, False), "01 0001 0000000D 003C005A 0000000000000005 00 CE"),
            (operations.reject(5, True), "01 0001 0000000D 003C005A 0000000000000005 01 CE"),
            (operations.nack(5, True, False), "01 0001 0000000D 003C0078 0000000000000005 01 CE"),
            (operations.nack(5, False, True), "01 0001 0000000D 003C0078 0000000000000005 02 CE"),
            (operations.purge("q"), "01 0001 00000009 0032001E 0000 0171 00 CE"),
            (operations.recover(), "01 0001 00000005 003C006E 01 CE"),
        )
        for operation, wanted in rows:
            self.assertEqual(operation.asked.hex(), bytes.fromhex(wanted).hex(), operation.text)

    def test_what_is_answered(self):
        content = "02 0001 0000000E 003C 0000 0000000000000002 0000 CE 03 0001 00000002 6869 CE"
        rows = (
            ("01 0001 0000000D 003C0050 0000000000000003 00 CE", Confirmed(True, 3, False)),
            ("01 0001 0000000D 003C0078 0000000000000003 01 CE", Confirmed(False, 3, True)),
            (f"01 0001 0000000E 003C0032 0138 024E4F 0158 026162 CE {content}", Returned(312, b"NO", b"X", b"ab", b"\0\0", b"hi")),
            (f"01 0001 00000016 003C0047 0000000000000001 01 0158 026162 00000004 CE {content}", Got(1, True, b"X", b"ab", 4, b"\0\0", b"hi")),
            ("01 0001 00000005 003C0048 00 CE", Empty()),
            ("01 0001 00000008 0032001F 00000007 CE", Counted(7)),
            ("01 0001 0000000E 00140028 0194 034E4F21 0032 000A CE", Closed("channel", 404)),
            ("01 0000 0000000E 000A0032 0212 034E4F21 0032 000A CE", Closed("connection", 530)),
            ("08 0000 00000000 CE 01 0001 00000004 0055000B CE", Done((85, 11))),
        )
        for data, wanted in rows:
            self.assertEqual(operations.answer(io.BytesIO(bytes.fromhex(data)))[1], wanted)
        for data in ("", "01 0001", "01 0001 00000005 003C0048 00 CD", "03 0001 00000001 00 CE"):
            with self.assertRaises(NoAnswer):
                operations.answer(io.BytesIO(bytes.fromhex(data)))

    def test_answers_end_with_what_an_operation_wants(self):
        data = "01 0001 00000005 003C0048 00 CE"
        self.assertEqual(operations.answers(io.BytesIO(bytes.fromhex(data * 2)), operations.get("q")), [Empty()])
        self.assertEqual(operations.answers(io.BytesIO(bytes.fromhex(data)), operations.reject(1, False)), [])


# a dead letter's properties: a header field of its own, the array x-death, the three headers of a first death, and a message-id
FIRST = "13" + b"x-first-death-queue".hex() + "53 00000001 71"
DEATH = "07" + b"x-death".hex() + "41 00000005 49 00000001"
KIND = "04" + b"kind".hex() + "53 00000003" + b"new".hex()


def dead(*parts):
    table = bytes.fromhex("".join(parts))
    return b"\x20\x80" + len(table).to_bytes(4, "big") + table + b"\x02m1"


def got(**others):
    return Got(1, False, b"X", b"k", 0, dead(KIND, DEATH, FIRST), b"body")._replace(**others)


class Differences(unittest.TestCase):
    def seen(self, one, other):
        operation = operations.get("q")
        return difference([(operation, [one])], [[other]])

    def test_what_is_free(self):
        self.assertIsNone(self.seen(Confirmed(True, 2, True), Confirmed(True, 2, False)))
        self.assertIsNone(self.seen(Returned(312, b"NO_ROUTE", b"X", b"", b"\0\0", b""), Returned(312, b"no-route", b"X", b"", b"\0\0", b"")))
        self.assertIsNone(self.seen(got(), got(properties=dead(KIND, FIRST))))
        self.assertIsNone(self.seen(got(), got(properties=dead(FIRST, DEATH, KIND))))

    def test_what_is_not(self):
        for one, other in (
            (Confirmed(True, 2, False), Confirmed(False, 2, False)),
            (Confirmed(True, 2, False), Confirmed(True, 3, False)),
            (Returned(312, b"", b"X", b"", b"\0\0", b""), Returned(313, b"", b"X", b"", b"\0\0", b"")),
            (Empty(), got()),
            (Counted(1), Counted(2)),
            (got(), got(tag=2)),
            (got(), got(redelivered=True)),
            (got(), got(exchange=b"Y")),
            (got(), got(key=b"")),
            (got(), got(ready=1)),
            (got(), got(body=b"other")),
            (got(), got(properties=dead(KIND, DEATH))),
            (got(), got(properties=dead(DEATH, FIRST))),
            (got(), got(properties=dead(KIND, FIRST)[:-2] + b"m2")),
            (got(), got(properties=b"\0\0")),
        ):
            self.assertIsNotNone(self.seen(one, other), (one, other))

    def test_the_first_that_differs_is_told(self):
        done = [(operations.get(it), [Empty()]) for it in ("q", "r", "s")]
        self.assertIsNone(difference(done, [[Empty()]] * 3))
        self.assertEqual(difference(done, [[Empty()], [got()], [got()]]), (1, 'get from "r"', [Empty()], [got()]))
        self.assertEqual(difference(done, [[Empty()]]), (1, 'get from "r"', [Empty()], "its answers end before"))
        self.assertEqual(difference(done, [[Empty()]] * 4)[:2], (3, "nothing more was asked"))
        swapped = [(operations.get("q"), [got(body=b"1")]), (operations.get("q"), [got(body=b"2")])]
        self.assertEqual(difference(swapped, [[got(body=b"2")], [got(body=b"1")]])[0], 0)

    def test_what_differs_freely_is_counted(self):
        done = [(operations.get("q"), [got()]), (operations.publish("X", b"", b"\0\0", b"", True), [Returned(312, b"A", b"", b"", b"\0\0", b""), Confirmed(True, 1, False)])]
        other = [[got(properties=dead(KIND, FIRST))], [Returned(312, b"B", b"", b"", b"\0\0", b""), Confirmed(True, 1, True)]]
        self.assertEqual(freely(done, other), {"the header x-death": 1, "the text of a return": 1, "one confirm for several publishes": 1})
        self.assertEqual(freely(done, [answers for _, answers in done]), {})

    def test_the_properties_that_are_published_are_read(self):
        self.assertEqual([properties_of(it)[1] for it in PROPERTIES[:-1]], [{}] * (len(PROPERTIES) - 1))
        self.assertEqual(properties_of(PROPERTIES[-1]), (1 << 13, {b"kind": b"S\0\0\0\x03new", b"n": b"I\0\0\0\x07"}, b""))


class Made:
    """A broker of which each queue has one message at first, and that confirms all."""

    def __init__(self, queues):
        self.left, self.published, self.tags, self.asked, self.settled = dict.fromkeys(queues, 3), 0, 0, [], []

    def ask(self, operation):
        self.asked.append(operation)
        what, _, rest = operation.text.partition(" ")
        if what == "publish":
            self.published += 1
            return [Confirmed(True, self.published, False)]
        if what != "get":
            return [Done(it) for it in operation.wants]
        queue = rest.removeprefix("from ").strip('"')
        if not self.left[queue]:
            return [Empty()]
        self.left[queue] -= 1
        self.tags += 1
        return [got(tag=self.tags)]

    def settle(self, queue):
        self.settled.append((self.asked[-1].text, queue))


class Scenarios(unittest.TestCase):
    def test_what_a_run_asks(self):
        for seed in range(50):
            chance = random.Random(seed)
            made = topology(chance, "t-")
            queues = [it["name"] for it in made["queues"]]
            broker = Made(queues)
            done = Scenario(chance, made, broker).run(40)
            texts = [operation.text for operation, _ in done]
            self.assertEqual(texts[0], "select confirms")
            self.assertEqual(broker.published, 40)
            self.assertEqual(set(broker.left.values()), {0})
            ends = texts[texts.index("recover, requeue") + 1 :]
            self.assertEqual(list(dict.fromkeys(ends)), [f'get from "{it}"' for it in queues])
            rejections = [it for it in texts if it.split()[0] in ("reject", "nack") and "requeue" not in it]
            self.assertEqual([text for text, _ in broker.settled], rejections)

    def test_a_close_ends_it(self):
        class Closing(Made):
            def ask(self, operation):
                return [Closed("channel", 404)] if operation.text.startswith("publish") else super().ask(operation)

        made = topology(random.Random(1), "t-")
        done = Scenario(random.Random(1), made, Closing([it["name"] for it in made["queues"]])).run(40)
        self.assertEqual(done[-1][1], [Closed("channel", 404)])


EMPTY = "01000100000005003c004800ce"
PROGRAM = """#!/bin/sh
[ "$1 $3" = "replay --definitions" ] || exit 5
cat "$2" > "{folder}/asked"
printf '{printed}'
exit {status}
"""


class Replays(unittest.TestCase):
    def replayed(self, printed, status=0, runs=([(operations.get("q"), [])],)):
        with tempfile.TemporaryDirectory() as folder:
            program = os.path.join(folder, "warren")
            with open(program, "w", encoding="utf-8") as file:
                file.write(PROGRAM.format(folder=folder, printed=printed, status=status))
            os.chmod(program, 0o755)
            found = replay(program, folder, {}, runs)
            with open(os.path.join(folder, "asked"), encoding="utf-8") as file:
                self.assertEqual(file.read(), script_of(runs))
            return found

    def test_the_script(self):
        runs = [[(operations.reject(1, True), [])], [(operations.recover(), []), (operations.select(), [])]]
        wanted = "ready 1\nready 1\nin 1 01000100000 00d003c005a000000000000000101ce\nin 2 0100010000 0005003c006e01ce\nin 2 010001000000050055000a00ce\n"
        self.assertEqual(script_of(runs), wanted.replace("00000 00d", "0000000d").replace("0000 0005", "00000005"))

    def test_the_answers_of_each_client(self):
        get = [(operations.get("q"), [])]
        found, notes = self.replayed(f'out 1 {EMPTY}\\nout 2 {EMPTY}{EMPTY}\\nentered 1 "q" publish\\nentered 2 "q" dead\\nreturned 3\\n', runs=(get, get + get))
        self.assertEqual(found, [[[Empty()]], [[Empty()], [Empty()]]])
        self.assertEqual(notes, {"entered publish": 1, "entered dead": 1, "returned": 1})

    def test_answers_that_lack_or_are_too_many(self):
        self.assertEqual(self.replayed("out 1 -\\n")[0], [[]])
        self.assertEqual(self.replayed(f"out 1 {EMPTY}ff\\n")[0], [[[Empty()], ["1 bytes more"]]])

    def test_a_refusal_is_one_line(self):
        with self.assertRaisesRegex(NotReplayed, "^warren replay ends with 3: $"):
            self.replayed("", 3)
        with tempfile.TemporaryDirectory() as folder, self.assertRaisesRegex(NotReplayed, "^/no/warren: No such file or directory$"):
            replay("/no/warren", folder, {}, [])

    def test_kinds_of_notes(self):
        rows = {'refused 1 "q w"': "refused", 'left 2 "q" rejected': "left rejected", "confirmed 3 nack": "confirmed nack", "published 1 1 1 \"\" - 1": "published"}
        self.assertEqual({line: kind_of(line) for line in rows}, rows)


class Command(unittest.TestCase):
    def run_agree(self, *words, path=None):
        environment = dict(os.environ) if path is None else {**os.environ, "PATH": path}
        done = subprocess.run([sys.executable, "-m", "dev.agree", *words], capture_output=True, text=True, env=environment)
        return done.returncode, done.stdout, done.stderr

    def test_without_rabbitmq_it_is_passed_over(self):
        with tempfile.TemporaryDirectory() as nothing:
            status, out, said = self.run_agree("warren", path=nothing)
        self.assertEqual((status, out, said), (0, "agree: skipped, RabbitMQ is not installed: apt-get install rabbitmq-server\n", ""))

    def test_words_that_are_none(self):
        for words in (("--topologies", "0"), ("--keys", "-1"), ("--only", "x"), ("--keys", "1000001")):
            status, out, said = self.run_agree("warren", *words)
            self.assertEqual((status, out, said.count("\n")), (3, "", 1))
            self.assertIn("no whole number from 1", said)

    @unittest.skipUnless(is_here(), "rabbitmq-server")
    def test_what_is_no_program(self):
        for name in ("/nowhere", HERE, __file__):
            self.assertEqual(self.run_agree(name), (3, "", f"agree: {name} is no program\n"))


if __name__ == "__main__":
    unittest.main()
