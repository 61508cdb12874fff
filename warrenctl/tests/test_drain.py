"""The tests of drain and fill, which want Python 3 alone: python3 -m dev.unit test_drain

What is looked for is that no message is lost, wherever either of them is broken off.
"""

import json
import os
import resource
import signal
import stat
import subprocess
import tempfile
import time
import unittest
from unittest import mock

from dev.beds.commands import warrenctl
from warrenctl.amqp.client import Delivery, Depth, Message
from warrenctl.cli.run import end, held_back
from warrenctl.commands.drain.draining import BATCH, drain
from warrenctl.commands.fill.filling import WINDOW, WINDOW_BYTES, Filling
from warrenctl.fault import Fault
from warrenctl.files.message_file import first_line, line_of_message, look_through, message_of, new_file
from warrenctl.tests.fake import Broker, Queue

LOGIN = {**os.environ, "WARREN_PASSWORD": "till"}
# content-type "a/b", a table with a field of the letter l, delivery-mode 2, priority 9
PROPERTIES = bytes.fromhex("b800 03 612f62 0000000b 01 6e 6c 0102030405060708 02 09")


def messages(count):
    return [(b"shop", b"orders.%d" % it, PROPERTIES, b"body %d" % it) for it in range(count)]


STRANGE = [(b"", b"", b"\0\0", b""), (b"\xff\xfe", b"a.\x80.\xc3\xa4", b"\0\0", bytes(range(256)) * 40), (b"x" * 255, b"\n\"\\\0", PROPERTIES, b"\n\r\0")]


class Together(unittest.TestCase):
    def setUp(self):
        folder = tempfile.TemporaryDirectory()
        self.addCleanup(folder.cleanup)
        self.folder, self.file = folder.name, os.path.join(folder.name, "audit.messages")

    def run_tool(self, tool, server, *words, **more):
        words = [*warrenctl(tool), f"till@127.0.0.1:{server if isinstance(server, int) else server.port}", *words]
        done = subprocess.run(words, capture_output=True, text=True, timeout=120, env=LOGIN, stdin=subprocess.DEVNULL, **more)
        self.assertNotIn("Traceback", done.stderr)
        self.assertEqual((done.stdout, done.stderr.count("\n")), ("", 1), done.stderr)
        return done.returncode, done.stderr.rstrip("\n").replace(self.folder + "/", "")

    def drain(self, server, *words, **more):
        return self.run_tool("drain", server, "audit", self.file, *words, **more)

    def fill(self, server, *words, file=None):
        return self.run_tool("fill", server, file or self.file, *words)

    def kept(self, file=None):
        """The messages of the whole lines of a file."""
        try:
            with open(file or self.file, "rb") as source:
                return [tuple(message_of(line)) for line in source.readlines()[1:] if line.endswith(b"\n")]
        except FileNotFoundError:
            return []

    def test_there_and_back(self):
        sent = messages(2 * BATCH + 3) + STRANGE
        with Broker({"audit": Queue(sent)}) as server:
            self.assertEqual(self.drain(server), (0, f'drain: {len(sent)} messages of "audit" were moved to audit.messages'))
            self.assertEqual(server.queues["audit"].ready, [])
        self.assertEqual(self.kept(), sent)
        self.assertEqual(stat.S_IMODE(os.stat(self.file).st_mode), 0o600)
        with Broker({"audit": Queue()}) as server:
            self.assertEqual(self.fill(server), (0, f'fill: {len(sent)} of {len(sent)} messages were published to "audit"'))
            self.assertEqual(server.queues["audit"].ready, [(b"", b"audit", properties, body) for _, _, properties, body in sent])
        self.assertEqual(os.listdir(self.folder), ["audit.messages"])

    def test_an_empty_queue(self):
        with Broker({"audit": Queue()}) as server:
            self.assertEqual(self.drain(server), (0, 'drain: 0 messages of "audit" were moved to audit.messages'))
            self.assertEqual(self.fill(server), (0, 'fill: 0 of 0 messages were published to "audit"'))

    def test_a_drain_that_ended_before_the_first_line(self):
        with open(self.file, "wb"), Broker({"audit": Queue(messages(2))}) as server:
            self.assertEqual(self.drain(server, "--append")[0], 0)
        self.assertEqual(self.kept(), messages(2))

    def test_consumers_are_told(self):
        with Broker({"audit": Queue(messages(2), consumers=3)}) as server:
            told = 'drain: 2 messages of "audit" were moved to audit.messages; consumers that are there: 3, and what they hold is not in it'
            self.assertEqual(self.drain(server), (1, told))

    def test_a_drain_that_breaks_off_loses_nothing(self):
        """The connection ends behind each of so many methods; then the rest is moved."""
        sent = messages(BATCH + 30)
        opening = 4
        for methods in (opening + 1, opening + 2, opening + 10, opening + BATCH + 2, opening + BATCH + 3, opening + BATCH + 4, opening + BATCH + 40):
            with self.subTest(methods=methods):
                queue = Queue(sent)
                with Broker({"audit": queue}, methods=methods) as server:
                    status, said = self.drain(server)
                self.assertEqual(status, 3)
                self.assertIn("ended the connection", said)
                self.assertEqual(set(self.kept()) | set(queue.ready), set(sent))
                self.assertLessEqual(len(self.kept()) + len(queue.ready) - len(sent), BATCH)
                if os.path.exists(self.file):
                    with open(self.file, "ab") as file:
                        file.write(b'{"exchange":"sh')
                with Broker({"audit": queue}) as server:
                    self.assertEqual(self.drain(server, *["--append"] * os.path.exists(self.file))[0], 0)
                self.assertEqual(sorted(set(self.kept())), sorted(sent))
                self.assertEqual(queue.ready, [])
                os.unlink(self.file)

    def test_a_disk_that_is_full_loses_nothing(self):
        sent, queue = messages(3 * BATCH), Queue(messages(3 * BATCH))
        with Broker({"audit": queue}) as server:
            status, said = self.drain(server, preexec_fn=lambda: resource.setrlimit(resource.RLIMIT_FSIZE, (40_000, 40_000)))
        self.assertEqual((status, said), (3, f"drain: File too large; {BATCH} messages were moved to audit.messages; up to {BATCH} more may be in both"))
        self.assertEqual(queue.ready, sent[BATCH:])
        self.assertEqual(self.kept()[:BATCH], sent[:BATCH])

    def test_a_fill_that_breaks_off_loses_nothing(self):
        """What the broker has and what is in FILE.left are all, each at most twice."""
        sent = messages(WINDOW + 50)
        with Broker({"audit": Queue(sent)}) as server:
            self.drain(server)
        rest = self.file + ".left"
        for methods in (6, 7, 20, WINDOW + 10, WINDOW + 55):
            with self.subTest(methods=methods):
                queue = Queue()
                with Broker({"audit": queue}, methods=methods) as server:
                    status, said = self.fill(server)
                there, left = [body for _, _, _, body in queue.ready], [body for _, _, _, body in self.kept(rest)]
                self.assertEqual(status, 1 if os.path.exists(rest) else 3, said)
                self.assertIn("ended the connection", said)
                if status == 1:
                    self.assertEqual(set(there) | set(left), {body for _, _, _, body in sent})
                    self.assertEqual(left, [body for _, _, _, body in sent[-len(left) :]])
                    os.unlink(rest)
        self.assertEqual(self.kept(), sent)

    def test_a_fill_that_a_signal_ends_loses_nothing(self):
        """What the broker took and what is in FILE.left are all; at most a window of them and one are in both."""
        sent = messages(5_000)
        with open(self.file, "wb") as file:
            file.write(first_line("audit") + b"".join(line_of_message(Message(*it)) for it in sent))
        bodies, rest = {it[3] for it in sent}, self.file + ".left"
        for number in (signal.SIGINT, signal.SIGTERM, signal.SIGHUP):
            with self.subTest(number), Broker({"audit": Queue()}) as server:
                command = [*warrenctl("fill"), f"till@127.0.0.1:{server.port}", self.file]
                running = subprocess.Popen(command, stderr=subprocess.PIPE, text=True, env=LOGIN, stdin=subprocess.DEVNULL)
                while len(server.queues["audit"].ready) < WINDOW + 50:
                    time.sleep(0.01)
                running.send_signal(number)
                said = running.communicate(timeout=120)[1]
                there, left = {it[3] for it in server.queues["audit"].ready}, self.kept(rest)
                self.assertEqual((running.returncode, said.count("\n")), (1, 1), said)
                self.assertRegex(said, "^fill: broken off; ")
                self.assertEqual(there | {it[3] for it in left}, bodies)
                self.assertLessEqual(len(there) + len(left) - len(sent), WINDOW + 1)
                os.unlink(rest)

    def test_a_full_queue(self):
        sent = messages(12)
        with Broker({"audit": Queue(sent)}) as server:
            self.drain(server)
        with Broker({"audit": Queue(limit=5)}) as server:
            told = 'fill: a queue is full, or none is there for a message; 5 of 12 messages were published to "audit"; left in audit.messages.left: 7'
            self.assertEqual(self.fill(server), (1, told))
            self.assertEqual(self.kept(self.file + ".left"), sent[5:])
            self.assertEqual(self.fill(server), (3, "fill: audit.messages.left is there already"))
            self.assertEqual(self.fill(server, file=self.file + ".left"), (3, "fill: a queue is full, or none is there for a message; none was confirmed"))
            server.queues["audit"].limit = None
            self.assertEqual(self.fill(server, file=self.file + ".left")[0], 0)
            self.assertEqual([it[3] for it in server.queues["audit"].ready], [it[3] for it in sent])

    def test_another_queue_and_as_sent(self):
        sent = messages(3)
        with Broker({"audit": Queue(sent)}) as server:
            self.drain(server)
        with Broker({"other": Queue()}) as server:
            self.assertEqual(self.fill(server, "--queue", "other"), (0, 'fill: 3 of 3 messages were published to "other"'))
            self.assertEqual(len(server.queues["other"].ready), 3)
            self.assertEqual(self.fill(server), (3, 'fill: queue "audit": 404 not-found'))
        with Broker({"a": Queue(), "b": Queue()}, {"shop": {"orders.0": ["a", "b"], "orders.1": ["a"]}}) as server:
            told = "fill: a queue is full, or none is there for a message; 2 of 3 messages were published as they were sent; left in audit.messages.left: 1"
            self.assertEqual(self.fill(server, "--as-sent"), (1, told))
            self.assertEqual([server.queues[it].ready for it in "ab"], [sent[:2], sent[:1]])
            self.assertEqual(self.kept(self.file + ".left"), sent[2:])

    def test_a_line_that_was_cut_off(self):
        with Broker({"audit": Queue(messages(2))}) as server:
            self.drain(server)
            with open(self.file, "ab") as file:
                file.write(b'{"exchange"')
            told = 'fill: 2 of 2 messages were published to "audit"; the last line was cut off, and is left out: its message was not acknowledged'
            self.assertEqual(self.fill(server), (1, told))

    def test_what_is_wrong_is_one_line(self):
        with Broker({"audit": Queue(messages(1))}) as server:
            self.assertEqual(self.run_tool("drain", server, "gone", self.file), (3, 'drain: queue "gone": 404 not-found'))
            self.assertFalse(os.path.exists(self.file))
            self.assertEqual(self.drain(server, "--append"), (3, "drain: audit.messages: No such file or directory"))
            self.assertEqual(self.run_tool("drain", server, "audit", self.folder + "/no/file")[0], 3)
            self.assertEqual(self.drain(server)[0], 0)
            self.assertEqual(self.drain(server), (3, "drain: audit.messages: File exists"))
            server.queues["other"] = Queue()
            self.assertEqual(self.run_tool("drain", server, "other", self.file, "--append"), (3, 'drain: audit.messages is of the queue "audit"'))
            self.assertIn("required", self.run_tool("drain", server)[1])
        self.assertIn("Connection refused", self.drain(server.port, "--append")[1])
        self.assertIn("Connection refused", self.fill(server.port)[1])
        self.assertIn("not allowed with", self.fill(server.port, "--as-sent", "--queue", "x")[1])

    def test_files_that_are_none(self):
        first = b'{"format":"messages 1","queue":"audit"}\n'
        heads = (b"", b"{}\n", b"[]\n", b"\xff\n", b"[" * 100_000, first.replace(b"messages 1", b"messages 2"), first.replace(b'"audit"', b"7"))
        rows = [(it, "is no file of messages") for it in heads]
        good = json.loads(line_of_message(Message(*messages(1)[0])))
        members = ({"body": "="}, {"body": 7}, {"properties": "AA=="}, {"key": "x" * 256}, {"key": "\ud800"}, {"exchange": None})
        rows += [(first + json.dumps({**good, **it}).encode() + b"\n", "line 2 is no message") for it in members]
        rows += [(first + it + b"\n", "line 2 is no message") for it in (b"", b"7", b"{}", b"[" * 100_000, b"\xff")]
        for data, said in rows:
            with self.subTest(data[:60]), open(self.file, "wb") as file:
                file.write(data)
                file.flush()
                with self.assertRaisesRegex(Fault, f"audit.messages:? {said}$"):
                    look_through(self.file)
        self.assertEqual(self.fill(1), (3, "fill: audit.messages: line 2 is no message"))


class Recorder:
    """A client and a file in one, which write down what is asked of them."""

    def __init__(self, ready):
        self.ready, self.said, self.count = ready, [], 0

    def queue(self, name):
        return Depth(self.ready, 0)

    def gets(self, queue, count):
        for tag in range(1, min(count, self.ready) + 1):
            yield Delivery(tag, False, tag)

    def write(self, message):
        self.said.append(f"write {message}")
        self.count += 1

    def keep(self):
        self.said.append("sync")

    def ack(self, tag, multiple):
        self.said.append(f"ack {tag}" + " and all before" * multiple)
        self.ready = 0


class Order(unittest.TestCase):
    def test_what_is_acknowledged_is_on_the_disk(self):
        both = Recorder(2)
        self.assertEqual(list(drain(both, "audit", both)), [2])
        self.assertEqual(both.said, ["write 1", "write 2", "sync", "ack 2 and all before"])


    def test_what_is_kept_is_on_the_disk(self):
        with tempfile.TemporaryDirectory() as folder, mock.patch("os.fsync", side_effect=lambda handle: sizes.append(os.fstat(handle).st_size)):
            sizes = []
            with new_file(folder + "/file", "audit") as kept:
                before = sizes[0]
                kept.write(Message(*messages(1)[0]))
                kept.keep()
                self.assertEqual(sizes[-1], before + len(line_of_message(Message(*messages(1)[0]))))


class Windows(unittest.TestCase):
    """How much waits for its confirms, and what is left if it is broken off."""

    def filling(self, lines, answers):
        test = self

        class Client:
            published = 0
            most = most_bytes = 0

            def publish(self, message):
                self.published += 1
                self.most = max(self.most, len(filling.waiting))
                self.most_bytes = max(self.most_bytes, filling.bytes)

            def settled(self):
                test.assertTrue(filling.waiting)
                return [(min(filling.waiting), answers.pop(0))] if answers else self.broken_off()

            def broken_off(self):
                raise KeyboardInterrupt

        client = Client()
        filling = Filling(client, iter(lines), ())
        filling.all()
        return client, filling

    def test_they_are_bounded(self):
        lines = [line_of_message(Message(*it)) for it in messages(WINDOW * 2)]
        client, filling = self.filling(lines, [True] * len(lines))
        self.assertEqual((client.most, filling.taken, filling.why, list(filling.left())), (WINDOW + 1, len(lines), None, []))
        large = [line_of_message(Message(b"", b"", b"\0\0", bytes(100_000)))] * 20
        client, _ = self.filling(large, [True] * 20)
        self.assertLess(client.most_bytes, WINDOW_BYTES + len(large[0]))

    def test_what_is_left_is_in_order(self):
        lines = [line_of_message(Message(*it)) for it in messages(WINDOW + 20)]
        client, filling = self.filling(lines, [True, False, True])
        self.assertEqual((filling.taken, filling.why), (2, "broken off"))
        self.assertEqual(list(filling.left()), [lines[1]] + lines[3:])

    def test_a_signal_while_a_line_is_read_loses_none(self):
        """It ends the next wait for the broker, and not the reading."""
        lines = [line_of_message(Message(*it)) for it in messages(20)]

        def read():
            for number, line in enumerate(lines):
                if number == 10:
                    os.kill(os.getpid(), signal.SIGTERM)
                yield line

        before = signal.signal(signal.SIGTERM, end)
        self.addCleanup(signal.signal, signal.SIGTERM, before)
        with held_back():
            _, filling = self.filling(read(), [])
        self.assertEqual((filling.taken, filling.why), (0, "broken off"))
        self.assertEqual(list(filling.left()), lines)


if __name__ == "__main__":
    unittest.main()
