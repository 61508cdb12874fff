"""The tests of ping, which want Python 3 alone: python3 -m dev.unit test_ping"""

import os
import re
import socket
import subprocess
import time
import unittest
from types import SimpleNamespace

from dev.beds.commands import warrenctl
from warrenctl.tests.fake import PROTOCOL, START, Broker, Queue, Scripted, UntilTheEnd

LOGIN = {**os.environ, "WARREN_PASSWORD": "till"}


def a_ping(seconds_ago):
    """The message of another ping, in the form of its first line: a word, a time, a random number."""
    return (b"", b"ping", b"\0\0", b"ping %.3f 0123456789abcdef" % (time.time() - seconds_ago))


FOREIGN = (b"shop", b"orders.new", b"\0\0", b"two loaves")


class Ping(unittest.TestCase):
    def start(self, broker, *words, queue="ping"):
        # the last --seconds counts
        command = [*warrenctl("ping"), f"till@127.0.0.1:{broker.port}", queue, "--seconds", "30", *words]
        return subprocess.Popen(command, stdin=subprocess.DEVNULL, stdout=subprocess.PIPE, stderr=subprocess.PIPE, text=True, env=LOGIN)

    def pinged(self, broker, *words, queue="ping"):
        running = self.start(broker, *words, queue=queue)
        out, said = running.communicate(timeout=60)
        return running.returncode, out, said

    def test_it_comes_back(self):
        with Broker({"ping": Queue()}) as broker:
            status, out, said = self.pinged(broker)
            self.assertEqual((status, said), (0, ""))
            self.assertRegex(out, r"^[0-9]+\.[0-9] ms\n$")
            self.assertEqual(broker.queues["ping"].ready, [])

    def test_later_than_wanted(self):
        with Broker({"ping": Queue()}) as broker:
            status, out, said = self.pinged(broker, "--within", "0.001")
            self.assertEqual((status, len(out.splitlines())), (1, 1))
            self.assertRegex(said, r"^ping: [0-9.]+ ms are more than 0.001\n$")
            self.assertEqual(self.pinged(broker, "--within", "60000")[0], 0)

    def test_what_pings_left_behind(self):
        """What is older than two minutes is taken away, what is newer stays: its own ping waits for it."""
        new = a_ping(5)
        with Broker({"ping": Queue([a_ping(300), new, a_ping(121)], limit=3)}) as broker:
            self.assertEqual(self.pinged(broker)[0::2], (0, ""))
            self.assertEqual(broker.queues["ping"].ready, [new])

    def test_two_at_once(self):
        with Broker({"ping": Queue()}) as broker:
            running = [self.start(broker) for _ in range(6)]
            self.assertEqual([it.communicate(timeout=60)[1] for it in running], [""] * 6)
            self.assertEqual([it.returncode for it in running], [0] * 6)
            self.assertEqual(broker.queues["ping"].ready, [])

    def refused(self, broker, *words, queue="ping"):
        status, out, said = self.pinged(broker, *words, queue=queue)
        self.assertEqual((status, out, said.count("\n"), said[:6]), (3, "", 1, "ping: "), said)
        return said

    def test_a_message_of_somebody_else(self):
        """It stays where it is."""
        with Broker({"ping": Queue([FOREIGN])}) as broker:
            self.assertIn('queue "ping": has a message that no ping sent', self.refused(broker))
            self.assertEqual(broker.queues["ping"].ready, [FOREIGN])

    def test_a_full_queue(self):
        with Broker({"ping": Queue([a_ping(1)], limit=1)}) as broker:
            self.assertIn("is full", self.refused(broker))

    def test_no_queue(self):
        with Broker({}) as broker:
            self.assertIn('queue "ping": 404 not-found', self.refused(broker))

    def test_it_does_not_come_back(self):
        """A broker that acks and enters nothing; one that never answers; one that is not there."""

        class Forgetful(list):
            def append(self, _):
                pass

        lost = Queue()
        lost.ready = Forgetful()
        with Broker({"ping": lost}) as broker:
            self.assertIn("did not come back within 1 seconds", self.refused(broker, "--seconds", "1"))
        with socket.create_server(("127.0.0.1", 0)) as silent:
            there = SimpleNamespace(port=silent.getsockname()[1])
            started = time.monotonic()
            self.assertTrue(re.search("no answer in time|did not come back|timed out", self.refused(there, "--seconds", "1")))
            self.assertLess(time.monotonic() - started, 25)
        self.assertIn("Connection refused", self.refused(there))

    def test_what_is_wrong_is_one_line(self):
        with Broker({"ping": Queue()}) as broker:
            for words in (("--seconds", "0"), ("--seconds", "61"), ("--seconds", "nan"), ("--within", "-1"), ("--x",), ("--password-file", "/no/file")):
                self.refused(broker, *words)
            self.refused(broker, queue="x" * 256)
        self.assertEqual(subprocess.run([*warrenctl("ping"), "--help"], capture_output=True).returncode, 0)


class Hello(unittest.TestCase):
    def hello(self, port, *words):
        command = [*warrenctl("ping"), "--hello", f"127.0.0.1:{port}", *words]
        done = subprocess.run(command, stdin=subprocess.DEVNULL, capture_output=True, text=True, timeout=60)
        self.assertEqual(len((done.stdout + done.stderr).splitlines()), 1)
        return done.returncode, done.stdout + done.stderr

    def test_it_logs_in_nowhere(self):
        """The eight bytes are all that is sent, no password is asked for, and no queue."""
        with UntilTheEnd(PROTOCOL, ("sends", START)) as server:
            status, said = self.hello(server.port)
        self.assertEqual(status, 0)
        self.assertRegex(said, r"^[0-9]+\.[0-9] ms\n$")

    def test_later_than_wanted(self):
        with Broker({}) as broker:
            command = [*warrenctl("ping"), "--hello", f"127.0.0.1:{broker.port}", "--within", "0.001"]
            self.assertEqual(subprocess.run(command, stdin=subprocess.DEVNULL, capture_output=True).returncode, 1)

    def test_what_is_no_broker(self):
        rows = ((b"HTTP/1.1 400 Bad Request\r\n\r\n", "no hello of AMQP 0-9-1"), (b"AMQP\0\1\0\0\0\0\0", "no hello"), (b"", "was ended"), (START[:5], "no hello"))
        for data, told in rows:
            with Scripted(PROTOCOL, ("sends", data)) as server:
                status, said = self.hello(server.port)
            self.assertEqual(status, 3)
            self.assertIn(told, said)
        with socket.create_server(("127.0.0.1", 0)) as silent:
            port = silent.getsockname()[1]
            self.assertEqual(self.hello(port, "--seconds", "1"), (3, f"ping: 127.0.0.1:{port}: no hello within 1 seconds\n"))
        self.assertEqual(self.hello(port), (3, f"ping: 127.0.0.1:{port}: Connection refused\n"))

    def test_words(self):
        for words in (["ping"], ["--password-file", "/dev/null"], ["--seconds", "0"]):
            self.assertEqual(self.hello(1, *words)[0], 3)
        for words in (["till@127.0.0.1"], ["till@127.0.0.1", "ping", "--tls"], ["--hello", "till@127.0.0.1"], ["--hello"]):
            done = subprocess.run([*warrenctl("ping"), *words], stdin=subprocess.DEVNULL, capture_output=True, text=True, timeout=60)
            self.assertEqual((done.returncode, done.stdout, done.stderr.count("\n")), (3, "", 1), done.stderr)


if __name__ == "__main__":
    unittest.main()
