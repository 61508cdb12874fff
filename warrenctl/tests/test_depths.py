"""The tests of depths, which want Python 3 alone: python3 -m dev.unit test_depths"""

import json
import os
import signal
import subprocess
import tempfile
import unittest

from dev.beds.commands import warrenctl
from warrenctl.tests.fake import Broker, Queue

MESSAGE = (b"shop", b"orders.new", b"\0\0", b"two loaves")
LOGIN = {**os.environ, "WARREN_PASSWORD": "till"}


def queue(name, **arguments):
    return {"name": name, "arguments": arguments}


LOST = {"x-max-length": 4, "x-overflow": "reject-publish"}
DEFINITIONS = {"queues": [queue("audit"), queue("lost", **LOST), queue("none", **{"x-max-length": 0}), queue('a "b"\n'), queue("gone")]}


def broker():
    return Broker({"audit": Queue([MESSAGE] * 7, consumers=2), "lost": Queue([MESSAGE] * 3), "none": Queue(), 'a "b"\n': Queue([MESSAGE])})


class Depths(unittest.TestCase):
    def setUp(self):
        folder = tempfile.TemporaryDirectory()
        self.addCleanup(folder.cleanup)
        self.file = os.path.join(folder.name, "definitions.json")
        self.write(json.dumps(DEFINITIONS).encode())

    def write(self, data):
        with open(self.file, "wb") as file:
            file.write(data)

    def run_tool(self, server, *words, **more):
        done = subprocess.run([*warrenctl("depths"), server, self.file, *words], capture_output=True, text=True, timeout=120, env=LOGIN, **more)
        return done.returncode, done.stdout, done.stderr

    def asked(self, *words):
        with broker() as server:
            return self.run_tool(f"till@127.0.0.1:{server.port}", *words)

    def test_a_table(self):
        status, out, said = self.asked("--once")
        rows = [line.split() for line in out.splitlines()]
        self.assertEqual((status, said), (0, ""))
        self.assertEqual(rows[0], ["ready", "change", "consumers", "limit", "full", "queue"])
        self.assertEqual(rows[1:3], [["0", "0", "0", "100%", '"none"'], ["3", "0", "4", "75%", '"lost"']])
        self.assertEqual(rows[3:], [["7", "2", '"audit"'], ["1", "0", '"a', '\\"b\\"\\n"'], ["-", '"gone"', "is", "not", "there"]])

    def test_alarms(self):
        both = 'depths: "lost": 3 of 4 messages\ndepths: "none": 0 of 0 messages\n'
        status, out, said = self.asked("--once", "--alarm", "0.75")
        self.assertEqual((status, said), (1, both))
        self.assertEqual([line.split()[-1] for line in out.splitlines() if " ! " in line], ['"none"', '"lost"'])
        self.assertEqual(self.asked("--once", "--alarm", "0.76")[0::2], (1, 'depths: "none": 0 of 0 messages\n'))
        self.assertEqual(self.asked("--prometheus", "--alarm", "0.75")[0::2], (1, both))

    def test_metrics(self):
        status, out, said = self.asked("--prometheus")
        self.assertEqual((status, said), (0, ""))
        wanted = ["warren_up 1", 'warren_queue_messages_ready{queue="audit"} 7', 'warren_queue_messages_ready{queue="lost"} 3']
        wanted += ['warren_queue_messages_ready{queue="none"} 0']
        wanted += ['warren_queue_messages_ready{queue="a \\"b\\"\\n"} 1', 'warren_queue_consumers{queue="audit"} 2', 'warren_queue_consumers{queue="lost"} 0']
        wanted += ['warren_queue_consumers{queue="none"} 0', 'warren_queue_consumers{queue="a \\"b\\"\\n"} 0', 'warren_queue_limit_messages{queue="lost"} 4']
        wanted += ['warren_queue_limit_messages{queue="none"} 0', 'warren_queue_missing{queue="gone"} 1']
        self.assertEqual([line for line in out.splitlines() if not line.startswith("# ")], wanted)
        gauges = [line.split()[2] for line in out.splitlines() if line.startswith("# TYPE ") and line.endswith(" gauge")]
        self.assertEqual(sorted(gauges), sorted({line.partition("{")[0].split()[0] for line in wanted}))

    def test_each_second(self):
        # as started at a terminal, and as a shell without job control starts it in the background
        for interrupt in (signal.SIG_DFL, signal.SIG_IGN):
            with self.subTest(interrupt=interrupt):
                self.show_each_second(lambda: signal.signal(signal.SIGINT, interrupt))

    def show_each_second(self, before):
        with broker() as server:
            words = [*warrenctl("depths"), f"till@127.0.0.1:{server.port}", self.file]
            with subprocess.Popen(words, stdout=subprocess.PIPE, stderr=subprocess.PIPE, text=True, env=LOGIN, preexec_fn=before) as shown:
                first = [shown.stdout.readline() for _ in range(7)]
                server.queues["audit"].ready.clear()
                second = [shown.stdout.readline() for _ in range(7)]
                shown.send_signal(signal.SIGINT)
                self.assertEqual((shown.wait(120), shown.stderr.read()), (130, "depths: broken off by INT\n"))
        self.assertIn(["7", "2", '"audit"'], [it.split() for it in first])
        self.assertIn(["0", "-7", "2", '"audit"'], [it.split() for it in second])

    def refused(self, server, *words, **more):
        status, out, said = self.run_tool(server, *words, **more)
        self.assertEqual((status, said[:8], said.count("\n")), (3, "depths: ", 1), said)
        return out, said

    def test_nobody_answers(self):
        with broker() as server:
            port = server.port
        out, said = self.refused(f"till@127.0.0.1:{port}", "--prometheus")
        self.assertIn("Connection refused", said)
        self.assertEqual(out.splitlines()[-1], "warren_up 0")
        self.assertEqual(self.refused(f"till@127.0.0.1:{port}", "--once")[0], "")

    def test_a_connection_that_ends(self):
        with Broker({}, methods=4) as server:
            self.assertIn('queue "audit": the server ended the connection', self.refused(f"till@127.0.0.1:{server.port}", "--once")[1])

    def test_what_is_wrong_is_one_line(self):
        queues = (b'{"queues":7}', b'{"queues":[7]}', b'{"queues":[{"name":"a"}]}', b'{"queues":[{"name":7,"arguments":{}}]}')
        for data in (b"", b"[]", b"{}", b"\xff", b"[" * 100_000, *queues):
            self.write(data)
            self.assertIn("is no definitions file", self.refused("till@127.0.0.1:1")[1])
        for data in (b'{"queues":[{"name":"a","arguments":{"x-max-length":"4"}}]}', b'{"queues":[{"name":"a","arguments":{"x-max-length":true}}]}'):
            self.write(data)
            self.assertIn("no whole number", self.refused("till@127.0.0.1:1")[1])
        os.unlink(self.file)
        self.assertIn("No such file", self.refused("till@127.0.0.1:1")[1])
        self.write(b'{"queues":[]}')
        for words in (["--alarm", "0"], ["--alarm", "1.5"], ["--alarm", "nan"], ["--once", "--prometheus"], ["--nothing"], ["--password-file", "/no/file"]):
            self.refused("till@127.0.0.1:1", *words)
        self.assertIn("a user and a host", self.refused("127.0.0.1")[1])
        del LOGIN["WARREN_PASSWORD"]
        self.assertIn("no password", self.refused("till@127.0.0.1:1", stdin=subprocess.DEVNULL)[1])
        LOGIN["WARREN_PASSWORD"] = "till"

    def test_the_password_is_sent(self):
        secret = self.file + ".secret"
        with open(secret, "w", encoding="utf-8") as file:
            file.write("from a file\nnot this\n")
        with Broker({}) as server:
            self.write(b'{"queues":[]}')
            address = f"robot@127.0.0.1:{server.port}"
            self.assertEqual([self.run_tool(address, "--once")[0], self.run_tool(address, "--once", "--password-file", secret)[0]], [0, 0])
        self.assertEqual([b"\0robot\0till\x05en_US" in server.users[0], b"\0robot\0from a file\x05en_US" in server.users[1]], [True, True])


if __name__ == "__main__":
    unittest.main()
