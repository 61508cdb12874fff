"""The tests of metrics: python3 -m dev.unit test_metrics"""

import json
import os
import re
import signal
import socket
import subprocess
import tempfile
import threading
import time
import unittest
from urllib.request import urlopen

from dev.beds.commands import warrenctl
from warrenctl.commands.metrics.errors import Errors, cause_of, followed, open_log
from warrenctl.commands.metrics.process import connections_at, figures_of, limit_of, listener_at
from warrenctl.prometheus.server import MOST
from warrenctl.tests.fake import PROTOCOL, Broker, Queue

MESSAGE = (b"shop", b"orders.new", b"\0\0", b"two loaves")
LOGIN = {**os.environ, "WARREN_PASSWORD": "till"}
PATIENCE = 20

# two listeners and four connections, as the kernel's documentation writes them (proc_net_tcp.rst): local address, remote address, state .. inode
TCP = """  sl  local_address rem_address   st tx_queue rx_queue tr tm->when retrnsmt   uid  timeout inode
   0: 0100007F:1628 00000000:0000 0A 00000000:00000000 00:00000000 00000000     0        0 5001 1 0 100 0 0 10 0
   1: 0100007F:1629 00000000:0000 0A 00000000:00000000 00:00000000 00000000     0        0 5002 1 0 100 0 0 10 0
   2: 0100007F:1628 0100007F:9C40 01 00000000:00000000 00:00000000 00000000     0        0 5003 1 0 20 4 30 10 -1
   3: 0100007F:9C40 0100007F:1628 01 00000000:00000000 00:00000000 00000000     0        0 5004 1 0 20 4 30 10 -1
   4: 0100007F:1628 0100007F:9C41 08 00000000:00000000 00:00000000 00000000     0        0 5005 1 0 20 4 30 10 -1
   5: 0100007F:1628 0100007F:9C42 06 00000000:00000000 00:00000000 00000000     0        0 0 1 0 20 4 30 10 -1
"""
LIMITS = """Limit                     Soft Limit           Hard Limit           Units
Max open files            4096                 4096                 files
Max address space         {}           unlimited            bytes
"""


class Processes(unittest.TestCase):
    def setUp(self):
        folder = tempfile.TemporaryDirectory()
        self.addCleanup(folder.cleanup)
        self.proc = folder.name

    def write(self, name, text):
        path = os.path.join(self.proc, name)
        os.makedirs(os.path.dirname(path), exist_ok=True)
        with open(path, "w", encoding="ascii") as file:
            file.write(text)

    def test_a_table_of_the_kernel(self):
        """Port 5672 is 1628 in hex. What waits for its end (state 06) and the other side of a connection do not count."""
        self.write("net/tcp", TCP)
        for pid, inode in ((40, 7), (41, 5001)):
            os.makedirs(os.path.join(self.proc, f"{pid}/fd"))
            os.symlink(f"socket:[{inode}]", os.path.join(self.proc, f"{pid}/fd/3"))
        self.assertEqual(connections_at(5672, self.proc), 2)
        self.assertEqual((listener_at(5672, self.proc), listener_at(5673, self.proc), listener_at(5674, self.proc)), (41, None, None))
        self.assertEqual(connections_at(5672, "/nowhere"), 0)

    def test_this_machine(self):
        for family, host in ((socket.AF_INET, "127.0.0.1"), (socket.AF_INET6, "::1")):
            try:
                listener = socket.create_server((host, 0), family=family)
            except OSError:
                continue
            with listener:
                port = listener.getsockname()[1]
                self.assertEqual((listener_at(port), connections_at(port)), (os.getpid(), 0))
                with socket.create_connection((host, port)):
                    self.assertEqual(connections_at(port), 1)

    def test_the_limit(self):
        for text, found in (("4294967296", 4294967296), ("unlimited", None)):
            self.write("41/limits", LIMITS.format(text))
            self.assertEqual(limit_of(41, "Max address space", self.proc), found)
        self.assertEqual(limit_of(41, "Max open files", self.proc), 4096)
        self.assertIsNone(limit_of(42, "Max address space", self.proc))

    def test_the_figures(self):
        """A process whose name has brackets and blanks, of another user: its descriptors may not be seen."""
        ticks, page = os.sysconf("SC_CLK_TCK"), os.sysconf("SC_PAGE_SIZE")
        after = ["S"] + [str(it) for it in range(4, 53)]
        self.write("41/stat", f"41 (a) (b c)) {' '.join(after)}")
        self.write("stat", "cpu 1 2\nbtime 1000\n")
        wanted = {"virtual_memory_bytes": 23, "resident_memory_bytes": 24 * page, "start_time_seconds": 1000 + 22 / ticks, "cpu_seconds_total": 29 / ticks}
        self.assertEqual(figures_of(41, self.proc), wanted)
        self.assertEqual(figures_of(42, self.proc), {})
        self.assertEqual(figures_of(None, self.proc), {})


class Lines(unittest.TestCase):
    def test_causes(self):
        """The lines are those of docs/OPERATIONS.md."""
        for line, cause in (
            ('warren: reload refused in-use "audit"', "in-use"),
            ('warren: reload refused breaks "audit" 6f 3', "breaks"),
            ("warren: /etc/warren/current/definitions.json: refused 5", "file"),
            ("warren: /etc/warren/current/definitions.json: cannot read", "unreadable"),
            ("warren: certificate 2: fault 5", "certificate"),
            ("warren: memory", "memory"),
            ("warren: cannot listen", "other"),
            ("", "other"),
        ):
            self.assertEqual(cause_of(line), cause, line)

    def test_a_file_that_is_followed(self):
        """What was there is left out, a line counts once it is whole, and a file that is put in the place of this one is read from its start."""
        with tempfile.TemporaryDirectory() as folder:
            name = os.path.join(folder, "log")

            def put(text, how="a"):
                with open(name, how, encoding="utf-8") as file:
                    file.write(text)

            put("before\n")
            lines = followed(name, open_log(name))
            errors = Errors()
            with open(name, "a", encoding="utf-8") as half:
                read = threading.Thread(target=errors.read, args=(lines, False), daemon=True)
                read.start()
                time.sleep(0.3)
                half.write("warren: mem")
                half.flush()
                time.sleep(1)
                self.assertEqual(sum(errors.counts.values()), 0)
                half.write("ory\n")
            self.wait_for(errors, "memory", 1)
            os.rename(name, name + ".1")
            put('warren: reload refused in-use "a"\n', "w")
            self.wait_for(errors, "in-use", 1)
            put("", "w")
            time.sleep(1)
            put("warren: memory\n")
            self.wait_for(errors, "memory", 2)

    def wait_for(self, errors, cause, count):
        until = time.monotonic() + 10
        while errors.counts[cause] < count and time.monotonic() < until:
            time.sleep(0.1)
        self.assertEqual(errors.counts[cause], count, errors.counts)


def queue(name, **arguments):
    return {"name": name, "arguments": arguments}


DEFINITIONS = {"queues": [queue("audit"), queue("lost", **{"x-max-length": 4, "x-overflow": "reject-publish"}), queue('a "b"\n'), queue("gone")]}


def values_in(page):
    """Returns the samples of a page by name and labels."""
    lines = [it for it in page.splitlines() if it and not it.startswith("#")]
    return {name: float(value) for name, _, value in (it.rpartition(" ") for it in lines)}


class Exporter:
    """A running exporter of a broker at this port."""

    def __init__(self, port, definitions, *words, stdin=subprocess.DEVNULL):
        command = [*warrenctl("metrics"), f"till@127.0.0.1:{port}", definitions, "--listen", "127.0.0.1:0", *words]
        self.process = subprocess.Popen(command, stdin=stdin, stdout=subprocess.PIPE, stderr=subprocess.PIPE, text=True, env=LOGIN)
        said = self.process.stdout.readline()
        assert said.startswith("metrics: listening on 127.0.0.1:"), (said, self.process.stderr.read())
        self.address = said.split()[-1]

    def __enter__(self):
        return self

    def __exit__(self, *_):
        self.process.kill()
        self.process.communicate()

    def connected(self):
        host, _, port = self.address.rpartition(":")
        return socket.create_connection((host, int(port)))

    def page(self):
        with urlopen(f"http://{self.address}/metrics", timeout=PATIENCE) as answer:
            return answer.read().decode()

    def values(self):
        return values_in(self.page())


class Scripts(unittest.TestCase):
    def setUp(self):
        folder = tempfile.TemporaryDirectory()
        self.addCleanup(folder.cleanup)
        self.folder = folder.name
        self.file = self.write("definitions.json", json.dumps(DEFINITIONS))

    def write(self, name, text):
        path = os.path.join(self.folder, name)
        with open(path, "w", encoding="utf-8") as file:
            file.write(text)
        return path


class Pages(Scripts):
    def test_queues(self):
        with Broker({"audit": Queue([MESSAGE] * 7, consumers=2), "lost": Queue([MESSAGE] * 3), 'a "b"\n': Queue([MESSAGE])}) as broker:
            with Exporter(broker.port, self.file) as exporter:
                found = exporter.values()
                self.assertIn("# TYPE warren_queue_messages_ready gauge", exporter.page())
        wanted = {
            "warren_up": 1,
            'warren_queue_messages_ready{queue="audit"}': 7,
            'warren_queue_messages_ready{queue="lost"}': 3,
            'warren_queue_messages_ready{queue="a \\"b\\"\\n"}': 1,
            'warren_queue_consumers{queue="audit"}': 2,
            'warren_queue_consumers{queue="lost"}': 0,
            'warren_queue_consumers{queue="a \\"b\\"\\n"}': 0,
            'warren_queue_limit_messages{queue="lost"}': 4,
            'warren_queue_missing{queue="gone"}': 1,
        }
        self.assertEqual({name: value for name, value in found.items() if name.startswith("warren_queue") or name == "warren_up"}, wanted)
        self.assertLess(found["warren_answer_seconds"], PATIENCE)

    def test_the_process(self):
        """The broker of this test listens in this process, so its figures are this one's."""
        with Broker({}) as broker, socket.create_connection(("127.0.0.1", broker.port)) as other:
            other.sendall(PROTOCOL)
            with Exporter(broker.port, self.write("none.json", '{"queues":[]}')) as exporter:
                found = exporter.values()
        with open("/proc/self/stat", encoding="ascii") as file:
            started = int(file.read().rpartition(")")[2].split()[19]) / os.sysconf("SC_CLK_TCK")
        with open("/proc/stat", encoding="ascii") as file:
            started += int(re.search(r"^btime (\d+)", file.read(), re.MULTILINE).group(1))
        self.assertAlmostEqual(found["warren_process_start_time_seconds"], started, delta=1)
        self.assertGreater(found["warren_process_resident_memory_bytes"], 1_000_000)
        self.assertGreater(found["warren_process_open_fds"], 3)
        self.assertGreaterEqual(found["warren_process_cpu_seconds_total"], 0)
        self.assertEqual(found["warren_connections"], 1)

    def test_nobody_answers(self):
        """The page says so, and the line on standard error is put out once, however often Prometheus asks."""
        with Broker({}) as broker:
            port = broker.port
        with Exporter(port, self.file) as exporter:
            for _ in range(3):
                found = exporter.values()
                self.assertEqual((found["warren_up"], found["warren_connections"]), (0, 0))
                self.assertFalse([it for it in found if it.startswith("warren_queue") or it.startswith("warren_process")])
            exporter.process.terminate()
            _, said = exporter.process.communicate(timeout=PATIENCE)
        self.assertEqual(said, f"metrics: 127.0.0.1:{port}: Connection refused\n")
        self.assertEqual(exporter.process.returncode, 128 + signal.SIGTERM)

    def test_it_is_ended(self):
        for number in (signal.SIGINT, signal.SIGTERM):
            with Exporter(1, self.file) as exporter:
                exporter.process.send_signal(number)
                self.assertEqual(exporter.process.communicate(timeout=PATIENCE), ("", ""))
                self.assertEqual(exporter.process.returncode, 128 + number)

    def test_definitions_that_change(self):
        with Broker({"audit": Queue(), "new": Queue([MESSAGE])}) as broker, Exporter(broker.port, self.file) as exporter:
            self.assertNotIn('warren_queue_messages_ready{queue="new"}', exporter.values())
            self.write("definitions.json", json.dumps({"queues": [queue("new")]}))
            found = exporter.values()
            self.assertEqual((found['warren_queue_messages_ready{queue="new"}'], 'warren_queue_consumers{queue="audit"}' in found), (1, False))
            self.write("definitions.json", "{")
            self.assertEqual(exporter.values()["warren_up"], 0)

    def test_errors(self):
        """Lines from standard input are counted, and handed on as they are."""
        lines = 'warren: reload refused in-use "audit"\nwarren: reload refused in-use "audit"\nwarren: memory\nwhat?\n'
        with Broker({}) as broker, Exporter(broker.port, self.file, "--errors", "-", "--hand-on", stdin=subprocess.PIPE) as exporter:
            self.assertEqual(exporter.values()['warren_errors_total{cause="in-use"}'], 0)
            exporter.process.stdin.write(lines)
            exporter.process.stdin.flush()
            self.assertEqual([exporter.process.stderr.readline() for _ in range(4)], lines.splitlines(True))
            found = {name: value for name, value in exporter.values().items() if name.startswith("warren_errors") and value}
            self.assertEqual(found, {'warren_errors_total{cause="in-use"}': 2, 'warren_errors_total{cause="memory"}': 1, 'warren_errors_total{cause="other"}': 1})

    def test_clients_that_go_away(self):
        """They harm nobody."""
        with Broker({}) as broker, Exporter(broker.port, self.file) as exporter:
            for data in (b"", b"GET /metrics HTTP/1.0\r\n\r\n", b"\xff\xff\r\n\r\n"):
                with exporter.connected() as it:
                    it.sendall(data)
            # the scrape that one of them began may still have its connection to the broker
            end = time.monotonic() + PATIENCE
            while (found := exporter.values()["warren_connections"]) and time.monotonic() < end:
                time.sleep(0.05)
            self.assertEqual(found, 0)

    def test_silent_clients(self):
        """A scrape beside three of them is answered at once, and so it is beside more of them than there may be."""
        with Broker({}) as broker, Exporter(broker.port, self.file) as exporter:
            silent = [exporter.connected() for _ in range(3)]
            for count in (0, 2 * MOST):
                silent += [exporter.connected() for _ in range(count)]
                begun = time.monotonic()
                self.assertEqual(exporter.values()["warren_up"], 1)
                self.assertLess(time.monotonic() - begun, 5)
            silent[0].settimeout(PATIENCE)
            self.assertEqual(silent[0].recv(1), b"", "the oldest is ended")
            for it in silent:
                it.close()

    def test_other_paths(self):
        with Broker({}) as broker, Exporter(broker.port, self.file) as exporter:
            for path, status in (("/", 200), ("/metrics?name=a", 200), ("/favicon.ico", 404)):
                with exporter.connected() as it:
                    it.settimeout(PATIENCE)
                    it.sendall(f"GET {path} HTTP/1.1\r\nHost: a\r\n\r\n".encode())
                    self.assertEqual(int(it.makefile("rb").readline().split()[1]), status)


class Bad(Scripts):
    def refused(self, *words):
        done = subprocess.run([*warrenctl("metrics"), *words], stdin=subprocess.DEVNULL, capture_output=True, text=True, timeout=PATIENCE, env=LOGIN)
        self.assertEqual((done.returncode, done.stdout, done.stderr.count("\n"), done.stderr[:9]), (3, "", 1, "metrics: "), done.stderr)
        return done.stderr

    def test_what_is_wrong_is_one_line(self):
        self.refused()
        server = "till@127.0.0.1:1"
        self.assertIn("a user and a host", self.refused("127.0.0.1", self.file))
        self.assertIn("No such file", self.refused(server, "/nowhere/definitions.json"))
        self.assertIn("is no definitions file", self.refused(server, self.write("broken.json", "{")))
        for listen in ("here", "127.0.0.1", "127.0.0.1:65536", "127.0.0.1:x", ":1"):
            self.assertIn("no IP:PORT", self.refused(server, self.file, "--listen", listen))
        self.refused(server, self.file, "--listen", "256.0.0.1:1")
        with socket.create_server(("127.0.0.1", 0)) as other:
            taken = f"127.0.0.1:{other.getsockname()[1]}"
            self.assertIn("in use", self.refused(server, self.file, "--listen", taken))
        self.assertIn("No such file", self.refused(server, self.file, "--errors", "/nowhere/log"))
        self.assertIn("--errors", self.refused(server, self.file, "--hand-on"))
        self.assertIn("No such file", self.refused(server, self.file, "--password-file", "/nowhere"))

    def test_help(self):
        self.assertEqual(subprocess.run([*warrenctl("metrics"), "--help"], capture_output=True).returncode, 0)


if __name__ == "__main__":
    unittest.main()
