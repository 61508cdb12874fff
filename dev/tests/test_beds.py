"""The tests of rabbit.py over a made-up RabbitMQ, and of how examples and commands end, which want Python 3 alone: python3 -m dev.unit test_beds

The made-up node is a program of this file: it reads rabbitmq.conf, listens where that says, and answers as RabbitMQ's management interface does.
tests/with_rabbitmq.py asks a real one.
"""

import os
import shutil
import signal
import socket
import subprocess
import sys
import tempfile
import textwrap
import time
import unittest

from dev.beds.commands import warrenctl
from dev.beds.rabbit import NotHere, Rabbit, RabbitFault, free_ports

HERE = os.path.dirname(os.path.abspath(__file__))

NODE = """
    #!{python}
    import http.server, os, re, signal, socket, sys, threading, time
    with open(os.environ["RABBITMQ_CONFIG_FILE"]) as file:
        ports = [int(it) for it in re.findall(r"(?:tcp.1 = 127.0.0.1:|tcp.port = )(\\d+)", file.read())]
    with open(os.environ["RABBITMQ_PID_FILE"], "w") as file:
        file.write(str(os.getpid()))

    class Answers(http.server.BaseHTTPRequestHandler):
        def answer(self):
            length = int(self.headers.get("Content-Length") or 0)
            asked = f"{{self.command}} {{self.path}} {{self.rfile.read(length).decode()}}"
            with open(os.path.join(os.environ["HOME"], "asked"), "a") as file:
                file.write(asked + "\\n")
            wrong = self.path.endswith("wrong")
            body = b'{{"reason": ["error", [110, 111, 32, 115, 117, 99, 104], "thing\\\\ntwo lines"]}}' if wrong else b'{{"rabbitmq_version": "0"}}' if self.command == "GET" else b""
            self.send_response(400 if wrong else 200)
            self.send_header("Content-Length", str(len(body)))
            self.end_headers()
            self.wfile.write(body)

        do_GET = do_PUT = do_POST = answer

        def log_message(self, *_):
            pass

    def clients():
        while True:
            client, _ = listening.accept()
            client.recv(8)
            client.sendall(b"\\1")
            client.close()

    listening = socket.create_server(("127.0.0.1", ports[0]))
    threading.Thread(target=clients, daemon=True).start()
    server = http.server.HTTPServer(("127.0.0.1", ports[1]), Answers)
    server.serve_forever()
"""
ENDS = "#!/bin/sh\necho BOOT FAILED\necho the port is taken\nexit 1\n"
WAITS = "#!/bin/sh\nexec sleep 100\n"


class Made:
    """A folder of programs, `epmd` among them, at the front of the path."""

    def __init__(self, node):
        self.folder = tempfile.TemporaryDirectory()
        self.before = os.environ["PATH"]
        for name, text in (("rabbitmq-server", node), ("epmd", WAITS), ("rabbitmqctl", '#!/bin/sh\necho "$RABBITMQ_NODENAME $*"\n[ "$2" != wrong ]\n')):
            path = os.path.join(self.folder.name, name)
            with open(path, "w", encoding="utf-8") as file:
                file.write(text)
            os.chmod(path, 0o755)

    def __enter__(self):
        os.environ["PATH"] = f"{self.folder.name}:{self.before}"
        return self.folder.name

    def __exit__(self, *_):
        os.environ["PATH"] = self.before
        self.folder.cleanup()


NODE = textwrap.dedent(NODE.format(python=sys.executable)).lstrip()


def runs(pid):
    """Whether this process runs; one that is dead and not yet waited for does not."""
    try:
        with open(f"/proc/{pid}/stat", encoding="utf-8") as file:
            return file.read().rpartition(")")[2].split()[0] != "Z"
    except FileNotFoundError:
        return False


class Started(unittest.TestCase):
    def test_it_answers_inside_the_block_and_is_gone_behind_it(self):
        with Made(NODE) as programs, Rabbit("one", programs=programs) as rabbit:
            self.assertEqual(rabbit.api("overview"), {"rabbitmq_version": "0"})
            socket.create_connection(("127.0.0.1", rabbit.port)).close()
            pid, folder = rabbit.pid, rabbit.folder
            self.assertTrue(runs(pid))
        self.assertFalse(runs(pid))
        self.assertFalse(os.path.exists(folder))

    def test_what_is_asked_of_the_management_interface(self):
        with Made(NODE) as programs, Rabbit(programs=programs) as rabbit:
            rabbit.add_vhost("a b")
            rabbit.add_user("till", "secret", vhost="a b")
            rabbit.import_definitions({"queues": []}, "/")
            rabbit.export_definitions()
            with open(os.path.join(rabbit.folder, "asked"), encoding="utf-8") as file:
                asked = [line.strip() for line in file if "overview" not in line]
        all_rights = '{"configure": ".*", "write": ".*", "read": ".*"}'
        wanted = ["PUT /api/vhosts/a%20b {}", f"PUT /api/permissions/a%20b/guest {all_rights}", 'PUT /api/users/till {"password": "secret", "tags": ""}']
        wanted += [f"PUT /api/permissions/a%20b/till {all_rights}", 'POST /api/definitions/%2F {"queues": []}', "GET /api/definitions"]
        self.assertEqual(asked, wanted)

    def test_a_refusal_is_one_line(self):
        with Made(NODE) as programs, Rabbit("two", programs=programs) as rabbit:
            with self.assertRaisesRegex(RabbitFault, "^RabbitMQ refuses GET /api/wrong: 400, error no such thing two lines$"):
                rabbit.api("wrong")
            self.assertEqual(rabbit.control("list_users"), "two@localhost -q list_users\n")
            with self.assertRaisesRegex(RabbitFault, "^rabbitmqctl wrong: two@localhost -q wrong$"):
                rabbit.control("wrong")

    def test_it_is_stopped_and_started_again_with_its_folder(self):
        with Made(NODE) as programs, Rabbit(programs=programs) as rabbit:
            first, folder = rabbit.pid, rabbit.folder
            rabbit.stop()
            self.assertFalse(runs(first))
            rabbit.start()
            self.assertNotEqual(rabbit.pid, first)
            self.assertEqual(rabbit.folder, folder)

    def test_ports_that_are_given_are_taken(self):
        ports = free_ports(3)
        with Made(NODE) as programs, Rabbit(port=ports[0], management=ports[1], distribution=ports[2], programs=programs) as rabbit:
            self.assertEqual([rabbit.port, rabbit.management, rabbit.distribution], ports)


class NotStarted(unittest.TestCase):
    def test_without_the_package(self):
        with tempfile.TemporaryDirectory() as nothing, self.assertRaisesRegex(NotHere, "^RabbitMQ is not installed: apt-get install rabbitmq-server$"):
            Rabbit(programs=nothing)

    def test_a_node_that_ends_says_why_and_leaves_nothing(self):
        with Made(ENDS) as programs:
            rabbit = Rabbit(programs=programs)
            with self.assertRaisesRegex(RabbitFault, "^RabbitMQ ended while it started: BOOT FAILED / the port is taken$"):
                rabbit.__enter__()
            self.assertFalse(os.path.exists(rabbit.folder))

    def ended_by(self, number):
        """Kills a script that has a node, and returns its status, whether the node runs, and whether its folder is there."""
        lines = "import time\nfrom dev.beds.rabbit import Rabbit\n"
        with Made(NODE) as programs:
            lines += f"with Rabbit(programs={programs!r}) as rabbit:\n    print(rabbit.pid, rabbit.folder, flush=True)\n    time.sleep(60)\n"
            script = subprocess.Popen([sys.executable, "-c", lines], stdout=subprocess.PIPE, stderr=subprocess.DEVNULL, text=True)
            pid, folder = script.stdout.readline().split()
            script.send_signal(number)
            status = script.wait(30)
            script.stdout.close()
            end = time.monotonic() + 30
            while runs(pid) and time.monotonic() < end:
                time.sleep(0.1)
            left = os.path.exists(folder)
            shutil.rmtree(folder, ignore_errors=True)
            return status, runs(pid), left

    def test_nothing_is_left_of_a_script_that_is_ended(self):
        self.assertEqual(self.ended_by(signal.SIGTERM), (128 + signal.SIGTERM, False, False))
        self.assertEqual(self.ended_by(signal.SIGINT)[1:], (False, False))

    def test_a_script_that_is_killed_leaves_no_process(self):
        status, alive, _ = self.ended_by(signal.SIGKILL)
        self.assertEqual((status, alive), (-signal.SIGKILL, False))


class Ports(unittest.TestCase):
    def test_free_ports_are_apart_and_can_be_taken(self):
        ports = free_ports(20)
        self.assertEqual(len(set(ports)), 20)
        for it in ports:
            socket.create_server(("127.0.0.1", it)).close()


# each takes the program warren
EXAMPLES = [f"examples.{it}.run" for it in ("metrics", "parts", "shovel", "ci", "takeover", "clients.libraries.unmodified")] + ["dev.front_costs"]


class Examples(unittest.TestCase):
    def run_it(self, name, *words):
        done = subprocess.run([sys.executable, "-m", name, *words], capture_output=True, text=True)
        return done.returncode, done.stdout, done.stderr

    def test_help(self):
        for name in EXAMPLES:
            status, out, said = self.run_it(name, "--help")
            self.assertEqual((status, said), (0, ""))
            self.assertIn("WARREN", out)

    def test_words_that_are_refused(self):
        for name in EXAMPLES:
            for words, why in (((), "it takes the program warren"), (("/nowhere",), "/nowhere is no program"), ((HERE,), "is no program"), ((__file__,), "is no program"), (("a", "b", "c"), "it takes")):
                status, out, said = self.run_it(name, *words)
                self.assertEqual((status, out, said.count("\n")), (3, "", 1), (name, words, said))
                self.assertIn(why, said)
        self.assertIn("x is no number", self.run_it("examples.shovel.run", sys.executable, "x")[2])


class BrokenOff(unittest.TestCase):
    """Ctrl-C while a script reads its file is one line, also in what a shell started in the background."""

    def test_each(self):
        for name in ("convert", "suggest", "why", "split", "audit", "draw"):
            with self.subTest(name), tempfile.TemporaryDirectory() as folder:
                path = os.path.join(folder, "file")
                os.mkfifo(path)
                words = {"split": [path, path, folder], "audit": [path, path, path]}.get(name, [path])
                ignored = {"preexec_fn": lambda: signal.signal(signal.SIGINT, signal.SIG_IGN)}
                running = subprocess.Popen([*warrenctl(name), *words], stdout=subprocess.PIPE, stderr=subprocess.PIPE, text=True, **ignored)
                # this waits until the script has opened it, too
                with open(path, "w", encoding="utf-8"):
                    running.send_signal(signal.SIGINT)
                    out, said = running.communicate(timeout=60)
                self.assertEqual((running.returncode, out, said), (130, "", f"{name}: broken off by INT\n"))


if __name__ == "__main__":
    unittest.main()
