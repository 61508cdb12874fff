"""The tests of front, which want no network but loopback: python3 -m dev.unit test_front

Frames were written by hand from the standard. The servers are those of fake.py, which read and write frames by themselves.
"""

import contextlib
import json
import os
import random
import re
import resource
import shutil
import signal
import socket
import ssl
import struct
import subprocess
import tempfile
import time
import unittest
from urllib.request import urlopen

from dev import SHOP
from dev.beds.commands import warrenctl
from warrenctl.amqp.client import Client, Message, Refused
from warrenctl.commands.front.counting import COUNTS, Counts
from warrenctl.commands.front.definitions import DefinitionsFile
from warrenctl.commands.front.translator import Translator
from warrenctl.tests import fake
from warrenctl.tests.fake import OPEN, OPEN_OK, PROTOCOL, START, TUNE, TUNE_OK, Broker, Queue, UntilTheEnd

DEFINITIONS = os.path.join(SHOP, "definitions.json")

# the front starts meanwhile, on a machine that may have other work
fake.SECONDS = 60
HEARTBEAT_FRAME = bytes.fromhex("08 0000 00000000 ce")
# tune and tune-ok as in fake.py, with a heartbeat of 60 and of 30
TUNE_60 = bytes.fromhex("01 0000 0000000c 000a 001e 00ff 00001000 003c ce")
TUNE_OK_30 = bytes.fromhex("01 0000 0000000c 000a 001f 00ff 00001000 001e ce")
# start with one property, "a" of "S" "b", and both sets of mechanisms
START_PLAIN = bytes.fromhex("01 0000 00000024 000a 000a 00 09 00000008 01 61 53 00000001 62") + b"\0\0\0\5PLAIN" + b"\0\0\0\5en_US\xce"
START_BOTH = bytes.fromhex("01 0000 0000002d 000a 000a 00 09 00000008 01 61 53 00000001 62") + b"\0\0\0\x0ePLAIN AMQPLAIN" + b"\0\0\0\5en_US\xce"


def frame(channel, payload, kind=1):
    return struct.pack(">BHI", kind, channel, len(payload)) + payload + b"\xce"


def method(channel, class_id, method_id, arguments=b""):
    return frame(channel, struct.pack(">HH", class_id, method_id) + arguments)


def short(text):
    return bytes([len(text.encode())]) + text.encode()


def start_ok(mechanism, response):
    properties = bytes.fromhex("00000008 01 61 53 00000001 62")
    return method(0, 10, 11, properties + short(mechanism) + struct.pack(">I", len(response)) + response + short("en_US"))


def queue_declare(channel, name, bits, arguments=bytes(4)):
    return method(channel, 50, 10, bytes(2) + short(name) + bytes([bits]) + arguments)


def exchange_declare(channel, name, kind, bits, arguments=bytes(4)):
    return method(channel, 40, 10, bytes(2) + short(name) + short(kind) + bytes([bits]) + arguments)


def queue_bind(channel, queue, exchange, key, bits=0):
    return method(channel, 50, 20, bytes(2) + short(queue) + short(exchange) + short(key) + bytes([bits]) + bytes(4))


def exchange_bind(channel, to, source, key, bits=0):
    return method(channel, 40, 30, bytes(2) + short(to) + short(source) + short(key) + bytes([bits]) + bytes(4))


def queue_declare_ok(channel, name):
    return method(channel, 50, 11, short(name) + bytes(8))


EXCHANGE_DECLARE_OK, QUEUE_BIND_OK, EXCHANGE_BIND_OK = (40, 11), (50, 21), (40, 31)


class Bytes(unittest.TestCase):
    """A connection over the shop's definitions, past its protocol header."""

    def setUp(self):
        self.said = []
        self.front = Translator(DefinitionsFile(DEFINITIONS, self.said.append), 60, self.said.append)
        self.assertEqual(self.front.from_client(PROTOCOL), (b"", PROTOCOL))

    def to_server(self, data, wanted):
        self.assertEqual(self.front.from_client(data), (b"", wanted))

    def to_client(self, data, wanted):
        self.assertEqual(self.front.from_server(data), (wanted, b""))


class Opening(Bytes):
    def test_heartbeats_are_agreed_upon_with_the_client_alone(self):
        self.to_client(START_PLAIN, START_BOTH)
        self.to_client(TUNE, TUNE_60)
        self.to_server(TUNE_OK_30, TUNE_OK)
        self.assertEqual(self.front.heartbeat, 30)
        self.to_server(OPEN, OPEN)
        self.to_client(OPEN_OK, OPEN_OK)
        self.assertTrue(self.front.logged_in)
        self.to_server(HEARTBEAT_FRAME + method(1, 20, 10, b"\0") + HEARTBEAT_FRAME, method(1, 20, 10, b"\0"))

    def test_a_login_by_plain_goes_on_as_it_is(self):
        plain = start_ok("PLAIN", b"\0till\0secret")
        self.to_server(plain, plain)
        self.assertEqual(self.front.user, "till")
        self.assertNotIn("secret", " ".join(self.said))

    def test_a_login_by_amqplain_becomes_one_by_plain(self):
        """A password of 200 bytes that are no UTF-8, too."""
        for password in (b"secret", b"\xff" * 200):
            response = b"\5LOGIN" + b"S\0\0\0\4till" + b"\x08PASSWORD" + b"S" + struct.pack(">I", len(password)) + password
            self.to_server(start_ok("AMQPLAIN", response), start_ok("PLAIN", b"\0till\0" + password))
            self.assertEqual(self.front.user, "till")
        for broken in (b"\5LOGIN", b"\5LOGINS\xff\0\0\0", b"\5LOGINt\1", b"\xff"):
            data = start_ok("AMQPLAIN", broken)
            self.to_server(data, data)

    def test_the_log_has_logins(self):
        self.to_server(start_ok("PLAIN", b"\0till\0secret"), start_ok("PLAIN", b"\0till\0secret"))
        close = method(0, 10, 50, struct.pack(">H", 403) + short("access-refused") + bytes(4))
        self.to_client(close, close)
        self.assertEqual(self.said, ["login of 'till': refused by the server, 403 access-refused"])


class Declares(Bytes):
    def test_a_declare_is_passive(self):
        self.to_server(queue_declare(1, "audit", 2, b"\0\0\0\7\1aI\0\0\0\1"), queue_declare(1, "audit", 1))
        self.to_client(queue_declare_ok(1, "audit"), queue_declare_ok(1, "audit"))
        self.to_server(exchange_declare(3, "shop", "topic", 2), exchange_declare(3, "shop", "topic", 1))
        self.to_client(method(3, 40, 11), method(3, 40, 11))
        # without an answer, and one that is passive by itself
        self.to_server(queue_declare(1, "audit", 16), queue_declare(1, "audit", 17))
        self.to_server(queue_declare(1, "audit", 1), queue_declare(1, "audit", 1))
        # a name with a blank, and a letter of two bytes
        self.to_server(queue_declare(1, "ä b", 2), queue_declare(1, "ä b", 1))
        # one that the server is to name
        self.to_server(queue_declare(1, "", 4), queue_declare(1, "", 4))

    def test_a_bind_of_the_file_is_answered(self):
        self.to_server(queue_bind(1, "packing", "shop", "orders.*"), queue_declare(1, "packing", 1))
        self.to_client(queue_declare_ok(1, "packing"), method(1, *QUEUE_BIND_OK))
        self.to_server(exchange_bind(1, "records", "shop", "orders.#"), exchange_declare(1, "records", "", 1))
        self.to_client(method(1, *EXCHANGE_DECLARE_OK), method(1, *EXCHANGE_BIND_OK))
        # at a fanout exchange by any key, without an answer, and of the queue that was declared last
        self.to_server(queue_bind(1, "mail", "news", "any", 1), queue_declare(1, "mail", 17))
        self.to_server(queue_declare(2, "packing", 2), queue_declare(2, "packing", 1))
        self.to_server(queue_bind(2, "", "shop", "orders.*"), queue_declare(2, "packing", 1))
        for it in (queue_declare_ok(2, "packing"), method(2, *QUEUE_BIND_OK)):
            self.to_client(queue_declare_ok(2, "packing"), it)

    def test_any_other_bind_goes_on_as_it_is(self):
        for it in (
            queue_bind(1, "packing", "shop", "orders.#"),
            queue_bind(1, "audit", "shop", "orders.*"),
            queue_bind(1, "packing", "nowhere", "orders.*"),
            queue_bind(1, "", "shop", "orders.*"),
            exchange_bind(1, "shop", "records", "orders.#"),
            method(1, 50, 50, bytes(2) + short("packing") + short("shop") + short("orders.*") + bytes(4)),
            method(1, 50, 40, bytes(2) + short("packing") + bytes(1)),
        ):
            self.to_server(it, it)

    def test_answers_come_in_order_on_each_channel(self):
        asked = queue_declare(1, "packing", 2) + queue_bind(1, "packing", "shop", "orders.*") + queue_declare(2, "audit", 2) + queue_declare(1, "audit", 1)
        wanted = queue_declare(1, "packing", 1) * 2 + queue_declare(2, "audit", 1) + queue_declare(1, "audit", 1)
        self.to_server(asked, wanted)
        packing, audit, other = queue_declare_ok(1, "packing"), queue_declare_ok(1, "audit"), queue_declare_ok(2, "audit")
        self.to_client(other + packing + packing + audit, other + packing + method(1, *QUEUE_BIND_OK) + audit)

    def test_a_channel_that_is_closed_forgets(self):
        close, close_ok = method(1, 20, 40, struct.pack(">H", 404) + short("not-found") + bytes(4)), method(1, 20, 41)
        for by_server in (True, False):
            self.front.from_client(queue_bind(1, "packing", "shop", "orders.*"))
            if by_server:
                self.to_client(close, close)
                self.to_server(close_ok, close_ok)
            else:
                self.to_server(close, close)
                self.to_client(close_ok, close_ok)
            self.to_server(queue_declare(1, "packing", 2), queue_declare(1, "packing", 1))
            self.to_client(queue_declare_ok(1, "packing"), queue_declare_ok(1, "packing"))

    def test_a_declare_that_the_file_has_otherwise_is_noted_once(self):
        ttl = b"\0\0\0\x12" + b"\x0dx-message-ttlI\0\0\0\5"
        ttl = struct.pack(">I", len(ttl) - 4) + ttl[4:]
        for _ in range(2):
            self.front.from_client(queue_declare(1, "audit", 2 + 4, ttl))
            self.front.from_client(exchange_declare(1, "payments", "topic", 2))
        self.front.from_client(queue_declare(1, "billing", 2) + exchange_declare(1, "payments", "direct", 2))
        self.assertEqual(
            self.said,
            [
                "queue 'audit' is declared otherwise than the file has it, which holds: exclusive, x-message-ttl 5, not None",
                "exchange 'payments' is declared otherwise than the file has it, which holds: type 'topic', not 'direct'",
            ],
        )


class Counted(Bytes):
    """What passes is counted, and goes on as without."""

    def setUp(self):
        super().setUp()
        file = DefinitionsFile(DEFINITIONS, self.said.append)
        self.counts = Counts(file)
        self.front = Translator(file, 60, self.said.append, self.counts)
        self.front.from_client(PROTOCOL)

    def counted(self):
        return {f"{name} {' '.join(labels)}".strip(): it for name in COUNTS for labels, it in self.counts._counts[name].items() if it}

    def client(self, *data):
        for it in data:
            self.to_server(it, it)

    def server(self, *data):
        for it in data:
            self.to_client(it, it)

    def publish(self, channel, exchange):
        return method(channel, 60, 40, bytes(2) + short(exchange) + short("a") + b"\0") + frame(channel, bytes(14), 2)

    def number(self, channel, method_id, number, *bits):
        return method(channel, 60, method_id, struct.pack(">Q", number) + bytes(bits))

    def deliver(self, channel, tag, number):
        return method(channel, 60, 60, short(tag) + struct.pack(">Q", number) + b"\0" + short("shop") + short("a")) + frame(channel, bytes(14), 2)

    def consume(self, channel, queue, tag, bits=0):
        return method(channel, 60, 20, bytes(2) + short(queue) + short(tag) + bytes([bits]) + bytes(4))

    def test_publishes(self):
        """Those of a channel without confirms are settled by nobody. A name that the file has not is not kept."""
        self.client(self.publish(2, "news"), method(1, 85, 10, b"\0"), *[self.publish(1, it) for it in ("shop", "news", "shop", "shop", "", "made.up")])
        self.server(self.number(1, 80, 2, 1), self.number(1, 120, 4, 0), self.number(1, 80, 4, 0), self.number(1, 80, 6, 1))
        self.server(method(1, 60, 50, struct.pack(">H", 312) + short("no-route") + short("shop") + short("a")))
        published = {"published shop": 3, "published news": 2, "published": 1, "published (unknown)": 1}
        confirmed = {"confirmed shop": 2, "confirmed news": 1, "confirmed": 1, "confirmed (unknown)": 1}
        self.assertEqual(self.counted(), {**published, **confirmed, "nacked shop": 1, "returned shop": 1})

    def test_deliveries(self):
        self.client(self.consume(1, "audit", "a"), self.consume(1, "packing", "b", 2), self.consume(1, "mail", "c", 8))
        self.server(*[method(1, 60, 21, short(it)) for it in "ab"], *[self.deliver(1, it, number) for number, it in enumerate("abcaaad", 1)])
        self.client(self.number(1, 80, 3, 1), self.number(1, 120, 4, 2), self.number(1, 90, 5, 1), self.number(1, 80, 5, 0))
        # what is requeued, and what a channel held that is closed, is nobody's
        self.client(method(1, 60, 110, b"\1"), self.number(1, 80, 0, 1))
        wanted = {"delivered audit": 4, "delivered packing": 1, "delivered mail": 1, "delivered (unknown)": 1, "acked audit": 1, "acked mail": 1, "rejected audit": 2}
        self.assertEqual(self.counted(), wanted)
        self.client(method(1, 60, 30, short("a") + b"\0"))
        self.server(method(1, 60, 31, short("a")), self.deliver(1, "a", 8))
        self.assertEqual(self.counted(), {**wanted, "delivered (unknown)": 2})

    def test_gets(self):
        def get(queue, no_ack):
            return method(1, 60, 70, bytes(2) + short(queue) + bytes([no_ack]))

        def got(number):
            return method(1, 60, 71, struct.pack(">Q", number) + b"\0" + short("shop") + short("a") + bytes(4)) + frame(1, bytes(14), 2)

        self.front.from_client(queue_declare(1, "packing", 2))
        self.client(get("audit", 0), get("mail", 0), get("", 0), get("audit", 1))
        self.server(got(1), method(1, 60, 72, b"\0"), got(2), got(3))
        self.client(self.number(1, 80, 0, 1))
        self.assertEqual(self.counted(), {"delivered audit": 2, "delivered packing": 1, "acked audit": 1, "acked packing": 1})

    def test_logins_and_refusals(self):
        close = method(0, 10, 50, struct.pack(">H", 403) + short("access-refused") + bytes(4))
        gone = method(1, 20, 40, struct.pack(">H", 404) + short("not-found") + bytes(4))
        self.server(close)
        self.server(OPEN_OK, gone, gone, close)
        self.assertEqual(self.counted(), {"logins": 1, "refused login 403": 1, "refused channel 404": 2, "refused connection 403": 1})

    def test_what_cannot_be_read_is_not_counted(self):
        self.client(method(1, 60, 40, b"\0\0\xff"), method(1, 60, 40, bytes(2) + b"\1\xff" * 2 + b"\0"), method(1, 60, 80), method(1, 60, 20, bytes(2)))
        self.server(method(1, 60, 60), method(1, 60, 71, bytes(9)), method(0, 10, 50, b"\1"))
        self.assertEqual(self.counted(), {"delivered (unknown)": 1})


class Passing(Bytes):
    """Whatever is not looked into goes on byte for byte, however it is cut."""

    def frames(self, chance, count):
        made = []
        for _ in range(count):
            channel, size = chance.randint(0, 300), chance.choice((0, 1, 5, 200, 70_000))
            body = bytes(chance.randrange(256) for _ in range(min(size, 200))) * (size // 200 or 1)
            made.append(chance.choice((frame(channel, body, 3), frame(channel, body, 2), method(channel, 60, 40, body), method(channel, 60, 80, body[:9]), frame(channel, b"\0", 1))))
        return made

    def cut(self, chance, data):
        at = 0
        while at < len(data):
            step = chance.choice((1, 3, 7, 8, 100, 65_536))
            yield data[at : at + step]
            at += step

    def test_both_ways(self):
        chance = random.Random(1)
        data = b"".join(self.frames(chance, 60))
        for way, place in ((self.front.from_client, 1), (self.front.from_server, 0)):
            self.assertEqual(b"".join(way(it)[place] for it in self.cut(chance, data)), data)

    def test_what_is_changed_does_not_depend_on_cuts(self):
        chance = random.Random(2)
        some = self.frames(chance, 20)
        asked = [queue_declare(1, "packing", 2), queue_bind(1, "packing", "shop", "orders.*"), HEARTBEAT_FRAME]
        wanted = [queue_declare(1, "packing", 1), queue_declare(1, "packing", 1), b""]
        mixed = [(it, it) for it in some] + list(zip(asked * 5, wanted * 5))
        chance.shuffle(mixed)
        sent = b"".join(it for it, _ in mixed)
        self.assertEqual(b"".join(self.front.from_client(it)[1] for it in self.cut(chance, sent)), b"".join(it for _, it in mixed))

    def test_what_is_no_frame_goes_on_as_it_is_from_there_on(self):
        for broken in (b"\1\0\0\xff\xff\xff\xff", frame(1, b"abc")[:-1] + b"\0", frame(1, bytes(131_073), 3)):
            self.setUp()
            data = method(1, 20, 10, b"\0") + broken + queue_declare(1, "audit", 2)
            self.assertEqual(b"".join(self.front.from_client(data[at : at + 50_000])[1] for at in range(0, len(data), 50_000)), data)

    def test_another_protocol_goes_on_as_it_is(self):
        for data in (b"GET / HTTP/1.1\r\n\r\n", b"AMQP\0\1\0\0" + b"\0\0\0\2", b"AMQP\3\1\0\0more", b"\x16\3\1\2\0\1\0\1\xfc\3\3"):
            front = Translator(DefinitionsFile(DEFINITIONS, self.said.append), 60, self.said.append)
            self.assertEqual(b"".join(front.from_client(data[at : at + 3])[1] for at in range(0, len(data), 3)), data)
        self.to_client(PROTOCOL, PROTOCOL)

    def test_the_header_of_0_9_becomes_that_of_0_9_1(self):
        for header in (PROTOCOL, b"AMQP\1\1\0\x09"):
            front = Translator(DefinitionsFile(DEFINITIONS, self.said.append), 60, self.said.append)
            data = header + method(1, 20, 10, b"\0")
            self.assertEqual(b"".join(front.from_client(data[at : at + 3])[1] for at in range(0, len(data), 3)), PROTOCOL + method(1, 20, 10, b"\0"))

    def test_methods_that_cannot_be_read_go_on_as_they_are(self):
        for it in (method(1, 50, 10, b"\0\0\xff"), method(1, 40, 10), method(1, 50, 20, bytes(2) + b"\1\xff" * 3 + bytes(5)), method(0, 10, 11, b"\xff\xff\xff\xff")):
            self.to_server(it, it)


class File(unittest.TestCase):
    def test_it_is_read_again(self):
        said = []
        with tempfile.TemporaryDirectory() as folder:
            name = os.path.join(folder, "definitions.json")
            shutil.copy(DEFINITIONS, name)
            file = DefinitionsFile(name, said.append)
            self.assertFalse(file.has_binding("news", "queue", "lost", ""))
            with open(name, encoding="utf-8") as old:
                value = json.load(old)
            value["bindings"].append({**value["bindings"][-1], "source": "news"})
            with open(name, "w", encoding="utf-8") as new:
                json.dump(value, new)
            self.assertTrue(file.has_binding("news", "queue", "lost", ""))
            with open(name, "w", encoding="utf-8") as new:
                new.write("{")
            self.assertTrue(file.has_binding("news", "queue", "lost", ""))
            os.remove(name)
            self.assertTrue(file.has_binding("news", "queue", "lost", ""))
            self.assertEqual([it.split(": ", 1)[1] for it in said], ["refused 1; what was read before holds", "No such file or directory; what was read before holds"])


class Front(unittest.TestCase):
    """The front as a process before a server of fake.py."""

    maxDiff = None

    def front(self, server, *words, limit=None):
        command = [*warrenctl("front"), DEFINITIONS, "--listen", "127.0.0.1:0", "--to", f"127.0.0.1:{server}", *words]
        running = subprocess.Popen(command, stdout=subprocess.PIPE, stderr=subprocess.PIPE, text=True, preexec_fn=limit)
        self.addCleanup(running.communicate)
        self.addCleanup(running.kill)
        if "--metrics" in words:
            self.metrics = re.match(r"front: metrics at (\S+)\n", running.stdout.readline()).group(1)
        self.port = int(re.match(r"front: listening on 127\.0\.0\.1:(\d+)", running.stdout.readline()).group(1))
        return running

    def ended(self, running, count):
        """Ends the front once it has logged so many lines; these lines, without time and address."""
        lines = [running.stdout.readline() for _ in range(count)]
        running.send_signal(signal.SIGTERM)
        out, said = running.communicate(timeout=60)
        self.assertEqual((running.returncode, out, said), (0, "", ""))
        return [it.rstrip("\n").split(" ", 2)[2] for it in lines]

    def read(self, client):
        try:
            return client.recv(1)
        except ConnectionResetError:
            return b""


class Serving(Front):
    def test_a_client_publishes_and_takes(self):
        with Broker({"audit": Queue()}, {"shop": {"orders.new": ["audit"]}}) as broker:
            running = self.front(broker.port)
            with Client("127.0.0.1", self.port, "till", "secret") as client:
                client.select()
                for number in range(300):
                    client.publish(Message(b"shop", b"orders.new", bytes(2), b"%d" % number))
                settled = []
                while len(settled) < 300:
                    settled += client.settled()
                self.assertEqual(settled, [(it + 1, True) for it in range(300)])
                self.assertEqual(client.queue("audit").ready, 300)
                self.assertRaises(Refused, client.queue, "none")
            lines = self.ended(running, 2)
        self.assertEqual(lines, ["login of 'till': in", "end"])
        self.assertEqual(len(broker.queues["audit"].ready), 300)

    def test_heartbeats(self):
        """A client that agreed to 1 second gets them while it is silent, and is ended after two, as is its connection to the server."""
        login = start_ok("PLAIN", b"\0till\0secret")
        with UntilTheEnd(PROTOCOL, ("sends", START), login, ("sends", TUNE), TUNE_OK, OPEN, ("sends", OPEN_OK)) as server:
            running = self.front(server.port, "--heartbeat", "1")
            with socket.create_connection(("127.0.0.1", self.port), 60) as client, client.makefile("rb") as incoming:
                client.sendall(PROTOCOL)
                incoming.read(len(START) + 9)
                client.sendall(login)
                self.assertEqual(incoming.read(len(TUNE)), TUNE[:-3] + b"\0\1\xce")
                client.sendall(TUNE[:10] + b"\x1f" + TUNE[11:-3] + b"\0\1\xce" + OPEN)
                self.assertEqual(incoming.read(len(OPEN_OK)), OPEN_OK)
                begun, beats = time.monotonic(), b""
                with contextlib.suppress(ConnectionResetError):
                    while more := incoming.read(len(HEARTBEAT_FRAME)):
                        beats += more
                took = time.monotonic() - begun
            lines = self.ended(running, 3)
        self.assertGreaterEqual(beats.count(HEARTBEAT_FRAME), 1)
        self.assertEqual(beats.replace(HEARTBEAT_FRAME, b""), b"")
        self.assertGreater(took, 1.5)
        self.assertEqual(lines, ["login of 'till': in", "closed: not heard of for 2 seconds", "end"])

    def test_a_client_that_sends_heartbeats_stays(self):
        login = start_ok("PLAIN", b"\0till\0secret")
        with UntilTheEnd(PROTOCOL, ("sends", START), login, ("sends", TUNE), TUNE_OK, OPEN, ("sends", OPEN_OK)) as server:
            running = self.front(server.port, "--heartbeat", "1")
            with socket.create_connection(("127.0.0.1", self.port), 60) as client:
                client.sendall(PROTOCOL + login + TUNE[:10] + b"\x1f" + TUNE[11:-3] + b"\0\1\xce" + OPEN)
                for _ in range(8):
                    time.sleep(0.5)
                    client.sendall(HEARTBEAT_FRAME)
            lines = self.ended(running, 2)
        self.assertEqual(lines, ["login of 'till': in", "end"])

    def test_a_limit_by_address(self):
        with Broker({}) as broker:
            running = self.front(broker.port, "--most", "2")
            first, second = (socket.create_connection(("127.0.0.1", self.port), 60) for _ in range(2))
            third = socket.create_connection(("127.0.0.1", self.port), 60)
            self.assertEqual(self.read(third), b"")
            first.close()
            third.close()
            closed = [running.stdout.readline().split(" ", 2)[2] for _ in range(2)]
            with Client("127.0.0.1", self.port, "till", "secret"):
                pass
            second.close()
            lines = self.ended(running, 3)
        self.assertEqual(closed, ["closed: 2 connections of this address are open\n", "end\n"])
        self.assertEqual(sorted(lines), ["end", "end", "login of 'till': in"])

    def test_no_server(self):
        with socket.create_server(("127.0.0.1", 0)) as taken:
            port = taken.getsockname()[1]
        running = self.front(port)
        with socket.create_connection(("127.0.0.1", self.port), 60) as client:
            client.sendall(PROTOCOL)
            self.assertEqual(self.read(client), b"")
        self.assertIn(f"closed: no way to 127.0.0.1:{port}: ", self.ended(running, 2)[0])

    def test_many_clients(self):
        """The soft limit of descriptors is raised: each client takes two."""
        count, (_, hard) = 60, resource.getrlimit(resource.RLIMIT_NOFILE)
        with Broker({}) as broker, contextlib.ExitStack() as clients:
            running = self.front(broker.port, "--most", str(count), limit=lambda: resource.setrlimit(resource.RLIMIT_NOFILE, (40, hard)))
            for _ in range(count):
                client = clients.enter_context(socket.create_connection(("127.0.0.1", self.port), 60))
                client.sendall(PROTOCOL)
                self.assertTrue(self.read(client))
            running.kill()

    def test_metrics(self):
        with Broker({"audit": Queue()}, {"shop": {"orders.new": ["audit"]}}) as broker:
            running = self.front(broker.port, "--metrics", "127.0.0.1:0")
            with Client("127.0.0.1", self.port, "till", "secret") as client:
                client.select()
                for key in (b"orders.new", b"orders.new", b"none"):
                    client.publish(Message(b"shop", key, bytes(2), b"x"))
                while client.unsettled:
                    client.settled()
                client.ack(next(client.gets("audit", 1)).tag)
                self.assertRaises(Refused, client.queue, "none")
                with urlopen(f"http://{self.metrics}/metrics", timeout=60) as answer:
                    lines = answer.read().decode().splitlines()
            running.kill()
        wanted = ["connections 1", 'published_total{exchange="shop"} 3', 'confirmed_total{exchange="shop"} 3', 'returned_total{exchange="shop"} 1']
        wanted += ['delivered_total{queue="audit"} 1', 'acked_total{queue="audit"} 1', "logins_total 1", 'refused_total{what="channel",code="404"} 1']
        self.assertEqual([it for it in lines if not it.startswith("#")], [f"warren_front_{it}" for it in wanted])


class Tls(Front):
    def setUp(self):
        if not shutil.which("openssl"):
            self.skipTest("openssl")
        folder = tempfile.TemporaryDirectory()
        self.addCleanup(folder.cleanup)
        self.key, self.certificate = (os.path.join(folder.name, it) for it in ("key.pem", "certificate.pem"))
        self.make()

    def make(self, *other):
        """Makes a certificate and its key, in the place of the ones before unless others are given."""
        key, certificate = other or (self.key, self.certificate)
        made = ["openssl", "req", "-x509", "-newkey", "rsa:2048", "-nodes", "-days", "1", "-subj", "/CN=localhost", "-keyout", key, "-out", certificate]
        subprocess.run(made, check=True, capture_output=True)

    def begun(self, certificate=None):
        """What the front sends first, to a client that trusts this certificate alone."""
        context = ssl.create_default_context(cafile=certificate or self.certificate)
        context.check_hostname = False
        with socket.create_connection(("127.0.0.1", self.port), 60) as raw, context.wrap_socket(raw) as client:
            client.sendall(PROTOCOL)
            return client.makefile("rb").read(7)

    def test_over_tls(self):
        with Broker({}) as broker:
            running = self.front(broker.port, "--certificate", self.certificate, "--key", self.key)
            # start with both mechanisms, 9 bytes more than without
            self.assertEqual(self.begun(), bytes.fromhex("01 0000 00000025"))
            ping = [*warrenctl("ping"), "--hello", f"127.0.0.1:{self.port}"]
            self.assertEqual(subprocess.run([*ping, "--tls"], capture_output=True).returncode, 0)
            self.assertEqual(subprocess.run(ping, capture_output=True).returncode, 3)
            running.kill()

    def test_a_certificate_that_is_renewed(self):
        """It is served without a restart. A key that is another's, and files that are gone, change nothing."""
        with Broker({}) as broker:
            running = self.front(broker.port, "--certificate", self.certificate, "--key", self.key)
            first = self.certificate + ".first"
            shutil.copy(self.certificate, first)
            self.begun()
            self.make()
            self.begun()
            self.assertRaises(ssl.SSLError, self.begun, first)
            kept = self.certificate + ".kept"
            shutil.copy(self.certificate, kept)
            self.make(self.key + ".other", self.certificate)
            for _ in range(2):
                self.begun(kept)
            os.unlink(self.certificate)
            self.begun(kept)
            running.kill()
            told = [it.split(self.certificate + ": ")[1] for it in running.stdout.read().splitlines() if self.certificate in it]
        self.assertEqual(told, ["read again"] + [f"{it}; what was read before holds" for it in ("KEY_VALUES_MISMATCH", "No such file or directory")])


class Words(unittest.TestCase):
    def test_words(self):
        for words, status, told in (
            ([DEFINITIONS], 3, "the following arguments are required"),
            ([DEFINITIONS, "--listen", "here", "--to", "127.0.0.1:1"], 3, "argument --listen"),
            ([DEFINITIONS, "--listen", "127.0.0.1:0", "--to", "127.0.0.1:1", "--heartbeat", "0"], 3, "argument --heartbeat"),
            ([DEFINITIONS, "--listen", "127.0.0.1:0", "--to", "127.0.0.1:1", "--most", "x"], 3, "argument --most"),
            (["/nowhere", "--listen", "127.0.0.1:0", "--to", "127.0.0.1:1"], 3, "/nowhere: No such file or directory"),
            ([__file__, "--listen", "127.0.0.1:0", "--to", "127.0.0.1:1"], 3, "refused 1"),
            ([DEFINITIONS, "--listen", "127.0.0.1:0", "--to", "127.0.0.1:1", "--certificate", "/nowhere"], 3, "/nowhere: No such file"),
            ([DEFINITIONS, "--listen", "127.0.0.1:0", "--to", "127.0.0.1:1", "--certificate", DEFINITIONS], 3, "no certificate with its key"),
            ([DEFINITIONS, "--listen", "127.0.0.1:0", "--to", "127.0.0.1:1", "--key", DEFINITIONS], 3, "--key needs --certificate"),
            ([DEFINITIONS, "--listen", "127.0.0.1:0", "--to", "127.0.0.1:1", "--metrics", "192.0.2.1:1"], 4, "192.0.2.1:1: "),
            ([DEFINITIONS, "--listen", "192.0.2.1:1", "--to", "127.0.0.1:1"], 4, "192.0.2.1:1: "),
        ):
            done = subprocess.run([*warrenctl("front"), *words], capture_output=True, text=True)
            self.assertEqual((done.returncode, done.stdout, done.stderr.count("\n")), (status, "", 1), done.stderr)
            self.assertTrue(done.stderr.startswith("front: ") and told in done.stderr, done.stderr)
        self.assertEqual(subprocess.run([*warrenctl("front"), "--help"], capture_output=True).returncode, 0)


if __name__ == "__main__":
    unittest.main()
