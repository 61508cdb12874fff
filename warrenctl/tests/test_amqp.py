"""The tests of the client that the scripts share, which want Python 3 alone: python3 -m dev.unit test_amqp

A server plays a script of bytes, which were written by hand from AMQP 0-9-1 (and RabbitMQ's confirms).
"""

import random
import socket
import unittest

from warrenctl.amqp.client import Client, Depth, Fault, Message, Refused
from warrenctl.amqp.wire import Arguments
from warrenctl.cli.login import address_of
from warrenctl.tests.fake import CHANNEL, CHANNEL_OK, CLOSE, CLOSE_OK, OPEN, OPEN_OK, PROTOCOL, RESETS, START, TUNE, TUNE_OK, Scripted, logged_in

# start-ok 10 11: a table of 99 bytes, "PLAIN", NUL "till" NUL "till", "en_US"
START_OK = (
    bytes.fromhex("01 0000 00000085 000a 000b 00000063")
    + b"\x07product" + b"S\0\0\0\x10warren's scripts"
    + b"\x0ccapabilities" + b"F\0\0\0\x34" + b"\x1cauthentication_failure_close" + b"t\x01" + b"\x12publisher_confirms" + b"t\x01"
    + b"\x05PLAIN" + b"\0\0\0\x0a\0till\0till" + b"\x05en_US" + b"\xce"
)  # fmt: skip
OPENED = logged_in(len(START_OK))
ENDS = (CLOSE, ("sends", CLOSE_OK))
# passive queue.declare 50 10 of "audit", and declare-ok 50 11 with 7 ready messages and 2 consumers
AUDIT = bytes.fromhex("01 0001 00000011 0032 000a 0000 05 6175646974 01 00000000 ce")
AUDIT_OK = bytes.fromhex("01 0001 00000012 0032 000b 05 6175646974 00000007 00000002 ce")
GONE = bytes.fromhex("01 0001 00000010 0032 000a 0000 04 676f6e65 01 00000000 ce")
# channel.close 20 40 with 404 "not-found" for 50 10, and close-ok 20 41
NOT_FOUND = bytes.fromhex("01 0001 00000014 0014 0028 0194 09 6e6f742d666f756e64 0032 000a ce")
CHANNEL_CLOSE_OK = bytes.fromhex("01 0001 00000004 0014 0029 ce")
AGAIN = (("sends", NOT_FOUND), CHANNEL_CLOSE_OK, CHANNEL, ("sends", CHANNEL_OK))
# confirm.select 85 10, and select-ok 85 11
SELECT = bytes.fromhex("01 0001 00000005 0055 000a 00 ce")
SELECT_OK = bytes.fromhex("01 0001 00000004 0055 000b ce")
# the properties content-type "a/b", delivery-mode 2, priority 9 and a header "n" of the letter l, 8 bytes: flags b800
PROPERTIES = bytes.fromhex("b800 03 612f62 0000000b 01 6e 6c 0102030405060708 02 09")
# publish 60 40 to "shop" under "a.b", mandatory; its header 60 with two bytes of a body; the body
PUBLISH = bytes.fromhex("01 0001 00000010 003c 0028 0000 04 73686f70 03 612e62 01 ce")
HEADER = bytes.fromhex("02 0001 00000023 003c 0000 0000000000000002") + PROPERTIES + b"\xce"
BODY = bytes.fromhex("03 0001 00000002 6869 ce")
SENT = Message(b"shop", b"a.b", PROPERTIES, b"hi")
ACK_1 = bytes.fromhex("01 0001 0000000d 003c 0050 0000000000000001 00 ce")
# basic.get 60 70 of "audit"; get-ok 60 71 with tag 5, redelivered, and 3 that wait; get-empty 60 72
GET = bytes.fromhex("01 0001 0000000d 003c 0046 0000 05 6175646974 00 ce")
GET_OK = bytes.fromhex("01 0001 0000001a 003c 0047 0000000000000005 01 04 73686f70 03 612e62 00000003 ce")
GET_EMPTY = bytes.fromhex("01 0001 00000005 003c 0048 00 ce")


class Opening(unittest.TestCase):
    def client(self, server, user="till"):
        return Client("127.0.0.1", server.port, user, "till", patience=3)

    def test_each_byte(self):
        steps = (PROTOCOL, ("sends", START), START_OK, *OPENED[3:], *ENDS)
        with Scripted(*steps) as server, self.client(server):
            pass

    def refused(self, *script):
        with Scripted(*script) as server, self.assertRaises(Fault) as refused:
            self.client(server)
        return str(refused.exception).replace(str(server.port), "PORT")

    def test_what_is_refused(self):
        # connection.close with 403 "access-refused" for start-ok, and with 530 "not-allowed" for open
        wrong_login = bytes.fromhex("01 0000 00000019 000a 0032 0193 0e") + b"access-refused" + bytes.fromhex("000a 000b ce")
        no_host = bytes.fromhex("01 0000 00000016 000a 0032 0212 0b") + b"not-allowed" + bytes.fromhex("000a 0028 ce")
        begun = (PROTOCOL, ("sends", START), len(START_OK))
        self.assertEqual(self.refused(*begun, ("sends", wrong_login), CLOSE_OK), 'login as "till": 403 access-refused')
        self.assertEqual(self.refused(*begun), 'login as "till": the server ended the connection')
        self.assertEqual(self.refused(*begun, ("sends", TUNE), TUNE_OK, OPEN, ("sends", no_host), CLOSE_OK), 'virtual host "/": 530 not-allowed')
        self.assertEqual(self.refused(PROTOCOL), "127.0.0.1:PORT: the server ended the connection")
        self.assertEqual(self.refused(PROTOCOL, RESETS), "127.0.0.1:PORT: the server ended the connection")
        self.assertEqual(self.refused(PROTOCOL, ("sends", bytes.fromhex("01 0000 00000002 000a ce"))), "127.0.0.1:PORT: a method ends early")
        self.assertEqual(self.refused(PROTOCOL, ("sends", b"AMQP\0\1\0\0")), "127.0.0.1:PORT: the server speaks another version of AMQP")
        self.assertEqual(self.refused(PROTOCOL, ("sends", b"HTTP/1.1 400 Bad Request\r\n")), "127.0.0.1:PORT: what came is no frame of AMQP 0-9-1")
        self.assertEqual(self.refused(PROTOCOL, ("sends", bytes.fromhex("01 0000 00000ff9"))), "127.0.0.1:PORT: what came is no frame of AMQP 0-9-1")
        self.assertEqual(self.refused(PROTOCOL, ("sends", START[:-1] + b"\0")), "127.0.0.1:PORT: a frame has no end")
        self.assertEqual(self.refused(PROTOCOL, ("sends", START.replace(b"PLAIN", b"OTHER"))), "127.0.0.1:PORT: the server has no login by PLAIN")
        early = bytes.fromhex("01 0000 00000004 000a 000a ce")
        self.assertEqual(self.refused(PROTOCOL, ("sends", early)), "127.0.0.1:PORT: the arguments of a method end early")

    def test_nobody_listens(self):
        with socket.create_server(("127.0.0.1", 0)) as listener:
            port = listener.getsockname()[1]
        with self.assertRaisesRegex(Fault, "127.0.0.1:[0-9]+: Connection refused"):
            Client("127.0.0.1", port, "till", "till")
        with self.assertRaises(Fault):
            Client("no such host", 1, "till", "till")

    def test_an_answer_has_to_come(self):
        with Scripted(PROTOCOL, ("sends", START[:20]), 1) as server, self.assertRaisesRegex(Fault, "no answer in time|timed out"):
            Client("127.0.0.1", server.port, "till", "till", patience=0.2)
        server.played = len(server.script)


class Commands(unittest.TestCase):
    def with_client(self, script, work):
        with Scripted(*OPENED, *script) as server, Client("127.0.0.1", server.port, "till", "till", patience=3) as client:
            return work(client)

    def test_passive_declares(self):
        self.assertEqual(self.with_client((AUDIT, ("sends", AUDIT_OK), *ENDS), lambda it: it.queue("audit")), Depth(7, 2))
        # exchange.declare 40 10 of "shop", of the type "direct", passive; declare-ok 40 11
        shop = bytes.fromhex("01 0001 00000017 0028 000a 0000 04 73686f70 06 646972656374 01 00000000 ce")
        self.with_client((shop, ("sends", bytes.fromhex("01 0001 00000004 0028 000b ce")), *ENDS), lambda it: it.exchange("shop"))
        with self.assertRaisesRegex(Refused, '^exchange "shop": 404 not-found$'):
            self.with_client((shop, *AGAIN), lambda it: it.exchange("shop"))
        with self.assertRaisesRegex(Refused, '^queue "gone": 404 not-found$'):
            self.with_client((GONE, *AGAIN), lambda it: it.queue("gone"))

    def test_many_at_once_and_one_that_is_gone(self):
        script = (GONE + AUDIT, *AGAIN, AUDIT, ("sends", AUDIT_OK), *ENDS)
        self.assertEqual(self.with_client(script, lambda it: it.queues(["gone", "audit"])), {"gone": None, "audit": Depth(7, 2)})

    def published(self, *answers):
        def work(client):
            client.select()
            number = client.publish(SENT)
            return number, client.settled(), client.unsettled

        return self.with_client((SELECT, ("sends", SELECT_OK), PUBLISH + HEADER + BODY, *answers, *ENDS), work)

    def test_confirms(self):
        nack = ACK_1.replace(bytes.fromhex("003c 0050"), bytes.fromhex("003c 0078"))
        returned = bytes.fromhex("01 0001 00000018 003c 0032 0138 08 6e6f2d726f757465 04 73686f70 03 612e62 ce")
        self.assertEqual(self.published(("sends", ACK_1)), (1, [(1, True)], {}))
        self.assertEqual(self.published(("sends", nack)), (1, [(1, False)], {}))
        self.assertEqual(self.published(("sends", returned + HEADER + BODY + ACK_1)), (1, [(1, False)], {}))

    def test_a_confirm_of_nothing(self):
        for number in (0, 2):
            with self.assertRaisesRegex(Fault, f"a confirm of {number} came, which waits for none"):
                self.published(("sends", ACK_1[:18] + bytes([number]) + b"\0\xce"))

    def test_a_confirm_of_many(self):
        def work(client):
            client.select()
            for _ in range(3):
                client.publish(SENT)
            first = client.settled()
            return first, client.settled()

        two, third = ACK_1[:18] + b"\x02\x01\xce", ACK_1[:18] + b"\x03\x00\xce"
        script = (SELECT, ("sends", SELECT_OK), (PUBLISH + HEADER + BODY) * 3, ("sends", two + third), *ENDS)
        self.assertEqual(self.with_client(script, work), ([(1, True), (2, True)], [(3, True)]))

    def test_a_body_in_frames(self):
        """With a frame-max of 4,096 a body of 4,090 bytes has a frame of 4,088 and one of 2; an empty one has none."""

        def header(size):
            return bytes.fromhex("02 0001 0000000e 003c 0000") + size.to_bytes(8, "big") + bytes.fromhex("0000 ce")

        frames = b"\x03\0\x01\0\0\x0f\xf8" + b"x" * 4088 + b"\xce" + b"\x03\0\x01\0\0\0\x02xx\xce"
        sent = SENT._replace(properties=b"\0\0")
        for body, wanted in ((b"x" * 4090, header(4090) + frames), (b"", header(0))):
            self.with_client((PUBLISH + wanted, *ENDS), lambda it, body=body: it.publish(sent._replace(body=body)))

    def test_gets(self):
        got = GET_OK + HEADER + BODY
        script = (GET * 3, ("sends", got + got.replace(b"\x05\x01\x04", b"\x06\x00\x04") + GET_EMPTY), ACK_1.replace(b"\x01\x00\xce", b"\x06\x01\xce"), *ENDS)

        def work(client):
            found = list(client.gets("audit", 3))
            client.ack(found[-1].tag, multiple=True)
            return found

        self.assertEqual(self.with_client(script, work), [(5, True, SENT), (6, False, SENT)])

    def test_a_message_that_is_given_back(self):
        """basic.reject 60 90 of tag 5 with requeue."""
        reject = bytes.fromhex("01 0001 0000000d 003c 005a 0000000000000005 01 ce")
        script = (GET, ("sends", GET_OK + HEADER + BODY), reject, *ENDS)
        self.with_client(script, lambda it: it.give_back(it.get("audit").tag))

    def test_a_heartbeat_and_a_body_in_pieces(self):
        pieces = b"\x08\0\0\0\0\0\0\xce" + GET_OK + HEADER + b"\x03\0\x01\0\0\0\x01h\xce" + b"\x03\0\x01\0\0\0\x01i\xce"
        self.assertEqual(self.with_client((GET, ("sends", pieces), *ENDS), lambda it: it.get("audit")), (5, True, SENT))
        self.assertIsNone(self.with_client((GET, ("sends", GET_EMPTY), *ENDS), lambda it: it.get("audit")))

    def test_contents_that_are_none(self):
        rows = [(HEADER + BODY.replace(b"\x02hi", b"\x03hii"), "a body is longer"), (BODY, "a frame of kind 3")]
        rows += [(b"\x02\0\x01\0\0\0\x02\0\x3c\xce", "a content header ends early")]
        for wrong, said in rows:
            with self.assertRaisesRegex(Fault, f'^queue "audit": {said}'):
                self.with_client((GET, ("sends", GET_OK + wrong)), lambda it: it.get("audit"))

    def test_consuming(self):
        qos, qos_ok = bytes.fromhex("01 0001 0000000b 003c 000a 00000000 0002 00 ce"), bytes.fromhex("01 0001 00000004 003c 000b ce")
        consume = bytes.fromhex("01 0001 00000012 003c 0014 0000 05 6175646974 00 00 00000000 ce")
        consume_ok = bytes.fromhex("01 0001 00000006 003c 0015 01 63 ce")
        deliver = bytes.fromhex("01 0001 00000018 003c 003c 01 63 0000000000000009 00 04 73686f70 03 612e62 ce")

        def work(client):
            client.consume("audit", 2)
            return client.delivery()

        script = (qos, ("sends", qos_ok), consume, ("sends", consume_ok + deliver + HEADER + BODY), *ENDS)
        self.assertEqual(self.with_client(script, work), (9, False, SENT))

    def test_names_that_are_too_long(self):
        with self.assertRaisesRegex(Fault, "256 bytes"):
            self.with_client((), lambda it: it.queue("x" * 256))


class Anything(unittest.TestCase):
    """Whatever a server says, there is an answer or a fault."""

    SAID = (START, TUNE, OPEN_OK, CHANNEL_OK, AUDIT_OK, SELECT_OK, ACK_1, GET_OK, HEADER, BODY, GET_EMPTY)

    def heard(self, data):
        """What comes of a few commands if the server says this and ends; true if all are answered."""
        with Scripted(("sends", data)) as server:
            try:
                client = Client("127.0.0.1", server.port, "till", "till", patience=2)
            except Fault:
                return False
            with client:
                try:
                    client.queue("audit")
                    client.select()
                    client.publish(SENT)
                    client.settled()
                    return (client.get("audit"), client.get("audit")) == ((5, True, SENT), None)
                except Fault:
                    return False

    def test_each(self):
        chance, whole = random.Random(7), b"".join(self.SAID)
        self.assertTrue(self.heard(whole))
        for _ in range(300):
            data = bytearray(whole)
            for _ in range(chance.randint(1, 3)):
                data[chance.randrange(len(data))] = chance.choice((0, 1, 255, chance.randrange(256)))
            self.heard(bytes(data[: chance.choice((len(data), chance.randrange(len(data))))]))
        for _ in range(100):
            said = list(self.SAID)
            chance.shuffle(said)
            self.heard(START + TUNE + OPEN_OK + CHANNEL_OK + b"".join(said))


class Addresses(unittest.TestCase):
    def test_each(self):
        self.assertEqual(address_of("till@127.0.0.1"), ("till", "127.0.0.1", 5672))
        self.assertEqual(address_of("till@127.0.0.1:1"), ("till", "127.0.0.1", 1))
        self.assertEqual(address_of("a@b@[::1]:5673"), ("a@b", "::1", 5673))
        self.assertEqual(address_of("till@[::1]"), ("till", "::1", 5672))
        for wrong in ("", "127.0.0.1", "till@", "@host", "till@host:", "till@host:0", "till@host:65536", "till@host:five", "till@::1", "till@host:²"):
            with self.assertRaises(Fault, msg=wrong):
                address_of(wrong)


class Tables(unittest.TestCase):
    """Field tables as RabbitMQ writes them, by hand."""

    def test_each_type(self):
        rows = (
            (b"t\1", True), (b"b\xff", -1), (b"B\xff", 255), (b"s\xff\xfe", -2), (b"u\xff\xfe", 65_534), (b"I\xff\xff\xff\xff", -1),
            (b"i\xff\xff\xff\xff", 4_294_967_295), (b"l" + b"\xff" * 8, -1), (b"T" + bytes(7) + b"\5", 5), (b"f\x3f\x80\0\0", 1.0),
            (b"d\x40" + bytes(7), 2.0), (b"S\0\0\0\2hi", "hi"), (b"S\0\0\0\1\xff", "\udcff"), (b"V", None), (b"x\0\0\0\2hi", b"hi"),
            (b"D\2\0\0\0\7", b"\2\0\0\0\7"), (b"A\0\0\0\3Vt\0", [None, False]), (b"F\0\0\0\4\1nt\1", {"n": True}),
        )  # fmt: skip
        for data, value in rows:
            fields = b"\1a" + data
            found = Arguments(len(fields).to_bytes(4, "big") + fields + b"more", "a table")
            self.assertEqual((found.table(), found.data), ({"a": value}, b"more"), data)

    def test_what_is_none(self):
        for data in (b"", b"\0\0\0\1", b"\0\0\0\2\1a", b"\0\0\0\3\1a?", b"\0\0\0\4\1aI\0", b"\0\0\0\7\1aS\0\0\0\2"):
            self.assertRaises(Fault, Arguments(data, "a table").table)


if __name__ == "__main__":
    unittest.main()
