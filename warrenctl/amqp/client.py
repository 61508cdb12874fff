"""A client of AMQP 0-9-1 with one connection and one channel, for one command at a time.

Names and keys that come are bytes, and so are the properties of a message: the flags of its content header and what follows them. Nothing of
them is read, so what is sent on has each byte that came. Whatever is against a command is a `Fault`, whose text is one line.
"""

import socket
import struct
from collections import namedtuple
from contextlib import suppress

from warrenctl.amqp import wire
from warrenctl.amqp.methods import (
    ACK, CHANNEL_CLOSE, CHANNEL_CLOSE_OK, CHANNEL_OPEN, CHANNEL_OPEN_OK, CONNECTION_CLOSE, CONNECTION_CLOSE_OK, CONSUME, CONSUME_OK, DELIVER,
    EXCHANGE_DECLARE, EXCHANGE_DECLARE_OK, FLOW, FLOW_OK, GET, GET_EMPTY, GET_OK, NACK, OPEN, OPEN_OK, PUBLISH, QOS, QOS_OK, QUEUE_DECLARE,
    QUEUE_DECLARE_OK, REJECT, RETURN, SELECT, SELECT_OK, START, START_OK, TUNE, TUNE_OK,
)  # fmt: skip
from warrenctl.amqp.wire import Arguments, NotRead, data_of, long_text, method, short_text
from warrenctl.fault import Fault

# seconds until an answer has to be there
PATIENCE = 30

CHANNEL = 1
WITH_CONTENT = (RETURN, DELIVER, GET_OK)
PASSIVE = b"\x01"
MANDATORY = b"\x01"
NAMES = {CHANNEL_OPEN: "channel.open", SELECT: "confirm.select", QOS: "basic.qos", CONSUME: "basic.consume", ACK: "basic.ack", REJECT: "basic.reject"}

Message = namedtuple("Message", "exchange key properties body")
Delivery = namedtuple("Delivery", "tag redelivered message")
Depth = namedtuple("Depth", "ready consumers")


class Refused(Fault):
    """The server closed the channel or the connection, with a code and a text. If it was the channel, it is open again, without confirms."""

    def __init__(self, what, code, text):
        said = "".join(it if it.isprintable() else "?" for it in text.decode(errors="replace"))
        super().__init__(f"{what}: {code} {said}")
        self.code = code


def quoted(name):
    """A name in quotation marks, on one line."""
    text = name.decode(errors="replace") if isinstance(name, bytes) else name
    return '"' + "".join(it if it.isprintable() else "?" for it in text) + '"'


class Client:
    """A connection that has logged in, with its channel open. It ends with the block of a `with`."""

    def __init__(self, host, port, user, password, patience=PATIENCE):
        self.frame_max = 4096
        self._what = f"{host}:{port}"
        try:
            self._socket = socket.create_connection((host, port), patience)
        except (OSError, UnicodeError) as error:
            raise Fault(f"{self._what}: {getattr(error, 'strerror', None) or 'cannot connect'}") from None
        self._socket.setsockopt(socket.IPPROTO_TCP, socket.TCP_NODELAY, 1)
        self._incoming = self._socket.makefile("rb", 1 << 16)
        try:
            self._log_in(user, password)
        except BaseException:
            self.drop()
            raise

    def __enter__(self):
        return self

    def __exit__(self, kind, error, trace):
        with suppress(Fault):
            if kind is None:
                self.close()
        self.drop()

    # ---- opening and closing

    def _log_in(self, user, password):
        self._send(wire.PROTOCOL_HEADER)
        start = self._expect(START)
        start.bytes(2)
        start.long_text()
        if b"PLAIN" not in start.long_text().split():
            raise Fault(f"{self._what}: the server has no login by PLAIN")
        properties = wire.table({"product": "warren's scripts", "capabilities": {"authentication_failure_close": True, "publisher_confirms": True}})
        response = b"\0" + data_of(user) + b"\0" + data_of(password)
        self._what = f"login as {quoted(user)}"
        self._send(method(0, START_OK, properties + short_text("PLAIN") + long_text(response) + short_text("en_US")))
        tune = self._expect(TUNE)
        channel_max, frame_max = tune.number(2), tune.number(4)
        self._send(method(0, TUNE_OK, struct.pack(">HIH", channel_max, frame_max, 0)))
        self.frame_max = frame_max or 131072
        self._what = 'virtual host "/"'
        self._send(method(0, OPEN, short_text("/") + b"\0\0"))
        self._expect(OPEN_OK)
        self._open_channel()

    def _open_channel(self):
        self._ask(CHANNEL_OPEN, b"\0", CHANNEL_OPEN_OK)
        self.published = 0
        self.unsettled, self._returned = {}, set()

    def close(self):
        """Ends the connection. Once this returns, all that was sent before is performed."""
        self._what = "connection.close"
        self._send(method(0, CONNECTION_CLOSE, struct.pack(">H", 200) + short_text("done") + bytes(4)))
        while self._method()[0] != CONNECTION_CLOSE_OK:
            pass

    def drop(self):
        """Ends the connection without a word; what it held is given back to its queues."""
        self._incoming.close()
        self._socket.close()

    # ---- passive declares

    def exchange(self, name):
        """Returns if the exchange is there; else it is refused with 404."""
        self._ask(EXCHANGE_DECLARE, b"\0\0" + short_text(name) + short_text("direct") + PASSIVE + bytes(4), EXCHANGE_DECLARE_OK, f"exchange {quoted(name)}")

    def queue(self, name):
        """The depth of a queue; one that is not there is refused with 404."""
        depth = self.queues([name])[name]
        if depth is None:
            raise Refused(f"queue {quoted(name)}", 404, b"not-found")
        return depth

    def queues(self, names):
        """The depth of each queue, or none if it is not there. All are asked at once, and again those behind one that is not there."""
        left, depths = list(names), {}
        while left:
            self._send(b"".join(method(CHANNEL, QUEUE_DECLARE, b"\0\0" + short_text(it) + PASSIVE + bytes(4)) for it in left))
            try:
                while left:
                    self._what = f"queue {quoted(left[0])}"
                    declared = self._expect(QUEUE_DECLARE_OK)
                    declared.short_text()
                    depths[left.pop(0)] = Depth(declared.number(4), declared.number(4))
            except Refused as error:
                if error.code != 404:
                    raise
                depths[left.pop(0)] = None
        return depths

    # ---- publishing

    def select(self):
        """Has publishes confirmed from now on."""
        self._ask(SELECT, b"\0", SELECT_OK)

    def publish(self, message, exchange=None, key=None):
        """Sends a message, to another exchange and under another key if they are given, and returns its confirm number."""
        exchange = message.exchange if exchange is None else exchange
        key = message.key if key is None else key
        self._what = f"publish to {quoted(exchange)}"
        arguments = b"\0\0" + short_text(exchange) + short_text(key) + MANDATORY
        self._send(method(CHANNEL, PUBLISH, arguments) + wire.content(CHANNEL, message.properties, message.body, self.frame_max))
        self.published += 1
        self.unsettled[self.published] = message._replace(exchange=short_text(exchange)[1:], key=short_text(key)[1:])
        return self.published

    def settled(self):
        """Waits for a confirm, and returns the numbers that it settles, each with whether the message is in all queues that it leads to, and in
        one at least."""
        while True:
            ids, arguments, returned = self._method()
            if ids == RETURN:
                self._note_returned(returned)
            elif ids in (ACK, NACK):
                last, is_multiple = arguments.number(8), arguments.number(1) & 1
                numbers = [it for it in self.unsettled if it <= last] if is_multiple else [last]
                if not numbers or numbers[-1] not in self.unsettled:
                    raise Fault(f"{self._what}: a confirm of {last} came, which waits for none")
                for it in numbers:
                    del self.unsettled[it]
                return [(it, ids == ACK and it not in self._returned) for it in numbers]
            else:
                raise Fault(f"{self._what}: method {ids[0]} {ids[1]} came, which nobody asked for")

    def _note_returned(self, message):
        """A return names no number: it is that of the first such message which has no return yet."""
        for number, sent in self.unsettled.items():
            if sent == message and number not in self._returned:
                self._returned.add(number)
                return
        raise Fault(f"{self._what}: a message was returned that was not sent")

    # ---- taking

    def get(self, queue):
        """Takes the first ready message of a queue, to be acknowledged; none if there is none."""
        return next(self.gets(queue, 1), None)

    def gets(self, queue, count):
        """Asks so many times at once, and yields what was there. If fewer come, the queue had none left."""
        self._what = f"queue {quoted(queue)}"
        self._send(method(CHANNEL, GET, b"\0\0" + short_text(queue) + b"\0") * count)
        for _ in range(count):
            ids, arguments, message = self._method()
            if ids == GET_OK:
                yield Delivery(arguments.number(8), bool(arguments.number(1)), message)
            elif ids != GET_EMPTY:
                raise Fault(f"{self._what}: method {ids[0]} {ids[1]} came in place of a message")

    def consume(self, queue, prefetch):
        """Has messages of a queue delivered, to be acknowledged, at most so many at once (0: any number)."""
        self._ask(QOS, struct.pack(">IH", 0, prefetch) + b"\0", QOS_OK)
        self._ask(CONSUME, b"\0\0" + short_text(queue) + short_text("") + b"\0" + bytes(4), CONSUME_OK, f"queue {quoted(queue)}")

    def delivery(self):
        """Waits for the next message of the queue that is consumed."""
        ids, arguments, message = self._method()
        if ids != DELIVER:
            raise Fault(f"{self._what}: method {ids[0]} {ids[1]} came in place of a delivery")
        arguments.short_text()
        return Delivery(arguments.number(8), bool(arguments.number(1)), message)

    def ack(self, tag, multiple=False):
        """Acknowledges a message, or all up to it. There is no answer: what is asked next is performed behind it."""
        self._what = NAMES[ACK]
        self._send(method(CHANNEL, ACK, struct.pack(">QB", tag, multiple)))

    def give_back(self, tag):
        """Rejects a message with requeue: it is ready again, in its place. There is no answer."""
        self._what = NAMES[REJECT]
        self._send(method(CHANNEL, REJECT, struct.pack(">QB", tag, True)))

    # ---- frames

    def _send(self, data):
        """Sends; if the server has ended the connection, what is read next tells so, and why."""
        try:
            self._socket.sendall(data)
        except ConnectionError:
            pass
        except OSError as error:
            raise Fault(f"{self._what}: {error.strerror or 'no answer in time'}") from None

    def _ask(self, ids, arguments, wanted, what=None):
        """Sends a command on the channel and returns the arguments of its answer."""
        self._what = what or NAMES[ids]
        self._send(method(CHANNEL, ids, arguments))
        return self._expect(wanted)

    def _expect(self, wanted):
        ids, arguments, _ = self._method()
        if ids != wanted:
            raise Fault(f"{self._what}: method {ids[0]} {ids[1]} came in place of {wanted[0]} {wanted[1]}")
        return arguments

    def _method(self):
        """The next method with its arguments, and its message if it has one. A close is answered, and is a refusal."""
        try:
            while True:
                ids, arguments = self._method_alone()
                if ids in (CONNECTION_CLOSE, CHANNEL_CLOSE):
                    self._refuse(ids, arguments)
                elif ids == FLOW:
                    self._send(method(CHANNEL, FLOW_OK, arguments.bytes(1)))
                else:
                    return ids, arguments, self._message(ids, arguments.data) if ids in WITH_CONTENT else None
        except NotRead as error:
            raise Fault(f"{self._what}: {error}") from None

    def _refuse(self, ids, arguments):
        refused = Refused(self._what, arguments.number(2), arguments.short_text())
        if ids == CONNECTION_CLOSE:
            self._send(method(0, CONNECTION_CLOSE_OK))
        else:
            self._send(method(CHANNEL, CHANNEL_CLOSE_OK))
            self._open_channel()
        raise refused

    def _message(self, ids, data):
        """The content that follows a method, and the exchange and the key that stand in it."""
        arguments = Arguments(data, self._what)
        if ids == DELIVER:
            arguments.short_text()
        arguments.bytes(2 if ids == RETURN else 9)
        if ids == RETURN:
            arguments.short_text()
        exchange, key = arguments.short_text(), arguments.short_text()
        header = self._payload(wire.HEADER)
        if len(header) < 14:
            raise NotRead("a content header ends early")
        size, pieces = int.from_bytes(header[4:12], "big"), []
        while size > 0:
            pieces.append(self._payload(wire.BODY))
            size -= len(pieces[-1])
        if size:
            raise NotRead("a body is longer than its header says")
        return Message(exchange, key, header[12:], b"".join(pieces))

    def _method_alone(self):
        payload = self._payload(wire.METHOD)
        if len(payload) < 4:
            raise NotRead("a method ends early")
        return struct.unpack_from(">HH", payload), Arguments(payload[4:], self._what)

    def _payload(self, wanted):
        """The payload of the next frame, which has to be of this kind; heartbeats are passed over."""
        while True:
            head = self._bytes(7)
            kind, _, size = struct.unpack(">BHI", head)
            if head.startswith(b"AMQP"):
                raise NotRead("the server speaks another version of AMQP")
            if kind not in (wire.METHOD, wire.HEADER, wire.BODY, wire.HEARTBEAT) or size > self.frame_max - 8:
                raise NotRead("what came is no frame of AMQP 0-9-1")
            payload = self._bytes(size + 1)
            if payload[-1] != wire.FRAME_END:
                raise NotRead("a frame has no end")
            if kind == wanted:
                return payload[:-1]
            if kind != wire.HEARTBEAT:
                raise NotRead(f"a frame of kind {kind} came in place of {wanted}")

    def _bytes(self, count):
        try:
            found = self._incoming.read(count)
        except ConnectionError:
            found = b""
        except OSError as error:
            raise Fault(f"{self._what}: {error.strerror or 'no answer in time'}") from None
        if len(found) < count:
            raise Fault(f"{self._what}: the server ended the connection")
        return found
