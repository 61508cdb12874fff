"""A client of AMQP 0-9-1 that does no more than a load needs: it opens, publishes, consumes, and counts what comes."""

import socket
import struct

PATIENCE = 30
"""How many seconds a client waits for an answer."""

LARGEST_FRAME = 131072
"""How many bytes a frame may have."""


def short_text(text):
    return bytes([len(text)]) + text.encode()


def frame(kind, channel, payload):
    return struct.pack(">BHI", kind, channel, len(payload)) + payload + b"\xce"


def method(channel, class_id, method_id, arguments=b""):
    return frame(1, channel, struct.pack(">HH", class_id, method_id) + arguments)


def properties(content_type=None, delivery_mode=None, message_id=None):
    """The flags of these properties, and those that there are."""
    flags, values = 0, b""
    if content_type is not None:
        flags, values = flags | 1 << 15, values + short_text(content_type)
    if delivery_mode is not None:
        flags, values = flags | 1 << 12, values + bytes([delivery_mode])
    if message_id is not None:
        flags, values = flags | 1 << 7, values + short_text(message_id)
    return struct.pack(">H", flags) + values


def publish(exchange, key, body, given=properties()):
    """The frames of a publish on channel 1 with these properties: three, two if the body is empty, or more if it is longer than a frame."""
    arguments = b"\0\0" + short_text(exchange) + short_text(key) + b"\0"
    header = struct.pack(">HHQ", 60, 0, len(body)) + given
    most = LARGEST_FRAME - 8
    content = b"".join(frame(3, 1, body[at : at + most]) for at in range(0, len(body), most))
    return method(1, 60, 40, arguments) + frame(2, 1, header) + content


def consume(queue, tag):
    """The frame of a consume on channel 1, with acknowledgement."""
    return method(1, 60, 20, b"\0\0" + short_text(queue) + short_text(tag) + b"\0" + struct.pack(">I", 0))


def cancel(tag):
    """The frame of the cancel of a consumer on channel 1."""
    return method(1, 60, 30, short_text(tag) + b"\0")


def declare(queue):
    """The frame of a passive declare of a queue on channel 1, whose answer has its depth."""
    return method(1, 50, 10, b"\0\0" + short_text(queue) + b"\1" + struct.pack(">I", 0))


START_OK = struct.pack(">I", 0) + short_text("PLAIN") + struct.pack(">I", 10) + b"\0till\0till" + short_text("en_US")


class Client:
    """One connection with channel 1 open."""

    def __init__(self, port):
        self.socket = socket.create_connection(("127.0.0.1", port), PATIENCE)
        self.socket.setsockopt(socket.IPPROTO_TCP, socket.TCP_NODELAY, 1)
        self.unread = b""
        self.early = []
        self.acked = self.wanted = 0
        self.socket.sendall(b"AMQP\0\0\x09\x01")
        self.expect(10, 10)
        self.socket.sendall(method(0, 10, 11, START_OK))
        self.expect(10, 30)
        self.socket.sendall(method(0, 10, 31, struct.pack(">HIH", 255, LARGEST_FRAME, 0)))
        self.ask(method(0, 10, 40, short_text("/") + b"\0\0"), 10, 41)
        self.ask(method(1, 20, 10, b"\0"), 20, 11)

    def frames(self):
        """The frames that came whole, at least one."""
        found = []
        while not found:
            more = self.socket.recv(1 << 20)
            if not more:
                raise EOFError("the server ended the connection")
            self.unread += more
            at = 0
            while at + 7 <= len(self.unread):
                kind, _, size = struct.unpack_from(">BHI", self.unread, at)
                if at + 8 + size > len(self.unread):
                    break
                found.append((kind, self.unread[at + 7 : at + 7 + size]))
                at += 8 + size
            self.unread = self.unread[at:]
        return found

    def methods(self):
        """The class, number and arguments of each method that came."""
        return [struct.unpack_from(">HH", it) + (it[4:],) for kind, it in self.frames() if kind == 1]

    def expect(self, class_id, method_id):
        came = [it[:2] for it in self.methods()]
        if came != [(class_id, method_id)]:
            raise ValueError(f"{class_id} {method_id} was to come, and {came} came")

    def ask(self, words, class_id, method_id):
        self.socket.sendall(words)
        self.expect(class_id, method_id)

    def select(self):
        """Has publishes confirmed from now on."""
        self.ask(method(1, 85, 10, b"\0"), 85, 11)

    def consume(self, queue):
        """Consumes with acknowledgement and no limit. The first deliveries may come with the answer."""
        self.socket.sendall(consume(queue, "c"))
        answer, *self.early = self.methods()
        if answer[:2] != (60, 21):
            raise ValueError(f"60 21 was to come, and {answer[:2]} came")

    def purge(self, queue):
        self.ask(method(1, 50, 30, b"\0\0" + short_text(queue) + b"\0"), 50, 31)

    def await_acks(self, count):
        """Waits until so many more publishes are acked, each by an ack of its own or all up to a number by one."""
        self.wanted += count
        while self.acked < self.wanted:
            for class_id, method_id, arguments in self.methods():
                if (class_id, method_id) != (60, 80):
                    raise ValueError(f"an ack was to come, and {class_id} {method_id} came")
                number, is_multiple = struct.unpack(">Q?", arguments)
                self.acked = number if is_multiple else self.acked + 1

    def deliveries(self, count):
        """Waits until so many deliveries came, and gives their tags, read by read."""
        while count > 0:
            tags, came = [], self.early or self.methods()
            self.early = []
            for class_id, method_id, arguments in came:
                if (class_id, method_id) != (60, 60):
                    raise ValueError(f"a delivery was to come, and {class_id} {method_id} came")
                at = 1 + arguments[0]
                tags.append(arguments[at : at + 8])
            count -= len(tags)
            yield tags

    def acknowledge(self, count):
        """Waits until so many deliveries came, and acknowledges each by an ack of its own."""
        for tags in self.deliveries(count):
            self.socket.sendall(b"".join(method(1, 60, 80, tag + b"\0") for tag in tags))

    def close(self):
        self.socket.close()
