"""Frames, methods and their arguments as bytes: AMQP 0-9-1, sections 2.3 and 4.2."""

import struct

from warrenctl.fault import Fault

METHOD, HEADER, BODY, HEARTBEAT = 1, 2, 3, 8
PROTOCOL_HEADER = b"AMQP\0\0\x09\x01"
FRAME_END = 0xCE
# the types of a field that are numbers, and truth values, each with its form (https://www.rabbitmq.com/amqp-0-9-1-errata.html, section 3)
NUMBERS = {b"t": ">?", b"b": ">b", b"B": ">B", b"s": ">h", b"u": ">H", b"I": ">i", b"i": ">I", b"l": ">q", b"T": ">Q", b"f": ">f", b"d": ">d"}


class NotRead(Fault):
    """These bytes are not what the standard says."""


def data_of(text):
    """The bytes of a text, or those of a word of the command line that is none."""
    try:
        return text if isinstance(text, bytes) else text.encode(errors="surrogateescape")
    except UnicodeEncodeError:
        raise NotRead("a text that is no UTF-8") from None


def short_text(text):
    """A length of one byte, and so many bytes. It takes a text or its bytes."""
    data = data_of(text)
    if len(data) > 255:
        raise NotRead(f"a name or a key of {len(data)} bytes; 255 are the most")
    return bytes([len(data)]) + data


def long_text(data):
    return struct.pack(">I", len(data)) + data


def table(fields):
    """A field table of texts, truth values and tables."""

    def value(it):
        if isinstance(it, dict):
            return b"F" + table(it)
        return b"t" + bytes([it]) if isinstance(it, bool) else b"S" + long_text(it.encode())

    return long_text(b"".join(short_text(name) + value(it) for name, it in fields.items()))


def frame(kind, channel, payload):
    return struct.pack(">BHI", kind, channel, len(payload)) + payload + bytes([FRAME_END])


def method(channel, ids, arguments=b""):
    """The frame of the method with these class and method numbers."""
    return frame(METHOD, channel, struct.pack(">HH", *ids) + arguments)


def content(channel, properties, body, frame_max):
    """The frames of a content: its header with these properties (the flags and what follows them), and its body in pieces."""
    pieces = [frame(HEADER, channel, struct.pack(">HHQ", 60, 0, len(body)) + properties)]
    room = frame_max - 8
    pieces += [frame(BODY, channel, body[at : at + room]) for at in range(0, len(body), room)]
    return b"".join(pieces)


class Arguments:
    """The arguments of a method, read one after the other; `what` was asked for."""

    def __init__(self, data, what):
        self.data, self.what = data, what

    def bytes(self, count):
        if count > len(self.data):
            raise Fault(f"{self.what}: the arguments of a method end early")
        found, self.data = self.data[:count], self.data[count:]
        return found

    def number(self, size):
        return int.from_bytes(self.bytes(size), "big")

    def short_text(self):
        return self.bytes(self.number(1))

    def long_text(self):
        return self.bytes(self.number(4))

    def table(self):
        """A field table, by its fields' names."""
        fields, found = Arguments(self.long_text(), self.what), {}
        while fields.data:
            name = fields.short_text().decode(errors="surrogateescape")
            found[name] = fields.value()
        return found

    def value(self):
        """A field's value with its type before it, as RabbitMQ writes and reads them. What JSON has not is its bytes."""
        kind = self.bytes(1)
        if kind in NUMBERS:
            form = NUMBERS[kind]
            return struct.unpack(form, self.bytes(struct.calcsize(form)))[0]
        if kind == b"S":
            return self.long_text().decode(errors="surrogateescape")
        if kind == b"F":
            return self.table()
        if kind == b"A":
            items, found = Arguments(self.long_text(), self.what), []
            while items.data:
                found.append(items.value())
            return found
        if kind == b"V":
            return None
        if kind in (b"x", b"D"):
            return self.long_text() if kind == b"x" else self.bytes(5)
        raise NotRead(f"{self.what}: a field of a type that is not known")
