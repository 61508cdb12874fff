"""A file of messages: a line of JSON for each, behind one that names their queue. A message is its exchange and its key as texts, and its
properties and its body in Base64, each byte as it was."""

import base64
import json
import os
from contextlib import contextmanager

from warrenctl.amqp.client import Message
from warrenctl.fault import Fault
from warrenctl.files.writing import sync_folder

FORMAT = "messages 1"
MOST_PENDING = 1 << 20


def text_of(data):
    """A name or a key as a text; a byte that is no UTF-8 becomes half a surrogate, which JSON has as an escape."""
    return data.decode(errors="surrogateescape")


def line_of(value):
    return json.dumps(value, separators=(",", ":")).encode() + b"\n"


def line_of_message(message):
    properties, body = (base64.b64encode(it).decode() for it in (message.properties, message.body))
    return line_of({"exchange": text_of(message.exchange), "key": text_of(message.key), "properties": properties, "body": body})


def bytes_of(text):
    data = base64.b64decode(text, validate=True)
    if base64.b64encode(data).decode() != text:
        raise ValueError
    return data


def message_of(line):
    value = json.loads(line)
    exchange, key = (value[it].encode(errors="surrogateescape") for it in ("exchange", "key"))
    properties, body = (bytes_of(value[it]) for it in ("properties", "body"))
    if len(exchange) > 255 or len(key) > 255 or len(properties) < 2:
        raise ValueError
    return Message(exchange, key, properties, body)


NO_MESSAGE = (ValueError, LookupError, TypeError, AttributeError, RecursionError)


def queue_of(file, name):
    """The queue that the first line names; what is read next is the first message."""
    try:
        first = json.loads(file.readline())
        if first["format"] == FORMAT and isinstance(first["queue"], str):
            return first["queue"]
    except NO_MESSAGE:
        pass
    raise Fault(f"{name} is no file of messages")


def look_through(name):
    """The queue, how many messages there are, and whether the last line was cut off. A line that is no message is told."""
    with open(name, "rb") as file:
        queue, count = queue_of(file, name), 0
        for count, line in enumerate(file, 1):
            if not line.endswith(b"\n"):
                return queue, count - 1, True
            try:
                message_of(line)
            except NO_MESSAGE:
                raise Fault(f"{name}: line {count + 1} is no message") from None
        return queue, count, False


def lines_in(name):
    """The lines of the messages, without one that was cut off."""
    with open(name, "rb") as file:
        file.readline()
        for line in file:
            if line.endswith(b"\n"):
                yield line


def whole_size(name):
    """How many bytes the whole lines have."""
    with open(name, "rb") as file:
        return sum(len(line) for line in file if line.endswith(b"\n"))


class Kept:
    """A file that messages are written to. Once `keep` returns, they are on the disk."""

    def __init__(self, name, file):
        self.name, self.file, self.count, self.pending = name, file, 0, bytearray()

    def write(self, message):
        self.write_line(line_of_message(message))

    def write_line(self, line):
        self.pending += line
        self.count += 1
        if len(self.pending) > MOST_PENDING:
            self._put()

    def _put(self):
        while self.pending:
            del self.pending[: self.file.write(self.pending)]

    def keep(self):
        self._put()
        os.fsync(self.file.fileno())


def first_line(queue):
    return line_of({"format": FORMAT, "queue": queue})


def for_owner(name, flags):
    """A new file that its owner alone may read: what is in messages is nobody else's business."""
    return os.open(name, flags, 0o600)


@contextmanager
def new_file(name, queue):
    """A file that is not there yet."""
    with open(name, "xb", buffering=0, opener=for_owner) as file:
        kept = Kept(name, file)
        kept.pending += first_line(queue)
        kept.keep()
        sync_folder(name)
        yield kept
        kept.keep()


@contextmanager
def file_to_append(name, queue):
    """A file that is there, of this queue, or empty. A last line that was cut off is taken away: what it was of was not acknowledged."""
    is_empty = os.path.getsize(name) == 0
    named, _, is_cut = (queue, 0, False) if is_empty else look_through(name)
    if named != queue:
        raise Fault(f"{name} is of the queue {json.dumps(named)}")
    with open(name, "r+b", buffering=0) as file:
        if is_cut:
            file.truncate(whole_size(name))
        file.seek(0, os.SEEK_END)
        kept = Kept(name, file)
        kept.pending += first_line(queue) if is_empty else b""
        kept.keep()
        yield kept
        kept.keep()
