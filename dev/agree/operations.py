"""What a client asks, each with its bytes and in words, and what a broker answers, read of bytes that came by a socket or stand in a transcript."""

import struct
from collections import namedtuple

from warrenctl.amqp import client, wire
from warrenctl.amqp.client import CHANNEL, quoted

REJECT, RECOVER, RECOVER_OK, PURGE, PURGE_OK = (60, 90), (60, 110), (60, 111), (50, 30), (50, 31)

# asked: the bytes; text: what they ask, for a report; wants: the answers that end it, by their methods, none if there are none
Operation = namedtuple("Operation", "asked text wants")

Confirmed = namedtuple("Confirmed", "acked number multiple")
Returned = namedtuple("Returned", "code text exchange key properties body")
Got = namedtuple("Got", "tag redelivered exchange key ready properties body")
Empty = namedtuple("Empty", "")
Counted = namedtuple("Counted", "messages")
Done = namedtuple("Done", "method")
Closed = namedtuple("Closed", "of code")


class NoAnswer(Exception):
    """The bytes end, or are no answer; the text says which."""


# ---- asked


def select():
    return Operation(wire.method(CHANNEL, client.SELECT, b"\0"), "select confirms", (client.SELECT_OK,))


def publish(exchange, key, properties, body, is_mandatory):
    arguments = b"\0\0" + wire.short_text(exchange) + wire.short_text(key) + bytes([is_mandatory])
    asked = wire.method(CHANNEL, client.PUBLISH, arguments) + wire.content(CHANNEL, properties, body, 131_072)
    text = f"publish to {quoted(exchange)} under {key!r}{', mandatory' if is_mandatory else ''}, {len(body)} bytes"
    return Operation(asked, text, (client.ACK, client.NACK))


def get(queue, needs_ack=True):
    asked = wire.method(CHANNEL, client.GET, b"\0\0" + wire.short_text(queue) + bytes([not needs_ack]))
    return Operation(asked, f"get from {quoted(queue)}", (client.GET_OK, client.GET_EMPTY))


def acknowledge(tag, is_multiple=False):
    return Operation(wire.method(CHANNEL, client.ACK, struct.pack(">QB", tag, is_multiple)), f"ack {tag}{' multiple' * is_multiple}", ())


def reject(tag, requeue):
    return Operation(wire.method(CHANNEL, REJECT, struct.pack(">QB", tag, requeue)), f"reject {tag}{' requeue' * requeue}", ())


def nack(tag, is_multiple, requeue):
    bits = is_multiple | requeue << 1
    return Operation(wire.method(CHANNEL, client.NACK, struct.pack(">QB", tag, bits)), f"nack {tag}{' multiple' * is_multiple}{' requeue' * requeue}", ())


def purge(queue):
    return Operation(wire.method(CHANNEL, PURGE, b"\0\0" + wire.short_text(queue) + b"\0"), f"purge {quoted(queue)}", (PURGE_OK,))


def recover():
    return Operation(wire.method(CHANNEL, RECOVER, b"\1"), "recover, requeue", (RECOVER_OK,))


# ---- answered


def _payload(file, wanted):
    while True:
        head = file.read(7)
        if len(head) < 7:
            raise NoAnswer("nothing more was answered")
        kind, _, size = struct.unpack(">BHI", head)
        payload = file.read(size + 1)
        if len(payload) <= size or payload[-1] != wire.FRAME_END:
            raise NoAnswer("a frame has no end")
        if kind == wanted:
            return payload[:-1]
        if kind != wire.HEARTBEAT:
            raise NoAnswer(f"a frame of kind {kind} came in place of {wanted}")


def _content(file):
    """The properties and the body of a content."""
    header = _payload(file, wire.HEADER)
    size, body = int.from_bytes(header[4:12], "big"), b""
    while len(body) < size:
        body += _payload(file, wire.BODY)
    return header[12:], body


def answer(file):
    """Reads one answer from a file of bytes. Returns its method and what it says."""
    payload = _payload(file, wire.METHOD)
    ids, arguments = struct.unpack_from(">HH", payload), wire.Arguments(payload[4:], "an answer")
    if ids in (client.ACK, client.NACK):
        return ids, Confirmed(ids == client.ACK, arguments.number(8), bool(arguments.number(1) & 1))
    if ids == client.RETURN:
        code, text = arguments.number(2), arguments.short_text()
        return ids, Returned(code, text, arguments.short_text(), arguments.short_text(), *_content(file))
    if ids == client.GET_OK:
        tag, redelivered = arguments.number(8), bool(arguments.number(1))
        exchange, key = arguments.short_text(), arguments.short_text()
        return ids, Got(tag, redelivered, exchange, key, arguments.number(4), *_content(file))
    if ids == client.GET_EMPTY:
        return ids, Empty()
    if ids == PURGE_OK:
        return ids, Counted(arguments.number(4))
    if ids in (client.CHANNEL_CLOSE, client.CONNECTION_CLOSE):
        return ids, Closed("channel" if ids == client.CHANNEL_CLOSE else "connection", arguments.number(2))
    return ids, Done(ids)


def answers(file, operation):
    """Reads what is answered to an operation, up to the answer that ends it, or to a close."""
    found = []
    while operation.wants:
        ids, said = answer(file)
        found.append(said)
        if ids in operation.wants or isinstance(said, Closed):
            break
    return found
