"""The frames of AMQP 0-9-1 that the front looks into, and those that it makes itself. A method that it can't read is handed on as it came."""

import struct
from collections import namedtuple

from warrenctl.amqp import methods, wire
from warrenctl.amqp.wire import HEARTBEAT, METHOD, Arguments, long_text, short_text
from warrenctl.fault import Fault

HEADER = struct.Struct(">BHI")
_header = HEADER.unpack_from
# type, channel, size; and the byte behind the payload
AROUND = HEADER.size + 1
# where the arguments of a method begin
ARGUMENTS = HEADER.size + 4
# no frame is longer, whatever was agreed upon
MOST_PAYLOAD = 131_072
PROTOCOL_HEADER_SIZE = 8
# of 0-9-1; and of 0-9, which RabbitMQ takes for 0-9-1, too
PROTOCOL_HEADERS = (wire.PROTOCOL_HEADER, b"AMQP\x01\x01\0\x09")
HEARTBEAT_FRAME = wire.frame(HEARTBEAT, 0, b"")
NO_ARGUMENTS = bytes(4)
PASSIVE, NO_WAIT = 1, 16


def index_of(ids):
    """The class and the method, as a frame has them."""
    return struct.pack(">HH", *ids)


START, START_OK = index_of(methods.START), index_of(methods.START_OK)
TUNE, TUNE_OK = index_of(methods.TUNE), index_of(methods.TUNE_OK)
OPEN_OK, CLOSE = index_of(methods.OPEN_OK), index_of(methods.CONNECTION_CLOSE)
CHANNEL_CLOSE, CHANNEL_CLOSE_OK = index_of(methods.CHANNEL_CLOSE), index_of(methods.CHANNEL_CLOSE_OK)
EXCHANGE_DECLARE, EXCHANGE_DECLARE_OK = index_of(methods.EXCHANGE_DECLARE), index_of(methods.EXCHANGE_DECLARE_OK)
EXCHANGE_BIND, EXCHANGE_BIND_OK = index_of(methods.EXCHANGE_BIND), index_of(methods.EXCHANGE_BIND_OK)
QUEUE_DECLARE, QUEUE_DECLARE_OK = index_of(methods.QUEUE_DECLARE), index_of(methods.QUEUE_DECLARE_OK)
QUEUE_BIND, QUEUE_BIND_OK = index_of(methods.QUEUE_BIND), index_of(methods.QUEUE_BIND_OK)

# index: the class and the method, 4 bytes; data: all bytes of it
Frame = namedtuple("Frame", "kind channel index data")

Start = namedtuple("Start", "mechanisms locales")
StartOk = namedtuple("StartOk", "mechanism response locale")
Tune = namedtuple("Tune", "channel_max frame_max heartbeat")
Close = namedtuple("Close", "code text")
ExchangeDeclare = namedtuple("ExchangeDeclare", "exchange kind passive durable auto_delete internal no_wait arguments")
QueueDeclare = namedtuple("QueueDeclare", "queue passive durable exclusive auto_delete no_wait arguments")
ExchangeBind = namedtuple("ExchangeBind", "destination source key no_wait")
QueueBind = namedtuple("QueueBind", "queue exchange key no_wait")


class NoFrame(Exception):
    """Bytes that are no frames come next; `rest` has them."""

    def __init__(self, rest):
        super().__init__("no frame")
        self.rest = rest


class Reader:
    """Cuts bytes into frames that are looked into, and what lies between them."""

    def __init__(self, wanted):
        """`wanted` has the indexes of the methods that are looked into."""
        self._wanted = frozenset(wanted)
        self._rest = b""

    def parts(self, data):
        """Yields pairs of bytes that are whole frames and of the frame behind them that is looked into, which is nothing at the end.

        A frame that is not complete is kept. Raises NoFrame at bytes that are none.
        """
        data, at = self._rest + data if self._rest else data, 0
        begin, count = 0, len(data)
        while count - at >= HEADER.size:
            kind, channel, size = _header(data, at)
            end = at + size + AROUND
            if size > MOST_PAYLOAD or end <= count and data[end - 1] != wire.FRAME_END:
                yield data[begin:at], None
                raise NoFrame(data[at:])
            if end > count:
                break
            if kind == METHOD and data[at + 7 : at + 11] in self._wanted or kind == HEARTBEAT:
                yield data[begin:at], Frame(kind, channel, data[at + 7 : at + 11], data[at:end])
                begin = end
            at = end
        self._rest = data[at:]
        yield data[begin:at], None


# ---- what a method says


def arguments_of(it):
    """The arguments of the method in a frame, to be read one after the other."""
    return Arguments(it.data[ARGUMENTS:-1], "method")


def _text(found):
    return found.short_text().decode()


def _bits(found, count):
    bits = found.number(1)
    return [bool(bits >> place & 1) for place in range(count)]


def _start(found):
    found.bytes(2)
    found.long_text()
    return Start(found.long_text().decode(), found.long_text())


def _start_ok(found):
    found.long_text()
    return StartOk(_text(found), found.long_text(), _text(found))


def _tune(found):
    return Tune(found.number(2), found.number(4), found.number(2))


def _close(found):
    return Close(found.number(2), _text(found))


def _exchange_declare(found):
    found.bytes(2)
    return ExchangeDeclare(_text(found), _text(found), *_bits(found, 5), found.table())


def _queue_declare(found):
    found.bytes(2)
    return QueueDeclare(_text(found), *_bits(found, 5), found.table())


def _bind(found):
    found.bytes(2)
    return _text(found), _text(found), _text(found), *_bits(found, 1)


READERS = {
    START: _start,
    START_OK: _start_ok,
    TUNE: _tune,
    TUNE_OK: _tune,
    CLOSE: _close,
    CHANNEL_CLOSE: _close,
    EXCHANGE_DECLARE: _exchange_declare,
    QUEUE_DECLARE: _queue_declare,
    EXCHANGE_BIND: lambda found: ExchangeBind(*_bind(found)),
    QUEUE_BIND: lambda found: QueueBind(*_bind(found)),
}


def method_of(it):
    """What the method in a frame says, or nothing if it can't be read."""
    try:
        return READERS[it.index](arguments_of(it))
    except (Fault, UnicodeDecodeError, RecursionError):
        return None


# ---- frames that are made


def _table_at(data, at):
    """The bytes of a table, its length among them, as they came."""
    return data[at : at + 4 + int.from_bytes(data[at : at + 4], "big")]


def _method_frame(channel, index, arguments=b""):
    return wire.frame(METHOD, channel, index + arguments)


def start(it, mechanisms):
    """connection.start with other mechanisms; its properties stay byte for byte."""
    versions, properties = it.data[ARGUMENTS : ARGUMENTS + 2], _table_at(it.data, ARGUMENTS + 2)
    return _method_frame(0, START, versions + properties + long_text(mechanisms.encode()) + long_text(method_of(it).locales))


def start_ok(it, mechanism, response):
    """connection.start-ok with another mechanism and its response; its properties stay byte for byte."""
    properties = _table_at(it.data, ARGUMENTS)
    return _method_frame(0, START_OK, properties + short_text(mechanism) + long_text(response) + short_text(method_of(it).locale))


def tune(index, method, heartbeat):
    """connection.tune or tune-ok with another heartbeat, in seconds."""
    return _method_frame(0, index, struct.pack(">HIH", method.channel_max, method.frame_max, heartbeat))


def passive_exchange(channel, name, kind="", no_wait=False):
    bits = bytes((PASSIVE | NO_WAIT * no_wait,))
    return _method_frame(channel, EXCHANGE_DECLARE, bytes(2) + short_text(name) + short_text(kind) + bits + NO_ARGUMENTS)


def passive_queue(channel, name, no_wait=False):
    return _method_frame(channel, QUEUE_DECLARE, bytes(2) + short_text(name) + bytes((PASSIVE | NO_WAIT * no_wait,)) + NO_ARGUMENTS)


def bind_ok(channel, index):
    """queue.bind-ok or exchange.bind-ok."""
    return _method_frame(channel, index)
