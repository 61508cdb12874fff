"""Servers for tests, at 127.0.0.1: one that plays a script, and one with queues. They read and write frames by themselves, and share nothing
with the client that is tested. Each ends by itself after twenty seconds of silence."""

import socket
import struct
import threading

SECONDS = 60

# AMQP 0-9-1, 4.2: type, channel, size, payload, CE. Written by hand from the XML of the standard.
PROTOCOL = bytes.fromhex("414d5150 00000901")
# start 10 10: version 0 9, no server properties, mechanisms "PLAIN", locales "en_US"
START = bytes.fromhex("01 0000 0000001c 000a 000a 00 09 00000000 00000005 504c41494e 00000005 656e5f5553 ce")
# tune 10 30: channel-max 255, frame-max 4096, heartbeat 0; the client takes it
TUNE = bytes.fromhex("01 0000 0000000c 000a 001e 00ff 00001000 0000 ce")
TUNE_OK = bytes.fromhex("01 0000 0000000c 000a 001f 00ff 00001000 0000 ce")
# open 10 40 of "/", and open-ok 10 41
OPEN = bytes.fromhex("01 0000 00000008 000a 0028 01 2f 00 00 ce")
OPEN_OK = bytes.fromhex("01 0000 00000005 000a 0029 00 ce")
# channel.open 20 10 on channel 1, and open-ok 20 11
CHANNEL = bytes.fromhex("01 0001 00000005 0014 000a 00 ce")
CHANNEL_OK = bytes.fromhex("01 0001 00000008 0014 000b 00000000 ce")
# close 10 50 with 200 "done", and close-ok 10 51
CLOSE = bytes.fromhex("01 0000 0000000f 000a 0032 00c8 04 646f6e65 0000 0000 ce")
CLOSE_OK = bytes.fromhex("01 0000 00000004 000a 0033 ce")


class Server:
    """Listens until its block ends. `answer` talks to one connection; what it raises is told when the block ends."""

    def __init__(self):
        self.listener = socket.create_server(("127.0.0.1", 0))
        self.listener.settimeout(SECONDS)
        self.port = self.listener.getsockname()[1]
        self.wrong, self.threads = [], []

    def begin(self, work, *given):
        self.threads.append(threading.Thread(target=work, args=given, daemon=True))
        self.threads[-1].start()

    def __enter__(self):
        self.begin(self.listen)
        return self

    def __exit__(self, kind, error, trace):
        self.listener.shutdown(socket.SHUT_RDWR)
        for it in self.threads:
            it.join(SECONDS)
        self.listener.close()
        if kind is None and self.wrong:
            raise AssertionError(self.wrong)

    def listen(self):
        while True:
            try:
                connection, _ = self.listener.accept()
            except OSError:
                return
            self.begin(self.talk, connection)

    def talk(self, connection):
        connection.settimeout(SECONDS)
        connection.setsockopt(socket.IPPROTO_TCP, socket.TCP_NODELAY, 1)
        with connection, connection.makefile("rb") as incoming:
            try:
                self.answer(connection, incoming)
            except OSError:
                pass
            except AssertionError as error:
                self.wrong.append(str(error))


RESETS = "the connection is reset"


class Scripted(Server):
    """Plays a script: bytes that have to come, a number of bytes that may be any, ("sends", bytes), or RESETS at its end."""

    def __init__(self, *script):
        super().__init__()
        self.script = script
        self.played = 0

    def answer(self, connection, incoming):
        for step in self.script:
            if step is RESETS:
                connection.setsockopt(socket.SOL_SOCKET, socket.SO_LINGER, struct.pack("ii", 1, 0))
            elif isinstance(step, tuple):
                connection.sendall(step[1])
            else:
                wanted = step if isinstance(step, bytes) else None
                came = incoming.read(len(step) if wanted else step)
                assert wanted is None or came == wanted, f"{came.hex()} came in place of {wanted.hex()}"
            self.played += 1

    def __exit__(self, kind, error, trace):
        super().__exit__(kind, error, trace)
        assert kind or self.played == len(self.script), f"the script ended at step {self.played}"


class UntilTheEnd(Scripted):
    """Plays its script, and then hears nothing more but the end of the connection."""

    def answer(self, connection, incoming):
        super().answer(connection, incoming)
        came = incoming.read()
        assert came == b"", f"{came.hex()} came behind the script"


def logged_in(start_ok_size):
    """The script of an opening whose start-ok has so many bytes."""
    return (PROTOCOL, ("sends", START), start_ok_size, ("sends", TUNE), TUNE_OK, OPEN, ("sends", OPEN_OK), CHANNEL, ("sends", CHANNEL_OK))


class Queue:
    def __init__(self, messages=(), limit=None, consumers=0):
        self.ready, self.limit, self.consumers = list(messages), limit, consumers


class Broker(Server):
    """Queues by name, each with messages (exchange, key, properties, body), and exchanges that lead a key to queues. A connection ends
    when its last of so many methods was read, if that is given."""

    def __init__(self, queues, exchanges=None, methods=None):
        super().__init__()
        self.queues, self.exchanges, self.methods = queues, exchanges or {}, methods
        self.lock = threading.Lock()
        self.users = []

    def answer(self, connection, incoming):
        Talk(self, connection, incoming).all()


def short(data):
    return bytes([len(data)]) + data


class Talk:
    """One connection of a broker."""

    def __init__(self, broker, connection, incoming):
        self.broker, self.connection, self.incoming = broker, connection, incoming
        self.held, self.tags, self.confirms = {}, 0, None
        self.left = broker.methods

    def say(self, channel, ids, arguments=b"", content=b""):
        payload = struct.pack(">HH", *ids) + arguments
        self.connection.sendall(struct.pack(">BHI", 1, channel, len(payload)) + payload + b"\xce" + content)

    def frame(self):
        head = self.incoming.read(7)
        if len(head) < 7:
            raise OSError("the client is gone")
        kind, channel, size = struct.unpack(">BHI", head)
        payload = self.incoming.read(size)
        assert self.incoming.read(1) == b"\xce", "a frame without an end"
        return kind, channel, payload

    def all(self):
        assert self.incoming.read(8) == PROTOCOL
        self.connection.sendall(START)
        try:
            while self.left is None or self.left > 0:
                kind, channel, payload = self.frame()
                assert kind == 1, f"a frame of kind {kind}"
                self.left = self.left and self.left - 1
                with self.broker.lock:
                    if self.method(channel, struct.unpack_from(">HH", payload), payload[4:]):
                        return
        finally:
            with self.broker.lock:
                for tag in sorted(self.held, reverse=True):
                    queue, message = self.held[tag]
                    queue.ready.insert(0, message)

    def close(self, code, text, ids):
        self.say(1, (20, 40), struct.pack(">H", code) + short(text) + struct.pack(">HH", *ids))
        while struct.unpack_from(">HH", self.frame()[2]) != (20, 41):
            pass

    def names(self, data, at=2):
        found = []
        while at < len(data) - 1 and len(found) < 2:
            found.append(data[at + 1 : at + 1 + data[at]])
            at += 1 + data[at]
        return found

    def method(self, channel, ids, data):
        """Answers a method; true if it was the last."""
        queues = self.broker.queues
        if ids == (10, 11):
            self.broker.users.append(data)
            self.connection.sendall(TUNE)
        elif ids == (10, 40):
            self.connection.sendall(OPEN_OK)
        elif ids == (20, 10):
            self.connection.sendall(CHANNEL_OK)
        elif ids == (10, 50):
            self.connection.sendall(CLOSE_OK)
            return True
        elif ids == (85, 10):
            self.confirms = 0
            self.say(1, (85, 11))
        elif ids in ((40, 10), (50, 10), (60, 70)):
            name = self.names(data)[0].decode()
            if name not in (self.broker.exchanges if ids == (40, 10) else queues):
                self.close(404, b"not-found", ids)
            elif ids == (40, 10):
                self.say(1, (40, 11))
            elif ids == (50, 10):
                self.say(1, (50, 11), short(name.encode()) + struct.pack(">II", len(queues[name].ready), queues[name].consumers))
            else:
                self.get(queues[name])
        elif ids == (60, 80):
            last, is_multiple = struct.unpack(">QB", data)
            for tag in [it for it in self.held if it == last or (is_multiple and it <= last)]:
                del self.held[tag]
        elif ids == (60, 90):
            tag, requeue = struct.unpack(">QB", data)
            assert requeue == 1, "a rejection without requeue"
            queue, message = self.held.pop(tag)
            queue.ready.insert(0, message)
        elif ids == (60, 40):
            self.publish(*self.names(data))
        return False

    def get(self, queue):
        if not queue.ready:
            self.say(1, (60, 72), b"\0")
            return
        self.tags += 1
        exchange, key, properties, body = message = queue.ready.pop(0)
        self.held[self.tags] = (queue, message)
        arguments = struct.pack(">QB", self.tags, 0) + short(exchange) + short(key) + struct.pack(">I", len(queue.ready))
        self.say(1, (60, 71), arguments, self.content(properties, body))

    def content(self, properties, body):
        header = struct.pack(">HHQ", 60, 0, len(body)) + properties
        pieces = [(2, header)] + [(3, body[at : at + 4088]) for at in range(0, len(body), 4088)]
        return b"".join(struct.pack(">BHI", kind, 1, len(it)) + it + b"\xce" for kind, it in pieces)

    def publish(self, exchange, key):
        kind, _, header = self.frame()
        assert kind == 2, f"a frame of kind {kind} in place of a header"
        size, body = struct.unpack_from(">Q", header, 4)[0], b""
        while len(body) < size:
            kind, _, piece = self.frame()
            assert kind == 3 and len(piece) <= 4088, f"a frame of kind {kind} with {len(piece)} bytes"
            body += piece
        message = (exchange, key, header[12:], body)
        if exchange:
            targets = [self.broker.queues[it] for it in self.broker.exchanges.get(exchange.decode(), {}).get(key.decode(), [])]
        else:
            targets = [self.broker.queues[key.decode()]] if key.decode() in self.broker.queues else []
        full = [it for it in targets if it.limit is not None and len(it.ready) >= it.limit]
        for it in targets:
            if it not in full:
                it.ready.append(message)
        if not targets:
            self.say(1, (60, 50), struct.pack(">H", 312) + short(b"no-route") + short(exchange) + short(key), self.content(header[12:], body))
        if self.confirms is not None:
            self.confirms += 1
            self.say(1, (60, 120) if full else (60, 80), struct.pack(">QB", self.confirms, 0))
