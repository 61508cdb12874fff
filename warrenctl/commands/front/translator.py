"""What one connection says, as the server is to hear it, and what the server says, as the client is to.

A client may ask for a heartbeat, declare and bind: the server proposes no heartbeat and takes no declaration. So heartbeats are agreed upon with
the client alone, a declare is made passive, and a bind that the definitions file has becomes a passive declare of what is bound, whose answer is
the bind's. All else goes on byte for byte.
"""

from collections import defaultdict, deque

from warrenctl.commands.front import frames
from warrenctl.commands.front.counting import Watch
from warrenctl.commands.front.frames import NoFrame, Reader, method_of

PLAIN, AMQPLAIN = "PLAIN", "AMQPLAIN"


def amqplain(response):
    """The user and the password of an AMQPLAIN response, a table without its length: of each field name, `S`, and a text; or nothing."""
    fields, at = {}, 0
    while at < len(response):
        name = response[at + 1 : at + 1 + response[at]]
        at += 1 + len(name)
        size = int.from_bytes(response[at + 1 : at + 5], "big")
        if response[at : at + 1] != b"S" or at + 5 + size > len(response):
            return None
        fields[name] = response[at + 5 : at + 5 + size]
        at += 5 + size
    return (fields[b"LOGIN"], fields[b"PASSWORD"]) if {b"LOGIN", b"PASSWORD"} <= set(fields) else None


class Translator:
    """The state of one connection. `file` has the topology, `heartbeat` is proposed in seconds, and `note` takes a line for the log. `counts`, if they
    are given, count what passes."""

    def __init__(self, file, heartbeat, note, counts=None):
        self._file, self._proposed, self._note = file, heartbeat, note
        self._opening = b""  # what came of the protocol header
        self._raw = False  # whether bytes came that are no frames, which are handed on as they are
        self._to_client, self._to_server = [], []
        self._answers = defaultdict(deque)  # by channel: of each declare under way the bind-ok that its answer becomes, or nothing
        self._declared = {}  # by channel: the queue that was declared last, which an empty name means
        self._noted = set()
        self.user, self.logged_in, self.heartbeat = "", False, 0
        self._client_rules = {
            frames.START_OK: self._start_ok,
            frames.TUNE_OK: self._tune_ok,
            frames.EXCHANGE_DECLARE: self._exchange_declare,
            frames.QUEUE_DECLARE: self._queue_declare,
            frames.EXCHANGE_BIND: self._exchange_bind,
            frames.QUEUE_BIND: self._queue_bind,
            frames.CHANNEL_CLOSE: self._forget,
            frames.CHANNEL_CLOSE_OK: self._forget,
        }
        self._server_rules = {
            frames.START: self._start,
            frames.TUNE: self._tune,
            frames.OPEN_OK: self._open_ok,
            frames.CLOSE: self._close,
            frames.EXCHANGE_DECLARE_OK: self._declared_ok,
            frames.QUEUE_DECLARE_OK: self._declared_ok,
            frames.CHANNEL_CLOSE: self._forget,
            frames.CHANNEL_CLOSE_OK: self._forget,
        }
        self._watch = Watch(counts, self._declared) if counts else None
        self._client_watched, self._server_watched = (self._watch.of_client, self._watch.of_server) if counts else ({}, {})
        self._client, self._server = Reader({*self._client_rules, *self._client_watched}), Reader({*self._server_rules, *self._server_watched})

    # ---- bytes

    def from_client(self, data):
        """Takes bytes of the client; returns what the client and what the server is to be sent."""
        if not self._raw and len(self._opening) < frames.PROTOCOL_HEADER_SIZE:
            data = self._open(data)
        return self._pass(data, self._client, self._client_rules, self._client_watched, self._to_server)

    def _open(self, data):
        """Takes the protocol header, of which no part is handed on; the bytes that are still to be handed on."""
        missing = frames.PROTOCOL_HEADER_SIZE - len(self._opening)
        self._opening += data[:missing]
        if not any(it.startswith(self._opening) for it in frames.PROTOCOL_HEADERS):
            self._raw = True
            return self._opening + data[missing:]
        if len(self._opening) == frames.PROTOCOL_HEADER_SIZE:
            self._to_server.append(frames.PROTOCOL_HEADERS[0])
        return data[missing:]

    def from_server(self, data):
        """Takes bytes of the server; returns what the client and what the server is to be sent."""
        # what answers another protocol than 0-9-1 is its header, and no frame
        if not self.logged_in and data.startswith(b"AMQP"):
            self._raw = True
        return self._pass(data, self._server, self._server_rules, self._server_watched, self._to_client)

    def _pass(self, data, reader, rules, watched, onward):
        if self._raw:
            onward.append(data)
        else:
            try:
                for between, it in reader.parts(data):
                    onward.append(between)
                    if it is not None and it.kind == frames.METHOD:
                        if watched:
                            self._watch.see(watched, it)
                        if it.index not in rules or rules[it.index](it) is None:
                            onward.append(it.data)
            except NoFrame as error:
                self._raw = True
                onward.append(error.rest)
        sent = b"".join(self._to_client), b"".join(self._to_server)
        self._to_client.clear()
        self._to_server.clear()
        return sent

    # ---- rules: each takes a frame and returns True if it was dealt with, and nothing if it is to be handed on

    def _start(self, it):
        method = method_of(it)
        if method is None or PLAIN not in method.mechanisms.split():
            return None
        self._to_client.append(frames.start(it, f"{PLAIN} {AMQPLAIN}"))
        return True

    def _start_ok(self, it):
        method = method_of(it)
        if method is None:
            return None
        response = method.response
        if method.mechanism == AMQPLAIN and amqplain(response):
            user, password = amqplain(response)
            self._to_server.append(frames.start_ok(it, PLAIN, b"\0" + user + b"\0" + password))
        else:
            user = (response.split(b"\0") + [b"", b""])[1]
        self.user = user.decode("utf-8", "replace")
        return True if method.mechanism == AMQPLAIN and amqplain(response) else None

    def _tune(self, it):
        method = method_of(it)
        if method is None:
            return None
        self._to_client.append(frames.tune(frames.TUNE, method, self._proposed))
        return True

    def _tune_ok(self, it):
        method = method_of(it)
        if method is None:
            return None
        self.heartbeat = method.heartbeat
        self._to_server.append(frames.tune(frames.TUNE_OK, method, 0))
        return True

    def _open_ok(self, it):
        self.logged_in = True
        self._note(f"login of {self.user!r}: in")

    def _close(self, it):
        method = method_of(it)
        if method is not None:
            what = "closed" if self.logged_in else f"login of {self.user!r}: refused"
            self._note(f"{what} by the server, {method.code} {method.text}")

    def _exchange_declare(self, it):
        method = method_of(it)
        if method is None:
            return None
        self._note_difference("exchange", method.exchange, {} if method.passive else self._file.exchange_differs(method))
        return self._ask(it.channel, frames.passive_exchange(it.channel, method.exchange, method.kind, method.no_wait), None, method.no_wait)

    def _queue_declare(self, it):
        method = method_of(it)
        # a queue that the server is to name is refused by it
        if method is None or not method.queue:
            return None
        self._declared[it.channel] = method.queue
        self._note_difference("queue", method.queue, {} if method.passive else self._file.queue_differs(method))
        return self._ask(it.channel, frames.passive_queue(it.channel, method.queue, method.no_wait), None, method.no_wait)

    def _queue_bind(self, it):
        method = method_of(it)
        queue = (method.queue or self._declared.get(it.channel, "")) if method else ""
        if not queue or not self._file.has_binding(method.exchange, "queue", queue, method.key):
            return None
        return self._ask(it.channel, frames.passive_queue(it.channel, queue, method.no_wait), frames.QUEUE_BIND_OK, method.no_wait)

    def _exchange_bind(self, it):
        method = method_of(it)
        if method is None or not self._file.has_binding(method.source, "exchange", method.destination, method.key):
            return None
        return self._ask(it.channel, frames.passive_exchange(it.channel, method.destination, no_wait=method.no_wait), frames.EXCHANGE_BIND_OK, method.no_wait)

    def _ask(self, channel, declare, answer, no_wait):
        """Sends a passive declare, whose answer becomes that of a bind, if one is given."""
        self._to_server.append(declare)
        if not no_wait:
            self._answers[channel].append(answer)
        return True

    def _declared_ok(self, it):
        waiting = self._answers.get(it.channel)
        answer = waiting.popleft() if waiting else None
        if answer is None:
            return None
        self._to_client.append(frames.bind_ok(it.channel, answer))
        return True

    def _forget(self, it):
        """A channel ends: what it waited for does not come."""
        self._answers.pop(it.channel, None)
        self._declared.pop(it.channel, None)

    def _note_difference(self, kind, name, differs):
        if differs and (kind, name) not in self._noted:
            self._noted.add((kind, name))
            self._note(f"{kind} {name!r} is declared otherwise than the file has it, which holds: {', '.join(differs)}")
