"""Counts what passes the front: publishes and their confirms by exchange, deliveries and their acks by queue, logins and refusals by code."""

from collections import Counter, deque

from warrenctl.amqp import methods
from warrenctl.commands.front.frames import arguments_of, index_of
from warrenctl.fault import Fault
from warrenctl.prometheus.text import counter, gauge

PUBLISHED, CONFIRMED, NACKED, RETURNED = "published", "confirmed", "nacked", "returned"
DELIVERED, ACKED, REJECTED = "delivered", "acked", "rejected"
LOGINS, REFUSED = "logins", "refused"
# each count: what it is of, and its labels
COUNTS = {
    PUBLISHED: ("Publishes that clients sent.", "exchange"),
    CONFIRMED: ("Publishes that the broker acked.", "exchange"),
    NACKED: ("Publishes that the broker nacked.", "exchange"),
    RETURNED: ("Publishes that the broker returned: they matched no binding.", "exchange"),
    DELIVERED: ("Messages that the broker gave out, to consumers and gets.", "queue"),
    ACKED: ("Deliveries that clients acknowledged.", "queue"),
    REJECTED: ("Deliveries that clients rejected, requeued ones too.", "queue"),
    LOGINS: ("Logins that the broker took.",),
    REFUSED: ("Logins that the broker refused, and connections and channels that it closed, by reply code.", "what", "code"),
}
# in the place of a name that the definitions file has not: a client may send any
UNKNOWN = "(unknown)"
NO_ACK, CONSUME_NO_WAIT = 2, 8


class Counts:
    """The counts of all connections. A page is made by another thread than the one that counts."""

    def __init__(self, file):
        self._file = file
        self._counts = {name: Counter() for name in COUNTS}
        self._counts[LOGINS][()] = 0

    def add(self, name, *labels):
        self._counts[name][labels] += 1

    def exchange(self, name):
        return name if not name or name in self._file.exchanges else UNKNOWN

    def queue(self, name):
        return name if name in self._file.queues else UNKNOWN

    def families(self, connections):
        yield gauge("warren_front_connections", "Clients' connections.").add(connections)
        for name, (about, *labels) in COUNTS.items():
            family = counter(f"warren_front_{name}_total", about, *labels)
            # one call copies them
            for values, count in list(self._counts[name].items()):
                family.add(count, *values)
            yield family


class Channel:
    """What is under way on a channel."""

    def __init__(self):
        self.published = None  # the number of the last publish, once publishes are confirmed
        self.unsettled = {}  # the exchanges of publishes that wait for a confirm, by number
        self.gets, self.consumes = deque(), deque()  # the sources that wait for get-ok or get-empty, and for consume-ok
        self.consumers = {}  # the sources of consumers, by tag
        self.held = {}  # the queues of deliveries that wait for an ack, by tag


class Source:
    """Where deliveries come from."""

    def __init__(self, queue, no_ack):
        self.queue, self.no_ack = queue, bool(no_ack)


UNKNOWN_SOURCE = Source(UNKNOWN, True)


class Watch:
    """Counts the methods of one connection. `declared` has the queue that an empty name means, by channel."""

    def __init__(self, counts, declared):
        self._counts, self._declared = counts, declared
        self._channels = {}
        self._logged_in = False
        self.of_client = {
            methods.SELECT: self._select,
            methods.PUBLISH: self._publish,
            methods.CONSUME: self._consume,
            methods.CANCEL: self._cancel,
            methods.GET: self._get,
            methods.ACK: lambda it: self._settle_delivery(it, ACKED),
            methods.REJECT: self._reject,
            methods.NACK: lambda it: self._settle_delivery(it, REJECTED),
            methods.RECOVER: self._recover,
            methods.RECOVER_ASYNC: self._recover,
            methods.CHANNEL_CLOSE: self._forget,
            methods.CHANNEL_CLOSE_OK: self._forget,
        }
        self.of_server = {
            methods.OPEN_OK: self._open_ok,
            methods.CONNECTION_CLOSE: self._closed,
            methods.CHANNEL_CLOSE: self._channel_closed,
            methods.ACK: lambda it: self._settle_publish(it, CONFIRMED),
            methods.NACK: lambda it: self._settle_publish(it, NACKED),
            methods.RETURN: self._return,
            methods.CONSUME_OK: self._consume_ok,
            methods.CANCEL_OK: self._cancel_ok,
            methods.DELIVER: self._deliver,
            methods.GET_OK: self._get_ok,
            methods.GET_EMPTY: self._get_empty,
        }
        self.of_client, self.of_server = ({index_of(ids): it for ids, it in rules.items()} for rules in (self.of_client, self.of_server))

    def see(self, rules, it):
        """Counts a frame if it is one of `rules`. What can't be read counts as nothing."""
        if it.index in rules:
            try:
                rules[it.index](it)
            except (Fault, UnicodeDecodeError):
                pass

    def _channel(self, it):
        return self._channels.setdefault(it.channel, Channel())

    def _forget(self, it):
        self._channels.pop(it.channel, None)

    # ---- publishes

    def _select(self, it):
        channel = self._channel(it)
        channel.published = channel.published or 0

    def _publish(self, it):
        found, channel = arguments_of(it), self._channel(it)
        found.bytes(2)
        exchange = self._counts.exchange(found.short_text().decode())
        self._counts.add(PUBLISHED, exchange)
        if channel.published is not None:
            channel.published += 1
            channel.unsettled[channel.published] = exchange

    def _settle_publish(self, it, name):
        for exchange in taken(arguments_of(it), self._channel(it).unsettled):
            self._counts.add(name, exchange)

    def _return(self, it):
        found = arguments_of(it)
        found.bytes(2)
        found.short_text()
        self._counts.add(RETURNED, self._counts.exchange(found.short_text().decode()))

    # ---- deliveries

    def _source(self, it, found, no_ack):
        name = found.decode() or self._declared.get(it.channel, "")
        return Source(self._counts.queue(name), no_ack)

    def _consume(self, it):
        found, channel = arguments_of(it), self._channel(it)
        found.bytes(2)
        queue, tag, bits = found.short_text(), found.short_text(), found.number(1)
        source = self._source(it, queue, bits & NO_ACK)
        if bits & CONSUME_NO_WAIT:
            channel.consumers[tag] = source
        else:
            channel.consumes.append(source)

    def _consume_ok(self, it):
        channel = self._channel(it)
        if channel.consumes:
            channel.consumers[arguments_of(it).short_text()] = channel.consumes.popleft()

    def _cancel(self, it):
        found = arguments_of(it)
        tag, no_wait = found.short_text(), found.number(1)
        if no_wait:
            self._channel(it).consumers.pop(tag, None)

    def _cancel_ok(self, it):
        self._channel(it).consumers.pop(arguments_of(it).short_text(), None)

    def _get(self, it):
        found = arguments_of(it)
        found.bytes(2)
        queue, no_ack = found.short_text(), found.number(1)
        self._channel(it).gets.append(self._source(it, queue, no_ack))

    def _get_ok(self, it):
        channel = self._channel(it)
        self._delivered(channel, channel.gets.popleft() if channel.gets else UNKNOWN_SOURCE, arguments_of(it).number(8))

    def _get_empty(self, it):
        channel = self._channel(it)
        if channel.gets:
            channel.gets.popleft()

    def _deliver(self, it):
        found, channel = arguments_of(it), self._channel(it)
        source = channel.consumers.get(found.short_text(), UNKNOWN_SOURCE)
        self._delivered(channel, source, found.number(8))

    def _delivered(self, channel, source, tag):
        self._counts.add(DELIVERED, source.queue)
        if not source.no_ack:
            channel.held[tag] = source.queue

    def _settle_delivery(self, it, name):
        for queue in taken(arguments_of(it), self._channel(it).held):
            self._counts.add(name, queue)

    def _reject(self, it):
        queue = self._channel(it).held.pop(arguments_of(it).number(8), None)
        if queue is not None:
            self._counts.add(REJECTED, queue)

    def _recover(self, it):
        """All deliveries of the channel are requeued, and come again under other tags."""
        self._channel(it).held.clear()

    # ---- logins and refusals

    def _open_ok(self, _):
        self._logged_in = True
        self._counts.add(LOGINS)

    def _closed(self, it):
        self._counts.add(REFUSED, "connection" if self._logged_in else "login", str(arguments_of(it).number(2)))

    def _channel_closed(self, it):
        self._counts.add(REFUSED, "channel", str(arguments_of(it).number(2)))
        self._forget(it)


def taken(found, waiting):
    """Takes out of `waiting`, whose numbers grow, what an ack or a nack settles: one number, or all up to it; 0 means all."""
    last, is_multiple = found.number(8), found.number(1) & 1
    if not is_multiple:
        return [waiting.pop(last)] if last in waiting else []
    settled = []
    for number in waiting:
        if last and number > last:
            break
        settled.append(number)
    return [waiting.pop(it) for it in settled]
