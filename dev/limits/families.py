"""Files at the greatest sizes of docs/COSTS.md: definitions, guarantees and scripts over them, each family meant to be the worst of its kind."""

import itertools

from warrenctl.amqp.wire import content, method, short_text

PUBLISH = (60, 40)
FRAME_MAX = 131072
DIGITS = "0123456789abcdefghijklmnopqrstuvwxyz"


def word(number):
    """A word of three letters of its own for each number below 46,656."""
    return "".join(DIGITS[number // base % 36] for base in (1296, 36, 1))


class Topology:
    """A definitions file that grows, entry by entry."""

    def __init__(self):
        self.exchanges, self.queues, self.bindings = [], [], []

    def exchange(self, name, kind, **arguments):
        self.exchanges.append({"name": name, "vhost": "/", "type": kind, "durable": True, "auto_delete": False, "internal": False, "arguments": arguments})

    def queue(self, name, arguments=None):
        self.queues.append({"name": name, "vhost": "/", "durable": True, "auto_delete": False, "arguments": arguments or {}})

    def bind(self, source, key, destination, kind="queue"):
        self.bindings.append(
            {"source": source, "vhost": "/", "destination": destination, "destination_type": kind, "routing_key": key, "arguments": {}}
        )

    def own_keys(self, count):
        """So many queues, each with a dead-letter exchange and a key of its own, which leads to the next; the last leads nowhere."""
        for number in range(count):
            self.queue(f"q{number}", {"x-dead-letter-exchange": f"d{number}", "x-dead-letter-routing-key": word(number)})
            self.exchange(f"d{number}", "direct")
        for number in range(count - 1):
            self.bind(f"d{number}", word(number), f"q{number + 1}")

    def file(self):
        return {
            "vhosts": [{"name": "/"}],
            "users": [],
            "permissions": [],
            "exchanges": self.exchanges,
            "queues": self.queues,
            "bindings": self.bindings,
        }


def guarantee(mode, pattern, queue, excepts=()):
    found = {"mode": mode, "exchange": "x", "pattern": pattern, "queue": queue}
    return {**found, "except": list(excepts)} if excepts else found


def stars(first, count):
    """Each key in which this word stands so many words before the last."""
    return ".".join(["#", first] + ["*"] * count)


def topic_beside(*queues):
    """A topology with the topic exchange `x` and these queues."""
    topology = Topology()
    topology.exchange("x", "topic")
    for name in queues:
        topology.queue(name)
    return topology


# ---- each family: a definitions file and its guarantees


def chain_of_own_keys():
    """255 queues with a dead-letter exchange and key of their own, one behind the other, and one `never`."""
    topology = Topology()
    topology.exchange("x", "topic")
    topology.own_keys(255)
    topology.queue("z")
    topology.bind("x", "a.#", "q0")
    return topology.file(), [guarantee("never", "#", "z")]


def many_letters():
    """34,660 states of 63 patterns, and 1,893 letters."""
    topology = topic_beside("q", "z")
    topology.bind("x", stars("a", 14), "q")
    for pattern in range(61):
        topology.bind("x", ".".join(word(pattern * 31 + at) for at in range(31)), "q")
    return topology.file(), [guarantee("never", "#", "z")]


def many_certificates():
    """24 guarantees, each with a certificate of 59,050 states."""
    topology = topic_beside("q", *(f"z{number}" for number in range(24)))
    for first in ("a", "b"):
        topology.bind("x", stars(first, 9), "q")
    return topology.file(), [guarantee("never", "#", f"z{number}") for number in range(24)]


def wide_numbers(count=2):
    """So many guarantees, each with a certificate of 59,062 states of 59 patterns. Its numbers are just below 2^31 and 2^32."""
    topology = topic_beside("q", *(f"z{number}" for number in range(count)))
    for first in ("a", "b"):
        topology.bind("x", stars(first, 9), "q")
    for place in range(28):
        for words in ("*", "*.*"):
            topology.bind("x", ".".join(["#"] * place + [words] + ["#"] * (29 - place)), "q")
    return topology.file(), [guarantee("never", "#", f"z{number}") for number in range(count)]


def letters_that_all_lead():
    """64,000 states, from each of which each of 64 letters leads elsewhere."""
    topology = topic_beside("q", "z")
    topology.bind("x", stars("a", 9), "q")
    for pattern in range(61):
        topology.bind("x", f"#.{word(pattern)}", "q")
    return topology.file(), [guarantee("never", "#", "z")]


def broken_at_the_end():
    """A `never` that is broken through 255 queues with keys of their own, each of which comes to 256 exchanges by 3,557 bindings."""
    topology = Topology()
    topology.exchange("x", "topic")
    for number in range(255):
        topology.exchange(f"e{number}", "topic")
        topology.queue(f"q{number}", {"x-dead-letter-exchange": "x", "x-dead-letter-routing-key": f"{word(number)}.k"})
    topology.queue("z")
    topology.bind("x", "#", "e0", "exchange")
    for number in range(254):
        for further in range(14):
            topology.bind(f"e{number}", "#", f"e{(number + 1 + further * 17) % 255}", "exchange")
    topology.bind("e254", "a.#", "q0")
    for number in range(254):
        topology.bind("e254", f"{word(number)}.#", f"q{number + 1}")
    topology.bind("e254", f"{word(254)}.k", "z")
    return topology.file(), [guarantee("never", "a.#", "z")]


def long_key(number):
    """A key of 31 words of its own for each number below 46,656."""
    return ".".join(["a"] * 30 + [word(number)])


def long_pattern(number):
    """A pattern of 31 words that takes every long key. For each number below 512 it begins otherwise, as far as to its ninth word."""
    return ".".join(["*" if number >> place & 1 else "a" for place in range(9)] + ["*"] * 21 + ["#"])


def ring(count, exchanges=255, patterns=14):
    """Topic exchanges, each of which leads to others by so many long patterns, and `count` queues with a dead-letter exchange and a long key of
    their own: what dies in one comes through all these exchanges into the next. A message comes to the first queue alone."""
    topology = Topology()
    topology.exchange("x", "topic")
    for number in range(exchanges):
        topology.exchange(f"e{number}", "topic")
    for number in range(exchanges):
        for further in range(patterns):
            topology.bind(f"e{number}", long_pattern(further), f"e{(number + 1 + further * 17) % exchanges}", "exchange")
    for number in range(count):
        topology.queue(f"q{number}", {"x-dead-letter-exchange": f"e{number % exchanges}", "x-dead-letter-routing-key": long_key(number)})
    for number in range(count - 1):
        topology.bind(f"e{(number + exchanges - 1) % exchanges}", long_key(number), f"q{number + 1}")
    topology.queue("z")
    topology.bind("x", "a.#", "q0")
    return topology


def ring_of_own_keys():
    """A `never` that holds: nothing that dies in 255 queues, each with a key of its own through 255 exchanges, comes to its queue."""
    return ring(255).file(), [guarantee("never", "#", "z")]


def ring_of_many():
    """64 `never` over the same ring, all of which hold."""
    patterns = ["#", *(f"b{number}.#" for number in range(63))]
    return ring(255).file(), [guarantee("never", pattern, "z") for pattern in patterns]


def broken_through_the_ring(exchanges=255, patterns=14):
    """A `never` that is broken by what dies in 255 queues, one after the other, each time through all exchanges of a ring."""
    topology = ring(255, exchanges, patterns)
    topology.bind(f"e{(254 + exchanges - 1) % exchanges}", long_key(254), "z")
    return topology.file(), [guarantee("never", "a.#", "z")]


def through_fanouts(topology):
    """Each message of `x` comes through 255 fanout exchanges, each of which leads to 14 others."""
    for number in range(255):
        topology.exchange(f"e{number}", "fanout")
    for number in range(255):
        for further in range(14):
            topology.bind(f"e{number}", "", f"e{(number + 1 + further * 17) % 255}", "exchange")
    topology.bind("x", "#", "e0", "exchange")


def many_listed(count=47, words=14):
    """So many `never`, each with a certificate of 2^(words + 1) + 1 states of two patterns: as many as a file has room for. In each state a message comes
    through 255 fanout exchanges, each of which leads to 14 others."""
    topology = topic_beside("q", *(f"z{number}" for number in range(count)))
    through_fanouts(topology)
    topology.bind("x", stars("a", words), "q")
    states = [*([2, 2 + 4 * number] for number in range(2 ** (words + 1))), [3, 3]]
    guarantees = [guarantee("never", "#", f"z{number}") for number in range(count)]
    return topology.file(), guarantees, [{"form": 1, "states": states, **it} for it in guarantees]


def many_that_differ(count=16, words=14):
    """So many `never`, each with a certificate of 2^words + 1 states: as many as a file has room for. No two of its states are accepted by the same patterns,
    and in each of them a message comes through 255 fanout exchanges, each of which leads to 14 others."""
    topology = topic_beside("q", *(f"z{number}" for number in range(count)))
    through_fanouts(topology)
    for place in range(words):
        topology.bind("x", stars("a", place), "q")
    states = [[2, *(2 + 4 * (number % 2 ** (place + 1)) for place in range(words))] for number in range(2**words)]
    guarantees = [guarantee("never", "#", f"z{number}") for number in range(count)]
    return topology.file(), guarantees, [{"form": 1, "states": sorted([*states, [3] * (words + 1)]), **it} for it in guarantees]


def mark(text):
    """The mark of a word, as `topic_match::children` makes it."""
    number = 0
    for byte in text.encode():
        number = (number * 31 + byte) % 2**32
    return number


def one_slot(count=3500, words=31):
    """So many patterns of so many words, of which each but the first of a pattern is chosen so that its node falls on one slot of the trie."""
    topology = topic_beside("q")
    slots = count * words + 1
    found = {}
    for letters in itertools.product(DIGITS, repeat=4):
        text = "".join(letters)
        found.setdefault(mark(text) % slots, text)
        if len(found) == slots:
            break
    for number in range(count):
        nodes = range(number * words + 1, number * words + words)
        topology.bind("x", ".".join([f"r{number:x}", *(found[-node * 31 % slots] for node in nodes)]), "q")
    return topology.file(), []


def same_marks():
    """4,096 patterns of 31 words. The first ones are all different, and have one mark."""
    topology = topic_beside("q")
    for pairs in itertools.product(("Aa", "BB"), repeat=12):
        topology.bind("x", ".".join(["".join(pairs)] + ["*"] * 30), "q")
    return topology.file(), []


def undecided_by_states():
    """A guarantee of which neither all patterns nor a slice of them is decided: both come to more than 65,536 states."""
    topology = topic_beside("q")
    topology.bind("x", "#", "q")
    for first in range(62):
        topology.bind("x", stars(word(first), 15), "q")
    return topology.file(), [guarantee("reaches", "#", "q")]


def judged_at_a_reload():
    """64 queues with a dead-letter exchange and key of their own, and one `never`."""
    topology = Topology()
    topology.exchange("x", "fanout")
    topology.own_keys(64)
    topology.queue("z")
    for number in range(64):
        topology.bind("x", "", f"q{number}")
    return topology.file(), [guarantee("never", "#", "z")]


def many_at_a_reload(guarantees=64):
    """8 queues whose dead letters keep their keys and come to a topic exchange of 101 bindings, and so many `never` of queues to which none comes."""
    topology = Topology()
    topology.exchange("x", "topic")
    topology.exchange("d", "topic")
    topology.queue("t")
    for number in range(8):
        topology.queue(f"q{number}", {"x-dead-letter-exchange": "d"})
        topology.bind("x", f"*.{number}", f"q{number}")
    for number in range(101):
        topology.bind("d", f"*.{number}", "t")
    for number in range(guarantees):
        topology.queue(f"z{number}")
    return topology.file(), [guarantee("never", "#", f"z{number}") for number in range(guarantees)]


def many_through_exchanges():
    """The same, but what dies comes through a chain of 200 topic exchanges."""
    definitions, guarantees = many_at_a_reload()
    topology = Topology()
    for number in range(200):
        topology.exchange(f"e{number}", "topic")
        topology.bind(f"e{number - 1}" if number else "d", "#", f"e{number}", "exchange")
    definitions["exchanges"] += topology.exchanges
    definitions["bindings"] += topology.bindings
    return definitions, guarantees


def publishes(count, queues=1):
    """The lines of a script by which one connection publishes so many messages, each under a key of its own; for several queues its last word is
    the number of one."""
    yield "ready 1"
    for number in range(count):
        key = f"k{number}.{number % queues}" if queues > 1 else f"k{number}"
        arguments = b"\0\0" + short_text("x") + short_text(key) + b"\0"
        yield f"in 1 {(method(1, PUBLISH, arguments) + content(1, bytes(2), b'm', FRAME_MAX)).hex()}"
