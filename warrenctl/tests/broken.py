"""Ten broken guarantees and more, made by hand, each of which `warren check` leaves undecided: over 64 patterns are tracked.

Each with the keys that break it, worked out by hand: the first word of a key that no pattern names is `w0`.
"""

COMMON = {"vhost": "/", "durable": True, "auto_delete": False}


def topology(exchanges, queues, bindings):
    """A definitions file. exchanges: name to type, or type and alternate; queues: name to dead-letter exchange, or it and a key; bindings: from, key, to."""
    made_exchanges = []
    for name, it in exchanges.items():
        kind, *alternate = it.split(" ")
        made_exchanges.append({**COMMON, "name": name, "type": kind, "internal": False, "arguments": {"alternate-exchange": alternate[0]} if alternate else {}})
    made_queues = []
    for name, it in queues.items():
        names = ("x-dead-letter-exchange", "x-dead-letter-routing-key")
        made_queues.append({**COMMON, "name": name, "arguments": dict(zip(names, it)) if it else {}})
    made_bindings = []
    for source, key, to in bindings:
        kind = "exchange" if to in exchanges else "queue"
        made_bindings.append({"vhost": "/", "source": source, "destination": to, "destination_type": kind, "routing_key": key, "arguments": {}})
    return {"vhosts": [{"name": "/"}], "users": [], "permissions": [], "exchanges": made_exchanges, "queues": made_queues, "bindings": made_bindings}


def seventy(source, key, to):
    """70 bindings, with the numbers 1 to 70 in place of `%`."""
    return [(source, key.replace("%", str(number)), to) for number in range(1, 71)]


def reaches(exchange, pattern, queue, *excepts):
    return {"mode": "reaches", "exchange": exchange, "pattern": pattern, "queue": queue, **({"except": list(excepts)} if excepts else {})}


def never(exchange, pattern, queue):
    return {"mode": "never", "exchange": exchange, "pattern": pattern, "queue": queue}


# each: what it is of, the topology, the guarantee, the key, and what is said of it
BROKEN = [
    (
        "a key that none of 70 bindings names",
        topology({"X": "topic"}, {"q": None}, seventy("X", "a%", "q")),
        reaches("X", "b", "q"),
        "b",
        "`b` goes nowhere",
    ),
    (
        "the same of a direct exchange, where a wildcard is a word",
        topology({"X": "direct"}, {"q": None}, [*seventy("X", "a%", "q"), ("X", "*", "q")]),
        reaches("X", "*", "q"),
        "w0",
        "`w0` goes nowhere",
    ),
    (
        "a region that was forgotten",
        topology(
            {"orders": "topic"},
            {"fraud": None, "fulfilment": None, "stock": None},
            [("orders", "order.#", "fulfilment"), ("orders", "order.eu.placed", "fraud"), ("orders", "order.us.placed", "fraud"), *seventy("orders", "item%.#", "stock")],
        ),
        reaches("orders", "order.*.placed", "fraud"),
        "order.w0.placed",
        "`order.w0.placed` goes to `fulfilment` alone",
    ),
    (
        "an alternate exchange that takes only what no binding takes",
        topology({"X": "topic U", "U": "fanout"}, {"A": None, "B": None}, [*seventy("X", "a%", "A"), ("U", "", "B")]),
        reaches("X", "#", "B"),
        "a1",
        "`a1` goes to `A` alone",
    ),
    (
        "what comes by the alternate exchange",
        topology({"X": "topic U", "U": "fanout"}, {"A": None, "B": None}, [*seventy("X", "a%", "A"), ("U", "", "B")]),
        never("X", "#", "B"),
        "",
        "the empty key goes from `X` to `U` to `B`",
    ),
    (
        "a dead letter under a key that the queue fixes, through the default exchange",
        topology({}, {f"q{number}": ("", "q8") if number == 3 else None for number in range(70)}, []),
        never("", "q3", "q8"),
        "q3",
        "`q3` goes from the default exchange to `q3`; rejected there, it goes on as `q8` to the default exchange and so to `q8`",
    ),
    (
        "a dead letter that keeps its key",
        topology({"X": "topic", "D": "topic"}, {"q": ("D",), "lost": None}, [*seventy("X", "k%", "q"), ("D", "k7.#", "lost")]),
        never("X", "#", "lost"),
        "k7",
        "`k7` goes from `X` to `q`; rejected there, it goes on to `D` and so to `lost`",
    ),
    (
        "one word more than the exceptions take out",
        topology({"X": "topic"}, {"q": None, "r": None}, [*seventy("X", "a.%", "q"), ("X", "a.#", "r")]),
        reaches("X", "a.#", "q", "a", "a.*.*.#"),
        "a.w0",
        "`a.w0` goes to `r` alone",
    ),
    (
        "an exchange behind an exchange that knows fewer keys",
        topology({"X": "fanout", "Y": "topic", "Z": "topic"}, {"q": None, "r": None}, [("X", "", "Y"), ("X", "", "Z"), *seventy("Y", "t.%", "q"), ("Z", "t.#", "r")]),
        reaches("X", "t.*", "q"),
        "t.w0",
        "`t.w0` goes to `r` alone",
    ),
    (
        "a long key",
        topology({"X": "topic"}, {"q": None}, [*seventy("X", "a.k%.#", "q"), ("X", "a.*.m.#", "q"), ("X", "a.*.*.m.#", "q")]),
        reaches("X", "a.*.*.*.z", "q"),
        "a.w0.w0.w0.z",
        "`a.w0.w0.w0.z` goes nowhere",
    ),
    (
        "a key that one binding more sends to a forbidden queue",
        topology({"X": "topic", "Y": "direct"}, {"q": None, "billing": None}, [*seventy("X", "k%.#", "q"), ("X", "k7.paid", "Y"), ("Y", "k7.paid", "billing"), *seventy("Y", "j%", "billing")]),
        never("X", "k7.#", "billing"),
        "k7.paid",
        "`k7.paid` goes from `X` to `Y` to `billing`",
    ),
]
