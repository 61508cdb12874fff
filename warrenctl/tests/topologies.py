"""Topologies at random that often have several parts, and guarantees over them."""

WORDS = ("a", "b", "q1", "q2", "*", "#")
COMMON = {"vhost": "/", "durable": True, "auto_delete": False}


def a_key(chance, queues):
    return chance.choice(queues) if chance.random() < 0.2 else ".".join(chance.choice(WORDS) for _ in range(chance.randrange(3)))


def an_exchange(chance, name, names):
    arguments = {"alternate-exchange": chance.choice(names)} if chance.random() < 0.15 else {}
    return {"name": name, "type": chance.choice(("topic", "direct", "fanout")), "internal": chance.random() < 0.2, "arguments": arguments, **COMMON}


def a_queue(chance, name, exchanges, queues):
    arguments = {}
    if chance.random() < 0.3:
        arguments["x-dead-letter-exchange"] = chance.choice(["", "", *exchanges])
        if chance.random() < 0.5:
            arguments["x-dead-letter-routing-key"] = a_key(chance, queues)
    return {"name": name, "arguments": arguments, **COMMON}


def a_binding(chance, exchanges, queues):
    kind = chance.choice(("queue", "queue", "queue", "exchange"))
    to = chance.choice(queues if kind == "queue" else exchanges)
    return {"source": chance.choice(exchanges), "vhost": "/", "destination": to, "destination_type": kind, "routing_key": a_key(chance, queues), "arguments": {}}


def a_topology(chance):
    exchanges = [f"X{it}" for it in range(chance.randint(2, 6))]
    queues = [f"q{it}" for it in range(chance.randint(2, 6))]
    return {
        "vhosts": [{"name": "/"}],
        "users": [],
        "permissions": [],
        "exchanges": [an_exchange(chance, it, exchanges) for it in exchanges],
        "queues": [a_queue(chance, it, exchanges, queues) for it in queues],
        "bindings": [a_binding(chance, exchanges, queues) for _ in range(chance.randint(1, 8))],
    }


def a_guarantee(chance, topology):
    queues = [it["name"] for it in topology["queues"]]
    # most `reaches` at random are of things that nothing ties together, and would tie them
    mode = chance.choice(("reaches", "never", "never", "never", "never"))
    exchange = chance.choice(["", *(it["name"] for it in topology["exchanges"])])
    guarantee = {"mode": mode, "exchange": exchange, "pattern": a_key(chance, queues) if chance.random() < 0.5 else "#", "queue": chance.choice(queues)}
    return {**guarantee, "except": [a_key(chance, queues)]} if chance.random() < 0.2 else guarantee


def some_guarantees(chance, topology):
    return [a_guarantee(chance, topology) for _ in range(8)]
