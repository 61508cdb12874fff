"""Topologies at random, each as the value of a definitions file that warren and RabbitMQ both take, and keys to publish under."""

# few words, so that keys and patterns often meet; `*` and `#` are words like others in a direct key and in the key of a message
WORDS = ("a", "b", "c")
TYPES = ("direct", "fanout", "topic")
MOST_EXCHANGES, MOST_QUEUES, MOST_BINDINGS = 6, 6, 16
MOST_KEY = 255
# `till`, with the password `till`
USER = {"name": "till", "password_hash": "YWJjZHrKTgkwAX37nyLw6Dww3kyaNSJiTfh1qdvqp5EssHXW", "hashing_algorithm": "rabbit_password_hashing_sha256", "tags": []}
PERMISSION = {"user": "till", "vhost": "/", "configure": "^$", "write": ".*", "read": ".*"}


def binding_key(chance):
    return ".".join(chance.choice((*WORDS, "*", "#")) for _ in range(chance.choice((0, 1, 1, 2, 2, 3))))


def exchanges(chance, prefix):
    names = [f"{prefix}x{number}" for number in range(1, chance.randint(1, MOST_EXCHANGES) + 1)]
    made = []
    for name in names:
        arguments = {"alternate-exchange": chance.choice(names)} if chance.random() < 0.3 else {}
        common = {"vhost": "/", "durable": False, "auto_delete": False, "internal": chance.random() < 0.15}
        made.append({"name": name, "type": chance.choice(TYPES), **common, "arguments": arguments})
    return made


def limits(chance):
    """A limit of messages, one of bytes, both, or none; some queues refuse at the first message."""
    arguments = {}
    if chance.random() < 0.25:
        arguments["x-max-length"] = chance.randrange(6)
    if chance.random() < 0.15:
        arguments["x-max-length-bytes"] = chance.randrange(120)
    return arguments | {"x-overflow": "reject-publish"} if arguments or chance.random() < 0.1 else {}


def queues(chance, prefix, exchange_names):
    made = []
    for number in range(1, chance.randint(1, MOST_QUEUES) + 1):
        arguments = limits(chance)
        if chance.random() < 0.6:
            arguments["x-dead-letter-exchange"] = chance.choice(["", *exchange_names])
            if chance.random() < 0.4:
                arguments["x-dead-letter-routing-key"] = chance.choice((binding_key(chance), f"{prefix}q{chance.randint(1, MOST_QUEUES)}"))
        name = f"{prefix}q{number}" + chance.choice(("", "", ".a"))
        made.append({"name": name, "vhost": "/", "durable": False, "auto_delete": False, "arguments": arguments})
    return made


def bindings(chance, exchange_names, queue_names):
    made = []
    for _ in range(chance.randrange(MOST_BINDINGS + 1)):
        kind = chance.choice(("queue", "queue", "exchange"))
        target = chance.choice(queue_names if kind == "queue" else exchange_names)
        source = chance.choice(exchange_names)
        made.append({"source": source, "vhost": "/", "destination": target, "destination_type": kind, "routing_key": binding_key(chance), "arguments": {}})
        if chance.random() < 0.05:
            made.append(dict(made[-1]))
    return made


def topology(chance, prefix):
    """Exchanges, queues and bindings whose names begin with `prefix`, so that several topologies can be in one file."""
    made = exchanges(chance, prefix)
    names = [it["name"] for it in made]
    lines = queues(chance, prefix, names)
    return {"exchanges": made, "queues": lines, "bindings": bindings(chance, names, [it["name"] for it in lines])}


def file_of(topologies):
    """The value of one definitions file that has all of these."""
    lists = {name: [it for one in topologies for it in one[name]] for name in ("exchanges", "queues", "bindings")}
    return {"vhosts": [{"name": "/"}], "users": [USER], "permissions": [PERMISSION], **lists}


def keys_of(definitions):
    """The keys that stand in a topology, and the names of its queues."""
    fixed = (it["arguments"].get("x-dead-letter-routing-key") for it in definitions["queues"])
    keys = [it["routing_key"] for it in definitions["bindings"]] + [it["name"] for it in definitions["queues"]]
    return sorted({*keys, *(it for it in fixed if it is not None)})


def key(chance, definitions):
    """A key to publish under, as bytes: of a few words, empty ones too, or one of the topology; seldom a long one, or one that is no text."""
    kind = chance.random()
    if kind < 0.2:
        return chance.choice(keys_of(definitions)).encode()
    if kind < 0.23:
        return ".".join(chance.choice(WORDS) for _ in range(MOST_KEY)).encode()[:MOST_KEY]
    if kind < 0.25:
        return chance.choice((b"\xff\xfe", b"a.\xff", "ä.b".encode(), b"a\0b", b"a b.\n"))
    words = (*WORDS, *WORDS, *WORDS, "d", "*", "#", "")
    return ".".join(chance.choice(words) for _ in range(chance.choice((0, 1, 1, 2, 2, 2, 3, 4)))).encode()


def exchange(chance, definitions):
    """An exchange that clients may publish to: now and then the default one."""
    open_ones = [it["name"] for it in definitions["exchanges"] if not it["internal"]]
    return chance.choice(open_ones) if open_ones and chance.random() < 0.88 else ""
