"""Topologies in which a guarantee says that no message is dropped.

A message that matches no binding, of an exchange without an alternate, is confirmed and gone. Whether that can happen is no guarantee of the topology
itself, but one of a changed one, so `warren check` can prove it.
"""

from warrenctl.routing.checker import words_of

COMMON = {"vhost": "/", "durable": True, "auto_delete": False}
# the queue in place of all queues
ANY = "any"


def with_one_queue(definitions):
    """The definitions with one queue in place of all: a message reaches it exactly if it enters some queue."""
    bindings = []
    for it in definitions["bindings"]:
        it = {**it, "destination": ANY} if it["destination_type"] == "queue" else it
        if it not in bindings:
            bindings.append(it)
    return {**definitions, "queues": [{**COMMON, "name": ANY, "arguments": {}}], "bindings": bindings}


def new_name(definitions):
    names = {it["name"] for part in ("exchanges", "queues") for it in definitions[part]}
    return next(it for it in (f"dropped{number}" for number in range(len(names) + 1)) if it not in names)


def with_probe(definitions):
    """The definitions with a queue that gets each copy that an exchange drops, and its name. Nothing is dead-lettered."""
    probe = new_name(definitions)
    exchanges = [{**it, "arguments": {"alternate-exchange": probe, **it["arguments"]}} for it in definitions["exchanges"]]
    exchanges.append({**COMMON, "name": probe, "type": "fanout", "internal": True, "arguments": {}})
    queues = [{**it, "arguments": {}} for it in definitions["queues"]] + [{**COMMON, "name": probe, "arguments": {}}]
    leads = {"source": probe, "vhost": "/", "destination": probe, "destination_type": "queue", "routing_key": "", "arguments": {}}
    return {**definitions, "exchanges": exchanges, "queues": queues, "bindings": [*definitions["bindings"], leads]}, probe


def public_exchanges(definitions):
    return [it["name"] for it in definitions["exchanges"] if not it["internal"]]


def enters(exchange, pattern, excepts=()):
    """The guarantee over `with_one_queue` that each message enters a queue."""
    made = {"mode": "reaches", "exchange": exchange, "pattern": pattern, "queue": ANY}
    return {**made, "except": list(excepts)} if excepts else made


def keeps(exchange, pattern, probe):
    """The guarantee over `with_probe` that no copy of a message is dropped."""
    return {"mode": "never", "exchange": exchange, "pattern": pattern, "queue": probe}


def first_words(definitions, exchange):
    """For each first word of the exchange's binding keys the pattern of all keys that begin with it, in the order of the file."""
    kind = next(it["type"] for it in definitions["exchanges"] if it["name"] == exchange)
    if kind != "topic":
        return []
    firsts = [words_of(it["routing_key"])[:1] for it in definitions["bindings"] if it["source"] == exchange]
    return [f"{it}.#" for it in dict.fromkeys(first for first, in filter(None, firsts)) if it not in ("*", "#")]
