"""Cuts a topology into parts that share no exchange and no queue, so that a message of one part never reaches another.

Start with `parts_of`. An exchange or a queue is a pair, ("exchange", name) or ("queue", name).
"""

from collections import namedtuple

from warrenctl.routing.checker import OWN, Topology, by_key

# exchanges and queues: names in the order of the definitions file
Part = namedtuple("Part", "exchanges queues")


class Groups:
    """Disjoint groups of exchanges and queues (union-find)."""

    def __init__(self, members):
        self.parent = {it: it for it in members}

    def root(self, it):
        while self.parent[it] != it:
            self.parent[it] = self.parent[self.parent[it]]
            it = self.parent[it]
        return it

    def join(self, one, other):
        self.parent[self.root(one)] = self.root(other)

    def all(self):
        """Returns the groups, each as a list, in the order of their first members."""
        found = {}
        for it in self.parent:
            found.setdefault(self.root(it), []).append(it)
        return list(found.values())


def members_of(definitions):
    """Returns all exchanges and queues, in the order of the file."""
    return [("exchange", it["name"]) for it in definitions["exchanges"]] + [("queue", it["name"]) for it in definitions["queues"]]


def links_of(definitions):
    """Yields the pairs that bindings, alternate exchanges and dead letters tie together."""
    for it in definitions["bindings"]:
        yield ("exchange", it["source"]), (it["destination_type"], it["destination"])
    for it in definitions["exchanges"]:
        if "alternate-exchange" in it["arguments"]:
            yield ("exchange", it["name"]), ("exchange", it["arguments"]["alternate-exchange"])
    queues = {it["name"] for it in definitions["queues"]}
    for it in definitions["queues"]:
        dead, key = (it["arguments"].get(name) for name in ("x-dead-letter-exchange", "x-dead-letter-routing-key"))
        if dead:
            yield ("queue", it["name"]), ("exchange", dead)
        elif dead == "" and key in queues:
            yield ("queue", it["name"]), ("queue", key)
    yield from links_by_own_key(definitions)


def links_by_own_key(definitions):
    """Yields a queue whose dead letters keep their key and go to the default exchange, with each queue that such a key names.

    Only a key that can bring a message into the first queue counts, sent to whichever exchange.
    """
    topology = Topology(definitions)
    passing = {name for name in topology.queues if topology.death(name) == ("", None)}
    for key in topology.queues if passing else ():
        for name in passing & queues_reached(topology, key):
            yield ("queue", name), ("queue", key)


def queues_reached(topology, key):
    """Returns the queues that a message of this key may enter, sent to any exchange, as a dead letter too."""
    says, seen, waiting = by_key(key), set(), [("exchange", name, OWN) for name in topology.edges]
    while waiting:
        here = waiting.pop()
        # a dead letter under a key that its queue fixes goes as if it were sent under that key to its dead-letter exchange
        if here not in seen and here[2] is OWN:
            seen.add(here)
            waiting += topology.steps(here, says)
    return {name for kind, name, _ in seen if kind == "queue"}


def parts_of(definitions, guarantees, together=()):
    """Returns the parts, ordered by their first entry in the file.

    A `reaches` guarantee keeps its exchange and its queue in one part. Each list in `together` is kept in one part.
    """
    groups = Groups(members_of(definitions))
    for one, other in links_of(definitions):
        groups.join(one, other)
    for it in guarantees:
        if it["mode"] == "reaches" and it["exchange"]:
            groups.join(("exchange", it["exchange"]), ("queue", it["queue"]))
    for first, *others in together:
        for it in others:
            groups.join(first, it)
    return [part_of(it) for it in groups.all()]


def part_of(members):
    return Part([name for kind, name in members if kind == "exchange"], [name for kind, name in members if kind == "queue"])


def at_most(parts, count, definitions):
    """Returns the parts joined into at most `count`, each with about the same number of queues."""
    if len(parts) <= count:
        return parts
    joined = [[] for _ in range(count)]
    for it in sorted(parts, key=lambda it: -len(it.queues)):
        min(joined, key=lambda some: sum(len(one.queues) for one in some)).append(it)
    of_part = {member: place for place, some in enumerate(joined) for it in some for member in members_in(it)}
    groups = {}
    for member in members_of(definitions):
        groups.setdefault(of_part[member], []).append(member)
    return [part_of(it) for it in groups.values()]


def members_in(part):
    return [("exchange", it) for it in part.exchanges] + [("queue", it) for it in part.queues]


def definitions_of(definitions, part):
    """Returns the definitions file of a part: its exchanges, queues and bindings, and everything else as it was."""
    exchanges, queues = set(part.exchanges), set(part.queues)
    kept = {
        "exchanges": [it for it in definitions["exchanges"] if it["name"] in exchanges],
        "queues": [it for it in definitions["queues"] if it["name"] in queues],
        "bindings": [it for it in definitions["bindings"] if it["source"] in exchanges],
    }
    return {name: kept.get(name, value) for name, value in definitions.items()}


def place_of(guarantee, parts):
    """Returns the index of the part that has both the guarantee's exchange and its queue, or `None`. Each part has the default exchange."""
    exchange, queue = guarantee["exchange"], guarantee["queue"]
    return next((place for place, it in enumerate(parts) if queue in it.queues and (not exchange or exchange in it.exchanges)), None)


def ties(definitions, guarantees):
    """Returns each exchange and queue without which there would be more parts that have an exchange and a queue, with their number."""
    members, links = members_of(definitions), list(links_of(definitions))
    links += [(("exchange", it["exchange"]), ("queue", it["queue"])) for it in guarantees if it["mode"] == "reaches" and it["exchange"]]
    found = []
    for left_out in members:
        groups = Groups(it for it in members if it != left_out)
        for one, other in links:
            if left_out not in (one, other):
                groups.join(one, other)
        parts = [part_of(it) for it in groups.all()]
        count = sum(1 for it in parts if it.exchanges and it.queues)
        if count > 1:
            found.append((left_out, count))
    return sorted(found, key=lambda it: -it[1])
