"""Guarantees that may hold of a topology today: of each alternate exchange that it gets no message, of each binding, and of each dead-letter way."""

from collections import defaultdict
from itertools import chain, zip_longest

from warrenctl.commands.suggest.patterns import meets
from warrenctl.files.causes import name_of, quoted, wrong_pattern
from warrenctl.routing.checker import FAILS, UNKNOWN, words_of

# of one binding to an exchange, so many ways through exchanges are followed
MOST_WAYS = 200


def may_come_to(topology, exchange):
    """The queues to which some way of bindings and alternates leads, in the order of the file."""
    found, waiting = set(), [("exchange", exchange)]
    while waiting:
        here = waiting.pop()
        if here not in found:
            found.add(here)
            if here[0] == "exchange":
                waiting += [target for target, told in topology.onward(here[1], lambda pattern: UNKNOWN) if told != FAILS]
    return [it for it in topology.queues if ("queue", it) in found]


def pattern_of(topology, binding):
    """The topic pattern of the keys that a binding lets pass; nothing if it has none, as of a direct key in which `*` is a word."""
    kind = topology.exchanges[binding["source"]]["type"]
    if kind == "fanout":
        return "#"
    return binding["routing_key"] if kind == "topic" else as_pattern(binding["routing_key"])


def as_pattern(key):
    """The topic pattern of this key alone."""
    return None if {"*", "#"} & set(words_of(key)) else key


def guarantee(mode, exchange, pattern, queue, because):
    return {"mode": mode, "exchange": exchange, "pattern": pattern, "queue": queue, "because": because}


class Bindings:
    """The bindings of each exchange, with the pattern of each."""

    def __init__(self, topology, definitions):
        self.topology = topology
        self.of = defaultdict(list)
        for place, it in enumerate(definitions["bindings"]):
            pattern = pattern_of(topology, it)
            if pattern is not None:
                self.of[it["source"]].append((pattern, (it["destination_type"], it["destination"]), name_of("binding", it, place)))

    def narrower(self, exchange, pattern):
        """Pairs of a queue and a pattern of keys that pass each binding of a way from `exchange` to it, of the keys that match `pattern`."""
        waiting, ways = [(exchange, pattern, {exchange})], 0
        for here, passed, seen in waiting:
            onward = [(it, target) for it, target, _ in self.of[here]]
            alternate = self.topology.alternate(here)
            onward += [("#", ("exchange", alternate))] if alternate is not None else []
            for its, (kind, name) in onward:
                ways += 1
                if ways > MOST_WAYS or name in seen and kind == "exchange":
                    continue
                for both in meets(passed, its):
                    if kind == "queue":
                        yield name, both
                    else:
                        waiting.append((name, both, {*seen, name}))

    def reaches(self, exchange):
        """Of each binding: its own pattern for each queue behind it, and what the bindings further on let pass of it."""
        for pattern, (kind, name), because in self.of[exchange]:
            if kind == "queue":
                yield guarantee("reaches", exchange, pattern, name, because)
                continue
            for queue in may_come_to(self.topology, name):
                yield guarantee("reaches", exchange, pattern, queue, because)
            for queue, both in self.narrower(name, pattern):
                if not wrong_pattern(both):
                    yield guarantee("reaches", exchange, both, queue, because)


def of_dead_letters(topology, definitions):
    for queue in topology.queues:
        dead, key = topology.death(queue)
        if dead is None:
            continue
        into = [pattern_of(topology, it) for it in definitions["bindings"] if (it["destination_type"], it["destination"]) == ("queue", queue)]
        patterns = dict.fromkeys([as_pattern(key)] if key is not None else into)
        for pattern in patterns:
            for goal in may_come_to(topology, dead) if pattern is not None else ():
                if dead or goal == pattern:
                    yield guarantee("reaches", dead, pattern, goal, f"dead letters of {quoted(queue)}")


def of_alternates(topology, names):
    """For each queue behind the alternate of an exchange: no message of the exchange goes there, so each key that is sent matches a binding."""
    for name in names:
        other = topology.alternate(name)
        for queue in may_come_to(topology, other) if other is not None else ():
            yield guarantee("never", name, "#", queue, f"alternate exchange of {quoted(name)}")


def reaching(topology):
    """Returns for each queue the exchanges, those that clients may publish to, whose messages can reach it; dead letters included."""
    public = [name for name, it in topology.exchanges.items() if not it["internal"]]
    comes = {name: {it[1] for it in topology.visited(name, lambda pattern: UNKNOWN) if it[0] == "queue"} for name in public}
    return {queue: [name for name in public if queue in comes[name]] for queue in topology.queues}


def in_turns(iterators):
    """Yields the first of each iterator, then the second of each, and so on."""
    for some in zip_longest(*iterators):
        yield from (it for it in some if it is not None)


def candidates(topology, definitions):
    """Yields each once, exchanges in turn: first those of alternates, then those to which clients publish, then internal ones."""
    bindings, letters = Bindings(topology, definitions), defaultdict(list)
    for it in of_dead_letters(topology, definitions):
        letters[it["exchange"]].append(it)
    public = [name for name, it in topology.exchanges.items() if not it["internal"]]
    internal = [name for name, it in topology.exchanges.items() if it["internal"]]
    seen = set()
    turns = (in_turns([chain(bindings.reaches(name), letters[name]) for name in names]) for names in (["", *public], internal))
    for it in chain(of_alternates(topology, public), *turns):
        key = tuple(it[name] for name in ("mode", "exchange", "pattern", "queue"))
        if key not in seen:
            seen.add(key)
            yield it
