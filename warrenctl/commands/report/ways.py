"""The way of a guarantee: the steps that its messages may take, or those of the key that breaks it."""

from warrenctl.commands.suggest.candidates import Bindings
from warrenctl.commands.suggest.patterns import meets
from warrenctl.routing.asking import BROKEN
from warrenctl.routing.topology import Guarantee, Verdict


def as_drawn(guarantee):
    return Guarantee(*(guarantee[it] for it in ("mode", "exchange", "pattern", "queue")), guarantee.get("except", []))


class Ways:
    """`topology` is the checker's, `drawn` the one that is drawn."""

    def __init__(self, topology, drawn, definitions):
        self.topology, self.drawn = topology, drawn
        self.bindings = Bindings(topology, definitions)

    def _onward(self, place, pattern):
        """Where a message may go from an exchange, of those under the key that they were sent with and that match the pattern."""
        name = place[1]
        if place[0] == "queue":
            return []
        if not name:
            return [("queue", it) for it in self.topology.queues if meets(pattern, it)]
        bound = [target for its, target, _ in self.bindings.of[name] if meets(pattern, its)]
        alternate = self.topology.alternate(name)
        return bound + ([("exchange", alternate)] if alternate is not None else [])

    def _forward(self, guarantee):
        steps, seen, waiting = set(), set(), [("exchange", guarantee["exchange"])]
        while waiting:
            here = waiting.pop()
            if here not in seen:
                seen.add(here)
                onward = self._onward(here, guarantee["pattern"])
                steps |= {(here, it) for it in onward}
                waiting += onward
        return steps

    def of(self, guarantee, answer):
        """The steps of a guarantee: of a broken one those of its key; else of a `reaches` those that lead to its queue, of a `never` all."""
        if answer.kind == BROKEN:
            verdict = Verdict("", answer.key, list(answer.path))
            return self.drawn.broken({1: as_drawn(guarantee)}, {1: verdict}).steps
        steps = self._forward(guarantee)
        if guarantee["mode"] == "never":
            return steps
        leading, waiting = set(), [("queue", guarantee["queue"])]
        while waiting:
            here = waiting.pop()
            for it in steps:
                if it[1] == here and it not in leading:
                    leading.add(it)
                    waiting.append(it[0])
        return leading
