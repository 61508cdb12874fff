"""The entries of a definitions file and a guarantees file, as they are drawn; and which way a message takes that breaks a guarantee.

The way of a message is computed here again, for the picture alone. What holds is what `warren check` says.
"""

import json
from collections import namedtuple

from warrenctl.fault import Fault
from warrenctl.routing.checker import Pattern

Exchange = namedtuple("Exchange", "name kind internal alternate")
Queue = namedtuple("Queue", "name limits dead key")
Binding = namedtuple("Binding", "source target key")
# kind: "binding", "alternate", "dead letters" or "default"; source and target: ("exchange" or "queue", name)
Step = namedtuple("Step", "kind source target label")
# told: the words of the line; key and path: what breaks the guarantee, or nothing
Verdict = namedtuple("Verdict", "told key path")


class BadFile(Fault):
    """A file can't be drawn; the text says why."""


class Guarantee(namedtuple("Guarantee", "mode exchange pattern queue excepts")):
    def __str__(self):
        return f"{self.mode} {self.exchange or 'default exchange'} {self.pattern} {self.queue}" + "".join(f" except {it}" for it in self.excepts)


class Broken:
    """The steps that break a guarantee, the queues that are not reached, and those that are and may not be."""

    def __init__(self):
        self.steps = set()
        self.missed = set()
        self.entered = set()


def texts(entry, *names):
    found = [entry[name] for name in names]
    if not all(isinstance(it, str) for it in found):
        raise BadFile("a name is no text")
    return found


class Topology:
    def __init__(self, value):
        try:
            self.exchanges = [self._exchange(it) for it in value["exchanges"]]
            self.queues = [self._queue(it) for it in value["queues"]]
            self.bindings = [self._binding(it) for it in value["bindings"]]
        except (KeyError, TypeError, AttributeError):
            raise BadFile("this is no definitions file") from None
        for it in self.queues:
            self.with_default(it.dead if it.key is None else None)

    @staticmethod
    def _exchange(it):
        return Exchange(*texts(it, "name", "type"), it.get("internal") is True, it.get("arguments", {}).get("alternate-exchange"))

    @staticmethod
    def _queue(it):
        arguments = it.get("arguments", {})
        limits = [(arguments.get("x-max-length"), ""), (arguments.get("x-max-length-bytes"), " bytes")]
        return Queue(*texts(it, "name"), [f"at most {most}{of}" for most, of in limits if most is not None], arguments.get("x-dead-letter-exchange"), arguments.get("x-dead-letter-routing-key"))

    @staticmethod
    def _binding(it):
        source, name, key = texts(it, "source", "destination", "routing_key")
        return Binding(source, (it["destination_type"], name), key)

    def with_default(self, name):
        """The default exchange is drawn where something names it."""
        if name == "" and all(it.name for it in self.exchanges):
            self.exchanges.append(Exchange("", "default", False, None))

    def steps(self):
        """Each binding, alternate exchange and dead-letter exchange."""
        kinds = {it.name: it.kind for it in self.exchanges}
        for it in self.bindings:
            yield Step("binding", ("exchange", it.source), it.target, "" if kinds.get(it.source) == "fanout" else it.key)
        for it in self.exchanges:
            if it.alternate is not None:
                yield Step("alternate", ("exchange", it.name), ("exchange", it.alternate), "else")
        for it in self.queues:
            if it.dead is not None:
                target = ("queue", it.key) if it.dead == "" and it.key is not None else ("exchange", it.dead)
                yield Step("dead letters", ("queue", it.name), target, "rejected" + (f" as {it.key}" if it.key is not None and it.dead else ""))

    # ---- the way of a message

    def _lets_pass(self, exchange, binding, key):
        return exchange.kind == "fanout" or Pattern(exchange.kind == "topic", binding.key).matches(key)

    def _onward(self, name, key):
        exchange = next((it for it in self.exchanges if it.name == name), None)
        if exchange is None or not name:
            return [("queue", it.name) for it in self.queues if it.name == key]
        passed = [it.target for it in self.bindings if it.source == name and self._lets_pass(exchange, it, key)]
        return passed or [("exchange", exchange.alternate)] * (exchange.alternate is not None)

    def way(self, name, key):
        """Each step that a message takes which is sent to this exchange under this key, up to its queues."""
        taken, seen, waiting = set(), {name}, [name]
        while waiting:
            here = waiting.pop()
            for target in self._onward(here, key):
                taken.add((("exchange", here), target))
                if target[0] == "exchange" and target[1] not in seen:
                    seen.add(target[1])
                    waiting.append(target[1])
        return taken

    def _along(self, path):
        """The steps of a path of names from an exchange to a queue, dead letters included."""
        steps, here = set(), ("exchange", path[0])
        known = {(it.source, it.target) for it in self.steps()}
        for place, name in enumerate(path[1:], 1):
            wanted = ["queue", "exchange"] if place == len(path) - 1 else ["exchange", "queue"]
            nexts = [(kind, name) for kind in wanted]
            there = next((it for it in nexts if (here, it) in known), nexts[0])
            steps.add((here, there))
            here = there
        return steps

    def broken(self, guarantees, verdicts):
        broken = Broken()
        for number, guarantee in guarantees.items():
            verdict = verdicts.get(number)
            if verdict is None or verdict.key is None:
                continue
            (broken.missed if guarantee.mode == "reaches" else broken.entered).add(guarantee.queue)
            broken.steps |= self._along(verdict.path) if verdict.path else self.way(guarantee.exchange, verdict.key)
        return broken


def excepts_of(entry):
    """The patterns that a guarantee takes out, if it has any."""
    patterns = entry.get("except", [])
    if not isinstance(patterns, list) or not all(isinstance(it, str) for it in patterns):
        raise BadFile("an exception is no text")
    return patterns


def read_guarantees(value):
    try:
        return [Guarantee(*texts(it, "mode", "exchange", "pattern", "queue"), excepts_of(it)) for it in value["guarantees"]]
    except (KeyError, TypeError, AttributeError):
        raise BadFile("this is no guarantees file") from None


def read_verdicts(lines, count):
    """What each line of `warren check` says, by the number of its guarantee."""
    verdicts = {}
    for line in lines:
        number, _, told = line.partition(" ")
        if not number.isascii() or not number.isdigit() or not 1 <= int(number[:9]) <= count:
            raise BadFile(f"this is no line of warren check: {line[:80]}")
        key, path = None, []
        if told.startswith("no key "):
            key, *path = names_in(told.removeprefix("no key ").replace(" path ", " ", 1))
        verdicts[int(number)] = Verdict(told, key, path)
    return verdicts


def names_in(text):
    """The JSON strings of a line, one behind another."""
    decoder, names, at = json.JSONDecoder(), [], 0
    try:
        while at < len(text):
            name, at = decoder.raw_decode(text, at)
            names.append(name)
            at += 1
    except ValueError:
        raise BadFile(f"this is no line of warren check: {text[:80]}") from None
    if not names or not all(isinstance(it, str) for it in names):
        raise BadFile(f"this is no line of warren check: {text[:80]}")
    return names
