"""Compares what a `yes` says of a RabbitMQ that stays with what that RabbitMQ does: python3 -m warrenctl.tests.with_rabbitmq.stays [COUNT] [SEED]

It makes topologies at random, takes the export of each, and publishes to it. Messages expire, are dropped, are given out too often and are rejected; queues go.
A message that enters a queue to which it cannot come in the file, or passes one by to which it is routed there, would break a `never` or a `reaches` of the file:
then a change has to be marked for it. Status 0 if so, or if RabbitMQ is not installed, which a line says; 1 otherwise.
"""

import random
import sys
import time
from collections import Counter, defaultdict

from dev.beds.rabbit import NotHere, Rabbit, RabbitFault, quoted
from warrenctl.commands.convert import still
from warrenctl.commands.convert.convert import convert
from warrenctl.commands.convert.part import part_of
from warrenctl.routing.checker import Topology, by_key

COUNT = 100
MODES = {"never": still.never_of, "reaches": still.reaches_of}
KEYS = ("", "a", "b", "a.b", "b.a.b", "a..b", "q0")
PATTERNS = {"topic": ("a", "#", "a.*", "*.b", "a.#", "#.b", "*"), "direct": ("a", "b", "a.b", "q0"), "fanout": ("",), "headers": ("",)}
# seconds within which what expires has expired, and how often what was rejected is looked for again
EXPIRED, PASSES = 0.3, 4
EXPIRES = 20
# milliseconds: a queue that would go goes by `let_go`
NEVER = 3_600_000
ALL = 1_000
COPIES = "copies"
# what is said of a publish that a full queue refuses
REFUSED = "Check queue limits"


def chance_of(chance, share, one):
    return one() if chance.random() < share else {}


class Scene:
    """A topology at random. Some have what may break a `yes`, of a few kinds each."""

    def __init__(self, chance):
        self.chance = chance
        self.odd = {it for it in ("headers", "empty word", "auto-delete", "odd name", "own") if chance.random() < 0.15}
        kinds = [chance.choice(("topic", "direct", "fanout")) for _ in range(3)] + ["headers"] * ("headers" in self.odd)
        self.kinds = {f"X{place}": kind for place, kind in enumerate(kinds)}
        self.names = [f"q{place}" for place in range(4)] + ["o..d"] * ("odd name" in self.odd)

    def exchange(self):
        return self.chance.choice([*self.kinds, *(["amq.headers"] if "own" in self.odd else [])])

    def dead_letters(self):
        chance = self.chance
        if chance.random() < 0.2:
            return {"x-dead-letter-exchange": "", "x-dead-letter-routing-key": chance.choice(self.names)}
        key = {"x-dead-letter-routing-key": chance.choice(("a", "a.b", "a..b" if "empty word" in self.odd else "b"))}
        return {"x-dead-letter-exchange": self.exchange(), **chance_of(chance, 0.3, lambda: key)}

    def queue(self, name):
        chance, arguments = self.chance, chance_of(self.chance, 0.6, self.dead_letters)
        goes = "auto-delete" in self.odd and chance.random() < 0.5
        arguments.update({"x-expires": NEVER} if "auto-delete" in self.odd and chance.random() < 0.3 else {})
        if name == "q3" and chance.random() < 0.3:
            return {"name": name, "durable": True, "auto_delete": False, "arguments": {**arguments, "x-queue-type": "quorum", "x-delivery-limit": 1}}
        arguments.update(chance_of(chance, 0.3, lambda: {"x-message-ttl": EXPIRES}))
        overflow = {"x-overflow": chance.choice(("drop-head", "reject-publish", "reject-publish-dlx"))}
        arguments.update(chance_of(chance, 0.3, lambda: {"x-max-length": chance.randint(1, 3), **chance_of(chance, 0.8, lambda: overflow)}))
        arguments.update(chance_of(chance, 0.1, lambda: {"x-max-priority": 3}))
        return {"name": name, "durable": True, "auto_delete": goes, "arguments": arguments}

    def binding(self):
        chance, source = self.chance, self.chance.choice(list(self.kinds) + ["amq.topic"] * ("own" in self.odd))
        kind, name = chance.choice((("queue", chance.choice(self.names)), ("exchange", self.exchange())))
        key = "a..b" if "empty word" in self.odd and chance.random() < 0.3 else chance.choice(PATTERNS[self.kinds.get(source, "topic")])
        arguments = {"x-match": "all"} if self.kinds.get(source) == "headers" else {}
        return {"source": source, "destination_type": kind, "destination": name, "routing_key": key, "arguments": arguments}

    def policy(self, place):
        chance = self.chance
        settings = chance.choice(({"message-ttl": EXPIRES}, {"max-length": 2}, {"dead-letter-exchange": self.exchange()}, {"alternate-exchange": self.exchange()}, {"expires": NEVER}))
        settings = {**settings, **chance_of(chance, 0.3, lambda: {"delivery-limit": 1}), **chance_of(chance, 0.3, lambda: {"dead-letter-exchange": self.exchange()})}
        pattern = chance.choice(("^[qXo]", "^q", "^X", f"[qX]{chance.randint(0, 3)}$", *(["^amq", "^[qXo]|^amq"] if "own" in self.odd else [])))
        return {"name": f"p{place}", "pattern": pattern, "apply-to": chance.choice(("all", "queues", "exchanges")), "definition": settings, "priority": chance.randint(0, 5)}

    def definitions(self):
        chance = self.chance
        alternates = {name: chance_of(chance, 0.4, lambda: {"alternate-exchange": self.exchange()}) for name in self.kinds}
        return {
            "policies": [self.policy(place) for place in range(chance.randint(0, 2))],
            "parameters": [],
            "exchanges": [{"name": name, "type": kind, "durable": True, "auto_delete": False, "internal": False, "arguments": alternates[name]} for name, kind in self.kinds.items()],
            "queues": [self.queue(name) for name in self.names],
            "bindings": [self.binding() for _ in range(chance.randint(3, 8))],
        }


def headers_of(taken):
    """The headers of a message that was taken; what is empty is an empty array."""
    properties = taken["properties"] or {}
    return properties.get("headers") or {}


class Host:
    """A virtual host of a RabbitMQ that has such a topology, and tells where each message went."""

    def __init__(self, rabbit, name, definitions):
        self.rabbit, self.name = rabbit, name
        rabbit.add_vhost(name)
        rabbit.import_definitions(definitions, name)
        self.export = rabbit.export_definitions(name)
        self.queues = {it["name"]: it for it in self.export["queues"]}
        self.entered = defaultdict(set)
        self._ask(f"vhosts/{name}", {"tracing": True}, "PUT")
        self._ask(f"queues/{name}/{COPIES}", {"durable": True}, "PUT")
        self._ask(f"bindings/{name}/e/amq.rabbitmq.trace/q/{COPIES}", {"routing_key": "publish.#", "arguments": {}}, "POST")

    def _ask(self, path, body, method):
        return self.rabbit.api(path, body, method)

    def _taken(self, queue, how):
        return self._ask(f"queues/{self.name}/{quoted(queue)}/get", {"count": ALL, "ackmode": how, "encoding": "auto"}, "POST")

    def publish(self, exchange, key, body):
        try:
            self._ask(f"exchanges/{self.name}/{exchange or 'amq.default'}/publish", {"properties": {}, "routing_key": key, "payload": body, "payload_encoding": "string"}, "POST")
        except RabbitFault as error:
            if REFUSED not in str(error):
                raise

    def _look(self, queue):
        """Rejects all that is in a queue, and notes where each message was. Returns whether there was any."""
        arguments = self.queues[queue]["arguments"]
        for _ in range(3 * (arguments.get("x-queue-type") == "quorum")):
            self._taken(queue, "reject_requeue_true")
        taken = self._taken(queue, "reject_requeue_false")
        for it in taken:
            deaths = headers_of(it).get("x-death", [])
            self.entered[it["payload"]].update([queue, *(death["queue"] for death in deaths)])
        return bool(taken)

    def follow(self):
        """Follows all messages by expiry, drops and rejections. Returns the queues to which each was routed by its publish, and those that it entered."""
        for _ in range(PASSES):
            time.sleep(EXPIRED)
            if not any([self._look(it) for it in self.queues]):
                break
        for it in self.queues:
            self._ask(f"queues/{self.name}/{quoted(it)}/contents", None, "DELETE")
        routed = {}
        for it in self._taken(COPIES, "ack_requeue_false"):
            routed.setdefault(it["payload"], set(headers_of(it)["routed_queues"]))
        for body, queues in routed.items():
            self.entered[body] |= queues
        return routed, self.entered

    def let_go(self):
        """Has the queues go that RabbitMQ deletes once nobody uses them."""
        gone = [it for it, entry in self.queues.items() if entry["auto_delete"] or "x-expires" in entry["arguments"]]
        for it in gone:
            self._ask(f"queues/{self.name}/{quoted(it)}", None, "DELETE")
            del self.queues[it]
        return bool(gone)


class File:
    """A definitions file that was made of an export, or of a part of it, and whether a change is marked by which a `never` or a `reaches` of it may break."""

    def __init__(self, called, made, changes):
        self.called, self.topology = called, Topology(made)
        self.marked = {mode: any(of(it.still) == still.MAY_BREAK for it in changes) for mode, of in MODES.items()}

    def broken(self, exchange, key, routed, entered):
        """The kinds of guarantees of this file that a message would break."""
        if exchange and exchange not in self.topology.exchanges:
            return []
        says = by_key(key)
        allowed = {it[1] for it in self.topology.visited(exchange, says) if it[0] == "queue"}
        sure = {name for kind, name in self.topology.routed(exchange, says) if kind == "queue"}
        found = {"never": (entered & self.topology.queues.keys()) - allowed, "reaches": sure - routed}
        return [mode for mode in MODES if found[mode]]


def files_of(export, chance):
    """The file of the whole export, and that of a part at random."""
    whole = File("whole", *convert(export))
    names = chance.sample([it["name"] for it in export["queues"]], 2)
    part = part_of(export, None, names)
    made, changes = convert(part.export, None, part.stays)
    return [whole, File("part", made, changes + part.changes)]


def of_scene(rabbit, name, scene, seen):
    """Prints what is wrong with a topology, and counts what is seen. Returns whether all is right."""
    host = Host(rabbit, name, scene.definitions())
    files = files_of(host.export, scene.chance)
    seen.update(f"{file.called}: {mode} {'may break' if mark else 'holds'}" for file in files for mode, mark in file.marked.items())
    right = True
    for turn in range(2):
        sent = {f"{turn}.{place}": it for place, it in enumerate((exchange, key) for exchange in ["", *files[0].topology.exchanges] for key in KEYS)}
        for body, (exchange, key) in sent.items():
            host.publish(exchange, key, body)
        routed, entered = host.follow()
        seen["messages"] += len(sent)
        for file in files:
            for body, (exchange, key) in sent.items():
                for mode in file.broken(exchange, key, routed.get(body, set()), entered[body]):
                    seen[f"{file.called}: messages past a {mode}"] += 1
                    right &= file.marked[mode]
                    if not file.marked[mode]:
                        print(f"{name}, {file.called}: key {key!r} of exchange {exchange!r} is past a {mode}, and no change is marked: it entered {entered[body]}")
        if not host.let_go():
            break
    if not right:
        print(host.export, [list(file.topology.queues) for file in files])
    rabbit.api(f"vhosts/{name}", method="DELETE")
    return right


def main(count, seed):
    seen, wrong = Counter(), 0
    with Rabbit() as rabbit:
        for place in range(count):
            wrong += not of_scene(rabbit, f"{seed}-{place}", Scene(random.Random(f"{seed} {place}")), seen)
    for what, number in sorted(seen.items()):
        print(f"{what}: {number}")
    print(f"seed {seed}: {count} topologies, {wrong} otherwise than marked")
    # else nothing was compared
    enough = all(seen[f"whole: messages past a {mode}"] and seen[f"{called}: {mode} holds"] > count / 6 for mode in MODES for called in ("whole", "part"))
    return 1 if wrong or not enough else 0


if __name__ == "__main__":
    try:
        sys.exit(main(int(sys.argv[1]) if sys.argv[1:] else COUNT, int(sys.argv[2]) if sys.argv[2:] else 1))
    except NotHere as error:
        print(f"warrenctl.tests.with_rabbitmq.stays: skipped, {error}")
