"""Exports that are changed when they are made into a definitions file, by hand: of each what may become of a `yes`, for the tests beside this file.

A row has a title, the export, the change that is looked at, by words of its line, and what a `never` and a `reaches` of the file then say of RabbitMQ.
What RabbitMQ does is in its documentation: "Time-To-Live", "Queue Length Limit", "Quorum Queues", "Alternate Exchanges", "Firehose Tracer", "Shovel".
"""

from collections import namedtuple

HOLDS, ENTERED, BREAKS = "holds", "says entered, not kept", "may break"
HASH = "YWJjZHrKTgkwAX37nyLw6Dww3kyaNSJiTfh1qdvqp5EssHXW"

Row = namedtuple("Row", "title export words never reaches")


def exchange(name, kind="topic", arguments=None, **others):
    return {"name": name, "vhost": "/", "type": kind, "durable": True, "auto_delete": False, "internal": False, "arguments": arguments or {}, **others}


def queue(name, arguments=None, **others):
    return {"name": name, "vhost": "/", "durable": True, "auto_delete": False, "arguments": arguments or {}, **others}


def binding(source, key, name, kind="queue", arguments=None):
    return {"source": source, "vhost": "/", "destination": name, "destination_type": kind, "routing_key": key, "arguments": arguments or {}}


def policy(definition, pattern="", name="p", priority=0, applies="all"):
    return {"vhost": "/", "name": name, "pattern": pattern, "apply-to": applies, "definition": definition, "priority": priority}


def parameter(component, value=None, vhost="/"):
    return {"vhost": vhost, "component": component, "name": "it", "value": value or {}}


def user(name, **others):
    return {"name": name, "password_hash": HASH, "hashing_algorithm": "rabbit_password_hashing_sha256", "tags": [], **others}


def export(exchanges=(), queues=(), bindings=(), **others):
    """An export with a topic exchange X, a fanout exchange F that leads to the queue q, and these entries."""
    value = {"vhosts": [{"name": "/"}], "users": [], "permissions": [], "policies": [], "parameters": [], "topic_permissions": []}
    value["exchanges"] = [exchange("X"), exchange("F", "fanout"), *exchanges]
    value["queues"] = [queue("q"), *queues]
    value["bindings"] = [binding("F", "", "q"), *bindings]
    return {**value, **others}


def of_queue(arguments, **others):
    """An export with a queue `it` that X leads to."""
    return export(queues=[queue("it", arguments, **others)], bindings=[binding("X", "#", "it")])


DEAD = {"x-dead-letter-exchange": "F"}
ALTERNATE = [exchange("A", "direct", {"alternate-exchange": "F"})]
HEADERS = [exchange("H", "headers")]

STAYS = (
    # who may do what, and where
    Row("rights", export(users=[user("till")], permissions=[{"user": "till", "vhost": "/", "configure": ".*", "write": "^X$", "read": ".*"}]), "is now", HOLDS, HOLDS),
    Row("a limit of a user", export(users=[user("till", limits={"max-channels": 1})], permissions=[{"user": "till", "vhost": "/", "configure": "^$", "write": ".*", "read": ".*"}]), "limits", HOLDS, HOLDS),
    Row("limits of a virtual host", export(parameters=[parameter("vhost-limits")]), "vhost-limits", HOLDS, HOLDS),
    Row("another virtual host", export(vhosts=[{"name": "/"}, {"name": "office"}]), "left out, with all", HOLDS, HOLDS),
    # the same ways
    Row("a policy that is copied", {**of_queue({}), "policies": [policy({"dead-letter-exchange": "F"}, "^it")]}, "is added, from", HOLDS, HOLDS),
    Row("arguments of a binding", export(bindings=[binding("X", "a", "q", arguments={"since": 1})]), '"since"', HOLDS, HOLDS),
    Row("an exchange that each RabbitMQ has", export(bindings=[binding("amq.topic", "a", "q")]), "is added: RabbitMQ has it", HOLDS, HOLDS),
    Row("lazy", of_queue({"x-queue-mode": "lazy"}), "lazy", HOLDS, HOLDS),
    Row("mirrors", export(policies=[policy({"ha-mode": "all"})]), "ha-mode", HOLDS, HOLDS),
    Row("priority", of_queue({"x-max-priority": 5}), "x-max-priority", HOLDS, HOLDS),
    Row("a consumer's time", export(policies=[policy({"consumer-timeout": 9})]), "consumer-timeout", HOLDS, HOLDS),
    Row("a large limit", of_queue({"x-max-length": 1 << 33, "x-overflow": "reject-publish"}), "is now 4294967295", HOLDS, HOLDS),
    Row("refused with a dead letter", of_queue({"x-max-length": 1, "x-overflow": "reject-publish-dlx", **DEAD}), "reject-publish-dlx", HOLDS, HOLDS),
    Row("a stream", of_queue({"x-queue-type": "stream"}), "stream", HOLDS, HOLDS),
    Row("a dead-letter exchange that RabbitMQ has not either", of_queue({"x-dead-letter-exchange": "nowhere"}), '"nowhere" is left out', HOLDS, HOLDS),
    # entered, not kept
    Row("expiry", of_queue({"x-message-ttl": 5, **DEAD}), "x-message-ttl", HOLDS, ENTERED),
    Row("expiry by a policy", {**of_queue({}), "policies": [policy({"message-ttl": 5})]}, "message-ttl", HOLDS, ENTERED),
    Row("expiry by an operator", {**of_queue({}), "parameters": [parameter("operator_policy", policy({"message-ttl": 5}))]}, "message-ttl", HOLDS, ENTERED),
    Row("age", of_queue({"x-queue-type": "stream", "x-max-age": "7D"}), "x-max-age", HOLDS, ENTERED),
    Row("drop-head", of_queue({"x-max-length": 1, "x-overflow": "drop-head", **DEAD}), "drop-head", HOLDS, ENTERED),
    Row("a limit that says nothing else", of_queue({"x-max-length-bytes": 1}), "is added", HOLDS, ENTERED),
    Row("quorum", of_queue({"x-queue-type": "quorum"}), "quorum", HOLDS, ENTERED),
    Row("a type beside the arguments", of_queue({}, type="quorum"), "quorum", HOLDS, ENTERED),
    Row("a delivery limit", of_queue({"x-delivery-limit": 3}), "x-delivery-limit", HOLDS, ENTERED),
    # ways that the file does not have
    Row("a headers exchange alone", export(HEADERS, bindings=[binding("H", "", "q")]), "its type", HOLDS, HOLDS),
    Row("a binding of a headers exchange", export(HEADERS, bindings=[binding("H", "", "q")]), 'binding "H"', HOLDS, HOLDS),
    Row("a binding to a headers exchange", export(HEADERS, bindings=[binding("X", "#", "H", "exchange"), binding("H", "", "q")]), 'binding "X"', BREAKS, HOLDS),
    Row("an alternate of another type", export([*HEADERS, exchange("Y", arguments={"alternate-exchange": "H"})]), "its alternate exchange", BREAKS, HOLDS),
    Row("an alternate that has no name", export([exchange("Y", arguments={"alternate-exchange": ""})]), "its alternate exchange", BREAKS, HOLDS),
    Row("dead letters to another type", {**of_queue({"x-dead-letter-exchange": "H"}), "exchanges": [exchange("X"), exchange("F", "fanout"), *HEADERS]}, "its dead-letter exchange", BREAKS, HOLDS),
    Row("dead letters to an exchange of RabbitMQ's own", of_queue({"x-dead-letter-exchange": "amq.headers"}), "its dead-letter exchange", BREAKS, HOLDS),
    Row("a dead-letter key with an empty word", of_queue({**DEAD, "x-dead-letter-routing-key": "a..b"}), "its dead letters", BREAKS, HOLDS),
    Row("a binding key with an empty word", export(bindings=[binding("X", "a..b", "q")]), "its key has an empty word", BREAKS, HOLDS),
    Row("copies of all messages", export(bindings=[binding("amq.rabbitmq.trace", "#", "q")]), "amq.rabbitmq.trace", BREAKS, HOLDS),
    Row("a queue's name with an empty word", export(queues=[queue("a..b")], bindings=[binding("X", "#", "a..b")]), 'queue "a..b": left out', HOLDS, HOLDS),
    Row("a binding to it", export(queues=[queue("a..b")], bindings=[binding("X", "#", "a..b")]), "binding", HOLDS, HOLDS),
    Row("the same with dead letters", export(queues=[queue("a..b", DEAD)], bindings=[binding("X", "#", "a..b")]), 'queue "a..b": left out', BREAKS, HOLDS),
    Row("a binding to it", export(queues=[queue("a..b", DEAD)], bindings=[binding("X", "#", "a..b")]), "binding", BREAKS, HOLDS),
    Row("dead letters by a policy", export(queues=[queue("a..b")], policies=[policy({"dead-letter-exchange": "F"})]), 'queue "a..b": left out', BREAKS, HOLDS),
    # an alternate exchange that gets more, or less
    Row("a binding beside an alternate", export(ALTERNATE, [queue("a..b")], [binding("A", "k", "a..b")]), "binding", HOLDS, BREAKS),
    Row("the same, to a headers exchange", export([*ALTERNATE, *HEADERS], bindings=[binding("A", "k", "H", "exchange")]), "binding", BREAKS, BREAKS),
    Row("auto-delete", of_queue({}, auto_delete=True), "auto_delete", HOLDS, BREAKS),
    Row("auto-delete of an exchange", export([exchange("Y", auto_delete=True)], bindings=[binding("X", "#", "Y", "exchange")]), "auto_delete", HOLDS, BREAKS),
    Row("a queue that a restart removes", of_queue({}, durable=False), "is not durable", HOLDS, BREAKS),
    Row("an exchange that a restart removes", export([exchange("Y", durable=False)], bindings=[binding("X", "#", "Y", "exchange")]), "is not durable", HOLDS, BREAKS),
    Row("the same beside an alternate", export(ALTERNATE, [queue("it", durable=False)], [binding("A", "k", "it")]), "is not durable", BREAKS, BREAKS),
    Row("a queue's expiry", of_queue({"x-expires": 5}), "x-expires", HOLDS, BREAKS),
    Row("auto-delete beside an alternate", export(ALTERNATE, [queue("it", auto_delete=True)], [binding("A", "k", "it")]), "auto_delete", BREAKS, BREAKS),
    Row("a queue's expiry by a policy, beside an alternate", export(ALTERNATE, [queue("it")], [binding("A", "k", "it")], policies=[policy({"expires": 5})]), "expires 5", BREAKS, BREAKS),
    Row("an alternate by a policy", export([exchange("Y")], [queue("it", auto_delete=True)], [binding("Y", "k", "it")], policies=[policy({"alternate-exchange": "F"}, "^Y")]), "auto_delete", BREAKS, BREAKS),
    # what moves messages, and what is not known
    Row("a delayed exchange", export([exchange("D", "x-delayed-message", {"x-delayed-type": "topic"})]), "x-delayed-message", BREAKS, BREAKS),
    Row("a shovel", export(parameters=[parameter("shovel")]), "shovel", BREAKS, ENTERED),
    Row("a shovel of another virtual host", export(vhosts=[{"name": "/"}, {"name": "o"}], parameters=[parameter("shovel", vhost="o")]), "shovel", BREAKS, ENTERED),
    Row("federation", export(policies=[policy({"federation-upstream-set": "all"})]), "federation", BREAKS, ENTERED),
    Row("an argument that is not known", of_queue({"x-message-deduplication": True}), "x-message-deduplication", BREAKS, BREAKS),
    Row("an argument of an exchange", export([exchange("Y", arguments={"hash-header": "h"})]), "hash-header", BREAKS, BREAKS),
    Row("a setting that is not known", export(policies=[policy({"shards-per-node": 2})]), "shards-per-node", BREAKS, BREAKS),
    Row("a parameter that is not known", export(parameters=[parameter("other")]), "other", BREAKS, BREAKS),
    Row("a policy that cannot be read", export(policies=[policy({"message-ttl": 5}, "(")]), "cannot be read", BREAKS, BREAKS),
    Row("a pattern that RabbitMQ reads otherwise", export(policies=[policy({"message-ttl": 5}, "^q[[:digit:]]")]), "cannot be read", BREAKS, BREAKS),
    Row("two policies of one priority", {**of_queue({}), "policies": [policy({"max-length": 1}, name="p"), policy({"dead-letter-exchange": "F"}, name="r")]}, "with one priority", BREAKS, BREAKS),
    Row("no bindings", {name: it for name, it in export().items() if name != "bindings"}, 'member "bindings"', BREAKS, BREAKS),
    Row("a type that is not known", of_queue({"x-queue-type": "other"}), "x-queue-type", BREAKS, BREAKS),
)
