"""The causes for which warren refuses a definitions file: all that are in it, each with its entry.

docs/FORMATS.md has the causes. warren itself prints only the lowest number of them. Nothing here is proved: what warren says of a file decides.
"""

import base64
import json
import math
from collections import Counter, namedtuple

MOST_BYTES = 16_777_216
MOST_NESTING = 127
MOST_NUMBER = 4_294_967_295
MOST = {"exchanges": 256, "queues": 256, "bindings": 4_096, "users": 256}
MOST_WORDS = 31
MOST_NAME = 255
TYPES = ("direct", "fanout", "topic")
HASHING = "rabbit_password_hashing_sha256"
PERMISSION = {"configure": "^$", "write": ".*", "read": ".*"}

# the arguments that warren takes, each with its kind
EXCHANGE_ARGUMENTS = {"alternate-exchange": str}
LENGTH_LIMITS = ("x-max-length", "x-max-length-bytes")
QUEUE_ARGUMENTS = {
    **{name: int for name in LENGTH_LIMITS},
    "x-overflow": str,
    "x-dead-letter-exchange": str,
    "x-dead-letter-routing-key": str,
}

# the members that each entry must have, each with its kind
VHOST = {"name": str}
USER = {"name": str, "password_hash": str, "hashing_algorithm": str}
RIGHTS = {"user": str, "vhost": str, "configure": str, "write": str, "read": str}
EXCHANGE = {"name": str, "vhost": str, "type": str, "durable": bool, "auto_delete": bool, "internal": bool, "arguments": dict}
QUEUE = {"name": str, "vhost": str, "durable": bool, "auto_delete": bool, "arguments": dict}
BINDING = {"source": str, "vhost": str, "destination": str, "destination_type": str, "routing_key": str, "arguments": dict}
ENTRIES = {"vhosts": VHOST, "users": USER, "permissions": RIGHTS, "exchanges": EXCHANGE, "queues": QUEUE, "bindings": BINDING}
EMPTY_ARRAYS = ("policies", "parameters", "topic_permissions")
KINDS = {str: "text", bool: "truth value", dict: "object", list: "array", int: "whole number from 0 to 4294967295"}

Cause = namedtuple("Cause", "number entry what")


class NotJson(Exception):
    """The bytes are no JSON as warren reads it; the text says why."""


def quoted(text):
    return json.dumps(text, ensure_ascii=False) if isinstance(text, str) else "?"


# ---- JSON


def _whole(digits):
    if digits == "-0":
        return -0.0
    return int(digits) if len(digits) <= 20 else _broken(digits)


def _broken(digits):
    number = float(digits)
    if math.isinf(number):
        raise NotJson("a number is too large")
    return number


def _constant(word):
    raise NotJson(f"{word} is no JSON")


def _look_over(value):
    """Refuses what Python reads and warren does not: deep nesting, and half a surrogate pair."""
    waiting = [(value, 1)]
    while waiting:
        part, depth = waiting.pop()
        if isinstance(part, (dict, list)):
            if depth > MOST_NESTING:
                raise NotJson(f"it is nested more than {MOST_NESTING} deep")
            inner = list(part.values()) + list(part) if isinstance(part, dict) else part
            waiting.extend((it, depth + 1) for it in inner)
        elif isinstance(part, str) and any("\ud800" <= it <= "\udfff" for it in part):
            raise NotJson("a text has half a surrogate pair")


def read_json(data):
    """The value that these bytes state."""
    try:
        value = json.loads(data.decode("utf-8"), parse_int=_whole, parse_float=_broken, parse_constant=_constant)
        _look_over(value)
        return value
    except UnicodeDecodeError as error:
        raise NotJson(f"it is not UTF-8 at byte {error.start}") from None
    except RecursionError:
        raise NotJson(f"it is nested more than {MOST_NESTING} deep") from None
    except ValueError as error:
        raise NotJson(str(error)) from None


# ---- members


def is_of(value, kind):
    if kind is int:
        return type(value) is int and 0 <= value <= MOST_NUMBER
    return isinstance(value, kind)


def name_of(kind, entry, place):
    """How an entry is called in what is told."""
    if not isinstance(entry, dict):
        return f"{kind} {place + 1}"
    if kind == "binding":
        to = entry.get("destination_type")
        to = f"{to} " if isinstance(to, str) else ""
        return f"binding {quoted(entry.get('source'))} to {to}{quoted(entry.get('destination'))}, key {quoted(entry.get('routing_key'))}"
    name = entry.get("user" if kind == "permission" else "name")
    return f"{kind} {quoted(name)}" if isinstance(name, str) else f"{kind} {place + 1}"


def _members(entry, members):
    """What is wrong with the members that an entry must have."""
    if not isinstance(entry, dict):
        return ["it is no object"]
    wrong = [f"member {quoted(name)} is missing" for name in members if name not in entry]
    return wrong + [f"member {quoted(name)} is no {KINDS[kind]}" for name, kind in members.items() if name in entry and not is_of(entry[name], kind)]


def _arguments(entry, known):
    """The arguments of an entry, what is wrong with those that are known, and those that are not."""
    arguments = entry.get("arguments") if isinstance(entry, dict) else None
    arguments = arguments if isinstance(arguments, dict) else {}
    wrong = [f"argument {quoted(name)} is no {KINDS[known[name]]}" for name in known if name in arguments and not is_of(arguments[name], known[name])]
    return arguments, wrong, [name for name in arguments if name not in known]


# ---- texts


def wrong_name(name):
    if not name:
        return "it has no name"
    return f"its name has more than {MOST_NAME} bytes" if len(name.encode()) > MOST_NAME else None


def wrong_pattern(key):
    """What is wrong with a binding key, a dead-letter key or a queue's name."""
    words = key.split(".") if key else []
    if "" in words:
        return "has an empty word"
    if len(words) > MOST_WORDS:
        return f"has more than {MOST_WORDS} words"
    return f"has more than {MOST_NAME} bytes" if len(key.encode()) > MOST_NAME else None


def wrong_hash(user):
    if user["hashing_algorithm"] != HASHING:
        return f"hashing_algorithm {quoted(user['hashing_algorithm'])}; only {quoted(HASHING)} is taken"
    try:
        length = len(base64.b64decode(user["password_hash"].encode("ascii"), validate=True))
        whole = base64.b64encode(base64.b64decode(user["password_hash"])).decode() == user["password_hash"]
    except ValueError:
        return "password_hash is no padded standard Base64"
    return None if length == 36 and whole else "password_hash is not padded standard Base64 of exactly 36 bytes"


# ---- entries


class _File:
    """The entries of a file, the causes found so far, and what of it names what."""

    def __init__(self, value):
        self.causes = []
        self.lists = {}
        for name, members in ENTRIES.items():
            self.lists[name] = self._list(value, name, members)

    def _list(self, value, name, members):
        kind = name[:-1]
        entries = value.get(name)
        if not isinstance(entries, list):
            self.tell(2, "file", f"member {quoted(name)} is missing" if name not in value else f"member {quoted(name)} is no array")
            return []
        named = [(name_of(kind, it, place), it) for place, it in enumerate(entries)]
        for called, it in named:
            for what in _members(it, members):
                self.tell(2, called, what)
        if len(entries) > MOST.get(name, len(entries)):
            self.tell(10, "file", f"{len(entries)} {name}; {MOST[name]} are the most")
        return named

    def tell(self, number, entry, what):
        self.causes.append(Cause(number, entry, what))

    def texts(self, name, member):
        return [it[member] for _, it in self.lists[name] if isinstance(it, dict) and isinstance(it.get(member), str)]

    def whole(self, name):
        """The entries whose members are as they must be."""
        return [(called, it) for called, it in self.lists[name] if not _members(it, ENTRIES[name])]


def _judge_vhosts(file):
    names = file.texts("vhosts", "name")
    if len(file.lists["vhosts"]) != 1:
        file.tell(3, "file", f"{len(names)} virtual hosts; there has to be exactly one, \"/\"")
    for name in names:
        if name != "/":
            file.tell(3, f"vhost {quoted(name)}", "another virtual host than \"/\"")
    for list_name in ("permissions", "exchanges", "queues", "bindings"):
        for called, it in file.lists[list_name]:
            if isinstance(it, dict) and isinstance(it.get("vhost"), str) and it["vhost"] != "/":
                file.tell(3, called, f"it is of the virtual host {quoted(it['vhost'])}")


def _judge_repeats(file):
    for name in ("users", "exchanges", "queues"):
        for text, count in Counter(file.texts(name, "name")).items():
            if count > 1:
                file.tell(4, f"{name[:-1]} {quoted(text)}", f"it is there {count} times")


def _judge_users(file):
    for called, user in file.whole("users"):
        if len(user["name"].encode()) > MOST_NAME:
            file.tell(9, called, f"its name has more than {MOST_NAME} bytes")
        wrong = wrong_hash(user)
        if wrong:
            file.tell(13, called, wrong)


def _judge_permissions(file):
    users = file.texts("users", "name")
    permitted = Counter(file.texts("permissions", "user"))
    for name in dict.fromkeys(users):
        if permitted[name] == 0:
            file.tell(12, f"user {quoted(name)}", "it has no permission")
    for name, count in permitted.items():
        if name not in users:
            file.tell(12, f"permission {quoted(name)}", "there is no such user")
        elif count > 1:
            file.tell(12, f"user {quoted(name)}", f"it has {count} permissions; one is taken")
    for called, it in file.whole("permissions"):
        for member, wanted in PERMISSION.items():
            if it[member] != wanted:
                file.tell(12, called, f"{member} is {quoted(it[member])}; only {quoted(wanted)} is taken")


def _judge_plain(file, called, entry, members, known):
    """Judges what exchanges and queues have alike: arguments, other members, auto-delete."""
    if not isinstance(entry, dict):
        return {}
    arguments, wrong, others = _arguments(entry, known)
    for what in wrong:
        file.tell(2, called, what)
    for name in others:
        file.tell(7, called, f"argument {quoted(name)}")
    for name in entry:
        if name not in members:
            file.tell(7, called, f"member {quoted(name)}")
    if entry.get("auto_delete") is True:
        file.tell(7, called, "auto_delete")
    return {name: value for name, value in arguments.items() if name in known and is_of(value, known[name])}


def _plain_entries(file, kind, members, known):
    """The entries that are objects, each with its arguments that are known and of their kind, once its members were judged."""
    for called, it in file.lists[kind]:
        arguments = _judge_plain(file, called, it, members, known)
        if isinstance(it, dict):
            yield called, it, arguments


def _judge_exchanges(file):
    names = file.texts("exchanges", "name")
    for called, it, arguments in _plain_entries(file, "exchanges", EXCHANGE, EXCHANGE_ARGUMENTS):
        if isinstance(it.get("name"), str) and wrong_name(it["name"]):
            file.tell(9, called, wrong_name(it["name"]))
        if isinstance(it.get("type"), str) and it["type"] not in TYPES:
            file.tell(6, called, f"type {quoted(it['type'])}")
        other = arguments.get("alternate-exchange")
        if other is not None and other not in names:
            file.tell(11, called, f"its alternate exchange {quoted(other)} is not there")


def _judge_queues(file):
    names = file.texts("exchanges", "name")
    for called, it, arguments in _plain_entries(file, "queues", QUEUE, QUEUE_ARGUMENTS):
        _judge_overflow(file, called, arguments)
        if isinstance(it.get("name"), str):
            wrong = "it has no name" if not it["name"] else wrong_pattern(it["name"])
            if wrong:
                file.tell(9, called, wrong if not it["name"] else f"its name {wrong}")
        key = arguments.get("x-dead-letter-routing-key")
        if key is not None and wrong_pattern(key):
            file.tell(9, called, f"its dead-letter key {wrong_pattern(key)}")
        dead = arguments.get("x-dead-letter-exchange")
        if key is not None and dead is None:
            file.tell(7, called, "a dead-letter key without a dead-letter exchange")
        if dead and dead not in names:
            file.tell(11, called, f"its dead-letter exchange {quoted(dead)} is not there")


def _judge_overflow(file, called, arguments):
    overflow = arguments.get("x-overflow")
    if overflow is not None and overflow != "reject-publish":
        file.tell(7, called, f"x-overflow {quoted(overflow)}; only \"reject-publish\" is taken")
    for limit in LENGTH_LIMITS:
        if limit in arguments and overflow is None:
            file.tell(8, called, f"{limit} without x-overflow")


def _judge_bindings(file):
    exchanges, queues = set(file.texts("exchanges", "name")), set(file.texts("queues", "name"))
    exchanges.discard("")
    for called, it in file.lists["bindings"]:
        if not isinstance(it, dict):
            continue
        for name in it:
            if name not in BINDING:
                file.tell(7, called, f"member {quoted(name)}")
        for name in _arguments(it, {})[2]:
            file.tell(7, called, f"argument {quoted(name)}")
        if isinstance(it.get("source"), str) and it["source"] not in exchanges:
            file.tell(5, called, "its source is the default exchange" if not it["source"] else "its source is not there")
        to, name = it.get("destination_type"), it.get("destination")
        if isinstance(to, str) and to not in ("queue", "exchange"):
            file.tell(7, called, f"destination_type {quoted(to)}")
        elif isinstance(to, str) and isinstance(name, str) and name not in (queues if to == "queue" else exchanges):
            file.tell(5, called, "its destination is not there")
        if isinstance(it.get("routing_key"), str) and wrong_pattern(it["routing_key"]):
            file.tell(9, called, f"its key {wrong_pattern(it['routing_key'])}")


def _judge_empty(file, value):
    for name in EMPTY_ARRAYS:
        entries = value.get(name, [])
        if not isinstance(entries, list):
            file.tell(2, "file", f"member {quoted(name)} is no array")
            continue
        kind = {"policies": "policy", "parameters": "parameter", "topic_permissions": "topic permission"}[name]
        for place, it in enumerate(entries):
            named = it.get("user" if name == "topic_permissions" else "name") if isinstance(it, dict) else None
            file.tell(7, f"{kind} {quoted(named)}" if isinstance(named, str) else f"{kind} {place + 1}", "none is taken")


def causes_in(value):
    """All causes that stand in a file that states this value, those of one entry beside each other."""
    if not isinstance(value, dict):
        return [Cause(2, "file", "it is no object")]
    file = _File(value)
    for judge in (_judge_vhosts, _judge_repeats, _judge_users, _judge_permissions, _judge_exchanges, _judge_queues, _judge_bindings):
        judge(file)
    _judge_empty(file, value)
    return file.causes


def causes_of(data):
    """All causes that stand in a file of these bytes."""
    if len(data) > MOST_BYTES:
        return [Cause(10, "file", f"{len(data)} bytes; {MOST_BYTES} are the most")]
    try:
        return causes_in(read_json(data))
    except NotJson as error:
        return [Cause(1, "file", f"it is not JSON: {error}")]
