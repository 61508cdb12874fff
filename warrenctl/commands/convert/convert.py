"""A definitions file that warren takes, out of an export of RabbitMQ, and what had to be changed for it.

Nothing here is proved. A file that is written has none of the causes of `causes.py`; whether warren takes it, warren says.
"""

from collections import defaultdict, namedtuple

from warrenctl.commands.convert import still
from warrenctl.commands.convert.policies import EXCHANGES, OF_QUEUES, OPERATOR_POLICY, lesser, matched_by_type, read_policies
from warrenctl.files.causes import (
    BINDING, EMPTY_ARRAYS, ENTRIES, EXCHANGE, EXCHANGE_ARGUMENTS, LENGTH_LIMITS, MOST_NUMBER, PERMISSION, QUEUE, QUEUE_ARGUMENTS, TYPES, is_of,
    name_of, quoted, wrong_hash, wrong_name, wrong_pattern,
)  # fmt: skip

# how much a change of meaning weighs: who may do what, messages that no longer come to where they came, all else
RIGHTS, LOST, REST = range(3)

# number: the cause for which warren would have refused it; meaning: what is no longer as it was, or nothing; grew: the user who may do more
# kind: the change in a word or two, for the table; of: the queues and exchanges whose messages it is about, as ("queue" or "exchange", name)
# still: the kinds of `still.py`, by which a `yes` holds of a RabbitMQ that stays
Change = namedtuple("Change", "number entry what still meaning weight grew kind of", defaults=(None, REST, None, None, ()))

# the user whom RabbitMQ lets in from its own machine alone (loopback_users)
FROM_ITS_OWN_MACHINE = "guest"

# exchanges that every virtual host of RabbitMQ has and no export lists
PREDECLARED = {"amq.direct": "direct", "amq.fanout": "fanout", "amq.topic": "topic"}
# names of exchanges that RabbitMQ has of its own begin so
ITS_OWN = "amq."
# with tracing on, RabbitMQ publishes a copy of each message to it
TRACE = "amq.rabbitmq.trace"

# arguments of queues that are left out, each with what is then no longer as it was; nothing where all is as before
LEFT_OUT = {
    "x-message-ttl": "messages no longer expire",
    "x-expires": "the queue is no longer deleted when nobody uses it",
    "x-max-priority": "messages are given out as they came, whatever their priority",
    "x-single-active-consumer": "all consumers of the queue get messages, in turn",
    "x-delivery-limit": "a message may be given out again any number of times",
    "x-dead-letter-strategy": "a dead letter that a full queue refuses is gone",
    "x-queue-mode": "messages are in memory alone",
    "x-queue-version": None,
    "x-queue-master-locator": None,
    "x-queue-leader-locator": None,
    "x-quorum-initial-group-size": None,
    "x-initial-cluster-size": None,
    "x-max-age": "messages no longer go with age",
    "x-stream-max-segment-size-bytes": None,
}
# the same in a word or two, for the table
KINDS = {
    "x-message-ttl": "expiry",
    "x-expires": "queue expiry",
    "x-max-priority": "priority",
    "x-single-active-consumer": "single active consumer",
    "x-delivery-limit": "delivery limit",
    "x-dead-letter-strategy": "dead-letter strategy",
    "x-queue-mode": "lazy",
    "x-max-age": "age",
}
# that of a queue that is left out
CANNOT = "cannot"
# that of an export which is not the one to take
SOURCE = "source"
# those of them after which messages no longer come to where they came
LOSES = ("x-dead-letter-strategy", "x-queue-mode", "x-queue-type")
TYPE_LEFT_OUT = {
    "classic": None,
    "quorum": "there is one copy of each message, in memory alone",
    "stream": "a message is gone once it is acknowledged, and nothing can be read again",
}

MOST_NAMED = 8

# patterns of permissions that let nothing pass, and all
NOTHING = ("", "^$")
EVERYTHING = (".*", "^.*", ".*$", "^.*$")


class NoFile(Exception):
    """No file can be made of this export; the text says why."""


def no_export(value):
    """Why this value is no export of RabbitMQ, if so: an answer that refuses one is an object, too."""
    if not isinstance(value, dict):
        return "the export is no JSON object"
    if "error" in value:
        said = ": ".join(it for it in (value["error"], value.get("reason")) if isinstance(it, str))
        return f"no export: RabbitMQ said {quoted(said)}"
    parts = ("queues", "exchanges", "bindings")
    if not any(name in value for name in parts):
        return f"no export: it has none of {', '.join(map(quoted, parts))}"
    return None


class Conversion:
    """What is being made of an export, and what was changed so far."""

    def __init__(self, export, vhost=None, stays=frozenset()):
        why = no_export(export)
        if why:
            raise NoFile(why)
        self.export = export
        self.stays = stays  # exchanges that stay in RabbitMQ
        self.changes = []
        self.of_policies = {}  # by policy and setting that is left out: the queues that it matched, each with its dead-letter exchange
        self.lists = {name: self._entries(name) for name in ENTRIES}
        self.vhost = self._choose_vhost(vhost)
        self.policies = read_policies(self._of_vhost("policies"), self._of_vhost("parameters"), self._tell_unreadable)
        self.says_internal = self._says_internal()
        self.said = {name: self._first_of(name) for name in ("exchanges", "queues")}  # as RabbitMQ has them, by name
        self.sources = self._sources()
        self.alternates = {it["name"] for it in [*self.said["exchanges"].values(), *({"name": it} for it in PREDECLARED)] if self._has_alternate(it)}

    def tell(self, number, entry, what, kinds, meaning=None, weight=REST, grew=None, kind=None, of=()):
        self.changes.append(Change(number, entry, what, still.kinds_of(kinds), meaning, weight, grew, kind, tuple(of)))

    def told(self):
        """The changes in the order in which they are told: those of meaning last, the gravest of them first."""
        return sorted(self.changes, key=lambda it: (it.meaning is not None, it.weight if it.meaning else 0))

    # ---- what stands in the export

    def _entries(self, name):
        entries = self.export.get(name)
        if not isinstance(entries, list):
            meaning = "nobody may log in" if name == "users" else None
            self.tell(2, "file", f"member {quoted(name)} is missing, or is no array: an empty one is added", kind_of_list(name), meaning, RIGHTS)
            return []
        for place, it in enumerate(entries):
            if not isinstance(it, dict):
                self.tell(2, f"{name[:-1]} {place + 1}", "is no object: left out", kind_of_list(name), "it is not there", LOST)
        return [it for it in entries if isinstance(it, dict)]

    def _choose_vhost(self, wanted):
        names = [it["name"] for it in self.lists["vhosts"] if isinstance(it.get("name"), str)]
        named = [it for name in ENTRIES for it in self.lists[name]] + self._array("policies") + self._array("parameters")
        names += [it["vhost"] for it in named if isinstance(it.get("vhost"), str)]
        names = list(dict.fromkeys(names))
        if wanted is None:
            wanted = "/" if "/" in names or not names else names[0]
            if wanted != "/" and len(names) > 1:
                raise NoFile(f"it has the virtual hosts {', '.join(map(quoted, names))}: choose one by --vhost")
        elif names and wanted not in names:
            raise NoFile(f"it has no virtual host {quoted(wanted)}")
        if not self.lists["vhosts"]:
            self.tell(3, "file", "no virtual host is listed: \"/\" is added", still.ELSEWHERE)
        elif wanted != "/":
            self.tell(3, f"vhost {quoted(wanted)}", "is now called \"/\"", still.ELSEWHERE, "clients connect to \"/\"")
        for name in names:
            if name != wanted:
                self.tell(3, f"vhost {quoted(name)}", "left out, with all that is in it", still.ELSEWHERE, "it is not there", LOST)
        return wanted

    def _says_internal(self):
        """Whether some exchange says whether it is internal. What rabbitmqctl writes says it of none, and lacks each that is."""
        here = [it for it in self.lists["exchanges"] if it.get("vhost", self.vhost) == self.vhost]
        by_control = "rabbitmq_version" in self.export and "product_name" not in self.export
        if any("internal" in it for it in here) or not here and not by_control:
            return True
        lacks = "no exchange says whether it is internal, as in an export of rabbitmqctl, which also lacks each internal exchange"
        what = f"{lacks}: take that of the management interface (GET /api/definitions)"
        self.changes.insert(0, Change(2, "file", what, (still.ABSENT,), kind=SOURCE))
        if here:
            self.tell(2, "file", f"{len(here)} exchanges are now not internal", still.RIGHTS, "clients may publish to each, though it may have been internal", RIGHTS)
        return False

    def _tell_unreadable(self, called):
        self.tell(7, called, "left out: its pattern or its settings cannot be read", still.UNKNOWN, "its settings are not there", LOST)

    def _array(self, name):
        entries = self.export.get(name)
        return [it for it in entries if isinstance(it, dict)] if isinstance(entries, list) else []

    # ---- what leads where in RabbitMQ, whatever warren has of it

    def _sources(self):
        """The exchanges that are bound to each exchange and queue, as ("exchange" or "queue", name)."""
        found = defaultdict(set)
        for it in self._of_vhost("bindings"):
            source, kind, name = (it.get(member) for member in ("source", "destination_type", "destination"))
            if all(isinstance(text, str) for text in (source, kind, name)):
                found[kind, name].add(source)
        return found

    def _first_of(self, list_name):
        found = {}
        for it in self._of_vhost(list_name):
            if isinstance(it.get("name"), str):
                found.setdefault(it["name"], it)
        return found

    def _has_alternate(self, exchange):
        own = exchange.get("arguments")
        own = own if isinstance(own, dict) else {}
        return "alternate-exchange" in own or "alternate-exchange" in self.policies.settings_of(exchange["name"], EXCHANGES)

    def goes(self, them):
        """The kinds of a change by which these queues or exchanges stay that go in RabbitMQ."""
        unmatched = any(self.sources[it] & self.alternates for it in them)
        return (still.GOES, still.GOES_UNMATCHED) if unmatched else (still.GOES,)

    def dead_letters(self, queue):
        """The dead-letter exchange of an entry of the export and its key, by its own arguments or by a policy; or nothing."""
        own = queue.get("arguments")
        own = own if isinstance(own, dict) else {}
        settings = self.policies.settings_of(queue["name"], matched_by_type(queue, own))
        exchange, key = (own.get(f"x-{it}", settings[it].value if it in settings else None) for it in ("dead-letter-exchange", "dead-letter-routing-key"))
        return None if exchange is None else (exchange, key)

    def _may_go_on(self, name):
        """Whether RabbitMQ may send a message of queue `name` on as a dead letter."""
        queue = self.said["queues"].get(name)
        return queue is None or not isinstance(queue.get("arguments"), dict) or self.dead_letters(queue) is not None

    def kind_of_absent(self, exchange):
        """The kind of a change by which an alternate exchange or a dead-letter exchange is left out that is not in the file."""
        if exchange in self.stays:
            return still.ABSENT
        there = not isinstance(exchange, str) or exchange == "" or exchange.startswith(ITS_OWN) or not self.says_internal
        return still.WAY if there or exchange in self.said["exchanges"] else still.ABSENT

    def _of_vhost(self, name):
        """The entries of the chosen virtual host that have one, quietly."""
        return [it for it in self._array(name) if it.get("vhost", self.vhost) == self.vhost]

    def _here(self, name):
        """The entries of the chosen virtual host, each with how it is called."""
        kept = []
        for place, it in enumerate(self.lists[name]):
            called = name_of(name[:-1], it, place)
            if "vhost" in it and it["vhost"] != self.vhost:
                self.tell(3, called, f"left out: it is of the virtual host {quoted(it['vhost'])}", still.ELSEWHERE)
                continue
            if "vhost" not in it:
                self.tell(2, called, "member \"vhost\" is missing: \"/\" is added", still.ELSEWHERE)
            kept.append((called, it))
        return kept

    def _once(self, name, entries):
        """The entries whose names are texts that did not come before."""
        kept, seen = [], set()
        for called, it in entries:
            if not isinstance(it.get("name"), str):
                self.tell(2, called, "left out: it has no name that is a text", kind_of_list(name), "it is not there", LOST)
            elif it["name"] in seen:
                self.tell(4, called, "left out: one of this name came before", kind_of_list(name))
            else:
                seen.add(it["name"])
                kept.append((called, it))
        return kept

    # ---- parts of entries

    def _truth(self, called, it, name, meaning=None, kinds=still.SAME):
        value = it.get(name)
        if not isinstance(value, bool):
            self.tell(2, called, f"member {quoted(name)} is missing, or no truth value: it is now false", kinds, meaning, RIGHTS)
            return False
        return value

    def _internal(self, called, it):
        if "internal" not in it and not self.says_internal:
            return False
        return self._truth(called, it, "internal", "clients may publish to it, though it may have been internal", still.RIGHTS)

    def _arguments(self, called, it, kinds=still.UNKNOWN):
        arguments = it.get("arguments")
        if not isinstance(arguments, dict):
            self.tell(2, called, "member \"arguments\" is missing, or is no object: now there are none", kinds)
            return {}
        return dict(arguments)

    def _stays(self, called, it, word, meaning):
        goes = self.goes([(word, it["name"])])
        if self._truth(called, it, "auto_delete", kinds=goes):
            of = [("queue", it["name"])] if word == "queue" else ()
            self.tell(7, called, "auto_delete is now false", goes, meaning, kind="auto-delete", of=of)
        return False

    def _durable(self, called, it, word):
        """Returns whether an entry is durable. What is not goes with a restart of RabbitMQ, and its bindings with it."""
        durable = self._truth(called, it, "durable")
        if not durable:
            self.tell(0, called, "is not durable: a restart of RabbitMQ removes it", self.goes([(word, it["name"])]))
        return durable

    def _other_members(self, called, it, members):
        for name in it:
            if name not in members and not (name == "type" and members is QUEUE):
                self.tell(7, called, f"member {quoted(name)} is left out", still.SAME)

    def _settings(self, called, it, matched):
        """What policies set for an entry. That RabbitMQ may have chosen another one is told."""
        for first, other in self.policies.ties_of(it["name"], matched):
            self.tell(7, called, f"{first} and {other} match it with one priority: the first is taken", still.UNKNOWN, "RabbitMQ may have taken the other")
        return self.policies.settings_of(it["name"], matched)

    def _with_policies(self, called, settings, arguments, known, prefix):
        """Adds to the arguments what the policies that match an entry set and warren has."""
        for setting, (value, policy) in settings.items():
            argument = prefix + setting
            if setting not in known:
                continue
            own = arguments.get(argument)
            least = value if own is None else lesser(own, value)
            if least is not None and least != own:
                arguments[argument] = least
                self.tell(7, called, f"{argument} {quoted_value(least)} is added, from {policy}", still.SAME)

    # ---- users

    def users(self):
        permitted = {}
        for called, it in self._here("permissions"):
            if all(isinstance(it.get(name), str) for name in ("user", *PERMISSION)):
                permitted.setdefault(it["user"], []).append(it)
            else:
                self.tell(2, called, "left out: a member is missing or no text", still.RIGHTS)
        kept = [it for called, it in self._once("users", [(name_of("user", it, place), it) for place, it in enumerate(self.lists["users"])]) if self._is_kept(called, it, permitted)]
        names = [it["name"] for it in kept]
        for user in permitted:
            if user not in names:
                self.tell(12, f"permission {quoted(user)}", "left out: there is no such user here", still.RIGHTS)
        self._tell_topic_permissions(names)
        users = [{name: it[name] for name in ("name", "password_hash", "hashing_algorithm")} | {"tags": it.get("tags", [])} for it in kept]
        return users, [{"user": name, "vhost": "/", **PERMISSION} for name in names]

    def _is_kept(self, called, user, permitted):
        cannot = "this user can no longer log in"
        if any(not isinstance(user.get(name), str) for name in ("password_hash", "hashing_algorithm")):
            self.tell(2, called, "left out: it has no password hash", still.RIGHTS, cannot, RIGHTS)
        elif wrong_name(user["name"]):
            self.tell(9, called, f"left out: {wrong_name(user['name'])}", still.RIGHTS, cannot, RIGHTS)
        elif wrong_hash(user):
            self.tell(13, called, f"left out: its {wrong_hash(user)}", still.RIGHTS, cannot, RIGHTS)
        elif user["name"] not in permitted:
            self.tell(12, called, "left out: it has no permission in this virtual host", still.RIGHTS)
        elif all(permitted[user["name"]][0][name] in NOTHING for name in ("write", "read")):
            self.tell(12, called, "left out: it may neither publish nor consume, and each user of warren may do both", still.RIGHTS, cannot, RIGHTS)
        else:
            self._tell_rights(called, user["name"], permitted[user["name"]])
            if user.get("limits"):
                self.tell(0, called, "its limits are ignored", still.RIGHTS, "it may have any number of connections and channels")
            return True
        return False

    def _tell_rights(self, called, user, rights):
        if len(rights) > 1:
            self.tell(12, called, "its further permissions are left out", still.RIGHTS)
        if user == FROM_ITS_OWN_MACHINE:
            everywhere = "it may log in from everywhere; RabbitMQ lets it in from its own machine alone, if nothing else is set"
            self.tell(0, called, "stays", still.RIGHTS, everywhere, RIGHTS, user)
        before = rights[0]
        if before["configure"] != PERMISSION["configure"]:
            meaning = None if before["configure"] in NOTHING else "it may declare, bind and delete nothing"
            self.tell(12, called, f"configure {quoted(before['configure'])} is now \"^$\"", still.RIGHTS, meaning, RIGHTS)
        for name, where in (("write", "publish to each exchange"), ("read", "consume from each queue")):
            if before[name] in EVERYTHING and before[name] != PERMISSION[name]:
                self.tell(12, called, f"{name} {quoted(before[name])} is now \".*\"", still.RIGHTS)
            elif before[name] != PERMISSION[name]:
                self.tell(12, called, f"{name} {quoted(before[name])} is now \".*\"", still.RIGHTS, f"it may {where}", RIGHTS, user)

    def _tell_topic_permissions(self, kept):
        for it in self._array("topic_permissions"):
            meaning, grew = None, None
            if it.get("vhost", self.vhost) == self.vhost and it.get("user") in kept:
                meaning, grew = "this user may publish and consume under every key", it["user"]
            self.tell(7, f"topic permission {quoted(it.get('user'))}", "left out", still.RIGHTS, meaning, RIGHTS, grew)

    # ---- exchanges

    def exchanges(self):
        kept = []
        for called, it in self._once("exchanges", self._here("exchanges")):
            kind = self._type(called, it)
            wrong = wrong_name(it["name"])
            if wrong:
                self.tell(9, called, f"left out: {wrong}", still.ABSENT, "it is not there", LOST)
            elif kind:
                kept.append(self._exchange(called, it, kind))
        return kept

    def _type(self, called, it):
        kind = it.get("type")
        arguments = it.get("arguments")
        delayed = arguments.get("x-delayed-type") if isinstance(arguments, dict) else None
        if kind in TYPES:
            return kind
        if kind == "x-delayed-message" and delayed in TYPES:
            self.tell(6, called, f"type \"x-delayed-message\" is now {quoted(delayed)}", still.DELAY, "messages are no longer delayed", kind="delay", of=[("exchange", it["name"])])
            return delayed
        self.tell(6, called, f"left out: its type is {quoted(kind)}", still.ABSENT, "it is not there, nor what it was bound to by this exchange", LOST)
        return None

    def _exchange(self, called, it, kind):
        arguments = self._arguments(called, it)
        settings = self._settings(called, it, EXCHANGES)
        self._with_policies(called, settings, arguments, ("alternate-exchange",), "")
        self._other_members(called, it, EXCHANGE)
        kept = {}
        for name, value in arguments.items():
            if name in EXCHANGE_ARGUMENTS and isinstance(value, str):
                kept[name] = value
            elif name in EXCHANGE_ARGUMENTS:
                self.tell(2, called, f"argument {quoted(name)} is left out: it is no text", still.UNKNOWN, "what it did is not done", LOST, kind="routes")
            else:
                meaning, kinds = (None, still.SAME) if name == "x-delayed-type" else ("what it did is not done", still.UNKNOWN)
                self.tell(7, called, f"argument {quoted(name)} is left out", kinds, meaning, kind=name, of=[("exchange", it["name"])])
        return {
            "name": it["name"],
            "vhost": "/",
            "type": kind,
            "durable": self._durable(called, it, "exchange"),
            "auto_delete": self._stays(called, it, "exchange", "it is no longer deleted with its last binding"),
            "internal": self._internal(called, it),
            "arguments": kept,
        }

    # ---- queues

    def queues(self):
        kept = []
        for called, it in self._once("queues", self._here("queues")):
            wrong = f"its name {wrong_pattern(it['name'])}" if wrong_pattern(it["name"]) else None if it["name"] else "it has no name"
            if wrong:
                kinds = still.WAY if self._may_go_on(it["name"]) else still.ABSENT
                self.tell(9, called, f"left out: {wrong}", kinds, "it is not there", LOST, kind=CANNOT, of=[("queue", it["name"])])
            else:
                kept.append(self._queue(called, it))
        return kept

    def _queue(self, called, it):
        arguments = self._arguments(called, it)
        if "type" in it:
            meaning = None if "x-queue-type" in arguments else self._type_meaning(it["type"])
            what = f"member \"type\" {quoted_value(it['type'])} is left out"
            self.tell(7, called, what, still.of_type(it["type"]), meaning, LOST, kind=kind_of_type(it["type"]), of=[("queue", it["name"])])
        known = [name for name in OF_QUEUES if f"x-{name}" in QUEUE_ARGUMENTS]
        settings = self._settings(called, it, matched_by_type(it, arguments))
        self._with_policies(called, settings, arguments, known, "x-")
        for setting, (value, policy) in settings.items():
            if setting in OF_QUEUES and setting not in known:
                self.of_policies.setdefault((policy, setting, quoted_value(value)), {})[it["name"]] = arguments.get("x-dead-letter-exchange")
        self._other_members(called, it, QUEUE)
        return {
            "name": it["name"],
            "vhost": "/",
            "durable": self._durable(called, it, "queue"),
            "auto_delete": self._stays(called, it, "queue", "it is no longer deleted with its last consumer, and keeps its messages"),
            "arguments": self._queue_arguments(called, arguments, [("queue", it["name"])]),
        }

    def _queue_arguments(self, called, arguments, of):
        kept = {}
        for name, value in arguments.items():
            if name in QUEUE_ARGUMENTS and is_of(value, QUEUE_ARGUMENTS[name]):
                kept[name] = value
            elif name in LENGTH_LIMITS and type(value) is int and value > MOST_NUMBER:
                kept[name] = MOST_NUMBER
                self.tell(2, called, f"{name} {value} is now {MOST_NUMBER}", still.REFUSED, "the limit is lower", kind="limit", of=of)
            elif name in QUEUE_ARGUMENTS:
                self.tell(2, called, f"argument {quoted(name)} is left out: it is of the wrong kind", still.UNKNOWN, "what it did is not done", LOST, kind=name, of=of)
            else:
                self._leave_out(called, name, value, arguments.get("x-dead-letter-exchange"), of)
        self._mend_overflow(called, kept, of)
        self._mend_dead_letters(called, kept, of)
        return kept

    def _type_meaning(self, kind):
        return TYPE_LEFT_OUT.get(kind, "the queue is like any other") if isinstance(kind, str) else None

    def _leave_out(self, called, name, value, dead, of):
        meaning, weight = LEFT_OUT.get(name, "what it did is not done"), LOST if name in LOSES else REST
        if name == "x-queue-type":
            meaning = self._type_meaning(value)
        elif name == "x-queue-mode" and value != "lazy" or name == "x-dead-letter-strategy" and value != "at-least-once":
            meaning = None
        elif name in GOES_ON and dead is not None:
            meaning, weight = f"{meaning}, so {nothing_goes_on(dead)}", LOST
        kind = kind_of_type(value) if name == "x-queue-type" else KINDS.get(name, name)
        kinds = self._with_goes(still.of_argument(name, value), of)
        self.tell(7, called, f"argument {quoted(name)} {quoted_value(value)} is left out", kinds, meaning, weight, kind=kind, of=of)

    def _with_goes(self, kind, of):
        return self.goes(of) if kind is still.GOES else (kind,)

    def _mend_overflow(self, called, kept, of):
        limited = any(limit in kept for limit in LENGTH_LIMITS)
        overflow, dead = kept.get("x-overflow"), kept.get("x-dead-letter-exchange")
        no_more = f"; {nothing_goes_on(dead)}" if dead is not None else ""
        if overflow not in (None, "reject-publish"):
            refuses = f"a full queue refuses what comes and keeps what it has{no_more}"
            if overflow == "reject-publish-dlx":
                refuses = "what a full queue refuses makes no dead letter"
            self.tell(7, called, f"x-overflow {quoted(overflow)} is now \"reject-publish\"", still.of_overflow(overflow), refuses if limited else None, LOST, kind=overflow, of=of)
            kept["x-overflow"] = "reject-publish"
        elif overflow is None and limited:
            meaning = f"a full queue refuses what comes and keeps what it has; RabbitMQ drops the oldest{no_more}"
            self.tell(8, called, "x-overflow \"reject-publish\" is added", still.DROPPED, meaning, LOST, kind="drop-head", of=of)
            kept["x-overflow"] = "reject-publish"

    def _mend_dead_letters(self, called, kept, of):
        key = kept.get("x-dead-letter-routing-key")
        if key is None:
            return
        if "x-dead-letter-exchange" not in kept:
            self.tell(7, called, "x-dead-letter-routing-key is left out: there is no x-dead-letter-exchange", still.SAME)
            del kept["x-dead-letter-routing-key"]
        elif wrong_pattern(key):
            what = f"its dead letters are left out: their key {wrong_pattern(key)}"
            self.tell(9, called, what, still.WAY, "what is rejected is gone", LOST, kind="dead letters", of=of)
            del kept["x-dead-letter-routing-key"], kept["x-dead-letter-exchange"]

    # ---- what names an exchange or a queue

    def with_predeclared(self, exchanges, queues):
        """The exchanges, with those that every virtual host has where something names them."""
        names = {it["name"] for it in exchanges}
        wanted = [it.get("source") for _, it in self._quietly("bindings")]
        wanted += [it.get("destination") for _, it in self._quietly("bindings") if it.get("destination_type") == "exchange"]
        wanted += [it["arguments"].get("alternate-exchange") for it in exchanges]
        wanted += [it["arguments"].get("x-dead-letter-exchange") for it in queues]
        added = []
        for name, kind in PREDECLARED.items():
            if name in wanted and name not in names:
                called, arguments = f"exchange {quoted(name)}", {}
                self.tell(5, called, "is added: RabbitMQ has it, and no export lists it", still.SAME)
                self._with_policies(called, self._settings(called, {"name": name}, EXCHANGES), arguments, EXCHANGE_ARGUMENTS, "")
                arguments = {name: it for name, it in arguments.items() if isinstance(it, str)}
                added.append({"name": name, "vhost": "/", "type": kind, "durable": True, "auto_delete": False, "internal": False, "arguments": arguments})
        return exchanges + added

    def _quietly(self, name):
        return [(None, it) for it in self.lists[name] if it.get("vhost", self.vhost) == self.vhost]

    def drop_absent(self, exchanges, queues):
        """Takes out alternate and dead-letter exchanges that are not there."""
        names = {it["name"] for it in exchanges}
        for it in exchanges:
            other = it["arguments"].get("alternate-exchange")
            if other is not None and other not in names:
                del it["arguments"]["alternate-exchange"]
                what = f"its alternate exchange {quoted(other)} is left out: {self._where(other)}"
                self.tell(11, f"exchange {quoted(it['name'])}", what, self.kind_of_absent(other), "what no binding takes is gone", LOST)
        for it in queues:
            dead = it["arguments"].get("x-dead-letter-exchange")
            if dead and dead not in names:
                del it["arguments"]["x-dead-letter-exchange"]
                it["arguments"].pop("x-dead-letter-routing-key", None)
                what = f"its dead-letter exchange {quoted(dead)} is left out: {self._where(dead)}"
                self.tell(11, f"queue {quoted(it['name'])}", what, self.kind_of_absent(dead), "what is rejected is gone", LOST, kind="dead letters", of=[("queue", it["name"])])

    def _where(self, exchange):
        return "it stays in RabbitMQ" if exchange in self.stays else "it is not there"

    def bindings(self, exchanges, queues):
        there = {it["name"]: it for it in exchanges}
        names = {it["name"] for it in queues}
        kept = []
        for called, it in self._here("bindings"):
            wrong = self._against_binding(it, there, names)
            if wrong:
                number, what, meaning = wrong
                to = [(it["destination_type"], it["destination"])] if isinstance(it.get("destination"), str) else ()
                kinds = self._kinds_of_binding(it, there, names) if meaning else still.SAME
                self.tell(number, called, f"left out: {what}", kinds, meaning, LOST, kind="routes", of=to)
                continue
            for name in self._arguments(called, it, still.SAME):
                self.tell(7, called, f"argument {quoted(name)} is left out", still.SAME)
            self._other_members(called, it, BINDING)
            kept.append({name: it[name] for name in BINDING if name not in ("vhost", "arguments")} | {"vhost": "/", "arguments": {}})
        return kept

    def _kinds_of_binding(self, it, exchanges, queues):
        """The kinds of a change by which a binding is left out that RabbitMQ has."""
        source, kind, name = (it.get(member) for member in ("source", "destination_type", "destination"))
        if not all(isinstance(text, str) for text in (source, name, it.get("routing_key"))) or kind not in ("queue", "exchange"):
            return (still.UNKNOWN,)
        if source not in exchanges and source not in ("", TRACE):
            return (still.ABSENT,)
        ends = kind == "queue" and name not in queues and not self._may_go_on(name)
        kinds = [still.ABSENT if ends else still.WAY]
        if "alternate-exchange" in exchanges.get(source, {"arguments": {}})["arguments"]:
            kinds.append(still.UNMATCHED)
        return tuple(kinds)

    def _against_binding(self, it, types, queues):
        """Why a binding has to be left out: the cause, the text, and what is no longer as it was."""
        lost = "it no longer leads there"
        for name in ("source", "destination", "destination_type", "routing_key"):
            if not isinstance(it.get(name), str):
                return 2, f"its member {quoted(name)} is missing or no text", lost
        if it["source"] == "":
            as_named = it["destination_type"] == "queue" and it["routing_key"] == it["destination"]
            return 5, "the default exchange leads to each queue by its name anyway", None if as_named else lost
        if it["source"] not in types:
            return 5, f"exchange {quoted(it['source'])} is not there", lost
        if it["destination_type"] not in ("queue", "exchange"):
            return 7, f"its destination_type is {quoted(it['destination_type'])}", lost
        if it["destination"] not in (queues if it["destination_type"] == "queue" else types):
            return 5, f"{it['destination_type']} {quoted(it['destination'])} is not there", lost
        if wrong_pattern(it["routing_key"]):
            return 9, f"its key {wrong_pattern(it['routing_key'])}", lost
        return None

    # ---- the rest

    def _tell_left_by_policies(self):
        """What a policy sets for queues and warren has not, said once, with the queues."""
        for (policy, setting, value), queues in self.of_policies.items():
            argument = f"x-{setting}"
            meaning = LEFT_OUT.get(argument, "what it did is not done")
            if setting == "queue-mode" and value != '"lazy"' or setting == "dead-letter-strategy" and value != '"at-least-once"':
                meaning = None
            ended = [name for name, dead in queues.items() if dead is not None] if argument in GOES_ON else []
            weight = LOST if ended or argument in LOSES else REST
            if ended:
                meaning += f", so nothing goes on any more from {named(ended)} to a dead-letter exchange but what is rejected"
            of = [("queue", name) for name in queues]
            kinds = self._with_goes(still.of_setting(setting), of)
            self.tell(7, policy, f"{setting} {value} is left out, of {named(queues)}", kinds, meaning, weight, kind=KINDS.get(argument, argument), of=of)

    def tell_rest(self):
        self._tell_left_by_policies()
        for policy in self.policies:
            others = [name for name in policy.settings if name not in OF_QUEUES and name != "alternate-exchange"]
            also = f", but not {', '.join(others)}" if others else ""
            what = f"left out: its settings are copied to each queue and exchange that it matches{also}"
            self.tell(7, policy.called, what, [still.of_setting(name) for name in others] or still.SAME, "those settings do nothing" if others else None)
        for it in self._array("parameters"):
            if it.get("component") == OPERATOR_POLICY:
                continue
            here = it.get("vhost", self.vhost) == self.vhost
            kind = still.of_component(it.get("component"))
            kinds = still.ELSEWHERE if not here and kind is still.UNKNOWN else kind
            self.tell(7, f"parameter {quoted(it.get('name'))}", f"of {quoted(it.get('component'))}: left out", kinds, "what it did is not done" if here else None)
        for name in EMPTY_ARRAYS:
            if name in self.export and not isinstance(self.export[name], list):
                self.tell(2, "file", f"member {quoted(name)} is no array: it is left out", kind_of_list(name))
            elif not all(isinstance(it, dict) for it in self.export.get(name, [])):
                self.tell(2, "file", f"of member {quoted(name)} what is no object is left out", kind_of_list(name))


# lists of an export that say nothing of where a message goes
OF_RIGHTS = ("vhosts", "users", "permissions", "topic_permissions")


def kind_of_list(name):
    """The kind of a change by which an entry of the list `name` is left out, whatever it said."""
    return still.RIGHTS if name in OF_RIGHTS else still.UNKNOWN


# arguments by which a message goes on to the dead-letter exchange, without a rejection
GOES_ON = ("x-message-ttl", "x-delivery-limit")


def nothing_goes_on(dead):
    return f"nothing goes on to {quoted(dead) if dead else 'the default exchange'} any more but what is rejected"


def kind_of_type(kind):
    return kind if kind in ("quorum", "stream") else "type"


def named(names, word="queue"):
    """The names behind `word`, at most so many of them."""
    names = list(names)
    others = f" and {len(names) - MOST_NAMED} more" if len(names) > MOST_NAMED else ""
    return f"{word}{'s' * (len(names) != 1)} " + ", ".join(map(quoted, names[:MOST_NAMED])) + others


def quoted_value(value):
    return quoted(value) if isinstance(value, str) else str(value) if isinstance(value, (bool, int, float)) else "?"


def convert(export, vhost=None, stays=frozenset()):
    """The definitions that warren is to take, and the changes that lead there. What is named in `stays` are exchanges that are in no export."""
    work = Conversion(export, vhost, stays)
    users, permissions = work.users()
    queues = work.queues()
    exchanges = work.with_predeclared(work.exchanges(), queues)
    work.drop_absent(exchanges, queues)
    bindings = work.bindings(exchanges, queues)
    work.tell_rest()
    made = {"vhosts": [{"name": "/"}], "users": users, "permissions": permissions, "exchanges": exchanges, "queues": queues, "bindings": bindings}
    return made, work.told()
