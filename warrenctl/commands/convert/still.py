"""What a `yes` of `warren check` still says of a RabbitMQ that stays, by what was left out or changed of its export.

A `yes` is of the file that was made. Each kind of change says whether a `never` and a `reaches` of that file hold in RabbitMQ too. A change may be of
several kinds. docs/RABBITMQ.md has this table.
"""

from collections import namedtuple

# what becomes of a guarantee; a `reaches` may hold of a message that goes again without a consumer's doing
HOLDS, ENTERED, MAY_BREAK = range(3)
TOLD = ("holds", "says entered, not kept", "may break")

# what: what is left out or changed; never, reaches: what becomes of such a guarantee; why
Kind = namedtuple("Kind", "what never reaches why")

RIGHTS = Kind("users, permissions, limits of users and virtual hosts", HOLDS, HOLDS, "a guarantee is of each message that is taken, whoever sends it")
ELSEWHERE = Kind("another virtual host, and the name of this one", HOLDS, HOLDS, "nothing is routed from one virtual host to another")
SAME = Kind("what the file has by another entry, or what routes nothing: copied policies, arguments of bindings", HOLDS, HOLDS, "messages go the same ways")
STORED = Kind("lazy queues, versions, leaders and mirrors of queues", HOLDS, HOLDS, "it says where messages are kept, not which")
TURNS = Kind("priorities, a single active consumer, a consumer's time", HOLDS, HOLDS, "it says who gets a message, and when")
REFUSED = Kind("a limit over 4294967295, `reject-publish-dlx`", HOLDS, HOLDS, "what a full queue refuses is nacked, and goes at most where a rejected message goes")
STREAM = Kind("streams", HOLDS, HOLDS, "a stream gives messages out again, and rejects none")
ABSENT = Kind("an exchange of another type, a name that warren refuses", HOLDS, HOLDS, "no guarantee can be of it; what leads to it is marked for itself")
EXPIRY = Kind("`x-message-ttl`, `x-max-age`", HOLDS, ENTERED, "what expires is gone, or goes where a rejected message goes")
DROPPED = Kind("`drop-head`, which is RabbitMQ's default for a limit", HOLDS, ENTERED, "the oldest is gone, or goes where a rejected message goes")
GIVEN_UP = Kind("quorum queues, `x-delivery-limit`", HOLDS, ENTERED, "what was given out too often is gone, or goes where a rejected message goes")
WAY = Kind("a binding, an alternate exchange or a dead-letter exchange that is left out", MAY_BREAK, HOLDS, "in RabbitMQ a message goes a way that the file does not have")
UNMATCHED = Kind("a binding that is left out, of an exchange with an alternate exchange", HOLDS, MAY_BREAK, "what it takes goes to the alternate exchange in the file alone")
GOES = Kind("`auto_delete`, `x-expires`, `durable` false", HOLDS, MAY_BREAK, "once it is gone, no binding leads to it")
GOES_UNMATCHED = Kind("the same, bound to an exchange with an alternate exchange", MAY_BREAK, HOLDS, "once it is gone, what it got goes to the alternate exchange")
DELAY = Kind("a delayed exchange", MAY_BREAK, MAY_BREAK, "a message enters later than its ack, by a plugin that was not tried")
MOVER = Kind("shovels, federation", MAY_BREAK, ENTERED, "it takes messages out of queues, and publishes them elsewhere")
UNKNOWN = Kind("arguments, settings and parameters that are not known here, or cannot be read", MAY_BREAK, MAY_BREAK, "a plugin may go by it")

KINDS = (RIGHTS, ELSEWHERE, SAME, STORED, TURNS, REFUSED, STREAM, ABSENT, EXPIRY, DROPPED, GIVEN_UP, WAY, UNMATCHED, GOES, GOES_UNMATCHED, DELAY, MOVER, UNKNOWN)

ARGUMENTS = {
    "x-message-ttl": EXPIRY,
    "x-max-age": EXPIRY,
    "x-expires": GOES,
    "x-delivery-limit": GIVEN_UP,
    "x-max-priority": TURNS,
    "x-single-active-consumer": TURNS,
    "x-consumer-timeout": TURNS,
    "x-dead-letter-strategy": SAME,
    "x-queue-mode": STORED,
    "x-queue-version": STORED,
    "x-queue-master-locator": STORED,
    "x-queue-leader-locator": STORED,
    "x-quorum-initial-group-size": STORED,
    "x-initial-cluster-size": STORED,
    "x-max-in-memory-length": STORED,
    "x-max-in-memory-bytes": STORED,
    "x-stream-max-segment-size-bytes": STORED,
}
# settings of policies that are no arguments
SETTINGS = {
    **dict.fromkeys(("ha-mode", "ha-params", "ha-sync-mode", "ha-sync-batch-size", "ha-promote-on-shutdown", "ha-promote-on-failure"), STORED),
    **dict.fromkeys(("target-group-size", "queue-leader-locator", "queue-master-locator"), STORED),
    **dict.fromkeys(("federation-upstream", "federation-upstream-set", "federation-upstream-pattern"), MOVER),
}
TYPES = {"classic": SAME, "quorum": GIVEN_UP, "stream": STREAM}
OVERFLOWS = {"drop-head": DROPPED, "reject-publish-dlx": REFUSED}
COMPONENTS = {"vhost-limits": RIGHTS, "shovel": MOVER, "federation": MOVER, "federation-upstream": MOVER, "federation-upstream-set": MOVER}


def _of(table, name):
    return table.get(name, UNKNOWN) if isinstance(name, str) else UNKNOWN


def of_argument(name, value):
    """The kind of an argument of a queue that is left out."""
    return of_type(value) if name == "x-queue-type" else _of(ARGUMENTS, name)


def of_setting(name):
    """The kind of a setting of a policy that is left out."""
    return SETTINGS.get(name) or _of(ARGUMENTS, f"x-{name}")


def of_type(kind):
    return _of(TYPES, kind)


def of_overflow(value):
    return _of(OVERFLOWS, value)


def of_component(name):
    """The kind of a parameter, by its component. One that moves messages may reach into any virtual host."""
    return _of(COMPONENTS, name)


def kinds_of(kinds):
    """One kind or several of them, as a tuple."""
    return (kinds,) if isinstance(kinds, Kind) else tuple(kinds)


def never_of(kinds):
    return max(it.never for it in kinds)


def reaches_of(kinds):
    return max(it.reaches for it in kinds)


def may_break(kinds):
    """Returns whether a change of these kinds may break a `yes`."""
    return MAY_BREAK in (never_of(kinds), reaches_of(kinds))


def told(kinds):
    """What becomes of a `yes` by a change of these kinds, and why; nothing if all of it holds."""
    said = [f"`{mode}` {TOLD[of]}" for mode, of in (("never", never_of(kinds)), ("reaches", reaches_of(kinds))) if of != HOLDS]
    why = dict.fromkeys(it.why for it in kinds if (it.never, it.reaches) != (HOLDS, HOLDS))
    return f"{', '.join(said)}: {'; '.join(why)}" if said else ""
