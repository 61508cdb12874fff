"""The policies and operator policies of an export, and what they set for a queue or an exchange.

RabbitMQ applies to each queue one policy and one operator policy, of those that match it the one of highest priority each. If both set a
number, the lesser one holds; of other settings the operator's.
"""

import re
import warnings
from collections import namedtuple

from warrenctl.files.causes import is_of, quoted

OPERATOR_POLICY = "operator_policy"

# settings of policies that are arguments of queues
OF_QUEUES = ("message-ttl", "expires", "max-length", "max-length-bytes", "overflow", "dead-letter-exchange", "dead-letter-routing-key")
OF_QUEUES += ("delivery-limit", "queue-mode", "queue-version", "dead-letter-strategy", "max-age")
# to what a policy applies, by the type of a queue; of a queue without a type, classic
APPLIES_TO_QUEUES = {"classic": "classic_queues", "quorum": "quorum_queues", "stream": "streams"}
# settings that a type of queues has not: a policy with one of them is of no such queue, and another policy takes its place (RabbitMQ 3.10.8)
OF_MIRRORS = ("ha-mode", "ha-params", "ha-sync-mode", "ha-promote-on-shutdown", "ha-promote-on-failure", "queue-master-locator")
OF_STREAMS = ("max-age", "stream-max-segment-size-bytes", "initial-cluster-size")
LACKS = {
    "classic": {*OF_STREAMS, "queue-leader-locator", "delivery-limit", "dead-letter-strategy"},
    "quorum": {*OF_STREAMS, *OF_MIRRORS, "max-priority", "queue-mode", "single-active-consumer"},
    "stream": {
        *OF_MIRRORS,
        *("expires", "message-ttl", "dead-letter-exchange", "dead-letter-routing-key", "max-length", "max-in-memory-length", "max-in-memory-bytes"),
        *("max-priority", "overflow", "queue-mode", "single-active-consumer", "delivery-limit", "dead-letter-strategy"),
    },
}

# called: how it is named in what is told; settings: a value by name
Policy = namedtuple("Policy", "priority called pattern applies settings")
# a value that a policy sets, and how that policy is called
Setting = namedtuple("Setting", "value policy")
# what a policy may match: to what it has to apply, and the settings that it must not have
Matched = namedtuple("Matched", "applies lacks")
EXCHANGES = Matched(("all", "exchanges"), frozenset())


def compiled(pattern):
    """The pattern as RabbitMQ reads it, of bytes. One that RabbitMQ reads otherwise, such as `[[:digit:]]`, is not read."""
    with warnings.catch_warnings():
        warnings.simplefilter("error")
        return re.compile(pattern.encode())


def policy_of(entry, called):
    """The policy that an entry states, or nothing if its pattern or its settings cannot be read."""
    try:
        pattern = compiled(entry["pattern"])
        # rabbitmqctl writes the settings of an operator policy as pairs
        settings = dict(entry["definition"])
    except (KeyError, TypeError, ValueError, AttributeError, Warning, re.error, RecursionError):
        return None
    if not all(isinstance(name, str) for name in settings):
        return None
    priority = entry.get("priority", 0)
    return Policy(priority if isinstance(priority, (int, float)) else 0, called, pattern, entry.get("apply-to", "all"), settings)


def matched_by_type(queue, arguments):
    """What a policy has to be that matches `queue`."""
    kinds = [it for it in (arguments.get("x-queue-type"), queue.get("type"), "classic") if isinstance(it, str)]
    return Matched(("all", "queues", APPLIES_TO_QUEUES.get(kinds[0])), LACKS.get(kinds[0], frozenset()))


def lesser(one, other):
    """The lesser of two numbers, or nothing if one of them is none that a queue can have."""
    return min(one, other) if is_of(one, int) and is_of(other, int) else None


class Policies:
    def __init__(self, policies, operator_policies):
        self._lists = [sorted(them, key=lambda it: -it.priority) for them in (policies, operator_policies)]

    def __iter__(self):
        for them in self._lists:
            yield from them

    @staticmethod
    def _matching(them, name, matched):
        for it in them:
            if it.applies in matched.applies and not matched.lacks & it.settings.keys() and it.pattern.search(name.encode()):
                yield it

    def ties_of(self, name, matched):
        """Two policies of the highest priority that match `name` and are not alike: which of them holds RabbitMQ does not say."""
        for them in self._lists:
            first, *others = list(self._matching(them, name, matched)) or [None]
            for it in others:
                if it.priority == first.priority and it.settings != first.settings:
                    yield first.called, it.called

    def settings_of(self, name, matched):
        """What is set for the queue or exchange `name`: a `Setting` by name."""
        found = {}
        for them in self._lists:
            policy = next(self._matching(them, name, matched), None)
            for setting, value in policy.settings.items() if policy else ():
                before = found.get(setting)
                # the list of operators comes last
                if before is None or lesser(before.value, value) != before.value:
                    found[setting] = Setting(value, policy.called)
        return found


def read_policies(entries, parameters, tell):
    """The policies of an export that are `entries`, and those that operators set as parameters; `tell` takes how one is called that can't be read."""
    lists = []
    for them in (
        [(it, f"policy {quoted(it.get('name'))}") for it in entries],
        [(it.get("value"), f"operator policy {quoted(it.get('name'))}") for it in parameters if it.get("component") == OPERATOR_POLICY],
    ):
        read = [(policy_of(it, called), called) for it, called in them]
        for policy, called in read:
            if policy is None:
                tell(called)
        lists.append([policy for policy, _ in read if policy is not None])
    return Policies(*lists)
