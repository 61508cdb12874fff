"""Changes of a topology in one place, made on purpose: that they are seen shows that a comparison would see such a fault of warren."""

import copy


def _without(definitions, entries, place):
    changed = copy.deepcopy(definitions)
    del changed[entries][place]
    return changed


def _with_arguments(chance, definitions, entries, argument, changed_value):
    """A copy in which one entry that has this argument has another value for it, or none; nothing if no entry has it."""
    places = [place for place, it in enumerate(definitions[entries]) if argument in it["arguments"]]
    if not places:
        return None
    changed = copy.deepcopy(definitions)
    changed_value(changed[entries][chance.choice(places)]["arguments"])
    return changed


def binding(chance, definitions):
    """One binding is left out."""
    count = len(definitions["bindings"])
    return _without(definitions, "bindings", chance.randrange(count)) if count else None


def alternate(chance, definitions):
    """One alternate exchange is left out."""
    return _with_arguments(chance, definitions, "exchanges", "alternate-exchange", lambda it: it.pop("alternate-exchange"))


def dead_letters(chance, definitions):
    """The dead letters of one queue are left out."""

    def without(arguments):
        arguments.pop("x-dead-letter-exchange")
        arguments.pop("x-dead-letter-routing-key", None)

    return _with_arguments(chance, definitions, "queues", "x-dead-letter-exchange", without)


def dead_letter_key(chance, definitions):
    """The dead letters of one queue keep their keys."""
    return _with_arguments(chance, definitions, "queues", "x-dead-letter-routing-key", lambda it: it.pop("x-dead-letter-routing-key"))


def limit(chance, definitions):
    """One queue takes one message more."""
    return _with_arguments(chance, definitions, "queues", "x-max-length", lambda it: it.update({"x-max-length": it["x-max-length"] + 1}))


def limit_of_bytes(chance, definitions):
    """One queue takes as many bytes more as a message has at most."""
    return _with_arguments(chance, definitions, "queues", "x-max-length-bytes", lambda it: it.update({"x-max-length-bytes": it["x-max-length-bytes"] + 50}))


CHANGES = {
    "binding": binding,
    "alternate exchange": alternate,
    "dead-letter exchange": dead_letters,
    "dead-letter key": dead_letter_key,
    "limit": limit,
    "limit of bytes": limit_of_bytes,
}
