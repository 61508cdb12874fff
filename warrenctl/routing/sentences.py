"""What is said of a guarantee, and of a key that breaks it, in sentences."""

import json

from warrenctl.routing.checker import OWN, by_key


def told(text):
    """A name or a key; one that would not be read as such is a JSON string."""
    return f"`{text}`" if text and text.isprintable() and "`" not in text else json.dumps(text, ensure_ascii=False)


def listed(texts):
    texts = list(texts)
    return texts[0] if len(texts) == 1 else f"{', '.join(texts[:-1])} and {texts[-1]}"


def of(exchange):
    return told(exchange) if exchange else "the default exchange"


def promise(guarantee):
    """The guarantee as a sentence."""
    pattern, exchange, queue = guarantee["pattern"], of(guarantee["exchange"]), told(guarantee["queue"])
    but = f" but {listed(map(told, guarantee['except']))}" if guarantee.get("except") else ""
    if guarantee["mode"] == "reaches":
        what = "everything" if pattern == "#" else f"every {told(pattern)}" if set(pattern.split(".")) & {"*", "#"} else told(pattern) if pattern else "the empty key"
        return f"{what} of {exchange}{but} reaches {queue}"
    under = "" if pattern == "#" else f" under {told(pattern)}" if pattern else " under the empty key"
    return f"nothing{under} of {exchange}{but} reaches {queue}"


def key_told(key):
    return told(key) if key else "the empty key"


def way(topology, key, path):
    """The places of a path of names, each an exchange or a queue with the key that the message has there; or nothing."""
    before, here = [], {("exchange", path[0], OWN)} if path else set()
    for name in path[1:]:
        onward = {it: at for at in sorted(here, key=str) for it in topology.steps(at, by_key(key)) if it[1] == name}
        before.append(onward)
        here = set(onward)
    ends = sorted((it for it in here if it[0] == "queue"), key=str)
    places = ends[:1]
    for onward in reversed(before) if ends else ():
        places.insert(0, onward[places[0]])
    return places


def broken_never(key, places):
    """How a message reaches a queue that none may reach."""
    said, died = f"{key_told(key)} goes from {of(places[0][1])}", False
    for before, (_, name, now) in zip(places, places[1:]):
        if before[0] == "queue":
            renamed = f" as {key_told(now)}" if now is not OWN and now != before[2] else ""
            said += f"; rejected there, it goes on{renamed} to {of(name)}"
        else:
            said += f" and so to {told(name)}" if died else f" to {told(name)}"
        died = before[0] == "queue"
    return said


def broken_reaches(topology, guarantee, key):
    """Where a message goes that does not reach its queue."""
    queues = [name for name in topology.queues if ("queue", name) in topology.routed(guarantee["exchange"], by_key(key))]
    return f"{key_told(key)} goes " + (f"to {listed(map(told, queues))} alone" if queues else "nowhere")


def fault(said):
    """A fault of `warren verify`, as `fault 2 state 3 letter "a"`."""
    words = said.split(" ", 5)
    state, letter = (words + [""] * 6)[3], (words + [""] * 6)[5]
    return {
        "1": "the state of no words is not listed",
        "2": f"from state {state} the word {letter} leads to a state that is not listed",
        "3": f"at state {state} the guarantee covers the key, and the queue is not sure to be reached",
        "4": f"at state {state} the guarantee covers the key, and a message may reach the queue",
        "5": "it has not the form that the guarantee needs, or there is none",
    }.get(words[1], said)


def broken(topology, guarantee, key, path):
    if guarantee["mode"] == "reaches":
        return broken_reaches(topology, guarantee, key)
    return broken_never(key, way(topology, key, path))
