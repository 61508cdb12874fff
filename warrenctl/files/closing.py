"""Definitions whose exchanges are all internal, so that clients can publish to none of them; and back.

A mark says which exchanges were closed so: an internal exchange that is bound to each of them, and to which nothing leads. Its name is of the sum of
the definitions, so a broker that has it has these definitions in force.
"""

import hashlib
import re

from warrenctl.fault import Fault
from warrenctl.files.causes import MOST, quoted

MARK = re.compile(r"closed\.[0-9a-f]{12}")


def mark_of(definitions):
    """Returns the name of the mark, or nothing."""
    return next((it["name"] for it in definitions["exchanges"] if MARK.fullmatch(str(it.get("name")))), None)


def exchange(name):
    return {"name": name, "vhost": "/", "type": "fanout", "durable": True, "auto_delete": False, "internal": True, "arguments": {}}


def binding(mark, name):
    return {"source": mark, "vhost": "/", "destination": name, "destination_type": "exchange", "routing_key": "", "arguments": {}}


def without_mark(definitions, mark):
    """Takes the mark out, and returns the names of the exchanges that it was bound to."""
    bound = [it.get("destination") for it in definitions["bindings"] if it.get("source") == mark]
    definitions["exchanges"] = [it for it in definitions["exchanges"] if it.get("name") != mark]
    definitions["bindings"] = [it for it in definitions["bindings"] if it.get("source") != mark]
    return bound


def check_members(definitions):
    for it in definitions["exchanges"]:
        if not isinstance(it.get("name"), str) or not isinstance(it.get("internal"), bool):
            raise Fault(f"exchange {quoted(it.get('name'))} has no name or no member \"internal\"; `warrenctl why` says more")


def close(definitions):
    """Makes every exchange internal, and adds the mark. Returns its name, and how many exchanges were open."""
    check_members(definitions)
    old = mark_of(definitions)
    before = without_mark(definitions, old) if old else []
    names = [it["name"] for it in definitions["exchanges"] if not it["internal"]]
    for it in definitions["exchanges"]:
        it["internal"] = True
    there = {it["name"] for it in definitions["exchanges"]}
    marked = dict.fromkeys([*(it for it in before if it in there), *names])
    mark = f"closed.{hashlib.sha256(repr((definitions, list(marked))).encode(errors='surrogatepass')).hexdigest()[:12]}"
    definitions["exchanges"].append(exchange(mark))
    definitions["bindings"] += [binding(mark, it) for it in marked]
    for it in ("exchanges", "bindings"):
        if len(definitions[it]) > MOST[it]:
            raise Fault(f"with the mark there are {len(definitions[it])} {it}; {MOST[it]} are the most")
    return mark, len(names)


def reopen(definitions):
    """Makes those exchanges public that `close` made internal, and takes out the mark. Returns its name, and how many these are."""
    check_members(definitions)
    mark = mark_of(definitions)
    if mark is None:
        raise Fault("no exchange was closed by `warrenctl close`")
    bound = set(without_mark(definitions, mark))
    for it in definitions["exchanges"]:
        if it["name"] in bound:
            it["internal"] = False
    return mark, len(bound)
