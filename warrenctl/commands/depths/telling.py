"""The limits of queues as a definitions file states them, and depths as a table and as metrics."""

import json

from warrenctl.fault import Fault
from warrenctl.prometheus.text import gauge, page_of


def limits_in(file):
    """The `x-max-length` of each queue, or none, in the order of the file."""
    try:
        with open(file, encoding="utf-8") as source:
            queues = json.load(source)["queues"]
        limits = {it["name"]: it["arguments"].get("x-max-length") for it in queues}
        for name in limits:
            name.encode()
    except (ValueError, RecursionError, LookupError, TypeError, AttributeError):
        raise Fault(f"{file} is no definitions file") from None
    if not all(it is None or type(it) is int and it >= 0 for it in limits.values()):
        raise Fault(f"{file} has an x-max-length that is no whole number")
    return limits


def share_of(depth, limit):
    """Which share of its limit a queue has; a queue of the limit 0 is full."""
    return None if depth is None or limit is None else depth.ready / limit if limit else 1.0


def in_alarm(depths, limits, alarm):
    """The queues that have this share of their limit, or more."""
    shares = {name: share_of(depth, limits[name]) for name, depth in depths.items()}
    return [name for name, it in shares.items() if alarm is not None and it is not None and it >= alarm]


def table_of(depths, limits, before, alarm):
    """A line for each queue, the fullest first. `change` is since the table before, `!` marks an alarm."""
    full = in_alarm(depths, limits, alarm)
    lines = [f"{'ready':>10} {'change':>8} {'consumers':>9} {'limit':>10} {'full':>5}    queue"]
    for name, depth in sorted(depths.items(), key=lambda it: (-(share_of(it[1], limits[it[0]]) or 0), -(it[1].ready if it[1] else 0))):
        said = json.dumps(name, ensure_ascii=not name.isprintable())
        if depth is None:
            lines.append(f"{'-':>10} {'':>8} {'':>9} {'':>10} {'':>5}    {said} is not there")
            continue
        share, last = share_of(depth, limits[name]), before.get(name)
        change = f"{depth.ready - last.ready:+}" if last else ""
        limit = "" if limits[name] is None else limits[name]
        percent = "" if share is None else f"{share:.0%}"
        lines.append(f"{depth.ready:>10} {change:>8} {depth.consumers:>9} {limit:>10} {percent:>5} {'!' if name in full else ' '}  {said}")
    return "\n".join(lines) + "\n"


def of_queues(name, about, values):
    """Returns a gauge with a value for each queue."""
    family = gauge(name, about, "queue")
    for queue, value in values:
        family.add(value, queue)
    return family


def up(answers):
    return gauge("warren_up", "Whether the broker answered.").add(int(answers))


def families_of(depths, limits):
    """Yields the metrics of these depths."""
    there = {name: it for name, it in depths.items() if it is not None}
    limited = [(name, limits[name]) for name in there if limits[name] is not None]
    yield of_queues("warren_queue_messages_ready", "Messages that are ready; those that were given out are not counted.", [(name, it.ready) for name, it in there.items()])
    yield of_queues("warren_queue_consumers", "Consumers.", [(name, it.consumers) for name, it in there.items()])
    yield of_queues("warren_queue_limit_messages", "The x-max-length of a queue that has one.", limited)
    yield of_queues("warren_queue_missing", "Queues of the definitions file that the broker has not.", [(name, 1) for name in depths if name not in there])


def metrics_of(depths, limits):
    """Returns what Prometheus reads; `depths` is `None` if the broker gave no answer."""
    told = [] if depths is None else families_of(depths, limits)
    return page_of([up(depths is not None), *told]).decode()
