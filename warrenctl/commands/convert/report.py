"""What is printed of a conversion: a table of the queues, then what loses or misroutes messages, then what else is no longer as it was."""

from collections import defaultdict

from warrenctl.commands.convert import still
from warrenctl.commands.convert.convert import CANNOT, LOST, REST, RIGHTS, SOURCE
from warrenctl.files.causes import quoted

AS_BEFORE = "as before"
# entries of these kinds with the same change are told in one line
GROUPED = ("queue", "exchange", "user", "binding", "parameter", "vhost")


def queues_behind(made):
    """Of each exchange the queues to which it leads in the file that was made."""
    onward = defaultdict(list)
    for it in made["bindings"]:
        onward[it["source"]].append((it["destination_type"], it["destination"]))
    for it in made["exchanges"]:
        if "alternate-exchange" in it["arguments"]:
            onward[it["name"]].append(("exchange", it["arguments"]["alternate-exchange"]))

    def behind(exchange):
        found, waiting = set(), [("exchange", exchange)]
        while waiting:
            here = waiting.pop()
            if here not in found:
                found.add(here)
                waiting += onward[here[1]] if here[0] == "exchange" else ()
        return [name for kind, name in found if kind == "queue"]

    return behind


def kinds_of_queues(made, changes):
    """Of each queue the kinds of changes that alter what becomes of its messages, and why it is left out, if so."""
    behind = queues_behind(made)
    kinds, cannot = {it["name"]: {} for it in made["queues"]}, {}
    for it in changes:
        for kind, name in it.of if it.meaning else ():
            if it.kind == CANNOT:
                cannot[name] = it.what.removeprefix("left out: ")
            for queue in [name] if kind == "queue" else behind(name):
                if queue in kinds:
                    kinds[queue][it.kind] = None
    return kinds, cannot


def table(made, changes):
    """A line for each queue of the export, behind a heading."""
    kinds, cannot = kinds_of_queues(made, changes)
    rows = [(quoted(name), f"changed: {', '.join(them)}" if them else AS_BEFORE) for name, them in kinds.items()]
    rows += [(quoted(name), f"cannot: {why}") for name, why in cannot.items()]
    width = max((len(name) for name, _ in rows), default=0)
    return [f"{name.ljust(width)}  {told}" for name, told in [("queue", "in warren"), *rows]] if rows else []


def meanings_of_kinds(changes):
    """What the words of the table mean, of changes that are told nowhere else."""
    found = {}
    for it in changes:
        if it.meaning and it.weight == REST and it.of:
            found.setdefault((it.kind, it.meaning), None)
    return [f"{kind}: {meaning}" for kind, meaning in sorted(found)]


def grouped(changes):
    """A line for all entries of a kind that are changed alike, in the order in which the first of them is told."""
    groups = defaultdict(list)
    for it in changes:
        word = it.entry.partition(" ")[0]
        groups[(word, it.meaning) if word in GROUPED and word != "binding" else (it.entry, it.meaning)].append(it)
    for (word, meaning), them in groups.items():
        entries = list(dict.fromkeys(it.entry for it in them))
        whats = list(dict.fromkeys(it.what for it in them))
        subject = entries[0] if len(entries) == 1 else f"{word}s {', '.join(it.partition(' ')[2] for it in entries)}"
        yield f"{subject}: {whats[0]}: {meaning}" if len(whats) == 1 else f"{subject}: {meaning}"


def staying(changes):
    """What becomes of a `yes` for a RabbitMQ that stays, those changes first that may break one."""
    told = [it._replace(meaning=still.told(it.still)) for it in changes]
    return list(grouped(sorted((it for it in told if it.meaning), key=lambda it: not still.may_break(it.still))))


def sections(made, changes):
    """The parts of what is told, each a heading with its lines; those without lines are left out."""
    of_meaning = [it for it in changes if it.meaning]
    order = {it["name"]: place for place, it in enumerate(made["queues"])}

    def place(it):
        return min((order.get(name, -1) for kind, name in it.of if kind == "queue"), default=len(order))

    losing = sorted((it for it in of_meaning if it.weight == LOST), key=place)
    parts = (
        ("", [f"{it.entry}: {it.what}" for it in changes if it.kind == SOURCE]),
        ("", table(made, changes)),
        ("where:", meanings_of_kinds(changes)),
        ("LOSES OR MISROUTES messages:", list(grouped(losing))),
        ("who may do what:", list(grouped(it for it in of_meaning if it.weight == RIGHTS))),
        ("no longer as it was:", list(grouped(it for it in of_meaning if it.weight == REST and not it.of))),
    )
    return [(heading, lines) for heading, lines in parts if lines]
