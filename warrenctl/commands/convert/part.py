"""A part of an export: some queues, with every exchange by which something reaches them. The rest stays in RabbitMQ.

An exchange that is named means the queues to which it leads. Dead letters are followed from queues of the part alone: a queue that
stays sends its own to RabbitMQ's exchanges.
"""

import re
from collections import defaultdict, namedtuple

from warrenctl.commands.convert import still
from warrenctl.commands.convert.convert import Change, Conversion, NoFile, convert, named
from warrenctl.files.causes import quoted

# export: without what stays; stays: the exchanges that stay; lines: what passes between the part and the rest in RabbitMQ, and not here;
# changes: those that are not of an entry of the part
Part = namedtuple("Part", "export stays lines changes")


def matcher(name):
    """A test of names, in which `*` of `name` is any number of characters."""
    return re.compile(".*".join(map(re.escape, name.split("*"))), re.DOTALL).fullmatch


class Ways:
    """What leads where in one virtual host: exchanges to exchanges and queues, queues by dead letters to exchanges.

    Exchanges and queues that warren doesn't have lead on, too; `made` has what policies set for those that it has.
    """

    def __init__(self, work, made):
        export, vhost = work.export, work.vhost

        def here(name):
            entries = export.get(name)
            return [it for it in entries if isinstance(it, dict) and it.get("vhost", vhost) == vhost] if isinstance(entries, list) else []

        self.exchanges = [it["name"] for it in here("exchanges") if isinstance(it.get("name"), str)]
        self.queues = [it["name"] for it in here("queues") if isinstance(it.get("name"), str)]
        self.onward, self.deaths = defaultdict(list), {}
        for it in here("bindings"):
            source, kind, name = (it.get(member) for member in ("source", "destination_type", "destination"))
            if isinstance(source, str) and source and isinstance(name, str) and kind in ("queue", "exchange"):
                self.onward[source].append((kind, name))
        arguments = {it["name"]: it["arguments"] for it in [*here("exchanges"), *made["exchanges"]] if isinstance(it.get("name"), str) and isinstance(it.get("arguments"), dict)}
        for name, them in arguments.items():
            if isinstance(them.get("alternate-exchange"), str):
                self.onward[name].append(("exchange", them["alternate-exchange"]))
        for name, it in work.said["queues"].items():
            letters = work.dead_letters(it)
            if letters and isinstance(letters[0], str):
                self.deaths[name] = letters

    def behind(self, exchange):
        """The exchanges and queues to which `exchange` leads, itself among them."""
        found, waiting = set(), [("exchange", exchange)]
        while waiting:
            here = waiting.pop()
            if here not in found:
                found.add(here)
                waiting += self.onward[here[1]] if here[0] == "exchange" else ()
        return found

    def before(self, queues):
        """The exchanges that lead to one of `queues`."""
        sources = defaultdict(set)
        for source, targets in list(self.onward.items()):
            for it in targets:
                sources[it].add(source)
        found, waiting = set(), [("queue", it) for it in queues]
        while waiting:
            for source in sources[waiting.pop()]:
                if source not in found:
                    found.add(source)
                    waiting.append(("exchange", source))
        return found

    def dead_letters(self, queue):
        """The queues to which a dead letter of `queue` may come, as far as the default exchange tells by its key."""
        exchange, key = self.deaths.get(queue, (None, None))
        if exchange == "":
            return {key} & set(self.queues)
        return {name for kind, name in self.behind(exchange) if kind == "queue"} if exchange else set()


def chosen(ways, names):
    """The queues and the exchanges that are meant by these words."""
    queues, exchanges = set(), set()
    known = set(ways.exchanges) | set(ways.onward)
    for name in names:
        meant = matcher(name)
        some_queues, some_exchanges = set(filter(meant, ways.queues)), set(filter(meant, known))
        if not some_queues | some_exchanges:
            raise NoFile(f"--only {quoted(name)}: there is no such queue or exchange")
        queues |= some_queues
        exchanges |= some_exchanges
    queues |= {name for it in exchanges for kind, name in ways.behind(it) if kind == "queue"}
    return queues, exchanges | ways.before(queues)


def lines_between(ways, queues, exchanges):
    """What passes in RabbitMQ between the part and the rest, a line for each queue that no longer gets it."""
    sent, died = defaultdict(list), defaultdict(list)
    for source in sorted(exchanges):
        for kind, name in ways.behind(source):
            if kind == "queue" and name not in queues:
                sent[name].append(source)
    for queue in ways.queues:
        for name in ways.dead_letters(queue):
            if (queue in queues) != (name in queues):
                died[name].append(queue)
    for name in ways.queues:
        if sent[name]:
            yield f"queue {quoted(name)} stays: what is sent in warren to {named(sent[name], 'exchange')} does not reach it"
        if died[name] and name not in queues:
            yield f"queue {quoted(name)} stays: dead letters of {named(died[name])}, which went to it, do not reach it"
        if died[name] and name in queues:
            yield f"queue {quoted(name)}: dead letters of {named(died[name])}, which stay{'s' * (len(died[name]) == 1)}, do not reach it: a shovel can bring them"


def changes_between(ways, made, queues, exchanges):
    """The changes by which a `yes` of the part may not hold in RabbitMQ: dead letters that come back to it, and bindings that stay."""
    for queue in ways.queues:
        # under its own key a dead letter of the default exchange may come to any queue
        to = queues if ways.deaths.get(queue) == ("", None) else ways.dead_letters(queue) & queues
        back = to if queue not in queues else ()
        if back:
            yield Change(0, f"queue {quoted(queue)}", f"it stays, and its dead letters may reach {named(sorted(back))}", (still.WAY,))
    alternates = {it["name"] for it in made["exchanges"] if it["arguments"].get("alternate-exchange") in exchanges}
    for exchange in sorted(exchanges & alternates):
        stay = [name for kind, name in ways.onward[exchange] if name not in (queues if kind == "queue" else exchanges)]
        if stay:
            yield Change(0, f"exchange {quoted(exchange)}", f"it leads to what stays: {', '.join(map(quoted, stay))}", (still.UNMATCHED,))


def part_of(export, vhost, names):
    """The part of an export that has these queues, and those behind these exchanges."""
    work = Conversion(export, vhost)
    vhost = work.vhost
    made, _ = convert(export, vhost)
    ways = Ways(work, made)
    queues, exchanges = chosen(ways, names)
    known = {"exchanges": exchanges, "queues": queues}

    def keeps(list_name, it):
        if list_name not in ("exchanges", "queues", "bindings"):
            return True
        if isinstance(it, dict) and it.get("vhost", vhost) != vhost:
            return False
        # what cannot be read may be of the part
        if list_name == "bindings":
            kind, *ends = (it.get(member) for member in ("destination_type", "source", "destination")) if isinstance(it, dict) else (None, None, None)
            return not all(isinstance(end, str) for end in ends) or ends[0] in {"", *exchanges} and ends[1] in (queues if kind == "queue" else exchanges)
        return not isinstance(it, dict) or not isinstance(it.get("name"), str) or it["name"] in known[list_name]

    kept = {name: [it for it in value if keeps(name, it)] if isinstance(value, list) else value for name, value in export.items()}
    return Part(kept, set(ways.exchanges) - exchanges, list(lines_between(ways, queues, exchanges)), list(changes_between(ways, made, queues, exchanges)))
