"""What a broker can be asked, that has one answer before a reload and another behind it: a name that came, or one that went."""

import time
from collections import namedtuple

from warrenctl.amqp.client import Refused, quoted
from warrenctl.files.definitions_file import read


# seconds between two questions
PAUSE = 0.2


def seconds(text):
    """The word of a command line that says how long to look."""
    number = float(text)
    if not 0 <= number <= 86400:
        raise ValueError
    return number


class Probe(namedtuple("Probe", "kind name is_new")):
    def __str__(self):
        return f"{'the' if self.is_new else 'no longer the'} {self.kind} {quoted(self.name)}"

    def holds(self, client):
        """Whether the broker answers as it does behind the reload."""
        try:
            (client.exchange if self.kind == "exchange" else client.queue)(self.name)
        except Refused as error:
            if error.code != 404:
                raise
            return not self.is_new
        return self.is_new


def names_in(file):
    definitions = read(file, "exchanges", "queues")
    return {(kind, it["name"]) for kind in ("exchange", "queue") for it in definitions[kind + "s"] if isinstance(it.get("name"), str)}


def probe_of(old, new):
    """The first name that came, else the first that went, else none."""
    before, after = names_in(old), names_in(new)
    came, went = sorted(after - before), sorted(before - after)
    return Probe(*came[0], True) if came else Probe(*went[0], False) if went else None


def look(client, probe, limit):
    """Returns how many seconds it took until what is asked for was so, or `None` if it wasn't within `limit` seconds."""
    began = time.monotonic()
    while not probe.holds(client):
        if time.monotonic() - began > limit:
            return None
        time.sleep(PAUSE)
    return time.monotonic() - began
