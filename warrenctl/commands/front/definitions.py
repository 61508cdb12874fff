"""The topology of the definitions file, read again whenever the file has changed."""

import os

from warrenctl.files.reading import Refused, read_definitions

# arguments by which a queue differs, and that say nothing of what becomes of its messages
IGNORED = ("x-queue-mode", "x-queue-version", "x-queue-master-locator", "x-queue-leader-locator", "x-queue-type")


def _differences(wanted, there):
    """A text for each member that is wanted otherwise than it is there."""
    return [f"{name} {wanted[name]!r}, not {there.get(name)!r}" for name in wanted if wanted[name] != there.get(name)]


class DefinitionsFile:
    def __init__(self, name, note):
        """Reads the file, and raises what is wrong with it. `note` takes a line if it can't be read later: then it stays as it was."""
        self._name, self._note = name, note
        self._seen = self._stamp()
        self._take(read_definitions(name))

    def _stamp(self):
        it = os.stat(self._name)
        return it.st_mtime_ns, it.st_size, it.st_ino

    def _take(self, value):
        self.exchanges = {it["name"]: it for it in value["exchanges"]}
        self.queues = {it["name"]: it for it in value["queues"]}
        self.bindings = {(it["source"], it["destination_type"], it["destination"], it["routing_key"]) for it in value["bindings"]}

    def _look(self):
        try:
            stamp = self._stamp()
            if stamp == self._seen:
                return
            self._seen = stamp
            self._take(read_definitions(self._name))
        except Refused as refused:
            self._note(f"{self._name}: refused {refused.number}; what was read before holds")
        except OSError as error:
            self._note(f"{self._name}: {error.strerror}; what was read before holds")

    def has_binding(self, source, kind, name, key):
        """Whether the file binds `name` to `source`; at a fanout exchange the key says nothing."""
        self._look()
        if (source, kind, name, key) in self.bindings:
            return True
        is_fanout = self.exchanges.get(source, {}).get("type") == "fanout"
        return is_fanout and any(it[:3] == (source, kind, name) for it in self.bindings)

    def exchange_differs(self, declare):
        """In what the declare of an exchange that the file has differs from it."""
        self._look()
        there = self.exchanges.get(declare.exchange)
        if there is None:
            return []
        members = {"type": declare.kind, **{name: getattr(declare, name) for name in ("durable", "auto_delete", "internal")}}
        return _differences(members, there) + self._arguments_differ(declare.arguments, there["arguments"])

    def queue_differs(self, declare):
        """In what the declare of a queue that the file has differs from it."""
        self._look()
        there = self.queues.get(declare.queue)
        if there is None:
            return []
        members = {"durable": declare.durable, "auto_delete": declare.auto_delete}
        exclusive = ["exclusive"] if declare.exclusive else []
        return _differences(members, there) + exclusive + self._arguments_differ(declare.arguments, there["arguments"])

    @staticmethod
    def _arguments_differ(wanted, there):
        names = [it for it in {**wanted, **there} if it not in IGNORED]
        return _differences({name: wanted.get(name) for name in names}, there)
