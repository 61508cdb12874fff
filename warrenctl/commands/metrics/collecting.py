"""What Prometheus gets at a scrape: depths of queues, connections, refused reloads, and the figures of the broker's process."""

import time

from warrenctl.amqp.client import Client
from warrenctl.commands.depths.telling import families_of, limits_in, up
from warrenctl.commands.metrics.process import connections_at, figures_of, listener_at
from warrenctl.fault import Fault
from warrenctl.prometheus.text import counter, gauge

# seconds until the broker has to have answered, below the ten that Prometheus gives a scrape
PATIENCE = 8
OF_PROCESS = {
    "virtual_memory_bytes": "Address space in bytes.",
    "virtual_memory_max_bytes": "The limit of the process's address space.",
    "resident_memory_bytes": "Resident memory in bytes.",
    "start_time_seconds": "When the process started, in seconds since 1970.",
    "cpu_seconds_total": "Processor time in seconds, the system's and its own.",
    "open_fds": "Descriptors that are open.",
    "max_fds": "The limit of its descriptors.",
}


class Collector:
    """The metrics of the broker at `host` and `port`, asked anew at each scrape."""

    def __init__(self, host, port, user, password, definitions, errors, tell):
        self.login = (host, port, user, password)
        self.definitions, self.errors, self.tell = definitions, errors, tell
        # so that a file that can't be read is told at once
        limits_in(definitions)
        self.said = None

    def collect(self):
        # counted first, so that the exporter's own is not among them
        connections = connections_at(self.login[1])
        started = time.monotonic()
        answer = self.answer()
        yield up(answer is not None)
        if answer is not None:
            yield gauge("warren_answer_seconds", "How long a login and the declares of all queues took.").add(time.monotonic() - started)
            yield from families_of(*answer)
        yield gauge("warren_connections", "Connections that are open at the broker's port.").add(connections)
        yield from self.of_process()
        refused = counter("warren_errors_total", "Lines on the broker's standard error. All but \"other\" are refused reloads.", "cause")
        for cause, count in self.errors.counts.items():
            refused.add(count, cause)
        yield refused

    def answer(self):
        """Returns each queue's depth, `None` for one that the broker has not, and each one's limit. Without an answer returns `None`, and a line
        says why, once."""
        try:
            limits = limits_in(self.definitions)
            with Client(*self.login, PATIENCE) as client:
                found = client.queues(limits)
            self.said = None
            return found, limits
        except (Fault, OSError) as error:
            if str(error) != self.said:
                self.said = str(error)
                self.tell(error)
            return None

    def of_process(self):
        """Yields the figures of the process that listens at the broker's port; none if there is none here, or this user may not see it."""
        for name, value in figures_of(listener_at(self.login[1])).items():
            kind = counter if name.endswith("_total") else gauge
            yield kind(f"warren_process_{name}", OF_PROCESS[name]).add(value)
