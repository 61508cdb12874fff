"""Metrics in Prometheus's text format, version 0.0.4."""

CONTENT_TYPE = "text/plain; version=0.0.4; charset=utf-8"
GAUGE, COUNTER = "gauge", "counter"


class Family:
    """A metric with its samples. The name of a counter ends in `_total`."""

    def __init__(self, name, kind, about, *labels):
        self.name, self.kind, self.about, self.labels = name, kind, about, labels
        self.samples = []

    def add(self, value, *labels):
        """Adds a sample with a value for each label of the family, and returns the family."""
        self.samples.append((labels, value))
        return self

    def lines(self):
        yield f"# HELP {self.name} {escaped(self.about)}"
        yield f"# TYPE {self.name} {self.kind}"
        for values, value in self.samples:
            named = ",".join(f'{name}="{quoted(it)}"' for name, it in zip(self.labels, values))
            yield f"{self.name}{{{named}}} {value!r}" if named else f"{self.name} {value!r}"


def gauge(name, about, *labels):
    return Family(name, GAUGE, about, *labels)


def counter(name, about, *labels):
    return Family(name, COUNTER, about, *labels)


def escaped(text):
    return text.replace("\\", "\\\\").replace("\n", "\\n")


def quoted(text):
    return escaped(text).replace('"', '\\"')


def page_of(families):
    """Returns the page of these families as bytes."""
    return "".join(f"{line}\n" for it in families for line in it.lines()).encode(errors="replace")
