"""The files that warren reads, as the scripts read them: a value, or the least cause for which warren would refuse the file."""

import sys

from warrenctl.fault import Fault
from warrenctl.files.causes import MOST_BYTES, Cause, NotJson, causes_in, read_json
from warrenctl.files.guarantees import certificate_causes, guarantee_causes


class Refused(Fault):
    """A file is refused; `causes` has all that stand in it."""

    def __init__(self, name, causes):
        self.name, self.causes = name, causes
        self.number = min(it.number for it in causes)
        super().__init__(f"{name}: refused {self.number} (`warrenctl why` says more)")


def read_input():
    """All bytes of standard input."""
    try:
        return sys.stdin.buffer.read()
    except OSError as error:
        raise Fault(f"standard input: {error.strerror}") from None


def read(name, causes_of_value):
    """The value of a file of which this finds the causes."""
    with open(name, "rb") as file:
        data = file.read(MOST_BYTES + 1)
    if len(data) > MOST_BYTES:
        raise Refused(name, [Cause(10, "file", f"more than {MOST_BYTES} bytes")])
    try:
        value = read_json(data)
    except NotJson as error:
        raise Refused(name, [Cause(1, "file", f"it is not JSON: {error}")]) from None
    causes = causes_of_value(value)
    if causes:
        raise Refused(name, causes)
    return value


def read_definitions(name):
    return read(name, causes_in)


def read_guarantees(name, definitions):
    return read(name, lambda value: guarantee_causes(value, definitions))["guarantees"]


def read_certificates(name):
    return read(name, certificate_causes)
