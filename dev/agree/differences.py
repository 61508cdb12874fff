"""Where two brokers' answers differ, and where they differ by what AMQP leaves a broker free to choose, which is counted and passes.

- `one confirm for several publishes`: the bit `multiple` of a confirm.
- `the text of a return`: what is beside its code, 312.
- `the header x-death`: an array that RabbitMQ adds to a dead letter and warren does not. The three headers of a first death are compared.
"""

import struct
from collections import Counter

from dev.agree.operations import Confirmed, Got, Returned

X_DEATH = b"x-death"
FLAG_OF_HEADERS = 1 << 13
# of the properties before the headers: content-type, content-encoding
BEFORE_HEADERS = (1 << 15, 1 << 14)
# the bytes of a field's value, by its letter; those of the others have their length before them
SIZES = {b"t": 1, b"b": 1, b"s": 2, b"I": 4, b"l": 8, b"f": 4, b"d": 8, b"D": 5, b"T": 8, b"V": 0}


def fields(table):
    """The fields of a table, each by its name with the letter and the bytes of its value."""
    found, at = {}, 0
    while at < len(table):
        name = table[at + 1 : at + 1 + table[at]]
        at += 1 + len(name)
        letter = table[at : at + 1]
        size = SIZES[letter] if letter in SIZES else 4 + struct.unpack_from(">I", table, at + 1)[0]
        found[name] = table[at : at + 1 + size]
        at += 1 + size
    return found


def properties_of(data):
    """The properties of a message as flags, headers by name, and the bytes of all others."""
    flags, at = int.from_bytes(data[:2], "big"), 2
    if not flags & FLAG_OF_HEADERS:
        return flags, {}, data[2:]
    for flag in BEFORE_HEADERS:
        at += (1 + data[at]) if flags & flag else 0
    end = at + 4 + int.from_bytes(data[at : at + 4], "big")
    return flags, fields(data[at + 4 : end]), data[2:at] + data[end:]


def plain(answer):
    """An answer without what a broker is free to choose, and the names of that with their values."""
    if isinstance(answer, Confirmed):
        return answer._replace(multiple=False), {"one confirm for several publishes": answer.multiple}
    if not isinstance(answer, (Got, Returned)):
        return answer, {}
    flags, headers, others = properties_of(answer.properties)
    free = {"the header x-death": headers.pop(X_DEATH, None)}
    if isinstance(answer, Returned):
        free["the text of a return"] = answer.text
        answer = answer._replace(text=b"")
    return answer._replace(properties=(flags, headers, others)), free


def difference(done, others):
    """The first operation that the other broker answered otherwise: its place, its text, and both answers; or nothing."""
    for place, ((operation, answers), other) in enumerate(zip(done, others)):
        if [plain(it)[0] for it in answers] != [plain(it)[0] for it in other]:
            return place, operation.text, answers, other
    if len(others) > len(done):
        return len(done), "nothing more was asked", [], others[len(done)]
    if len(others) < len(done):
        operation, answers = done[len(others)]
        return len(others), operation.text, answers, "its answers end before"
    return None


def freely(done, others):
    """How often the answers differ by each thing that a broker is free to choose."""
    counts = Counter()
    for (_, answers), other in zip(done, others):
        for one, two in zip(answers, other):
            one, two = plain(one)[1], plain(two)[1]
            counts.update(name for name in one if one[name] != two.get(name))
    return counts
