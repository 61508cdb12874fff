"""On which line of a file an entry begins."""

import json
import re

SPACE = re.compile(r"[ \t\n\r]*")


class _Reader:
    def __init__(self, text):
        self.text, self.at, self.decoder = text, 0, json.JSONDecoder()
        self.counted, self.lines = 0, 1
        self.skip()

    def skip(self):
        self.at = SPACE.match(self.text, self.at).end()

    def is_at(self, mark):
        return self.text.startswith(mark, self.at)

    def pass_over(self, mark):
        if not self.is_at(mark):
            return False
        self.at += len(mark)
        self.skip()
        return True

    def value(self):
        value, self.at = self.decoder.raw_decode(self.text, self.at)
        self.skip()
        return value

    def line(self):
        self.lines += self.text.count("\n", self.counted, self.at)
        self.counted = self.at
        return self.lines

    def entries(self):
        """The lines on which the entries of this array begin."""
        lines = []
        self.pass_over("[")
        while not self.pass_over("]"):
            lines.append(self.line())
            self.value()
            self.pass_over(",")
        return lines


def lines_of(text):
    """Of each array in an object, by its name, the lines of its entries; of an array alone, by no name. The text is JSON."""
    reader = _Reader(text)
    if reader.is_at("["):
        return {"": reader.entries()}
    found = {}
    if reader.pass_over("{"):
        while not reader.pass_over("}"):
            name = reader.value()
            reader.pass_over(":")
            if reader.is_at("["):
                found[name] = reader.entries()
            else:
                reader.value()
                found.pop(name, None)
            reader.pass_over(",")
    return found
