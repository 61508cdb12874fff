"""What a broker says on standard error: lines that are counted by what they mean (docs/OPERATIONS.md, "Statuses and messages")."""

import os
import re
import sys
import time

# the first that matches counts; a file's name may have anything in it
CAUSES = (
    ("in-use", re.compile(r"warren: reload refused in-use ")),
    ("breaks", re.compile(r"warren: reload refused breaks ")),
    ("certificate", re.compile(r"warren: certificate [0-9]+: fault ")),
    ("unreadable", re.compile(r"warren: .*: cannot read$")),
    ("file", re.compile(r"warren: .*: refused [0-9]+$")),
    ("memory", re.compile(r"warren: memory$")),
    ("other", re.compile(r"")),
)
REST = 0.5


def cause_of(line):
    return next(name for name, pattern in CAUSES if pattern.match(line))


class Errors:
    """Counts of lines, by cause."""

    def __init__(self):
        self.counts = dict.fromkeys((name for name, _ in CAUSES), 0)

    def read(self, lines, hand_on):
        """Counts lines until there are no more, and prints each on standard error if `hand_on` is set."""
        for line in lines:
            self.counts[cause_of(line.rstrip("\n"))] += 1
            if hand_on:
                sys.stderr.write(line)
                sys.stderr.flush()


def open_log(name):
    return open(name, encoding="utf-8", errors="replace")


def is_new(name, file):
    """Returns whether the file of this name is another than the one that is read, or was cut."""
    try:
        found, read = os.stat(name), os.fstat(file.fileno())
    except OSError:
        return False
    return (found.st_dev, found.st_ino) != (read.st_dev, read.st_ino) or found.st_size < file.tell()


def followed(name, file):
    """Yields the lines that are put into the file of this name from now on, whole lines alone. Waits for ever."""
    file.seek(0, os.SEEK_END)
    part = ""
    while True:
        part += file.readline()
        if part.endswith("\n"):
            yield part
            part = ""
            continue
        if is_new(name, file):
            file.close()
            file, part = open_log(name), ""
        time.sleep(REST)
