"""For the tests: the rows of crates/line_cases/data, which say what warren answers, and the files that they name."""

import os
import shlex
from collections import namedtuple

from dev import ROOT

DATA = os.path.join(ROOT, "crates/line_cases/data")

# kind: the first word; files: their texts, edited; words: the others; wanted: what is answered
Row = namedtuple("Row", "kind files words wanted line")


def text_of(name):
    """A file, with each line `repeat FROM TO TEXT` written out."""
    lines = []
    with open(os.path.join(DATA, name), encoding="utf-8") as file:
        for line in file.read().split("\n"):
            if line.startswith("repeat "):
                _, first, last, text = line.split(" ", 3)
                line = ",".join(text.replace("%", str(it)) for it in range(int(first), int(last)))
            lines.append(line)
    return "\n".join(lines)


def edited(files, edit):
    """The files after ` OLD => NEW`, which is of the last of them in which OLD stands."""
    old, _, new = edit.partition(" =>")
    last = max(place for place, text in enumerate(files) if old in text)
    return [text.replace(old, new.removeprefix(" "), 1) if place == last else text for place, text in enumerate(files)]


def rows(name):
    with open(os.path.join(DATA, name), encoding="utf-8") as file:
        lines = [line.rstrip("\n") for line in file]
    for line in lines:
        if not line or line.startswith("#"):
            continue
        asked, _, wanted = line.partition(" -> ") if line.startswith("certificate ") else line.rpartition(" -> ")
        asked, *edits = asked.split(" | ")
        kind, *words = shlex.split(asked)
        files = [text_of(it) for it in words if it.startswith("files/")]
        for edit in edits:
            files = edited(files, edit.rstrip())
        yield Row(kind, files, [it for it in words if not it.startswith("files/")], wanted, line)


def guarantee_of(words):
    """The guarantee of a row, MODE EXCHANGE PATTERN QUEUE -PATTERN .., and the words behind it."""
    guarantee = dict(zip(("mode", "exchange", "pattern", "queue"), words))
    rest = words[4:]
    excepts = []
    while rest and rest[0].startswith("-"):
        excepts.append(rest.pop(0)[1:])
    return ({**guarantee, "except": excepts} if excepts else guarantee), rest
