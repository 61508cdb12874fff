"""What the program says with `--help`, for itself and for each of its commands: its parts, read."""

import re
import subprocess
from collections import namedtuple

# about: its first line; usage: the line behind "Usage:"; commands and arguments: (name, what it is); options: Option; ends: what comes last
Help = namedtuple("Help", "about usage commands arguments options ends", defaults=("",))
Option = namedtuple("Option", "short long value what")
ITEM = re.compile(r"^ {2,6}(\S.*?)(?: {2,}(.*))?$")
OPTION = re.compile(r"^(?:(-\w), )?(--[\w-]+)(?: <(.+)>)?$")
VERSION = re.compile(r"^warren [0-9.]+\n$")


class NotRead(Exception):
    """A text that is no help of the program; the text says why."""


def sections(text):
    """The lines of each section by its heading. What comes first has none."""
    found, heading = {"": []}, ""
    for line in text.splitlines():
        if re.fullmatch(r"[A-Z]\w+:", line):
            heading = line[:-1]
            found[heading] = []
        elif line.strip():
            found[heading].append(line)
    return found


def items(lines):
    for line in lines:
        matched = ITEM.match(line)
        if not matched:
            raise NotRead(f"no item of a list: {line}")
        yield matched.group(1), matched.group(2) or ""


def option(name, what):
    matched = OPTION.match(name)
    if not matched:
        raise NotRead(f"no option: {name}")
    return Option(*matched.groups(), what)


def read_help(text):
    found = sections(text)
    if len(found[""]) != 2 or not found[""][1].startswith("Usage: "):
        raise NotRead("a help has a line of what it is about, and one of its usage")
    arguments = [(name.strip("<>"), what) for name, what in items(found.get("Arguments", []))]
    options = [option(*it) for it in items(found.get("Options", []))]
    return Help(found[""][0], found[""][1][7:], list(items(found.get("Commands", []))), arguments, options)


def said(program, *words):
    """What the program prints, on whichever stream."""
    done = subprocess.run([program, *words], stdout=subprocess.PIPE, stderr=subprocess.STDOUT, timeout=20)
    return done.stdout.decode(errors="replace")


def taken_from(program):
    """All texts of a program by their names: its version, its help, and that of each command."""
    texts = {"version": said(program, "--version"), "warren": said(program, "--help")}
    if not VERSION.match(texts["version"]):
        raise NotRead(f"{program} does not say that it is warren")
    for name, _ in read_help(texts["warren"]).commands:
        if name != "help":
            texts[name] = said(program, name, "--help")
    return texts
