"""The commands in the pages' blocks of code, each with what its page says that it prints."""

import re
import shlex
from collections import namedtuple

# page, line: where it is; text: as a shell takes it; shown: the lines below it
Command = namedtuple("Command", "page line text shown")
Block = namedtuple("Block", "line language lines")
ANYTHING = ".."
# a block without a prompt has commands if its first line begins with one of these
PROGRAMS = ("curl", "warren", "warrenctl", "make", "python3", "for")
SYNOPSIS = re.compile(r"\[-")
MEASURED = re.compile(r"[0-9.\\]+(?=\\ seconds)")


def blocks_of(text):
    """Yields the blocks of a page, without the indent of their first line."""
    block = None
    for number, line in enumerate(text.split("\n"), 1):
        fence = re.match(r"( *)```(\w*)$", line)
        if fence and block is None:
            block, indent = Block(number + 1, fence.group(2), []), len(fence.group(1))
        elif fence:
            yield block
            block = None
        elif block is not None:
            block.lines.append(line[indent:])


def is_whole(text):
    """Returns whether a command ends with this line."""
    try:
        shlex.split(text, comments=True)
    except ValueError:
        return False
    return not text.endswith("\\")


def commands_of(page, block):
    """Returns the commands of a block, those of a shell or a program of Python; none if it has none."""
    if block.language == "python":
        shown = re.findall(r"^print\(.*\)\s+# (.*)$", "\n".join(block.lines), re.MULTILINE)
        return [Command(page, block.line, "\n".join(block.lines), shown)]
    prompted = any(it.startswith("$ ") for it in block.lines)
    if block.language or not prompted and (block.lines[0].split(" ")[0] not in PROGRAMS or SYNOPSIS.search(block.lines[0])):
        return []
    found = []
    for number, line in enumerate(block.lines, block.line):
        if found and not is_whole(found[-1].text):
            found[-1] = found[-1]._replace(text=f"{found[-1].text}\n{line}")
        elif line.startswith("$ ") or not prompted:
            found.append(Command(page, number, line.removeprefix("$ "), []))
        elif found:
            found[-1].shown.append(re.sub(r"\s{2,}# .*$", "", line))
    return found


def pattern_of(line):
    """A line that a page shows: how long something took is not the page's to say."""
    return re.compile(MEASURED.sub(r"[0-9.]+", re.escape(line.strip())))


def first_missing(shown, printed):
    """Returns the first line of a page that is not printed, in the page's order, or `None`. A line `..` is for any others."""
    lines = iter(it.strip() for it in printed.split("\n"))
    for it in shown:
        if it.strip() != ANYTHING and not any(pattern_of(it).fullmatch(line) for line in lines):
            return it
    return None
