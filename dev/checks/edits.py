"""Checks that each must-fail edit still applies: its old text is there once. One that no longer does shows nothing, and no proof says so.

It also checks that the table of docs/inside/TESTING.md has each edit, and no other, and that there are no more than may be. Proves nothing.
"""

import glob
import os
import re
import sys

from dev import ROOT

PAGES = ("docs/inside/TESTING.md", "docs/TESTING.md")
MOST = 139
MOST_OF_A_CRATE = 10
# a crate is proved once more for its first edit
MOST_CRATES = 23
NAMED = re.compile(r"`([a-z0-9_]+)`")


class Bad(Exception):
    """What is wrong with an edit."""


def pairs_of(text):
    """The files of an edit, each with its old and its new text."""
    found, file, old = [], None, None
    for line in text.split("\n"):
        if line.startswith("file: "):
            file = line.removeprefix("file: ").strip()
        elif line.startswith("old: "):
            old = line.removeprefix("old: ")
        elif line.startswith("new:"):
            if file is None or old is None:
                raise Bad("a new text without a file or an old text before it")
            found.append((file, old, line.removeprefix("new:").removeprefix(" ")))
            old = None
        elif line.strip() and not line.startswith(("#", "--", "//")):
            raise Bad(f"a line that is not read: {line.strip()[:60]}")
    if old is not None or not found:
        raise Bad("no new text")
    return found


def apply(text, crate):
    """The files of a crate that an edit changes, as it leaves them."""
    changed = {}
    for file, old, new in pairs_of(text):
        path = os.path.join(crate, file)
        if file not in changed:
            if not os.path.isfile(path):
                raise Bad(f"{file} is not there")
            with open(path, encoding="utf-8") as source:
                changed[file] = source.read()
        count = changed[file].count(old)
        if count != 1:
            raise Bad(f"{file} has its old text {count} times, and not once")
        if old == new:
            raise Bad("it changes nothing")
        changed[file] = changed[file].replace(old, new)
    return changed


def listed(page):
    """The edits of the table of wrong bodies, as pairs of a crate and a name."""
    found = set()
    for line in page.split("\n"):
        cells = [cell.strip() for cell in line.strip().strip("|").split("|")]
        if not line.startswith("|") or len(cells) != 2:
            continue
        for part in cells[1].split(";"):
            crate = part.strip().split(",")[0].strip()
            if re.fullmatch(r"[a-z_]+", crate):
                found |= {(crate, name) for name in NAMED.findall(part)}
    return found


def faults(root):
    """What is wrong, a line each."""
    edits, told = set(), []
    for path in sorted(glob.glob(os.path.join(root, "crates/*/must-fail/*.edit"))):
        crate = os.path.dirname(os.path.dirname(path))
        name = (os.path.basename(crate), os.path.basename(path).removesuffix(".edit"))
        edits.add(name)
        with open(path, encoding="utf-8") as file:
            text = file.read()
        try:
            apply(text, crate)
        except Bad as why:
            told.append(f"{name[0]}/must-fail/{name[1]}.edit: {why}")
    if len(edits) > MOST:
        told.append(f"{len(edits)} edits, and at most {MOST} may be")
    crates = sorted({crate for crate, _ in edits})
    if len(crates) > MOST_CRATES:
        told.append(f"{len(crates)} crates have edits, and at most {MOST_CRATES} may have any")
    for crate in crates:
        count = sum(1 for it in edits if it[0] == crate)
        if count > MOST_OF_A_CRATE:
            told.append(f"{crate}: {count} edits, and at most {MOST_OF_A_CRATE} may be")
    page = next((it for it in PAGES if os.path.isfile(os.path.join(root, it))), None)
    if page is None:
        return told + [f"{PAGES[0]} is not there"]
    with open(os.path.join(root, page), encoding="utf-8") as file:
        rows = listed(file.read())
    told += [f"{page}: {crate}, `{name}` has no row" for crate, name in sorted(edits - rows)]
    told += [f"{page}: {crate}, `{name}` is no edit" for crate, name in sorted(rows - edits) if os.path.isdir(os.path.join(root, "crates", crate, "must-fail"))]
    return told


def main(root):
    told = faults(root)
    for line in told:
        print(line)
    return 1 if told else 0


if __name__ == "__main__":
    sys.exit(main(*sys.argv[1:2] or [ROOT]))
