"""Checks that no line of a contract or a definition has more columns than a reader sees at once, and no clause either once its lines are joined;
and that no clause breaks inside parentheses without a deeper indent. Proves nothing."""

import glob
import os
import re
import sys

from dev import ROOT

MOST = 160

# A clause of a contract, by the beginning of its first line. A list of imports or of a view's fields is none: its lines have an item each.
CLAUSE = re.compile(r"\s*(requires|ensures|ghost invariant)\b.*\{")

# How many such clauses a crate may have still. No crate is added, and no number raised. These two name files, a listener or sockets, and two streams, each
# before and after.
STILL = {"reload_loop": 2}


def is_text(line):
    """A line of a test's bytes, or of a text that is printed: a break would change it."""
    return '"' in line and line.strip().startswith(('"', 'r#"', 'b"', "const", "println!")) or 'b"' in line


def columns_of(lines):
    """The columns that a clause has with its lines joined, each break a blank."""
    return len(" ".join([lines[0].rstrip()] + [line.strip() for line in lines[1:]]))


def indent_of(line):
    return len(line) - len(line.lstrip())


def split_at(lines):
    """The index of the first line that begins inside parentheses and is not indented deeper than the line that opened them, if one is."""
    opened = []
    for index, line in enumerate(lines):
        if opened and indent_of(line) <= opened[-1]:
            return index
        for letter in line:
            if letter == "(":
                opened.append(indent_of(line))
            elif letter == ")" and opened:
                opened.pop()
    return None


def clauses_of(lines):
    """The clauses of a file, each with the index of its first line and its lines: up to the brace that closes it."""
    index = 0
    while index < len(lines):
        first, depth = index, 0
        if CLAUSE.match(lines[index]):
            depth = lines[index].count("{") - lines[index].count("}")
            while depth > 0 and index + 1 < len(lines):
                index += 1
                depth += lines[index].count("{") - lines[index].count("}")
            yield first, lines[first:index + 1]
        index += 1


def wide_lines(lines):
    """What is said of lines that are too wide, each with its index."""
    for index, line in enumerate(lines):
        if len(line) > MOST and not is_text(line):
            yield index, f"{len(line)} columns, and not {MOST} at most"


def bad_clauses(lines):
    """What is said of clauses that a reader doesn't see at once, each with the index of the line that it is said of."""
    for first, clause in clauses_of(lines):
        columns, split = columns_of(clause), split_at(clause)
        if len(clause) > 1 and columns > MOST:
            yield first, f"a clause of {columns} columns, its lines joined, and not {MOST} at most"
        elif split is not None:
            yield first + split, "a break inside parentheses, without a deeper indent"


def lines_of(path):
    with open(path, encoding="utf-8") as file:
        return file.read().split("\n")


def paths_in(root, pattern):
    return sorted(glob.glob(os.path.join(root, pattern), recursive=True))


def wide_in(root):
    """All lines that are too wide, each with its file, its index and what is said of it."""
    for part in ("src/**/*.rt", "specs/**/*.antt"):
        for path in paths_in(root, f"crates/*/{part}"):
            yield from ((path, *found) for found in wide_lines(lines_of(path)))


def bad_in(root):
    """The clauses that a reader doesn't see at once, but for those that a crate may have still."""
    for crate in paths_in(root, "crates/*"):
        bad = [(path, *found) for path in paths_in(crate, "src/**/*.rt") for found in bad_clauses(lines_of(path))]
        if len(bad) > STILL.get(os.path.basename(crate), 0):
            yield from bad


def main(root):
    found = sorted([*wide_in(root), *bad_in(root)])
    for path, index, what in found:
        print(f"{os.path.relpath(path, root)}:{index + 1}: {what}")
    return 1 if found else 0


if __name__ == "__main__":
    sys.exit(main(*sys.argv[1:2] or [ROOT]))
