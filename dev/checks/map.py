"""Checks docs/inside/ARCHITECTURE.md: each call in its paths is where the list says, and the call before it makes it; and its tables have the crates
of crates.txt, group by group, in the order of that file. Each function in the table "## Where a rule is" is there too. Proves nothing.

A path is a part "## The path of .." with a numbered list. An item begins with its call, `crate::module::Type::function`, as many of modules and
types as distinguish it; what is said of it follows a colon, and may name further calls. A list has at most 12 items below its first.

A turn is a part "## A turn of .." whose list is of calls that one function makes, in this order: the sentence before the list names it.
"""

import glob
import os
import re
import sys

from dev import ROOT

PAGE = "docs/inside/ARCHITECTURE.md"
CRATES = "crates.txt"
MOST = 12
CALL = re.compile(r"`([a-z_0-9]+(?:::[A-Za-z_0-9]+)+)`")
ITEM = re.compile(r"^(\d+)\. (.*)$")


def paths_of(text):
    """Each path of the page by its heading, with its items, each in one line."""
    found, items = {}, None
    for line in text.splitlines():
        if line.startswith("#"):
            items = found.setdefault(line.lstrip("# "), []) if line.startswith("## The path of ") else None
        elif items is not None and ITEM.match(line):
            items.append(ITEM.match(line).group(2))
        elif items and line.startswith("   "):
            items[-1] += " " + line.strip()
        elif items is not None and not line.strip() and items:
            items = None
    return found


def files_of(root, crate, modules):
    """The files of a crate, or of these modules in it."""
    base = os.path.join(root, "crates", crate, "src")
    if not modules:
        return sorted(glob.glob(os.path.join(base, "**/*.rt"), recursive=True))
    path = os.path.join(base, *modules)
    return [it for it in (path + ".rt",) if os.path.isfile(it)]


def body_of(lines, place):
    """The body of the function that begins at this line."""
    indent = lines[place][: len(lines[place]) - len(lines[place].lstrip())]
    ends = next((at for at in range(place + 1, len(lines)) if lines[at].startswith(indent + "}")), len(lines))
    return "\n".join(lines[place + 1 : ends])


def bodies(root, call):
    """The bodies of the functions that a call may name."""
    crate, *middle, function = call.split("::")
    modules = [it for it in middle if it[0].islower()]
    types = [it for it in middle if it[0].isupper()]
    found = []
    for path in files_of(root, crate, modules):
        with open(path, encoding="utf-8") as file:
            lines = file.read().splitlines()
        owner = None
        for place, line in enumerate(lines):
            named = re.match(r"impl(?:<[^>]*>)? (?:\w+(?:<[^>]*>)? for )?(\w+)", line)
            owner = named.group(1) if named else None if line.startswith("}") else owner
            if re.match(rf"\s*(?:pub(?:\([a-z]+\))? )?fn {function}\b", line) and (not types or owner == types[-1]):
                found.append(body_of(lines, place))
    return found


def made_in(body, call):
    """Where this body makes the call. A call of a function of that name of another type, `Other::function(..)`, is none."""
    *middle, function = call.split("::")
    types = [it for it in middle if it[0].isupper()]
    made = re.finditer(rf"(?:\b([A-Z]\w*)::)?\b{function}\b\s*(?:::<[^>]*>)?\(", body)
    return [it.start() for it in made if it.group(1) in (None, "Self", *types)]


def wrong_in(root, name, items):
    """What is wrong with a path."""
    if len(items) - 1 > MOST:
        yield f"{name}: {len(items) - 1} items below the first, and not {MOST} at most"
    before = []
    for number, item in enumerate(items, 1):
        head, _, rest = item.partition(": ")
        calls = CALL.findall(head)
        if not calls:
            yield f"{name}, {number}: it names no call: {head[:60]}"
        here = []
        for call in calls:
            here += bodies(root, call)
            if before and not any(made_in(it, call) for it in before):
                yield f"{name}, {number}: the item before doesn't call `{call}`"
        for call in [*calls, *CALL.findall(rest)]:
            if not bodies(root, call):
                yield f"{name}, {number}: `{call}` is not there"
        before = here


def turns_of(text):
    """Each turn of the page by its heading, with the sentence before its list and its items, each in one line."""
    found = {}
    for part in text.split("\n## ")[1:]:
        heading, _, rest = part.partition("\n")
        if heading.startswith("A turn of "):
            before, _, items = rest.partition("\n1. ")
            items = ("1. " + items).partition("\n\n")[0].replace("\n   ", " ").splitlines()
            found[heading] = before.strip().split("\n\n")[-1], [it.partition(". ")[2] for it in items]
    return found


def wrong_calls(root, name, calls, nothing):
    """What is wrong with the calls that an item or a rule names; `nothing` says that it names none."""
    if not calls:
        yield f"{name}: {nothing}"
    for call in calls:
        if not bodies(root, call):
            yield f"{name}: `{call}` is not there"


def wrong_turn(root, name, sentence, items):
    """What is wrong with a turn."""
    callers = [it for call in CALL.findall(sentence) for it in bodies(root, call)]
    if not callers:
        yield f"{name}: the sentence before the list names no function that is there"
    last = 0
    for number, item in enumerate(items, 1):
        calls = CALL.findall(item)
        yield from wrong_calls(root, f"{name}, {number}", calls, f"it names no call: {item[:60]}")
        for call in calls:
            places = [place for it in callers for place in made_in(it, call)]
            if callers and not any(last <= it for it in places):
                yield f"{name}, {number}: `{call}` is not called, or is called before"
            last = max([last, *places])


def groups_of(text, heading, crate):
    """Each group with its crates, as lines of these two forms name them."""
    found = {}
    for line in text.splitlines():
        if re.match(heading, line):
            crates = found.setdefault(re.match(heading, line).group(1), [])
        elif found and re.match(crate, line):
            crates.append(re.match(crate, line).group(1))
    return found


def wrong_groups(listed, page):
    """What differs between the groups of crates.txt and the tables of the page."""
    groups = groups_of(listed, r"# (.*)$", r"(\w+)[^:#]*:")
    tables = groups_of(page.partition("## Crates\n")[2].partition("\n## ")[0], r"### (.*)$", r"\| (?!crate \|)(\w+) \|")
    if list(groups) != list(tables):
        yield f"{CRATES} has the groups {', '.join(groups)}, and the page {', '.join(tables)}"
    for name in groups:
        if name in tables and groups[name] != tables[name]:
            yield f"{name}: {CRATES} has {', '.join(groups[name])}, and the page {', '.join(tables[name])}"


def wrong_rules(root, page):
    """What the table of rules names that is not there, or names nothing."""
    table = page.partition("## Where a rule is\n")[2].partition("\n## ")[0]
    for line in table.splitlines():
        if not line.startswith("| ") or line.startswith("| rule |"):
            continue
        rule, _, place = line.strip("| ").partition(" | ")
        calls = CALL.findall(place)
        yield from wrong_calls(root, rule, calls, "the table names no function")


def text_of(root, name):
    with open(os.path.join(root, name), encoding="utf-8") as file:
        return file.read()


def main(root):
    page = text_of(root, PAGE)
    paths = paths_of(page)
    wrong = [it for name, items in paths.items() for it in wrong_in(root, name, items)]
    wrong += [it for name, turn in turns_of(page).items() for it in wrong_turn(root, name, *turn)]
    wrong += wrong_groups(text_of(root, CRATES), page)
    wrong += wrong_rules(root, page)
    if not paths:
        wrong.append(f"{PAGE} has no path")
    print("\n".join(wrong), end="\n" if wrong else "")
    return 1 if wrong else 0


if __name__ == "__main__":
    sys.exit(main(*sys.argv[1:2] or [ROOT]))
