"""Keeps the names that several proof files of a crate import in one file of it, proofs/Names.antt. In a crate with a module `names` or
a public type `Names` that file is proofs/Imports.antt. Proves nothing.

python3 -m dev.checks.names write CRATE ..   gathers the names in that file of each crate, and lets its proof files import them from there
python3 -m dev.checks.names [ROOT]           prints each proof file that imports from elsewhere what that file of its crate has
"""

import collections
import glob
import os
import re
import sys

from dev import ROOT

LINE = re.compile(r"^use (?P<module>\S+)\.\{(?P<names>[^{}]*)\}$")
TYPE = re.compile(r"pub (struct|enum|trait) Names\b")
HEAD = "-- The names that several files of these proofs use.\n"


def names_of(line):
    """The module of an import and its names, unless the line is none, or renames what it imports."""
    found = LINE.match(line.rstrip("\n"))
    if not found:
        return None
    return found["module"], [name.strip() for name in found["names"].split(",") if name.strip()]


def plain(names):
    """The names that keep theirs."""
    return [name for name in names if " as " not in name]


def module_of(crate):
    """The module of the names: no module and no type of the crate's code is spelled like it but for the case of its letters."""
    files = glob.glob(os.path.join(crate, "src/**/*.rt"), recursive=True)
    is_taken = any(path.endswith("/src/names.rt") or any(TYPE.match(line) for line in read(path)) for path in files)
    return "Imports" if is_taken else "Names"


def home_of(crate):
    """The file of the names."""
    return os.path.join(crate, f"proofs/{module_of(crate)}.antt")


def files_of(crate):
    """The proof files of a crate, but for the list of its modules and the one with the names."""
    top = os.path.join(crate, "proofs")
    kept = (home_of(crate), os.path.join(top, "Lib.antt"))
    return [path for path in sorted(glob.glob(os.path.join(top, "**/*.antt"), recursive=True)) if path not in kept]


def read(path):
    with open(path, encoding="utf-8") as file:
        return file.read().splitlines(keepends=True)


def write(path, lines):
    with open(path, "w", encoding="utf-8") as file:
        file.write("".join(lines))


def is_own(module, name):
    """Whether a module is of the crate's own proofs, or was made of its contracts."""
    return module.startswith((f"Rattle.{name}.proofs.", f"Rattle.{name}.specs.contracts."))


def imports(crate):
    """What each file imports, by its path: the names of each module that is not of the crate's own proofs."""
    name = os.path.basename(crate)
    found = {}
    for path in files_of(crate):
        modules = collections.defaultdict(list)
        for line in read(path):
            parts = names_of(line)
            if parts and not is_own(parts[0], name):
                modules[parts[0]] += plain(parts[1])
        found[path] = modules
    return found


def unfolded(crate):
    """The names that proofs of a crate unfold: a name that is passed on can't be."""
    lines = (line for path in files_of(crate) for line in read(path))
    return {word for line in lines if line.startswith("unfolding ") for word in line.split()[1:]}


def shared(found, stay):
    """The names to gather, by module: of each module that two files import, those that no other module has, but for `stay`."""
    users, homes = collections.Counter(), collections.defaultdict(set)
    names = collections.defaultdict(dict)
    for modules in found.values():
        for module, those in modules.items():
            users[module] += 1
            for name in those:
                homes[name].add(module)
                names[module][name] = None
    gathered = {}
    for module in sorted(names):
        those = sorted(name for name in names[module] if homes[name] == {module} and name not in stay)
        if users[module] > 1 and those:
            gathered[module] = those
    return gathered


def hub(crate):
    """The names that the file of a crate's names has, by module; none unless it is there."""
    path = home_of(crate)
    if not os.path.exists(path):
        return {}
    lines = [names_of(line.removeprefix("pub ")) for line in read(path) if line.startswith("pub use ")]
    return {module: set(names) for module, names in filter(None, lines)}


def rewritten(lines, crate, gathered):
    """The lines of a file that imports what is gathered from the crate's own file, in the place of its first import."""
    mine, kept, first = f"Rattle.{os.path.basename(crate)}.proofs.{module_of(crate)}", [], None
    taken = {}
    for line in lines:
        parts = names_of(line)
        if parts is None:
            kept.append(line)
            continue
        module, names = parts
        first = len(kept) if first is None else first
        there = set(names) if module == mine else gathered.get(module, set())
        taken.update((name, None) for name in names if name in there)
        rest = [name for name in names if name not in there]
        if rest:
            kept.append(f"use {module}.{{{', '.join(rest)}}}\n")
    if taken:
        kept.insert(first, f"use {mine}.{{{', '.join(taken)}}}\n")
    return kept


def gather(crate):
    """Writes the file of a crate's names, and lets its proof files import from there. Tells how many lines fewer there are."""
    crate = crate.rstrip("/")
    found = imports(crate)
    gathered = {module: set(names) for module, names in hub(crate).items()}
    for module, names in shared(found, unfolded(crate)).items():
        gathered.setdefault(module, set()).update(names)
    before = after = 0
    for path in found:
        lines = read(path)
        new = rewritten(lines, crate, gathered)
        before, after = before + len(lines), after + len(new)
        if new != lines:
            write(path, new)
    text = [f"pub use {module}.{{{', '.join(sorted(names))}}}\n" for module, names in sorted(gathered.items())]
    if text:
        write(home_of(crate), [HEAD, *text])
        list_module(os.path.join(crate, "proofs/Lib.antt"), module_of(crate))
    return before - after - len(text)


def list_module(path, module):
    """Lists the file of the names in the list of modules, first."""
    lines = read(path) if os.path.exists(path) else []
    if not any(line.split()[-1:] == [module] for line in lines):
        write(path, [f"pub mod {module}\n", *lines])


def astray(root):
    """Each import of a name that the file of its crate's names has."""
    for crate in sorted(glob.glob(os.path.join(root, "crates/*"))):
        there = hub(crate)
        for path, modules in imports(crate).items() if there else ():
            for module, names in modules.items():
                both = sorted(set(names) & there.get(module, set()))
                if both:
                    yield f"{os.path.relpath(path, root)}: takes {', '.join(both)} of {module}, which {os.path.relpath(home_of(crate), crate)} has"


def main(root):
    found = list(astray(root))
    print("\n".join(found), end="\n" if found else "")
    return 1 if found else 0


def gather_all(crates):
    for crate in crates:
        print(f"{os.path.basename(crate.rstrip('/'))}: {gather(crate)} lines fewer")
    return 0


if __name__ == "__main__":
    sys.exit(gather_all(sys.argv[2:]) if sys.argv[1:2] == ["write"] else main(*sys.argv[1:2] or [ROOT]))
