"""Checks that each name in docs/PROMISE.md is where the page says: fields, definitions, laws, calls, wrong bodies. Proves nothing."""

import glob
import os
import re
import sys

from dev import ROOT

PAGE = "docs/PROMISE.md"
HEADLINE = "crates/model/specs/Headline.antt"
RECORDS = ("KeepsEach", "KeepsEvents", "KeepsOccurrences", "KeepsPromises")
# fields that hold another record of the promises, and no promise of their own
PARTS = {("KeepsPromises", "events"), ("KeepsEvents", "each"), ("KeepsOccurrences", "each")}
# the records that hold one of them whole
HOLDERS = {"KeepsEach": ("KeepsEvents", "KeepsOccurrences")}
WORD = re.compile(r"[A-Za-z_][A-Za-z_0-9]*")
DEFINES = re.compile(r"^(?:[a-z]+ )*pub (?:record |data |inductive )?([A-Za-z_][A-Za-z_0-9]*)\b")
CODE = re.compile(r"`([^`]+)`")
# definitions, and the file that has them
PLACED = re.compile(r"((?:`[^`]+`(?:, | and )?)+) in \[`([^`]+)`\]")


class Sources:
    """The definitions and contracts of the repository at a folder."""

    def __init__(self, root):
        self.root = root
        self.known = {}
        self.texts = {}
        self.contracts = {}

    def text(self, name):
        if name not in self.texts:
            with open(os.path.join(self.root, name), encoding="utf-8") as file:
                self.texts[name] = file.read()
        return self.texts[name]

    def has(self, name):
        return os.path.isfile(os.path.join(self.root, name))

    def definitions(self, crate):
        """The text of each definition of a crate's specs, by its name, with the file in which it is."""
        if crate not in self.known:
            found = {}
            for path in sorted(glob.glob(os.path.join(self.root, f"crates/{crate}/specs/*.antt"))):
                name, part = None, []
                for line in self.text(os.path.relpath(path, self.root)).splitlines() + [""]:
                    begins = DEFINES.match(line)
                    if begins:
                        name, part = begins.group(1), []
                    if name and line:
                        part.append(line)
                    elif name:
                        found[name] = (os.path.basename(path).removesuffix(".antt"), "\n".join(part))
                        name = None
            self.known[crate] = found
        return self.known[crate]

    def reaches(self, text, word, crates, deep=6):
        """Whether a text names this word, itself or by the definitions that it names."""
        seen, level = set(), {text}
        for _ in range(deep):
            words = {it for part in level for it in WORD.findall(without_comments(part))}
            if word in words:
                return True
            fresh = words - seen
            seen |= words
            level = {self.definitions(crate)[it][1] for crate in crates for it in fresh if it in self.definitions(crate)}
        return False

    def contract(self, crate, function):
        """The contracts of the public functions of this name in a crate."""
        if (crate, function) not in self.contracts:
            self.contracts[crate, function] = self._contract(crate, function)
        return self.contracts[crate, function]

    def _contract(self, crate, function):
        found = []
        for path in sorted(glob.glob(os.path.join(self.root, f"crates/{crate}/src/**/*.rt"), recursive=True)):
            lines = self.text(os.path.relpath(path, self.root)).splitlines()
            for place, line in enumerate(lines):
                if re.match(rf"\s*pub fn {function}\b", line):
                    indent = line[: len(line) - len(line.lstrip())]
                    ends = (at for at in range(place, len(lines)) if lines[at].startswith(indent + "{"))
                    found.append("\n".join(lines[place : next(ends, place + 1)]))
        return "\n".join(found)


def without_comments(text):
    return "\n".join(re.sub(r"(^|\s)(--|//).*", "", line) for line in text.splitlines())


def fields_of(text, record):
    """The fields of a record, each with its clause."""
    body = re.search(rf"^pub record {record}\b.*?(?=^\S)", text, re.MULTILINE | re.DOTALL)
    # a clause that is broken over lines is read as one
    joined = re.sub(r"\n {3,}", " ", body.group(0)) if body else ""
    return dict(re.findall(r"^  pub ([a-z_]+) : (.*)$", joined, re.MULTILINE))


class Page:
    """The tables of docs/PROMISE.md, and what is wrong with them."""

    def __init__(self, sources):
        self.sources = sources
        self.wrong = []
        self.rows, self.calls, self.grounds = self._tables(self.sources.text(PAGE))

    def say(self, what):
        self.wrong.append(what)

    def _tables(self, text):
        rows, calls, grounds = [], {}, []
        for line in text.splitlines():
            cells = [it.strip() for it in line.strip("|").split("|")] if line.startswith("|") else []
            if len(cells) == 7 and CODE.search(cells[1]):
                rows.append(cells)
            elif len(cells) == 3 and CODE.match(cells[0]) and "::" in cells[0]:
                calls[CODE.match(cells[0]).group(1)] = cells
            elif len(cells) == 5 and CODE.search(cells[1]):
                grounds.append(cells)
        return rows, calls, grounds

    # ---- each cell

    def check_field(self, cell, word, fields):
        record, _, field = cell.partition(".")
        if record not in RECORDS or field not in fields.get(record, {}):
            self.say(f"{HEADLINE} has no field {cell}")
        elif word not in WORD.findall(fields[record][field]):
            self.say(f"the field {cell} does not name {word}")
        return record, field

    def check_definition(self, word, file):
        crate, _, file = file.rpartition("/")
        crate = crate or "model"
        found = self.sources.definitions(crate).get(word)
        if found is None or found[0] != file:
            self.say(f"crates/{crate}/specs/{file}.antt does not define {word}")

    def check_law(self, law, word, record):
        contract = self.sources.contract("laws", law)
        if not contract:
            self.say(f"crates/laws has no law {law}")
        elif not any(self.sources.reaches(contract, it, ("laws",)) for it in (word, record, *HOLDERS.get(record, ()))):
            self.say(f"the law {law} speaks of neither {word} nor {record}")

    def check_call(self, call, record):
        if call not in self.calls:
            self.say(f"the call {call} is not in the table of calls")
            return
        crate = CODE.findall(self.calls[call][1])[0]
        contract = self.sources.contract(crate, call.split("::")[-1])
        if not contract:
            self.say(f"crates/{crate} has no public call {call}")
        elif not self.sources.reaches(contract, record, (crate, "model")):
            self.say(f"the contract of {call} does not promise {record}")

    def check_refuted(self, cell, word):
        record, _, field = cell.partition(".")
        found = self.sources.definitions("laws").get(record)
        lines = fields_of("\n" + found[1] + "\n.", record) if found else {}
        if field not in lines:
            self.say(f"crates/laws/specs has no {cell}")
            return
        if record not in WORD.findall(self.sources.contract("laws", "worked_examples")):
            self.say(f"the law worked_examples does not have {record}")
        refuted = WORD.findall(lines[field])[0]
        whole = self.sources.definitions("model").get(word, ("", ""))[1]
        if "⊥" not in lines[field] or not (refuted == word or self.sources.reaches(whole, refuted, ("model",))):
            self.say(f"{cell} refutes nothing of {word}")

    def check_edit(self, cell):
        crate, _, edit = cell.partition("/")
        if not self.sources.has(f"crates/{crate}/must-fail/{edit}.edit"):
            self.say(f"there is no crates/{crate}/must-fail/{edit}.edit")

    # ---- all of it

    def check_row(self, row, fields):
        names = [CODE.findall(cell) for cell in row]
        for place, what in ((1, "a field"), (2, "a definition and its file"), (3, "a law"), (4, "a call")):
            if len(names[place]) != (2 if place == 2 else 1):
                self.say(f"the row `{row[1]}` does not name {what}")
                return None
        field, (word, file), law, call = names[1][0], names[2], names[3][0], names[4][0]
        told = self.check_field(field, word, fields)
        self.check_definition(word, file)
        self.check_law(law, word, told[0])
        self.check_call(call, told[0])
        for cell in names[5]:
            self.check_refuted(cell, word)
        for cell in names[6]:
            self.check_edit(cell)
        if not names[5] and not names[6] and row[6] != "none yet":
            self.say(f"the row {field} names nothing that is refused")
        return told

    def check_ground(self, row):
        """What the promises rest on: definitions, a law of some crate that speaks of one, a call whose contract has each, and wrong bodies."""
        placed = [(CODE.findall(words), file) for words, file in PLACED.findall(row[1])]
        names = [CODE.findall(cell) for cell in row]
        if not placed or [len(it) for it in names[2:4]] != [1, 1] or not names[4]:
            self.say(f"the row `{row[0]}` lacks a name")
            return
        words, law, call = [it for some, _ in placed for it in some], names[2][0], names[3][0]
        for some, file in placed:
            for word in some:
                self.check_definition(word, file)
        if not any(self.speaks(law, word) for word in words):
            self.say(f"the law {law} does not speak of {' or '.join(words)}")
        for word in words:
            if not self.speaks(call, word):
                self.say(f"the call {call} does not speak of {word}")
        for cell in names[4]:
            self.check_edit(cell)

    def speaks(self, name, word):
        """Whether the contract of a law or a call reaches a word."""
        crate, _, function = name.partition("::")
        return self.sources.reaches(self.sources.contract(crate, function), word, (crate, "certificate_laws", "model"))

    def check(self):
        fields = {record: fields_of(self.sources.text(HEADLINE), record) for record in RECORDS}
        told = [self.check_row(row, fields) for row in self.rows]
        for record in RECORDS:
            for field in fields[record]:
                count = told.count((record, field))
                if count != ((record, field) not in PARTS):
                    self.say(f"the field {record}.{field} has {count} rows")
        for call, cells in self.calls.items():
            for promised in CODE.findall(cells[2]) or ["KeepsPromises"]:
                self.check_call(call, promised)
        for row in self.grounds:
            self.check_ground(row)
        if not self.rows or not self.calls or not self.grounds:
            self.say("a table is missing")
        return self.wrong


def main(root):
    try:
        page = Page(Sources(root))
        wrong = page.check()
    except OSError as error:
        wrong = [f"{error.filename}: {error.strerror}"]
    for it in wrong:
        print(f"{PAGE}: {it}")
    if not wrong:
        print(f"{PAGE}: {len(page.rows)} promises, each where it is said to be")
    return 1 if wrong else 0


if __name__ == "__main__":
    sys.exit(main(*sys.argv[1:2] or [ROOT]))
