"""Checks the pages: that no link leads nowhere, that what they say to run is there, how long the README is, that no sentence has a word of the dialect below, and
that a crate's CALLING.md quotes a proved caller. Checks the doc comments of what is public in each crate for the same words, and what warrenctl, dev and the Makefile print.

The words are short and true, and a reader stops at them. Beside each is what to write instead. Quoted code may have them.

Public is what begins with `pub`, each variant of a public enum, each item of a public trait, and each module's head.

A CALLING.md has at most 80 lines. Each of its blocks of code and of definitions is found word for word, in whole lines, in a source or a definition of
crates/callers, and one of them at least has a public function.
"""

import ast
import glob
import os
import re
import sys

from dev import ROOT

CALLING = "crates/*/CALLING.md"
PAGES = ("README.md", "CHANGELOG.md", "CONTRIBUTING.md", "warrenctl/README.md", "dev/README.md", "docs/*.md", "docs/inside/*.md", "examples/*/README.md", "crates/*/README.md", CALLING)
# what is printed by these, with their help, has none of the words below and none of PRINTED
PROGRAMS = ("warrenctl/*.py", "warrenctl/[!t]*/*.py", "warrenctl/commands/*/*.py", "dev/*.py", "dev/*/__main__.py")
SOURCES = ("crates/*/src/*.rt", "crates/*/src/*/*.rt", "crates/*/src/*/*/*.rt")
# these name pages, too
BESIDE = ("crates/cases/data/*/*.script",)
MOST_LINES = 120
MOST_CALLING_LINES = 80
CALLERS = ("crates/callers/src/*.rt", "crates/callers/specs/*.antt")
QUOTED = re.compile(r"^```(?:rust|antt)\n(.*?)^```$", re.MULTILINE | re.DOTALL)
DIALECT = (
    (r"want of memory", "allocation failure"),
    (r"wanting", "is missing; or: an allocation fails"),
    (r"(?:wants?|wanted) (?:no |any |some )?memory", "allocates, may allocate, never allocates"),
    (r"no more(?! than)", "no longer, nothing else, no further"),
    (r"so many", "the number, by its name"),
    (r"stands?|stood", "is, lies, waits; or the verb of what it does"),
    (r"so it (?:is|was)", "the clause again, or a list"),
    (r"once more", "again, one more time"),
    (r"from (?:then|now|there) on", "since, after that, later"),
)
# these have rows and patterns as strings
NOT_PRINTED = ("dev/stores.py",)
# words of printed text alone
PRINTED = (
    (r"wants?(?! to)|wanted", "needs, requires"),
    (r"tells?|told", "prints, says, names, explains"),
)
ANY = re.compile(rf"\b(?:{'|'.join(words for words, _ in DIALECT)})\b", re.IGNORECASE)
ANY_PRINTED = re.compile(rf"\b(?:{'|'.join(words for words, _ in (*DIALECT, *PRINTED))})\b", re.IGNORECASE)
LINK = re.compile(r"\]\(([^)]+)\)")
# a link by a name, [`name`], leads where a line of the page says
NAMED_LINK = re.compile(r"\[(`[^`]+`)\](?![(:])")
LEADS = re.compile(r"^\[(`[^`]+`)\]: (\S+)$", re.MULTILINE)
PLACE = re.compile(r'<a id="([a-z-]+)"></a>')
NAMED = re.compile(r"\bdocs/[A-Za-z/]+\.md\b")
# code in a sentence or a block; and what it runs: a target of the Makefile, a module, a file of the examples
CODE = re.compile(r"`([^`]+)`")
RUN = re.compile(r"^(?:\$ )?(?:make ([a-z][a-z-]*)|python3 -m ((?:dev|examples)\.[\w.]*\w)|(?:\./)?(examples/[\w./-]+) .)", re.MULTILINE)
# says what was
HISTORY = "CHANGELOG.md"
DOC = re.compile(r"\s*(///(?!/)|//!) ?")
# what may be between a doc comment and its item
BETWEEN = re.compile(r"\s*(?:#!?\[.*|//(?![/!]).*)?$")
PUBLIC = re.compile(r"\s*pub\b")
# their variants and items are as public as they are
OPENS = re.compile(r"(\s*)pub(?:\([a-z]+\))? (?:enum|trait)\b.*\{$")


def text_of(root, page):
    with open(os.path.join(root, page), encoding="utf-8") as file:
        return file.read()


def found(root, patterns):
    return [os.path.relpath(path, root) for pattern in patterns for path in sorted(glob.glob(os.path.join(root, pattern)))]


def without_blocks(text):
    """The text with its blocks of code as empty lines."""
    return re.sub(r"^```.*?^```", lambda block: "\n" * block.group(0).count("\n"), text, flags=re.MULTILINE | re.DOTALL)


def sentences(text):
    """The lines of a page, without code and without where links lead."""
    return LINK.sub("]", re.sub(r"`[^`\n]*`", "code", LEADS.sub("", without_blocks(text)))).split("\n")


def anchors_of(text):
    """The headings of a page, and its rows that have a name, as links name them."""
    headings = re.findall(r"^#+ (.*)$", without_blocks(text), re.MULTILINE)
    return [re.sub(r"[^a-z0-9 _-]", "", it.lower()).replace(" ", "-") for it in headings] + PLACE.findall(text)


def is_there(root, page, target):
    name, _, anchor = target.partition("#")
    path = os.path.normpath(os.path.join(os.path.dirname(page), name)) if name else page
    return os.path.exists(os.path.join(root, path)) and (not anchor or anchor in anchors_of(text_of(root, path)))


def dead_links(root, page, text):
    leads = dict(LEADS.findall(text))
    yield from (f"{page}: no line says where {it} leads" for it in NAMED_LINK.findall(without_blocks(text)) if it not in leads)
    targets = [*LINK.findall(text), *leads.values()]
    yield from (f"{page}: {it} leads nowhere" for it in targets if "://" not in it and not is_there(root, page, it))


def dead_names(root, page, text):
    yield from (f"{page}: there is no {it}" for it in NAMED.findall(text) if not os.path.exists(os.path.join(root, it)))


def is_run(root, target, module, file):
    """Returns whether one of these that is given can be run here."""
    if target:
        return re.search(rf"^(?:[a-z -]+ )?{target}(?: [a-z -]+)?:", text_of(root, "Makefile"), re.MULTILINE)
    if module:
        path = os.path.join(root, module.replace(".", "/"))
        return os.path.exists(f"{path}.py") or os.path.exists(f"{path}/__main__.py")
    return os.access(os.path.join(root, file), os.X_OK) and not os.path.isdir(os.path.join(root, file))


def dead_commands(root, page, text):
    if page != HISTORY:
        asked = [it for code in CODE.findall(text) for it in RUN.findall(code)]
        yield from (f"{page}: there is no {target or module or file} to run" for target, module, file in asked if not is_run(root, target, module, file))


def dialect(page, text, more=()):
    for number, line in enumerate(sentences(text), 1):
        for it in ANY_PRINTED.finditer(line) if more else ANY.finditer(line):
            instead = next(instead for words, instead in (*DIALECT, *more) if re.fullmatch(words, it.group(0), re.IGNORECASE))
            yield f"{page}:{number}: \"{it.group(0)}\"; instead: {instead}"


def parts_with_text(node):
    """The parts of a part of a program that may have text for people: no doc string of a function or a class, names of fields, or pattern."""
    inner = list(ast.iter_child_nodes(node))
    if isinstance(node, (ast.FunctionDef, ast.ClassDef)) and ast.get_docstring(node) is not None:
        return [it for it in inner if it is not node.body[0]]
    called = getattr(node.func, "attr", getattr(node.func, "id", "")) if isinstance(node, ast.Call) else ""
    return [] if called in ("namedtuple", "compile") else inner


def printed(text):
    """The text of a program with all lines empty but what its strings have, at the lines where they are. A string with a blank in it is for people."""
    lines = [""] * (text.count("\n") + 1)
    waiting = [ast.parse(text)]
    while waiting:
        node = waiting.pop()
        if isinstance(node, ast.Constant) and isinstance(node.value, str) and " " in node.value:
            for place, line in enumerate(node.value.split("\n"), node.lineno - 1):
                lines[min(place, len(lines) - 1)] += line + " "
        waiting += parts_with_text(node)
    return "\n".join(lines)


def echoed(text):
    """The comments of a Makefile, and what it prints."""
    return "\n".join(line if re.match(r"#|\t@echo", line) else "" for line in text.split("\n"))


def inside_public(lines):
    """For each line whether it is inside a public enum or trait."""
    closing = None
    for line in lines:
        yield closing is not None
        opened = OPENS.match(line)
        if opened and closing is None:
            closing = opened.group(1) + "}"
        elif line == closing:
            closing = None


def public_docs(text):
    """The text of a source with all lines empty but the doc comments of what is public, at the lines where they are."""
    lines = text.split("\n")
    kept = [""] * len(lines)
    pending = []
    for number, (line, is_inside) in enumerate(zip(lines, inside_public(lines))):
        doc = DOC.match(line)
        if doc and (doc.group(1) == "//!" or is_inside):
            kept[number] = line[doc.end():]
        elif doc:
            pending.append(number)
        elif not BETWEEN.match(line):
            if PUBLIC.match(line):
                for it in pending:
                    kept[it] = DOC.sub("", lines[it], count=1)
            pending = []
    return "\n".join(kept)


def wrong_quotes(root, page, text):
    """What a page for callers quotes otherwise than the proved callers have it."""
    callers = ["\n" + text_of(root, it) for it in found(root, CALLERS)]
    blocks = QUOTED.findall(text)
    yield from (f"{page}: no caller has the code that begins with {it.splitlines()[0]!r}" for it in blocks if not any("\n" + it in caller for caller in callers))
    if not any(re.search(r"^pub fn ", it, re.MULTILINE) for it in blocks):
        yield f"{page}: it quotes no caller"


def wrong_calling(root, page, text):
    lines = text.count("\n")
    if lines > MOST_CALLING_LINES:
        yield f"{page}: {lines} lines; {MOST_CALLING_LINES} are the most"
    yield from wrong_quotes(root, page, text)


def wrong_in(root, page):
    text = text_of(root, page)
    yield from dead_links(root, page, text)
    yield from dead_names(root, page, text)
    yield from dead_commands(root, page, text)
    yield from dialect(page, text)
    if os.path.basename(page) == "CALLING.md":
        yield from wrong_calling(root, page, text)
    lines = text.count("\n")
    if page == "README.md" and lines > MOST_LINES:
        yield f"{page}: {lines} lines; {MOST_LINES} are the most"


def main(root):
    pages = found(root, PAGES)
    wrong = [it for page in pages for it in wrong_in(root, page)]
    sources = found(root, SOURCES)
    wrong += [it for source in sources for it in dialect(source, public_docs(text_of(root, source)))]
    programs = [it for it in found(root, PROGRAMS) if it not in NOT_PRINTED]
    wrong += [it for name in programs for it in dialect(name, printed(text_of(root, name)), PRINTED)]
    if os.path.exists(os.path.join(root, "Makefile")):
        wrong += dialect("Makefile", echoed(text_of(root, "Makefile")), PRINTED)
    wrong += [it for page in found(root, BESIDE) for it in dead_names(root, page, text_of(root, page))]
    for it in wrong:
        print(it)
    print(f"{len(pages)} pages, {len(sources)} sources, {len(programs)} programs, {len(wrong)} faults")
    return 1 if wrong else 0


if __name__ == "__main__":
    sys.exit(main(*sys.argv[1:2] or [ROOT]))
