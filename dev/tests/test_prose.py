"""The tests of prose, which want Python 3 alone: python3 -m dev.unit test_prose

A page is changed in one way each time, and the script has to say so.
"""

import os
import shutil
import subprocess
import sys
import tempfile
import unittest

from dev import ROOT
from dev.checks import prose


class Dialect(unittest.TestCase):
    def found(self, text):
        return [it.split('"')[1] for it in prose.dialect("PAGE", text)]

    def test_each_word_of_the_list(self):
        for words in (
            "want of memory", "Want of memory", "is wanting", "memory is wanting", "wants memory", "want no memory", "wanted any memory", "no more",
            "so many", "So many", "stands", "stand", "stood", "So it is if", "and so it was", "once more", "from then on", "from now on", "From there on",
        ):
            with self.subTest(words):
                self.assertTrue(self.found(f"Here {words} for a reader."))

    def test_words_that_only_look_like_it(self):
        for words in ("at most, and no more than 3", "a standard", "to understand", "notwithstanding", "it is so", "so they are proved", "once", "a standby", "many", "wants a port"):
            with self.subTest(words):
                self.assertEqual(self.found(words), [])

    def test_code_may_have_them(self):
        self.assertEqual(self.found("Run `stands` now.\n\n```\nso many\n```\n\n[this](that.md#no-more)\n\n[`it`]: once_more.md"), [])

    def test_the_line_is_told(self):
        told = list(prose.dialect("PAGE", "one\n```\ntwo\n```\nHere it stands.\n"))
        self.assertEqual(told, ['PAGE:5: "stands"; instead: is, lies, waits; or the verb of what it does'])


class Printed(unittest.TestCase):
    def found(self, text):
        return [(int(it.split(":")[1]), it.split('"')[1]) for it in prose.dialect("PROGRAM", prose.printed(text), prose.PRINTED)]

    def test_what_is_printed(self):
        self.assertEqual(self.found('"""Help that tells.\n\nIt wants more.\n"""\nprint(f"{x} stands against it")\n'), [(1, "tells"), (3, "wants"), (5, "stands")])
        self.assertEqual(self.found('parser.add_argument("--x", help="so many of it")\nraise Fault("--a wants --b")\n'), [(1, "so many"), (2, "wants")])

    def test_what_is_not(self):
        text = 'def told():\n    """Tells what is wanted."""\n    return "told"\n\n\nclass C:\n    """What stands here."""\n\n\nT = namedtuple("T", "told wanted")\nP = re.compile("no more of")\n'
        self.assertEqual(self.found(text), [])
        self.assertEqual(self.found('print("what you do not want to promise")\nprint("`wants it` is code")\n'), [])

    def test_a_makefile(self):
        told = list(prose.dialect("Makefile", prose.echoed('# this wants Graphviz\nit:\n\t@echo "it stands"\n\t@wants more\n'), prose.PRINTED))
        self.assertEqual([it.split('"')[1] for it in told], ["wants", "stands"])


class PublicDocs(unittest.TestCase):
    def kept(self, text):
        """The lines that are kept, by their numbers."""
        return {number: line for number, line in enumerate(prose.public_docs(text).split("\n"), 1) if line}

    def test_a_public_item(self):
        self.assertEqual(self.kept("/// One.\n///\n/// Two.\npub fn f() {}\n"), {1: "One.", 3: "Two."})
        self.assertEqual(self.kept("    /// One.\n    pub(crate) fn f() {}\n"), {1: "One."})
        self.assertEqual(self.kept("pub struct S {\n    /// One.\n    pub one: u8,\n    /// Two.\n    two: u8,\n}\n"), {2: "One."})

    def test_a_private_item(self):
        self.assertEqual(self.kept("/// One.\nfn f() {}\npub fn g() {}\n"), {})
        self.assertEqual(self.kept("/// One.\nenum E {\n    /// Two.\n    Two,\n}\n"), {})

    def test_what_is_between(self):
        self.assertEqual(self.kept("/// One.\n#[derive(Clone)]\n// a remark\n\npub struct S;\n"), {1: "One."})

    def test_a_public_enum_and_what_comes_behind_it(self):
        text = "/// One.\npub enum E {\n    /// Two.\n    Two {\n        /// Three.\n        three: u8,\n    },\n}\n\n/// Four.\nfn f() {}\n"
        self.assertEqual(self.kept(text), {1: "One.", 3: "Two.", 5: "Three."})

    def test_a_public_trait(self):
        self.assertEqual(self.kept("pub trait T {\n    /// One.\n    fn f(&self);\n}\n"), {2: "One."})

    def test_the_head_of_a_module(self):
        self.assertEqual(self.kept("//! One.\n\nuse it;\n"), {1: "One."})

    def test_other_comments_and_code(self):
        self.assertEqual(self.kept("// One.\npub fn so_many() {}\n//// Two.\npub fn f() {}\n"), {})

    def test_the_line_is_told(self):
        told = list(prose.dialect("SOURCE", prose.public_docs("\n/// As `it stands`:\n/// so many.\npub fn f() {}\n")))
        self.assertEqual(told, ['SOURCE:3: "so many"; instead: the number, by its name'])


class Calling(unittest.TestCase):
    CALLER = "//! A caller.\n\n/// Returns one.\npub fn one() -> u64\n    ensures { result ≡ 1 }\n{\n    1\n}\n"
    PAGE = "# Calling `it`\n\n```rust\npub fn one() -> u64\n    ensures { result ≡ 1 }\n{\n    1\n}\n```\n"

    def said(self, page):
        with tempfile.TemporaryDirectory() as root:
            for name, text in (("src/ones.rt", self.CALLER), ("specs/Ones.antt", "-- one\none = 1\n")):
                path = os.path.join(root, "crates/callers", name)
                os.makedirs(os.path.dirname(path))
                with open(path, "w", encoding="utf-8") as file:
                    file.write(text)
            return list(prose.wrong_calling(root, "PAGE", page))

    def test_the_code_of_a_caller(self):
        self.assertEqual(self.said(self.PAGE), [])
        self.assertEqual(self.said(self.PAGE + "\n```antt\none = 1\n```\n\n```text\nfn one() -> u64\n```\n"), [])

    def test_other_code(self):
        self.assertEqual(self.said(self.PAGE.replace("    1", "    2")), ["PAGE: no caller has the code that begins with 'pub fn one() -> u64'"])

    def test_a_contract_that_is_left_out(self):
        self.assertEqual(len(self.said(self.PAGE.replace("    ensures { result ≡ 1 }\n", ""))), 1)

    def test_parts_of_lines(self):
        self.assertEqual(self.said(self.PAGE + "\n```antt\none\n```\n"), ["PAGE: no caller has the code that begins with 'one'"])

    def test_no_caller(self):
        self.assertEqual(self.said("# Calling `it`\n\n```antt\none = 1\n```\n"), ["PAGE: it quotes no caller"])

    def test_a_long_page(self):
        self.assertEqual(self.said(self.PAGE + "\n" * 80), ["PAGE: 89 lines; 80 are the most"])


class Pages(unittest.TestCase):
    def setUp(self):
        self.work = tempfile.TemporaryDirectory()
        self.root = self.work.name
        for name in ("README.md", "CHANGELOG.md", "CONTRIBUTING.md", "Makefile"):
            shutil.copy(os.path.join(ROOT, name), self.root)
        shutil.copytree(os.path.join(ROOT, "docs"), os.path.join(self.root, "docs"))
        for name in ("crates", "examples", "tools", "warrenctl", "dev"):
            os.symlink(os.path.join(ROOT, name), os.path.join(self.root, name))
        self.crates = os.path.join(self.root, "crates")

    def tearDown(self):
        self.work.cleanup()

    def add(self, page, text):
        with open(os.path.join(self.root, page), "a", encoding="utf-8") as file:
            file.write("\n" + text + "\n")

    def said(self):
        done = subprocess.run([sys.executable, "-m", "dev.checks.prose", self.root], capture_output=True, text=True)
        return done.returncode, done.stdout + done.stderr

    def assertSays(self, text):
        status, said = self.said()
        self.assertEqual(status, 1, said)
        self.assertIn(text, said)

    def test_the_pages_as_they_are(self):
        status, said = self.said()
        self.assertEqual(status, 0, said)

    def test_pages_are_found(self):
        found = prose.found(self.root, prose.PAGES)
        self.assertLessEqual({"README.md", "docs/COSTS.md", "docs/inside/DECISIONS.md", "warrenctl/README.md", "examples/shop/README.md",
                              "crates/queue/CALLING.md", "crates/queue/README.md"}, set(found))

    def test_sources_are_found(self):
        every = {os.path.relpath(os.path.join(folder, it), ROOT)
                 for folder, _, files in os.walk(os.path.join(ROOT, "crates")) for it in files if it.endswith(".rt") and "/src" in folder and "/out/" not in folder}
        self.assertEqual(set(prose.found(self.root, prose.SOURCES)), every)

    def test_a_word_of_the_dialect_in_a_source(self):
        os.remove(self.crates)
        source = os.path.join(self.crates, "one/src/lib.rt")
        os.makedirs(os.path.dirname(source))
        with open(source, "w", encoding="utf-8") as file:
            file.write("//! Here it stands.\n\n/// so many\nfn f() {}\n")
        self.assertSays('crates/one/src/lib.rt:1: "stands"')
        self.assertNotIn('"so many"', self.said()[1])

    def test_a_word_of_the_dialect(self):
        self.add("docs/COSTS.md", "Here it stands.")
        self.assertSays('"stands"')

    def test_a_dead_link(self):
        self.add("docs/CLIENTS.md", "See [this](NOWHERE.md).")
        self.assertSays("docs/CLIENTS.md: NOWHERE.md leads nowhere")

    def test_a_heading_that_is_not_there(self):
        self.add("docs/CLIENTS.md", "See [this](COSTS.md#limits) and [that](COSTS.md#no-limit).")
        self.assertSays("docs/CLIENTS.md: COSTS.md#no-limit leads nowhere")

    def test_a_heading_of_the_same_page(self):
        self.add("docs/COSTS.md", "See [this](#limits).")
        self.assertNotIn("leads nowhere", self.said()[1])
        self.add("docs/COSTS.md", "See [that](#no-limit).")
        self.assertSays("docs/COSTS.md: #no-limit leads nowhere")

    def test_a_link_by_a_name(self):
        self.add("docs/CLIENTS.md", "See [`this`] and [`that`].\n\n[`this`]: COSTS.md\n[`that`]: NOWHERE.md")
        self.assertSays("docs/CLIENTS.md: NOWHERE.md leads nowhere")

    def test_a_name_that_leads_nowhere(self):
        self.add("docs/CLIENTS.md", "See [`this`].")
        self.assertSays("docs/CLIENTS.md: no line says where `this` leads")

    def test_a_row_with_a_name(self):
        self.add("docs/COSTS.md", '| <a id="a-row"></a>a row |')
        self.add("docs/CLIENTS.md", "See [this](COSTS.md#a-row).")
        self.assertNotIn("leads nowhere", self.said()[1])

    def test_a_page_that_is_named_and_not_there(self):
        self.add("docs/inside/TESTING.md", "As docs/PROOFS.md says.")
        self.assertSays("docs/inside/TESTING.md: there is no docs/PROOFS.md")

    def test_a_command_that_is_not_there(self):
        self.add("docs/COSTS.md", "`make tools`, `python3 -m dev.stores`, `examples/ci/check A B C`; please make room.")
        self.add("docs/COSTS.md", "`make toys`, `python3 -m dev.stores.more`, `examples/ci/run.py A`, `examples/ci A`\n\n```\n$ make puppets\n```")
        status, said = self.said()
        self.assertEqual(status, 1)
        found = ("toys", "dev.stores.more", "examples/ci/run.py", "examples/ci", "puppets")
        self.assertEqual([it for it in said.splitlines() if it.endswith(" to run")], [f"docs/COSTS.md: there is no {it} to run" for it in found])

    def test_a_long_readme(self):
        self.add("README.md", "\n" * 120)
        self.assertSays("lines; 120 are the most")


if __name__ == "__main__":
    unittest.main()
