"""The tests of edits, which want Python 3 alone: python3 -m dev.unit test_edits"""

import os
import unittest

from dev.beds.trees import TreeTest

SOURCE = "fn f() {\n    a < b;\n    c\n}\n"
EDIT = "file: src/lib.rt\nold:     a < b;\nnew:     a <= b;\n"
PAGE = "| a wrong body | where |\n|---|---|\n| it counts one more | one, `counts_one_more` |\n"


class Edits(TreeTest):
    tool = "dev.checks.edits"

    def setUp(self):
        super().setUp()
        self.write("crates/one/src/lib.rt", SOURCE)
        self.write("crates/one/must-fail/counts_one_more.edit", EDIT)
        self.write("docs/inside/TESTING.md", PAGE)

    def test_all_apply(self):
        self.assertEqual(self.told(), "")

    def test_an_old_text_that_is_gone(self):
        self.write("crates/one/src/lib.rt", SOURCE.replace("a < b", "a > b"))
        self.assertIn("one/must-fail/counts_one_more.edit: src/lib.rt has its old text 0 times", self.told())

    def test_an_old_text_that_is_there_twice(self):
        self.write("crates/one/src/lib.rt", SOURCE + SOURCE)
        self.assertIn("has its old text 2 times", self.told())

    def test_a_file_that_is_gone(self):
        os.remove(os.path.join(self.root, "crates/one/src/lib.rt"))
        self.assertIn("src/lib.rt is not there", self.told())

    def test_a_later_pair_applies_to_what_an_earlier_one_made(self):
        self.write("crates/one/must-fail/counts_one_more.edit", EDIT + "file: src/lib.rt\nold:     a <= b;\nnew:     b;\n")
        self.assertEqual(self.told(), "")

    def test_an_edit_without_a_row_and_a_row_without_an_edit(self):
        self.write("docs/inside/TESTING.md", PAGE.replace("counts_one_more", "counts_one_less"))
        self.assertEqual(
            self.told(),
            "docs/inside/TESTING.md: one, `counts_one_more` has no row\ndocs/inside/TESTING.md: one, `counts_one_less` is no edit\n",
        )

    def test_eleven_edits_of_a_crate(self):
        rows = ""
        for number in range(11):
            self.write(f"crates/one/must-fail/edit_{number}.edit", EDIT)
            rows += f"| number {number} | one, `edit_{number}` |\n"
        self.write("docs/inside/TESTING.md", PAGE + rows)
        self.assertEqual(self.told(), "one: 12 edits, and at most 10 may be\n")

    def test_edits_in_too_many_crates(self):
        rows = ""
        for number in range(23):
            crate = f"of_{chr(97 + number)}"
            self.write(f"crates/{crate}/src/lib.rt", SOURCE)
            self.write(f"crates/{crate}/must-fail/other.edit", EDIT)
            rows += f"| crate {number} | {crate}, `other` |\n"
        self.write("docs/inside/TESTING.md", PAGE + rows)
        self.assertEqual(self.told(), "24 crates have edits, and at most 23 may have any\n")

    def test_a_line_that_is_not_read(self):
        self.write("crates/one/must-fail/counts_one_more.edit", EDIT + "ensures nothing\n")
        self.assertIn("a line that is not read: ensures nothing", self.told())


if __name__ == "__main__":
    unittest.main(verbosity=0)
