"""The tests of widths, which want Python 3 alone: python3 -m dev.unit test_widths"""

import unittest

from dev.beds.trees import TreeTest
from dev.checks import widths


class Widths(TreeTest):
    tool = "dev.checks.widths"

    def told_of(self, name, line):
        """What is said of a file whose second line this is."""
        self.write(name, "a line\n" + line + "\n")
        return self.told()

    def test_lines_that_fit(self):
        self.assertEqual(self.told_of("crates/one/src/lib.rt", "x" * 160), "")

    def test_a_clause_that_is_too_wide(self):
        self.assertEqual(self.told_of("crates/one/src/a/b.rt", "x" * 161), "crates/one/src/a/b.rt:2: 161 columns, and not 160 at most\n")

    def test_a_definition_that_is_too_wide(self):
        self.assertIn("crates/one/specs/A.antt:2: 200 columns", self.told_of("crates/one/specs/A.antt", "→" * 200))

    def test_columns_are_no_bytes(self):
        self.assertEqual(self.told_of("crates/one/specs/A.antt", "→" * 160), "")

    def test_a_text_that_a_break_would_change(self):
        self.assertEqual(self.told_of("crates/one/src/lib.rt", '    "' + "x" * 200 + '",'), "")

    def test_a_clause_of_several_lines_that_fits_when_joined(self):
        self.assertEqual(self.told_of("crates/one/src/lib.rt", "    ensures ok { " + "x" * 100 + "\n        " + "y" * 40 + " }"), "")

    def test_a_clause_that_is_too_wide_when_joined(self):
        told = self.told_of("crates/one/src/lib.rt", "    ensures ok { " + "x" * 100 + "\n        " + "y" * 41 + " }")
        self.assertEqual(told, "crates/one/src/lib.rt:2: a clause of 161 columns, its lines joined, and not 160 at most\n")

    def test_a_premise_and_an_invariant_are_clauses(self):
        for head in ("    requires at {", "    ghost invariant = {"):
            self.assertIn("a clause of", self.told_of("crates/one/src/lib.rt", head + "\n    " + "x" * 150 + "\n }"))

    def test_a_clause_ends_where_its_brace_closes(self):
        clause = "    ensures { IsOne (record { a = " + "x" * 70 + " }) }\n"
        self.assertEqual(self.told_of("crates/one/src/lib.rt", clause + "    ensures { " + "y" * 90 + " }\n{"), "")

    def test_imports_and_views_are_lists(self):
        for head in ("ghost use Rattle.one.specs.A.{", "    ghost view = { λ c. record {"):
            self.assertEqual(self.told_of("crates/one/src/lib.rt", head + "\n    " + "x" * 140 + ",\n    " + "y" * 140 + ",\n}"), "")

    def test_a_break_inside_parentheses(self):
        told = self.told_of("crates/one/src/lib.rt", "    ensures { Is (one\n        two)\n        (three (four\n        five)) }")
        self.assertEqual(told, "crates/one/src/lib.rt:5: a break inside parentheses, without a deeper indent\n")

    def test_a_break_inside_parentheses_at_a_deeper_indent(self):
        self.assertEqual(self.told_of("crates/one/src/lib.rt", "    ensures { Is\n        (one (two\n            three)) }"), "")

    def test_a_break_between_parentheses(self):
        self.assertEqual(self.told_of("crates/one/src/lib.rt", "    ensures { Is (one)\n        (two)\n        → (three) }"), "")

    def test_a_crate_may_have_as_many_wide_clauses_as_it_had(self):
        clause = "    ensures { " + "x" * 100 + "\n" + "y" * 100 + " }\n"
        for crate, most in list(widths.STILL.items())[:1]:
            self.assertEqual(self.told_of(f"crates/{crate}/src/lib.rt", clause * most), "")
            self.assertEqual(len(self.told_of(f"crates/{crate}/src/lib.rt", clause * (most + 1)).splitlines()), most + 1)

    def test_proofs_are_not_looked_at(self):
        self.assertEqual(self.told_of("crates/one/proofs/A.antt", "x" * 200), "")


if __name__ == "__main__":
    unittest.main()
