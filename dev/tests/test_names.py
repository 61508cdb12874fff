"""The tests of names, which want Python 3 alone: python3 -m dev.unit test_names"""

import os
import subprocess
import sys
import unittest

from dev.beds.trees import TreeTest

TWO = "-- A file.\nuse Rattle.std.A.{x, y}\nuse Rattle.std.B.{z}\n\nfact = x\n"


class Names(TreeTest):
    tool = "dev.checks.names"

    def read(self, name):
        with open(os.path.join(self.root, name), encoding="utf-8") as file:
            return file.read()

    def gather(self):
        done = subprocess.run([sys.executable, "-m", "dev.checks.names", "write", os.path.join(self.root, "crates/one")], capture_output=True, text=True)
        self.assertEqual((done.returncode, done.stderr), (0, ""))
        return done.stdout

    def two(self, first=TWO, second=TWO):
        """A crate with two proof files."""
        self.write("crates/one/proofs/Lib.antt", "mod First\nmod Second\n")
        self.write("crates/one/proofs/First.antt", first)
        self.write("crates/one/proofs/Second.antt", second)

    def test_names_of_two_files_are_gathered(self):
        self.two()
        self.assertEqual(self.gather(), "one: 0 lines fewer\n")
        self.assertEqual(
            self.read("crates/one/proofs/Names.antt"),
            "-- The names that several files of these proofs use.\npub use Rattle.std.A.{x, y}\npub use Rattle.std.B.{z}\n",
        )
        self.assertEqual(self.read("crates/one/proofs/First.antt"), "-- A file.\nuse Rattle.one.proofs.Names.{x, y, z}\n\nfact = x\n")
        self.assertEqual(self.read("crates/one/proofs/Lib.antt"), "pub mod Names\nmod First\nmod Second\n")
        self.assertEqual(self.told(), "")

    def test_a_crate_with_a_module_of_that_name_has_another_file(self):
        self.two()
        self.write("crates/one/src/names.rt", "")
        self.gather()
        self.assertEqual(self.read("crates/one/proofs/Imports.antt").splitlines()[1], "pub use Rattle.std.A.{x, y}")
        self.assertEqual(self.read("crates/one/proofs/First.antt"), "-- A file.\nuse Rattle.one.proofs.Imports.{x, y, z}\n\nfact = x\n")
        self.assertEqual(self.read("crates/one/proofs/Lib.antt"), "pub mod Imports\nmod First\nmod Second\n")
        self.assertEqual(self.told(), "")

    def test_so_has_one_with_a_type_of_that_name(self):
        self.two()
        self.write("crates/one/src/lists.rt", "pub struct Names {\n}\n")
        self.gather()
        self.assertEqual(self.read("crates/one/proofs/Lib.antt"), "pub mod Imports\nmod First\nmod Second\n")

    def test_a_second_time_changes_nothing(self):
        self.two()
        self.gather()
        texts = [self.read(f"crates/one/proofs/{name}.antt") for name in ("Names", "Lib", "First", "Second")]
        self.assertEqual(self.gather(), "one: -2 lines fewer\n")
        self.assertEqual([self.read(f"crates/one/proofs/{name}.antt") for name in ("Names", "Lib", "First", "Second")], texts)

    def test_a_name_of_two_modules_stays(self):
        self.two("use Rattle.std.A.{x}\nuse Rattle.std.B.{y}\n", "use Rattle.std.A.{y}\nuse Rattle.std.B.{z}\n")
        self.gather()
        self.assertEqual(self.read("crates/one/proofs/First.antt"), "use Rattle.one.proofs.Names.{x}\nuse Rattle.std.B.{y}\n")
        self.assertEqual(self.read("crates/one/proofs/Second.antt"), "use Rattle.one.proofs.Names.{z}\nuse Rattle.std.A.{y}\n")

    def test_a_name_that_is_renamed_stays(self):
        self.two("use Rattle.std.A.{x as w, y}\n")
        self.gather()
        self.assertEqual(self.read("crates/one/proofs/First.antt"), "use Rattle.one.proofs.Names.{y}\nuse Rattle.std.A.{x as w}\n")

    def test_a_name_that_is_unfolded_stays(self):
        self.two(TWO + "unfolding z\n")
        self.gather()
        self.assertEqual(self.read("crates/one/proofs/Second.antt"), "-- A file.\nuse Rattle.one.proofs.Names.{x, y}\nuse Rattle.std.B.{z}\n\nfact = x\n")

    def test_what_one_file_imports_stays(self):
        self.two("use Rattle.std.A.{x}\n", "use Rattle.std.B.{z}\n")
        self.assertEqual(self.gather(), "one: 0 lines fewer\n")
        self.assertEqual(self.read("crates/one/proofs/First.antt"), "use Rattle.std.A.{x}\n")
        self.assertFalse(os.path.exists(os.path.join(self.root, "crates/one/proofs/Names.antt")))

    def test_own_proofs_stay(self):
        self.two("use Rattle.one.proofs.Second.{s}\n", "use Rattle.one.proofs.Second.{s}\n")
        self.gather()
        self.assertEqual(self.read("crates/one/proofs/First.antt"), "use Rattle.one.proofs.Second.{s}\n")

    def test_an_import_that_comes_back_is_told(self):
        self.two()
        self.gather()
        self.write("crates/one/proofs/First.antt", "use Rattle.std.A.{x}\n")
        self.assertEqual(self.told(), "crates/one/proofs/First.antt: takes x of Rattle.std.A, which proofs/Names.antt has\n")

    def test_a_crate_without_the_file_is_left_alone(self):
        self.two()
        self.assertEqual(self.told(), "")


if __name__ == "__main__":
    unittest.main()
