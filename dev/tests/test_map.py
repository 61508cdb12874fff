"""The tests of map, which want Python 3 alone: python3 -m dev.unit test_map"""

import unittest

from dev.beds.trees import TreeTest

TABLES = "## Crates\n\n### Letters\n\nIn words.\n\n| crate | does |\n|---|---|\n| bag | holds |\n| post | sorts |\n\n"
LISTED = "# Letters\nbag:\npost: bag\n"
PAGE = "# A map\n\n" + TABLES + "## The path of a letter\n\nIn words.\n\n1. `post::Office::take`: **the box**\n2. `post::sorting::sort`:\n   by its street\n3. `bag::put`\n\nBehind.\n"
RULES = "\n## Where a rule is\n\nIn words.\n\n| rule | decided by |\n|---|---|\n| which street a letter is of | `post::sorting::sort` |\n"
TURN = "\n## A turn of an office\n\nIt is short.\n\nIn a turn (`post::turns::turn`) the office\n\n1. opens (`post::turns::open`);\n2. sorts what\n   is there (`post::sorting::sort`).\n\nThen it rests.\n"
TURNS = "fn open() {}\n\nfn turn(office: &Office) {\n    open();\n    sort(office);\n}\n"
OFFICE = "impl Office {\n    pub fn take(&self) {\n        sort(self);\n    }\n}\n\nimpl Other {\n    fn take(&self) {}\n}\n"
SORTING = "pub(crate) fn sort(office: &Office) {\n    let bag = Bag::new();\n    bag.put(1);\n}\n"
BAG = "impl Bag {\n    pub fn put(&mut self, one: u64) {}\n}\n"


class Map(TreeTest):
    tool = "dev.checks.map"

    def setUp(self):
        super().setUp()
        self.write("docs/inside/ARCHITECTURE.md", PAGE)
        self.write("crates.txt", LISTED)
        self.write("crates/post/src/lib.rt", OFFICE)
        self.write("crates/post/src/sorting.rt", SORTING)
        self.write("crates/bag/src/lib.rt", BAG)

    def test_each_is_there(self):
        self.assertEqual(self.told(), "")

    def test_a_call_that_is_gone(self):
        self.write("crates/bag/src/lib.rt", BAG.replace("fn put", "fn lay"))
        self.assertIn("The path of a letter, 3: `bag::put` is not there", self.told())

    def test_a_call_of_another_type(self):
        self.write("docs/inside/ARCHITECTURE.md", PAGE.replace("post::Office", "post::Shop"))
        self.assertIn("`post::Shop::take` is not there", self.told())

    def test_a_call_of_another_module(self):
        self.write("docs/inside/ARCHITECTURE.md", PAGE.replace("post::sorting", "post::weighing"))
        self.assertIn("`post::weighing::sort` is not there", self.told())

    def test_a_call_that_is_not_made(self):
        self.write("crates/post/src/sorting.rt", SORTING.replace("bag.put(1)", "bag.lay(1)"))
        self.assertEqual(self.told(), "The path of a letter, 3: the item before doesn't call `bag::put`\n")

    def test_a_call_that_another_type_makes(self):
        self.write("crates/post/src/lib.rt", OFFICE.replace("sort(self)", "Shop::sort(self)"))
        self.assertEqual(self.told(), "The path of a letter, 2: the item before doesn't call `post::sorting::sort`\n")

    def test_an_item_without_a_call(self):
        self.write("docs/inside/ARCHITECTURE.md", PAGE.replace("`bag::put`", "the bag"))
        self.assertIn("3: it names no call", self.told())

    def test_a_long_path(self):
        rest = "".join(f"{it}. `bag::put`\n" for it in range(4, 19))
        self.write("docs/inside/ARCHITECTURE.md", PAGE.replace("3. `bag::put`\n", "3. `bag::put`\n" + rest))
        self.assertIn("17 items below the first, and not 12 at most", self.told())

    def test_a_crate_without_a_row(self):
        self.write("crates.txt", LISTED + "stamps may_abort=2:\n")
        self.assertEqual(self.told(), "Letters: crates.txt has bag, post, stamps, and the page bag, post\n")

    def test_another_order(self):
        self.write("crates.txt", "# Letters\npost:\nbag: post\n")
        self.assertEqual(self.told(), "Letters: crates.txt has post, bag, and the page bag, post\n")

    def test_another_group(self):
        self.write("crates.txt", LISTED.replace("bag:", "bag:\n# Offices"))
        self.assertIn("crates.txt has the groups Letters, Offices, and the page Letters\n", self.told())

    def test_rules_that_are_there(self):
        self.write("docs/inside/ARCHITECTURE.md", PAGE + RULES)
        self.assertEqual(self.told(), "")

    def test_a_rule_that_is_elsewhere(self):
        self.write("docs/inside/ARCHITECTURE.md", PAGE + RULES.replace("sort`", "weigh`"))
        self.assertEqual(self.told(), "which street a letter is of: `post::sorting::weigh` is not there\n")

    def test_a_rule_without_a_function(self):
        self.write("docs/inside/ARCHITECTURE.md", PAGE + RULES.replace("`post::sorting::sort`", "the office"))
        self.assertEqual(self.told(), "which street a letter is of: the table names no function\n")

    def turn(self, page=TURN):
        self.write("crates/post/src/turns.rt", TURNS)
        self.write("docs/inside/ARCHITECTURE.md", PAGE + page)
        return self.told()

    def test_a_turn(self):
        self.assertEqual(self.turn(), "")

    def test_a_turn_in_another_order(self):
        swapped = TURN.replace("turns::open", "x").replace("sorting::sort", "turns::open").replace("post::x", "post::sorting::sort")
        self.assertEqual(self.turn(swapped), "A turn of an office, 2: `post::turns::open` is not called, or is called before\n")

    def test_a_turn_that_makes_no_such_call(self):
        self.assertEqual(self.turn(TURN.replace("turns::open", "Office::take")), "A turn of an office, 1: `post::Office::take` is not called, or is called before\n")

    def test_a_turn_with_a_call_that_is_gone(self):
        self.assertIn("A turn of an office, 2: `post::sorting::weigh` is not there\n", self.turn(TURN.replace("sorting::sort", "sorting::weigh")))

    def test_a_turn_without_calls(self):
        self.assertEqual(self.turn(TURN.replace("`post::turns::open`", "early")), "A turn of an office, 1: it names no call: opens (early);\n")

    def test_a_turn_of_nobody(self):
        self.assertEqual(self.turn(TURN.replace("(`post::turns::turn`) ", "")), "A turn of an office: the sentence before the list names no function that is there\n")

    def test_a_page_without_paths(self):
        self.write("docs/inside/ARCHITECTURE.md", "# A map\n")
        self.assertIn("has no path", self.told())


if __name__ == "__main__":
    unittest.main()
