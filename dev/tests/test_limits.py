"""The tests of limits, which want Python 3 alone: python3 -m dev.unit test_limits"""

import tempfile
import unittest

from dev.limits import __main__ as limits, families
from warrenctl.files.causes import causes_in
from warrenctl.files.guarantees import guarantee_causes


def large():
    """A family whose making takes 300 MB and more."""
    return {"made": len(bytearray(b"x") * 300_000_000)}, []


class Families(unittest.TestCase):
    def sizes(self, family):
        """How many exchanges, queues, bindings and guarantees a family has, of which no file is refused."""
        definitions, guarantees, *_ = family()
        self.assertEqual(causes_in(definitions), [])
        self.assertEqual(guarantee_causes({"guarantees": guarantees}, definitions), [])
        return [len(definitions[it]) for it in ("exchanges", "queues", "bindings")] + [len(guarantees)]

    def test_each_is_within_the_limits(self):
        self.assertEqual(self.sizes(families.chain_of_own_keys), [256, 256, 255, 1])
        self.assertEqual(self.sizes(families.ring_of_own_keys), [256, 256, 3825, 1])
        self.assertEqual(self.sizes(families.ring_of_many), [256, 256, 3825, 64])
        self.assertEqual(self.sizes(families.broken_through_the_ring), [256, 256, 3826, 1])
        self.assertEqual(self.sizes(lambda: families.broken_through_the_ring(205, 17)), [206, 256, 3741, 1])
        self.assertEqual(self.sizes(lambda: families.broken_through_the_ring(27, 129)), [28, 256, 3739, 1])
        self.assertEqual(self.sizes(lambda: families.broken_through_the_ring(6, 512)), [7, 256, 3328, 1])
        self.assertEqual(self.sizes(lambda: families.many_listed(2, 2)), [256, 3, 3572, 2])
        self.assertEqual(self.sizes(lambda: families.many_that_differ(2, 2)), [256, 3, 3573, 2])
        self.assertEqual(self.sizes(families.many_letters), [1, 2, 62, 1])
        self.assertEqual(self.sizes(families.letters_that_all_lead), [1, 2, 62, 1])
        self.assertEqual(self.sizes(families.undecided_by_states), [1, 1, 63, 1])
        self.assertEqual(self.sizes(families.broken_at_the_end), [256, 256, 3813, 1])
        self.assertEqual(self.sizes(families.many_certificates), [1, 25, 2, 24])
        self.assertEqual(self.sizes(families.wide_numbers), [1, 3, 58, 2])
        self.assertEqual(self.sizes(families.judged_at_a_reload), [65, 65, 127, 1])
        self.assertEqual(self.sizes(families.many_at_a_reload), [2, 73, 109, 64])
        self.assertEqual(self.sizes(families.many_through_exchanges), [202, 73, 309, 64])
        self.assertEqual(self.sizes(lambda: families.one_slot(100)), [1, 1, 100, 0])
        self.assertEqual(self.sizes(families.same_marks), [1, 1, 4096, 0])

    def test_memory_is_that_of_the_program(self):
        with tempfile.TemporaryDirectory() as folder:
            limits.Files(folder, large)
            _, megabytes, status = limits.measured(["true"])
        self.assertEqual(status, 0)
        self.assertLess(megabytes, 150)

    def test_listed_states_rise(self):
        _, _, [certificate, another] = families.many_listed(2, 2)
        self.assertEqual((certificate["queue"], another["queue"]), ("z0", "z1"))
        self.assertEqual(certificate["states"], [[2, 2], [2, 6], [2, 10], [2, 14], [2, 18], [2, 22], [2, 26], [2, 30], [3, 3]])

    def test_states_of_other_patterns_rise(self):
        _, _, [certificate, _] = families.many_that_differ(2, 2)
        self.assertEqual(certificate["states"], [[2, 2, 2], [2, 2, 10], [2, 6, 6], [2, 6, 14], [3, 3, 3]])

    def test_marks_are_the_same(self):
        definitions, _ = families.same_marks()
        words = {binding["routing_key"].split(".")[0] for binding in definitions["bindings"]}
        self.assertEqual((len(words), len({families.mark(word) for word in words})), (4096, 1))

    def test_nodes_fall_on_one_slot(self):
        definitions, _ = families.one_slot(100)
        words = [binding["routing_key"].split(".") for binding in definitions["bindings"]]
        slots = {(number * 31 + at) * 31 + families.mark(word) for number, pattern in enumerate(words) for at, word in enumerate(pattern) if at}
        self.assertEqual({slot % 3101 for slot in slots}, {0})

    def test_words_differ(self):
        definitions, _ = families.many_letters()
        words = {word for binding in definitions["bindings"] for word in binding["routing_key"].split(".")} - {"#", "*"}
        self.assertEqual(len(words), 61 * 31 + 1)

    def test_a_publish_is_three_frames(self):
        ready, first, second = families.publishes(2)
        self.assertEqual(ready, "ready 1")
        self.assertEqual(
            first,
            "in 1 " + "0100010000000c003c002800000178026b3000ce" + "0200010000000e003c000000000000000000010000ce" + "030001000000016dce",
        )
        self.assertNotEqual(first, second)


if __name__ == "__main__":
    unittest.main()
