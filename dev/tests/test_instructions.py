"""The tests of the bounds of examples/load/instructions, which want Python 3 alone: python3 -m dev.unit test_instructions"""

import argparse
import contextlib
import io
import tempfile
import unittest
from unittest import mock

from examples.load import instructions

PUBLISH = "publish, 12 bytes"


class Held(unittest.TestCase):
    def over(self, figures, counted):
        """The loads that are over their figures if each message takes so many instructions."""
        loads = [it for it in instructions.LOADS if it[0] in figures]
        with mock.patch.object(instructions, "of_message", lambda *_: counted), contextlib.redirect_stdout(io.StringIO()):
            return instructions.count_all([("warren", "warren")], loads, figures)

    def test_a_load_may_take_a_tenth_more_than_its_figure(self):
        self.assertEqual(self.over({PUBLISH: 1000}, 10), [])
        self.assertEqual(self.over({PUBLISH: 1000}, 1100), [])
        self.assertEqual(self.over({PUBLISH: 1000}, 1101), [PUBLISH])

    def figures(self, text):
        """The figures that a file of this text states; None if it is refused."""
        with tempfile.NamedTemporaryFile("w", suffix=".json") as file, contextlib.redirect_stderr(io.StringIO()):
            file.write(text)
            file.flush()
            try:
                return instructions.figures_of(argparse.ArgumentParser(), file.name)
            except SystemExit:
                return None

    def test_each_figure_is_that_of_a_load(self):
        self.assertEqual(self.figures('{"publish, 12 bytes": 5000}'), {PUBLISH: 5000})
        self.assertIsNone(self.figures('{"publish, 13 bytes": 5000}'))
        self.assertIsNone(self.figures("none"))


if __name__ == "__main__":
    unittest.main()
