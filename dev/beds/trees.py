"""A folder with the files of a test, over which a script runs: what the tests of scripts that read a repository share."""

import os
import subprocess
import sys
import tempfile
import unittest


class TreeTest(unittest.TestCase):
    """A test of the module `tool`, over a new folder, `root`, for each test."""

    tool = None

    def setUp(self):
        work = tempfile.TemporaryDirectory()
        self.addCleanup(work.cleanup)
        self.root = work.name

    def write(self, name, text):
        """A file of the folder has this text."""
        path = os.path.join(self.root, name)
        os.makedirs(os.path.dirname(path), exist_ok=True)
        with open(path, "w", encoding="utf-8") as file:
            file.write(text)

    def told(self):
        """What the script says of the folder. It ends with 1 if it says anything, and with 0 else."""
        done = subprocess.run([sys.executable, "-m", self.tool, self.root], capture_output=True, text=True)
        self.assertEqual(done.stderr, "")
        self.assertEqual(done.returncode, 1 if done.stdout else 0)
        return done.stdout
