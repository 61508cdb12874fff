"""The tests of how a file is written: python3 -m dev.unit test_writing"""

import os
import stat
import subprocess
import sys
import tempfile
import unittest
from unittest import mock

from warrenctl.fault import Fault
from warrenctl.files.writing import write


class Writing(unittest.TestCase):
    def setUp(self):
        folder = tempfile.TemporaryDirectory()
        self.addCleanup(folder.cleanup)
        self.folder = folder.name
        self.name = os.path.join(folder.name, "file")

    def there(self, name, mode, text="old"):
        path = os.path.join(self.folder, name)
        with open(path, "w", encoding="utf-8") as file:
            file.write(text)
        os.chmod(path, mode)
        return path

    def assertHas(self, path, text, mode):
        with open(path, encoding="utf-8") as file:
            self.assertEqual((file.read(), stat.S_IMODE(os.stat(path).st_mode)), (text, mode))

    def test_a_new_file_is_for_its_owner(self):
        write(self.name, "new")
        self.assertHas(self.name, "new", 0o600)
        self.assertEqual(os.listdir(self.folder), ["file"])

    def test_a_new_file_is_like_another(self):
        write(self.name, b"new", self.there("like", 0o640))
        self.assertHas(self.name, "new", 0o640)
        write(os.path.join(self.folder, "other"), "new", os.path.join(self.folder, "nowhere"))
        self.assertHas(os.path.join(self.folder, "other"), "new", 0o600)

    def test_an_old_file_keeps_its_mode(self):
        for mode in (0o600, 0o640, 0o644):
            write(self.there("file", mode), "new", self.there("like", 0o666))
            self.assertHas(self.name, "new", mode)

    @unittest.skipUnless(os.geteuid() == 0, "root")
    def test_an_old_file_keeps_its_owner(self):
        os.chown(self.there("file", 0o640), 12, 34)
        write(self.name, "new")
        found = os.stat(self.name)
        self.assertEqual((found.st_uid, found.st_gid), (12, 34))
        write(os.path.join(self.folder, "other"), "new", self.name)
        found = os.stat(os.path.join(self.folder, "other"))
        self.assertEqual((found.st_uid, found.st_gid), (12, 34))

    def test_an_owner_that_cannot_be_kept(self):
        self.there("file", 0o644)
        with mock.patch("os.fchown", side_effect=PermissionError(1, "Operation not permitted")), self.assertRaisesRegex(Fault, "file: Operation not permitted$"):
            write(self.name, "new")
        self.assertHas(self.name, "old", 0o644)
        self.assertEqual(os.listdir(self.folder), ["file"])

    def test_a_link_stays(self):
        self.there("file", 0o644)
        link = os.path.join(self.folder, "link")
        os.symlink("file", link)
        write(link, "new")
        self.assertTrue(os.path.islink(link))
        self.assertHas(self.name, "new", 0o644)

    def test_what_is_no_file_is_written_to(self):
        write("/dev/null", "new")
        self.assertFalse(stat.S_ISREG(os.stat("/dev/null").st_mode))
        code = "from warrenctl.files.writing import write; write('/dev/stdout', 'new')"
        self.assertEqual(subprocess.run([sys.executable, "-c", code], stdout=subprocess.PIPE).stdout, b"new")

    def test_what_is_wrong_is_one_line(self):
        for name, why in (("/nowhere/file", "No such file or directory"), (self.folder, "Is a directory"), ("/dev/full", "No space left on device")):
            with self.assertRaisesRegex(Fault, f"^{name}: {why}$"):
                write(name, "new")

    def test_a_disk_that_is_full_leaves_the_old_file(self):
        self.there("file", 0o644)
        with mock.patch("os.fsync", side_effect=OSError(28, "No space left on device")), self.assertRaisesRegex(Fault, "No space left"):
            write(self.name, "new")
        self.assertHas(self.name, "old", 0o644)
        self.assertEqual(os.listdir(self.folder), ["file"])


if __name__ == "__main__":
    unittest.main()
