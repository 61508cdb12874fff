"""The tests of release, which want Python 3, and dpkg-deb, cc and strip for most: python3 -m dev.unit test_release"""

import gzip
import hashlib
import io
import json
import os
import shutil
import stat
import subprocess
import sys
import tarfile
import tempfile
import unittest

from dev.release.__main__ import check_versions, libraries_in, sign
from dev.release.archives import Entry, image_of, tar_of
from warrenctl import VERSION
from warrenctl.fault import Fault

PROGRAM = '#include <stdio.h>\nint main(void) { return puts("warren @version") < 0; }\n'
MAINTAINER = ("--maintainer", "Till <till@example.org>")
SIGNS = """#!/bin/sh
echo "$@" > SHA256SUMS.signed
"""
NEEDED = next((it for it in ("cc", "strip", "dpkg-deb") if shutil.which(it) is None), None)


def contents(name):
    with open(name, "rb") as file:
        return file.read()


class Archives(unittest.TestCase):
    ENTRIES = [Entry("usr/bin/it", b"a program", 0o755), Entry("etc/it/current", None, 0o755)]

    def test_a_tar(self):
        """It has each folder on the way, one time, and root as the owner of all; in whichever order entries are given."""
        data = tar_of(self.ENTRIES, 1_700_000_000)
        self.assertEqual(tar_of(self.ENTRIES[::-1], 1_700_000_000), data)
        with tarfile.open(fileobj=io.BytesIO(data)) as archive:
            found = archive.getmembers()
            self.assertEqual([it.name for it in found], ["etc", "etc/it", "etc/it/current", "usr", "usr/bin", "usr/bin/it"])
            self.assertEqual({(it.mtime, it.uid, it.gid, it.uname, it.mode) for it in found}, {(1_700_000_000, 0, 0, "root", 0o755)})
            self.assertEqual(archive.extractfile("usr/bin/it").read(), b"a program")

    def test_an_image(self):
        """Each blob has the name of its digest, and all that is named is there with its size."""
        data, digest = image_of(self.ENTRIES, {"Cmd": ["it"]}, 1_700_000_000, "x86_64", "it:1")
        self.assertEqual(image_of(self.ENTRIES, {"Cmd": ["it"]}, 1_700_000_000, "x86_64", "it:1"), (data, digest))
        self.assertNotEqual(image_of(self.ENTRIES, {"Cmd": ["other"]}, 1_700_000_000, "x86_64", "it:1")[1], digest)
        with tarfile.open(fileobj=io.BytesIO(data)) as archive:
            files = {it.name: archive.extractfile(it).read() for it in archive.getmembers() if it.isfile()}
        self.assertEqual(json.loads(files.pop("oci-layout")), {"imageLayoutVersion": "1.0.0"})
        index = json.loads(files.pop("index.json"))
        for name, it in files.items():
            self.assertEqual(name, f"blobs/sha256/{hashlib.sha256(it).hexdigest()}")

        def blob(it):
            found = files[f"blobs/sha256/{it['digest'][7:]}"]
            self.assertEqual(len(found), it["size"])
            return found

        self.assertEqual(index["manifests"][0]["digest"], digest)
        self.assertEqual(index["manifests"][0]["annotations"], {"org.opencontainers.image.ref.name": "it:1"})
        manifest = json.loads(blob(index["manifests"][0]))
        config = json.loads(blob(manifest["config"]))
        layer = gzip.decompress(blob(manifest["layers"][0]))
        self.assertEqual((config["architecture"], config["os"], config["config"]), ("amd64", "linux", {"Cmd": ["it"]}))
        self.assertEqual(config["rootfs"]["diff_ids"], [f"sha256:{hashlib.sha256(layer).hexdigest()}"])
        self.assertEqual(layer, tar_of(self.ENTRIES, 1_700_000_000))


class Versions(unittest.TestCase):
    def test_tags(self):
        check_versions(VERSION, [])
        check_versions(VERSION, [VERSION])
        for version, tagged in ((VERSION, ["77.0"]), (f"{VERSION}+git1.a", [VERSION]), (VERSION, [VERSION, "77.0"])):
            with self.assertRaisesRegex(Fault, "the tag v"):
                check_versions(version, tagged)


class Signing(unittest.TestCase):
    def setUp(self):
        folder = tempfile.TemporaryDirectory()
        self.addCleanup(folder.cleanup)
        self.folder, self.key = folder.name, os.path.join(folder.name, "key")
        path = os.environ["PATH"]
        self.addCleanup(os.environ.__setitem__, "PATH", path)
        os.environ["PATH"] = f"{self.folder}:{path}"

    def write(self, name, text):
        with open(os.path.join(self.folder, name), "w", encoding="ascii") as file:
            file.write(text)
        os.chmod(os.path.join(self.folder, name), 0o755)

    def test_each(self):
        for program, comment in (("minisign", "minisign encrypted secret key"), ("signify-openbsd", "signify secret key")):
            self.write("key", f"untrusted comment: {comment}\nAAAA\n")
            self.write(program, SIGNS)
            sign(self.folder, self.key)
            self.assertEqual(contents(os.path.join(self.folder, "SHA256SUMS.signed")).decode(), f"-S -s {self.key} -m SHA256SUMS\n")
            self.write(program, "#!/bin/sh\nexit 2\n")
            self.assertRaisesRegex(Fault, "failed", sign, self.folder, self.key)

    def test_no_key(self):
        self.write("key", "BEGIN\n")
        self.assertRaisesRegex(Fault, "no key of", sign, self.folder, self.key)
        self.write("key", "untrusted comment: minisign secret key\n")
        if shutil.which("minisign") is None:
            self.assertRaisesRegex(Fault, "apt-get install minisign", sign, self.folder, self.key)


@unittest.skipIf(NEEDED, NEEDED)
class Releases(unittest.TestCase):
    def setUp(self):
        folder = tempfile.TemporaryDirectory()
        self.addCleanup(folder.cleanup)
        self.folder, self.program = folder.name, os.path.join(folder.name, "warren")
        with open(self.program + ".c", "w", encoding="ascii") as file:
            file.write(PROGRAM.replace("@version", VERSION))
        subprocess.run(["cc", "-o", self.program, self.program + ".c"], check=True)

    def released(self, place, *words):
        command = [sys.executable, "-m", "dev.release", self.program, os.path.join(self.folder, place), *words]
        done = subprocess.run(command, capture_output=True, text=True, timeout=300, env={**os.environ, "SOURCE_DATE_EPOCH": "1700000000"})
        return done.returncode, done.stdout, done.stderr

    def test_a_release(self):
        status, out, said = self.released("one", *MAINTAINER)
        self.assertEqual((status, said), (0, "release: the file LICENCE is missing: nobody but the authors may pass this on\n"))
        self.assertRegex(out, r"^the program needs libc6 \(>= [0-9.]+\), and takes 0\.0 MB\nthe image's digest is sha256:[0-9a-f]{64}\n")
        (name,) = os.listdir(os.path.join(self.folder, "one"))
        self.assertTrue(name.startswith(f"warren-{VERSION}"))
        folder = os.path.join(self.folder, "one", name)
        self.assertEqual(stat.S_IMODE(os.stat(folder).st_mode), 0o755)
        endings = sorted(it.replace(name, "").replace(name.replace("-", "_", 1), "") for it in os.listdir(folder))
        machine = os.uname().machine
        self.assertEqual([it for it in endings if "_" not in it.replace(machine, "")], [f"-{machine}.oci.tar", f"-{machine}.tar.gz", "SHA256SUMS", "warrenctl"])
        self.assertEqual(subprocess.run(["sha256sum", "--quiet", "-c", "SHA256SUMS"], cwd=folder).returncode, 0)
        self.assertEqual(len(contents(os.path.join(folder, "SHA256SUMS")).splitlines()), 4)
        self.assertEqual(self.released("two", *MAINTAINER)[1].splitlines()[1], out.splitlines()[1], "the same digest twice")
        again = os.path.join(self.folder, "two", name)
        self.assertEqual(contents(os.path.join(again, "SHA256SUMS")), contents(os.path.join(folder, "SHA256SUMS")))
        self.the_tar_is_right(os.path.join(folder, f"{name}-{machine}.tar.gz"), name)
        self.the_image_is_right(os.path.join(folder, f"{name}-{machine}.oci.tar"))
        self.assertIn("there already", self.released("one", *MAINTAINER)[2])

    def the_tar_is_right(self, path, name):
        """It is laid out as a prefix: its programs run where it is unpacked."""
        place = os.path.join(self.folder, "prefix")
        os.mkdir(place)
        subprocess.run(["tar", "-C", place, "--strip-components=1", "-xf", path], check=True)
        for program, wanted in (("warren", f"warren {VERSION}\n"), ("warrenctl", f"warrenctl {VERSION}\n")):
            self.assertEqual(subprocess.run([f"{place}/bin/{program}", "--version"], capture_output=True, text=True).stdout, wanted)
            self.assertTrue(os.path.exists(f"{place}/share/man/man1/{program}.1"))
        self.assertTrue(os.path.exists(f"{place}/share/doc/warren/copyright"))

    def the_image_is_right(self, path):
        """It has what the program needs: it runs with the layer as its root."""
        place = os.path.join(self.folder, "root")
        with tarfile.open(path) as archive:
            manifest = json.loads(archive.extractfile("index.json").read())["manifests"][0]
            manifest = json.loads(archive.extractfile(f"blobs/sha256/{manifest['digest'][7:]}").read())
            layer = archive.extractfile(f"blobs/sha256/{manifest['layers'][0]['digest'][7:]}").read()
            config = json.loads(archive.extractfile(f"blobs/sha256/{manifest['config']['digest'][7:]}").read())["config"]
        with tarfile.open(fileobj=io.BytesIO(gzip.decompress(layer))) as archive:
            archive.extractall(place)
        self.assertTrue(os.path.isdir(place + "/etc/warren/current"))
        self.assertTrue(all(os.path.exists(place + it) for it in libraries_in(self.program)))
        self.assertEqual((config["Entrypoint"][:2], config["User"]), (["/usr/bin/warren", "serve"], "65534:65534"))
        if os.geteuid() == 0:
            done = subprocess.run(["chroot", "--userspec=65534:65534", place, "/usr/bin/warren"], capture_output=True, text=True)
            self.assertEqual(done.stdout, f"warren {VERSION}\n", done.stderr)

    def test_what_is_wrong_is_one_line(self):
        for words, told in (((), "MAINTAINER"), ((*MAINTAINER, "--key", "/nowhere"), "/nowhere"), ((*MAINTAINER, "--x"), "--x")):
            if words or not os.path.exists("MAINTAINER"):
                status, out, said = self.released("one", *words)
                self.assertEqual((status, said.count("\n"), said[:9]), (3, 1, "release: "), said)
                self.assertIn(told, said)
                self.assertFalse(os.path.exists(os.path.join(self.folder, "one")) and os.listdir(os.path.join(self.folder, "one")))


if __name__ == "__main__":
    unittest.main()
