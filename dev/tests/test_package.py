"""The tests of package, which want Python 3, and dpkg-deb for most: python3 -m dev.unit test_package"""

import gzip
import hashlib
import json
import os
import re
import shutil
import stat
import subprocess
import sys
import tempfile
import unittest

from dev import ROOT
from dev.beds.commands import warrenctl
from dev.beds.clean_root import run_inside, why_not
from dev.package.tree import (
    FILES, SCRIPTS, SHARE, UNITS, folders_of, libraries_of, maintainer_in, package_version, released_in, stripped, unit_of, with_live_links,
)  # fmt: skip
from warrenctl.fault import Fault

with open(os.path.join(ROOT, "CHANGELOG.md"), encoding="utf-8") as changelog:
    VERSION = re.search(r"^## ([0-9][0-9.]*) ", changelog.read(), re.MULTILINE).group(1)

PATHS = {
    "etc/default/warren": 0o644, "etc/needrestart/conf.d/warren.conf": 0o644, "etc/warren/first/certificates.json": 0o640, "etc/warren/first/definitions.json": 0o640, "etc/warren/first/guarantees.json": 0o640,
    "lib/systemd/system/warren.service": 0o644, "lib/systemd/system/warren@.service": 0o644, "lib/systemd/system/warren-front.service": 0o644,
    "lib/systemd/system/warren-metrics.service": 0o644, "lib/systemd/system/warren-ping.service": 0o644, "lib/systemd/system/warren-ping.timer": 0o644,
    "usr/bin/warren": 0o755, "usr/bin/warrenctl": 0o755, "usr/lib/warren/files": 0o755,
    "usr/share/bash-completion/completions/warren": 0o644, "usr/share/bash-completion/completions/warrenctl": 0o644,
    "usr/share/man/man1/warren.1.gz": 0o644, "usr/share/man/man1/warrenctl.1.gz": 0o644,
    "usr/share/zsh/vendor-completions/_warren": 0o644, "usr/share/zsh/vendor-completions/_warrenctl": 0o644,
}  # fmt: skip
MAINTAINER = ("--maintainer", "Till <till@example.org>")
# the life of a package, in a root in which it is not there: old.deb and new.deb differ by their versions alone
LIFE = """
dpkg --force-unsafe-io --no-triggers -i old.deb
test "$(stat -c '%U:%G %a' /etc/warren/first)" = "root:warren 750"
test "$(stat -c '%U:%G %a' /etc/warren/first/definitions.json)" = "root:warren 640"
test "$(readlink /etc/warren/current)" = first
test "$(stat -c %U:%G /etc/default/warren)" = root:root
warren --version
ln -sfn mine /etc/warren/current
mkdir /etc/warren/mine
chown root:root /etc/warren/mine
chmod 755 /etc/warren
rm -r /etc/warren/first
dpkg --force-unsafe-io --no-triggers -i new.deb
dpkg -s warren | grep '^Status: install ok installed'
test "$(readlink /etc/warren/current)" = mine
test "$(stat -c '%U:%G %a' /etc/warren)" = "root:warren 755"
rm /etc/warren/current
dpkg --force-unsafe-io --no-triggers -i old.deb
test ! -L /etc/warren/current
ln -s mine /etc/warren/current
dpkg --no-triggers -r warren
test ! -e /usr/bin/warren
test -L /etc/warren/current
test -e /etc/default/warren
dpkg --force-unsafe-io --no-triggers -i new.deb
mkdir -p /var/lib/warren/last /var/lib/warren-mine/last /var/lib/warren-mine/other
dpkg --no-triggers --purge warren
test ! -e /etc/default/warren
test ! -L /etc/warren/current
test -d /etc/warren/mine
test ! -e /var/lib/warren
test -e /var/lib/warren-mine/other
test ! -e /var/lib/warren-mine/last
rm -r /etc/warren
dpkg --force-unsafe-io --no-triggers -i new.deb
test "$(readlink /etc/warren/current)" = first
dpkg --no-triggers --purge warren
test ! -e /etc/warren
test ! -e /usr/share/warren
echo lived
"""


def contents(name):
    with open(name, "rb") as file:
        return file.read()


class Packages(unittest.TestCase):
    def setUp(self):
        folder = tempfile.TemporaryDirectory()
        self.addCleanup(folder.cleanup)
        self.folder, self.program = folder.name, os.path.join(folder.name, "warren")
        self.write(f"#!/bin/sh\necho warren {VERSION}\n# GLIBC_2.9 GLIBC_2.34 GLIBC_2.2.5 libgcc_s.so.1\n")

    def write(self, text):
        with open(self.program, "w", encoding="utf-8") as file:
            file.write(text)
        os.chmod(self.program, 0o755)

    def run_tool(self, *words):
        done = subprocess.run([sys.executable, "-m", "dev.package", *words], capture_output=True, text=True, timeout=120, env={**os.environ, "SOURCE_DATE_EPOCH": "1700000000"})
        return done.returncode, done.stdout, done.stderr

    @unittest.skipUnless(shutil.which("dpkg-deb"), "dpkg")
    def test_a_package(self):
        status, out, said = self.run_tool(self.program, self.folder, *MAINTAINER)
        self.assertEqual((status, said), (0, ""))
        lines = [line.split("  ") for line in out.splitlines()]
        package = lines[2][1]
        self.assertEqual([name for _, name in lines[:2]], [self.program, "usr/bin/warren"])
        self.assertEqual([it for it, _ in lines], [hashlib.sha256(contents(name)).hexdigest() for name in (self.program, self.program, package)])
        self.assertRegex(os.path.basename(package), rf"^warren_{VERSION}(\+\w+(\.\w+)*)?_\w+\.deb$")
        field = {it: subprocess.run(["dpkg-deb", "-f", package, it], capture_output=True, text=True).stdout.strip() for it in ("Package", "Version", "Depends")}
        self.assertTrue(field.pop("Version").startswith(VERSION))
        self.assertEqual(field, {"Package": "warren", "Depends": "libc6 (>= 2.34), libgcc-s1, passwd"})
        self.files_are_right(package)
        before = contents(package)
        os.unlink(package)
        self.run_tool(self.program, self.folder, *MAINTAINER)
        self.assertEqual(contents(package), before, "the same sources give the same package")

    def files_are_right(self, package):
        tree = os.path.join(self.folder, "tree")
        subprocess.run(["dpkg-deb", "-R", package, tree], check=True)
        found = {os.path.relpath(os.path.join(at, it), tree) for at, _, names in os.walk(tree) for it in names}
        self.assertEqual({it for it in found if not it.startswith(("DEBIAN/", SHARE))}, set(PATHS))
        self.shared_is_right(tree, {os.path.relpath(it, SHARE) for it in found if it.startswith(SHARE)})
        for name, mode in PATHS.items():
            self.assertEqual(stat.S_IMODE(os.stat(os.path.join(tree, name)).st_mode), mode, name)
        self.assertEqual(contents(tree + "/usr/bin/warren"), contents(self.program))
        for it in ("warren.1", "warrenctl.1"):
            self.assertEqual(gzip.decompress(contents(f"{tree}/usr/share/man/man1/{it}.gz")), contents(f"{ROOT}/dev/manual/made/{it}"))
        for it in (name for name in PATHS if name.startswith("lib/systemd/")):
            text = contents(os.path.join(tree, it)).decode()
            self.assertTrue(text.startswith("[Unit]\n"), it)
            self.assertNotIn("/usr/local/", text)
        unit = contents(tree + "/lib/systemd/system/warren.service").decode()
        self.assertIn(" --listen ${LISTEN} --reload ${RELOAD}\n", unit)
        self.assertIn("\nEnvironmentFile=-/etc/default/warren\n", unit)
        self.assertIn("\nExecStart=/usr/lib/warren/files serve /etc/warren/current /var/lib/warren ", unit)
        self.assertEqual(set(re.findall(r"^(\w+)=", contents(tree + "/etc/default/warren").decode(), re.MULTILINE)), set(re.findall(r"\$\{(\w+)\}", unit)))
        self.assertEqual(sorted(contents(tree + "/DEBIAN/conffiles").decode().split()), sorted("/" + it for it in PATHS if it.startswith("etc/")))

    def shared_is_right(self, tree, shared):
        """Each script to which a page for operators sends is there and starts, and so is what these pages lead to."""
        self.assertTrue({"README.md", "docs/OPERATIONS.md", "warrenctl/README.md", "examples/deploy/stunnel.conf"} <= shared)
        self.assertFalse([it for it in shared if "/tests/" in it or "__pycache__" in it])
        top = os.path.join(tree, SHARE)
        self.assertEqual(os.path.realpath(os.path.join(tree, "usr/share/doc/warren")), os.path.realpath(top))
        for page in ("OPERATIONS", "ERRORS", "SECURITY", "CLIENTS", "GUARANTEES", "COSTS", "RABBITMQ"):
            text = contents(f"{top}/docs/{page}.md").decode()
            for name in set(re.findall(r"warrenctl ([a-z]+)\b", text)):
                done = subprocess.run([sys.executable, f"{tree}/usr/bin/warrenctl", name, "--help"], capture_output=True, text=True, timeout=60)
                self.assertEqual((page, name, done.returncode), (page, name, 0), done.stderr)
        for page in (it for it in shared if it.endswith(".md")):
            for target in re.findall(r"\]\(([^)#\s]+)", contents(f"{top}/{page}").decode()):
                self.assertTrue("://" in target or os.path.exists(os.path.join(top, os.path.dirname(page), target)), (page, target))
        self.assertIn(b"licence", contents(f"{top}/copyright").lower())
        self.assertEqual(gzip.decompress(contents(f"{top}/changelog.gz")), contents(f"{ROOT}/CHANGELOG.md"))

    def test_links(self):
        """A link to what a package has not leaves its words."""
        text = "see [A](A.md#top), [b](../b/c.md), [the _code_](../crates/x.rs#L1), [web](https://example.org/a) and [here](#here)"
        there = folders_of(["docs/A.md", "b/c.md"])
        self.assertEqual(with_live_links(text, "docs/P.md", there), text.replace("[the _code_](../crates/x.rs#L1)", "the _code_"))

    @unittest.skipUnless(shutil.which("cc") and shutil.which("strip"), "gcc binutils")
    def test_symbols(self):
        """A program has none in a package, and does the same."""
        with open(self.program + ".c", "w", encoding="ascii") as file:
            file.write('#include <stdio.h>\nint a_name_of_its_own(void) { return puts("it runs"); }\nint main(void) { return a_name_of_its_own() < 0; }\n')
        subprocess.run(["cc", "-g", "-o", self.program, self.program + ".c"], check=True)
        data = stripped(self.program)
        self.assertTrue(b"a_name_of_its_own" in contents(self.program) and b"a_name_of_its_own" not in data)
        with open(self.program, "wb") as file:
            file.write(data)
        self.assertEqual(subprocess.run([self.program], capture_output=True).stdout, b"it runs\n")

    @unittest.skipIf(why_not(), why_not())
    def test_its_life(self):
        """It is installed, upgraded after `first` was removed, removed, installed again and purged."""
        self.run_tool(self.program, self.folder, *MAINTAINER)
        package = next(os.path.join(self.folder, it) for it in os.listdir(self.folder) if it.endswith(".deb"))
        tree = os.path.join(self.folder, "tree")
        subprocess.run(["dpkg-deb", "-R", package, tree], check=True)
        for name, version in (("old", "0.0.1"), ("new", "77.0")):
            with open(os.path.join(tree, "DEBIAN/control"), encoding="utf-8") as file:
                text = re.sub(r"(?m)^Version: .*$", f"Version: {version}", file.read())
            with open(os.path.join(tree, "DEBIAN/control"), "w", encoding="utf-8") as file:
                # what the program of this test names is not of its architecture's C library
                file.write(re.sub(r"(?m)^Depends: .*$", "Depends: libc6, passwd", text))
            subprocess.run(["dpkg-deb", "-b", "--root-owner-group", "-Znone", tree, os.path.join(self.folder, f"{name}.deb")], check=True, capture_output=True)
        done = run_inside(self.folder, LIFE)
        self.assertEqual((done.returncode, done.stdout.splitlines()[-1:]), (0, ["lived"]), done.stdout + done.stderr)

    @unittest.skipUnless(shutil.which("systemd-analyze"), "systemd")
    def test_units(self):
        """systemd finds no fault in a unit, and each is exposed by 2 of 10 at most."""
        tree = os.path.join(self.folder, "units")
        os.mkdir(tree)
        paths = []
        for it in UNITS:
            paths.append(os.path.join(tree, os.path.basename(it).replace("@.", "@one.")))
            with open(paths[-1], "wb") as file:
                file.write(re.sub(rb"/usr/(bin/warren(ctl)?|lib/warren/files)\b", b"/bin/true", unit_of(contents(os.path.join(ROOT, it)))))
        done = subprocess.run(["systemd-analyze", "verify", *paths], capture_output=True, text=True)
        self.assertEqual((done.returncode, done.stderr), (0, ""))
        for it in (path for path in paths if path.endswith(".service")):
            done = subprocess.run(["systemd-analyze", "security", "--offline=true", "--threshold=20", it], capture_output=True, text=True)
            self.assertEqual(done.returncode, 0, done.stdout[-200:])

    def test_versions(self):
        """A release is what it says; what is ahead of it has the commit's time, so that apt sees a later one as an upgrade, and the next release too."""
        ahead = f"# Changelog\n\n## Unreleased\n\n- new\n\n## {VERSION} (2026-11-26)\n\n- old\n\n## 0.0.1 (2026-01-01)\n"
        released = ahead.replace("- new\n\n", "")
        self.assertEqual((released_in(ahead), released_in(released), released_in(released.replace("## Unreleased\n", ""))), ((VERSION, True), (VERSION, False), (VERSION, False)))
        made = [package_version(self.program, text, commit) for text, commit in ((released, "20261129064512.aa"), (ahead, "20261129064512.aa"), (ahead, "20261130000000.00"), (ahead, None))]
        self.assertEqual(made, [VERSION, f"{VERSION}+git20261129064512.aa", f"{VERSION}+git20261130000000.00", f"{VERSION}+unreleased"])
        for text in ("", ahead.replace(f"## {VERSION}", "## 77.0")):
            self.assertRaises(Fault, package_version, self.program, text, None)
        if shutil.which("dpkg"):
            for one, other in zip(made[:2] + [made[2]], made[1:3] + [VERSION + ".1"]):
                self.assertEqual(subprocess.run(["dpkg", "--compare-versions", one, "lt", other]).returncode, 0, (one, other))

    def test_the_files_let_nobody_in(self):
        """warrenctl convert finds nothing in the definitions that warren refuses, and they name no user."""
        command = [*warrenctl("convert"), "--check", "-"]
        done = subprocess.run(command, input=FILES["definitions.json"], capture_output=True, text=True, timeout=120)
        self.assertEqual(done.returncode, 0, done.stdout)
        self.assertEqual(json.loads(FILES["definitions.json"])["users"], [])
        self.assertEqual((json.loads(FILES["guarantees.json"]), json.loads(FILES["certificates.json"])), ({"guarantees": []}, []))

    def test_the_scripts_are_scripts(self):
        for name in SCRIPTS:
            self.assertEqual(subprocess.run(["sh", "-n", os.path.join(ROOT, "dev/package/files", name)], capture_output=True).returncode, 0)
            self.assertNotIn(b"systemctl start", contents(os.path.join(ROOT, "dev/package/files", name)))
            self.assertNotIn(b"restart ", contents(os.path.join(ROOT, "dev/package/files", name)))

    def test_the_library(self):
        self.assertEqual(libraries_of(self.program), "libc6 (>= 2.34), libgcc-s1")
        self.write("#!/bin/sh\n# GLIBC_2.34\n")
        self.assertEqual(libraries_of(self.program), "libc6 (>= 2.34)")
        self.write("#!/bin/sh\n")
        self.assertEqual(libraries_of(self.program), "libc6")

    def test_the_maintainer(self):
        """Who answers for a package is a file's first line; there is no package without it."""
        with self.assertRaisesRegex(Fault, "file MAINTAINER"):
            maintainer_in(self.folder)
        for text in ("", "Till\n", "<till@example.org>\n", "Till <till>\n", "\nTill <till@example.org>\n"):
            with open(os.path.join(self.folder, "MAINTAINER"), "w", encoding="utf-8") as file:
                file.write(text)
            self.assertRaises(Fault, maintainer_in, self.folder)
        with open(os.path.join(self.folder, "MAINTAINER"), "w", encoding="utf-8") as file:
            file.write("Till Shop <till@example.org>\nmore\n")
        self.assertEqual(maintainer_in(self.folder), "Till Shop <till@example.org>")

    def test_what_is_wrong_is_one_line(self):
        def refused(*words):
            status, out, said = self.run_tool(*words)
            self.assertEqual((status, out, said.count("\n"), said[:9]), (3, "", 1, "package: "), said)
            return said

        self.assertIn("No such file", refused("/nowhere/warren", self.folder, *MAINTAINER))
        self.assertIn("required", refused(self.program))
        self.write("#!/bin/sh\necho warren 77.0\n")
        self.assertIn("77.0, and CHANGELOG.md that", refused(self.program, self.folder, *MAINTAINER))
        for text in ("#!/bin/sh\n", "#!/bin/sh\necho warden 1.0\n", "#!/bin/sh\necho warren 1.0 and more\n"):
            self.write(text)
            self.assertIn("does not say which version", refused(self.program, self.folder, *MAINTAINER))
        if shutil.which("dpkg-deb"):
            self.write(f"#!/bin/sh\necho warren {VERSION}\n")
            self.assertIn("dpkg-deb failed", refused(self.program, "/nowhere/folder", *MAINTAINER))
            self.assertIn("one line", refused(self.program, self.folder, "--maintainer", "a\nb"))


if __name__ == "__main__":
    unittest.main()
