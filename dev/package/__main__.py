#!/usr/bin/env python3
"""Makes a Debian package of the programs warren and warrenctl, with their manual pages and completions, units, /etc/warren and /etc/default/warren, and
with the pages and examples in /usr/share/warren. Prints the SHA-256 of the program, of the program without its symbols, which is the one that is
installed, and of the package. `make package` gives the proved program. This needs dpkg-deb and strip."""

import hashlib
import os
import subprocess
import sys
import tempfile

from dev import ROOT
from dev.package.tree import control, lay_out, maintainer_in, package_version, share
from warrenctl.cli.run import DONE, run
from warrenctl.cli.words import Words
from warrenctl.fault import Fault


def words():
    parser = Words("package", __doc__, "Status: 0 made; 3 not made, and a line says why.", "python3 -m dev.package")
    parser.add_argument("program", metavar="PROGRAM", help="the program, such as crates/warren/out/warren")
    parser.add_argument("folder", metavar="FOLDER", help="where the package is to be")
    parser.add_argument("--maintainer", help="who answers for the package; without it, the first line of the file MAINTAINER")
    return parser.parse_args()


def answer(*command):
    """What a command prints; none if it is not there or fails."""
    try:
        done = subprocess.run(command, capture_output=True, text=True, cwd=ROOT, env={**os.environ, "TZ": "UTC"})
    except OSError:
        return None
    return done.stdout.strip() if done.returncode == 0 else None


def sum_of(name):
    with open(name, "rb") as file:
        return hashlib.sha256(file.read()).hexdigest()


def changelog():
    with open(os.path.join(ROOT, "CHANGELOG.md"), encoding="utf-8") as file:
        return file.read()


def commit():
    """Returns the time and the name of the last commit, with a mark if files differ from it; none without git."""
    found = answer("git", "log", "-1", "--format=%cd.%h", "--date=format-local:%Y%m%d%H%M%S", "--abbrev=8")
    return found and found + (".changed" if answer("git", "status", "--porcelain") else "")


def moment():
    """Returns the time of the last commit, so that the same sources give the same package."""
    return os.environ.get("SOURCE_DATE_EPOCH") or answer("git", "log", "-1", "--format=%ct") or "0"


def make(program, folder, maintainer):
    """Makes the package, and returns its path and the SHA-256 of the program in it."""
    # folders of the package are readable by all, whatever this user's files are
    os.umask(0o022)
    version = package_version(program, changelog(), commit())
    architecture = answer("dpkg", "--print-architecture")
    if architecture is None:
        raise Fault("there is no dpkg here")
    package = os.path.join(folder, f"warren_{version}_{architecture}.deb")
    with tempfile.TemporaryDirectory() as tree:
        os.chmod(tree, 0o755)
        lay_out(tree, program, ROOT)
        share(tree, ROOT)
        control(tree, program, version, architecture, maintainer)
        installed = sum_of(os.path.join(tree, "usr/bin/warren"))
        command = ["dpkg-deb", "--root-owner-group", "-Zxz", "--build", tree, package]
        done = subprocess.run(command, capture_output=True, text=True, env={**os.environ, "SOURCE_DATE_EPOCH": moment()})
    if done.returncode:
        raise Fault(f"dpkg-deb failed: {done.stderr.strip().splitlines()[-1]}")
    return package, installed


def main(given):
    package, installed = make(given.program, given.folder, given.maintainer or maintainer_in(ROOT))
    print(f"{sum_of(given.program)}  {given.program}\n{installed}  usr/bin/warren\n{sum_of(package)}  {package}")
    return DONE


if __name__ == "__main__":
    sys.exit(run("package", lambda: main(words())))
