"""From a release to a verdict, by README's lines alone, on a Debian without the toolchain: python3 -m dev.clean WARREN

It makes a release of the program WARREN. In a root that has this machine's Debian packages and nothing else it installs the package, and in another one it
unpacks the tar; in each it gives README's commands an export of a RabbitMQ, and asks for the verdicts. It needs root. The status is not 0 if a command
fails, if a verdict is not `yes`, or if that takes more than a minute."""

import contextlib
import io
import os
import re
import shutil
import sys
import tempfile
import time
from types import SimpleNamespace

from dev import ROOT
from dev.beds.clean_root import run_inside, why_not
from dev.beds.example import run_example
from dev.beds.staging import wanted
from dev.release.__main__ import main as release

EXPORT = os.path.join(ROOT, "examples/ci/export.json")
SECTION = "Check your RabbitMQ now"
CHECK = "warren check definitions.json guarantees.json"
WAYS = {"the package": "dpkg --force-unsafe-io -i release/*.deb", "the tar": "tar -C /usr/local --strip-components=1 -xf release/*.tar.gz"}
MOST_SECONDS = 60
PATH = "export PATH=/usr/local/bin:$PATH"


def accepted(command):
    """`unrouted` ends with 1 if a key is dropped: that is an answer, and the next command follows."""
    return f"{command} || [ $? = 1 ]" if command.startswith("warrenctl unrouted ") else command


def lines_of(readme):
    """The commands of README's section, without the one that asks a RabbitMQ for its export, and behind them the check that its first lines show."""
    section = readme.partition(f"\n## {SECTION}\n")[2].partition("\n## ")[0]
    block = section.partition("\n```")[2].partition("\n```")[0]
    found = [it.partition("#")[0].strip() for it in re.findall(r"^\$ (.*)$", block, re.MULTILINE)]
    commands = [accepted(it) for it in found if it.startswith("warrenctl ")]
    return [*commands, CHECK] if commands and f"\n$ {CHECK}\n" in readme else []


def verdicts_of(out):
    """The lines of `warren check`, which come last: a number, and whether it holds."""
    return re.findall(r"^\d+ (yes|no|undecided)\b", out, re.MULTILINE)


def tried(install, commands, release_folder):
    """Runs the commands in a root of its own, and says what came of it."""
    with tempfile.TemporaryDirectory() as folder:
        shutil.copytree(release_folder, os.path.join(folder, "release"))
        shutil.copy(EXPORT, os.path.join(folder, "export.json"))
        started = time.monotonic()
        done = run_inside(folder, "\n".join([PATH, "test -z \"$(command -v warren)\"", install, *commands]))
        return done, time.monotonic() - started


def outcomes(warren, commands):
    with tempfile.TemporaryDirectory() as folder:
        with contextlib.redirect_stdout(io.StringIO()):
            release(SimpleNamespace(program=warren, folder=folder, maintainer="warren <root@localhost>", key=None))
        (made,) = os.listdir(folder)
        for name, install in WAYS.items():
            done, took = tried(install, commands, os.path.join(folder, made))
            verdicts = verdicts_of(done.stdout)
            yield wanted(f"{name}: {len(commands)} commands of README", done.returncode == 0, (done.stdout + done.stderr)[-2000:])
            yield wanted(f"{name}: {len(verdicts)} verdicts, all of them yes", verdicts and set(verdicts) == {"yes"}, verdicts)
            yield wanted(f"{name}: in a minute", took < MOST_SECONDS, took)


def main(warren):
    lacks = why_not()
    if lacks:
        print(f"clean: skipped, this needs {lacks}")
        return 0
    with open(os.path.join(ROOT, "README.md"), encoding="utf-8") as file:
        commands = lines_of(file.read())
    if not commands:
        print(f"clean: NOT as expected, README has no section \"{SECTION}\" with commands")
        return 1
    return 0 if all(list(outcomes(warren, commands))) else 1


if __name__ == "__main__":
    sys.exit(run_example("clean", __doc__, main))
