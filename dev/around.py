"""Tries the program and the one file of warrenctl with a RabbitMQ and other programs of Debian: python3 -m dev.around WARREN WARRENCTL [PART ..]

Without a part all are tried. Each runs in a folder of its own that has the examples and no part of warrenctl, so that they take it from the file
WARRENCTL; `clean` and `pages` make a release, and leave the repository with that. A part whose packages are not installed says so in one line, and passes.
Status: 0 all passed; 1 a part failed; 3 the command line is refused.
"""

import os
import subprocess
import sys
import tempfile

from dev import ROOT
from dev.beds import one_file
from warrenctl.cli.run import DONE, run
from warrenctl.cli.words import Words
from warrenctl.fault import Fault

FAILED = 1
# each part: what runs it, before the program; those of the last list take no program
RELEASED = {"clean": "dev.clean", "pages": "dev.pages"}
SCRIPTS = {"deploy": "examples/deploy/run"}
MODULES = {
    "deploy": ["examples.deploy.ends"],
    "reload": ["examples.reload.run"],
    "metrics": ["examples.metrics.run"],
    "parts": ["warrenctl.tests.with_warren.split", "examples.parts.run"],
    "shovel": ["examples.shovel.run"],
    "agree": ["dev.agree"],
    "ci": ["examples.ci.run"],
    "takeover": ["examples.takeover.run"],
    "unmodified": ["examples.clients.libraries.unmodified.run"],
}
ALONE = {
    "rabbit": ["dev.tests.with_rabbitmq"],
    "exports": [f"warrenctl.tests.with_rabbitmq.{it}" for it in ("convert", "limits", "stays")],
}
PARTS = (*RELEASED, *MODULES, *ALONE)


def commands(part, warren, folder):
    """Returns what a part runs in this folder."""
    scripts = [[os.path.join(folder, SCRIPTS[part]), warren]] if part in SCRIPTS else []
    words = [warren] if part in MODULES else []
    return scripts + [one_file.command(it, *words) for it in MODULES.get(part) or ALONE[part]]


def is_passed(part, warren, warrenctl, folder):
    """Runs a part, and returns whether it passed."""
    if part in RELEASED:
        return subprocess.run([sys.executable, "-m", RELEASED[part], warren], cwd=ROOT).returncode == 0
    environment = one_file.environment(warrenctl)
    return all([subprocess.run(it, cwd=folder, env=environment).returncode == 0 for it in commands(part, warren, folder)])


def words():
    parser = Words("around", __doc__, None, "python3 -m dev.around")
    parser.add_argument("warren", help="the program")
    parser.add_argument("warrenctl", help="the one file of warrenctl")
    parser.add_argument("parts", nargs="*", metavar="PART", help=", ".join(PARTS))
    given = parser.parse_args()
    unknown = next((it for it in given.parts if it not in PARTS), None)
    if unknown is not None:
        parser.error(f"there is no part {unknown}")
    return given


def main(given):
    warren, warrenctl = (os.path.abspath(it) for it in (given.warren, given.warrenctl))
    if not os.access(warrenctl, os.X_OK) or os.path.isdir(warrenctl):
        raise Fault(f"{given.warrenctl} is no program; `make warrenctl` makes out/warrenctl")
    failed = []
    with tempfile.TemporaryDirectory(prefix="around-") as folder:
        one_file.lay_out(folder)
        for part in given.parts or PARTS:
            print(f"{part}:", flush=True)
            if not is_passed(part, warren, warrenctl, folder):
                failed.append(part)
    print("failed: " + ", ".join(failed) if failed else "all passed")
    return FAILED if failed else DONE


if __name__ == "__main__":
    sys.exit(run("around", lambda: main(words())))
