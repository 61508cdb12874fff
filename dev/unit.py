"""Runs the tests of warrenctl/tests and dev/tests, four modules at a time: python3 -m dev.unit [MODULE ..], such as test_why or dev.tests.test_map.

A line for each module, and all that one says that fails. The last lines count what was skipped, by the package that is not installed.
Status: 0 all passed; 1 a module failed; 3 there is no such module.
"""

import glob
import os
import re
import subprocess
import sys
from collections import Counter
from concurrent.futures import ThreadPoolExecutor

from dev import ROOT
from warrenctl.cli.run import DONE, run
from warrenctl.fault import Fault

AT_ONCE = 4
FAILED = 1
RAN = re.compile(r"^Ran (\d+) tests? in .*$", re.MULTILINE)
SKIPPED = re.compile(r" \.\.\. skipped (['\"])(.*)\1$", re.MULTILINE)


def modules():
    """The names of all modules of tests."""
    paths = [it for top in ("warrenctl", "dev") for it in glob.glob(os.path.join(ROOT, top, "tests/test_*.py"))]
    return sorted(os.path.relpath(it, ROOT).removesuffix(".py").replace("/", ".") for it in paths)


def chosen(words):
    """The modules that the words name, wholly or by their last part; all without a word."""
    found = [it for word in words for it in modules() if word in (it, it.rpartition(".")[2])]
    lacks = next((it for it in words if not any(it in (name, name.rpartition(".")[2]) for name in found)), None)
    if lacks is not None:
        raise Fault(f"there is no module {lacks}")
    return found if words else modules()


def ran(module):
    """The status of a module's tests, and what they said."""
    folder, _, name = module.replace(".", "/").rpartition("/")
    command = [sys.executable, "-m", "unittest", "discover", "--verbose", "-t", ".", "-s", folder, "-p", f"{name}.py"]
    done = subprocess.run(command, cwd=ROOT, capture_output=True, text=True, errors="replace", stdin=subprocess.DEVNULL)
    return done.returncode, done.stdout + done.stderr


def main(words):
    if words in (["-h"], ["--help"]):
        print(__doc__)
        return DONE
    failed, count, skipped = 0, 0, Counter()
    listed = chosen(words)
    with ThreadPoolExecutor(AT_ONCE) as pool:
        for module, (status, said) in zip(listed, pool.map(ran, listed)):
            total = RAN.search(said)
            print(said if status or not total else f"{module}: {total[0]}", flush=True)
            failed += bool(status or not total)
            count += int(total[1]) if total else 0
            skipped.update(why for _, why in SKIPPED.findall(said))
    for why, number in sorted(skipped.items()):
        print(f"skipped {number}, since this is not installed: {why}")
    print(f"{len(listed)} modules, {count} tests, {sum(skipped.values())} skipped, {failed} modules failed")
    return FAILED if failed else DONE


if __name__ == "__main__":
    sys.exit(run("unit", lambda: main(sys.argv[1:])))
