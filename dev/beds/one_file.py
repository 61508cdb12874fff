"""A folder that has the examples and what tests share, but not this repository's warrenctl: one file gives that, which an operator has as well.

    python3 -m dev.beds.one_file MODULE [WORD ..]    runs a module of such a folder, be it one of warrenctl's tests
"""

import os
import runpy
import shutil
import sys

import warrenctl
from dev import ROOT

# the tests of warrenctl, which are not in its file
TESTS = "tests_of_warrenctl"
LEFT_OUT = shutil.ignore_patterns("__pycache__", "out")


def lay_out(folder):
    """Copies examples, beds and tests into a folder."""
    for it in ("dev", "examples"):
        shutil.copytree(os.path.join(ROOT, it), os.path.join(folder, it), ignore=LEFT_OUT)
    shutil.copytree(os.path.join(ROOT, "warrenctl/tests"), os.path.join(folder, TESTS, "tests"), ignore=LEFT_OUT)


def environment(file):
    """Returns the environment in which Python and the examples take warrenctl from `file` alone."""
    return {**os.environ, "WARRENCTL": file, "PYTHONPATH": file}


def command(module, *words):
    return [sys.executable, "-m", "dev.beds.one_file", module, *words]


def main(module, *words):
    warrenctl.__path__.append(os.path.join(ROOT, TESTS))
    sys.argv = [module, *words]
    runpy.run_module(module, run_name="__main__", alter_sys=True)


if __name__ == "__main__":
    main(*sys.argv[1:])
