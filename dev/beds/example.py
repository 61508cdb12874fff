"""The command line of an example over the program."""

import os
import sys

from warrenctl.cli.run import DONE, run
from warrenctl.fault import Fault


def run_example(name, text, example, most=1):
    """Runs an example over the program that the command line names first, and returns its status. `text` is its help.

    `most` is how many words it takes; those behind the program are numbers. It ends as a command of warrenctl does.
    """

    def work():
        given = sys.argv[1:]
        if given in (["-h"], ["--help"]):
            print(text)
            return DONE
        wrong = why_no_example(given, most)
        if wrong:
            raise Fault(wrong)
        return example(os.path.realpath(given[0]), *map(int, given[1:]))

    return run(name, work)


def why_no_example(given, most):
    """What is wrong with the words of an example, or nothing."""
    if not 1 <= len(given) <= most:
        return "it takes the program warren; --help says more"
    if not os.path.isfile(given[0]) or not os.access(given[0], os.X_OK):
        return f"{given[0]} is no program"
    return next((f"{it} is no number" for it in given[1:] if not (it.isascii() and it.isdigit())), None)
