"""How tests and examples run a command of warrenctl: from the repository, or by the file that WARRENCTL names in the environment."""

import os
import sys

# for a process that is in another folder


def warrenctl(name, python=sys.executable):
    """The words that run a command, by this Python."""
    made = os.environ.get("WARRENCTL")
    return [python, made, name] if made else [python, "-m", "warrenctl", name]
