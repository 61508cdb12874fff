"""The command line of warrenctl: COMMAND WORD .., --help or --version."""

import importlib
import sys

from warrenctl import VERSION
from warrenctl.cli.run import DONE, run
from warrenctl.commands import COMMANDS
from warrenctl.fault import Fault

ABOUT = "What an operator needs beside the broker warren"
WIDEST = max(map(len, COMMANDS))


def help_text():
    listed = "\n".join(f"  {name.ljust(WIDEST)}  {about}" for name, about in COMMANDS.items())
    return f"usage: warrenctl COMMAND [WORD ..]\n\n{ABOUT}.\n\n{listed}\n\n`warrenctl COMMAND --help` says what a command takes.\n"


def work(words):
    if words[:1] in ([], ["-h"], ["--help"], ["help"]):
        sys.stdout.write(help_text())
        return DONE
    if words[0] == "--version":
        print(f"warrenctl {VERSION}")
        return DONE
    name, *rest = words
    if name not in COMMANDS:
        raise Fault(f"there is no command {name}; --help lists them")
    command = importlib.import_module(f"warrenctl.commands.{name}")
    return command.main(command.words(rest))


def main():
    name = next(iter(sys.argv[1:]), "")
    return run(name if name in COMMANDS else "warrenctl", lambda: work(sys.argv[1:]))


if __name__ == "__main__":
    sys.exit(main())
