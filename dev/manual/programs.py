"""The two programs whose pages are made: warren by the texts of its help, and warrenctl by the command lines of its commands."""

import importlib
from unittest.mock import patch

from dev.manual.help_texts import Help, Option, read_help
from dev.manual.pages import Program
from warrenctl import VERSION
from warrenctl.__main__ import ABOUT
from warrenctl.cli.words import Words
from warrenctl.commands import COMMANDS

STATUSES = [
    (0, "done; every guarantee holds, every certificate is accepted"),
    (1, "check: some guarantee does not hold; verify: some certificate has a fault"),
    (2, "check: no guarantee is broken, but some are undecided"),
    (3, "a file, a certificate of replay or serve, or the command line was refused; --help and --version, too"),
    (4, "memory, input or output failed"),
]
NOTES = "What serve keeps is in memory alone: at a stop all messages are lost, acked or not. Standard error has to be read."
NOTES_OF_WARRENCTL = "What is wrong is one line on standard error. A signal ends a command with one line, and 128 and its number as the status."
HELP, VERSION_OPTION = Option("-h", "--help", None, "Print help"), Option(None, "--version", None, "Print version")


def warren(texts):
    """The program of these help texts, by their names."""
    whole = read_help(texts["warren"])
    commands = [(name, read_help(texts[name])) for name, _ in whole.commands if name != "help"]
    return Program("warren", texts["version"].strip(), whole, commands, STATUSES, NOTES)


class Described(Exception):
    """Raised in place of reading a command line; `parser` has what it takes."""

    def __init__(self, parser):
        super().__init__("described")
        self.parser = parser


def describe(parser, _):
    raise Described(parser)


def parser_of(name):
    command = importlib.import_module(f"warrenctl.commands.{name}")
    with patch.object(Words, "parse_args", describe):
        try:
            command.words([])
        except Described as it:
            return it.parser
    raise ValueError(f"{name} reads no command line")


def value_of(action):
    """What stands for a value in the help of warren's form, such as FILE; none if there is no value."""
    if action.nargs == 0:
        return None
    it = action.metavar or action.dest.upper()
    return it if isinstance(it, str) else " ".join(it)


def usage_of(name, actions):
    words = [f"{it.option_strings[-1]} <{value_of(it)}>" for it in actions if it.option_strings and it.required]
    for it in actions:
        if not it.option_strings:
            words.append(f"[{value_of(it)}]" if it.nargs == "?" else f"<{value_of(it)}>")
    return " ".join(["warrenctl", name, "[OPTIONS]", *words])


def help_of(name):
    """What a command of warrenctl says with --help."""
    parser = parser_of(name)
    what_of = parser._get_formatter()._expand_help
    arguments = [(value_of(it), what_of(it)) for it in parser._actions if not it.option_strings]
    options = [HELP if it.dest == "help" else Option(None, it.option_strings[-1], value_of(it), what_of(it)) for it in parser._actions if it.option_strings]
    about = " ".join(parser.description.split())
    return Help(about, usage_of(name, parser._actions), [], arguments, options, " ".join((parser.epilog or "").split()))


def warrenctl():
    commands = [(name, help_of(name)) for name in COMMANDS]
    whole = Help(ABOUT, "warrenctl COMMAND", [*COMMANDS.items(), ("help", "prints the list of commands")], [], [HELP, VERSION_OPTION])
    return Program("warrenctl", f"warrenctl {VERSION}", whole, commands, [], NOTES_OF_WARRENCTL)
