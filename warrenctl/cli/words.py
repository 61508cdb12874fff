"""The words of a command line. What is wrong with one is one line on standard error, with status 3."""

import argparse

from warrenctl.fault import FAILED

PORT = 5672
PASSWORD_FILE = "the password is its first line; without it, that of WARREN_PASSWORD in the environment, else it is asked for"
STATUSES = "Status: 0 done; 1 done, but not wholly, and a line says why; 3 not done, and a line says why."


def whole_number(text, least, most):
    """The number that a word of a command line states."""
    if not (text.isascii() and text.isdigit()) or not least <= int(text[:9]) <= most:
        raise argparse.ArgumentTypeError(f"{text} is no whole number from {least} to {most}")
    return int(text)


def address(text):
    """The address and the port that IP:PORT states."""
    host, _, port = text.rpartition(":")
    if not host or not (port.isascii() and port.isdigit() and int(port[:9]) < 65536):
        raise argparse.ArgumentTypeError(f"{text} is no IP:PORT")
    return host.strip("[]"), int(port)


class Words(argparse.ArgumentParser):
    """The command line of a command of warrenctl; of another program, if `prog` names it."""

    def __init__(self, name, about, epilog=STATUSES, prog=None, **how):
        super().__init__(prog=prog or f"warrenctl {name}", description=about, epilog=epilog, allow_abbrev=False, **how)
        self.name = name

    def error(self, message):
        self.exit(FAILED, f"{self.name}: {message}; --help says more\n")

    def add_server(self):
        self.add_argument("server", metavar="USER@HOST[:PORT]", help=f"who logs in where; the port is {PORT} unless it is given")
        self.add_password()

    def add_password(self):
        self.add_argument("--password-file", metavar="FILE", help=PASSWORD_FILE)

    def add_program(self):
        self.add_argument("--warren", metavar="PROGRAM", help="the program that checks; without it, that of `make try`, a proved one, or the one on the path")
        self.add_argument("--alone", action="store_true", help="ask no program: check by matching alone")
