"""Lets publishers in again: opens those exchanges of a definitions file that `warrenctl close` closed."""

from warrenctl.commands import close
from warrenctl.files import closing


def words(arguments):
    return close.words(arguments, "open", __doc__)


def main(given):
    return close.change(given, "open", closing.reopen, "{count} exchanges of {file} are open to publishers again", False)
