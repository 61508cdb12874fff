"""Makes a user with a password: prints the two entries of a definitions file, or puts them into one. The password is asked for, twice and
without echo; if standard input is no terminal, it is its first line. Lists the users of a file, or removes one."""

import getpass
import json
import os
import secrets
import sys

from warrenctl.cli.run import DONE, tell
from warrenctl.cli.words import Words
from warrenctl.commands.user.entries import entries, hash_of, with_user, without_user
from warrenctl.fault import Fault
from warrenctl.files.definitions_file import read, replace, text_of

MOST_NAME, MOST_PASSWORD = 255, 1024


def words(arguments):
    parser = Words("user", __doc__, "Status: 0 done; 3 not done, and a line says why.")
    parser.add_argument("name", nargs="?", help="the user's name")
    into = "the definitions file to put the user into, or the new password of one who is there; without it, the entries are printed"
    parser.add_argument("file", nargs="?", help=into)
    parser.add_argument("--remove", action="store_true", help="remove the user from the file")
    parser.add_argument("--list", metavar="FILE", help="print the users of this definitions file, and do nothing else")
    given = parser.parse_args(arguments)
    if given.list is not None and (given.name is not None or given.remove):
        parser.error("--list takes no name")
    if given.list is None and given.name is None:
        parser.error("a name is required, or --list")
    if given.remove and given.file is None:
        parser.error("--remove needs a file")
    return given


def checked(what, data, most):
    """A name or a password that a login can say."""
    if not 0 < len(data) <= most or b"\0" in data:
        raise Fault(f"the {what} has {len(data)} bytes; it has to have 1 to {most}, and no NUL")
    try:
        data.decode()
    except UnicodeDecodeError:
        raise Fault(f"the {what} is no UTF-8") from None
    return data


def asked_password(name):
    if not sys.stdin.isatty():
        return sys.stdin.buffer.readline().rstrip(b"\r\n")
    password = getpass.getpass(f"password of {name}: ")
    if getpass.getpass("again: ") != password:
        raise Fault("these are two passwords")
    return os.fsencode(password)


def list_users(file):
    for it in read(file, "users")["users"]:
        name = it.get("name")
        print(name if isinstance(name, str) and name.isprintable() else json.dumps(name))
    return DONE


def remove(name, file):
    definitions = read(file, "users", "permissions")
    if not without_user(definitions, name):
        raise Fault(f"{file} has no user {json.dumps(name, ensure_ascii=False)}")
    replace(file, definitions)
    tell("user", f"{json.dumps(name, ensure_ascii=False)} is removed from {file}")
    return DONE


def main(given):
    if given.list is not None:
        return list_users(given.list)
    if given.remove:
        return remove(given.name, given.file)
    checked("name", os.fsencode(given.name), MOST_NAME)
    definitions = read(given.file, "users", "permissions") if given.file else None
    password = checked("password", asked_password(given.name), MOST_PASSWORD)
    made = entries(given.name, hash_of(password, secrets.token_bytes(4)))
    if definitions is None:
        sys.stdout.write(text_of(made))
        return DONE
    told = with_user(definitions, made)
    replace(given.file, definitions)
    tell("user", f"{json.dumps(given.name, ensure_ascii=False)} {told} in {given.file}")
    return DONE
