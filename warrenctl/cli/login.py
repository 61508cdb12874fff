"""Who logs in where, by the words of a command line."""

import getpass
import os
import sys

from warrenctl.amqp.client import Client
from warrenctl.cli.words import PORT
from warrenctl.fault import Fault


def address_of(server):
    """The user, the host and the port."""
    user, _, place = server.rpartition("@")
    host, _, port = place.rpartition(":") if ":" in place.rpartition("]")[2] else (place, ":", str(PORT))
    if place.count(":") > 1 and not place.startswith("["):
        raise Fault(f"{server}: an IPv6 address has to be in brackets")
    if not user or not host:
        raise Fault(f"{server}: a user and a host are required, as in till@127.0.0.1:5672")
    if not (port.isascii() and port.isdigit() and 0 < int(port) < 65536):
        raise Fault(f"{server}: {port} is no port")
    return user, host.strip("[]"), int(port)


def first_line(name):
    with open(name, encoding="utf-8", errors="surrogateescape") as file:
        return file.readline().rstrip("\r\n")


def password_for(user, file):
    if file is not None:
        return first_line(file)
    if "WARREN_PASSWORD" in os.environ:
        return os.environ["WARREN_PASSWORD"]
    if not sys.stdin.isatty():
        raise Fault("no password: give --password-file FILE, or WARREN_PASSWORD in the environment")
    return getpass.getpass(f"password of {user}: ")


def log_in(given):
    """The client of this command line."""
    user, host, port = address_of(given.server)
    return Client(host, port, user, password_for(user, given.password_file))
