#!/usr/bin/env python3
"""Serves the shop of examples/shop, or one's own files, for ten minutes by a build of warren that proves nothing; with --proved by the proved program,
and with --by by one that is there, until it is ended. Certificates of one's own files are made first, in a folder for temporary files."""

import os
import socket
import subprocess
import sys
import tempfile

from dev import SHOP
from dev.program import check_readable, given_program, proved, unproved
from warrenctl.cli.run import run
from warrenctl.cli.words import Words
from warrenctl.fault import Fault

STATUSES = "Status: 0 the time is over; that of warren, if it ends before; 3 there is no program; 4 the address is taken. Ctrl-C ends it."
ENDED, TAKEN = 0, 4
# what `warren check` ends with if a guarantee is broken or undecided
NOT_ALL_HOLD = (1, 2)
LISTENS = "warren: listening on "


def words():
    parser = Words("look", __doc__, STATUSES, "python3 -m dev.look")
    parser.add_argument("definitions", nargs="?", help="a definitions file")
    parser.add_argument("guarantees", nargs="?", help="a guarantees file, which is checked first")
    parser.add_argument("--listen", default="127.0.0.1:5672", metavar="IP:PORT", help="where it listens; without it, 127.0.0.1:5672")
    parser.add_argument("--seconds", type=float, help="how long it serves; without it, 600, and with --proved or --by until Ctrl-C")
    by = parser.add_mutually_exclusive_group()
    by.add_argument("--proved", action="store_true", help="by the proved program, which is made first if its sources are newer")
    by.add_argument("--by", metavar="PROGRAM", help="by this program, such as /usr/bin/warren")
    given = parser.parse_args()
    if given.definitions and not given.guarantees:
        parser.error("definitions need guarantees")
    if given.seconds is None and is_unproved(given):
        given.seconds = 600
    return given


def is_unproved(given):
    """Whether it serves by the build that proves nothing."""
    return not given.proved and given.by is None


def program_of(given):
    if given.by is not None:
        return given_program(given.by, tell)
    return proved("warren", tell) if given.proved else unproved(tell)


def tell(line):
    print(line, file=sys.stderr, flush=True)


def why_not(address):
    """Why nothing can listen there, if so."""
    host, _, port = address.rpartition(":")
    try:
        family = socket.AF_INET6 if ":" in host else socket.AF_INET
        with socket.socket(family) as it:
            it.setsockopt(socket.SOL_SOCKET, socket.SO_REUSEADDR, 1)
            it.bind((host.strip("[]"), int(port)))
            it.listen()
        return None
    except OSError as error:
        return error.strerror or str(error)
    except (ValueError, OverflowError):
        return "it is no IP:PORT"


def files_of(warren, given, folder):
    """Returns the three files and 0; or, if one's own do not hold, the status of `warren check`, once its lines were told."""
    if not given.definitions:
        return [os.path.join(SHOP, f"{it}.json") for it in ("definitions", "guarantees", "certificates")], 0
    certificates, status = certified(warren, given, folder)
    return [given.definitions, given.guarantees, certificates], status


def certified(warren, given, folder):
    """Has `warren check` write certificates into a folder. Returns their file, and its status, whose lines are told unless it is 0."""
    certificates = os.path.join(folder, "certificates.json")
    checked = subprocess.run([warren, "check", given.definitions, given.guarantees, "--out", certificates], stdout=subprocess.PIPE)
    if checked.returncode:
        sys.stdout.write(checked.stdout.decode("utf-8", "replace"))
        sys.stdout.flush()
    if checked.returncode in NOT_ALL_HOLD:
        tell(f"look: not all of {given.guarantees} holds, and warren serves only what holds (`python3 -m warrenctl why` says more)")
    return certificates, checked.returncode


def serve(warren, files, given):
    """Says that it listens once the program says so, and waits for the program, at most as long as it may serve; its status."""
    with subprocess.Popen([warren, "serve", *files, "--listen", given.listen], stdout=subprocess.PIPE, text=True) as running:
        try:
            line = running.stdout.readline()
            if not line.startswith(LISTENS):
                return running.wait()
            print(looks(line.strip().removeprefix(LISTENS), given.seconds) if is_unproved(given) else line.strip(), flush=True)
            return running.wait(given.seconds)
        except subprocess.TimeoutExpired:
            return ENDED
        finally:
            running.kill()


def looks(address, seconds):
    return f"listening on {address} for {told(seconds)}, over nothing that was proved. `make serve` proves all of it first."


def told(seconds):
    return "ten minutes" if seconds == 600 else f"{seconds:g} seconds"


def main(given):
    why = why_not(given.listen)
    if why:
        raise Fault(f"{given.listen}: {why}", TAKEN)
    if given.definitions:
        check_readable(given.definitions, given.guarantees)
    warren = program_of(given)
    with tempfile.TemporaryDirectory(prefix="warren-") as folder:
        files, status = files_of(warren, given, folder)
        return status or serve(warren, files, given)


if __name__ == "__main__":
    sys.exit(run("look", lambda: main(words())))
