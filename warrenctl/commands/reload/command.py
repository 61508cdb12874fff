"""Puts a folder of files in force for a broker that runs with --reload. The broker has to be started with the three names under FOLDER, which is
a link to a folder. This checks the definitions and the guarantees of the folder NEW, writes its certificates, verifies them, has the link lead
to NEW at once, and looks by a passive declare whether the broker has it. If it does not, the link is put back."""

import os

from warrenctl.amqp.probes import look, probe_of, seconds
from warrenctl.cli.login import log_in
from warrenctl.cli.run import DONE, NOT_WHOLE, tell
from warrenctl.cli.words import STATUSES, Words
from warrenctl.commands.reload.folders import certify, check_folders, keep, mark, path_in, swap
from warrenctl.fault import Fault


def words(arguments):
    parser = Words("reload", __doc__, STATUSES)
    parser.add_argument("folder", metavar="FOLDER", help="the link, such as /etc/warren/current")
    parser.add_argument("new", metavar="NEW", help="the folder with the new definitions.json and guarantees.json")
    parser.add_argument("--look", dest="server", metavar="USER@HOST[:PORT]", help="the broker to ask; without it nobody is asked")
    parser.add_password()
    mark_help = "put an exchange into the new definitions whose name says which files these are, so that the broker can be asked for it"
    parser.add_argument("--mark", action="store_true", help=mark_help)
    parser.add_argument("--seconds", type=seconds, default=60, help="how long to look (60)")
    parser.add_argument("--leave", action="store_true", help="leave the link as it is if the broker does not have the files in that time")
    parser.add_argument("--kept", metavar="FOLDER", help="where the unit keeps a copy of the files in force, such as /var/lib/warren: put these there")
    parser.add_argument("--warren", metavar="PROGRAM", default="warren", help="the program (warren)")
    given = parser.parse_args(arguments)
    if given.kept and not given.server:
        parser.error("--kept needs --look")
    return given


def swap_and_look(given, client, probe, old):
    if probe.holds(client):
        raise Fault(f"the broker has {probe} before anything was changed: its files are not those of {given.folder}")
    swap(given.folder, given.new)
    swapped = f"{given.folder} leads to {given.new}"
    try:
        took = look(client, probe, given.seconds)
    except Fault as error:
        tell("reload", f"{swapped}; whether it is in force is not known: {error}")
        return NOT_WHOLE
    if took is None:
        return not_in_force(given, swapped, old)
    if given.kept:
        keep(given.new, given.kept)
    tell("reload", f"{given.new} is in force: after {took:.1f} seconds the broker has {probe}")
    return DONE


def not_in_force(given, swapped, old):
    """Puts the link back, unless that is not wanted."""
    why = f"after {given.seconds:g} seconds; the broker's standard error says why"
    if given.leave:
        tell("reload", f"{swapped}, which is not in force {why}, and `reload {given.folder} {old}` goes back")
        return NOT_WHOLE
    swap(given.folder, old)
    raise Fault(f"{given.new} is not in force {why}; {given.folder} leads to {old} again")


def main(given):
    check_folders(given.folder, given.new)
    if given.kept and not os.path.isdir(given.kept):
        raise Fault(f"{given.kept} is no folder")
    old = os.path.realpath(given.folder)
    if given.mark:
        mark(given.new)
    certify(given.warren, given.new, old)
    if given.server is None:
        swap(given.folder, given.new)
        tell("reload", f"{given.folder} leads to {given.new}; whether it is in force was not asked")
        return DONE
    probe = probe_of(path_in(old, 0), path_in(given.new, 0))
    with log_in(given) as client:
        if probe:
            return swap_and_look(given, client, probe, old)
        swap(given.folder, given.new)
        mend = "the files are as before" if given.mark else "--mark makes it so"
        unknown = f"no queue and no exchange came or went, so the broker can't be asked whether it is in force; {mend}"
        tell("reload", f"{given.folder} leads to {given.new}; {unknown}")
        return NOT_WHOLE
