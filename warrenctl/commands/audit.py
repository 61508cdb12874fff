"""Checks certificates without warren: an independent reading of docs/FORMATS.md, with the lines and statuses of `warren verify`."""

import json

from warrenctl.cli.words import Words
from warrenctl.fault import Fault
from warrenctl.files.reading import Refused, read_certificates, read_definitions, read_guarantees
from warrenctl.routing import checker
from warrenctl.routing.checker import OTHER, Check, Topology, refutes

GOOD, FAULTY, REFUSED, FAILED = 0, 1, 3, 4
STATUSES = "Status: 0 all are ok, or the key breaks the guarantee; 1 some are not, or it does not; 3 a file or the command line is refused; 4 a file cannot be read."


def words(arguments):
    parser = Words("audit", __doc__, STATUSES)
    parser.add_argument("definitions", help="a definitions file")
    parser.add_argument("guarantees", help="a guarantees file")
    parser.add_argument("certificates", nargs="?", help="a certificates file")
    parser.add_argument("--only", type=int, metavar="I", help="of guarantee I alone, counted from 1")
    parser.add_argument("--key", nargs="+", metavar=("KEY", "NAME"), help="look at this key, which breaks guarantee I of --only; of a never by this path of names")
    given = parser.parse_args(arguments)
    if (given.key is None) == (given.certificates is None):
        parser.error("it takes a certificates file, or --key")
    if given.key and given.only is None:
        parser.error("--key needs --only")
    return given


def line(number, fault):
    if fault is None:
        return f"{number} ok"
    if fault.letter is not None:
        letter = "other" if fault.letter is OTHER else json.dumps(fault.letter, ensure_ascii=False)
        return f"{number} fault {fault.number} state {fault.state} letter {letter}"
    return f"{number} fault {fault.number}" + (f" state {fault.state}" if fault.state is not None else "")


def faults_of(topology, guarantees, certificates):
    """The first fault of each certificate; one that is not there, and the first too many, have not the form."""
    faults = [Check(topology, *it).fault() for it in zip(guarantees, certificates)]
    if len(guarantees) > len(certificates):
        return faults + [checker.Fault(5)] * (len(guarantees) - len(certificates))
    return faults + [checker.Fault(5)] * (len(certificates) > len(guarantees))


def audit(given):
    definitions = read_definitions(given.definitions)
    guarantees = read_guarantees(given.guarantees, definitions)
    topology = Topology(definitions)
    if given.only is not None and not 1 <= given.only <= len(guarantees):
        raise Fault(f"{given.guarantees}: there is no guarantee {given.only}", REFUSED)
    if given.key:
        broken = refutes(topology, guarantees[given.only - 1], given.key[0], given.key[1:])
        print(f"{given.only} " + ("broken" if broken else "not broken by this"))
        return GOOD if broken else FAULTY
    told = enumerate(faults_of(topology, guarantees, read_certificates(given.certificates)), 1)
    told = [(number, fault) for number, fault in told if given.only in (None, number)]
    for number, fault in told:
        print(line(number, fault))
    return FAULTY if any(fault for _, fault in told) else GOOD


def main(given):
    try:
        return audit(given)
    except Refused as error:
        raise Fault(f"{error.name}: refused {error.number}", REFUSED) from None
    except OSError as error:
        raise Fault(f"{error.filename}: cannot read", FAILED) from None
