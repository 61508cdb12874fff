"""Says why warren refuses a file, and what its verdicts mean; for what it leaves undecided, looks for a key that breaks it."""

import os
import sys

from warrenctl.cli.junit import ERROR, FAILURE, PASSED, Case, cases_in, report
from warrenctl.cli.run import tell, why_of
from warrenctl.cli.words import Words
from warrenctl.fault import FAILED, Fault
from warrenctl.files.causes import EMPTY_ARRAYS, ENTRIES, name_of, quoted, read_json
from warrenctl.files.places import lines_of
from warrenctl.files.reading import Refused, read_certificates, read_definitions, read_guarantees, read_input
from warrenctl.files.writing import write
from warrenctl.program import program_of
from warrenctl.routing.asking import BROKEN, HOLDS, UNDECIDED, checked, ran, worst
from warrenctl.routing.checker import Topology, refutes
from warrenctl.routing.search import MOST_STATES, search
from warrenctl.routing.sentences import broken, fault, promise, told, way
from warrenctl.routing.topology import BadFile, read_verdicts

STATUSES = "Status: 0 all hold; 1 a file is refused, or a guarantee is broken; 2 some are undecided, and no key was found; 3 there is no answer."


def words(arguments):
    parser = Words("why", __doc__, STATUSES)
    parser.add_argument("definitions", help="a definitions file")
    parser.add_argument("guarantees", nargs="?", help="a guarantees file")
    parser.add_argument("verdicts", nargs="?", help="what `warren check` printed of them; without it, warren is asked if it is here; - is standard input")
    parser.add_argument("--certificates", help="a certificates file, whose refusals are explained, too")
    parser.add_argument("--only", type=int, metavar="I", help="of guarantee I alone, counted from 1")
    parser.add_argument("--warren", metavar="PROGRAM", help="the program; without it, that of `make try`, a proved one, or the one on the path")
    parser.add_argument("--junit", metavar="FILE", help="write a report in JUnit's form too, one test for each guarantee, for a pipeline to show")
    parser.add_argument("--with", dest="before", metavar="FILE", help="put the tests of this report, such as that of `convert --strict`, into the report, too")
    parser.add_argument("--alone", action="store_true", help="ask no program")
    parser.add_argument("--states", type=int, default=MOST_STATES, help=f"how far a search goes; without it, {MOST_STATES} states")
    return parser.parse_args(arguments)


# ---- refusals


def lines_by_entry(name):
    """On which lines of a file each entry is, by how it is called."""
    with open(name, "rb") as file:
        data = file.read()
    value, lines, found = read_json(data), lines_of(data.decode("utf-8")), {}
    kinds = {"guarantees": "guarantee", "": "certificate", **{it: it[:-1] for it in (*ENTRIES, *EMPTY_ARRAYS)}, "policies": "policy"}
    for array, numbers in lines.items():
        for place, number in enumerate(numbers if array in kinds else ()):
            entry = value[array][place] if array else value[place]
            called = f"{kinds[array]} {place + 1}" if array in ("guarantees", "") else name_of(kinds[array], entry, place)
            if array == "topic_permissions" and isinstance(entry, dict) and isinstance(entry.get("user"), str):
                called = f"topic permission {quoted(entry['user'])}"
            found.setdefault(called, []).append(number)
    return found


def tell_refusal(refused):
    """Prints each cause for which a file is refused. Returns them as cases of a report."""
    cases = []
    whole = refused.number in (1, 10)
    lines = {} if whole and refused.causes[0].entry == "file" else lines_by_entry(refused.name)
    for it in sorted(refused.causes, key=lambda it: it.number):
        places = lines.get(it.entry, [])
        at = f":{','.join(map(str, places))}" if places else ""
        cases.append(Case(refused.name, f"{refused.name}{at}: {it.entry}", ERROR, f"refused {it.number}", f"{it.what} (refused {it.number})"))
        print(f"{cases[-1].name}: {cases[-1].said}")
    count = len(refused.causes)
    print(f"{refused.name}: {count} cause{'s' * (count != 1)}; the lowest is what warren prints: refused {refused.number}")
    return cases


# ---- verdicts


class Warren:
    """The program, if it is here."""

    def __init__(self, program, definitions):
        self.program, self.definitions = program, definitions

    def check(self, guarantees, count):
        return checked(self.program, self.definitions, guarantees, count)

    def queues(self, exchange, key):
        return ran(self.program, "route", "--", self.definitions, exchange, key).stdout.splitlines()

    def agrees(self, topology, guarantee, key, path):
        """Whether `warren route` leads the key as this script does: past the queue, or along the path, from each exchange where it has a key."""
        if guarantee["mode"] == "reaches":
            return quoted(guarantee["queue"]) not in self.queues(guarantee["exchange"], key)
        places = way(topology, key, path)
        begins = [place for place, it in enumerate(places) if it[0] == "exchange" and (place == 0 or places[place - 1][0] == "queue")]
        ends = [next(it for it in places[begin:] if it[0] == "queue") for begin in begins]
        return all(quoted(end[1]) in self.queues(places[begin][1], places[begin][2] or key) for begin, end in zip(begins, ends))


class Answers:
    """What is said of each guarantee, behind its status."""

    def __init__(self, topology, warren, most):
        self.topology, self.warren, self.most = topology, warren, most

    def of(self, guarantee, verdict):
        said = verdict.told if verdict else None
        if said is None or said == "undecided states":
            return self.searched(guarantee, "UNDECIDED by `check`; " if said else "")
        if verdict.key is not None:
            return self.of_key(guarantee, verdict.key, verdict.path)
        if said == "undecided key":
            return UNDECIDED, "UNDECIDED: a key of more than 255 bytes, which no client can send, breaks it, and no key of fewer words does; take a shorter pattern"
        if said.startswith("fault "):
            return BROKEN, f"its certificate does not show it: {fault(said)}"
        if said != "ok" and not said.startswith("yes states "):
            raise BadFile(f"this is no line of warren check: {said[:80]}")
        return HOLDS, "yes"

    def of_key(self, guarantee, key, path):
        if not refutes(self.topology, guarantee, key, path):
            return UNDECIDED, f"the verdict is of other files: {told(key)} does not break it here"
        return BROKEN, "NO: " + broken(self.topology, guarantee, key, path)

    def searched(self, guarantee, before):
        found = search(self.topology, guarantee, self.most)
        if found.key is not None:
            said = broken(self.topology, guarantee, found.key, found.path)
            return BROKEN, f"{before and 'UNDECIDED by `check`, but '}NO: {said}{self.witness(guarantee, found)}"
        if found.all:
            rest = ", and yet there is no certificate" if before else "; `warren check` decides"
            return UNDECIDED if before else HOLDS, f"{before}no key breaks it by matching alone{rest}"
        return UNDECIDED, f"{before}no key was found that breaks it, in {found.states} states: it may hold or not"

    def witness(self, guarantee, found):
        if self.warren is None:
            return ""
        agrees = self.warren.agrees(self.topology, guarantee, found.key, found.path)
        return " (`warren route` says so too)" if agrees else " (but `warren route` says otherwise)"


def lines_in(name):
    if name == "-":
        return read_input().decode(errors="replace").splitlines()
    with open(name, encoding="utf-8", errors="replace") as file:
        return file.read().splitlines()


def answered(given, definitions, guarantees):
    """Each guarantee that is asked for: its number, its sentence, its status, and what is said of it."""
    program = program_of(given)
    warren = Warren(program, given.definitions) if program else None
    if given.verdicts:
        verdicts = read_verdicts(lines_in(given.verdicts), len(guarantees))
    else:
        verdicts = warren.check(given.guarantees, len(guarantees)) if warren else {}
    asked = range(1, len(guarantees) + 1) if given.only is None else [given.only]
    lacks = next((it for it in asked if it not in verdicts), None)
    if lacks is not None and given.verdicts:
        raise BadFile(f"{given.verdicts} says nothing of guarantee {lacks}")
    answers = Answers(Topology(definitions), warren, given.states)
    for number in asked:
        it = guarantees[number - 1]
        yield number, promise(it), *answers.of(it, verdicts.get(number))


def why(given, cases):
    """Prints what is to be said, adds a case for each guarantee, and returns the status."""
    definitions = read_definitions(given.definitions)
    if given.guarantees is None:
        print(f"warren accepts {given.definitions}")
        cases.append(Case(given.definitions, "warren accepts it"))
        return HOLDS
    guarantees = read_guarantees(given.guarantees, definitions)
    if given.only is not None and not 1 <= given.only <= len(guarantees):
        raise BadFile(f"{given.guarantees}: there is no guarantee {given.only}")
    if given.certificates is not None:
        read_certificates(given.certificates)
    status = HOLDS
    for number, sentence, one, said in answered(given, definitions, guarantees):
        print(f"{number}: {sentence}: {said}", flush=True)
        kind = {BROKEN: "broken", UNDECIDED: "undecided"}.get(one, "")
        cases.append(Case(given.definitions, sentence, FAILURE if kind else PASSED, kind, said if kind else ""))
        status = worst((status, one))
    return status


def run(given, cases):
    """Does what is asked, and returns the status. What is wrong is a case, too."""
    try:
        if given.before is not None:
            cases += cases_in(given.before)
        status = why(given, cases)
        sys.stdout.flush()
        return status
    except Refused as refused:
        cases += tell_refusal(refused)
        return BROKEN
    except Fault as error:
        wrong = str(error)
    except OSError as error:
        wrong = why_of(error)
    tell("why", wrong)
    cases.append(Case(given.definitions, "there is no answer", ERROR, "failed", wrong))
    return FAILED


def put_report(given, cases):
    write(given.junit, report(given.guarantees or given.definitions, cases), given.definitions if os.path.exists(given.definitions) else None)


def main(given):
    cases = []
    if given.junit is not None:
        put_report(given, [Case(given.definitions, "this came to an end", ERROR, "failed", "it was broken off")])
    status = run(given, cases)
    if given.junit is not None:
        put_report(given, cases)
    return status
