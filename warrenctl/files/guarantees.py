"""The causes for which warren refuses a guarantees file and a certificates file: all that are in it, each with its entry.

docs/FORMATS.md has the causes. Nothing here is proved: what warren says of a file decides.
"""

from warrenctl.files.causes import KINDS, Cause, quoted, wrong_pattern

MOST_GUARANTEES = 64
MOST_EXCEPTS = 16
MODES = ("reaches", "never")
GUARANTEE = ("mode", "exchange", "pattern", "queue")
FORM_1 = {"exchange": str, "form": int, "mode": str, "pattern": str, "queue": str, "states": list}
FORMS = {1: FORM_1, 2: {**FORM_1, "tracked": list}, 3: {**FORM_1, "tracked": list, "except": list}}


def is_whole(value):
    """A whole number below 2^64, as certificates have them."""
    return type(value) is int and 0 <= value < 1 << 64


# ---- guarantees


def _wrong_kinds(entry):
    """What is wrong with the members of a guarantee."""
    if not isinstance(entry, dict):
        return ["it is no object"]
    wrong = [f"member {quoted(name)} is missing" for name in GUARANTEE if name not in entry]
    wrong += [f"member {quoted(name)} is no {KINDS[str]}" for name in GUARANTEE if name in entry and not isinstance(entry[name], str)]
    if isinstance(entry.get("mode"), str) and entry["mode"] not in MODES:
        wrong.append(f"mode {quoted(entry['mode'])}; only \"reaches\" and \"never\" are taken")
    excepts = entry.get("except", [])
    if not isinstance(excepts, list) or not all(isinstance(it, str) for it in excepts):
        wrong.append("member \"except\" is no array of texts")
    return wrong


def _wrong_texts(called, entry, exchanges, queues):
    """The causes in a guarantee whose members are as they must be."""
    if entry["exchange"] not in exchanges:
        yield Cause(5, called, f"its exchange {quoted(entry['exchange'])} is not there")
    if entry["queue"] not in queues:
        yield Cause(5, called, f"its queue {quoted(entry['queue'])} is not there")
    if wrong_pattern(entry["pattern"]):
        yield Cause(9, called, f"its pattern {quoted(entry['pattern'])} {wrong_pattern(entry['pattern'])}")
    for it in entry.get("except", []):
        if wrong_pattern(it):
            yield Cause(9, called, f"its exception {quoted(it)} {wrong_pattern(it)}")
    if len(entry.get("except", [])) > MOST_EXCEPTS:
        yield Cause(10, called, f"{len(entry['except'])} exceptions; {MOST_EXCEPTS} are the most")


def guarantee_causes(value, definitions):
    """All causes that stand in a guarantees file of this value, over a definitions file that is taken."""
    if not isinstance(value, dict) or not isinstance(value.get("guarantees"), list):
        return [Cause(2, "file", "it is no object with an array \"guarantees\"")]
    exchanges = {""} | {it["name"] for it in definitions["exchanges"]}
    queues = {it["name"] for it in definitions["queues"]}
    causes = []
    for number, it in enumerate(value["guarantees"], 1):
        wrong = _wrong_kinds(it)
        causes += [Cause(2, f"guarantee {number}", what) for what in wrong]
        causes += [] if wrong else _wrong_texts(f"guarantee {number}", it, exchanges, queues)
    if len(value["guarantees"]) > MOST_GUARANTEES:
        causes.append(Cause(10, "file", f"{len(value['guarantees'])} guarantees; {MOST_GUARANTEES} are the most"))
    return causes


# ---- certificates


def _wrong_certificate(entry):
    """What is wrong with the members of a certificate."""
    if not isinstance(entry, dict):
        return ["it is no object"]
    members = FORMS.get(entry.get("form")) if is_whole(entry.get("form")) else None
    if members is None:
        return ["its form is none of 1, 2 and 3"]
    wrong = [f"member {quoted(name)} is missing" for name in members if name not in entry]
    wrong += [f"member {quoted(name)} is not of form {entry['form']}" for name in entry if name not in members]
    wrong += [f"member {quoted(name)} is no {KINDS[kind]}" for name, kind in members.items() if kind is not int and name in entry and not isinstance(entry[name], kind)]
    return wrong or _wrong_lists(entry)


def _wrong_lists(entry):
    for place, state in enumerate(entry["states"]):
        if not isinstance(state, list) or not all(is_whole(it) for it in state):
            return [f"state {place} is no array of whole numbers below 2^64"]
    wrong = []
    if not all(is_whole(it) for it in entry.get("tracked", [])):
        wrong.append("member \"tracked\" is no array of whole numbers below 2^64")
    if not all(isinstance(it, str) for it in entry.get("except", [])):
        wrong.append("member \"except\" is no array of texts")
    return wrong


def certificate_causes(value):
    """All causes that stand in a certificates file of this value."""
    if not isinstance(value, list):
        return [Cause(2, "file", "it is no array")]
    return [Cause(2, f"certificate {number}", what) for number, it in enumerate(value, 1) for what in _wrong_certificate(it)]
