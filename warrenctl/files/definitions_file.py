"""A definitions file that is read, and written anew with another entry."""

import json

from warrenctl.fault import Fault
from warrenctl.files.writing import write


def read(name, *lists):
    """The members of the file. These of them have to be lists of objects."""
    try:
        with open(name, encoding="utf-8") as file:
            definitions = json.load(file)
    except (ValueError, RecursionError):
        raise Fault(f"{name} is not JSON") from None
    found = [definitions.get(it) for it in lists] if isinstance(definitions, dict) else [None]
    if not all(isinstance(it, list) and all(isinstance(entry, dict) for entry in it) for it in found):
        raise Fault(f"{name} is no definitions file: it has no {' and '.join(lists)}")
    return definitions


def text_of(definitions):
    """The file, an entry a line."""

    def member(value):
        if not isinstance(value, list) or not value:
            return json.dumps(value, ensure_ascii=False)
        return "[\n" + ",\n".join("    " + json.dumps(it, ensure_ascii=False) for it in value) + "\n  ]"

    return "{\n" + ",\n".join(f"  {json.dumps(name)}: {member(it)}" for name, it in definitions.items()) + "\n}\n"


def replace(name, definitions):
    """The file has these members at once or not at all, and the owner and the rights that it had."""
    try:
        data = text_of(definitions).encode()
    except UnicodeEncodeError:
        raise Fault(f"{name} has a text that is no UTF-8") from None
    write(name, data)
