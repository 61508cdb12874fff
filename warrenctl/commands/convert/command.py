"""Makes a definitions file that warren takes out of an export of RabbitMQ, and prints what it changed or left out."""

import json
import sys

from warrenctl.cli.junit import ERROR, FAILURE, Case, report
from warrenctl.cli.run import why_of
from warrenctl.cli.words import Words
from warrenctl.commands.convert.convert import SOURCE, NoFile, convert, no_export
from warrenctl.commands.convert.part import part_of
from warrenctl.commands.convert.report import sections, staying
from warrenctl.commands.convert.still import may_break, told
from warrenctl.fault import Fault
from warrenctl.files.causes import MOST_BYTES, NotJson, causes_in, causes_of, quoted, read_json
from warrenctl.files.reading import read_input
from warrenctl.files.writing import write

TAKEN, REFUSED = 0, 1
# with --strict: the file was written, and a `yes` of it may not be one of RabbitMQ
BREAKS = 1
STATUSES = "Status: 0 written, or taken as it is; 1 with --check: it is refused, with --strict: a change may break a `yes`; 3 no file was made."


def words(arguments):
    parser = Words("convert", __doc__, STATUSES)
    parser.add_argument("export", help="the export of RabbitMQ (GET /api/definitions); - is standard input")
    parser.add_argument("file", nargs="?", help="the file to be written; without it, standard output")
    parser.add_argument("--check", action="store_true", help="write nothing, and print all causes for which warren refuses the export as it is")
    parser.add_argument("--vhost", help="the virtual host to take; without it \"/\", or the only one")
    parser.add_argument("--only", action="append", default=[], metavar="NAME", nargs="+", help="take these queues, and those behind these exchanges, and nothing else; * is any characters")
    parser.add_argument("--all", action="store_true", help="print each change by its entry, also those after which all is as before")
    parser.add_argument("--strict", action="store_true", help="for a RabbitMQ that stays: print what becomes of a `yes` of warren check, and end with 1 if a change may break one")
    parser.add_argument("--junit", metavar="FILE", help="with --strict: write a report in JUnit's form too, with a failure for each change that may break a `yes`")
    given = parser.parse_args(arguments)
    given.only = [name for names in given.only for name in names]
    if given.check and (given.only or given.all or given.strict):
        parser.error("--check is of the export as it is, without --only, --all and --strict")
    if given.junit and not given.strict:
        parser.error("--junit needs --strict")
    return given


def read(name):
    if name == "-":
        return read_input()
    with open(name, "rb") as file:
        return file.read()


def text_of(definitions):
    """The file, an entry a line."""
    lists = []
    for name, entries in definitions.items():
        lines = ",\n".join("    " + json.dumps(it, ensure_ascii=False) for it in entries)
        lists.append(f'  "{name}": [\n{lines}\n  ]' if entries else f'  "{name}": []')
    return "{\n" + ",\n".join(lists) + "\n}\n"


def refuse_answer(data):
    """Refuses what RabbitMQ answered in place of an export."""
    try:
        value = read_json(data)
    except NotJson:
        return
    why = no_export(value) if isinstance(value, dict) else None
    if why:
        raise NoFile(why)


def check(data):
    refuse_answer(data)
    causes = causes_of(data)
    for it in sorted(causes, key=lambda it: it.number):
        print(f"refused {it.number}: {it.entry}: {it.what}")
    if not causes:
        print("warren accepts it as it is")
        return TAKEN
    print(f"{len(causes)} causes; the lowest is what warren prints: refused {min(it.number for it in causes)}")
    return REFUSED


def mended_bytes(data, tell):
    """The bytes without what Windows puts before them."""
    for mark, coding in ((b"\xef\xbb\xbf", "utf-8-sig"), (b"\xff\xfe", "utf-16"), (b"\xfe\xff", "utf-16")):
        if data.startswith(mark):
            tell("file: is now UTF-8 without a byte order mark (refused 1)")
            try:
                return data.decode(coding).encode("utf-8")
            except ValueError:
                raise NotJson(f"it begins as {coding}, and is not") from None
    return data


def line(change):
    cause = f" (refused {change.number})" if change.number else ""
    meaning = f". CHANGES MEANING: {change.meaning}" if change.meaning else ""
    stays = told(change.still)
    return f"{change.entry}: {change.what}{cause}{meaning}" + (f". FOR A RABBITMQ THAT STAYS: {stays}" if stays else "")


def tell(text):
    print(text, file=sys.stderr)


def tell_changes(made, changes, lines, every):
    """Tells what is no longer as it was for who moves."""
    for heading, them in sections(made, changes):
        tell(heading) if heading else None
        for it in them:
            tell(f"  {it}" if heading else it)
    if lines:
        tell("between warren and what stays in RabbitMQ:")
    for it in lines:
        tell(f"  {it}")
    if every:
        tell_all(changes)


def tell_all(changes):
    tell("all changes:")
    for it in changes:
        tell(f"  {line(it)}")


def tell_staying(changes, every):
    """Tells what a `yes` says of a RabbitMQ that stays."""
    for it in changes:
        tell(f"{it.entry}: {it.what}") if it.kind == SOURCE else None
    tell("what a `yes` of warren check says of a RabbitMQ that stays:")
    for it in staying(changes) or ["each holds"]:
        tell(f"  {it}")
    if every:
        tell_all(changes)


def tell_written(made, changes, every):
    counts = ", ".join(f"{name} {len(made[name])}" for name in ("exchanges", "queues", "bindings", "users"))
    graver = sum(1 for it in changes if it.meaning)
    tell(f"written: {counts}; changes {len(changes)}{'' if every else ' (--all prints each)'}, of these {graver} change the meaning. Messages are in memory alone, durable or not.")
    grew = list(dict.fromkeys(it.grew for it in changes if it.grew is not None))
    if grew:
        tell(f"RIGHTS GREW of user{'s' * (len(grew) > 1)} {', '.join(map(quoted, grew))}")


def tell_breaking(changes, cases, export):
    """Tells how many changes may break a `yes`, adds a case for each, and returns the status."""
    breaking = [it for it in changes if may_break(it.still)]
    cases += [Case(export, f"{it.entry}: {it.what}", FAILURE, "may break", told(it.still)) for it in breaking]
    cases += [] if breaking else [Case(export, "no change may break a `yes` for a RabbitMQ that stays")]
    count = len(breaking)
    if count:
        tell(f"written, but {count} change{'s' * (count > 1)} MAY BREAK A `yes`")
    return BREAKS if count else TAKEN


def make(data, given, cases):
    if not data.strip():
        raise NoFile("it is empty, as `curl -f` leaves a file if the download was refused")
    value = read_json(mended_bytes(data, tell))
    part = part_of(value, given.vhost, given.only) if given.only else None
    made, changes = convert(part.export, given.vhost, part.stays) if part else convert(value, given.vhost)
    changes += part.changes if part else []
    left = causes_in(made)
    text = text_of(made).encode("utf-8")
    if given.strict:
        tell_staying(changes, given.all)
    else:
        tell_changes(made, changes, part.lines if part else [], given.all)
    if left or len(text) > MOST_BYTES:
        for it in left:
            tell(f"NOT MENDED: {it.entry}: {it.what} (refused {it.number})")
        raise NoFile("this has to be mended by hand" + ("; --only takes a part" if any(it.number == 10 for it in left) else ""))
    if given.file is None:
        sys.stdout.buffer.write(text)
    else:
        write(given.file, text)
    if given.strict:
        return tell_breaking(changes, cases, given.export)
    tell_written(made, changes, given.all)
    return TAKEN


def work(given, cases):
    try:
        data = read(given.export)
        return check(data) if given.check else make(data, given, cases)
    except NotJson as error:
        raise Fault(f"{given.export} is not JSON (refused 1): {error}") from None
    except NoFile as error:
        raise Fault(f"{given.export}: {error}") from None


def main(given):
    cases = []
    if given.junit is None:
        return work(given, cases)
    try:
        return work(given, cases)
    except (Fault, OSError) as error:
        cases.append(Case(given.export, "a definitions file is made", ERROR, "failed", why_of(error) if isinstance(error, OSError) else str(error)))
        raise
    finally:
        write(given.junit, report(given.export, cases or [Case(given.export, "a definitions file is made", ERROR, "failed", "it was broken off")]))
