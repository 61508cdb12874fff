"""Draws a definitions file: exchanges, queues, bindings with their keys, alternates and dead letters, and what `warren check` said."""

import html
import json
import shutil
import subprocess
import sys

from warrenctl.cli.run import DONE
from warrenctl.cli.words import Words
from warrenctl.files.writing import write
from warrenctl.routing.topology import BadFile, Step, Topology, read_guarantees, read_verdicts

SHAPES = {"topic": "hexagon", "direct": "box", "fanout": "ellipse"}
MOST_KEYS = 4
HOLDS, BROKEN, UNKNOWN = "black", "red", "#777777"


def words(arguments):
    parser = Words("draw", __doc__, "Without --svg Graphviz's text is printed. Status: 0 drawn, 3 not.")
    parser.add_argument("definitions", help="a definitions file")
    parser.add_argument("--guarantees", help="the guarantees file that was checked")
    parser.add_argument("--verdicts", help="what `warren check` printed of them; what breaks a guarantee is red")
    parser.add_argument("--only", type=int, metavar="I", help="guarantee I alone, counted from 1")
    parser.add_argument("--svg", help="the file for the picture; this needs Graphviz's program dot")
    given = parser.parse_args(arguments)
    if given.verdicts and not given.guarantees:
        parser.error("--verdicts needs --guarantees")
    if given.only is not None and not given.guarantees:
        parser.error("--only needs --guarantees")
    return given


# ---- Graphviz's text


def quoted(*lines):
    """A text of Graphviz, of these lines. A control character is shown as Python writes it."""
    shown = ("".join(it if it.isprintable() else repr(it)[1:-1] for it in line) for line in lines)
    return '"' + "\\n".join(it.replace("\\", "\\\\").replace('"', '\\"') for it in shown) + '"'


def node(kind, name):
    return quoted(f"{kind} {name}")


def settings(**given):
    told = ", ".join(f"{name}={value}" for name, value in given.items() if value)
    return f" [{told}]" if told else ""


def place(exchange):
    """An exchange, the default one among them."""
    if not exchange.name:
        return f"  {node('exchange', '')}" + settings(label=quoted("default exchange"), shape="plaintext")
    label = quoted(exchange.name, exchange.kind + (", internal" if exchange.internal else ""))
    return f"  {node('exchange', exchange.name)}" + settings(label=label, shape=SHAPES.get(exchange.kind, "box"), style="filled", fillcolor='"#e8f0fe"')


def store(queue, broken):
    """A queue; red if it is come to and may not be, with a dashed rim if it is missed."""
    missed, red = queue.name in broken.missed, queue.name in broken.missed | broken.entered
    label, style = quoted(queue.name, *queue.limits), '"filled,dashed"' if missed else "filled"
    return f"  {node('queue', queue.name)}" + settings(label=label, shape="cylinder", style=style, fillcolor='"#fff4d6"', color='"red"' if red else "")


def edge(step, keys, red):
    style = "dashed" if step.kind in ("alternate", "dead letters") else ""
    shown = keys[:MOST_KEYS] + [f".. and {len(keys) - MOST_KEYS} more"] * (len(keys) > MOST_KEYS)
    label = quoted(*shown) if any(shown) else ""
    colour = '"red"' if red else ""
    return f"  {node(*step.source)} -> {node(*step.target)}" + settings(label=label, style=style, color=colour, fontcolor=colour)


def colour_of(verdict):
    """Red if a key breaks it, grey if nothing is known."""
    if verdict is None or verdict.told.startswith("undecided"):
        return UNKNOWN
    return BROKEN if verdict.key is not None else HOLDS


def plain(text):
    """A text of Graphviz's HTML, in which nothing is a mark."""
    return html.escape("".join(it if it.isprintable() else "?" for it in text))


def legend(lines):
    """What was said of each guarantee, below the picture, each line at its left and in its colour."""
    rows = "".join(f'<tr><td align="left"><font color="{colour}">{plain(it)}</font></td></tr>' for it, colour in lines)
    table = f'<table border="0" cellspacing="0" cellpadding="1">{rows}</table>'
    return [f"  label=<{table}>", "  labeljust=l", '  fontname="Helvetica"', "  fontsize=11"] if lines else []


def text_of(topology, broken, lines):
    steps = {}
    for it in topology.steps():
        steps.setdefault((it.kind, it.source, it.target), (it, []))[1].append(it.label)
    drawn = {(it.source, it.target) for it, _ in steps.values()}
    for source, target in sorted(broken.steps - drawn):
        steps[source, target] = (Step("default", source, target, ""), [""])
    names = {it.name for it in topology.exchanges}
    default = any(("exchange", "") in (it.source, it.target) for it, _ in steps.values())
    out = ["digraph topology {", "  rankdir=LR", '  node [fontname="Helvetica", fontsize=11]', '  edge [fontname="Helvetica", fontsize=10]']
    out += legend(lines)
    out += [place(it) for it in topology.exchanges if it.name or default]
    out += [store(it, broken) for it in topology.queues]
    for it, keys in steps.values():
        if it.source[0] == "exchange" and it.source[1] not in names:
            continue
        out.append(edge(it, keys, (it.source, it.target) in broken.steps))
    return "\n".join(out) + "\n}\n"


# ---- the program


def read_json(name):
    try:
        with open(name, "rb") as file:
            return json.loads(file.read().decode("utf-8"))
    except (ValueError, RecursionError):
        raise BadFile(f"{name} is not JSON") from None


def read_lines(name):
    with open(name, encoding="utf-8", errors="replace") as file:
        return file.read().splitlines()


def main(given):
    topology = Topology(read_json(given.definitions))
    guarantees = read_guarantees(read_json(given.guarantees)) if given.guarantees else []
    verdicts = read_verdicts(read_lines(given.verdicts), len(guarantees)) if given.verdicts else {}
    if given.only is not None and not 1 <= given.only <= len(guarantees):
        raise BadFile(f"{given.guarantees}: there is no guarantee {given.only}")
    guarantees = {number: it for number, it in enumerate(guarantees, 1) if given.only in (None, number)}
    for it in guarantees.values():
        topology.with_default(it.exchange)
    broken = topology.broken(guarantees, verdicts)
    lines = [(f"{number} {it}" + (f": {verdicts[number].told}" if number in verdicts else ""), colour_of(verdicts.get(number))) for number, it in guarantees.items()]
    text = text_of(topology, broken, lines)
    if not given.svg:
        sys.stdout.write(text)
        return DONE
    if not shutil.which("dot"):
        raise BadFile("there is no program dot (Graphviz) here; without --svg its text is printed")
    done = subprocess.run(["dot", "-Tsvg"], input=text.encode(), capture_output=True)
    if done.returncode:
        raise BadFile(f"dot failed: {done.stderr.decode(errors='replace').strip()}")
    write(given.svg, done.stdout, given.definitions)
    return DONE
