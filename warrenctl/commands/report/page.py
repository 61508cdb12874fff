"""The page itself: HTML with its style, in which a link on a guarantee marks its way in the picture by `:target` alone."""

import os
import re

from warrenctl.commands.report.picture import shown
from warrenctl.routing.asking import BROKEN, HOLDS, UNDECIDED
from warrenctl.routing.sentences import broken, key_told, promise, told

STYLE = """
:root { color-scheme: light dark; --ground: #fff; --ink: #1d2430; --faint: #5b6675; --line: #8a94a3; --exchange: #e8f0fe; --queue: #fff4d6; --rim: #cfd6df;
  --way: #1a6fd4; --bad: #c4161c; --good: #1a7f37; --open: #9a6700; }
@media (prefers-color-scheme: dark) { :root { --ground: #14181f; --ink: #e6e9ee; --faint: #a2acb9; --line: #7b8696; --exchange: #1e2d47; --queue: #3a3017; --rim: #39424f;
  --way: #6cb2ff; --bad: #ff7b72; --good: #56d364; --open: #e3b341; } }
* { box-sizing: border-box; }
body { margin: 0 auto; max-width: 1300px; padding: 16px; background: var(--ground); color: var(--ink); font: 15px/1.5 system-ui, sans-serif; overflow-wrap: anywhere; }
h1 { font-size: 1.4em; margin: 0; } h2 { font-size: 1.1em; margin: 1.6em 0 .4em; } p { margin: .3em 0; } a { color: inherit; }
code { font: .92em ui-monospace, monospace; } .faint { color: var(--faint); }
.picture, .wide { overflow-x: auto; border: 1px solid var(--rim); border-radius: 6px; margin: .5em 0; }
svg { display: block; } svg text { fill: var(--ink); font-size: 12px; text-anchor: middle; } svg .about, svg .key { fill: var(--faint); font-size: 10.5px; }
rect { stroke: var(--line); } .exchange rect { fill: var(--exchange); } .queue rect { fill: var(--queue); }
.step path { fill: none; stroke: var(--line); } .dashed path { stroke-dasharray: 5 4; } marker path { fill: var(--line); }
ol { padding-left: 2.2em; } li { margin: .25em 0; } .verdict { font-weight: 600; } .yes { color: var(--good); } .no { color: var(--bad); } .undecided { color: var(--open); }
.said { display: none; border-left: 4px solid var(--way); padding: 4px 10px; margin: .5em 0; } .said.broken { border-color: var(--bad); }
table { border-collapse: collapse; width: 100%; } th, td { text-align: left; vertical-align: top; padding: 4px 10px; border-bottom: 1px solid var(--rim); }
"""
WORDS = {HOLDS: ("yes", "yes"), BROKEN: ("no", "NO"), UNDECIDED: ("undecided", "undecided")}


def style_of(kinds):
    """The rules by which the target of a link marks the way of its guarantee."""
    rules = []
    for number, kind in enumerate(kinds, 1):
        mark, colour = ("r", "--bad") if kind == BROKEN else ("g", "--way")
        here = f"#g{number}:target ~"
        rules.append(f"{here} .s{number} {{ display: block; }}")
        rules.append(f"{here} .picture .step.{mark}{number} path, {here} .picture .{mark}{number} rect {{ stroke: var({colour}); stroke-width: 2.5; }}")
    return STYLE + "\n".join(rules) + "\n"


def coded(text):
    """A sentence as HTML, with its names and keys as code."""
    return re.sub(r"`([^`]*)`", lambda it: f"<code>{it[1]}</code>", shown(text))


def said_of(topology, guarantee, answer):
    if answer.kind == BROKEN:
        return f"NO: {broken(topology, guarantee, answer.key, list(answer.path))}. The path of the key {key_told(answer.key)} is red."
    if answer.kind == UNDECIDED:
        return "undecided: no key was found that breaks it, and it is not shown that there is none."
    if guarantee["mode"] == "reaches":
        return "yes. The ways of these messages to the queue are marked."
    return "yes. The ways that these messages can take are marked; none leads to the queue."


def table(head, rows):
    cells = "".join(f"<tr>{''.join(f'<td>{it}</td>' for it in row)}</tr>" for row in rows)
    return f'<div class="wide"><table><thead><tr>{"".join(f"<th>{it}</th>" for it in head)}</tr></thead><tbody>{cells}</tbody></table></div>'


def dropped_rows(dropped):
    for (exchange, _), answer in dropped:
        kind, _ = WORDS[answer.kind]
        said = {HOLDS: "none", UNDECIDED: "undecided"}.get(answer.kind) or coded(f"{key_told(answer.key)}, for example")
        yield coded(told(exchange)), f'<span class="{kind}">{said}</span>'


def queue_rows(topology, comes):
    for queue, names in comes.items():
        dead, key = topology.death(queue)
        to = "they are gone: a dead end" if dead is None else (told(dead) if dead else "the default exchange") + (f" as {key_told(key)}" if key is not None else "")
        way = ", ".join(map(told, names)) if names else "no exchange leads to it"
        yield coded(told(queue)), f'<span class="{"yes" if names else "no"}">{coded(way)}</span>' if not names else coded(way), coded(to)


def page(given, topology, verdicts, svg, dropped, comes, by_program):
    verdicts = list(verdicts)
    name = shown(os.path.basename(given.definitions))
    by = "by `warren check`" if by_program else "by matching alone, which proves nothing; `warren check` decides"
    targets = "".join(f'<span id="g{number}"></span>' for number in range(1, len(verdicts) + 1))
    said, items = [], []
    for number, (it, answer) in enumerate(verdicts, 1):
        kind, word = WORDS[answer.kind]
        wrong = " broken" if answer.kind == BROKEN else ""
        said.append(f'<p class="said s{number}{wrong}">Guarantee {number}: {coded(promise(it))}: {coded(said_of(topology, it, answer))} <a href="#all">Mark nothing.</a></p>')
        items.append(f'<li><a href="#g{number}">{coded(promise(it))}</a>: <span class="verdict {kind}">{word}</span></li>')
    counts = ", ".join(f"{sum(answer.kind == kind for _, answer in verdicts)} {word}" for kind, (_, word) in WORDS.items())
    parts = [
        f'<!DOCTYPE html><html lang="en"><head><meta charset="utf-8"><meta name="viewport" content="width=device-width, initial-scale=1"><title>{name}</title>',
        f'<style>{style_of([answer.kind for _, answer in verdicts])}</style></head><body><main id="all">',
        f'<h1>{name}</h1><p class="faint">{len(topology.exchanges)} exchanges, {len(topology.queues)} queues. Guarantees: {counts}; {coded(by)}.</p>',
        f'{targets}{"".join(said)}<div class="picture">{svg}</div><p class="faint">Dashed: alternate exchanges and dead letters.</p>',
        f'<h2>Guarantees</h2>{"<p>There are none.</p>" if not items else "<p>A link marks the way in the picture.</p>"}<ol>{"".join(items)}</ol>',
        f'<h2>Keys that are dropped</h2><p>Such a message is confirmed, and enters no queue.</p>{table(("exchange", "keys"), dropped_rows(dropped))}',
        f'<h2>Queues</h2>{table(("queue", "reached from", "rejected messages go to"), queue_rows(topology, comes))}',
        "</main></body></html>\n",
    ]
    return "\n".join(parts)
