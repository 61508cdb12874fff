"""A topology as SVG: exchanges and queues in columns, from left to right as messages go."""

from collections import defaultdict
from html import escape

WIDTH, HEIGHT = 150, 40
ACROSS, DOWN, EDGE = 130, 22, 16
# letters that fit into a box, and beside an edge
MOST_NAME, MOST_LABEL = 20, 17
MOST_KEYS = 3


def shown(text, most=None):
    """A text of HTML, in which a control character is shown as Python writes it."""
    text = "".join(it if it.isprintable() else repr(it)[1:-1] for it in text)
    return escape(text if most is None or len(text) <= most else text[: most - 1] + "…")


class Picture:
    """`marks` are words of a class for each step, as (source, target), and each place, as (kind, name)."""

    def __init__(self, topology, marks):
        self.topology, self.marks = topology, marks
        self.steps = defaultdict(list)
        for it in topology.steps():
            self.steps[it.source, it.target, it.kind].append(it.label)
        self.places = [("exchange", it.name) for it in topology.exchanges] + [("queue", it.name) for it in topology.queues]
        drawn = {it[:2] for it in self.steps}
        for source, target in sorted(it for it in marks if isinstance(it[0], tuple) and it not in drawn):
            self.steps[source, target, "default"].append("")
        self.at = self._columns()

    def _depths(self):
        """How many steps are before each place, dead letters not counted; in a ring as many as are found first."""
        depth, forward = dict.fromkeys(self.places, 0), [(a, b) for a, b, kind in self.steps if kind != "dead letters"]
        for _ in range(min(len(self.places), 12)):
            later = [(b, depth[a] + 1) for a, b in forward if a in depth and b in depth and depth[b] <= depth[a] < 12]
            if not later:
                break
            for place, least in later:
                depth[place] = max(depth[place], least)
        return depth

    def _columns(self):
        """Where each place is. In a column places are in the order of what leads to them."""
        depth, at, rows = self._depths(), {}, {}
        for column in range(max(depth.values(), default=0) + 1):
            here = [it for it in self.places if depth[it] == column]
            before = {it: [rows[a] for a, b, _ in self.steps if b == it and a in rows] for it in here}
            here.sort(key=lambda it: sum(before[it]) / len(before[it]) if before[it] else len(rows))
            for row, it in enumerate(here):
                rows[it] = row
                at[it] = EDGE + column * (WIDTH + ACROSS), EDGE + row * (HEIGHT + DOWN)
        return at

    def _place(self, place, about):
        kind, name = place
        x, y = self.at[place]
        called = shown(name, MOST_NAME) if name else "default exchange"
        lines = f'<text x="{x + WIDTH / 2}" y="{y + 17}">{called}</text><text class="about" x="{x + WIDTH / 2}" y="{y + 32}">{shown(about, 26)}</text>'
        round_ = 4 if kind == "exchange" else 18
        box = f'<rect x="{x}" y="{y}" width="{WIDTH}" height="{HEIGHT}" rx="{round_}"/>'
        return f'<g class="{kind} {self.marks.get(place, "")}"><title>{kind} {shown(name)}, {shown(about)}</title>{box}{lines}</g>'

    def _step(self, source, target, kind, labels):
        (x, y), (to_x, to_y) = self.at[source], self.at[target]
        y, to_y = y + HEIGHT / 2, to_y + HEIGHT / 2
        x += WIDTH
        if to_x >= x:
            bend = (to_x - x) / 2
            line = f"M{x},{y} C{x + bend},{y} {to_x - bend},{to_y} {to_x},{to_y}"
        else:
            below = max(y, to_y) + HEIGHT
            line = f"M{x},{y} C{x + 60},{below} {to_x - 60},{below} {to_x},{to_y}"
        keys = [it for it in labels if it]
        told = ", ".join(keys[:MOST_KEYS]) + (f" and {len(keys) - MOST_KEYS} more" if len(keys) > MOST_KEYS else "")
        middle = f'<text class="key" x="{(x + to_x) / 2}" y="{(y + to_y) / 2 - 4}">{shown(told, MOST_LABEL)}</text>' if told and to_x >= x else ""
        title = f"<title>{kind}: {shown(source[1])} to {shown(target[1])}{': ' if keys else ''}{shown(', '.join(keys))}</title>"
        dashed = " dashed" if kind in ("alternate", "dead letters") else ""
        return f'<g class="step{dashed} {self.marks.get((source, target), "")}">{title}<path d="{line}" marker-end="url(#head)"/>{middle}</g>'

    def svg(self):
        abouts = {("exchange", it.name): it.kind + (", internal" if it.internal else "") for it in self.topology.exchanges}
        abouts.update({("queue", it.name): ", ".join(it.limits) or "queue" for it in self.topology.queues})
        width = max((x for x, _ in self.at.values()), default=0) + WIDTH + EDGE + 60
        height = max((y for _, y in self.at.values()), default=0) + 2 * HEIGHT + EDGE
        steps = [self._step(*it, labels) for it, labels in self.steps.items() if it[0] in self.at and it[1] in self.at]
        places = [self._place(it, abouts[it]) for it in self.places]
        head = '<defs><marker id="head" viewBox="0 0 8 8" refX="7" refY="4" markerWidth="7" markerHeight="7" orient="auto"><path d="M0,0 L8,4 L0,8 z"/></marker></defs>'
        size = f'width="{width}" height="{height}" viewBox="0 0 {width} {height}"'
        return f'<svg role="img" aria-label="the topology" {size} xmlns="http://www.w3.org/2000/svg">{head}{"".join(steps)}{"".join(places)}</svg>'
