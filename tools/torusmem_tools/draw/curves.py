"""Draws latency and accepted load against the offered load: two panels over one axis, with a legend below."""
from __future__ import annotations

import itertools
from typing import Any, Callable, Dict, Iterator, NamedTuple, Optional

from torusmem_tools.draw import palette, svg_text
from torusmem_tools.draw.paper import Paper
from torusmem_tools.draw.strokes import width_of
from torusmem_tools.draw.svg_text import Point
from torusmem_tools.model import swept

COLOURS = {"uniform": palette.BLUE, "transpose": palette.VERMILLION, "bit-complement": palette.GREEN}
COLOURS.update({"neighbour": palette.SKY, "tornado": palette.PURPLE, "hot-spot": palette.ORANGE})
COLOURS.update({"bit-reverse": palette.GREEN, "shuffle": palette.VERMILLION, "permutation": palette.GREY, "matrix": palette.BLACK})
MARKS = {"uniform": "disc", "transpose": "square", "bit-complement": "up", "neighbour": "diamond", "tornado": "down", "hot-spot": "cross"}
MARKS.update({"bit-reverse": "square", "shuffle": "disc", "permutation": "up", "matrix": "diamond"})
DASHES = (None, "5 2", "1.5 2", "7 2 1.5 2")
SIGNS = ("hollow: saturated; a latency ends at its first such load", "bars: 95 % intervals over the seeds", "short thick line at the left: latency without load")
Row = Dict[str, Any]


class Look(NamedTuple):
    """The colour, the mark and the dashes of a curve."""

    colour: str
    mark: str
    dashes: Optional[str]


def round_step(most: float, wanted: int) -> float:
    """A round number, so that at most so many of it are the greatest one."""
    return next(f * 10.0**p for p in range(-6, 9) for f in (1, 2, 5) if f * 10.0**p * wanted >= most)


def axis_number(x: float) -> str:
    """A number of an axis."""
    return f"{x:.6f}".rstrip("0").rstrip(".")


class Panel:
    """One of the two panels: its place, and its axes from 0 on."""

    def __init__(self, box: tuple[float, float, float, float], ends: tuple[float, float], letters: float) -> None:
        self.left, self.top, self.wide, self.high = box
        self.steps = round_step(ends[0], 6), round_step(ends[1], 5)
        self.ends = tuple(step * -(-end * 0.999 // step) for step, end in zip(self.steps, ends))
        self.letters = letters

    def at(self, x: float, y: float) -> Point:
        """The place of a point; one above the panel is at its top."""
        low = self.top + self.high
        return self.left + self.wide * x / self.ends[0], max(self.top, low - self.high * y / self.ends[1])

    def cut(self, before: Point, last: Point) -> Point:
        """The place of a point; of one above the panel where the line from the one before leaves it."""
        part = 1.0 if last[1] <= self.ends[1] or last[1] <= before[1] else max(0.0, (self.ends[1] - before[1]) / (last[1] - before[1]))
        return self.at(before[0] + part * (last[0] - before[0]), last[1])

    def axes(self, name: str, has_numbers: bool) -> Iterator[str]:
        """The lines, the numbers and the name of the axes; the numbers below only where they are wanted."""
        low, right, size = self.top + self.high, self.left + self.wide, self.letters
        for count in range(round(self.ends[0] / self.steps[0]) + 1):
            x, _ = self.at(count * self.steps[0], 0)
            yield svg_text.element("path", d=svg_text.path([(x, self.top), (x, low)]), stroke=svg_text.INK if not count else palette.GRID, stroke_width=0.6)
            if has_numbers:
                yield svg_text.text(x, low + 1.4 * size, axis_number(count * self.steps[0]), size, text_anchor="middle")
        for count in range(round(self.ends[1] / self.steps[1]) + 1):
            _, y = self.at(0, count * self.steps[1])
            yield svg_text.element("path", d=svg_text.path([(self.left, y), (right, y)]), stroke=svg_text.INK if not count else palette.GRID, stroke_width=0.6)
            yield svg_text.text(self.left - 0.5 * size, y + 0.35 * size, axis_number(count * self.steps[1]), size, text_anchor="end")
        x, y = 1.1 * size, self.top + self.high / 2
        turned = f"rotate(-90 {svg_text.short(x)} {svg_text.short(y)})"
        yield svg_text.text(x, y, name, size, text_anchor="middle", transform=turned)


def curve_of(row: Row) -> tuple[str, str, Optional[str]]:
    """The curve that a row belongs to."""
    return row["shape"], row["traffic"], row["arbiter"]


def tooltip(row: Row) -> str:
    """What the tooltip of a load says."""
    text = f"{row['shape']}, {row['traffic']}, offered {row['offered']:g}: accepted {row['accepted']:.4f} +- {row['accepted_within']:.4f}"
    return f"{text}, latency {row['latency']:.2f} +- {row['latency_within']:.2f}" + (", saturated" if row["saturated"] else "")


def looks_of(curves: list[list[Row]]) -> list[Look]:
    """The looks of curves: colours and marks tell patterns, and dashes shapes and arbiters; of one pattern all three tell these."""
    names = [curve_of(rows[0]) for rows in curves]
    ways, patterns = list(dict.fromkeys((shape, arbiter) for shape, _, arbiter in names)), {it for _, it, _ in names}
    found = []
    for shape, pattern, arbiter in names:
        number = ways.index((shape, arbiter))
        like = pattern if len(patterns) > 1 else list(MARKS)[number % 6]
        found.append(Look(COLOURS[like], MARKS[like], DASHES[number % len(DASHES)]))
    return found


def curve(panel: Panel, rows: list[Row], key: str, look: Look) -> str:
    """The loads of a shape and a pattern: a line, bars of the 95 % intervals, and marks."""
    colour, size = look.colour, 0.3 * panel.letters
    if key == "latency":
        calm = next((at for at, it in enumerate(rows) if it["saturated"]), len(rows))
        rows = rows[: calm + 1]
    points = [(it["offered"], it[key]) for it in rows]
    ends = [panel.cut(one, other) for one, other in zip([(0.0, rows[0]["zero_load"] or points[0][1]), *points], points)]
    line: Row = {"fill": "none", "stroke": colour, "stroke_width": 0.16 * panel.letters, "stroke_dasharray": look.dashes}
    parts = [svg_text.element("path", d=svg_text.path(ends), **line)]
    if key == "latency" and rows[0]["zero_load"] is not None:
        x, y = panel.at(0, rows[0]["zero_load"])
        parts.append(svg_text.element("path", d=svg_text.path([(x, y), (x + 1.4 * panel.letters, y)]), stroke=colour, stroke_width=0.3 * panel.letters))
    for it, (x, y) in zip(rows, ends):
        high, low = (panel.at(0, it[key] + by * it[f"{key}_within"])[1] for by in (1, -1))
        bar = svg_text.element("path", d=svg_text.path([(x, high), (x, min(low, panel.top + panel.high))]), stroke=colour, stroke_width=0.14 * panel.letters)
        bars = [] if key == "latency" and it["saturated"] else [bar]
        parts.append(svg_text.group([svg_text.title(tooltip(it)), *bars, palette.mark(look.mark, x, y, size, colour, not it["saturated"])]))
    return svg_text.group(parts)


def saturation(panel: Panel, row: Row, look: Look) -> str:
    """Where a curve is saturated: its 95 % interval, at the latency by which that is told."""
    y, half, load = swept.SATURATION * row["zero_load"], row["saturation_within"], row["saturation"]
    (low, at), (high, _), cap = panel.at(max(0.0, load - half), y), panel.at(load + half, y), 0.45 * panel.letters
    drawn = [[(low, at), (high, at)], [(low, at - cap), (low, at + cap)], [(high, at - cap), (high, at + cap)]]
    said = svg_text.title(f"{row['shape']}, {row['traffic']}: saturation {load:.3f} +- {half:.3f}")
    return svg_text.group([said, *(svg_text.element("path", d=svg_text.path(it), stroke=look.colour, stroke_width=0.14 * panel.letters) for it in drawn)])


def names_of(curves: list[list[Row]], saturations: list[Row]) -> list[str]:
    """What the legend calls the curves: with the arbiters where these differ, and where each is saturated."""
    has_many, found = len({rows[0]["arbiter"] for rows in curves}) > 1, []
    ends = {curve_of(it): f": {it['saturation']:.3f} \N{PLUS-MINUS SIGN} {it['saturation_within']:.3f}" for it in saturations}
    for rows in curves:
        shape, pattern, arbiter = curve_of(rows[0])
        found.append(f"{shape} {pattern}{f', {arbiter}' if has_many else ''}{ends.get(curve_of(rows[0]), '')}")
    return found


def signs(rows: list[Row]) -> list[str]:
    """What the legend says of signs, and of who made the runs."""
    found, by_tools = list(SIGNS), [it for it in rows if it["by"] == swept.TOOLS]
    if any("saturation" in it for it in rows):
        found.append("bars with ends, and numbers: the least saturated load")
    if by_tools:
        names = apart(by_tools, [it for it in rows if it["by"] != swept.TOOLS])
        found.append(f"by the plain model, not proved{': ' * bool(names)}{', '.join(names)}")
    return found


def apart(rows: list[Row], others: list[Row]) -> list[str]:
    """The names of some rows that tell them from the others: their arbiters, or their shapes, or both. None where there are no others."""
    named: Callable[[list[Row], tuple[str, ...]], list[str]] = lambda of, keys: list(dict.fromkeys(" ".join(it[key] for key in keys if it[key]) for it in of))
    ways = [("arbiter",), ("shape",), ("shape", "arbiter")]
    best = next((it for it in ways if set(named(rows, it)).isdisjoint(named(others, it))), ways[-1])
    return named(rows, best) if others else []


def legend(looks: list[Look], names: list[str], place: Point, wide: float, letters: float) -> tuple[list[str], float]:
    """A line for each curve, in columns; and where the signs below begin."""
    columns = max(1, int(wide // max(16 * letters, *(4.5 * letters + width_of(it, letters) for it in names))))
    parts = []
    for at, (name, look) in enumerate(zip(names, looks)):
        x, y = place[0] + at % columns * wide / columns, place[1] + at // columns * 1.6 * letters
        line = {"stroke": look.colour, "stroke_width": 0.16 * letters, "stroke_dasharray": look.dashes}
        parts.append(svg_text.element("path", d=svg_text.path([(x, y - 0.35 * letters), (x + 3 * letters, y - 0.35 * letters)]), **line))
        parts.append(palette.mark(look.mark, x + 1.5 * letters, y - 0.35 * letters, 0.3 * letters, look.colour, True))
        parts.append(svg_text.text(x + 3.5 * letters, y, name, letters))
    return parts, place[1] + -(-len(names) // columns) * 1.6 * letters


def panels(rows: list[Row], saturations: list[Row], wide: float, letters: float) -> tuple[Panel, Panel]:
    """The panel of the latencies, as high as those below saturation and the saturations need, and that of what is accepted below it."""
    calm = [it["latency"] for it in rows if not it["saturated"]] or [it["latency"] for it in rows]
    high = max(1.6 * max([*calm, *(it["zero_load"] or 0 for it in rows)]), *(1.1 * swept.SATURATION * it["zero_load"] for it in saturations), 0)
    left, right, most = 4.6 * letters, 1.2 * letters, max([it["offered"] for it in rows] + [it["saturation"] for it in saturations])
    room = wide - left - right
    upper = Panel((left, 3.4 * letters, room, 0.5 * room), (most, high), letters)
    below = left, upper.top + upper.high + 1.8 * letters, room, 0.32 * room
    return upper, Panel(below, (most, max(it["accepted"] for it in rows) * 1.05), letters)


def plot(rows: list[Row], paper: Paper, words: str, axis: str, unit: str) -> str:
    """Both panels with all curves, and the legend. Behind the rows of loads may stand saturations of their curves."""
    wide, letters = paper.wide, paper.letters()
    saturations = [it for it in rows if "saturation" in it]
    loads = [it for it in rows if "saturation" not in it]
    curves = [list(of) for _, of in itertools.groupby(loads, curve_of)]
    looks = looks_of(curves)
    upper, lower = panels(loads, saturations, wide, letters)
    left, room = upper.left, upper.wide
    parts = [svg_text.text(left, 1.5 * letters, words, letters), *upper.axes(f"latency, {unit}s", False), *lower.axes("accepted", True)]
    for panel, key in ((upper, "latency"), (lower, "accepted")):
        parts += [curve(panel, of, key, look) for of, look in zip(curves, looks)]
    look_of = {curve_of(of[0]): look for of, look in zip(curves, looks)}
    parts += [saturation(upper, it, look_of[curve_of(it)]) for it in saturations]
    low = lower.top + lower.high + 3.2 * letters
    parts.append(svg_text.text(left + room / 2, low, axis, letters, text_anchor="middle"))
    more, low = legend(looks, names_of(curves, saturations), (left, low + 2 * letters), room, letters)
    for number, said in enumerate(signs(rows)):
        more.append(svg_text.text(left, low + 1.4 * number * letters, said, letters))
    return svg_text.svg(wide, low + 1.4 * len(signs(rows)) * letters, [*parts, *more], unit=paper.unit)
