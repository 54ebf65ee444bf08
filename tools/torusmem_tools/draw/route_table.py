"""The channels of a packet's route over a torus, and their table in a picture."""
from __future__ import annotations

from dataclasses import dataclass

from torusmem_tools.draw import paper, svg_text
from torusmem_tools.draw.strokes import width_of
from torusmem_tools.model.torus import Shape


@dataclass
class Channel:
    """A channel of a route: a line of `torusmem route`. Only a hop has a dimension, a direction and a bit."""

    kind: str
    tile: int
    number: int
    dim: int = 0
    by: int = 0
    bit: int = 0


def route_of(printed: str) -> list[Channel]:
    """The channels of a route, of what `torusmem route` prints."""
    found = []
    for words in map(str.split, printed.splitlines()):
        if words[0] == "hop":
            tile, dim, bit, number = (int(words[at]) for at in (1, 2, 4, 5))
            found.append(Channel("hop", tile, number, dim, 1 if words[3] == "plus" else -1, bit))
        else:
            found.append(Channel(words[0], int(words[1]), int(words[2])))
    return found


def rows_of(shape: Shape, route: list[Channel], kind: str) -> list[tuple[str, ...]]:
    """A row for each channel of the route, behind that of the heads."""
    rows: list[tuple[str, ...]] = [("channel", "from", "to", "class", "bit", "number")]
    for it in route:
        at, bit = f"tile {it.tile}", str(it.bit) if it.kind == "hop" else "-"
        inside = ("processor", "bank") if kind == "request" else ("bank", "processor")
        if it.kind == "hop":
            name = f"dimension {it.dim} {'plus' if it.by == 1 else 'minus'}"
            ends = (at, f"tile {shape.next_tile(it.tile, it.dim, it.by)}")
        else:
            name = "injection" if it.kind == "inject" else "ejection"
            ends = (f"{at}, {inside[0]}", at) if it.kind == "inject" else (at, f"{at}, {inside[1]}")
        rows.append((name, *ends, kind, bit, str(it.number)))
    return rows


def table(rows: list[tuple[str, ...]], top: float) -> list[str]:
    """The channels of a route as a table."""
    return [
        svg_text.text(x, top + 20 * line, said, 12, font_weight=None if line else "bold")
        for line, row in enumerate(rows)
        for x, said in zip((12, 170, 330, 490, 590, 640), row)
    ]


def narrow_table(rows: list[tuple[str, ...]], top: float, wide: float) -> list[str]:
    """The same on paper: without the class, which the first line of the picture says, and as wide as its words."""
    cells = [row[:3] + row[4:] for row in rows]
    widths = [max(width_of(it, paper.LETTERS) * 0.98 for it in column) for column in zip(*cells)]
    apart = min(14.0, (wide - sum(widths)) / (len(widths) - 1))
    parts, x = [], paper.MARGIN
    for column, far in zip(zip(*cells), widths):
        for line, said in enumerate(column):
            parts.append(svg_text.text(x, top + paper.LINE * line, said, paper.LETTERS, font_weight=None if line else "bold"))
        x += far + apart
    return parts
