"""Where the tiles and the links of a torus lie in a picture, and what its channels are called."""
from __future__ import annotations

from dataclasses import dataclass
from typing import Any

from torusmem_tools.draw.svg_text import Point
from torusmem_tools.model.torus import Shape

WIDE, HIGH = 44, 30
# How far neighbours lie apart: across, where a row is short and where it is long; down; and for each tile of
# the third dimension.
MOST_ACROSS, ROW_WIDTH, LEAST_DOWN = 132, 728, 92
SLOT_ACROSS, SLOT_DOWN = 74, 60
MARGIN, TOP, LEAST_WIDTH = 76, 128, 720
# The same in a picture of a given width: the least way to a neighbour, how far the links round the torus go out,
# and a tile where neighbours are near.
LEAST_ACROSS, NARROW_MARGIN, NARROW_TILE = 70, 50, 28


class Layout:
    """Where the tiles and the links lie: dimension 0 to the right, 1 down, 2 up to the right."""

    def __init__(self, shape: Shape, scale: float = 1, top: float = TOP, room: float | None = None,
                 least: tuple[float, float] = (LEAST_ACROSS, NARROW_MARGIN)) -> None:
        self.shape, self.tile = shape, WIDE
        radices = [*shape.radices, 1, 1][:3]
        self.across = scale * max(min(MOST_ACROSS, ROW_WIDTH / (radices[0] - 1)), SLOT_ACROSS * radices[2])
        self.down = scale * max(LEAST_DOWN, SLOT_DOWN * radices[2])
        self.rise = scale * SLOT_DOWN * (radices[2] - 1)
        self.scale = scale
        slots, margin = scale * SLOT_ACROSS * (radices[2] - 1), scale * (MARGIN if room is None else least[1])
        if room is not None:
            fits, apart = (room - slots - 2 * margin) / (radices[0] - 1), max(least[0], SLOT_ACROSS * radices[2] * (radices[2] > 1))
            self.across = max(min(scale * MOST_ACROSS, fits), scale * apart)
            self.tile = WIDE if self.across >= 2 * WIDE else NARROW_TILE
        net = self.across * (radices[0] - 1) + slots
        self.width = max(room or LEAST_WIDTH, net + 2 * margin)
        self.left = (self.width - net) / 2
        self.top = top
        self.low = self.top + self.rise + self.down * (radices[1] - 1) + 60 * scale

    def at(self, tile: int) -> Point:
        """The middle of a tile."""
        x, y, z = [*self.shape.digits(tile), 0, 0][:3]
        slot = self.scale * z
        return self.left + self.across * x + SLOT_ACROSS * slot, self.top + self.rise + self.down * y - SLOT_DOWN * slot

    def link(self, tile: int, dim: int) -> list[Point]:
        """The way of the plus hop out of a tile, from the middle of the tile to that of its neighbour."""
        start, end = self.at(tile), self.at(self.shape.next_tile(tile, dim, 1))
        if self.shape.digits(tile)[dim] + 1 < self.shape.radices[dim]:
            return [start, end]
        (x, y), (u, v), by = start, end, self.scale
        if dim == 0:
            right, left, high = x + 41 * by, u - 34 * by, y - 35 * by
            return [start, (right, y), (right, high), (left, high), (left, y), end]
        if dim == 1:
            low, high, right = y + 25 * by, v - 25 * by, x + 29 * by
            return [start, (x, low), (right, low), (right, high), (x, high), end]
        return [start, (x + 22 * by, y + 28 * by), (u + 22 * by, v + 28 * by), end]


@dataclass(frozen=True)
class Wire:
    """A channel: the tile that it leaves, its place there, and what it is."""

    tile: int
    place: int
    kind: str
    class_: str
    dimension: int | None = None
    direction: str | None = None
    bit: int | None = None
    to: int | None = None

    def name(self) -> str:
        """The channel in words."""
        if self.kind != "hop":
            return f"{self.class_} {self.kind} at tile {self.tile}"
        class_ = "requests" if self.class_ == "request" else "replies"
        return f"tile {self.tile} to {self.to}, dimension {self.dimension} {self.direction}, {class_}, bit {self.bit}"

    def as_json(self) -> dict[str, Any]:
        """The channel for JSON."""
        made: dict[str, Any] = {"tile": self.tile, "place": self.place, "kind": self.kind, "class": self.class_}
        if self.kind == "hop":
            made.update(dimension=self.dimension, direction=self.direction, bit=self.bit, to=self.to)
        return made


def wires(shape: Shape) -> list[Wire]:
    """All channels, in channel order (docs/FLITS-AND-PORTS.md, Channels and ports)."""
    made = []
    for tile in range(shape.tiles):
        for place in range(8 * shape.dims):
            dim, minus, reply, bit = place // 8, place // 4 % 2, place // 2 % 2, place % 2
            to = shape.next_tile(tile, dim, -1 if minus else 1)
            ways = ("reply" if reply else "request", dim, "minus" if minus else "plus", bit, to)
            made.append(Wire(tile, place, "hop", *ways))
        for at, kind in enumerate(("injection", "injection", "ejection", "ejection")):
            made.append(Wire(tile, 8 * shape.dims + at, kind, "reply" if at % 2 else "request"))
    return made


def beside(way: list[Point], by: float) -> list[Point]:
    """A way along another, so far to the right of it, seen in its direction."""
    made = []
    for at, (x, y) in enumerate(way):
        sides = [normal(way[it], way[it + 1]) for it in (at - 1, at) if 0 <= it < len(way) - 1]
        u, v = (sum(it[axis] for it in sides) for axis in (0, 1))
        # at a corner of a right angle both sides move it
        length = max(u * u + v * v, 1e-9) if len(sides) == 2 else 1
        made.append((x + by * u * len(sides) / length, y + by * v * len(sides) / length))
    return made


def normal(start: Point, end: Point) -> Point:
    """The direction to the right of a line, of length 1."""
    x, y = end[0] - start[0], end[1] - start[1]
    length = max((x * x + y * y) ** 0.5, 1e-9)
    return -y / length, x / length


def along(way: list[Point], part: float) -> Point:
    """The point at so much of the length of a way, 0 to 1."""
    lengths = [((u - x) ** 2 + (v - y) ** 2) ** 0.5 for (x, y), (u, v) in zip(way, way[1:])]
    left = part * sum(lengths)
    for (x, y), (u, v), length in zip(way, way[1:], lengths):
        if left <= length or (u, v) == way[-1]:
            share = min(left / length, 1) if length else 0
            return x + (u - x) * share, y + (v - y) * share
        left -= length
    return way[-1]
