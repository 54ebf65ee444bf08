"""Points, lines and boxes of a picture, and what lies on what."""
from __future__ import annotations

import math
from typing import Dict, Iterable, Iterator, List, NamedTuple, Optional, Tuple

Point = Tuple[float, float]
Line = List[Point]
CELL = 24.0


class Box(NamedTuple):
    """A rectangle: its middle, and half of its width and height."""

    x: float
    y: float
    wide: float
    high: float

    def grown(self, by: float) -> "Box":
        return Box(self.x, self.y, self.wide + by, self.high + by)

    def holds(self, it: Point) -> bool:
        return abs(it[0] - self.x) < self.wide and abs(it[1] - self.y) < self.high

    def meets(self, it: "Box") -> bool:
        return abs(it.x - self.x) < self.wide + it.wide and abs(it.y - self.y) < self.high + it.high

    def inside(self, p: Point, q: Point) -> Optional[Tuple[float, float]]:
        """The part of a piece of a line that lies in the box, as shares of it; none if it passes by."""
        least, most = 0.0, 1.0
        for at, far, half, middle in ((p[0], q[0] - p[0], self.wide, self.x), (p[1], q[1] - p[1], self.high, self.y)):
            if abs(far) < 1e-9:
                if abs(at - middle) >= half:
                    return None
                continue
            one, other = sorted(((middle - half - at) / far, (middle + half - at) / far))
            least, most = max(least, one), min(most, other)
        return (least, most) if least < most else None


def between(p: Point, q: Point, share: float) -> Point:
    return p[0] + (q[0] - p[0]) * share, p[1] + (q[1] - p[1]) * share


def length(line: Line) -> float:
    return sum(math.dist(p, q) for p, q in zip(line, line[1:]))


def at(line: Line, far: float) -> Tuple[Point, Point]:
    """The point that lies so far along a line, and the direction there."""
    for p, q in zip(line, line[1:]):
        piece = math.dist(p, q)
        if piece >= far or q is line[-1]:
            return between(p, q, far / piece if piece else 0), ((q[0] - p[0]) / (piece or 1), (q[1] - p[1]) / (piece or 1))
        far -= piece
    return line[0], (1.0, 0.0)


def beside(line: Line, off: float) -> Line:
    """The line that runs beside another, to its right where y grows downwards."""
    found = []
    for k, (x, y) in enumerate(line):
        (px, py), (qx, qy) = line[max(k - 1, 0)], line[min(k + 1, len(line) - 1)]
        far = math.hypot(qx - px, qy - py) or 1
        found.append((x - (qy - py) / far * off, y + (qx - px) / far * off))
    return found


def from_box(line: Line, box: Box) -> Line:
    """What is left of a line that begins in a box."""
    for k in reversed(range(len(line) - 1)):
        part = box.inside(line[k], line[k + 1])
        if part:
            return [between(line[k], line[k + 1], part[1]), *line[k + 1:]]
    return line


def to_box(line: Line, box: Box) -> Line:
    """What is left of a line that ends in a box."""
    return from_box(line[::-1], box)[::-1]


def without(line: Line, box: Box) -> List[Line]:
    """The pieces of a line outside of a box."""
    pieces: List[Line] = [[line[0]]]
    for p, q in zip(line, line[1:]):
        part = box.inside(p, q)
        if part:
            if part[0] > 0:
                pieces[-1].append(between(p, q, part[0]))
            pieces.append([between(p, q, part[1])] if part[1] < 1 else [])
        if not part or part[1] < 1:
            pieces[-1].append(q)
    return [it for it in pieces if len(it) > 1]


def curve(p: Point, a: Point, b: Point, q: Point, count: int = 48) -> Line:
    """A curve from a point to another that leaves the one towards `a`, and comes to the other from `b`."""
    shares = [((1 - t) ** 3, 3 * t * (1 - t) ** 2, 3 * t * t * (1 - t), t**3) for t in (k / count for k in range(count + 1))]
    return [(sum(s * it[0] for s, it in zip(parts, (p, a, b, q))), sum(s * it[1] for s, it in zip(parts, (p, a, b, q)))) for parts in shares]


def bent(p: Point, q: Point, by: float) -> Line:
    """A curve from a point to another that lies so far from the straight line in its middle."""
    (mx, my), far = between(p, q, 0.5), math.dist(p, q) or 1
    cx, cy = mx - (q[1] - p[1]) / far * 2 * by, my + (q[0] - p[0]) / far * 2 * by
    return curve(p, between(p, (cx, cy), 2 / 3), between(q, (cx, cy), 2 / 3), q)


def around(boxes: Iterable[Box]) -> Tuple[float, float, float, float]:
    """The least and the greatest x and y of some boxes."""
    every = list(boxes)
    return (min(it.x - it.wide for it in every), min(it.y - it.high for it in every),
            max(it.x + it.wide for it in every), max(it.y + it.high for it in every))


class TakenBoxes:
    """The lines and boxes of a picture, by the cells that they lie in. Each has a key; what has the same key is no
    obstacle to it."""

    def __init__(self) -> None:
        self.lines: Dict[Tuple[int, int], List[Tuple[object, Point, Point]]] = {}
        self.boxes: Dict[Tuple[int, int], List[Tuple[object, Box]]] = {}

    def cells(self, box: Box) -> Iterator[Tuple[int, int]]:
        for x in range(math.floor((box.x - box.wide) / CELL), math.floor((box.x + box.wide) / CELL) + 1):
            for y in range(math.floor((box.y - box.high) / CELL), math.floor((box.y + box.high) / CELL) + 1):
                yield x, y

    def pieces(self, p: Point, q: Point) -> Iterator[Tuple[Point, Point]]:
        """Pieces that are no longer than a cell."""
        count = max(1, math.ceil(math.dist(p, q) / CELL))
        for k in range(count):
            yield between(p, q, k / count), between(p, q, (k + 1) / count)

    def add_line(self, key: object, line: Line) -> None:
        for start, end in zip(line, line[1:]):
            for p, q in self.pieces(start, end):
                for cell in self.cells(spanned(p, q)):
                    self.lines.setdefault(cell, []).append((key, p, q))

    def add_box(self, key: object, box: Box) -> None:
        for cell in self.cells(box):
            self.boxes.setdefault(cell, []).append((key, box))

    def met_by_box(self, key: object, box: Box) -> int:
        """How much lies under a box."""
        cells = list(self.cells(box))
        return (sum(other != key and box.inside(p, q) is not None for cell in cells for other, p, q in self.lines.get(cell, []))
                + sum(other != key and box.meets(it) for cell in cells for other, it in self.boxes.get(cell, [])))

    def met_by_line(self, key: object, line: Line) -> int:
        """How much a line crosses."""
        count = 0
        for start, end in zip(line, line[1:]):
            for p, q in self.pieces(start, end):
                for cell in self.cells(spanned(p, q)):
                    count += sum(other != key and it.inside(p, q) is not None for other, it in self.boxes.get(cell, []))
                    count += sum(other != key and cross(p, q, r, s) for other, r, s in self.lines.get(cell, []))
        return count

    def boxes_met(self, line: Line) -> int:
        """How many boxes a line comes close to."""
        pieces = [it for start, end in zip(line, line[1:]) for it in self.pieces(start, end)]
        return len({box for p, q in pieces for cell in self.cells(spanned(p, q)) for _, box in self.boxes.get(cell, []) if box.grown(1).inside(p, q)})


def spanned(p: Point, q: Point) -> Box:
    return Box((p[0] + q[0]) / 2, (p[1] + q[1]) / 2, abs(p[0] - q[0]) / 2 + 0.01, abs(p[1] - q[1]) / 2 + 0.01)


def cross(p: Point, q: Point, r: Point, s: Point) -> bool:
    """Whether two pieces of lines cross."""

    def side(a: Point, b: Point, c: Point) -> float:
        return (b[0] - a[0]) * (c[1] - a[1]) - (b[1] - a[1]) * (c[0] - a[0])

    return side(p, q, r) * side(p, q, s) < 0 and side(r, s, p) * side(r, s, q) < 0
