"""Whether the texts of some pictures lie free: `python3 checks/labels.py FILE..` prints a line for each text that lies on a
line, on another text, on the border of a box or outside of its picture. Behind a size, as 7pt, it prints one, too, for each
text whose letters have another. Reads the SVG that the tools write. A line that lies below a ground doesn't count, nor what a group shows
at another scale."""
from __future__ import annotations

import re
import sys
import xml.dom.minidom
from typing import Any, Dict, Iterator, List, Tuple

Rect = Tuple[float, float, float, float]
Point = Tuple[float, float]


class Picture:
    """The texts, pieces of lines, and boxes of a picture."""

    def __init__(self, path: str) -> None:
        root = xml.dom.minidom.parse(path).documentElement
        left, top, wide, high = map(float, root.getAttribute("viewBox").split())
        self.all: Rect = (left, top, left + wide, top + high)
        width = root.getAttribute("width")
        self.unit = width.lstrip("0123456789.")
        self.scale = float(width[: len(width) - len(self.unit)]) / wide
        self.sizes: Dict[str, float] = {}
        self.texts: List[Tuple[str, Rect]] = []
        self.lines: List[Tuple[int, Point, Point]] = []
        self.boxes: List[Rect] = []
        self.grounds: List[Tuple[int, Rect]] = []
        self.take(root, 0, 0)

    def take(self, node: Any, dx: float, dy: float) -> None:
        """Takes what stands in an element, moved by so much."""
        for it in (it for it in node.childNodes if it.nodeType == it.ELEMENT_NODE):
            x, y, size, wide, high = (float(it.getAttribute(name) or 0) for name in ("x", "y", "font-size", "width", "height"))
            if it.tagName == "g":
                moved = re.fullmatch(r"translate\((.*),(.*)\)", it.getAttribute("transform"))
                if not it.getAttribute("transform").startswith("scale"):
                    self.take(it, dx + float(moved[1]) if moved else dx, dy + float(moved[2]) if moved else dy)
            elif it.tagName == "defs":
                continue
            elif it.tagName == "text":
                said = it.firstChild.data
                far = (0.48 if " " in said else 0.6) * size * len(said)
                self.sizes[said] = size
                if it.getAttribute("transform"):
                    self.texts.append((said, (x + dx - 0.72 * size, y + dy - far / 2, x + dx, y + dy + far / 2)))
                    continue
                start = x + dx - far * {"middle": 0.5, "end": 1}.get(it.getAttribute("text-anchor"), 0)
                self.texts.append((said, (start, y + dy - 0.72 * size, start + far, y + dy)))
            elif it.tagName == "path":
                order = len(self.lines)
                for piece in it.getAttribute("d").split("M"):
                    points = [tuple(map(float, at.split(","))) for at in re.findall(r"[-.0-9]+,[-.0-9]+", piece)]
                    self.lines += [(order, (a[0] + dx, a[1] + dy), (b[0] + dx, b[1] + dy)) for a, b in zip(points, points[1:])]
            elif it.tagName == "rect":
                box = (x + dx, y + dy, x + dx + wide, y + dy + high)
                self.boxes += [box] if it.getAttribute("stroke") else []
                self.grounds += [(len(self.lines), box)] if it.getAttribute("fill") != "none" else []

    def faults(self) -> Iterator[str]:
        """What is wrong."""
        for k, (said, it) in enumerate(self.texts):
            if not is_within(it, self.all):
                yield f"{said} lies outside"
            covered = max([at for at, box in self.grounds if is_within(it, box)], default=0)
            if any(at >= covered and passes(it, p, q) for at, p, q in self.lines):
                yield f"{said} lies on a line"
            yield from (f"{said} lies on {other}" for other, box in self.texts[k + 1 :] if meet(it, box))
            if any(meet(it, box) and not is_within(it, box) for box in self.boxes):
                yield f"{said} lies on the border of a box"


def meet(a: Rect, b: Rect) -> bool:
    return a[0] < b[2] and b[0] < a[2] and a[1] < b[3] and b[1] < a[3]


def is_within(a: Rect, b: Rect) -> bool:
    return b[0] <= a[0] and a[2] <= b[2] and b[1] <= a[1] and a[3] <= b[3]


def passes(box: Rect, p: Point, q: Point) -> bool:
    """Whether a piece of a line passes through a box."""
    least, most = 0.0, 1.0
    for at, far, low, high in ((p[0], q[0] - p[0], box[0], box[2]), (p[1], q[1] - p[1], box[1], box[3])):
        if abs(far) < 1e-9:
            if not low < at < high:
                return False
            continue
        one, other = sorted(((low - at) / far, (high - at) / far))
        least, most = max(least, one), min(most, other)
    return least < most


def sized(picture: Picture, wanted: str) -> Iterator[str]:
    """The texts whose letters haven't this size, as 7pt."""
    for said, size in picture.sizes.items():
        found = f"{size * picture.scale:.2f}".rstrip("0").rstrip(".") + picture.unit
        if found != wanted:
            yield f"{said} has letters of {found}"


if __name__ == "__main__":
    size = sys.argv[1] if sys.argv[1][:1].isdigit() else ""
    for path in sys.argv[1 + bool(size) :]:
        picture = Picture(path)
        for fault in [*picture.faults(), *(sized(picture, size) if size else ())]:
            print(f"{path}: {fault}")
