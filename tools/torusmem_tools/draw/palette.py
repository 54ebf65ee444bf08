"""The inks of all pictures: those of Okabe and Ito, Color Universal Design, 2008, which colour-blind readers tell apart; and
marks, by which they differ in grey too."""
from __future__ import annotations

from typing import Dict, List, Tuple

from torusmem_tools.draw import svg_text

BLACK, ORANGE, SKY, GREEN = "#000000", "#e69f00", "#56b4e9", "#009e73"
YELLOW, BLUE, VERMILLION, PURPLE = "#f0e442", "#0072b2", "#d55e00", "#cc79a7"
# Lines of a grid, the ground of every other lane, and what is beside the matter.
GRID, GROUND, GREY = "#d0d7de", "#f6f8fa", "#6e7781"
INKS = (BLUE, ORANGE, GREEN, PURPLE, SKY, VERMILLION)
CORNERS: Dict[str, List[Tuple[float, float]]] = {
    "square": [(-0.9, -0.9), (0.9, -0.9), (0.9, 0.9), (-0.9, 0.9)],
    "up": [(0, -1.2), (1.1, 0.8), (-1.1, 0.8)],
    "diamond": [(0, -1.25), (1.25, 0), (0, 1.25), (-1.25, 0)],
    "down": [(0, 1.2), (1.1, -0.8), (-1.1, -0.8)],
    "cross": [(-1.2, -0.5), (-0.5, -0.5), (-0.5, -1.2), (0.5, -1.2), (0.5, -0.5), (1.2, -0.5)]
    + [(1.2, 0.5), (0.5, 0.5), (0.5, 1.2), (-0.5, 1.2), (-0.5, 0.5), (-1.2, 0.5)],
}
MARKS = ("disc", *CORNERS)


def ink(number: int) -> str:
    """The ink of a thing by its number."""
    return INKS[number % len(INKS)]


def mixed(one: str, other: str, share: float) -> str:
    """An ink with so much of another one in it."""
    parts = zip(bytes.fromhex(one[1:]), bytes.fromhex(other[1:]))
    return "#" + "".join(f"{round(a + (b - a) * share):02x}" for a, b in parts)


def tint(of: str, light: float) -> str:
    """An ink that is so much of the way to white."""
    return mixed(of, "#ffffff", light)


def dark(of: str) -> str:
    """An ink for letters and thin lines."""
    return mixed(of, BLACK, 0.3)


def mark(kind: str, x: float, y: float, size: float, colour: str, is_full: bool) -> str:
    """A mark; a full one, or a hollow one."""
    look: Dict[str, object] = {"fill": colour if is_full else "#ffffff", "stroke": colour, "stroke_width": 0.16 * size * 2}
    if kind == "disc":
        return svg_text.element("circle", cx=x, cy=y, r=size, **look)
    return svg_text.element("path", d=svg_text.path([(x + size * a, y + size * b) for a, b in CORNERS[kind]]) + " Z", **look)


def mark_of(number: int, x: float, y: float, size: float) -> str:
    """The mark of a thing by its number, in its ink: the first 36 differ by both together, the next ones are hollow."""
    round_, kinds = number // len(INKS), len(MARKS)
    return mark(MARKS[(number + round_) % kinds], x, y, size, ink(number), round_ // kinds % 2 == 0)
