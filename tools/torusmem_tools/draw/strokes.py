"""The strokes of a diagram of a network: boxes of routers, arrows with gaps, dashed lines, and the room of a number."""
from __future__ import annotations

import math
from typing import List

from torusmem_tools.draw import palette, svg_text
from torusmem_tools.draw.shapes import Box, Line, at, between, length, without

# In points: the size of letters, the least way between channels side by side, the head of an arrow, a sender's arrow,
# and the rest of a link that goes round the other side of the picture.
LETTERS, LANE, HEAD, END, ROUND = 7.0, 8.0, 4.5, 13.0, 34.0
# The first four virtual channels, and what is full.
VIRTUAL = ("#4d4d4d", palette.BLUE, palette.PURPLE, palette.SKY)
FULL, INK = palette.VERMILLION, palette.BLACK
# Dashes of some inks, which tell them in grey too.
DASHES = {palette.BLUE: "5 1.3", palette.PURPLE: "2.4 1.3", palette.SKY: "6 1.3 1.3 1.3"}
THIN, LOADED, THICK = 0.8, 1.6, 2.2


def width_of(said: str, size: float = LETTERS) -> float:
    """How wide a text is, in a wide font."""
    return size * sum(0.38 if it in "iljtfr.,:;'|()[] " else 0.95 if it in "mwMW@%" else 0.72 if it.isupper() else 0.64 for it in said)


def label_box(x: float, y: float, said: str) -> Box:
    return Box(x, y, width_of(said) / 2 + 1, LETTERS * 0.38 + 1)


def router(box: Box) -> str:
    """A router's box."""
    left, top, wide, high = box.x - box.wide, box.y - box.high, 2 * box.wide, 2 * box.high
    return svg_text.element("rect", x=left, y=top, width=wide, height=high, rx=2, fill="#ffffff", stroke=INK, stroke_width=1)


def middle_text(box: Box, said: str, strong: bool) -> str:
    """A text in the middle of a box."""
    weight = "bold" if strong else None
    return svg_text.text(box.x, box.y + LETTERS * 0.36, said, LETTERS, text_anchor="middle", fill=INK, font_weight=weight)


def arrow(line: Line, ink: str, thick: float, gaps: List[Box], is_dotted: bool = False) -> List[str]:
    """An arrow, with gaps where the numbers stand."""
    whole, head = length(line), HEAD + 1.2 * (thick - THIN)
    tip, (ux, uy) = line[-1], at(line, whole)[1]
    cut = whole - head
    shaft, gone = [line[0]], 0.0
    for p, q in zip(line, line[1:]):
        piece = math.dist(p, q)
        if gone + piece >= cut:
            shaft.append(between(p, q, (cut - gone) / (piece or 1)))
            break
        shaft.append(q)
        gone += piece
    pieces = [shaft]
    for box in gaps:
        pieces = [it for piece in pieces for it in without(piece, box)]
    dots = "0.9 1.3" if is_dotted else DASHES.get(ink)
    made = [svg_text.element("path", d=svg_text.path(it), stroke=ink, stroke_width=thick, stroke_dasharray=dots, fill="none") for it in pieces]
    (bx, by), half = shaft[-1], head * 0.45
    made.append(svg_text.element("path", d=svg_text.path([tip, (bx - uy * half, by + ux * half), (bx + uy * half, by - ux * half)]) + " z", fill=ink))
    return made


def answer(line: Line, ink: str, full: bool) -> List[str]:
    """A dashed line."""
    return [svg_text.element("path", d=svg_text.path(line), stroke=ink, stroke_width=1.6 if full else THIN, stroke_dasharray="2.5 1.5", fill="none")]
