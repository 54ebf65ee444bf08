"""Draws placements of a script's words on a ring, side by side: the tiles with their processor P, router R and bank B, and the way of
each processor's requests to each word, channel by channel."""
from __future__ import annotations

from dataclasses import dataclass
from typing import Dict, List, Sequence, Tuple

from torusmem_tools.draw import palette, svg_text
from torusmem_tools.draw.svg_text import Point
from torusmem_tools.model.torus import Shape

ACROSS, TILE, HIGH, GAP, MARGIN, HEAD = 138, 122, 126, 44, 22, 34
LINE_HIGH, LANE = 17, 6
# Where a tile's agents are, from the middle of its upper edge, half of their sizes, and where their names stand.
PLACES = {"P": (-34, 34), "B": (34, 34), "R": (0, 85)}
SIZES = {"P": (16, 11, 4), "B": (16, 11, 4), "R": (52, 22, 18)}
# The ways of each processor's requests: the dashes, and what they are called.
DASHES, LOOKS = (None, "7 3", "2 3"), ("full", "dashed", "dotted")
MOST_TILES = 4


@dataclass
class Panel:
    """A placement: its heading, the words of each tile's bank, the requests as a processor and a word, the lines of text below, and
    which of these are bold."""

    heading: str
    words: Dict[int, List[int]]
    requests: List[Tuple[int, int]]
    lines: List[str]
    bold: List[bool]

    def home(self, word: int) -> int:
        """The tile of a word."""
        return next(tile for tile, words in self.words.items() if word in words)


class Drawing:
    """A panel at a place of the picture."""

    def __init__(self, shape: Shape, panel: Panel, left: float) -> None:
        self.shape, self.panel, self.left = shape, panel, left

    def agent(self, tile: int, name: str) -> Point:
        """The middle of an agent of a tile."""
        x, y = PLACES[name]
        return self.left + ACROSS * tile + TILE / 2 + x, HEAD + y

    def tiles(self) -> List[str]:
        """The tiles and their agents, with the words of their banks."""
        made = []
        for tile in range(self.shape.tiles):
            x = self.left + ACROSS * tile
            made.append(svg_text.element("rect", x=x, y=HEAD, width=TILE, height=HIGH, rx=6, fill=palette.GROUND, stroke=palette.GRID))
            made.append(svg_text.text(x + 7, HEAD + HIGH - 7, f"tile {tile}", 11, fill=palette.GREY))
            for name in PLACES:
                made += self.box(tile, name)
            said = ", ".join(f"word {it}" for it in self.panel.words.get(tile, []))
            if said:
                made.append(svg_text.text(self.agent(tile, "B")[0], HEAD + 17, said, 10, text_anchor="middle", font_weight="bold"))
        return made

    def box(self, tile: int, name: str) -> List[str]:
        """An agent."""
        (x, y), (wide, tall, low) = self.agent(tile, name), SIZES[name]
        box = svg_text.element("rect", x=x - wide, y=y - tall, width=2 * wide, height=2 * tall, rx=3, fill="#ffffff", stroke=svg_text.INK)
        if name == "R":
            return [box, svg_text.text(x - wide + 5, y + low, f"R{tile}", 9)]
        return [box, svg_text.text(x, y + low, f"{name}{tile}", 11, text_anchor="middle")]

    def hops(self, start: int, end: int) -> List[int]:
        """The tiles of a way from one to another, in their order."""
        found, port = [start], 8
        while True:
            output = self.shape.way(found[-1], port, end, False)
            if output >= 8:
                return found
            found.append(self.shape.next_tile(found[-1], 0, -1 if output // 4 % 2 else 1))
            port = output

    def links(self) -> List[str]:
        """The links between routers, that round the ring below the tiles."""
        made = []
        for tile in range(self.shape.tiles):
            to = self.shape.next_tile(tile, 0, 1)
            if to or self.shape.tiles > 2:
                made.append(svg_text.element("path", d=svg_text.path(self.link(tile, to, 0)), fill="none", stroke=palette.GRID, stroke_width=16))
        return made

    def link(self, tile: int, to: int, off: float) -> List[Point]:
        """The way over a link, so far beside its middle: straight, or round the ring below the tiles."""
        (x, y), (u, v) = self.agent(tile, "R"), self.agent(to, "R")
        if abs(tile - to) == 1:
            return [(x, y + off), (u, v + off)]
        low = HEAD + HIGH + 14 + off
        return [(x + off, y + off), (x + off, low), (u + off, low), (u + off, v + off)]

    def request(self, number: int) -> List[str]:
        """The way of a request: down to the router, over the links, and up to the bank."""
        processor, word = self.panel.requests[number]
        home, off = self.panel.home(word), (number - (len(self.panel.requests) - 1) / 2) * LANE
        tiles = self.hops(processor, home)
        (x, y), (u, v) = self.agent(processor, "P"), self.agent(home, "B")
        line: List[Point] = [(x + off, y + SIZES["P"][1]), (x + off, self.agent(processor, "R")[1] + off)]
        for tile, to in zip(tiles, tiles[1:]):
            if abs(tile - to) > 1:
                line += self.link(tile, to, off)
        line += [(u + off, self.agent(home, "R")[1] + off), (u + off, v + SIZES["B"][1] + 7)]
        return self.arrow(line, processor, word)

    def arrow(self, line: Sequence[Point], processor: int, word: int) -> List[str]:
        """A way with its head at the bank: its ink tells the word, its dashes the processor."""
        words = sorted({it for _, it in self.panel.requests})
        processors = sorted({it for it, _ in self.panel.requests})
        ink = palette.dark(palette.ink(words.index(word) * 5))
        (x, y) = line[-1]
        way = svg_text.element("path", d=svg_text.path(line), fill="none", stroke=ink, stroke_width=1.8,
                               stroke_dasharray=DASHES[processors.index(processor) % len(DASHES)])
        head = svg_text.element("path", d=svg_text.path([(x - 3.2, y), (x + 3.2, y), (x, y - 7)]) + " Z", fill=ink)
        return [svg_text.group([svg_text.title(f"requests of processor {processor} for word {word}"), way, head])]

    def parts(self) -> List[str]:
        """All of the panel."""
        made = [svg_text.text(self.left, 20, self.panel.heading, 13, font_weight="bold"), *self.links(), *self.tiles()]
        for number in range(len(self.panel.requests)):
            made += self.request(number)
        top = HEAD + HIGH + (46 if self.shape.tiles > 2 else 24)
        for k, (said, bold) in enumerate(zip(self.panel.lines, self.panel.bold)):
            made += [] if not said else [svg_text.text(self.left, top + LINE_HIGH * k, said, 11, font_family=svg_text.MONO, font_weight="bold" if bold else None)]
        return made


def draw_placements(shape: Shape, panels: List[Panel], title: str) -> str:
    """The picture."""
    wide = ACROSS * (shape.tiles - 1) + TILE
    longest = max(len(it) for panel in panels for it in panel.lines) * 11 * svg_text.MONO_WIDTH
    each = max(wide, longest) + GAP
    parts = [it for k, panel in enumerate(panels) for it in Drawing(shape, panel, MARGIN + each * k).parts()]
    rows = max(len(panel.lines) for panel in panels)
    high = HEAD + HIGH + (46 if shape.tiles > 2 else 24) + LINE_HIGH * rows
    said = "; ".join(f"{panel.heading}: {', '.join(panel.lines)}" for panel in panels)
    return svg_text.svg(2 * MARGIN + each * len(panels) - GAP, high, parts, (title, said))
