"""Draws the network of a machine, an SVG picture: its tiles, its links and, if asked, a packet's route.

    tools/torus examples/machine.txt > net.svg
    tools/torus examples/dateline.txt --route 1 4 > route.svg
    tools/torus examples/dateline.txt --route 4 1 --reply > reply.svg

A line between two tiles is both links, there and back; those round the torus go past the ends of their row.
The dateline hops have a broad line. Of a route hops on bit 1 are dashed, and each channel has its number: those of
a hop stand on it, injection and ejection at the tiles; the table below the picture says class and bit of each. The
tooltip of a link has the numbers of all its channels. Routes and numbers are those of `torusmem route` and `channels`.
With --width 252pt, a column of a paper, letters have 7 points.
"""
from __future__ import annotations

import re
from typing import Any

from torusmem_tools import command
from torusmem_tools.draw import palette, paper, svg_text, torus_layout
from torusmem_tools.draw.paper import Paper
from torusmem_tools.draw.route_table import Channel, narrow_table, route_of, rows_of, table
from torusmem_tools.draw.svg_text import Point
from torusmem_tools.draw.torus_layout import HIGH
from torusmem_tools.model.torus import Shape

TOOL = "torus"
LINE, BAND = palette.GREY, palette.tint(palette.ORANGE, 0.55)
# The inks of both bits; the second one's arrows are dashed, and its numbers dark on white, so that grey tells them apart.
BITS, DASHES = [palette.BLUE, palette.VERMILLION], [None, "7 3"]
ENDS = palette.dark(palette.GREEN)


def shape_of(machine: bytes) -> Shape:
    """The shape that the text of an accepted machine describes."""
    settings = {}
    for line in machine.split(b"\n"):
        words = [it for it in re.split(rb"[ \t]+", line[:-1] if line.endswith(b"\r") else line) if it]
        if words and words[0] in (b"radix", b"dims", b"dateline"):
            # (as many zeros as one likes may stand in front)
            settings[words[0]] = [int(it.lstrip(b"0") or b"0") for it in words[1:]]
    radices, dims = settings[b"radix"], settings[b"dims"][0]
    if len(radices) == 1:
        radices = radices * dims
    return Shape(radices, settings.get(b"dateline") or [it - 1 for it in radices])


def numbers_of(printed: str) -> dict[tuple[int, int], int]:
    """The number of each channel by its tile and its place there, of what `torusmem channels` prints."""
    rows = (line.split() for line in printed.splitlines())
    return {(int(row[1]), int(row[2])): int(row[3]) for row in rows if row[0] == "channel"}


class Layout(torus_layout.Layout):
    """Where the tiles and the links lie, and the numbers of the hops; and the size of a tile's number."""

    size = 13.0

    def middle(self, tile: int, dim: int) -> Point:
        """Where the number of a hop stands: a place on the link on which no other stands."""
        way = self.link(tile, dim)
        if len(way) == 6 and dim == 0:
            return way[-1][0] + 56, way[3][1]
        if len(way) == 6:
            return way[3][0], way[3][1] + 25 + self.down / 2
        (x, y), (u, v) = (way[0], way[1]) if len(way) == 2 else (way[1], way[2])
        return (x + u) / 2, (y + v) / 2


def is_dateline(shape: Shape, tile: int, dim: int) -> bool:
    """Whether the plus hop out of a tile is a dateline hop; the minus hop back over the same link is one too."""
    return shape.digits(tile)[dim] == shape.datelines[dim]


def link_title(shape: Shape, tile: int, dim: int, numbers: dict[tuple[int, int], int]) -> str:
    """All channels of a link, there and back."""
    other = shape.next_tile(tile, dim, 1)
    said = f"dimension {dim}, tile {tile} and tile {other}"
    said += ", dateline hop" if is_dateline(shape, tile, dim) else ""
    for start, end, by, name in ((tile, other, 0, "plus"), (other, tile, 1, "minus")):
        place = 8 * dim + 4 * by
        one = [numbers[start, place + at] for at in range(4)]
        said += f"\n{name}, {start} to {end}: requests {one[0]} on bit 0, {one[1]} on bit 1"
        said += f"; replies {one[2]} on bit 0, {one[3]} on bit 1"
    return said


def drawn_link(layout: Layout, tile: int, dim: int, numbers: dict[tuple[int, int], int]) -> str:
    """A link, there and back."""
    shape, way = layout.shape, svg_text.path(layout.link(tile, dim))
    parts = [svg_text.title(link_title(shape, tile, dim, numbers))]
    if is_dateline(shape, tile, dim):
        parts.append(svg_text.element("path", d=way, fill="none", stroke=BAND, stroke_width=7))
    parts.append(svg_text.element("path", d=way, fill="none", stroke=LINE, stroke_width=1.5))
    return svg_text.group(parts)


def drawn_tile(layout: Layout, tile: int, ends: set[int]) -> str:
    """A tile and its number; the ends of a route stand out."""
    x, y = layout.at(tile)
    fill, stroke = (palette.tint(palette.GREEN, 0.8), ENDS) if tile in ends else (palette.GROUND, palette.GREY)
    place: dict[str, Any] = {"x": x - layout.tile / 2, "y": y - HIGH / 2, "width": layout.tile, "height": HIGH, "rx": 5}
    box = svg_text.element("rect", fill=fill, stroke=stroke, stroke_width=1.5, **place)
    digits = ", ".join(map(str, layout.shape.digits(tile)))
    number = svg_text.text(x, y + 5, str(tile), layout.size, text_anchor="middle", font_weight="bold")
    return svg_text.group([svg_text.title(f"tile {tile}, digits {digits}"), box, number])


def badge(x: float, y: float, said: str, colour: str, is_full: bool = True) -> list[str]:
    """A text on a ground of its own, in the middle of the point: light on the colour, or in the colour on white."""
    width = 12 + 7 * len(said)
    place: dict[str, Any] = {"x": x - width / 2, "y": y - 8, "width": width, "height": 16, "rx": 8}
    ground = svg_text.element("rect", fill=colour if is_full else "#ffffff", stroke="#ffffff" if is_full else colour, **place)
    ink = "#ffffff" if is_full else palette.dark(colour)
    return [ground, svg_text.text(x, y + 4, said, 11, text_anchor="middle", fill=ink, font_family=svg_text.MONO)]


def shorten(layout: Layout, way: list[Point]) -> list[Point]:
    """A way whose last piece ends at the border of the tile, so that an arrow's head is seen."""
    (x, y), (u, v) = way[-2:]
    part = min(*(half / abs(far) if far else 1 for half, far in ((layout.tile / 2 + 2, u - x), (HIGH / 2 + 2, v - y))), 1)
    return [*way[:-1], (u - (u - x) * part, v - (v - y) * part)]


def drawn_hop(layout: Layout, hop: Channel) -> str:
    """A hop of a route: an arrow along its link, and the channel's number."""
    start = hop.tile if hop.by == 1 else layout.shape.next_tile(hop.tile, hop.dim, -1)
    way = layout.link(start, hop.dim)
    line = svg_text.path(shorten(layout, way if hop.by == 1 else way[::-1]))
    arrow: dict[str, Any] = {
        "fill": "none",
        "stroke": BITS[hop.bit],
        "stroke_width": 3,
        "stroke_dasharray": DASHES[hop.bit],
        "marker_end": f"url(#bit{hop.bit})",
    }
    x, y = layout.middle(start, hop.dim)
    number = badge(x, y, str(hop.number), BITS[hop.bit], hop.bit == 0)
    return svg_text.group([svg_text.element("path", d=line, **arrow), *number])


def drawn_end(layout: Layout, end: Channel) -> str:
    """The injection of a route, above the left half of its tile, or the ejection, below it: no link is there, but those
    of a third dimension."""
    x, y = layout.at(end.tile)
    said = f"{'in' if end.kind == 'inject' else 'out'} {end.number}"
    high = y - HIGH / 2 - 9.5 if end.kind == "inject" else y + HIGH / 2 + 9.5
    return svg_text.group(badge(x - 10 - 3.5 * len(said), high, said, ENDS))


def heads() -> str:
    """The heads of the arrows, one of each colour."""
    place: dict[str, Any] = {"markerWidth": 10, "markerHeight": 10, "refX": 9, "refY": 5, "orient": "auto"}
    made = []
    for bit, fill in enumerate(BITS):
        head = svg_text.element("path", d="M0,0 L10,5 L0,10 z", fill=fill)
        made.append(svg_text.element("marker", head, id=f"bit{bit}", markerUnits="userSpaceOnUse", **place))
    return svg_text.element("defs", "".join(made))


def signs(route: list[Channel]) -> list[tuple[list[str], str]]:
    """What the lines mean: each a sign, and words."""
    def line(ink: str, wide: float, dashes: str | None = None) -> str:
        return svg_text.element("path", d="M0,0 L26,0", stroke=ink, stroke_width=wide, stroke_dasharray=dashes)

    made = [([line(LINE, 1.5)], "links, there and back"), ([line(BAND, 7), line(LINE, 1.5)], "dateline hop")]
    if route:
        made += [([line(ink, 3, dashes)], f"hop on bit {bit}") for bit, (ink, dashes) in enumerate(zip(BITS, DASHES))]
    return made


def network(layout: Layout, numbers: dict[tuple[int, int], int], route: list[Channel]) -> list[str]:
    """The links, the route and the tiles."""
    ends = {it.tile for it in route if it.kind != "hop"}
    links = [(tile, dim) for tile in range(layout.shape.tiles) for dim in range(len(layout.shape.radices))]
    parts = [drawn_link(layout, tile, dim, numbers) for tile, dim in links]
    parts += [drawn_hop(layout, it) for it in route if it.kind == "hop"]
    parts += [drawn_tile(layout, tile, ends) for tile in range(layout.shape.tiles)]
    return [*parts, *(drawn_end(layout, it) for it in route if it.kind != "hop")]


def heading(shape: Shape, route: list[Channel], kind: str) -> str:
    """The first line of the picture."""
    said = f"{' x '.join(map(str, shape.radices))} tiles, dateline {' '.join(map(str, shape.datelines))}"
    return said + (f": the route of a {kind} from tile {route[0].tile} to tile {route[-1].tile}" if route else "")


def draw_torus(shape: Shape, numbers: dict[tuple[int, int], int], route: list[Channel], kind: str) -> str:
    """The whole picture."""
    layout = Layout(shape)
    parts = [heads(), svg_text.text(12, 24, heading(shape, route, kind), 14, font_weight="bold")]
    for x, (sign, said) in zip((12, 206, 340, 474), signs(route)):
        parts += [svg_text.group(sign, transform=f"translate({x},46)"), svg_text.text(x + 32, 50, said)]
    parts += network(layout, numbers, route)
    low = layout.low
    if route:
        parts += table(rows_of(shape, route, kind), low + 12)
        low += 12 + 20 * (len(route) + 1)
    return svg_text.svg(layout.width, low, parts)


def on_paper(shape: Shape, numbers: dict[tuple[int, int], int], route: list[Channel], kind: str, on: Paper) -> str:
    """The whole picture on paper."""
    parts = [heads()]
    low = paper.say(parts, paper.MARGIN, 16, heading(shape, route, kind), on.inside(), font_weight="bold")
    low = paper.say_signed(parts, low + 2, signs(route), on.inside())
    layout = Layout(shape, top=low + 42, room=on.room())
    layout.size = paper.LETTERS
    parts += network(layout, numbers, route)
    low = layout.low
    if route:
        parts += narrow_table(rows_of(shape, route, kind), low + 4, on.inside())
        low += paper.LINE * (len(route) + 1)
    return on.svg(TOOL, layout.width, low, parts)


def words() -> command.Parser:
    """The words of the command line."""
    parser = command.parser(TOOL, __doc__)
    parser.add_argument("machine", metavar="MACHINE", help="the text of a machine")
    tile = command.whole(0, 2**32 - 1)
    parser.add_argument("--route", nargs=2, metavar=("SRC", "DST"), type=tile, help="draw the route between two tiles")
    parser.add_argument("--reply", action="store_true", help="the route is that of a reply, not of a request")
    paper.add_word(parser)
    return parser


def work() -> str:
    """What the tool prints."""
    given = words().parse_args()
    if given.reply and not given.route:
        raise command.WrongWords("--reply wants --route")
    text = command.contents(given.machine)
    with command.temporary_file(text) as path:
        numbers = numbers_of(command.torusmem_on({path: given.machine}, "channels", path))
        shape = shape_of(text)
        if given.route and max(given.route) >= shape.tiles:
            why = f"there is no tile {max(given.route)}: the machine has 0 to {shape.tiles - 1}"
            raise command.WrongWords(f"argument --route: {why}")
        route = []
        if given.route:
            asked = ["route", path, *map(str, given.route), *(["--reply"] if given.reply else [])]
            route = route_of(command.torusmem(*asked))
    told = shape, numbers, route, "reply" if given.reply else "request"
    return on_paper(*told, given.width) if given.width else draw_torus(*told)
