"""Shows the flits of a schedule, or of packets through a network, as they move, round by round: a page for a browser.

    tools/animate machine.txt script.txt > run.html
    tools/animate machine.txt script.txt --from 10 --to 40 > window.html
    torusmem draw machine.txt script.txt --seed 1 | tools/animate machine.txt script.txt - > drawn.html
    tools/animate --network mesh.txt traffic.txt --depth 4 > packets.html

Without a schedule the run is made in clocked rounds, each of what is enabled when it begins (`tools/schedule --clocked`). With
--rounds-in-order it is that of `torusmem schedule`, in which a flit may go many hops in one round.

The page has no outside parts. A disc is a flit of a request, a ring one of a reply, and both of one operation have
one colour; a head has a dark border. A flit stands in its channel, the oldest in front, or in the middle of a tile
in a latch of its router. On the left of a tile stand the flits in its processor, on the right those in its bank; in
its corners those between processor and router (left) and between router and bank (right), requests above and replies
below. What is shown is how it stands at the end of a round, or after a move where the text has no lines `# round N`;
below stand its issues, services and answers. At most 16 tiles and 500 rounds: of a longer run the first 500, or
those of the window that --from and --to choose. With --width 252pt the picture in the page has the width of a column of a
paper, and letters of 7 points.

With --network the packets of a traffic text go through a written network in the clocked rounds of
`tools/network simulate`: a disc is a flit in the colour of its packet, in its channel or, at the border of a router, in the
latch behind it. At most 1024 channels (an 8x8 mesh has 352).
"""
from __future__ import annotations

import argparse
import math
from typing import Any, Callable, Iterable

from torusmem_tools import command
from torusmem_tools.draw import palette, paper, svg_text, torus_layout
from torusmem_tools.draw.film import MOST_ROUNDS, Film
from torusmem_tools.draw.network_film import film_of as film_of_network
from torusmem_tools.draw.paper import Paper
from torusmem_tools.draw.svg_text import Point
from torusmem_tools.model import replay, schedule_runs
from torusmem_tools.model.network import parse_network
from torusmem_tools.model.network_words import text_of
from torusmem_tools.model.packet_rounds import read_traffic

TOOL = "animate"
MOST_TILES = 16
SCALE, TOP, WIDE, HIGH, ROAD = 1.75, 110, 100, 66, "#f3f5f7"
# On paper: the least way between tiles, and the room of the links that go round.
NARROW = (114, 58)


class Spots:
    """Where a flit stands: a place in a channel, or a latch."""

    def __init__(self, machine: replay.Machine, on: Paper | None) -> None:
        self.layout, self.shape, self.depth = torus_layout.Layout(machine.shape, SCALE, TOP), machine.shape, machine.depth
        self.on, self.letters = on, paper.LETTERS
        if on:
            self.layout = torus_layout.Layout(machine.shape, SCALE, TOP, on.room(), NARROW)
            # (the layout again, below the rows of the legend)
            self.letters *= max(1.0, self.layout.width / on.room())
            self.layout = torus_layout.Layout(machine.shape, SCALE, self.legend()[1] + 76, on.room(), NARROW)
        self.ways = [self.way(it) for it in torus_layout.wires(machine.shape)]

    def way(self, wire: torus_layout.Wire) -> list[Point]:
        """The way along which the flits of a channel stand, in their direction."""
        x, y = self.layout.at(wire.tile)
        if wire.kind == "hop":
            is_plus = wire.direction == "plus"
            start = wire.tile if is_plus else wire.to or 0
            way = self.layout.link(start, wire.dimension or 0)
            lane = 4 + 5 * (2 * (wire.class_ == "reply") + (wire.bit or 0))
            long = torus_layout.beside(way if is_plus else way[::-1], lane)
            return [torus_layout.along(long, it / 24) for it in range(6, 19)]
        # in the corners: requests above, replies below
        side = -1 if (wire.kind == "injection") == (wire.class_ == "request") else 1
        high = y + (-22 if wire.class_ == "request" else 22)
        ends = [(x + side * 43, high), (x + side * 8, high)]
        inward = wire.kind == "injection"
        return ends if inward else ends[::-1]

    def legend(self) -> tuple[list[str], float]:
        """What the signs mean, and where the next thing may stand."""
        ring: Callable[[dict[str, object]], str] = lambda it: svg_text.element("circle", cx=8, cy=0, **it)
        disc: dict[str, object] = {"r": 4.5, "fill": palette.BLUE, "stroke": "#ffffff", "stroke_width": 1}
        hollow: dict[str, object] = {"r": 3.6, "fill": "#ffffff", "stroke": palette.BLUE, "stroke_width": 2}
        signs = [(ring(disc), "flit of a request"), (ring(hollow), "flit of a reply")]
        signs.append((ring({**disc, "stroke": svg_text.INK}), "dark border, or thick ring: the head of a packet"))
        letter: Callable[[str], str] = lambda it: svg_text.text(4, 4, it, paper.LETTERS)
        signs += [(letter("P"), "processor of a tile"), (letter("B"), "bank of a tile")]
        parts: list[str] = []
        size = self.letters / paper.LETTERS
        low = paper.say_signed(parts, 16, [([it], said) for it, said in signs], self.layout.width / size - 2 * paper.MARGIN, 22)
        return [svg_text.group(parts, transform=f"scale({size:.4f})")], low * size

    def in_channel(self, channel: int, at: int) -> Point:
        """The place of a flit in a channel, of which so many are older."""
        return torus_layout.along(self.ways[channel], 1 - at / max(self.depth - 1, 1))

    def in_latch(self, tile: int, port: int) -> Point:
        """The place of a flit in a latch of a router."""
        (x, y), turn = self.layout.at(tile), 2 * math.pi * port / self.shape.ports
        return x + 17 * math.cos(turn), y + 9 * math.sin(turn)

    def in_agent(self, tile: int, side: int, at: int) -> Point:
        """The place of a flit in a processor (-1) or in a bank (1)."""
        x, y = self.layout.at(tile)
        return x + side * (41 if at < 3 else 34), y - 8 + 8 * (at % 3)


def number_of(film: Film, flit: replay.Flit) -> int:
    """The number of a flit in the film, with its looks."""
    if flit not in film.numbers:
        film.numbers[flit] = len(film.numbers)
        it = flit.operation
        asked = " ".join([it.kind, str(it.address), *map(str, it.values)])
        what = f"{'reply' if flit.is_reply else 'request'}, flit {flit.number}"
        said = f"processor {it.processor}, operation {it.index}: {asked}; {what}"
        colour = palette.ink(it.processor * 5 + it.index)
        film.looks.append([colour, int(flit.is_reply), int(flit.number == 0), said])
    return film.numbers[flit]


def in_processor(at: replay.Processor) -> list[replay.Flit]:
    """The flits of a request that are not put yet, and of a reply that comes in."""
    return [*at.leaving, *at.coming]


def in_bank(at: replay.Bank) -> list[replay.Flit]:
    """The flits of a request that comes in or waits, and of a reply that are not put yet."""
    waiting: Iterable[replay.Flit] = [] if at.waiting is None else replay.packet(at.waiting, False)
    return [*at.coming, *waiting, *at.leaving]


def standing(machine: replay.Machine, spots: Spots, film: Film) -> list[list[Any]]:
    """The flits in channels, in latches and in processors and banks, each with its place."""
    found = []
    for channel, it in enumerate(machine.channels):
        for at, flit in enumerate(it.flits):
            found.append((number_of(film, flit), spots.in_channel(channel, at)))
    for tile, router in enumerate(machine.routers):
        for port, flit in router.latches.items():
            found.append((number_of(film, flit), spots.in_latch(tile, port)))
    for tile in range(machine.shape.tiles):
        for side, flits in ((-1, in_processor(machine.processors[tile])), (1, in_bank(machine.banks[tile]))):
            for at, flit in enumerate(flits):
                found.append((number_of(film, flit), spots.in_agent(tile, side, at)))
    return [[number, round(x, 1), round(y, 1)] for number, (x, y) in sorted(found)]


def events_of(machine: replay.Machine, now: int) -> list[str]:
    """The events of a round, in their order."""
    found = []
    for it in machine.operations():
        said = f"of processor {it.processor}, operation {it.index}: {it.kind} {it.address}"
        reply = "ok" if it.kind == "store" else str(it.old)
        service = (it.served, f"service by bank {it.bank}", "")
        whats = ((it.issued, "issue", ""), service, (it.answered, "answer", f", {reply}"))
        for number, (time, what, more) in zip(it.events, whats):
            if time == now:
                found.append((number, f"{number}. {what} {said}{more}"))
    return [it for _, it in sorted(found)]


def film_of(texts: replay.Texts, first: int | None, last: int | None, on: Paper | None) -> tuple[Film, Spots]:
    """The rounds of the window, at most MOST_ROUNDS of them."""
    machine = replay.Machine(texts.case)
    if machine.shape.tiles > MOST_TILES:
        raise command.Refusal(f"the machine has more than {MOST_TILES} tiles")
    spots, film, left_out = Spots(machine, on), Film(), 0
    for machine, now in replay.replay_rounds(texts):
        if now < (first or 0) or (last is not None and now > last):
            continue
        if len(film.rounds) == MOST_ROUNDS:
            left_out += 1
            continue
        film.rounds.append(now)
        film.flits.append(standing(machine, spots, film))
        film.events.append(events_of(machine, now))
    if not film.rounds:
        raise command.Refusal("nothing moves in these rounds")
    if left_out:
        of = MOST_ROUNDS + left_out
        command.say(TOOL, f"shows the first {MOST_ROUNDS} of {of} rounds; --from and --to choose others")
    return film, spots


def ground(spots: Spots) -> list[str]:
    """The links, each way with a border, so that one is seen to pass over another, and the tiles."""
    parts, layout = spots.legend()[0], spots.layout
    for tile in range(spots.shape.tiles):
        for dim in range(spots.shape.dims):
            way = layout.link(tile, dim)
            for stroke, wide in ((palette.GRID, 22), (ROAD, 20)):
                for side in (12, -12):
                    line = svg_text.path(torus_layout.beside(way, side))
                    parts.append(svg_text.element("path", d=line, fill="none", stroke=stroke, stroke_width=wide))
            for there in (way, way[::-1]):
                parts.append(head_of(torus_layout.beside(there, 12)))
    for tile in range(spots.shape.tiles):
        x, y = layout.at(tile)
        place = {"x": x - WIDE / 2, "y": y - HIGH / 2, "width": WIDE, "height": HIGH, "rx": 6}
        parts.append(svg_text.element("rect", fill="#ffffff", stroke=palette.GREY, stroke_width=1.5, **place))
        for side, name in ((-1, "P"), (0, str(tile)), (1, "B")):
            look = {"text_anchor": "middle", "fill": palette.GREY, "font_weight": None if side else "bold"}
            parts.append(svg_text.text(x + side * 26, y + 0.36 * spots.letters, name, spots.letters, **look))
    return parts


def head_of(way: list[Point]) -> str:
    """An arrow's head in the middle of a way, which says its direction."""
    (x, y), (u, v) = torus_layout.along(way, 0.5), torus_layout.along(way, 0.51)
    far = math.hypot(u - x, v - y) or 1
    u, v = (u - x) / far, (v - y) / far
    tips = [(x + 5 * u, y + 5 * v), (x - 4 * u - 6 * v, y - 4 * v + 6 * u), (x - 4 * u + 6 * v, y - 4 * v - 6 * u)]
    return svg_text.element("path", d=svg_text.path(tips) + " Z", fill=palette.GRID)


def page(film: Film, spots: Spots, unit: str) -> str:
    """The page."""
    size, on = (spots.layout.width, spots.layout.low), spots.on
    parts = ground(spots)
    svg = on.svg(TOOL, *size, parts, letters=spots.letters) if on else svg_text.svg(*size, parts)
    return film.page(f"{' x '.join(map(str, spots.shape.radices))} tiles", unit, svg, spots.layout.width)


def of_network(given: argparse.Namespace) -> str:
    """The page of packets through a written network."""
    net = parse_network(text_of(given.network), given.network)
    traffic = read_traffic(net, text_of(given.machine), given.machine)
    film, stage = film_of_network(net, given.depth or 1, traffic, (given.first, given.last), given.width)
    return film.page(f"{len(net.kinds)} channels", "round", stage.picture(), stage.size[0])


def words() -> command.Parser:
    """The words of the command line."""
    parser = command.parser(TOOL, __doc__)
    schedule_runs.add_words(parser, "TRAFFIC")
    number = command.whole(0, 2**64 - 1)
    parser.add_argument("--from", dest="first", metavar="ROUND", type=number, help="the first round that is shown")
    parser.add_argument("--depth", type=command.whole(1, 8), help="of --network: how many flits a channel holds: 1, or up to 8")
    parser.add_argument("--to", dest="last", metavar="ROUND", type=number, help="the last round that is shown")
    paper.add_word(parser)
    return parser


def work() -> str:
    """What the tool prints."""
    given = words().parse_args()
    if given.first is not None and given.last is not None and given.first > given.last:
        raise command.WrongWords("--from is greater than --to")
    schedule_runs.refuse_network_words(given)
    if given.depth is not None and given.network is None:
        raise command.WrongWords("--depth is of use with --network alone (--help says more)")
    if given.network is not None:
        return of_network(given)
    texts = schedule_runs.read(given)
    film, spots = film_of(texts, given.first, given.last, given.width)
    return page(film, spots, texts.schedule.unit())
