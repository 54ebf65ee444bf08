"""The flits of packets through a written network, round by round, for the page of `tools/animate --network`."""
from __future__ import annotations

import math
from typing import Any, Callable, Dict, List, Optional, Tuple

from torusmem_tools import command
from torusmem_tools.draw import palette, paper, svg_text, torus_layout
from torusmem_tools.draw.channel_marks import name_of
from torusmem_tools.draw.diagram import Diagram, Marks
from torusmem_tools.draw.diagram_fit import diagram
from torusmem_tools.draw.film import DISC, MOST_ROUNDS, Film
from torusmem_tools.draw.paper import Paper
from torusmem_tools.draw.router_ends import plan_of
from torusmem_tools.draw.svg_text import Point
from torusmem_tools.model.network import Network
from torusmem_tools.model.packet_rounds import MOST_ROUNDS as MOST_MADE, Course, Packet, Simulation

# Of no network with more channels a page is made.
MOST_CHANNELS = 1024
# How much larger than on paper the network is drawn where the page has no width, and how long its links are; and what is tried, one
# after the other, where it has one, until the network has the room.
LARGER, LINK = 1.75, 46.0
SMALLER = ((LARGER, LINK), (1.5, LINK), (1.3, LINK), (1.15, LINK), (1.0, LINK), (1.0, 36.0), (1.0, 27.0), (1.0, 22.0), (1.0, 17.0), (1.0, 13.0))
# The part of a channel on which its flits stand, and how far those in a latch are from the router's border, beside their radius.
PART, NEAR = 0.72, 2.5


class Stage:
    """The network as the page draws it, and where a flit stands in it."""

    def __init__(self, net: Network, depth: int, on: Optional[Paper]) -> None:
        self.net, self.plan, self.on, self.depth = net, plan_of(net), on, depth
        if not self.plan.names:
            raise command.Refusal("there is nothing to draw: no packets go from one channel to another")
        least = on.inside() if on else 460
        for self.scale, apart in SMALLER if on else SMALLER[:1]:
            self.drawn: Diagram = diagram(self.plan, Marks({}, replies=net.replies), apart=apart)
            left, top, right, low = self.drawn.extent()
            if (right - left) * self.scale <= least:
                break
        self.lines = {it.channel: it.lines for it in [*self.drawn.hops, *self.drawn.ends]}
        self.disc = self.radius()
        signs, below = self.legend(max((right - left) * self.scale, least - 16))
        self.signs, self.move = signs, (paper.MARGIN - left * self.scale, below + 8 - top * self.scale)
        self.size = max((right - left) * self.scale, least) + 2 * paper.MARGIN, below + 16 + (low - top) * self.scale

    def radius(self) -> float:
        """The radius of a flit: as large as the network is drawn, but so that those of a hop don't lie on each other."""
        hops = [sum(math.dist(p, q) for line in it.lines for p, q in zip(line, line[1:])) for it in self.drawn.hops]
        return self.scale * min(DISC / LARGER, min(hops, default=LINK) * PART / max(self.depth - 1, 1) / 2)

    def legend(self, wide: float) -> Tuple[List[str], float]:
        """What the signs mean, and where the network may stand."""
        disc: Dict[str, Any] = {"r": self.disc, "fill": palette.BLUE, "cx": 8, "cy": 0, "stroke_width": self.disc / DISC}
        signs = [(svg_text.element("circle", stroke="#ffffff", **disc), "flit, in the colour of its packet"),
                 (svg_text.element("circle", stroke=svg_text.INK, **disc), "head of a packet"),
                 (svg_text.element("rect", x=1, y=-6, width=14, height=12, rx=2, fill="#ffffff", stroke=svg_text.INK), "router, with the flits in its latches")]
        parts: List[str] = []
        low = paper.say_signed(parts, 16, [([it], said) for it, said in signs], wide, 26)
        return parts, low

    def at(self, x: float, y: float) -> Point:
        """A point of the diagram in the picture."""
        return self.move[0] + self.scale * x, self.move[1] + self.scale * y

    def in_channel(self, x: int, ahead: int) -> Optional[Point]:
        """Where a flit stands in a channel, with so many ahead of it."""
        lines = self.lines.get(x)
        if not lines:
            return None
        part = (1 + PART) / 2 - PART * ahead / max(self.depth - 1, 1)
        whole = [math.dist(p, q) for line in lines for p, q in zip(line, line[1:])]
        gone = part * sum(whole)
        for line in lines:
            here = sum(math.dist(p, q) for p, q in zip(line, line[1:]))
            if gone <= here or line is lines[-1]:
                return self.at(*torus_layout.along(line, min(gone / here, 1)))
            gone -= here
        return None

    def in_latch(self, x: int) -> Optional[Point]:
        """Where a flit stands in the latch behind a channel: in the router, at the end of the channel."""
        lines, router = self.lines.get(x), self.plan.ends.get(x)
        if not lines or router is None:
            return None
        (u, v), box = lines[-1][-1], self.drawn.boxes[router]
        far = math.dist((u, v), (box.x, box.y)) or 1
        part = 1.4 * (self.disc + NEAR) / self.scale / far
        return self.at(u + (box.x - u) * part, v + (box.y - v) * part)

    def picture(self) -> str:
        """The network without flits."""
        titles = {x: f"channel {x}: {name_of(self.net, self.plan, x)}" for x in range(len(self.net.kinds))}
        x, y = (svg_text.short(it) for it in self.move)
        ground = svg_text.group(self.drawn.parts(titles), transform=f"translate({x},{y}) scale({self.scale:.4f})")
        parts = [*self.signs, ground]
        return self.on.svg("animate", *self.size, parts) if self.on else svg_text.svg(*self.size, parts)


def number_of(film: Film, flit: Any, courses: List[Course]) -> int:
    """The number of a flit in the film, with its looks."""
    key = flit.packet, flit.number
    if key not in film.numbers:
        film.numbers[key] = len(film.numbers)
        it = courses[flit.packet].packet
        said = f"packet {flit.packet}, from channel {it.start} to {it.end}; flit {flit.number} of {it.size}"
        film.looks.append([palette.ink(flit.packet), 0, int(flit.head), said])
    return film.numbers[key]


def standing(run: Simulation, stage: Stage, film: Film) -> List[List[Any]]:
    """The flits in channels and latches, each with its place."""
    found: List[Tuple[int, Optional[Point]]] = []
    for x, it in enumerate(run.machine.channels):
        found += [(number_of(film, flit, run.courses), stage.in_channel(x, at)) for at, flit in enumerate(it.flits)]
        if it.latch is not None:
            found.append((number_of(film, it.latch, run.courses), stage.in_latch(x)))
    return [[number, round(at[0], 1), round(at[1], 1)] for number, at in sorted(found) if at]


def events_of(courses: List[Course], now: int) -> List[str]:
    """What is begun and delivered in a round."""
    told: Callable[[int, Packet], str] = lambda k, it: f"packet {k}, {it.size} flit{'s' * (it.size > 1)} from channel {it.start} to {it.end}"
    begun = [f"begun: {told(k, it.packet)}" for k, it in enumerate(courses) if it.begun == now]
    return begun + [f"delivered: {told(k, it.packet)}, latency {now - it.packet.round + 1}" for k, it in enumerate(courses) if it.delivered == now]


def film_of(net: Network, depth: int, traffic: List[Packet], ends: Tuple[Optional[int], Optional[int]], on: Optional[Paper]) -> Tuple[Film, Stage]:
    """The rounds of the window between these ends, at most MOST_ROUNDS of them."""
    if len(net.kinds) > MOST_CHANNELS:
        raise command.Refusal(f"the network has more than {MOST_CHANNELS} channels")
    stage, run = Stage(net, depth, on), Simulation(net, depth, traffic)
    film = Film(disc=stage.disc)
    first, last = ends
    for now in range(1, MOST_MADE + 1):
        if not run.round(now) and run.is_over(now) or last is not None and now > last:
            break
        if now < (first or 0):
            continue
        if len(film.rounds) == MOST_ROUNDS:
            command.say("animate", f"shows {MOST_ROUNDS} rounds; --from and --to choose others")
            break
        film.rounds.append(now)
        film.flits.append(standing(run, stage, film))
        film.events.append(events_of(run.courses, now))
    if not film.rounds:
        raise command.Refusal("nothing moves in these rounds")
    return film, stage
