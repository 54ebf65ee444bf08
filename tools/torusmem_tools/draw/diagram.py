"""The diagram of a network: routers as boxes, channels as arrows, and a number in a gap of its arrow for each channel
that has one. No number lies on a line, on a box or on another number; where there is no room, the diagram grows."""
from __future__ import annotations

import math
from dataclasses import dataclass, field
from typing import Dict, List, Set, Tuple

from torusmem_tools.draw import svg_text
from torusmem_tools.draw.router_ends import Plan, pairs_of
from torusmem_tools.draw.shapes import Box, Line, Point, TakenBoxes, around, at, bent, beside, curve, from_box, length, spanned, to_box
from torusmem_tools.draw.strokes import END, FULL, HEAD, LOADED, ROUND, THICK, THIN, VIRTUAL, answer, arrow, label_box, middle_text, router, width_of

@dataclass
class Marks:
    """What is said in a diagram: the number of each channel that shows one, which channels are full, which replies
    there are, which of them are waited for, which channels are no escapes, and the inks of channels that have their own."""

    numbers: Dict[int, str]
    full: Set[int] = field(default_factory=set)
    replies: List[Tuple[int, int]] = field(default_factory=list)
    awaited: Set[Tuple[int, int]] = field(default_factory=set)
    loose: Set[int] = field(default_factory=set)
    inks: Dict[int, str] = field(default_factory=dict)

    def all_numbered(self) -> bool:
        """Whether each channel shows its number."""
        return bool(self.numbers) and not self.full


@dataclass
class Drawn:
    """A channel's arrows: mostly one; two of a link that goes round the other side of the picture."""

    channel: int
    lines: List[Line]
    gaps: List[Box] = field(default_factory=list)


class Diagram:
    """A diagram, at this scale."""

    def __init__(self, plan: Plan, marks: Marks, places: List[Point], half: Point, lane: float) -> None:
        self.plan, self.marks, self.half, self.lane = plan, marks, half, lane
        self.boxes = [Box(x, y, *half) for x, y in places]
        self.taken = TakenBoxes()
        self.hops: List[Drawn] = []
        self.ends: List[Drawn] = []
        self.replies: List[Tuple[Tuple[int, int], Line]] = []
        self.said: List[Tuple[Box, str, bool]] = []
        self.outer: Dict[int, Tuple[Point, Point]] = {}
        # The ends of which an answer goes to another router: that one.
        self.far = {it: other for x, y in marks.replies if x in plan.starts and y in plan.ends and plan.starts[x] != plan.ends[y]
                    for it, other in ((x, plan.ends[y]), (y, plan.starts[x]))}
        self.angles: List[List[float]] = [[] for _ in places]
        self.missing = self.crowded = self.rounds = 0
        for k, box in enumerate(self.boxes):
            self.taken.add_box(("router", k), box.grown(2))
        for (a, b), channels in pairs_of(plan).items():
            self.link(a, b, sorted(channels, key=lambda x: (plan.virtual[x], x)))
        self.is_square = all(abs(angle / (math.pi / 2) - round(angle / (math.pi / 2))) < 0.01 for it in self.angles for angle in it)
        for it in self.hops:
            for line in it.lines:
                self.taken.add_line(("hop", it.channel), line)
        self.terminals()
        self.answers()
        for it in sorted(self.hops, key=lambda it: length(it.lines[0])):
            if it.channel in marks.numbers:
                shown = [self.number(it, line, marks.numbers[it.channel]) for line in it.lines]
                self.missing += not any(shown)

    def link(self, a: int, b: int, channels: List[int]) -> None:
        """The channels between two routers: side by side, each on the right of the way that it goes."""
        there = [x for x in channels if self.plan.starts[x] == a]
        back = [x for x in channels if self.plan.starts[x] != a]
        lanes = [(x, False) for x in reversed(back)] + [(x, True) for x in there]
        offs = [(k - (len(lanes) - 1) / 2) * self.lane for k in range(len(lanes))]
        if a == b:
            self.loops(a, there)
            return
        ways = self.ways(a, b, offs[-1] + 3)
        for router, way in ((a, ways[0]), (b, ways[-1][::-1])):
            self.angles[router].append(math.atan2(way[1][1] - way[0][1], way[1][0] - way[0][0]))
        for (x, is_there), off in zip(lanes, offs):
            lines = [beside(way, off) for way in ways]
            lines[0] = from_box(lines[0], self.boxes[a])
            lines[-1] = to_box(lines[-1], self.boxes[b])
            self.hops.append(Drawn(x, lines if is_there else [it[::-1] for it in reversed(lines)]))

    def ways(self, a: int, b: int, half: float) -> List[Line]:
        """The middle of a link: a straight line, or one round the other side, or a curve past the routers between."""
        p, q = (self.boxes[a].x, self.boxes[a].y), (self.boxes[b].x, self.boxes[b].y)
        if self.is_clear([p, q], a, b, half):
            return [[p, q]]
        far = math.dist(p, q)
        dx, dy = (p[0] - q[0]) / far, (p[1] - q[1]) / far
        reach = ROUND + abs(dx) * self.half[0] + abs(dy) * self.half[1]
        rest = [[p, (p[0] + dx * reach, p[1] + dy * reach)], [(q[0] - dx * reach, q[1] - dy * reach), q]]
        if self.plan.is_placed() and min(abs(dx), abs(dy)) < 0.01 and all(self.is_clear(it, a, b, half) for it in rest):
            self.rounds += 1
            for other, line in ((b, rest[0]), (a, rest[1][::-1])):
                said = self.plan.names[other]
                box = label_box(0, 0, said)
                x, y = line[1][0] + (dx if other == b else -dx) * (box.wide + 2), line[1][1] + (dy if other == b else -dy) * (box.high + 2)
                self.taken.add_box(("round", a, b, other), box._replace(x=x, y=y))
                self.said.append((box._replace(x=x, y=y), said, False))
            return rest
        for by in (0.12, -0.12, 0.2, -0.2, 0.3, -0.3, 0.45, -0.45):
            if self.is_clear(bent(p, q, by * far), a, b, half):
                return [bent(p, q, by * far)]
        return [bent(p, q, 0.2 * far)]

    def is_clear(self, line: Line, a: int, b: int, half: float) -> bool:
        """Whether a link of this half width passes no router but its own two."""
        return not any(box.grown(half).inside(p, q) for k, box in enumerate(self.boxes) if k not in (a, b) for p, q in zip(line, line[1:]))

    def loops(self, router: int, channels: List[int]) -> None:
        """Channels from a router to itself."""
        box = self.boxes[router]
        for k, x in enumerate(channels):
            out, wide = box.y - box.high - 12 - self.lane * k, 6 + self.lane * k
            self.hops.append(Drawn(x, [[(box.x - wide, box.y - box.high), (box.x - wide, out), (box.x + wide, out), (box.x + wide, box.y - box.high)]]))
        self.angles[router].append(-math.pi / 2)

    def terminals(self) -> None:
        """The injection and ejection channels of each router, in twos: what answers beside what is answered."""
        answered = dict(self.marks.replies)
        here: List[List[int]] = [[] for _ in self.boxes]
        for x, router in [*self.plan.starts.items(), *self.plan.ends.items()]:
            if not (x in self.plan.starts and x in self.plan.ends):
                here[router].append(x)
        for router, channels in enumerate(here):
            free = sorted(channels)
            injects = [x for x in free if x in self.plan.ends]
            ejects = [x for x in free if x in self.plan.starts]
            twos = []
            for x in ejects:
                if answered.get(x) in injects:
                    injects.remove(answered[x])
                    twos.append([answered[x], x])
            ejects = [x for x in ejects if x not in sum(twos, [])]
            twos += [injects[k : k + 1] + ejects[k : k + 1] for k in range(max(len(injects), len(ejects)))]
            for two in sorted(twos, key=lambda it: (not any(x in self.far for x in it), it)):
                self.terminal(router, two)

    def directions(self, router: int, channels: List[int]) -> List[float]:
        """The directions in which some ends of a router may lie, the best one first: where most room is, but for ends
        of which an answer goes to another router, towards that one; and at the corners where all links are level or
        upright."""
        box, taken = self.boxes[router], self.angles[router]

        def between_two(one: float, other: float) -> float:
            return abs((one - other + math.pi) % (2 * math.pi) - math.pi)

        def room(angle: float) -> float:
            return min((between_two(angle, it) for it in taken), default=math.pi)

        order = sorted((k * math.pi / 16 for k in range(-16, 16)), key=lambda it: (-round(room(it), 3), abs(it - math.pi / 4)))
        others = [self.boxes[self.far[x]] for x in channels if x in self.far]
        if others:
            to = math.atan2(others[0].y - box.y, others[0].x - box.x)
            return sorted(order, key=lambda it: (room(it) < 0.45, between_two(it, to)))
        corners = [k * math.pi / 4 for k in (1, 3, -1, -3)] if self.is_square else []
        return corners + [it for it in order if it not in corners]

    def terminal(self, router: int, channels: List[int]) -> None:
        """One or two ends, where there is most room for them."""
        order = self.directions(router, channels)
        least, best = math.inf, (order[0], END)
        for choice in ((angle, far) for far in (END, 1.6 * END, 2.4 * END) for angle in order):
            found = self.ends_at(router, channels, *choice)
            met = sum(self.taken.met_by_line(("router", router), it.lines[0]) for it in found)
            met += sum(self.taken.met_by_box(None, box.grown(0.5)) for it in found for box in it.gaps)
            if met < least:
                least, best = met, choice
            if not met:
                break
        if least and len(channels) > 1:
            for x in channels:
                self.terminal(router, [x])
            return
        self.crowded += least > 0
        self.angles[router].append(best[0])
        for it in self.ends_at(router, channels, *best):
            self.ends.append(it)
            self.taken.add_line(("end", it.channel), it.lines[0])
            if any(self.taken.met_by_box(("end", it.channel), box.grown(-0.9)) for box in it.gaps):
                it.gaps.clear()
                self.missing += 1
            self.outer[it.channel] = it.lines[0][0] if it.channel in self.plan.ends else it.lines[0][-1], (math.cos(best[0]), math.sin(best[0]))
            for box in it.gaps:
                self.taken.add_box(("number", it.channel), box)
                self.said.append((box, self.marks.numbers[it.channel], it.channel in self.marks.full))

    def ends_at(self, router: int, channels: List[int], angle: float, size: float) -> List[Drawn]:
        """Ends in this direction, of this length, with the boxes of their numbers behind them."""
        box, (ux, uy) = self.boxes[router], (math.cos(angle), math.sin(angle))
        said = [self.marks.numbers.get(x, "") for x in channels]
        longest = label_box(0, 0, max(said, key=width_of))
        wide, high = (2 * longest.wide + 1, 2 * longest.high + 1) if any(said) else (6.0, 6.0)
        apart = min(wide / max(abs(uy), 0.01), high / max(abs(ux), 0.01))
        middle = (box.x, box.y)
        reach = (box.wide + box.high) * 2
        offs = [(k - (len(channels) - 1) / 2) * min(apart, 1.8 * min(self.half)) for k in range(len(channels))]
        ways = [from_box(beside([middle, (box.x + ux * reach, box.y + uy * reach)], off), box) for off in offs]
        found = []
        far = max((way[0][0] - box.x) * ux + (way[0][1] - box.y) * uy for way in ways) + size
        for x, off, way, text in zip(channels, offs, ways, said):
            start = way[0]
            more = far - ((start[0] - box.x) * ux + (start[1] - box.y) * uy)
            tip = (start[0] + ux * more, start[1] + uy * more)
            it = Drawn(x, [[tip, start] if x in self.plan.ends else [start, tip]])
            if text:
                own = label_box(0, 0, text)
                out = 1.5 + abs(ux) * own.wide + abs(uy) * own.high
                side = 2 + abs(uy) * own.wide + abs(ux) * own.high
                other = self.boxes[self.far.get(x, router)]
                if off < 0 or off == 0 and (box.x - other.x) * -uy + (box.y - other.y) * ux < 0:
                    side = -side
                it.gaps.append(own._replace(x=tip[0] - ux * size / 2 - uy * side, y=tip[1] - uy * size / 2 + ux * side) if x in self.far else
                               own._replace(x=tip[0] + ux * out, y=tip[1] + uy * out))
            found.append(it)
        return found

    def answers(self) -> None:
        """The replies: from the end of an ejection channel to that of an injection channel."""
        for x, y in self.marks.replies:
            if x not in self.outer or y not in self.outer:
                continue
            (p, to_p), (q, to_q) = self.outer[x], self.outer[y]
            far = math.dist(p, q)
            ways = [[p, q]] if far < 2 * max(self.half) and to_p == to_q else [
                curve(p, (p[0] + to_p[0] * by * far, p[1] + to_p[1] * by * far), (q[0] + to_q[0] * on * far, q[1] + to_q[1] * on * far), q)
                for by in (0.3, 0.15, 0.5, 0.8, 1.2) for on in (0.3, 0.15, 0.5, 0.8, 1.2)]
            met, _, way = min((self.taken.boxes_met(it[1:-1]), self.taken.met_by_line(None, it[1:-1]), it) for it in ways)
            self.crowded += met > 0
            self.replies.append(((x, y), way))
            self.taken.add_line(("reply", x, y), way)

    def number(self, it: Drawn, line: Line, said: str) -> bool:
        """A channel's number, in a gap of its arrow: as near to the middle as there is room, if there is any."""
        own, whole = label_box(0, 0, said), length(line)
        steps = [k * 1.5 * side for k in range(int(whole / 3) + 1) for side in (1, -1)]
        for step in steps:
            (x, y), (ux, uy) = at(line, min(max(whole / 2 + step, 0), whole))
            half = min(own.wide / max(abs(ux), 0.01), own.high / max(abs(uy), 0.01))
            far = whole / 2 + step
            if far - half < 3 or far + half > whole - HEAD - 3:
                continue
            box = own._replace(x=x, y=y)
            if not self.taken.met_by_box(("hop", it.channel), box):
                self.taken.add_box(("number", it.channel), box)
                it.gaps.append(box)
                self.said.append((box, said, it.channel in self.marks.full))
                return True
        return False

    def extent(self) -> Tuple[float, float, float, float]:
        """The least and the greatest x and y of all that is drawn."""
        lines = [line for it in self.hops + self.ends for line in it.lines] + [line for _, line in self.replies]
        return around([*self.boxes, *(it[0] for it in self.said), *(spanned(p, q) for line in lines for p, q in zip(line, line[1:]))])

    def parts(self, net_title: Dict[int, str]) -> List[str]:
        """The elements of the diagram; channels that are full over the others."""
        made: List[str] = []
        for it in sorted(self.hops + self.ends, key=lambda it: it.channel in self.marks.full):
            full = it.channel in self.marks.full
            ink = FULL if full else self.marks.inks.get(it.channel) or VIRTUAL[self.plan.virtual.get(it.channel, 0) % len(VIRTUAL)]
            inside = [svg_text.title(net_title[it.channel])]
            for line in it.lines:
                inside += arrow(line, ink, THICK if full else LOADED if self.marks.inks else THIN, it.gaps, it.channel in self.marks.loose)
            made.append(svg_text.group(inside))
        for (x, y), line in self.replies:
            ink = FULL if (x, y) in self.marks.awaited else VIRTUAL[0]
            said = svg_text.title(f"packets from channel {x} are answered on channel {y}")
            made.append(svg_text.group([said, *answer(line, ink, (x, y) in self.marks.awaited)]))
        for box, name in zip(self.boxes, self.plan.names):
            made.append(svg_text.group([svg_text.title(f"router {name}"), router(box), middle_text(box, name, False)]))
        made += [middle_text(*it) for it in self.said]
        return made
