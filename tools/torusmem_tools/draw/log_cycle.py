"""Draws a cycle of a log, for `tools/cycle`: a column for each processor, and an arrow for each step of the cycle."""
from __future__ import annotations

import math
import re
from dataclasses import dataclass, field
from typing import Callable, Dict, List, Optional, Tuple

from torusmem_tools.draw import palette, paper, svg_text
from torusmem_tools.draw.paper import Paper
from torusmem_tools.draw.strokes import width_of
from torusmem_tools.draw.svg_text import Point

# Of each reason the ink, and dashes of its own, which tell it in grey too.
REASONS = {
    "before, in program order": (palette.BLACK, None),
    "was read by": (palette.BLUE, "10 2 2 2"),
    "was overwritten by": (palette.VERMILLION, "7 3"),
    "read a word that was overwritten by": (palette.VERMILLION, "7 3"),
    "was missed by the later load": (palette.PURPLE, "2 3"),
    "ends its pair before": (palette.GREEN, "12 3"),
}
# A rule of RISC-V's preserved program order, by its number and its words.
RULE = re.compile("before, by (rule [0-9]+): (.*)")
LEGEND = (
    ("before, in program order", "before, in program order, which {model} keeps"),
    ("was read by", "was read by"),
    ("was overwritten by", "was overwritten by; of a load: read a word that was overwritten by"),
    ("was missed by the later load", "was missed by the later load of its processor"),
    ("ends its pair before", "a conditional store ends its pair before a store of another processor"),
)
GREY, FRAME = palette.GREY, svg_text.INK
HIGH, GAP, MARGIN, LANE = 38, 30, 14, 10


@dataclass(frozen=True)
class Look:
    """The sizes of the letters, the least way between columns, the room beside the words of a box, how wide the words below
    an operation may be before they are broken into lines, the margin, and how wide a letter of an operation is."""

    font: float = 12
    small: float = 10
    gutter: float = 84
    beside: float = 20
    wrap: float = math.inf
    margin: float = MARGIN
    letter: float = 0.66

    def lines(self, said: str) -> List[str]:
        """The words below an operation, in lines."""
        return [] if not said else [said] if self.wrap == math.inf else paper.wrapped(said, self.wrap)

    def wide(self, box: "Box") -> float:
        """The width of a box."""
        rows = [len(it) * self.small * 0.6 if self.wrap == math.inf else width_of(it, self.small) for it in box.below]
        return max([len(box.said) * self.font * self.letter, *rows]) + self.beside


PLAIN = Look()


@dataclass
class Box:
    """A place in a column: an operation of the log, or so many that aren't on the cycle."""

    said: str
    below: List[str]
    is_on: bool
    x: float = 0
    y: float = 0
    wide: float = 0

    def high(self) -> float:
        return HIGH + 13 * (len(self.below) - 1) if self.below else HIGH / 2


@dataclass
class Log:
    """Of each processor its operations and the line of each; of each load what it read."""

    asked: Dict[int, List[str]] = field(default_factory=dict)
    lines: Dict[int, List[int]] = field(default_factory=dict)
    sources: Dict[Tuple[int, int], str] = field(default_factory=dict)

    def take(self, words: List[str], line: int, last: Dict[str, str]) -> None:
        """Takes a line of the log; `last` has of each address what its last write so far is."""
        at = [int(it) for it in words[1:3] if it.isdigit()]
        if words[0] == "made":
            self.asked.setdefault(at[0], []).append(" ".join(words[2:]))
            self.lines.setdefault(at[0], []).append(line)
        elif words[0] in ("wrote", "served", "read"):
            address = self.asked[at[0]][at[1]].split()[1]
            if words[0] == "wrote":
                last[address] = f"read line {self.lines[at[0]][at[1]]}"
            elif words[0] == "served":
                self.sources[at[0], at[1]] = last.get(address, "read the opening word")
            else:
                source = f"line {self.lines[int(words[4])][int(words[5])]}" if words[3] == "from" else "the opening word"
                self.sources[at[0], at[1]] = f"read {source}"


@dataclass
class Cycle:
    """The model that is broken, and the steps: of each operation its processor and index, and the reason to the next."""

    model: str
    steps: List[Tuple[int, int, str]]


def sign_of(why: str) -> Tuple[str, Optional[str]]:
    """The ink and the dashes of a reason: a rule's are those of program order."""
    return REASONS["before, in program order" if RULE.fullmatch(why) else why]


def is_reason(why: str) -> bool:
    """Whether the words are those of a reason."""
    return why in REASONS or bool(RULE.fullmatch(why))


def columns_of(cycle: Cycle) -> List[int]:
    """The processors on the cycle: two by their numbers, more in the order in which the cycle comes to them."""
    found = list(dict.fromkeys(p for p, _, _ in cycle.steps))
    return sorted(found) if len(found) == 2 else found


def boxes_of(log: Log, cycle: Cycle, p: int, look: Look) -> Tuple[List[Box], Dict[int, Box]]:
    """The boxes of a processor, from its first operation to its last, and those of the cycle by the index."""
    on = {k for q, k, _ in cycle.steps if q == p}
    column: List[Box] = []
    at: Dict[int, Box] = {}
    begin = 0
    for k in [*sorted(on), len(log.asked[p])]:
        if k - begin == 1:
            column.append(box_of(log, p, begin, False, look))
        elif k > begin:
            column.append(Box(f"{k - begin} operations", [], False))
        if k in on:
            at[k] = box_of(log, p, k, True, look)
            column.append(at[k])
        begin = k + 1
    return column, at


def box_of(log: Log, p: int, k: int, is_on: bool, look: Look) -> Box:
    """The box of an operation."""
    source = log.sources.get((p, k))
    return Box(log.asked[p][k], look.lines(f"line {log.lines[p][k]}" + (f", {source}" if source else "")), is_on)


def drawn_box(box: Box, look: Look) -> str:
    """A box with its texts."""
    ink = svg_text.INK if box.is_on else GREY
    middle = box.x + box.wide / 2
    texts = [svg_text.text(middle, box.y + 16, box.said, look.font, font_family=svg_text.MONO, text_anchor="middle", fill=ink,
                          font_weight="bold" if box.is_on else None)]
    if not box.below:
        return svg_text.text(middle, box.y + 13, box.said, look.small, text_anchor="middle", fill=GREY)
    texts += [svg_text.text(middle, box.y + 31 + 13 * at, it, look.small, text_anchor="middle", fill=GREY) for at, it in enumerate(box.below)]
    frame = svg_text.element("rect", x=box.x, y=box.y, width=box.wide, height=box.high(), rx=4, fill="#ffffff",
                            stroke=FRAME if box.is_on else "#d0d7de", stroke_width=1.5 if box.is_on else 1)
    return svg_text.group([frame, *texts])


def drawn_arrow(points: List[Point], why: str) -> List[str]:
    """An arrow along the points."""
    ink, dashes = sign_of(why)
    (px, py), (x, y) = points[-2:]
    far = math.dist((px, py), (x, y))
    ux, uy = (x - px) / far, (y - py) / far
    foot = (x - 8 * ux, y - 8 * uy)
    wings = [(foot[0] - 4.5 * uy, foot[1] + 4.5 * ux), (foot[0] + 4.5 * uy, foot[1] - 4.5 * ux)]
    shaft = svg_text.path([*points[:-1], foot])
    return [
        svg_text.element("path", d=shaft, fill="none", stroke=ink, stroke_width=2, stroke_dasharray=dashes, stroke_linejoin="round"),
        svg_text.element("path", d=svg_text.path([(x, y), *wings]) + " z", fill=ink),
    ]


def named_rule(points: List[Point], upper: Box, why: str, look: Look) -> List[str]:
    """The name of a rule beside its arrow, below the upper one of its operations."""
    rule = RULE.fullmatch(why)
    return [svg_text.text(points[len(points) // 2 - 1 if len(points) > 2 else 0][0] + 6, upper.y + upper.high() + GAP / 2 + 3, rule[1], look.small)] if rule else []


class Plan:
    """Where all is: columns from left to right, and the lanes of arrows beside them and below all of them."""

    def __init__(self, log: Log, cycle: Cycle, top: float, look: Look = PLAIN) -> None:
        self.cycle, self.look, self.processors = cycle, look, columns_of(cycle)
        self.columns: List[List[Box]] = []
        self.at: Dict[Tuple[int, int], Box] = {}
        self.taken: Dict[Tuple[int, int], int] = {}
        self.low, x = top, look.margin + LANE * self.count(0, -1) + (4 if self.count(0, -1) else 0)
        for number, p in enumerate(self.processors):
            column, at = boxes_of(log, cycle, p, look)
            wide = max(map(look.wide, column))
            y = top
            for box in column:
                box.x, box.y, box.wide = x, y, wide
                y += box.high() + (GAP if box.below else 14)
            self.columns.append(column)
            self.at.update({(p, k): box for k, box in at.items()})
            self.low, self.right = max(self.low, y - GAP), x + wide + 4 + LANE * self.count(number, 1) + look.margin
            x += wide + max(look.gutter, LANE * (self.count(number, 1) + self.count(number + 1, -1)) + 44 * look.gutter / PLAIN.gutter)
        self.floor = self.low + 12

    def pairs(self) -> List[Tuple[Tuple[int, int], Tuple[int, int], str]]:
        """The arrows: where each comes from, where it goes, and its reason."""
        steps = self.cycle.steps
        return [((p, k), (q, j), why) for (p, k, why), (q, j, _) in zip(steps, [*steps[1:], steps[0]])]

    def sides(self, start: Tuple[int, int], end: Tuple[int, int]) -> List[Tuple[int, int]]:
        """Along which columns an arrow goes up or down, and on which side: -1 is the left one, 1 the right one."""
        a, b = self.processors.index(start[0]), self.processors.index(end[0])
        if a == b:
            return [(a, -1)] if self.is_far(start, end) else []
        return [] if abs(a - b) == 1 else [(a, -1), (b, 1)] if a < b else [(a, 1), (b, -1)]

    def is_far(self, start: Tuple[int, int], end: Tuple[int, int]) -> bool:
        """Whether no straight arrow joins two operations of a processor: others stand between them, or an arrow down."""
        is_back = start[1] > end[1] and len(self.cycle.steps) == 2
        return is_back or abs(start[1] - end[1]) > 1

    def count(self, column: int, side: int) -> int:
        """How many arrows go up or down at a side of a column."""
        return sum(self.sides(start, end).count((column, side)) for start, end, _ in self.pairs())

    def lane(self, column: int, side: int) -> float:
        """The place of the next lane there."""
        self.taken[column, side] = self.taken.get((column, side), 0) + 1
        box, far = self.columns[column][0], 4 + LANE * self.taken[column, side]
        return box.x - far if side < 0 else box.x + box.wide + far

    def way(self, start: Tuple[int, int], end: Tuple[int, int]) -> List[Point]:
        """The points of an arrow. At a side one leaves in the lower half of a box, and one comes in the upper half."""
        one, other = self.at[start], self.at[end]
        a, b = self.processors.index(start[0]), self.processors.index(end[0])
        out, into = one.y + one.high() * 0.7, other.y + other.high() * 0.3
        sides = self.sides(start, end)
        if a == b and not sides:
            middle, is_down = one.x + one.wide / 2, one.y < other.y
            return [(middle, one.y + one.high() if is_down else one.y), (middle, other.y if is_down else other.y + other.high())]
        border: Callable[[Box, int], float] = lambda box, side: box.x if side < 0 else box.x + box.wide
        if not sides:
            return [(border(one, b - a), out), (border(other, a - b), into)]
        first = self.lane(*sides[0])
        if a == b:
            return [(one.x, out), (first, out), (first, into), (other.x, into)]
        self.floor += LANE
        second, low = self.lane(*sides[1]), self.floor - LANE
        begin, last = border(one, sides[0][1]), border(other, sides[1][1])
        return [(begin, out), (first, out), (first, low), (second, low), (second, into), (last, into)]


def network(plan: Plan, top: float) -> List[str]:
    """The columns of a plan, with the names of their processors, and the arrows."""
    heads = [svg_text.text(column[0].x + column[0].wide / 2, top, f"processor {p}", plan.look.font, text_anchor="middle")
             for column, p in zip(plan.columns, plan.processors)]
    ways = [(plan.way(start, end), plan.at[min(start, end)], why) for start, end, why in plan.pairs()]
    arrows = [it for points, upper, why in ways for it in drawn_arrow(points, why) + named_rule(points, upper, why, plan.look)]
    return [*heads, *arrows, *(drawn_box(box, plan.look) for column in plan.columns for box in column)]


def legend(cycle: Cycle) -> List[Tuple[str, str]]:
    """The reasons of a cycle, and their words."""
    inks = {REASONS[why] for _, _, why in cycle.steps if why in REASONS}
    rules = {why: RULE.fullmatch(why) for _, _, why in cycle.steps}
    told = [(why, f"{it[1]}: {it[2]}") for why, it in sorted(rules.items(), key=lambda it: (len(it[0].split(":")[0]), it)) if it]
    return told + [(why, said.format(model=cycle.model)) for why, said in LEGEND if REASONS[why] in inks]


def narrow(log: Log, cycle: Cycle, top: float, room: float) -> Plan:
    """The plan with the longest lines that is no wider than there is room, or else the narrowest."""
    looks = [Look(paper.LETTERS, paper.LETTERS, gutter, beside, wrap, paper.MARGIN, 0.62)
             for wrap in (220, 150, 120, 100, 84, 72, 60) for gutter, beside in ((60, 16), (40, 12), (25, 6))]
    plans = [Plan(log, cycle, top, it) for it in looks]
    return next((it for it in plans if it.right <= room), min(plans, key=lambda it: it.right))


def draw_cycle(log: Log, cycle: Cycle, name: str, on: Optional[Paper], tool: str) -> str:
    """The whole picture."""
    heads = [f"{name}: no order of {cycle.model}", "Each arrow leads to what comes later in every order that explains the log."]
    told = ", ".join(f"processor {p}: {log.asked[p][k]} {why}" for p, k, why in cycle.steps)
    if on:
        return on_paper(log, cycle, heads, told, on, tool)
    plan = Plan(log, cycle, 86)
    parts = network(plan, 74)
    y, width = plan.floor + 14, plan.right
    for why, said in legend(cycle):
        parts += drawn_arrow([(MARGIN, y), (MARGIN + 34, y)], why)
        parts.append(svg_text.text(MARGIN + 42, y + 4, said, PLAIN.small))
        width, y = max(width, MARGIN + 60 + 6.2 * len(said)), y + 18
    width = max(width, 2 * MARGIN + 8.2 * len(heads[0]), 2 * MARGIN + 6.1 * len(heads[1]))
    parts += [svg_text.text(MARGIN, 24, heads[0], 13, font_weight="bold"), svg_text.text(MARGIN, 44, heads[1], PLAIN.small)]
    return svg_text.svg(width, y, parts, (heads[0], told))


def on_paper(log: Log, cycle: Cycle, heads: List[str], told: str, on: Paper, tool: str) -> str:
    """The whole picture on paper."""
    parts: List[str] = []
    low = paper.say(parts, paper.MARGIN, 16, heads[0], on.inside(), font_weight="bold")
    low = paper.say(parts, paper.MARGIN, low, heads[1], on.inside()) + 10
    plan = narrow(log, cycle, low + 10, on.room())
    parts += network(plan, low)
    signs = [(drawn_arrow([(0, 0), (34, 0)], why), said) for why, said in legend(cycle)]
    low = plan.floor + 18
    for sign in signs:
        low = paper.say_signed(parts, low, [sign], on.inside(), 42)
    return on.svg(tool, plan.right, low, parts, (heads[0], told))
