"""Draws a run as lanes of bars, for `tools/timeline`: a lane for each processor, a bar for each operation. On paper, time
is broken into pieces that stand below each other, as lines of a text do."""
from __future__ import annotations

from dataclasses import dataclass
from typing import Callable, Iterator, List, Optional, Tuple

from torusmem_tools.draw import palette, paper, svg_text
from torusmem_tools.draw.paper import Paper
from torusmem_tools.draw.strokes import width_of
from torusmem_tools.texts import report

LEFT, RIGHT = 116, 24
# The picture's least width, and the room of each event that there is; on paper its least room.
LEAST_WIDTH, EVENT_WIDTH, LEAST_EVENT = 900, 8, 12
ROW, BAR, GAP = 28, 20, 8
FONT = 11
# After so many lanes the numbers of the events stand again, if there are further ones.
AXIS_EACH, AXIS_HEIGHT = 8, 22


@dataclass
class Window:
    """What is drawn: the events from `first` to `last`, and the operations that are out meanwhile."""

    first: int
    last: int
    entries: List[report.Entry]
    note: str


@dataclass
class Lane:
    """The lane of a processor: its operations, the row of each, and how many rows there are."""

    processor: int
    entries: List[report.Entry]
    rows: List[int]

    def height(self) -> int:
        """The room that the lane takes."""
        return ROW * max(1, 1 + max(self.rows, default=0)) + GAP


@dataclass
class Bar:
    """Where an operation is drawn. What lies outside of the window is cut off: an end that isn't shown is open."""

    entry: report.Entry
    top: float
    start: float
    service: float
    end: float
    shows_issue: bool
    shows_service: bool
    shows_answer: bool


class Scale:
    """Which event lies where, from left to right."""

    def __init__(self, window: Window, on: Optional[Paper] = None, left: float = LEFT) -> None:
        span = window.last - window.first + 2
        room = max(LEAST_WIDTH - left - RIGHT, EVENT_WIDTH * min(span, 3 * len(window.entries)))
        room = on.room() - left - paper.MARGIN if on else room
        self.window, self.on = window, on
        self.step = room / span
        self.left, self.right = left, left + self.step * span

    def at(self, event: int) -> float:
        """The place of an event; that of the border where it lies outside of the window."""
        return min(max(self.left + self.step * (event - self.window.first + 1), self.left), self.right)

    def shows(self, event: Optional[int]) -> bool:
        """Whether there is such an event in the window."""
        return event is not None and self.window.first <= event <= self.window.last

    def bar(self, entry: report.Entry, top: float) -> Bar:
        """The bar of an operation."""
        end = self.right if entry.answered is None else self.at(entry.answered)
        start, service = self.at(entry.issued), self.at(entry.served)
        shown = [self.shows(it) for it in (entry.issued, entry.served, entry.answered)]
        return Bar(entry, top, start, service, end, *shown)


def lanes_of(window: Window, processors: List[int]) -> List[Lane]:
    """A lane for each of the processors."""
    lanes = []
    for processor in processors:
        entries = [it for it in window.entries if it.source == processor]
        lanes.append(Lane(processor, entries, report.rows_of(entries)))
    return lanes


def tooltip(entry: report.Entry) -> str:
    """All that the report says of an operation."""
    which = f"processor {entry.source}, tag {entry.tag}"
    if entry.index is not None:
        which = f"processor {entry.source}, operation {entry.index}, tag {entry.tag}"
    end = f"answered {entry.replied()} at event {entry.answered}"
    if entry.answered is None:
        end = f"replied {entry.replied()}, not answered"
    place = f"served by bank {entry.bank} as its number {entry.place} at event {entry.served}"
    return f"{which}: {entry.asked()}\nissued at event {entry.issued}\n{place}\n{end}"


def labels(bar: Bar) -> List[Tuple[float, str]]:
    """The texts in a bar, each with the place where it begins: what there is room for."""
    fits: Callable[[str, float], bool] = lambda said, room: len(said) * FONT * svg_text.MONO_WIDTH + 8 <= room
    entry, before, after = bar.entry, bar.service - bar.start, bar.end - bar.service
    asked, replied = entry.asked(), entry.replied()
    reply = [(bar.service + 5, replied)] if fits(replied, after) else []
    if fits(asked, before):
        return [(bar.start + 4, asked), *reply]
    for said in (f"{asked}: {replied}", asked):
        if fits(said, after):
            return [(bar.service + 5, said)]
    for said in (f"{entry.kind} {entry.address}", entry.kind):
        if fits(said, before):
            return [(bar.start + 4, said), *reply]
    return reply


def outline(bar: Bar) -> List[str]:
    """The border of a bar, open at an end that isn't shown, and dashed from the service on without an answer."""
    dark, low = palette.dark(palette.ink(bar.entry.bank)), bar.top + BAR
    sides: Callable[[float, float], str] = lambda x, end: " ".join(svg_text.path([(x, y), (end, y)]) for y in (bar.top, low))
    across: Callable[[float], str] = lambda x: " " + svg_text.path([(x, bar.top), (x, low)])

    def line(d: str, **more: object) -> str:
        return svg_text.element("path", d=d, fill="none", stroke=dark, **more)

    is_answered = bar.entry.answered is not None
    solid = sides(bar.start, bar.end if is_answered else bar.service)
    solid += across(bar.start) if bar.shows_issue else ""
    solid += across(bar.end) if bar.shows_answer else ""
    parts = [line(solid)]
    if not is_answered:
        parts.append(line(sides(bar.service, bar.end), stroke_dasharray="4 3"))
    if bar.shows_service:
        tick = [(bar.service, bar.top - 3), (bar.service, low + 3)]
        parts += [line(svg_text.path(tick), stroke_width=2.5), palette.mark_of(bar.entry.bank, bar.service, bar.top - 3, 3)]
    return parts


def drawn_bar(bar: Bar) -> str:
    """An operation: the halves of its bar before and after the service, the border, the texts, the tooltip."""
    half: Callable[[float, float, float], str] = lambda x, end, light: svg_text.element(
        "rect", x=x, y=bar.top, width=end - x, height=BAR, fill=palette.tint(palette.ink(bar.entry.bank), light)
    )
    after = 0.65 if bar.entry.answered is not None else 0.94
    parts = [svg_text.title(tooltip(bar.entry)), half(bar.start, bar.service, 0.87), half(bar.service, bar.end, after)]
    texts = [svg_text.text(x, bar.top + 14, said, FONT, font_family=svg_text.MONO) for x, said in labels(bar)]
    return svg_text.group([*parts, *outline(bar), *texts])


def drawn_lane(lane: Lane, scale: Scale, top: float) -> str:
    """A lane: its ground, and the processor's name."""
    height, shade = lane.height(), palette.GROUND if lane.processor % 2 == 0 else "#ffffff"
    wide = scale.on.room() if scale.on else scale.right + RIGHT
    parts = [svg_text.element("rect", x=0, y=top, width=wide, height=height, fill=shade)]
    parts.append(lane_name(scale, top + height / 2 + 4, f"processor {lane.processor}"))
    return svg_text.group(parts)


def lane_name(scale: Scale, y: float, said: str) -> str:
    """A text on the left."""
    return svg_text.text(paper.MARGIN, y, said, FONT) if scale.on else svg_text.text(12, y, said)


def step_of(scale: Scale) -> int:
    """How many events lie between two numbers of the axis, so that the numbers lie apart."""
    steps: Iterator[int] = (factor * 10**power for power in range(7) for factor in (1, 2, 5))
    return next((it for it in steps if it * scale.step >= 48), 10**7)


def drawn_axis(scale: Scale, tops: List[float], low: float) -> List[str]:
    """The numbers of the events, each with a line down through the lanes: above the first and where they are said
    again."""
    step, window = step_of(scale), scale.window
    rounded = range(-(-window.first // step) * step, window.last + 1, step)
    events = [window.first, *(it for it in rounded if (it - window.first) * scale.step >= 40)]
    parts = [lane_name(scale, top - 8, "event") for top in tops]
    for event in events:
        x = scale.at(event)
        parts.append(svg_text.element("path", d=svg_text.path([(x, tops[0] - 4), (x, low)]), stroke=palette.GRID))
        parts += [svg_text.text(x, top - 8, str(event), FONT, text_anchor="middle") for top in tops]
    return parts


def swatch(bank: int, x: float, y: float) -> List[str]:
    """The colour and the mark of a bank."""
    fill, stroke = palette.tint(palette.ink(bank), 0.65), palette.dark(palette.ink(bank))
    return [svg_text.element("rect", x=x, y=y, width=14, height=14, fill=fill, stroke=stroke), palette.mark_of(bank, x + 7, y + 7, 3)]


def drawn_legend(window: Window, width: float, top: float) -> Tuple[List[str], float]:
    """The colours of the banks, and where the next thing can stand below them."""
    parts, x, y = [], 12.0, top  # type: List[str], float, float
    for bank in sorted({it.bank for it in window.entries}):
        if x + 74 > width:
            x, y = 12.0, y + 20
        parts += [*swatch(bank, x, y), svg_text.text(x + 19, y + 11, f"bank {bank}", FONT)]
        x += 76
    return parts, y + 24


def heading(found: report.Report, window: Window) -> List[str]:
    """The lines above the picture."""
    shape = " x ".join(map(str, found.radices))
    run = "a finished run" if found.is_complete else "a run that isn't finished"
    which = f"{run} on {shape} tiles: events {window.first} to {window.last}"
    which += f", {window.note}" if window.note else ""
    how = "a bar: from issue to answer; the line in it: the service, with its bank's mark, left of it the operation, right the reply"
    return [which, how + ("; dashed: no answer" if any(it.answered is None for it in window.entries) else "")]


def pieces(window: Window, on: Paper, left: float) -> List[Window]:
    """The pieces of the window, so that each event has its room on the paper."""
    most = max(1, int((on.room() - left - paper.MARGIN) / LEAST_EVENT) - 2)
    total = window.last - window.first + 1
    each = -(-total // -(-total // most))
    found = []
    for first in range(window.first, window.last + 1, each):
        last = min(first + each - 1, window.last)
        inside = [it for it in window.entries if it.issued <= last and (it.answered is None or it.answered >= first)]
        # (the last piece has the room of the others)
        found.append(Window(first, first + each - 1, inside, window.note))
    return found


def drawn_piece(scale: Scale, processors: List[int], top: float) -> Tuple[List[str], float]:
    """The lanes of a window, and where they end."""
    grounds, bars, low, tops = [], [], top, [top]  # type: List[str], List[str], float, List[float]
    for number, lane in enumerate(lanes_of(scale.window, processors)):
        if number and number % AXIS_EACH == 0:
            low += AXIS_HEIGHT
            tops.append(low)
        grounds.append(drawn_lane(lane, scale, low))
        places = [low + GAP + ROW * row for row in lane.rows]
        bars += [drawn_bar(scale.bar(it, place)) for it, place in zip(lane.entries, places)]
        low += lane.height()
    return [*grounds, *drawn_axis(scale, tops, low), *bars], low


def draw_lanes(found: report.Report, window: Window, processors: List[int]) -> str:
    """The whole picture."""
    scale = Scale(window)
    says = heading(found, window)
    parts = [svg_text.text(12, 24, says[0], 14, font_weight="bold"), svg_text.text(12, 44, says[1])]
    legend, top = drawn_legend(window, LEAST_WIDTH, 58)
    lanes, low = drawn_piece(scale, processors, top + 18)
    return svg_text.svg(scale.right + RIGHT, low + 12, [*parts, *legend, *lanes])


def on_paper(found: report.Report, window: Window, processors: List[int], on: Paper, tool: str) -> str:
    """The whole picture on paper, in pieces of time."""
    left = 2 * paper.MARGIN + max(width_of(f"processor {it}", FONT) for it in processors)
    says = heading(found, window)
    parts: List[str] = []
    low = paper.say(parts, paper.MARGIN, 16, says[0], on.inside(), font_weight="bold")
    low = paper.say(parts, paper.MARGIN, low, says[1], on.inside())
    banks = sorted({it.bank for it in window.entries})
    low = paper.say_signed(parts, low + 2, [(swatch(it, 0, -7), f"bank {it}") for it in banks], on.inside(), 19) - 10
    for piece in pieces(window, on, left):
        lanes, low = drawn_piece(Scale(piece, on, left), processors, low + 24)
        parts += lanes
    return on.svg(tool, on.room(), low + 8, parts)
