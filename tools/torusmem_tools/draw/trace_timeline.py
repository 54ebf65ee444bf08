"""Draws a trace text (docs/FORMATS.md, Trace text) as a timeline: what `tools/timeline` does with such a text."""
from __future__ import annotations

import os
import re
from dataclasses import dataclass, field
from html import escape
from typing import Dict, List, Optional, Tuple

from torusmem_tools import command
from torusmem_tools.draw import palette, paper, svg_text
from torusmem_tools.draw.paper import Paper
from torusmem_tools.draw.strokes import width_of
from torusmem_tools.texts import report
from torusmem_tools.texts.numbering import Names

MOST = 400
LEFT, RIGHT, LEAST_WIDTH, STEP = 116, 24, 900, 14
ROW, BAR, GAP, FONT = 28, 20, 8, 11
RED = palette.VERMILLION
# The least room of an event on paper.
LEAST_EVENT = 13
# How many events are drawn before the one from which on there is no order, and behind it.
BEFORE, BEHIND = 60, 20
# The border of the operation at fault.
FAULT_WIDTH = 3
# A comment by which tools/from_csv says what is numbered.
NAMED = re.compile("# (key|value) ([0-9]+) is (.+)")


@dataclass
class Operation:
    """An operation of a trace, its issue and its answer by the numbers of their events, from 1, and its place in the one
    order, if there is one."""

    processor: int
    index: int
    asked: str
    issued: int
    address: int
    reply: str = ""
    answered: Optional[int] = None
    place: Optional[int] = None
    # What its lane is called.
    lane: str = ""

    def tooltip(self) -> str:
        """All that is known of it."""
        end = f"answered {self.reply} at event {self.answered}" if self.answered else "never answered"
        place = f"\nnumber {self.place} in the order" if self.place else ""
        return f"{self.lane}, operation {self.index}: {self.asked}\nissued at event {self.issued}, {end}{place}"


@dataclass
class Trace:
    """A trace, the line of each event, what is said of it, the event from which on there is no order, why there is none,
    and the events that issue what is open on the word there."""

    operations: List[Operation]
    lines: List[int]
    verdict: str = ""
    bad: Optional[int] = None
    why: str = ""
    pending: Tuple[int, ...] = ()
    # The times of events, where they are known, and what keys and values are called that are numbered.
    times: Dict[int, str] = field(default_factory=dict)
    names: Names = field(default_factory=Names)


def is_trace(path: str) -> bool:
    """Whether a file's first words are those of a trace text. What isn't a file, as a pipe, is left unread."""
    try:
        if not os.path.isfile(path):
            return False
        with open(path, "rb") as file:
            lines = file.read(2**16).split(b"\n")
    except OSError:
        return False
    first = next((it[0] for it in map(bytes.split, lines) if it and not it[0].startswith(b"#")), b"")
    return first == b"trace"


def parse_trace(text: bytes) -> Trace:
    """The trace of a text that the program has read: of its lines only the words are looked at."""
    found, by_name, counts = Trace([], []), {}, {}  # type: Trace, Dict[Tuple[int, int], Operation], Dict[int, int]
    for number, line in enumerate(text.decode("ascii", "replace").split("\n"), 1):
        words = line.split()
        if named := NAMED.fullmatch(line):
            (found.names.key_names if named[1] == "key" else found.names.value_names)[named[2]] = named[3]
        if words[:1] == ["issue"]:
            processor = int(words[1])
            index = counts.get(processor, 0)
            counts[processor] = index + 1
            found.lines.append(number)
            asked = found.names.shown_operation(" ".join(words[2:]))
            made = Operation(processor, index, asked, len(found.lines), int(words[3]), lane=f"processor {processor}")
            by_name[processor, index] = made
            found.operations.append(made)
        elif words[:1] == ["answer"]:
            found.lines.append(number)
            told = by_name[int(words[1]), int(words[2])]
            told.reply, told.answered = found.names.shown(words[3]), len(found.lines)
    return found


def judge_trace(text: bytes, name: str) -> Trace:
    """The trace of a text, with what `torusmem linearize` says of it."""
    order, reasons = "", []  # type: str, List[str]
    with command.temporary_file(text) as path:
        try:
            order, said = command.torusmem("linearize", path), "linearizable"
        except command.Refusal as why:
            said = str(why)
        is_judged = order != "" or bool(re.match("(not linearizable|undecided) (at|by) line [0-9]+", said))
        if said.startswith("not linearizable"):
            reasons = command.explain_answer(path)
        elif not is_judged:
            reasons = command.explain_refusal(path, "linearize")
    if not is_judged:
        raise command.name_refusal(command.Refusal(said), name, reasons)
    found = parse_trace(text)
    found.verdict = said
    places = {tuple(it.split()[1:3]): at for at, it in enumerate(order.split("\n"), 1)}
    for it in found.operations:
        it.place = places.get((str(it.processor), str(it.index)))
    bad = re.match("not linearizable (?:at|by) line ([0-9]+)", said)
    found.bad = found.lines.index(int(bad[1])) + 1 if bad else None
    if reasons:
        found.why = f"line {reasons[0]}"
        found.pending = tuple(found.lines.index(int(it.split(":")[0])) + 1 for it in reasons[1:])
    return found


@dataclass
class Window:
    """The events that are drawn, from `first` to `last`, and the operations that are out meanwhile."""

    first: int
    last: int
    operations: List[Operation]
    on: Optional[Paper] = None

    def __post_init__(self) -> None:
        # (the room of the lanes' names)
        self.left: float = max(LEFT, 24 + 7.5 * max((len(it.lane) for it in self.operations), default=0))
        if self.on:
            self.left = 2 * paper.MARGIN + max((width_of(it.lane, FONT) for it in self.operations), default=0)

    def at(self, event: int) -> float:
        """The place of an event; that of the border where it lies outside."""
        span = self.last - self.first + 2
        step = (self.on.room() - paper.MARGIN - self.left) / span if self.on else max(STEP, (LEAST_WIDTH - self.left - RIGHT) / span)
        return self.left + step * (min(max(event, self.first - 1), self.last + 1) - self.first + 1)

    def width(self) -> float:
        """The width of the picture."""
        return self.on.room() if self.on else max(LEAST_WIDTH, self.at(self.last + 1) + RIGHT)


def window_of(trace: Trace, first: Optional[int], last: Optional[int]) -> Window:
    """The events that are asked for; around the one from which on there is no order, where none are."""
    count = max(1, len(trace.lines))
    if trace.bad and first is None and last is None:
        first, last = max(1, trace.bad - BEFORE), trace.bad + BEHIND
    begin = first or 1
    end = max(begin, min(last or count, count))
    out = [it for it in trace.operations if it.issued <= end and (it.answered is None or it.answered >= begin)]
    if len(out) > MOST:
        end = max(begin, out[MOST].issued - 1)
    return Window(begin, end, out[:MOST])


def pieces(window: Window, on: Paper) -> List[Window]:
    """The pieces of a window, so that each event has its room on the paper."""
    most = max(1, int((on.room() - paper.MARGIN - Window(1, 1, window.operations, on).left) / LEAST_EVENT) - 2)
    total = window.last - window.first + 1
    each = -(-total // -(-total // most))
    found = []
    for first in range(window.first, window.last + 1, each):
        inside = [it for it in window.operations if it.issued < first + each and (it.answered is None or it.answered >= first)]
        found.append(Window(first, first + each - 1, inside, on))
        found[-1].left = Window(1, 1, window.operations, on).left
    return found


def drawn_bar(it: Operation, window: Window, top: float, width: int) -> str:
    """An operation: a bar from its issue to its answer, dashed and open where it is never answered. Its border is red
    where that is wide."""
    start, end = window.at(it.issued), window.at(it.answered or window.last + 1)
    stroke = RED if width > 1 else palette.dark(palette.ink(it.address))
    dashed = None if it.answered else "4 3"
    parts = [svg_text.title(it.tooltip())]
    fill = palette.tint(palette.ink(it.address), 0.8)
    parts.append(
        svg_text.element(
            "rect", x=start, y=top, width=end - start, height=BAR, fill=fill, stroke=stroke, stroke_width=width,
            stroke_dasharray=dashed,
        )
    )
    place = f"{it.place}. " if it.place else ""
    for said in (f"{place}{it.asked}: {it.reply or '-'}", f"{place}{it.asked}", place + it.asked.split()[0], place.strip()):
        if said and len(said) * FONT * svg_text.MONO_WIDTH + 8 <= end - start:
            parts.append(svg_text.text(start + 4, top + 14, said, FONT, font_family=svg_text.MONO))
            break
    if width == FAULT_WIDTH and parts[-1].find(f">{escape(it.asked)}: ") < 0:
        said = f"{it.asked}: {it.reply or '-'}"
        x = max(12.0, end - len(said) * FONT * svg_text.MONO_WIDTH - 4)
        parts.append(svg_text.text(x, top + BAR + 14, said, FONT, font_family=svg_text.MONO, fill=RED))
    return svg_text.group(parts)


def bad_rows(trace: Trace, own: List[Operation], rows: List[int]) -> List[int]:
    """The rows of the operation at fault."""
    return [row for it, row in zip(own, rows) if trace.bad is not None and trace.bad in (it.issued, it.answered)]


def drawn_lanes(trace: Trace, window: Window, top: float) -> Tuple[List[str], float]:
    """The lanes of a window, and where they end."""
    grounds, bars, low = [], [], top  # type: List[str], List[str], float
    for number, processor in enumerate(sorted({it.processor for it in window.operations})):
        own = [it for it in window.operations if it.processor == processor]
        rows = report.rows_of(own)  # type: ignore[arg-type]
        has_bad = any(trace.bad is not None and trace.bad in (it.issued, it.answered) for it in own)
        # (room for the text of the operation at fault, which stands below its bar)
        rows = [row + (has_bad and any(row > bad for bad in bad_rows(trace, own, rows))) for row in rows]
        height = ROW * (1 + has_bad + max(rows)) + GAP
        grounds.append(svg_text.element("rect", x=0, y=low, width=window.width(), height=height, fill=palette.GROUND))
        grounds.append(svg_text.text(paper.MARGIN, low + height / 2 + 4, own[0].lane, FONT) if window.on else
                       svg_text.text(12, low + height / 2 + 4, own[0].lane))
        for it, row in zip(own, rows):
            is_bad = trace.bad is not None and trace.bad in (it.issued, it.answered)
            bars.append(drawn_bar(it, window, low + GAP + ROW * row, FAULT_WIDTH if is_bad else 2 if it.issued in trace.pending else 1))
        low += height + 2
    lines, numbers = axis(trace, window, top, low)
    return [*grounds, *lines, *bars, *numbers], low


def axis(trace: Trace, window: Window, top: float, low: float) -> Tuple[List[str], List[str]]:
    """The lines of the events, and their numbers or times. No number stands so near to another that they touch."""
    lines, numbers, right = [], [], 0.0  # type: List[str], List[str], float
    is_shown = trace.bad is not None and window.first <= trace.bad <= window.last
    bad = window.at(trace.bad) if trace.bad is not None and is_shown else None
    for event in range(window.first, min(window.last, len(trace.lines)) + 1):
        if (event - window.first) % 5 == 0 or event == trace.bad:
            x, colour = window.at(event), RED if event == trace.bad else palette.GRID
            said = trace.times.get(event, str(event))
            half = width_of(said, FONT) / 2 + 2
            lines.insert(0, svg_text.element("path", d=svg_text.path([(x, top - 4), (x, low)]), stroke=colour))
            is_free = x - half >= right and (bad is None or abs(x - bad) >= 2 * half)
            if event == trace.bad or is_free and x + half <= window.width():
                numbers.append(svg_text.text(x, top - 8, said, FONT, text_anchor="middle"))
                right = x + half
    return lines, numbers


def draw_trace(trace: Trace, window: Window, on: Optional[Paper] = None, tool: str = "") -> str:
    """The whole picture; on paper time is broken into pieces."""
    events = f"events {window.first} to {window.last} of {len(trace.lines)}"
    head = f"a trace, {trace.verdict}: {events}"
    how = "a bar: from issue to answer, with the operation and its reply; dashed: no answer; colours are words"
    parts = [svg_text.text(12, 24, head, 14, font_weight="bold"), svg_text.text(12, 44, how)]
    if not on:
        if trace.why:
            parts.append(svg_text.text(12, 64, trace.why, fill=RED))
        lanes, low = drawn_lanes(trace, window, 96.0 if trace.why else 76.0)
        return svg_text.svg(window.width(), low + 12, [*parts, *lanes])
    parts = []
    low = paper.say(parts, paper.MARGIN, 16, head, on.inside(), font_weight="bold")
    for said in filter(None, (how, trace.why)):
        low = paper.say(parts, paper.MARGIN, low, said, on.inside(), fill=RED if said == trace.why else svg_text.INK)
    low -= 16
    for piece in pieces(window, on):
        lanes, low = drawn_lanes(trace, piece, low + 26)
        parts += lanes
    return on.svg(tool, on.room(), low + 8, parts)
