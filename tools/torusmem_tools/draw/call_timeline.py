"""Draws why the calls of a table or of a log have no order: the operations on the key at fault, by the times of that text. It is
what `tools/timeline` does with such a text.
"""
from __future__ import annotations

from typing import Dict, List, Tuple

from torusmem_tools import command
from torusmem_tools.draw import palette, paper, svg_text, trace_timeline
from torusmem_tools.draw.paper import Paper
from torusmem_tools.model import refusal_story, trace_verdict
from torusmem_tools.model.refusal_story import Operation, Story
from torusmem_tools.progress import Progress
from torusmem_tools.texts import call_table, report

LEFT, RIGHT, LEAST_WIDTH, STEP, GAP = 116, 24, 900, 14, 8
BAR, LABEL, FONT, SMALL = 20, 14, 11, 10
FAULT, WRITER, OVER, OTHER = palette.VERMILLION, palette.GREEN, palette.BLUE, palette.GREY
# How many operations are drawn beside those of the story.
BESIDE = 8


def roles_of(found: Story, shown: str) -> Dict[int, Tuple[str, str]]:
    """Of each operation of the story its colour and what it did."""
    roles = {it.at: (OVER, "open then") for it in found.operations if it.issued < found.failed.answered < it.answered}
    over = f"wrote over {shown}"
    for it, colour, did in (
        (found.witness, OVER, f"found that {shown} is gone"),
        (found.over, OVER, over),
        (found.twin, OVER, f"found {shown} too, and {over}"),
        (found.last_writer(), WRITER, f"wrote {shown}"),
        (found.failed, FAULT, f"found {shown}" if not found.twin else f"found {shown}, and {over}"),
    ):
        if it:
            roles[it.at] = (colour, did)
    return roles


def chosen(found: Story, roles: Dict[int, Tuple[str, str]]) -> List[Operation]:
    """The operations that are drawn: those of the story, and the latest others on the key."""
    others = [it for it in found.operations if it.at not in roles and it.issued < found.failed.answered]
    names = {*roles, *(it.at for it in others[-BESIDE:])}
    return [it for it in found.operations if it.at in names]


def places(mine: List[Operation], wide: Dict[int, float], end: int, left: float) -> Tuple[Dict[int, float], float]:
    """Where each event lies, from left to right, so that each bar is as wide as it must be; and where the picture ends."""
    events = sorted([(it.issued, it, False) for it in mine] + [(it.answered, it, True) for it in mine if it.answered <= end], key=lambda it: it[0])
    found, x = {}, left  # type: Dict[int, float], float
    for place, it, is_answer in events:
        x = max(x + STEP, found[it.issued] + wide[it.at]) if is_answer else x + STEP
        found[place] = x
    for it in mine:
        if it.answered > end:
            x = max(x, found[it.issued] + wide[it.at])
    return found, x + STEP


def wide_of(said: str, size: int) -> float:
    """The room of a text in a bar."""
    return len(said) * size * svg_text.MONO_WIDTH + 10


def bar(x: float, end: float, top: float, said: str, colour: str, did: str, is_over: bool, tip: str) -> str:
    """An operation, with what it did below it."""
    parts = [svg_text.title(tip)]
    parts.append(svg_text.element("rect", x=x, y=top, width=end - x, height=BAR, fill="#ffffff", stroke=colour,
                                 stroke_width=3 if colour == FAULT else 2 if did else 1, stroke_dasharray=None if is_over else "4 3"))
    parts.append(svg_text.text(x + 5, top + 14, said, FONT, font_family=svg_text.MONO))
    if did:
        parts.append(svg_text.text(x + 1, top + BAR + 11, did, SMALL, fill=colour, font_family=svg_text.MONO))
    return svg_text.group(parts)


class StoryPicture:
    """What a picture of a no says: its heads, and the operations, each with its role, its words and what it did."""

    def __init__(self, why: trace_verdict.NoOrder) -> None:
        self.found, self.calls = refusal_story.story_of(why.calls, why.trace, why.event), why.calls
        found, calls, names = self.found, self.calls, why.calls.names
        teller = refusal_story.StoryTeller(calls, why.trace)
        self.roles = roles_of(found, names.shown(str(found.value)))
        if why.is_failed_cas:
            self.roles = {at: it for at, it in self.roles.items() if it[0] != OVER or it[1] == "open then"}
            self.roles[found.failed.at] = (FAULT, f"failed, so the word was not {names.shown(str(found.failed.values[0]))}")
        self.mine = chosen(found, self.roles)
        self.said: Dict[int, str] = {}
        self.did: Dict[int, str] = {}
        self.tips: Dict[int, str] = {}
        for it in self.mine:
            reply = "fail" if it.at in calls.failed else names.shown(calls.replies[it.at]) or "-"
            self.said[it.at] = f"{names.shown_operation(calls.asked[it.at])}: {reply}"
            begin, end = calls.times(it.at)
            self.did[it.at] = f"{self.roles[it.at][1]}, {begin} to {end or '-'}" if it.at in self.roles else ""
            self.tips[it.at] = f"line {calls.issues[it.at]}: {teller.operation(it)}"
        can = refusal_story.possible(calls, why.reasons)
        key = names.shown_key(calls.asked[found.failed.at].split(" ")[1])
        others = sum(it.issued < found.failed.answered for it in found.operations) - len(self.mine)
        how = f"key {key} alone" + (f", {others} operations on it aren't drawn" if others > 0 else "")
        self.heads = [command.printable(str(why)), f"it {self.roles[found.failed.at][1]}" + (f", but the word could only be {can}" if can else "")]
        self.heads.append(f"{how}; a bar: from issue to answer; dashed: no answer by then; time is not to scale")

    def ink(self, it: Operation) -> str:
        """The ink of an operation."""
        return self.roles[it.at][0] if it.at in self.roles else OTHER


def draw_story(told: StoryPicture) -> str:
    """The picture of a no."""
    mine, calls = told.mine, told.calls
    wide = {it.at: max(wide_of(told.said[it.at], FONT), wide_of(told.did[it.at], SMALL)) for it in mine}
    left = max(LEFT, 24 + max(len(calls.who) + 1 + len(calls.processors[it.at]) for it in mine) * 7.5)
    at, right = places(mine, wide, told.found.failed.answered, left)
    right = max(right, LEAST_WIDTH - RIGHT)
    parts = [svg_text.text(12, 24, told.heads[0], 14, font_weight="bold")]
    parts += [svg_text.text(12, 44, told.heads[1], fill=FAULT), svg_text.text(12, 64, told.heads[2])]
    low, bars = 84.0, []
    for number, processor in enumerate(dict.fromkeys(calls.processors[it.at] for it in mine)):
        own = [it for it in mine if calls.processors[it.at] == processor]
        rows = report.rows_of(own)  # type: ignore[arg-type]
        height = (BAR + LABEL + 2) * (1 + max(rows)) + GAP
        parts.append(svg_text.element("rect", x=0, y=low, width=right + RIGHT, height=height, fill=palette.GROUND if number % 2 == 0 else "#ffffff"))
        parts.append(svg_text.text(12, low + GAP + 14, f"{calls.who} {processor}"))
        for it, row in zip(own, rows):
            end, top = at.get(it.answered, right), low + GAP + (BAR + LABEL + 2) * row
            bars.append(bar(at[it.issued], end, top, told.said[it.at], told.ink(it), told.did[it.at], it.answered in at, told.tips[it.at]))
        low += height
    return svg_text.svg(right + RIGHT, low + 12, [*parts, *bars])


def on_paper(told: StoryPicture, on: Paper, tool: str) -> str:
    """The picture of a no on paper: a row for each operation, with its words above its bar, and what it did below."""
    parts: List[str] = []
    low = paper.say(parts, paper.MARGIN, 16, told.heads[0], on.inside(), font_weight="bold")
    low = paper.say(parts, paper.MARGIN, low, told.heads[1], on.inside(), fill=palette.dark(FAULT))
    low = paper.say(parts, paper.MARGIN, low, told.heads[2], on.inside()) - 8
    mine = sorted(told.mine, key=lambda it: it.issued)
    shown = [it.answered for it in mine if it.answered <= told.found.failed.answered]
    events = {event: number for number, event in enumerate(sorted([*(it.issued for it in mine), *shown]))}
    step = on.inside() / (len(events) + 1)
    for number, it in enumerate(mine):
        ink, begin = told.ink(it), paper.MARGIN + step * events[it.issued]
        end = paper.MARGIN + step * events.get(it.answered, len(events) + 1)
        row = [svg_text.title(told.tips[it.at])]
        said = f"{told.calls.who} {told.calls.processors[it.at]}: {told.said[it.at]}"
        bold = "bold" if it.at in told.roles else None
        top = paper.say(row, paper.MARGIN, low + 17, said, on.inside(), font_weight=bold) - 8
        row.append(svg_text.element("rect", x=begin, y=top, width=end - begin, height=8, fill=palette.tint(ink, 0.5), stroke=ink,
                                   stroke_width=3 if ink == FAULT else 1.5, stroke_dasharray=None if it.answered in events else "4 3"))
        end = paper.say(row, paper.MARGIN, top + 22, told.did[it.at], on.inside(), fill=palette.dark(ink)) if told.did[it.at] else top + 22
        shade = palette.GROUND if number % 2 == 0 else "#ffffff"
        parts += [svg_text.element("rect", x=0, y=low, width=on.room(), height=end - 8 - low, fill=shade), svg_text.group(row)]
        low = end - 8
    return on.svg(tool, on.room(), low + 8, parts)


def picture(text: bytes, path: str, first: int | None, last: int | None, tool: str, on: Paper | None, is_hex: bool) -> str:
    """The picture of a table or of a log: of the key at fault, or of its whole trace."""
    told = Progress(tool)
    calls = call_table.read_calls(text, path, False, told, is_hex)
    opening = calls.opening({}, None)
    judge = trace_verdict.Judge(calls, max([calls.greatest_address(), *opening]) + 1, opening, [], told)
    try:
        trace_verdict.verdict(judge, True)
    except trace_verdict.NoOrder as why:
        if first is None and last is None and not why.is_undecided:
            return on_paper(StoryPicture(why), on, tool) if on else draw_story(StoryPicture(why))
    finally:
        told.clear()
        for it in filter(None, (calls.left_out(is_placed=True), *calls.names.left())):
            command.say(tool, it)
    trace = judge.trace({})
    read = trace_timeline.judge_trace(trace.text().encode("ascii"), path)
    read.times = {number: calls.times(it if it >= 0 else ~it)[it < 0] for number, it in enumerate(trace.events, 1)}
    for one, at in zip(read.operations, (at for at in trace.events if at >= 0)):
        one.lane = command.printable(f"{calls.who} {calls.processors[at]}")
    return trace_timeline.draw_trace(read, trace_timeline.window_of(read, first, last), on, tool)
