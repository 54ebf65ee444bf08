"""The legend of a network's picture: what its signs mean, and who holds what and waits for what."""
from __future__ import annotations

import textwrap
from typing import List, Optional, Set, Tuple

from torusmem_tools.draw import svg_text
from torusmem_tools.draw.channel_marks import marks_of, name_of
from torusmem_tools.draw.diagram import Diagram
from torusmem_tools.draw.router_ends import Plan
from torusmem_tools.draw.shapes import Box
from torusmem_tools.draw.strokes import FULL, INK, LETTERS, THICK, THIN, VIRTUAL, answer, arrow, router, width_of
from torusmem_tools.model.adaptive_walk import AdaptiveVerdict
from torusmem_tools.model.network import Network
from torusmem_tools.model.network_verdict import Verdict

ROW = 10.0


class Legend:
    """Rows of a legend, each with a sign or none, and a table."""

    def __init__(self, width: float) -> None:
        self.width, self.y = width, 0.0
        self.made: List[str] = []

    def say(self, said: str, sign: Optional[List[str]] = None, bold: bool = False, signed: bool = True) -> None:
        """A paragraph, behind a sign."""
        left = 26.0 if signed else 0.0
        if sign:
            self.made.append(svg_text.group(sign, transform=f"translate(0,{svg_text.short(self.y)})"))
        for line in textwrap.wrap(said, max(12, int((self.width - left) / (0.56 * LETTERS)))):
            self.made.append(svg_text.text(left, self.y + 7.5, line, LETTERS, fill=INK, font_weight="bold" if bold else None))
            self.y += ROW - 1
        self.y += 1.5

    def table(self, rows: List[Tuple[str, ...]]) -> None:
        """Rows of words in columns, the first of them the heads."""
        widths = [max(width_of(row[k]) * (1.1 if row is rows[0] else 1) for row in rows) + 6 for k in range(len(rows[0]))]
        for n, row in enumerate(rows):
            x = 0.0
            for said, wide in zip(row, widths):
                self.made.append(svg_text.text(x, self.y + 7.5, said, LETTERS, fill=INK, font_weight="bold" if n == 0 else None))
                x += wide
            self.y += ROW
            if n == 0:
                self.made.append(svg_text.element("path", d=svg_text.path([(0, self.y), (sum(widths) - 6, self.y)]), stroke=INK, stroke_width=0.5, fill="none"))
                self.y += 1.5
        self.width = max(self.width, sum(widths) - 6)
        self.y += 3


def sign_of(ink: str, thick: float, is_dotted: bool = False) -> List[str]:
    """An arrow as a sign in the legend."""
    return arrow([(0, 5), (20, 5)], ink, thick, [], is_dotted)


def head_of(net: Network, plan: Plan, verdict: Verdict) -> str:
    """The first line of a legend."""
    if verdict.kind == "rising":
        return "Rising: the network is free of deadlock"
    if verdict.chosen and verdict.chosen.fills:
        return "The network deadlocks, with packets of one flit"
    if verdict.kind == "cycle":
        return f"Cycle: the network {'may deadlock' if verdict.chosen else 'deadlocks'}"
    what, numbers = " ".join(verdict.kind.split()[:2]), verdict.kind.partition(":")[0].split()[2:]
    if what in ("no escape", "no choice"):
        return f"{what.capitalize()} behind channel {numbers[0]} for packets to channel {': '.join(numbers[1:])}"
    return "No pair: packets go from no channel to another" if what == "no pair" else "No route from channel {0} to channel {1}".format(*numbers)


def turned(net: Network, plan: Plan, found: AdaptiveVerdict) -> List[Tuple[str, ...]]:
    """The rows of a table on a cycle of dependencies."""
    rows: List[Tuple[str, ...]] = [("channel", "between", "packets to", "go on over", "and wait for")]
    for x, edge, y in found.turns:
        to = "answers" if edge.to is None else f"{edge.to} ({name_of(net, plan, edge.to)})"
        rows.append((str(x), name_of(net, plan, x), to, " ".join(map(str, edge.over)), str(y)))
    return rows if any(it[3] for it in rows[1:]) else [it[:3] + it[4:] for it in rows]


def filled(net: Network, plan: Plan, found: AdaptiveVerdict) -> List[Tuple[str, ...]]:
    """The rows of a table on channels that fill up, the first of them first."""
    rows: List[Tuple[str, ...]] = [("channel", "between", "full of packets to", "that come over")]
    for it in found.fills:
        way = " ".join(map(str, it.way)) or "no other"
        rows.append((str(it.at), name_of(net, plan, it.at), f"{it.to} ({name_of(net, plan, it.to)})", way))
    return rows


def say_cycle(found: Legend, net: Network, plan: Plan, verdict: Verdict) -> None:
    """Who holds what and waits for what, where there is a cycle."""
    if verdict.chosen and verdict.chosen.fills:
        found.table(filled(net, plan, verdict.chosen))
        found.say("full channel, with its number", sign_of(FULL, THICK))
    elif verdict.chosen and verdict.chosen.turns:
        found.table(turned(net, plan, verdict.chosen))
        found.say("channel of the cycle, with its number", sign_of(FULL, THICK))
    if verdict.held:
        ends = {x: f"{x} ({name_of(net, plan, x)})" for it in verdict.held for x in (it.start, it.end)}
        rows: List[Tuple[str, ...]] = [("channel", "between", "full of packets", "waiting for")]
        rows += [(str(it.channel), name_of(net, plan, it.channel), f"{ends[it.start]} to {ends[it.end]}", str(it.awaited)) for it in verdict.held]
        found.table(rows)
        found.say("full channel, with its number", sign_of(FULL, THICK))


def say_hops(found: Legend, net: Network, plan: Plan, verdict: Verdict, made: Diagram, loose: Set[int]) -> None:
    """The virtual channels, each in its colour, and dotted where none of them is an escape."""
    virtual = sorted({plan.virtual[it.channel] for it in made.hops})
    along = "from each escape to those that its packets may wait for" if verdict.chosen else "along every route"
    number = f", with its number: they rise {along}" + (" and over every answer" if net.replies else "") if verdict.kind == "rising" else ""
    for n, ink in enumerate(VIRTUAL):
        alike = [str(k) for k in virtual if k % len(VIRTUAL) == n]
        said = "channel" if len(virtual) == 1 else f"virtual channel{'s' * (len(alike) > 1)} {', '.join(alike)}"
        if alike:
            dotted = {it.channel in loose for it in made.hops if plan.virtual[it.channel] % len(VIRTUAL) == n}
            own = number if False in dotted else ""
            found.say(said + (", no escape" if dotted == {True} else "") + own, sign_of(ink, THIN, dotted == {True}))
            number = number if not own else ""


def legend(net: Network, plan: Plan, verdict: Verdict, made: Diagram, width: float) -> Legend:
    """What the signs of a picture mean, and who holds what and waits for what."""
    found = Legend(width)
    found.say(head_of(net, plan, verdict), bold=True, signed=False)
    say_cycle(found, net, plan, verdict)
    by_name = "" if plan.found == len(plan.names) else "router, with its name"
    by_number = "" if not plan.found else "router, found where channels meet; its number is the picture's own"
    found.say("; ".join(filter(None, (by_name, by_number))), [router(Box(10, 5, 7, 4))])
    loose = marks_of(net, plan, verdict).loose if verdict.chosen else set()
    say_hops(found, net, plan, verdict, made, loose)
    if made.ends:
        sign = [it for x in (0, 13) for it in arrow([(x, 5), (x + 8, 5)], VIRTUAL[0], THIN, [])]
        found.say("from a sender; to a receiver", [*sign, router(Box(10.5, 5, 2.5, 4))])
    if made.replies:
        found.say("the receiver's answers go out there", answer([(0, 5), (20, 5)], VIRTUAL[0], False))
    if any(it.channel in loose for it in made.hops):
        found.say("A channel that is no escape is dotted.", signed=False)
    if made.rounds:
        found.say("A link at the border goes on at the router that is named beside it.", signed=False)
    found.say(f"Verdict {verdict.by}.", signed=False)
    notes = [f"{plan.idle} channel{'s' * (plan.idle > 1)} that no packets pass" if plan.idle else "",
             f"{made.missing} number{'s' * (made.missing > 1)} for want of room" if made.missing else ""]
    if any(notes):
        found.say(f"Left out: {' and '.join(filter(None, notes))}.", signed=False)
    return found
