"""A network with its verdict as a picture with a legend, in points, for the column of a paper."""
from __future__ import annotations

import math
from typing import Optional

from torusmem_tools.command import Refusal
from torusmem_tools.draw import svg_text
from torusmem_tools.draw.channel_marks import marks_of, name_of
from torusmem_tools.draw.diagram_fit import diagram
from torusmem_tools.draw.network_legend import legend
from torusmem_tools.draw.paper import Paper
from torusmem_tools.draw.router_ends import plan_of
from torusmem_tools.draw.strokes import LETTERS
from torusmem_tools.model.network import Network
from torusmem_tools.model.network_verdict import Verdict

# The widths of a paper's column, and of two.
COLUMN, PAGE = 252.0, 516.0
MARGIN = 6.0


def picture(net: Network, verdict: Verdict, on: Optional[Paper] = None, tool: str = "") -> str:
    """The diagram with its legend: beside it where both fit into a column or a page, or on the paper; else below."""
    plan = plan_of(net)
    if not plan.names:
        raise Refusal("there is nothing to draw: no packets go from one channel to another")
    made = diagram(plan, marks_of(net, plan, verdict), on.room(LETTERS) - 2 * MARGIN if on else math.inf)
    least_x, least_y, most_x, most_y = made.extent()
    wide, high = most_x - least_x, most_y - least_y
    narrow = legend(net, plan, verdict, made, 120)
    room = on.room(LETTERS) if on else COLUMN if wide + narrow.width <= COLUMN - 3 * MARGIN else PAGE
    beside = wide + narrow.width + 4 * MARGIN <= room and (on is not None or room == COLUMN or wide > COLUMN)
    found = narrow if beside else legend(net, plan, verdict, made, max(room - 2 * MARGIN, wide) if on else max(COLUMN - 2 * MARGIN, min(wide, PAGE)))
    x, y = (wide + 3 * MARGIN, 0.0) if beside else (0.0, high + 2 * MARGIN)
    titles = {it: f"channel {it}: {name_of(net, plan, it)}" for it in range(len(net.kinds))}
    for it in verdict.held:
        titles[it.channel] += f", full of packets from {it.start} to {it.end}, which wait for {it.awaited}"
    parts = [svg_text.group(made.parts(titles), transform=f"translate({svg_text.short(MARGIN - least_x)},{svg_text.short(MARGIN - least_y)})"),
             svg_text.group(found.made, transform=f"translate({svg_text.short(MARGIN + x)},{svg_text.short(MARGIN + y)})")]
    size = max(wide, x + found.width) + 2 * MARGIN, max(high, y + found.y) + 2 * MARGIN
    return on.svg(tool, *size, parts, letters=LETTERS) if on else svg_text.svg(*size, parts, unit="pt")
