"""Lays out the diagram of a network at the scale at which nothing lies on anything else, and in the room of a paper."""
from __future__ import annotations

import math
from typing import Optional

from torusmem_tools.draw.diagram import Diagram, Marks
from torusmem_tools.draw.router_ends import Plan, pairs_of, place
from torusmem_tools.draw.strokes import LANE, width_of

MOST_TRIES = 6
# How long a link between neighbours is at least.
APART = 26.0
# How much narrower a diagram may be made where there is little room.
NARROWER = (0.96, 0.92, 0.88, 0.84, 0.8, 0.75, 0.7, 0.65)


def diagram(plan: Plan, marks: Marks, room: float = math.inf, apart: float = APART) -> Diagram:
    """The diagram of a network, as small as its numbers allow, its routers at least so far apart."""
    lanes = max((len(it) for it in pairs_of(plan).values()), default=1)
    most = max((width_of(it) for it in marks.numbers.values()), default=0)
    lane = max(LANE, most / 2 + (1.2 if plan.is_placed() else 4)) if marks.all_numbered() else LANE
    across = (lanes - 1) / 2 * lane + (11.5 if plan.is_placed() else 6)
    half = max(across, max(width_of(it) for it in plan.names) / 2 + 4), across
    pitch = 2 * max(half) + apart + most
    places = place(plan, marks.replies, (2 * half[0], 2 * half[1]), pitch)
    found: Optional[Diagram] = None
    for k in range(MOST_TRIES):
        tried = Diagram(plan, marks, [(x * 1.18**k, y * 1.18**k) for x, y in places], half, lane)
        if found is None or tried.missing + tried.crowded < found.missing + found.crowded:
            found = tried
        if not found.missing and (k > 1 or not found.crowded):
            break
    assert found is not None
    return narrowed(found, room)


def narrowed(found: Diagram, room: float) -> Diagram:
    """A diagram with its routers nearer to each other from left to right, as long as it is wider than there is room and
    nothing is left out for it; from top to bottom too where its channels have inks in place of numbers."""
    faults, best, is_inked = found.missing + found.crowded, found, bool(found.marks.inks) and not found.marks.numbers
    for part in NARROWER:
        least, _, most, _ = best.extent()
        if most - least <= room:
            break
        tried = Diagram(found.plan, found.marks, [(it.x * part, it.y * (part if is_inked else 1)) for it in found.boxes], found.half, found.lane)
        if tried.missing + tried.crowded > faults:
            break
        best = tried
    return best
