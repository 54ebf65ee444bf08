"""What the runs of a sweep come to: means over the seeds with their intervals, rows of a load, and where a network is saturated."""
from __future__ import annotations

import math
from dataclasses import replace
from typing import Any, Dict, List, Optional, Tuple, Union

from torusmem_tools.model import offered_load, offered_packets
from torusmem_tools.model.cycles import unit

Point = Union[offered_load.Point, offered_packets.Point]
Row = Dict[str, Any]
# Student's t at 97.5 % for 1, 2, .. degrees of freedom.
STUDENT = (12.706, 4.303, 3.182, 2.776, 2.571, 2.447, 2.365, 2.306, 2.262, 2.228, 2.201, 2.179, 2.160, 2.145, 2.131,
           2.120, 2.110, 2.101, 2.093, 2.086, 2.080, 2.074, 2.069, 2.064, 2.060, 2.056, 2.052, 2.048, 2.045)
# A latency of so many times that without load is one of saturation, and loads this close are not told apart.
SATURATION, BISECTED = 3, 0.002
# Who makes the runs.
PROGRAM, TOOLS = "torusmem", "tools"


def result(point: Point) -> Any:
    """In a process of its own: what a run came to, or why it didn't."""
    return (offered_packets if isinstance(point, offered_packets.Point) else offered_load).result(point)


def mean_within(values: List[float]) -> Tuple[float, float]:
    """The mean, and the half width of its 95 % interval."""
    mean = sum(values) / len(values)
    variance = sum((it - mean) ** 2 for it in values) / (len(values) - 1)
    return mean, STUDENT[len(values) - 2] * math.sqrt(variance / len(values))


def zero_load(point: Point) -> Optional[float]:
    """The latency without load, where there is a formula for it."""
    return offered_packets.zero_load(point) if isinstance(point, offered_packets.Point) else offered_load.zero_load(point)


def maker(point: Point) -> str:
    """Who makes the run of a point: the program, or the tools' plain model of networks."""
    return TOOLS if isinstance(point, offered_packets.Point) and not offered_packets.is_by_program(point) else PROGRAM


def arbiter(point: Point) -> Optional[str]:
    """The arbiter of a network's routers."""
    return point.rules.arbiter if isinstance(point, offered_packets.Point) else None


def is_saturated(point: Point, found: offered_load.Found) -> bool:
    """Whether one run is: its latency is high, or not all that is measured is answered."""
    zero = zero_load(point)
    return not found.is_drained or zero is not None and found.latency > SATURATION * zero


def saturation(numbered: Tuple[int, Point]) -> Tuple[int, Union[float, str]]:
    """In a process of its own: the least load at which a run of this seed is saturated, by bisection between 0 and 1; or why it isn't
    found. A run in which nothing is measured counts as one below it."""
    number, point = numbered
    low, high = 0.0, 1.0
    while high - low > BISECTED:
        load = (low + high) / 2
        found = result(replace(point, load=load))
        if isinstance(found, str) and not found.startswith("no "):
            return number, found
        low, high = (low, load) if not isinstance(found, str) and is_saturated(point, found) else (load, high)
    return number, (low + high) / 2


def saturation_row(point: Point, found: List[float]) -> Row:
    """Where a network or shape is saturated by a pattern: a mean over the seeds, with its interval."""
    mean, within = mean_within(found)
    zero = zero_load(point)
    row: Row = {"shape": point.shape(), "traffic": point.traffic, "zero_load": zero and round(zero, 2)}
    row.update(saturation=round(mean, 4), saturation_within=round(within, 4), seeds=len(found), by=maker(point))
    return {**row, "unit": unit(point.cycle), "arbiter": arbiter(point)}


def row_of(point: Point, found: List[offered_load.Found]) -> Row:
    """What the runs of a load came to."""
    accepted, latency = mean_within([it.accepted for it in found]), mean_within([it.latency for it in found])
    drained, zero = sum(it.is_drained for it in found), zero_load(point)
    row: Row = {"shape": point.shape(), "traffic": point.traffic, "offered": point.load}
    row.update(accepted=round(accepted[0], 5), accepted_within=round(accepted[1], 5))
    row.update(latency=round(latency[0], 2), latency_within=round(latency[1], 2))
    row.update(p95=max(it.p95 for it in found), measured=sum(it.measured for it in found), drained=drained)
    is_high = zero is not None and latency[0] > SATURATION * zero
    row.update(seeds=len(found), zero_load=zero and round(zero, 2), saturated=is_high or drained < len(found))
    least, most = min(found, key=lambda it: it.least), max(it.most for it in found)
    row.update(least=round(least.least, 5), most=round(most, 5), longest=max(it.longest for it in found))
    lengths = lengths_said(point) if isinstance(point, offered_packets.Point) else None
    return {**row, "worst": least.worst, "by": maker(point), "length": lengths, "depth": point.depth, "unit": unit(point.cycle), "arbiter": arbiter(point)}


def lengths_said(point: offered_packets.Point) -> str:
    """The lengths of packets, as a picture names them."""
    return " or ".join(str(it) for it, _ in point.demand.lengths)
