"""A network's verdict: found by the walk, or read from what `torusmem network` printed; and as sentences."""
from __future__ import annotations

from dataclasses import dataclass, field
from typing import Dict, List, Optional

from torusmem_tools.command import Refusal
from torusmem_tools.model.adaptive_verdict import found_in, walked_verdict
from torusmem_tools.model.adaptive_walk import AdaptiveVerdict
from torusmem_tools.model.deadlock import Fill, Held, held_by, jam_of, label_of
from torusmem_tools.model.network import Network, channel_dependencies, cycle, number_of, numbers
from torusmem_tools.model.network_totals import length_line, totals_line

WALKED = "by tools/network, a plain walk that is not proved"
PROGRAM = "by torusmem network"


@dataclass
class Verdict:
    """A verdict: `rising` with numbers, `cycle` with the channels of a jam, `no route I J` or `no pair`; and whose it is."""

    kind: str
    by: str
    numbers: List[int] = field(default_factory=list)
    fills: List[Fill] = field(default_factory=list)
    held: List[Held] = field(default_factory=list)
    chosen: Optional[AdaptiveVerdict] = None


def verdict_of(net: Network) -> Verdict:
    """The verdict of the plain walk."""
    if net.is_adaptive():
        found = walked_verdict(net)
        return Verdict(found.kind, WALKED, chosen=found)
    kind, edges = channel_dependencies(net)
    fills = jam_of(net, cycle(edges)) if kind == "cycle" else []
    return Verdict(kind, WALKED, numbers(net, edges) or [] if kind == "rising" else [], fills, held_by(net, fills))


def verdict_read(net: Network, text: str, path: str) -> Verdict:
    """The verdict that a text of `torusmem network` has. Refused where it is no verdict of this network, as far as
    the plain walk can see."""
    if net.is_adaptive():
        read = found_in(net, text, path)
        return Verdict(read.kind, PROGRAM, chosen=read)
    kind, edges = channel_dependencies(net)
    found: Dict[int, int] = {}
    around: List[int] = []
    fills: List[Fill] = []
    said = ""
    for number, line in enumerate(text.splitlines(), 1):
        word, *others = line.split() or [""]
        values = [number_of(it) for it in others]
        if word == "number" and len(values) == 2 and 0 <= values[0] < len(net.kinds) and values[1] >= 0:
            found[values[0]] = values[1]
        elif word == "fill" and len(values) == 3 and min(values) >= 0:
            fills.append(Fill(*values))
        elif line in ("rising", "cycle", "no pair") or line.startswith("no route "):
            said = line.partition(":")[0]
        elif number_of(word) >= 0 and others[:1] in (["to"], ["replies"]) and len(others) == 2:
            around.append(int(word))
        elif line.startswith("pairs ") and kind in ("rising", "cycle") and line == totals_line(net):
            continue
        elif line != "locks up" and (kind != "cycle" or not line or line != length_line(net)):
            raise Refusal(f"{path}, line {number}: no line of a verdict is written so")
    if said != kind:
        raise Refusal(f"{path}: the network's verdict is `{kind}`, and not `{said}`")
    if kind == "rising" and (len(found) != len(net.kinds) or any(found[x] >= found[y] for x, y in edges)):
        raise Refusal(f"{path}: its numbers don't rise in this network")
    if kind == "cycle" and not fills:
        if not around or any(it not in edges for it in zip(around, around[1:] + around[:1])):
            raise Refusal(f"{path}: it has no cycle of this network")
        fills = jam_of(net, around)
    return Verdict(kind, PROGRAM, [found[x] for x in sorted(found)], fills, held_by(net, fills))


def explain(net: Network, verdict: Verdict) -> str:
    """The verdict's kind, and a sentence on each channel that is full in the end."""
    lines = [verdict.kind]
    for it in verdict.held:
        lines.append(f"channel {it.channel}{label_of(net, it.channel)} is full of packets from {it.start}{label_of(net, it.start)} to "
                     f"{it.end}{label_of(net, it.end)}, which wait for channel {it.awaited}{label_of(net, it.awaited)}")
    return "\n".join(lines) + "\n"
