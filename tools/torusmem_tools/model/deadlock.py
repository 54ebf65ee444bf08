"""A jam of a network with a cycle: channels that are filled one after the other, so that each waits for another of
them; and the run of moves that leads to it. Nothing here is proved."""
from __future__ import annotations

from typing import Dict, List, NamedTuple, Set, Tuple

from torusmem_tools.command import Refusal
from torusmem_tools.model.network import Network
from torusmem_tools.model.wormhole import Move, line_of

# A packet's injection and ejection channel, and the steps of its route that are filled: from one on to before another.
Arc = Tuple[int, int, int, int]


class Fill(NamedTuple):
    """A channel that is filled: that of this step of the route between these ends."""

    start: int
    end: int
    step: int


def route(net: Network, i: int, j: int) -> List[int]:
    """The route from channel i to channel j; there is one."""
    found = [i]
    while found[-1] != j:
        found.append(net.choices[found[-1], j][0])
    return found


def ways_of(net: Network, around: List[int]) -> List[Tuple[int, int, int]]:
    """For each channel of a cycle the step, and the ends, of the route that comes to it soonest and waits for the next."""
    after = dict(zip(around, around[1:] + around[:1]))
    answers = {x for x, y in after.items() if (x, y) in net.replies}
    soonest: Dict[int, Tuple[int, int, int]] = {}
    for i, j in net.joins:
        x, step = i, 0
        while True:
            y = None if x == j else net.choices[x, j][0]
            if x in answers if y is None else after.get(x) == y:
                soonest[x] = min(soonest.get(x, (step, i, j)), (step, i, j))
            if y is None:
                break
            x, step = y, step + 1
    return [soonest[x] for x in around]


def jam_of(net: Network, around: List[int]) -> List[Fill]:
    """The channels of a jam, the first to be filled first, from the channels of a cycle. Packets pass none of them
    before they come to their own: where they would, their arc begins there, and those between are dropped."""
    arcs: List[Arc] = [(i, j, step, step + 1) for step, i, j in ways_of(net, around)]
    routes = {(i, j): route(net, i, j) for i, j, _, _ in arcs}
    while True:
        owner = {routes[i, j][k]: (q, k) for q, (i, j, start, end) in enumerate(arcs) for k in range(start, end)}
        for q, (i, j, start, end) in enumerate(arcs):
            met = [k for k in range(start) if routes[i, j][k] in owner]
            if met:
                break
        else:
            return [Fill(i, j, k) for i, j, start, end in arcs for k in reversed(range(start, end))]
        other, step = owner[routes[i, j][met[-1]]]
        kept = (arcs[q + 1:] + arcs[:q])[: (other - q - 1) % len(arcs)]
        oi, oj, ostart, _ = arcs[other]
        arcs = [(i, j, met[-1], end), *kept, *([(oi, oj, ostart, step)] if step > ostart else [])]


class Held(NamedTuple):
    """A channel that is full in the end, the ends of its packets, and the channel that they wait for."""

    channel: int
    start: int
    end: int
    awaited: int


def held_by(net: Network, fills: List[Fill]) -> List[Held]:
    """The channels of a jam, each with what it waits for. Refused if it is none: if a channel is filled twice, is
    reached through a filled one, or waits for none."""
    joins, ways = set(net.joins), []
    for it in fills:
        if (it.start, it.end) not in joins:
            raise Refusal(f"`fill {it.start} {it.end} {it.step}`: no packets go between these channels")
        ways.append(route(net, it.start, it.end))
        if it.step >= len(ways[-1]):
            raise Refusal(f"`fill {it.start} {it.end} {it.step}`: the route has {len(ways[-1])} channels")
    full: Set[int] = set()
    for it, way in zip(fills, ways):
        met = [x for x in way[: it.step + 1] if x in full]
        if met:
            raise Refusal(f"`fill {it.start} {it.end} {it.step}`: channel {met[0]} is full by then")
        full.add(way[it.step])
    found = []
    for it, way in zip(fills, ways):
        after = way[it.step + 1:][:1] or [b for a, b in net.replies if a == it.end and b in full]
        if not after or after[0] not in full:
            raise Refusal(f"`fill {it.start} {it.end} {it.step}`: its packets wait for no channel that is full")
        found.append(Held(way[it.step], it.start, it.end, after[0]))
    return found


def filling(net: Network, fill: Fill, depth: int) -> List[Move]:
    """The moves that fill a channel of a jam with packets of one flit: what it holds and one more in the latch behind it, but
    behind an ejection channel there is none."""
    *before, last = route(net, fill.start, fill.end)[: fill.step + 1]
    latched: List[Move] = [] if net.kinds[last] == "eject" else [("take", last), ("credit", last)]
    moves: List[Move] = []
    for n in range(depth + bool(latched)):
        moves.append(("send", fill.start, fill.end, 1))
        moves += [(word, x) for x in before for word in ("take", "credit", "put")]
        moves += latched if n == 0 else []
    return moves


def run_of(net: Network, fills: List[Fill], depth: int) -> List[str]:
    """The run that fills all channels of a jam."""
    lines: List[str] = []
    for it in fills:
        last, moves = route(net, it.start, it.end)[it.step], filling(net, it, depth)
        room = sum(move[0] == "send" for move in moves)
        lines.append(f"# channel {last}{label_of(net, last)} holds {room} packet{'s' * (room > 1)} from {it.start} to {it.end}")
        lines += map(line_of, moves)
    return lines


def label_of(net: Network, x: int) -> str:
    """What the text says of a channel beside its number: its name, or the routers that it goes between."""
    if x in net.names:
        return f" ({net.names[x]})"
    link = net.links.get(x)
    if link is None or not {link.start, link.end} <= set(net.routers):
        return ""
    start, end = net.routers[link.start].name, net.routers[link.end].name
    return f" ({'into' if net.kinds[x] == 'inject' else 'out of'} {start})" if net.kinds[x] != "hop" else f" ({start} to {end})"
