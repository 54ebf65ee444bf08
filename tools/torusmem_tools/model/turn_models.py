"""Meshes whose routers choose by a rule for turns, for tools/network: of the ways that bring a packet nearer each that the rule
lets be taken."""
from __future__ import annotations

from typing import Callable, Dict, List, Tuple

from torusmem_tools.model.adaptive_networks import STEPS, ends, nearer, neighbour
from torusmem_tools.model.network import Network
from torusmem_tools.model.router_places import grid

# Whether a packet may turn in a column, from the direction in which it came (empty: from its sender) to another one.
Turn = Callable[[int, str, str], bool]


def west_first(column: int, came: str, goes: str) -> bool:
    """No turn into the west (Glass and Ni, The turn model for adaptive routing, ISCA 1992)."""
    return goes != "W" or came in ("W", "")


def north_last(column: int, came: str, goes: str) -> bool:
    """No turn out of the north (Glass and Ni, 1992)."""
    return came != "N" or goes == "N"


def negative_first(column: int, came: str, goes: str) -> bool:
    """No turn from the east or south, where numbers rise, to the west or north (Glass and Ni, 1992)."""
    return not (came in ("E", "S") and goes in ("W", "N"))


def odd_even(column: int, came: str, goes: str) -> bool:
    """No turn from the east to the north or south in an even column, and none from there to the west in an odd one
    (Chiu, The odd-even turn model for adaptive routing, IEEE TPDS 11(7), 2000)."""
    if came == "E" and goes in ("N", "S"):
        return column % 2 == 1
    return not (came in ("N", "S") and goes == "W" and column % 2 == 1)


def turn_model_mesh(width: int, height: int, may: Turn) -> Network:
    """A mesh with one channel on each link, minimal, by a rule for turns: all that still lead to the destination."""
    net = Network()
    routers = range(width * height)
    inject, eject = ends(net, routers)
    hops = {(r, d): net.channel("hop", r, neighbour(width, height, r, d))
            for r in routers for d in STEPS if neighbour(width, height, r, d) >= 0}
    grid(net, width, height)
    for goal in routers:
        open_: Dict[Tuple[int, str], List[str]] = {}
        # nearest routers first, so that those behind a choice are known
        for r in sorted(routers, key=lambda it: abs(it % width - goal % width) + abs(it // width - goal // width)):
            for came in ("", *STEPS):
                open_[r, came] = [d for d in nearer(width, r, goal) if may(r % width, came, d)
                                  and (neighbour(width, height, r, d) == goal or open_[neighbour(width, height, r, d), d])]
        for r in routers:
            net.choose(inject[r], eject[goal], [eject[goal]] if r == goal else [hops[r, d] for d in open_[r, ""]])
        for (r, d), x in hops.items():
            s = neighbour(width, height, r, d)
            net.choose(x, eject[goal], [eject[goal]] if s == goal else [hops[s, e] for e in open_[s, d]])
    return net


# The rules by their names.
TURNS: Dict[str, Turn] = {"west-first": west_first, "north-last": north_last, "negative-first": negative_first, "odd-even": odd_even}
