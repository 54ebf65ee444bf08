"""What the packets of a network go over: the last line of `torusmem network`, by a plain walk."""
from __future__ import annotations

from typing import Set

from torusmem_tools.model.adaptive_walk import Walk
from torusmem_tools.model.network import Network


def totals_line(net: Network) -> str:
    """The line `pairs P of Q, hops H of G, longest route N`, for a network in which each pair has a route; where routers choose,
    for one whose packets have an escape wherever they come, and N is `unbounded` where they can go round."""
    used: Set[int] = set()
    if net.is_adaptive():
        walk = Walk(net)
        word, *most = walk.travel().split()
        return line_by(net, {x for j in walk.starts for x in walk.comes(j)}, most[0] if word == "bounded" else "unbounded")
    longest = 0
    for i, j in set(net.joins):
        at, channels = i, 1
        while at != j:
            at, channels = net.choices[at, j][0], channels + 1
            used.add(at)
        longest = max(longest, channels)
    return line_by(net, used, str(longest))


def line_by(net: Network, used: Set[int], longest: str) -> str:
    """The line by the channels that packets use, and over how many they go at most."""
    count = {kind: net.kinds.count(kind) for kind in ("inject", "hop", "eject")}
    hops = sum(net.kinds[x] == "hop" for x in used)
    return (f"pairs {len(set(net.joins))} of {count['inject'] * count['eject']}, hops {hops} of {count['hop']}, "
            f"longest route {longest}")


def length_line(net: Network) -> str:
    """The line that packets of the length of the text deadlock a network with a cycle; nothing where it gives none, or packets
    are answered."""
    if net.flits is None or net.replies:
        return ""
    return f"locks up with packets of {net.flits} flit{'s' * (net.flits > 1)} where channels hold {max(1, net.flits - 1)} or more"
