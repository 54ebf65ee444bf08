"""Cubes for tools/network, their routers numbered by digits: hypercubes, HyperX and tori with one class of packets, along the
dimensions in order or, on channels of their own, in any order."""
from __future__ import annotations

import math
from typing import Dict, List, Tuple

from torusmem_tools.command import Refusal
from torusmem_tools.model.adaptive_networks import ends, inputs
from torusmem_tools.model.network import Network, Router
from torusmem_tools.model.router_places import torus_router
from torusmem_tools.model.torus import digits, moved

# A hop: from this router, along this dimension, to this digit.
Hop = Tuple[int, int, int]
# How many dimensions a hypercube has at most: the text has a pair for each two routers.
MOST_DIMENSIONS = 10


def hyperx(radices: List[int], adaptive: bool) -> Network:
    """Each router has a link to each that differs in one digit (Ahn et al., HyperX, SC 2009). Packets go along the dimensions in
    order; adaptive: along any on a first channel of each link, and on the second, the escape, in order."""
    net, routers = Network(), range(math.prod(radices))
    inject, eject = ends(net, routers)
    hops: List[Dict[Hop, int]] = []
    for v in range(2 if adaptive else 1):
        hops.append({(r, d, digit): net.channel("hop", r, moved(r, d, digit - digits(r, radices)[d], radices), v) for r in routers
                     for d, k in enumerate(radices) for digit in range(k) if digit != digits(r, radices)[d]})
    net.routers = {r: torus_router(r, radices) for r in routers}
    net.escapes = set(hops[1].values()) if adaptive else set()
    into = inputs(net, inject)
    for goal in routers:
        there = digits(goal, radices)
        for r in routers:
            apart = [d for d, digit in enumerate(digits(r, radices)) if digit != there[d]]
            first = [hops[-1][r, d, there[d]] for d in apart[:1]]
            chosen = [hops[0][r, d, there[d]] for d in apart] + first if adaptive else first
            for x in into[r]:
                net.choose(x, eject[goal], chosen or [eject[goal]])
    return net


def hypercube(dimensions: int, adaptive: bool) -> Network:
    """Routers with so many binary digits: HyperX of radix 2 (the order of the dimensions is that of e-cube routes: Sullivan and
    Bashkow, ISCA 1977)."""
    if dimensions > MOST_DIMENSIONS:
        raise Refusal(f"a hypercube has at most {MOST_DIMENSIONS} dimensions")
    net = hyperx([2] * dimensions, adaptive)
    net.routers = {r: Router(format(r, f"0{dimensions}b")) for r in net.routers}
    return net


def plain_torus(radices: List[int], dateline: bool) -> Network:
    """A torus with one sender and one receiver at each router, along the dimensions in order by the shorter way, up where both are as
    long. With a dateline each link has two channels, of which a packet takes the second from the wrap of its dimension on."""
    net, routers = Network(), range(math.prod(radices))
    inject, eject = ends(net, routers)
    hops: Dict[Tuple[int, int, int, int], int] = {}
    for r in routers:
        for d, k in enumerate(radices):
            for by in (1, -1)[:k - 1]:
                for v in range(2 if dateline else 1):
                    hops[r, d, by, v] = net.channel("hop", r, moved(r, d, by, radices), v)
    net.routers = {r: torus_router(r, radices) for r in routers}
    joins, net.joins = net.joins, []
    place = {x: r for ends_of in (inject, eject) for r, x in ends_of.items()}
    for i, j in joins:
        channels, here, goal = [i], place[i], digits(place[j], radices)
        for d, k in enumerate(radices):
            way, bit = way_of(k, digits(here, radices)[d], goal[d]), 0
            for by in way:
                digit = digits(here, radices)[d]
                bit = bit or int(dateline and not 0 <= digit + by < k)
                channels.append(hops[here, d, by, bit])
                here = moved(here, d, by, radices)
        net.route(channels + [j])
    return net


def way_of(radix: int, here: int, goal: int) -> List[int]:
    """The steps from a digit to another one by the shorter way."""
    ahead = (goal - here) % radix
    return [1] * ahead if 2 * ahead <= radix else [-1] * (radix - ahead)
