"""Networks whose routers don't choose, one route for each pair, for tools/network: meshes, rings, tori and trees, and shortest
paths over any links."""
from __future__ import annotations

import itertools
import math
from collections import deque
from typing import Dict, List, Tuple

from torusmem_tools.command import Refusal
from torusmem_tools.model.network import Network, Router
from torusmem_tools.model.router_places import grid, round_about, torus_router
from torusmem_tools.model.torus import Shape, moved


def ends(net: Network, routers: Dict[int, int]) -> Tuple[Dict[int, int], Dict[int, int]]:
    """An injection and an ejection channel of each node, at its router."""
    inject, eject = {}, {}
    net.expect(len(routers) ** 2)
    for node, r in routers.items():
        inject[node] = net.channel("inject", r, r)
        eject[node] = net.channel("eject", r, r)
    return inject, eject


def mesh(width: int, height: int, mixed: bool) -> Network:
    """A mesh, x before y; mixed: to some routers y before x."""
    net = Network()
    at = range(width * height)
    inject, eject = ends(net, {r: r for r in at})
    hops = {}
    for r in at:
        x, y = r % width, r // width
        for dx, dy in ((1, 0), (-1, 0), (0, 1), (0, -1)):
            if 0 <= x + dx < width and 0 <= y + dy < height:
                s = r + dx + width * dy
                hops[r, s] = net.channel("hop", r, s)
    grid(net, width, height)

    def onward(r: int, goal: int) -> int:
        """The channel from a router on to another."""
        x, y, to_x, to_y = r % width, r // width, goal % width, goal // width
        down_first = mixed and (to_x + to_y) % 2 == 1
        if y != to_y and (down_first or x == to_x):
            return hops[r, r + width if y < to_y else r - width]
        return hops[r, r + 1 if x < to_x else r - 1] if x != to_x else eject[goal]

    for src in at:
        for dst in at:
            net.follow(inject[src], eject[dst], lambda x: onward(net.links[x].end, dst))
    return net


def ring(count: int, dateline: bool) -> Network:
    """A ring, one way round; with a dateline on its last link."""
    net = Network()
    at = range(count)
    inject, eject = ends(net, {r: r for r in at})
    hops = [[net.channel("hop", r, (r + 1) % count, bit) for r in at] for bit in range(2 if dateline else 1)]
    net.routers = {r: Router(str(r), round_about(r, count)) for r in at}
    for src in at:
        for dst in at:
            here, bit, channels = src, 0, [inject[src]]
            while here != dst:
                if dateline and here == count - 1:
                    bit = 1
                channels.append(hops[bit][here])
                here = (here + 1) % count
            net.route(channels + [eject[dst]])
    return net


def tiles_of(radices: List[int]) -> Network:
    """The routers and channels of a torus: at each tile the hops out of it, its injections and its ejections."""
    net = Network()
    for t in range(math.prod(radices)):
        for number in range(8 * len(radices)):
            net.channel("hop", t, moved(t, number // 8, -1 if number % 8 > 3 else 1, radices), number % 4)
        for number in range(4):
            net.channel("inject" if number < 2 else "eject", t, t)
        net.routers[t] = torus_router(t, radices)
    return net


def torus(radices: List[int]) -> Network:
    """The torus of torusmem, its channels in channel order: each class has its own, and requests are answered."""
    net, shape = tiles_of(radices), Shape(radices, [it - 1 for it in radices])
    last = 8 * shape.dims
    for src, dst, is_reply in itertools.product(range(shape.tiles), range(shape.tiles), (0, 1)):
        here, port = src, shape.way(src, last + is_reply, dst, bool(is_reply))
        channels = [shape.input(src, last + is_reply), shape.output(src, port)]
        while port < last:
            here = shape.next_tile(here, port // 8, -1 if port // 4 % 2 else 1)
            port = shape.way(here, port, dst, bool(is_reply))
            channels.append(shape.output(here, port))
        net.route(channels)
    net.replies = [(shape.output(t, last), shape.input(t, last + 1)) for t in range(shape.tiles)]
    return net


def distances(links: Dict[int, List[int]], goal: int) -> Dict[int, int]:
    """How many links it takes from each router to one, where there is a path."""
    far, queue = {goal: 0}, deque([goal])
    while queue:
        s = queue.popleft()
        for r in links:
            if s in links[r] and r not in far:
                far[r] = far[s] + 1
                queue.append(r)
    return far


def shortest(links: Dict[int, List[int]], nodes: Dict[int, int], routers: Dict[int, Router]) -> Network:
    """Routers with links and nodes; shortest paths, the router of the lowest number first."""
    net = Network(routers=routers)
    inject, eject = ends(net, nodes)
    hops = {(r, s): net.channel("hop", r, s) for r in sorted(links) for s in sorted(links[r])}
    for goal, last in nodes.items():
        far = distances(links, last)
        for start, first in nodes.items():
            if first not in far:
                raise Refusal(f"no path from node {start} to node {goal}")
            here, channels = first, [inject[start]]
            while here != last:
                after = min(s for s in links[here] if far.get(s, len(far) + 1) == far[here] - 1)
                channels.append(hops[here, after])
                here = after
            net.route(channels + [eject[goal]])
    return net


def tree(count: int) -> Network:
    """A binary tree, its routers level by level: the only paths are the shortest."""
    links: Dict[int, List[int]] = {r: [] for r in range(count)}
    for r in range(1, count):
        links[r].append((r - 1) // 2)
        links[(r - 1) // 2].append(r)
    routers = {}
    for r in range(count):
        level = (r + 1).bit_length() - 1
        routers[r] = Router(str(r), ((2 * (r + 1 - 2**level) + 1) * 2 ** (count.bit_length() - 1 - level), 2 * level))
    return shortest(links, {r: r for r in range(count)}, routers)
