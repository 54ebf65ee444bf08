"""Networks whose routers choose among several channels, for tools/network."""
from __future__ import annotations

import math
from dataclasses import dataclass
from typing import Callable, Dict, Iterable, List, Set, Tuple

from torusmem_tools.command import Refusal
from torusmem_tools.model.deterministic_networks import distances
from torusmem_tools.model.network import Network, Router
from torusmem_tools.model.router_places import grid, torus_router
from torusmem_tools.model.torus import moved

# Directions of a mesh: east, west, north (the row number falls), south.
STEPS = {"E": (1, 0), "W": (-1, 0), "N": (0, -1), "S": (0, 1)}
# The channels of hops, by two routers or groups and a virtual channel.
Hops = Dict[Tuple[int, int, int], int]


def ends(net: Network, nodes: Iterable[int], router: Callable[[int], int] = lambda node: node) -> Tuple[Dict[int, int], Dict[int, int]]:
    """An injection and an ejection channel of each node at its router, joined to all."""
    nodes = list(nodes)
    net.expect(len(nodes) ** 2)
    inject = {it: net.channel("inject", router(it), router(it)) for it in nodes}
    eject = {it: net.channel("eject", router(it), router(it)) for it in nodes}
    net.joins = [(inject[it], eject[other]) for it in nodes for other in nodes]
    return inject, eject


def nearer(width: int, r: int, goal: int) -> List[str]:
    """The directions that bring a packet nearer in a mesh."""
    dx, dy = goal % width - r % width, goal // width - r // width
    return ["E"] * (dx > 0) + ["W"] * (dx < 0) + ["N"] * (dy < 0) + ["S"] * (dy > 0)


def neighbour(width: int, height: int, r: int, d: str) -> int:
    """The router in a direction, or -1."""
    x, y = r % width + STEPS[d][0], r // width + STEPS[d][1]
    return y * width + x if 0 <= x < width and 0 <= y < height else -1


def adaptive_mesh(width: int, height: int) -> Network:
    """Minimal: any direction that brings a packet nearer on the first virtual channel; the escape, on the second, goes
    along the row first (Duato 1993)."""
    net = Network()
    routers = range(width * height)
    inject, eject = ends(net, routers)
    hops = {(r, d, v): net.channel("hop", r, neighbour(width, height, r, d), v)
            for r in routers for d in STEPS for v in (0, 1) if neighbour(width, height, r, d) >= 0}
    grid(net, width, height)
    net.escapes = {hops[it] for it in hops if it[2] == 1}
    into = inputs(net, inject)
    for r in routers:
        for goal in routers:
            near = nearer(width, r, goal)
            chosen = [eject[goal]] if r == goal else [hops[r, d, 0] for d in near] + [hops[r, near[0], 1]]
            for x in into[r]:
                net.choose(x, eject[goal], chosen)
    return net


def inputs(net: Network, inject: Dict[int, int]) -> Dict[int, List[int]]:
    """The channels into each router."""
    found: Dict[int, List[int]] = {r: [x] for r, x in inject.items()}
    for x, link in net.links.items():
        if net.kinds[x] == "hop":
            found.setdefault(link.end, []).append(x)
    return found


def adaptive_torus(radices: List[int]) -> Network:
    """Minimal: any direction that brings a packet nearer on the first virtual channel; the escape goes along the
    dimensions in order, on the second virtual channel ahead of the dateline and on the third behind it."""
    net, tiles = Network(), math.prod(radices)
    inject, eject = ends(net, range(tiles))
    weight = [math.prod(radices[:d]) for d in range(len(radices))]
    hops = {(r, d, by, v): net.channel("hop", r, moved(r, d, by, radices), v)
            for r in range(tiles) for d in range(len(radices)) for by in (1, -1) for v in range(3)}
    for r in range(tiles):
        net.routers[r] = torus_router(r, radices)
    net.escapes = {x for (_, _, _, v), x in hops.items() if v > 0}
    into = inputs(net, inject)
    for r in range(tiles):
        for goal in range(tiles):
            chosen: List[int] = []
            escape: List[int] = []
            for d, k in enumerate(radices):
                here, there = r // weight[d] % k, goal // weight[d] % k
                ahead = (there - here) % k
                if ahead:
                    signs = [by for by, far in ((1, ahead), (-1, k - ahead)) if 2 * far <= k]
                    chosen += [hops[r, d, by, 0] for by in signs]
                    wraps = here > there if signs[0] == 1 else here < there
                    escape = escape or [hops[r, d, signs[0], 1 if wraps else 2]]
            for x in into[r]:
                net.choose(x, eject[goal], chosen + escape or [eject[goal]])
    return net


def fat_tree(arity: int, levels: int) -> Network:
    """A k-ary n-tree: up by any link to a common ancestor, then down (Petrini and Vanneschi, k-ary n-trees, 1997)."""
    net, width = Network(), arity ** (levels - 1)
    nodes = range(arity**levels)
    inject, eject = ends(net, nodes, lambda node: node // arity)
    net.routers = {level * width + s: Router(f"{level}.{s}", (s, 2 * (levels - level))) for level in range(levels) for s in range(width)}
    up, down = {}, {}
    for level in range(levels - 1):
        for s in range(width):
            for c in range(arity):
                t = s + (c - s // arity**level % arity) * arity**level
                up[level, s, c] = net.channel("hop", level * width + s, (level + 1) * width + t)
                down[level + 1, t, s // arity**level % arity] = net.channel("hop", (level + 1) * width + t, level * width + s)
    into: Dict[int, List[Tuple[int, bool]]] = {}
    for x, link in net.links.items():
        if net.kinds[x] != "eject":
            into.setdefault(link.end, []).append((x, link.start > link.end))
    for goal in nodes:
        leaf = goal // arity
        for r, xs in into.items():
            level, s = divmod(r, width)
            under = s // arity**level == leaf // arity**level
            for x, fell in xs:
                if under:
                    chosen = [eject[goal]] if level == 0 else [down[level, s, leaf // arity ** (level - 1) % arity]]
                else:
                    chosen = [] if fell else [up[level, s, c] for c in range(arity)]
                net.choose(x, eject[goal], chosen)
    return net


def up_down(links: Dict[int, List[int]], nodes: Dict[int, int]) -> Network:
    """Up towards the root of a tree, then down, by any link: each router by its distance from the first one, then by
    its number (Schroeder et al., Autonet, IEEE JSAC 9(8), 1991)."""
    root = min(links)
    far = distances(links, root)
    if len(far) < len(links):
        raise Refusal(f"no path from router {root} to router {min(set(links) - set(far))}")
    net = Network(routers={r: Router(str(r)) for r in sorted(links)})
    inject, eject = ends(net, nodes, nodes.__getitem__)
    hops = {(r, s): net.channel("hop", r, s) for r in sorted(links) for s in sorted(links[r])}
    climbs = {(r, s): (far[s], s) < (far[r], r) for r, s in hops}
    for goal, last in nodes.items():
        falls = {last}
        for r in sorted(links, key=lambda it: (far[it], it), reverse=True):
            if any(s in falls and not climbs[r, s] for s in links[r]):
                falls.add(r)
        for p, r in nodes.items():
            net.choose(inject[p], eject[goal], ahead(links, climbs, falls, hops, r, last, True) or [eject[goal]])
        for (r, s), x in hops.items():
            net.choose(x, eject[goal], ahead(links, climbs, falls, hops, s, last, climbs[r, s]) or [eject[goal]] * (s == last))
    return net


def ahead(links: Dict[int, List[int]], climbs: Dict[Tuple[int, int], bool], falls: Set[int], hops: Dict[Tuple[int, int], int],
          r: int, last: int, may_climb: bool) -> List[int]:
    """The hops from a router that lead on to another: down where it is below, else up."""
    if r == last:
        return []
    down = [hops[r, s] for s in sorted(links[r]) if not climbs[r, s] and s in falls]
    return down or [hops[r, s] for s in sorted(links[r]) if may_climb and climbs[r, s]]


def dragonfly(size: int, nodes: int = 1, links: int = 1, minimal: bool = False) -> Network:
    """Groups of so many routers, each with so many nodes and links to other groups, and one link between any two groups: by
    that link, or where it isn't minimal also by way of any other group. Each hop is on a virtual channel of its own, in order
    (Kim, Dally, Scott and Abts, ISCA 2008)."""
    net, groups = Network(), size * links + 1
    routers = range(size * groups)
    inject, eject = ends(net, range(len(routers) * nodes), lambda node: node // nodes)
    net.routers = {r: Router(f"{r // size}.{r % size}") for r in routers}
    # the router of group g whose link goes to group h, and the other way
    door = {(g, h): g * size + (h - g - 1) % groups // links for g in range(groups) for h in range(groups) if g != h}
    levels = 1 if minimal else 2
    local = {(r, s, v): net.channel("hop", r, s, v) for r in routers for s in routers if r // size == s // size and r != s for v in range(levels + 1)}
    world = {(g, h, v): net.channel("hop", door[g, h], door[h, g], v) for g, h in door for v in range(levels)}
    for goal in range(len(routers) * nodes):
        last, end = goal // nodes, eject[goal]
        home = last // size
        way = Way(local, world, door, last, end, size)
        # the groups that a packet may go to next, behind its first hop or none, from group g by router s
        ahead = {g: [home] if minimal else list(range(groups)) for g in range(groups) if g != home}
        for node, x in inject.items():
            r = node // nodes
            net.choose(x, end, way.leave(r, ahead.get(r // size, []), 0))
        for (r, s, v), x in local.items():
            g = s // size
            out = [h for h in ahead.get(g, []) if h != g and door[g, h] == s] if v == 0 else [home]
            net.choose(x, end, [] if g == home and s != last else way.leave(s, out, v, True))
        for (g, h, v), x in world.items():
            net.choose(x, end, way.leave(door[h, g], [home] * (v < levels - 1), v + 1))
    return net


@dataclass(frozen=True)
class Way:
    """The hops of a dragonfly, by the routers' doors, to an ejection channel of a router."""

    local: Hops
    world: Hops
    door: Dict[Tuple[int, int], int]
    goal: int
    end: int
    size: int

    def leave(self, r: int, out: Iterable[int], level: int, stays: bool = False) -> List[int]:
        """The choices at a router: within the home group, or out of this one to one of these groups."""
        g = r // self.size
        if g == self.goal // self.size:
            return [self.end] if r == self.goal else [self.local[r, self.goal, level]]
        found = []
        for h in out:
            if h == g or (g, h, level) not in self.world:
                continue
            if self.door[g, h] == r:
                found.append(self.world[g, h, level])
            elif not stays:
                found.append(self.local[r, self.door[g, h], level])
        return sorted(set(found))
