"""Networks of the literature whose routers choose and that the walk over extended dependencies leaves open (`may lock up`), for
checks/dead_rows: it writes their texts to examples/networks, and says of each whether packets of one flit can deadlock it.
"""
from __future__ import annotations

from itertools import product
from typing import Callable, Dict, Iterator, List, NamedTuple, Tuple

from torusmem_tools.model.adaptive_networks import adaptive_mesh
from torusmem_tools.model.network import Network, Router

Link = Tuple[int, int, int]
# The next channels for a packet: by the router it is at, the channel that it came by (none: from its sender) and its destination.
Routes = Callable[[int, "Link | None", int], List[Link]]


class Case(NamedTuple):
    """A network, and whether packets of one flit can deadlock it."""

    net: Network
    locks: bool


def routed(routers: int, links: List[Link], routes: Routes) -> Network:
    """Routers with a sender and a receiver each, and choices for the channels that packets come to."""
    net = Network()
    inject = [net.channel("inject", r, r) for r in range(routers)]
    eject = [net.channel("eject", r, r) for r in range(routers)]
    hops = {link: net.channel("hop", *link) for link in links}
    net.routers = {r: Router(str(r)) for r in range(routers)}
    net.joins = [(i, j) for i in inject for j in eject]
    for goal in range(routers):
        queue: List[Tuple[int, "Link | None"]] = [(r, None) for r in range(routers)]
        for r, by in queue:
            x = inject[r] if by is None else hops[by]
            if r == goal:
                net.choose(x, eject[goal], [eject[goal]])
                continue
            chosen = routes(r, by, goal)
            net.choose(x, eject[goal], [hops[it] for it in chosen])
            queue += [(it[1], it) for it in chosen if (it[1], it) not in queue]
    return net


def both_ways(edges: List[Tuple[int, int]]) -> List[Link]:
    return [it for r, s in edges for it in ((r, s, 0), (s, r, 0))]


def grid(width: int, height: int) -> List[Link]:
    """The links of a mesh, one channel each way."""
    along = [(r, r + 1) for r in range(width * height) if r % width < width - 1]
    return both_ways(along + [(r, r + width) for r in range(width * (height - 1))])


def nearer(links: List[Link], routers: int) -> Dict[int, List[int]]:
    """How far each router is from each other one."""
    far = {goal: [0 if r == goal else routers for r in range(routers)] for goal in range(routers)}
    for _, goal in product(range(routers), range(routers)):
        for r, s, _ in links:
            far[goal][r] = min(far[goal][r], far[goal][s] + 1)
    return far


def shortest(routers: int, links: List[Link]) -> Network:
    """Along any link on a path of the fewest links."""
    far = nearer(links, routers)
    return routed(routers, links, lambda r, by, goal: [it for it in links if it[0] == r and far[goal][it[1]] < far[goal][r]])


def o1turn(width: int, height: int) -> Network:
    """Along the rows or along the columns first, as the sender chooses: on one channel a link (Seo et al., O1TURN, 2005)."""
    def routes(r: int, by: "Link | None", goal: int) -> List[Link]:
        dx, dy = goal % width - r % width, goal // width - r // width
        row = [(r, r + (1 if dx > 0 else -1), 0)] if dx else []
        column = [(r, r + (width if dy > 0 else -width), 0)] if dy else []
        if by is None:
            return row + column
        return (row or column) if abs(by[1] - by[0]) == 1 else (column or row)

    return routed(width * height, grid(width, height), routes)


def odd_even(width: int, height: int) -> Network:
    """Odd-even turns (Chiu, 2000), but with both its rules in the even columns, and none in the odd ones."""
    def direction(link: Link) -> str:
        return {1: "E", -1: "W", width: "S", -width: "N"}[link[1] - link[0]]

    def turns(by: "Link | None", on: Link) -> bool:
        turn = (direction(by) if by else "") + direction(on)
        return on[0] % width % 2 == 1 or turn not in ("EN", "ES", "NW", "SW")

    def leads(r: int, by: "Link | None", goal: int) -> bool:
        return r == goal or bool(routes(r, by, goal))

    def routes(r: int, by: "Link | None", goal: int) -> List[Link]:
        near = [it for it in grid(width, height) if it[0] == r and steps(it[1], goal) < steps(r, goal)]
        return [it for it in near if turns(by, it) and leads(it[1], it, goal)]

    def steps(r: int, goal: int) -> int:
        return abs(goal % width - r % width) + abs(goal // width - r // width)

    net = routed(width * height, grid(width, height), routes)
    # Where these turns leave no way there is no pair.
    net.joins = [(i, j) for i, j in net.joins if net.choices.get((i, j))]
    net.choices = {it: ys for it, ys in net.choices.items() if ys}
    return net


def forgotten() -> Network:
    """Any way that brings packets nearer, on a first channel of each link, and on a second along the rows first (Duato, 1993);
    no line says `escape`."""
    net = adaptive_mesh(3, 2)
    net.escapes = set()
    return net


def ring_of_two_kinds() -> Network:
    """One way round, on cA, or on cH where the destination's number is greater than the router's (Duato, 1993)."""
    links = [(r, (r + 1) % 4, 0) for r in range(4)] + [(r, r + 1, 1) for r in range(3)]
    return routed(4, links, lambda r, by, goal: [it for it in links if it[0] == r and (it[2] == 0 or goal > r)])


def dragonfly() -> Network:
    """Three groups of two routers, by way of any group (Valiant): local links have two virtual channels, the second from the
    middle group on, and global links two (Kim et al., Technology-driven dragonfly, 2008, takes three for the local ones)."""
    # Router 0 of a group has the link to the next group, router 1 that to the one before.
    local = [(2 * g + a, 2 * g + 1 - a, v) for g in range(3) for a in range(2) for v in range(2)]
    far = [(2 * g + a, 2 * ((g + 1 - 2 * a) % 3) + 1 - a, v) for g in range(3) for a in range(2) for v in range(2)]

    def ways(r: int, goal: int, v: int, w: int) -> Iterator[List[Link]]:
        """The ways straight to a group, by these virtual channels of local and of global links."""
        group = goal // 2
        out = 2 * (r // 2) + (0 if (r // 2 + 1) % 3 == group else 1)
        first: List[Link] = [(r, out, v)] if r != out else []
        yield first + [next(it for it in far if it[0] == out and it[2] == w)]

    net, order = Network(), range(6)
    inject = [net.channel("inject", r, r) for r in order]
    eject = [net.channel("eject", r, r) for r in order]
    hops = {link: net.channel("hop", *link) for link in local + far}
    net.routers = {r: Router(f"{r // 2}.{r % 2}") for r in order}
    net.joins = [(i, j) for i in inject for j in eject]
    for r, goal in product(order, order):
        for way in valiant(r, goal, ways):
            channels = [inject[r], *(hops[it] for it in way), eject[goal]]
            for x, y in zip(channels, channels[1:]):
                net.choose(x, eject[goal], [y])
    return net


def valiant(r: int, goal: int, ways: Callable[[int, int, int, int], Iterator[List[Link]]]) -> Iterator[List[Link]]:
    """The routes between two routers of the dragonfly: inside a group straight, else by any other group, or straight."""
    if r // 2 == goal // 2:
        yield [(r, goal, 0)] if r != goal else []
        return
    for middle in range(3):
        if middle == r // 2:
            continue
        way = next(ways(r, 2 * middle, 0, 0))
        if middle != goal // 2:
            way = way + next(ways(way[-1][1], goal, 1, 1))
        end = way[-1][1]
        yield way + ([(end, goal, 1)] if end != goal else [])


def hypercube(digits: int) -> Network:
    """Along any dimension that brings packets nearer, on one channel a link."""
    return shortest(1 << digits, [(r, r ^ 1 << d, 0) for r in range(1 << digits) for d in range(digits)])


def hyperx(width: int) -> Network:
    """Routers that differ in one digit have a link, with one channel: in any order."""
    links = [(r, s, 0) for r in range(width * width) for s in range(width * width) if r != s and (r // width == s // width or r % width == s % width)]
    return shortest(width * width, links)


CASES: Dict[str, Callable[[], Case]] = {
    "o1turn": lambda: Case(o1turn(2, 2), True),
    "odd-even": lambda: Case(odd_even(4, 2), True),
    "no-escape-lines": lambda: Case(forgotten(), False),
    "two-kinds": lambda: Case(ring_of_two_kinds(), False),
    "all-shortest": lambda: Case(shortest(6, both_ways([(0, 1), (1, 2), (2, 3), (3, 4), (4, 0), (5, 0), (5, 2)])), True),
    "dragonfly-2-2": lambda: Case(dragonfly(), True),
    "any-dimension": lambda: Case(hypercube(3), True),
    "any-order": lambda: Case(hyperx(3), True),
    "two-ways-round": lambda: Case(shortest(6, both_ways([(r, (r + 1) % 6) for r in range(6)])), True),
}
