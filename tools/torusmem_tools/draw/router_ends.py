"""Which router stands at each end of a network's channels, and where the routers are drawn."""
from __future__ import annotations

import math
import subprocess
from dataclasses import dataclass, field
from typing import Dict, List, Optional, Tuple

from torusmem_tools.command import Refusal
from torusmem_tools.draw.shapes import cross
from torusmem_tools.model.network import Network, Place

# A channel's end: whether it is the one at which flits come out, and the channel.
End = Tuple[bool, int]
Pair = Tuple[int, int]
# For so many seconds `dot` may think.
PATIENCE = 30
# Of networks with at most so many routers the best of some drawings is taken.
MOST_TRIED = 64


@dataclass
class Plan:
    """Routers by their names, the routers at the ends of each channel (none where there is a sender, a receiver, or
    nothing that is known), and virtual channels."""

    names: List[str] = field(default_factory=list)
    places: List[Optional[Place]] = field(default_factory=list)
    starts: Dict[int, int] = field(default_factory=dict)
    ends: Dict[int, int] = field(default_factory=dict)
    virtual: Dict[int, int] = field(default_factory=dict)
    # How many routers the text doesn't name; how many of its choices go between channels that its links don't join;
    # and how many channels no packets can pass.
    found: int = 0
    apart: int = 0
    idle: int = 0

    def is_placed(self) -> bool:
        """Whether the text says where the routers lie."""
        return all(it is not None for it in self.places)


class Groups:
    """Things that belong together."""

    def __init__(self) -> None:
        self.above: Dict[object, object] = {}

    def top(self, it: object) -> object:
        """What stands for all that belong to it."""
        self.above.setdefault(it, it)
        while self.above[it] != it:
            self.above[it] = self.above[self.above[it]]
            it = self.above[it]
        return it

    def join(self, it: object, other: object) -> None:
        self.above[self.top(it)] = self.top(other)


def group_ends(net: Network, plan: Plan) -> Groups:
    """The ends of channels that meet: as the links say, and where packets of one channel go on to another."""
    groups = Groups()
    for x, link in net.links.items():
        if net.kinds[x] != "eject":
            groups.join((True, x), link.end)
        if net.kinds[x] != "inject":
            groups.join((False, x), link.start)
    for x, y in sorted({(x, y) for x, j, y in net.steps() if x != y and (net.kinds[y] == "hop" or y == j)}):
        if net.kinds[x] == "eject":
            continue
        if x in net.links and y in net.links:
            plan.apart += net.links[x].end != net.links[y].start
        else:
            groups.join((True, x), (False, y))
    return groups


def plan_of(net: Network) -> Plan:
    """The routers of a network. One that no `router` line names is found by the choices: where packets of one channel
    go on to another, both meet at a router."""
    plan, used = Plan(), {it for x, _, y in net.steps() for it in (x, y)}
    plan.idle = len(net.kinds) - len(used)
    groups = group_ends(net, plan)
    numbers: Dict[object, int] = {}
    for r, router in sorted(net.routers.items()):
        number = numbers.setdefault(groups.top(r), len(numbers))
        if number == len(plan.names):
            plan.names.append(router.name)
            plan.places.append(router.place)
        else:
            plan.names[number] += f"/{router.name}"
    for x in sorted(used):
        kind = net.kinds[x]
        for there, ends, is_open in ((False, plan.starts, kind == "inject"), (True, plan.ends, kind == "eject")):
            if not is_open and (there, x) in groups.above:
                top = groups.top((there, x))
                if top not in numbers:
                    numbers[top] = len(numbers)
                    plan.names.append(str(plan.found))
                    plan.places.append(None)
                    plan.found += 1
                ends[x] = numbers[top]
        plan.virtual[x] = net.links[x].virtual if x in net.links else 0
        if kind == "hop" and not (x in plan.starts and x in plan.ends):
            plan.starts.pop(x, None)
            plan.ends.pop(x, None)
            plan.idle += 1
    return plan


def pairs_of(plan: Plan) -> Dict[Pair, List[int]]:
    """The hops between two routers, there and back, by the routers with the lower number first."""
    found: Dict[Pair, List[int]] = {}
    for x in plan.starts:
        if x in plan.ends:
            a, b = plan.starts[x], plan.ends[x]
            found.setdefault((min(a, b), max(a, b)), []).append(x)
    return found


def place(plan: Plan, replies: List[Pair], size: Place, pitch: float) -> List[Place]:
    """A place for each router, no two closer than the pitch: as the text says, else by `dot`, else on a circle."""
    if plan.is_placed():
        return spread_places([it for it in plan.places if it is not None], pitch, plan.names)
    links = [(a, b) for a, b in pairs_of(plan) if a != b]
    ends = [(plan.starts[x], plan.ends[y]) for x, y in replies if x in plan.starts and y in plan.ends]
    answers = sorted({(min(it), max(it)) for it in ends if it[0] != it[1]} - set(links))
    edges = links + answers
    tries = [it for seed in range(1, 2 + (5 if len(plan.names) <= MOST_TRIED else 0)) for it in [by_dot(plan, links, answers, size, pitch, seed)] if it]
    if not tries:
        return spread_places(on_circle(len(plan.names)), pitch, plan.names)
    turned = [spread_places(upright(it, edges), pitch, plan.names) for it in tries]
    return min(turned, key=lambda it: (crossings(it, edges), math.dist(*reach(it))))


def reach(places: List[Place]) -> Tuple[Place, Place]:
    """The corners of the least rectangle that holds some places."""
    return (min(x for x, _ in places), min(y for _, y in places)), (max(x for x, _ in places), max(y for _, y in places))


def crossings(places: List[Place], edges: List[Pair]) -> int:
    """How many straight links cross."""
    if len(edges) > 4 * MOST_TRIED:
        return 0
    return sum(cross(places[a], places[b], places[c], places[d]) for k, (a, b) in enumerate(edges) for c, d in edges[k + 1:])


def upright(places: List[Place], edges: List[Pair]) -> List[Place]:
    """Places turned so that as many links as can be lie level or upright, and the whole is wider than high."""
    turns = [math.atan2(places[b][1] - places[a][1], places[b][0] - places[a][0]) for a, b in edges]
    best = min((k * math.pi / 180 for k in range(-45, 45)), key=lambda by: round(sum(min(abs(math.sin(it - by)), abs(math.cos(it - by))) for it in turns), 6))
    found = [(x * math.cos(best) + y * math.sin(best), y * math.cos(best) - x * math.sin(best)) for x, y in places]
    (left, top), (right, bottom) = reach(found)
    return found if right - left >= bottom - top else [(-y, x) for x, y in found]


def spread_places(places: List[Place], pitch: float, names: List[str]) -> List[Place]:
    """Places in the same order to each other, the closest two of them as far from each other as the pitch."""
    least = math.inf
    order = sorted(range(len(places)), key=lambda k: places[k])
    for n, k in enumerate(order):
        for m in order[n + 1:]:
            if places[m][0] - places[k][0] >= least:
                break
            far = math.dist(places[k], places[m])
            if far == 0:
                raise Refusal(f"the routers {names[k]} and {names[m]} stand at one place")
            least = min(least, far)
    scale = pitch / least if least < math.inf else 1.0
    return [(x * scale, y * scale) for x, y in places]


def on_circle(count: int) -> List[Place]:
    """Places on a circle, the first one at its top."""
    return [(math.sin(2 * math.pi * k / count), -math.cos(2 * math.pi * k / count)) for k in range(count)]


def by_dot(plan: Plan, links: List[Pair], answers: List[Pair], size: Place, pitch: float, seed: int) -> Optional[List[Place]]:
    """Places as `dot` of Graphviz finds them; none where there is no such command, or it can't."""
    lines = ["graph{", f'layout=neato;overlap=false;start={seed};sep="+8";',
             f"node[shape=box,fixedsize=true,label=\"\",width={size[0] / 72:.3f},height={size[1] / 72:.3f}];edge[len={pitch / 72:.3f}];"]
    lines += [f"{k};" for k in range(len(plan.names))]
    lines += [f"{a}--{b};" for a, b in links] + [f"{a}--{b}[len={2 * pitch / 72:.3f}];" for a, b in answers]
    try:
        asked = subprocess.run(["dot", "-Tplain"], input="\n".join(lines) + "}\n", encoding="ascii", stdout=subprocess.PIPE,
                               stderr=subprocess.DEVNULL, timeout=PATIENCE, check=False)
    except (OSError, subprocess.TimeoutExpired, UnicodeError):
        return None
    found = {}
    for words in map(str.split, asked.stdout.splitlines()):
        if words[:1] == ["node"] and len(words) > 3:
            found[int(words[1])] = (72 * float(words[2]), -72 * float(words[3]))
    return [found[k] for k in range(len(plan.names))] if asked.returncode == 0 and len(found) == len(plan.names) else None
