"""gem5's topology descriptions for Garnet, run with stand-ins for gem5's classes, and the routes that their weights give.

A router takes, of the outgoing links on a path of the least sum of weights, those of the least weight of their own: any of
them, or for ordered virtual networks the first (gem5, RoutingUnit::lookupRoutingTable and Topology)."""
from __future__ import annotations

import heapq
import os
import traceback
from typing import Any, Dict, List, Tuple

from torusmem_tools import command
from torusmem_tools.command import Refusal
from torusmem_tools.model.network import Network, Place, Router
from torusmem_tools.texts.gem5 import CONTROLLERS, Controller, ExtLink, GarnetNetwork, GarnetRouter, IntLink, Missing, Options, standing

WAYS = {"East": (1, 0), "West": (-1, 0), "North": (0, -1), "South": (0, 1)}


def where(path: str, fault: BaseException) -> str:
    """The file and the line that a fault is at."""
    if isinstance(fault, SyntaxError) and fault.filename == path:
        return f"{path}, line {fault.lineno}"
    lines = [it.lineno for it in traceback.extract_tb(fault.__traceback__) if it.filename == path]
    return f"{path}, line {lines[-1]}" if lines else path


def run_topology(text: str, path: str, given: Dict[str, object]) -> Tuple[GarnetNetwork, List[Controller]]:
    """The network that a file makes, and the controllers that stand at its routers."""
    options, network = Options(given), GarnetNetwork()
    nodes = [Controller(kind, k) for kind, word in CONTROLLERS.items() for k in range(count_of(options, word))]
    space: Dict[str, Any] = {"__name__": "topologies.given", "__package__": "topologies", "__file__": path}
    try:
        with standing(os.path.dirname(os.path.abspath(path))):
            exec(compile(text, path, "exec"), space)  # the user's file
            found = [it for it in space.values() if isinstance(it, type) and it.__module__ == "topologies.given" and hasattr(it, "makeTopology")]
            if not found:
                raise Refusal(f"{path}: there is no class with a method makeTopology")
            named = [it for it in found if it.__name__ == os.path.splitext(os.path.basename(path))[0]]
            (named or found)[-1](nodes).makeTopology(options, network, IntLink, ExtLink, GarnetRouter)
    except Refusal:
        raise
    except Missing as fault:
        raise Refusal(f"{where(path, fault)}: {fault}") from None
    except AssertionError as fault:
        raise Refusal(f"{where(path, fault)}: an assertion of the file fails{f': {fault}' if str(fault) else ''}") from None
    except (Exception, SystemExit) as fault:
        why = fault.msg if isinstance(fault, SyntaxError) else str(fault)
        raise Refusal(f"{where(path, fault)}: {type(fault).__name__}: {why}") from None
    for word in options.unasked():
        command.say("network", f"{path} never asks for the option {word}")
    return network, nodes


def count_of(options: Options, word: str) -> int:
    """How many controllers an option asks for."""
    count = getattr(options, word)
    if not isinstance(count, int) or not 0 <= count <= 4096:
        raise Refusal(f"--set {word}: it is no number from 0 to 4096")
    return count


def parts(found: object, kind: type, name: str, path: str) -> List[Any]:
    """The list that a network has by this name."""
    if not isinstance(found, (list, tuple)) or not all(isinstance(it, kind) for it in found):
        raise Refusal(f"{path}: network.{name} is no list of what the {'router' if kind is GarnetRouter else 'link'} class made")
    return list(found)


def router_of(it: object, known: Dict[int, int], path: str, what: str) -> int:
    """The number of a router that is one of the network's."""
    if id(it) not in known:
        raise Refusal(f"{path}: {what} is none of network.routers")
    return known[id(it)]


def garnet(text: str, path: str, given: Dict[str, object], is_ordered: bool) -> Network:
    """The network of a topology description, with all pairs of controllers."""
    made, nodes = run_topology(text, path, given)
    known, numbers = {}, set()
    for it in parts(made.routers, GarnetRouter, "routers", path):
        number = it.router_id
        if not isinstance(number, int) or number < 0 or number in numbers:
            raise Refusal(f"{path}: the routers have no numbers of their own")
        numbers.add(number)
        known[id(it)] = number
    links = []
    for k, it in enumerate(parts(made.int_links, IntLink, "int_links", path)):
        r, s = router_of(it.src_node, known, path, f"src_node of int link {k}"), router_of(it.dst_node, known, path, f"dst_node of int link {k}")
        if not isinstance(it.weight, int) or it.weight < 1:
            raise Refusal(f"{path}: the weight of int link {k} is no number from 1 on")
        links.append((r, s, it.weight, str(it.src_outport)))
    at: Dict[int, int] = {}
    for k, it in enumerate(parts(made.ext_links, ExtLink, "ext_links", path)):
        if it.ext_node not in nodes or id(it.ext_node) in at:
            raise Refusal(f"{path}: ext_node of ext link {k} is no controller, or one that has a link already")
        at[id(it.ext_node)] = router_of(it.int_node, known, path, f"int_node of ext link {k}")
    nodes = [it for it in nodes if id(it) in at]
    if not nodes:
        raise Refusal(f"{path}: no controller has a link")
    return route_by_weight(links, [(f"{it.type} {it.version}", at[id(it)]) for it in nodes], sorted(numbers), path, is_ordered)


def route_by_weight(links: List[Tuple[int, int, int, str]], nodes: List[Tuple[str, int]], routers: List[int], path: str, is_ordered: bool) -> Network:
    """The network whose routes the weights of its links give."""
    net, places = Network(), places_by_port(links, routers)
    net.routers = {r: Router(str(r), places.get(r)) for r in routers}
    inject = [net.channel("inject", r, r) for _, r in nodes]
    eject = [net.channel("eject", r, r) for _, r in nodes]
    for k, (name, _) in enumerate(nodes):
        net.names[inject[k]], net.names[eject[k]] = f"from {name}", f"to {name}"
    hops: List[int] = []
    twice: Dict[Tuple[int, int], int] = {}
    for r, s, _, _ in links:
        hops.append(net.channel("hop", r, s, twice.setdefault((r, s), 0)))
        twice[r, s] += 1
    net.joins = [(i, j) for i in inject for j in eject]
    starts = {r for _, r in nodes}
    for goal in sorted(starts):
        outs = candidates(links, goal, is_ordered)
        for r in starts:
            if r != goal and r not in outs:
                raise Refusal(f"{path}: no path from router {r} to router {goal}")
        for k, (_, end) in enumerate(nodes):
            if end == goal:
                for x, r in [*((inject[i], r) for i, (_, r) in enumerate(nodes)), *((hops[n], s) for n, (_, s, _, _) in enumerate(links))]:
                    net.choose(x, eject[k], [eject[k]] if r == goal else [hops[n] for n in outs.get(r, [])])
    return net


def candidates(links: List[Tuple[int, int, int, str]], goal: int, is_ordered: bool) -> Dict[int, List[int]]:
    """The links that each router may take on the way to another."""
    into: Dict[int, List[Tuple[int, int]]] = {}
    for r, s, weight, _ in links:
        into.setdefault(s, []).append((r, weight))
    far: Dict[int, int] = {}
    queue = [(0, goal)]
    while queue:
        d, s = heapq.heappop(queue)
        if s not in far:
            far[s] = d
            for r, weight in into.get(s, []):
                heapq.heappush(queue, (d + weight, r))
    found: Dict[int, List[int]] = {}
    for n, (r, s, weight, _) in enumerate(links):
        if r != goal and s in far and weight + far[s] == far[r]:
            found.setdefault(r, []).append(n)
    for r, ns in found.items():
        least = min(links[n][2] for n in ns)
        found[r] = [n for n in sorted(ns, key=lambda n: links[n][1]) if links[n][2] == least][: 1 if is_ordered else None]
    return found


def places_by_port(links: List[Tuple[int, int, int, str]], routers: List[int]) -> Dict[int, Place]:
    """Places by the names of the links' outports; none where those say nothing of a router, or two things."""
    found: Dict[int, Place] = {routers[0]: (0, 0)} if routers else {}
    more = True
    while more:
        more = False
        for r, s, _, out in links:
            if r in found and s not in found and out in WAYS:
                found[s] = (found[r][0] + WAYS[out][0], found[r][1] + WAYS[out][1])
                more = True
    if len(set(found.values())) < len(routers):
        return {}
    left, top = min(x for x, _ in found.values()), min(y for _, y in found.values())
    return {r: (x - left, y - top) for r, (x, y) in found.items()}
