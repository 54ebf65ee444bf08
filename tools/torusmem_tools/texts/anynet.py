"""Topologies of BookSim's `anynet`, for tools/network: routers, their links and their nodes."""
from __future__ import annotations

from typing import Dict, List, Tuple

from torusmem_tools.command import Refusal
from torusmem_tools.model.deterministic_networks import shortest
from torusmem_tools.model.network import Network, Router, number_of


def anynet(text: str, path: str) -> Tuple[Dict[int, List[int]], Dict[int, int]]:
    """The links and the nodes of BookSim's `anynet`: what follows a router is linked to it, both ways; numbers behind
    a link are its latency, which isn't asked for here."""
    links: Dict[int, List[int]] = {}
    nodes: Dict[int, int] = {}
    for number, line in enumerate(text.splitlines(), 1):
        words = line.partition("//")[0].split()
        if not words:
            continue
        pairs = []
        k = 0
        while k + 1 < len(words) and words[k] in ("router", "node") and number_of(words[k + 1]) >= 0:
            pairs.append((words[k], number_of(words[k + 1])))
            k += 2
            if k < len(words) and number_of(words[k]) >= 0:
                k += 1
        if k != len(words) or len(pairs) < 2:
            raise Refusal(f"{path}, line {number}: it is no line `router R node N router S LATENCY ..`")
        for kind, other in pairs[1:]:
            head, first = pairs[0]
            if (head, kind) == ("router", "router"):
                for r, s in ((first, other), (other, first)):
                    links.setdefault(r, [])
                    if s not in links[r]:
                        links[r].append(s)
            elif head != kind:
                router, node = (first, other) if head == "router" else (other, first)
                links.setdefault(router, [])
                nodes[node] = router
            else:
                raise Refusal(f"{path}, line {number}: it links two nodes")
    if not nodes:
        raise Refusal(f"{path}: there is no node")
    return links, dict(sorted(nodes.items()))


def booksim(text: str, path: str) -> Network:
    """The network of an `anynet` file, by shortest paths."""
    links, nodes = anynet(text, path)
    return shortest(links, nodes, {r: Router(str(r)) for r in sorted(links)})
