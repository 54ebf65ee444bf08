"""How many channels the shortest way between two ends of a network has, by its choices."""
from __future__ import annotations

from collections import deque
from typing import Dict, List

from torusmem_tools.model.network import Network


class Ways:
    """The shortest ways to each ejection channel, as they are asked for."""

    def __init__(self, net: Network) -> None:
        self.net = net
        self.before: Dict[int, Dict[int, List[int]]] = {}
        for (x, j), ys in net.choices.items():
            for y in ys:
                self.before.setdefault(j, {}).setdefault(y, []).append(x)
        self.found: Dict[int, Dict[int, int]] = {}

    def channels(self, i: int, j: int) -> int:
        """How many channels a packet goes over at least, with both ends; 0 where there is no way."""
        if j not in self.found:
            self.found[j] = self.lengths(j)
        return self.found[j].get(i, 0)

    def lengths(self, j: int) -> Dict[int, int]:
        """The same from each channel from which there is a way to an ejection channel."""
        found, queue, before = {j: 1}, deque([j]), self.before.get(j, {})
        while queue:
            y = queue.popleft()
            for x in before.get(y, ()):
                if x not in found:
                    found[x] = found[y] + 1
                    queue.append(x)
        return found
