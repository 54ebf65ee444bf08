"""Traffic as tables (CSV), for tools/network and tools/sweep: packets one by one, and how often packets go between two places."""
from __future__ import annotations

from typing import Dict, List, Tuple

from torusmem_tools.command import Refusal
from torusmem_tools.model.network import Network, number_of
from torusmem_tools.model.packet_rounds import MOST, Packet
from torusmem_tools.texts.network_rows import cells_of
from torusmem_tools.texts.routing_table import heads_of

# The columns that a table of packets has, and those that it may have.
COLUMNS, FURTHER = ["round", "source", "destination"], ["length", "class"]
# A weight of a matrix is kept in parts of this.
PARTS = 1000000
# Senders and receivers that belong together, in the order of their channels: a message class.
Group = Tuple[List[int], List[int]]


class Places:
    """The places of senders and receivers in each class: their numbers, or the names of their routers."""

    def __init__(self, net: Network, groups: List[Group]) -> None:
        self.groups = groups
        names = {r: it.name for r, it in net.routers.items()}
        self.named: Dict[Tuple[int, str], Tuple[int, int]] = {}
        for at, (starts, ends) in enumerate(groups):
            for place, (x, y) in enumerate(zip(starts, ends)):
                if x in net.links and net.links[x].start in names:
                    self.named.setdefault((at, names[net.links[x].start]), (x, y))

    def channel(self, group: int, word: str, side: int) -> int:
        """The channel of the sender (0) or receiver (1) that a word names in a class, or -1."""
        if (group, word) in self.named:
            return self.named[group, word][side]
        number, here = number_of(word), self.groups[group][side]
        return here[number] if 0 <= number < len(here) else -1


def packets(net: Network, groups: List[Group], text: str, path: str, size: int) -> List[Packet]:
    """The packets of a table, in the order of its rows. Refused with the first row that is none, or whose pair has no packets."""
    cells, places, joined = cells_of(text, path), Places(net, groups), set(net.joins)
    heads, found = heads_of(cells[0][1], path, COLUMNS, FURTHER), []
    for line, row in cells[1:]:
        if not row:
            continue
        words = {"length": "", "class": "", **dict(zip(heads, [it.strip() for it in row] + [""] * len(heads)))}
        where, group = f"{path}, line {line}", number_of(words["class"] or "0")
        number, flits = number_of(words["round"]), number_of(words["length"] or str(size))
        if len(row) > len(heads) or not 1 <= number <= MOST or not 1 <= flits <= MOST:
            raise Refusal(f"{where}: a row says {','.join(heads)}, and rounds and lengths are 1 to {MOST}")
        if not 0 <= group < len(groups):
            raise Refusal(f"{where}: there is no class {words['class']}: the network has {len(groups)}, from 0 on")
        x, y = (places.channel(group, words[name], side) for side, name in enumerate(("source", "destination")))
        if (x, y) not in joined:
            raise Refusal(f"{where}: no packets go from {words['source'] or 'nothing'} to {words['destination'] or 'nothing'} in class {group}")
        found.append(Packet(number, x, y, flits))
    if not found:
        raise Refusal(f"{path}: there is no row behind the first line")
    return found


def matrix(text: str, path: str) -> List[List[int]]:
    """The rows of a matrix of decimal numbers, in parts."""
    found = []
    for line, row in cells_of(text, path):
        if not row:
            continue
        words = [it.strip() for it in row]
        bad = [it for it in words if not it.replace(".", "", 1).isdigit() or not it.isascii() or len(it) > 20]
        if bad:
            raise Refusal(f"{path}, line {line}: '{bad[0]}' is no decimal number")
        found.append([round(float(it) * PARTS) for it in words])
    if not any(map(any, found)):
        raise Refusal(f"{path}: no number is above 0, so no packets go anywhere")
    return found


def fit(rows: List[List[int]], path: str, starts: int, ends: int) -> None:
    """Refuses a matrix that isn't one of so many senders and receivers."""
    if len(rows) != starts:
        raise Refusal(f"{path} has {len(rows)} rows, and {starts} senders belong together")
    for row in rows:
        if len(row) != ends:
            raise Refusal(f"{path}, row {rows.index(row) + 1}: it has {len(row)} numbers, and {ends} receivers belong together")
