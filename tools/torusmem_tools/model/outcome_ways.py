"""The channels that the packets of some scripts may use, each way channel by channel, for model/outcome_states.py."""
from __future__ import annotations

from dataclasses import dataclass, field
from typing import Dict, List, NamedTuple, Set, Tuple

from torusmem_tools.model import campaign_cases
from torusmem_tools.model.operations import VALUES
from torusmem_tools.model.torus import Shape

# A line of a script: its processor, by its place among those that have lines, and its number there.
Key = Tuple[int, int]
# The agent of a tile that takes from a channel or puts into it.
PROCESSOR, ROUTER, BANK = range(3)


class Line(NamedTuple):
    """A line of a script: its words, its address, and the flits of the packets of its operation."""

    words: List[str]
    address: int
    asked: int
    replied: int


class End(NamedTuple):
    """An end of a channel: which agent of which tile, and at which port of a router."""

    agent: int
    tile: int
    port: int


@dataclass
class Way:
    """A channel: the ends that put and take, its class, and the channel on which the packets of each line go on."""

    giver: End
    taker: End
    is_reply: bool
    onward: Dict[Key, int] = field(default_factory=dict)
    # the channels from which heads come into it
    inputs: Set[int] = field(default_factory=set)


def line_of(text: str) -> Line:
    """A line of a script without its processor."""
    words = text.split()
    kind = "load" if words[0] == "spin" else words[0]
    address = -1 if kind == "fence" else int(words[1])
    return Line(words, address, 1 + 2 * VALUES.get(kind, 0), 1 if kind == "store" else 3)


class Ways:
    """The ways of all packets of some scripts."""

    def __init__(self, case: campaign_cases.Case) -> None:
        self.shape = Shape(case.radices, case.datelines or [it - 1 for it in case.radices])
        self.tiles = sorted({it for it, _ in case.lines})
        self.scripts = [[line_of(text) for at, text in case.lines if at == it] for it in self.tiles]
        self.channels: List[Way] = []
        self.places: Dict[int, int] = {}
        for at, tile in enumerate(self.tiles):
            for number, line in enumerate(self.scripts[at]):
                if line.address >= 0:
                    home = line.address % self.shape.tiles
                    self.walk((at, number), tile, home, False)
                    self.walk((at, number), home, tile, True)

    def place(self, channel: int, giver: End, taker: End, is_reply: bool) -> int:
        """The place of a channel among those that are used, by its place among all."""
        if channel not in self.places:
            self.places[channel] = len(self.channels)
            self.channels.append(Way(giver, taker, is_reply))
        return self.places[channel]

    def walk(self, key: Key, tile: int, to: int, is_reply: bool) -> None:
        """Notes the way of the packets of a line from a tile to a tile."""
        shape, port = self.shape, 8 * self.shape.dims + is_reply
        sender = End(BANK if is_reply else PROCESSOR, tile, 0)
        here = self.place(shape.input(tile, port), sender, End(ROUTER, tile, port), is_reply)
        while True:
            output = shape.way(tile, port, to, is_reply)
            giver = End(ROUTER, tile, output)
            is_last = output >= 8 * shape.dims
            after = tile if is_last else shape.next_tile(tile, output // 8, -1 if output // 4 % 2 else 1)
            taker = End(PROCESSOR if is_reply else BANK, tile, 0) if is_last else End(ROUTER, after, output)
            there = self.place(shape.output(tile, output), giver, taker, is_reply)
            self.channels[here].onward[key] = there
            self.channels[there].inputs.add(here)
            if is_last:
                return
            here, tile, port = there, after, output
