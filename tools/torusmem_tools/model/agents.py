"""The agents of a machine in plain Python, after the tables of docs/FLITS-AND-PORTS.md: routers, banks and processors."""
from __future__ import annotations

from collections import deque
from typing import Iterator

from torusmem_tools.model.flits import Channel, Flit, Operation
from torusmem_tools.model.torus import Shape


class Router:
    """A router: the flit in the latch of each input, and which input owns which output."""

    def __init__(self, shape: Shape, channels: list[Channel], tile: int) -> None:
        self.inputs = [channels[shape.input(tile, port)] for port in range(shape.ports)]
        self.outputs = [channels[shape.output(tile, port)] for port in range(shape.ports)]
        self.latches: dict[int, Flit] = {}
        self.owned: dict[int, int] = {}
        self.ways: dict[tuple[int, int, bool], int] = {}
        self.shape, self.tile = shape, tile

    def wanted(self, port: int) -> int | None:
        """The output for the flit in a latch; None where another input owns it."""
        flit = self.latches[port]
        if flit.number:
            return self.owned[port]
        key = (port, flit.destination(), flit.is_reply)
        if key not in self.ways:
            self.ways[key] = self.shape.way(self.tile, *key)
        return None if self.ways[key] in self.owned.values() else self.ways[key]

    def step(self, choice: str, port: int, now: int) -> bool:
        """Makes a choice; whether it moved."""
        if choice == "credit":
            return self.outputs[port].credit()
        if choice == "take":
            flit = None if port in self.latches else self.inputs[port].take()
            if flit is not None:
                self.latches[port] = flit
            return flit is not None
        return port in self.latches and self.put(port, now)

    def put(self, port: int, now: int) -> bool:
        """Puts the flit in a latch on the output for it; whether it could."""
        output = self.wanted(port)
        if output is None or not self.outputs[output].credits:
            return False
        flit = self.latches.pop(port)
        self.outputs[output].put(flit, now)
        if flit.is_tail():
            self.owned.pop(port, None)
        else:
            self.owned[port] = output
        return True

    def blocked(self) -> Iterator[Channel]:
        """The channels before which a flit stands while the router holds no credit."""
        for port in self.latches:
            output = self.wanted(port)
            if output is not None and not self.outputs[output].credits:
                yield self.outputs[output]


class Bank:
    """A bank: the flits of the request that comes in, the one that waits, and the flits of the reply."""

    def __init__(self, shape: Shape, channels: list[Channel], tile: int) -> None:
        self.input = channels[tile * shape.at_tile + shape.ports]
        self.output = channels[tile * shape.at_tile + shape.ports - 1]
        self.coming: list[Flit] = []
        self.waiting: Operation | None = None
        self.leaving: deque[Flit] = deque()

    def take(self) -> bool:
        """Takes the next flit of a request; whether it could."""
        flit = None if self.waiting or self.leaving else self.input.take()
        if flit is None:
            return False
        self.coming.append(flit)
        if flit.is_tail():
            self.waiting, self.coming = flit.operation, []
        return True

    def send(self, now: int) -> bool:
        """Puts the next flit of the reply; whether it could."""
        if not self.leaving or not self.output.credits:
            return False
        self.output.put(self.leaving.popleft(), now)
        return True

    def blocked(self) -> Iterator[Channel]:
        """Its output, where a flit stands before it and the bank holds no credit."""
        if self.leaving and not self.output.credits:
            yield self.output


class Processor:
    """A processor: what is left of its script, its operations, and which of them holds each tag."""

    def __init__(self, shape: Shape, channels: list[Channel], tile: int, tags: int, lines: list[str]) -> None:
        self.input = channels[tile * shape.at_tile + shape.ports + 1]
        self.output = channels[tile * shape.at_tile + shape.ports - 2]
        self.shape, self.tile = shape, tile
        self.script = deque(it.split() for it in lines)
        self.tags: list[Operation | None] = [None] * tags
        self.operations: list[Operation] = []
        self.out = 0
        self.spun = 0
        self.coming: list[Flit] = []
        self.leaving: deque[Flit] = deque()
        self.is_reported = self.has_seen = False

    def last(self) -> int | None:
        """The number replied to the last operation that was issued, if it is answered."""
        if not self.operations or self.operations[-1].answered is None:
            return None
        return self.operations[-1].old

    def pass_on(self) -> None:
        """Drops what needs nothing more from the front of the script: fences behind answers, and ended spins."""
        while self.script:
            words = self.script[0]
            if words[0] == "fence" and not self.out:
                self.script.popleft()
            elif self.spun and self.last() is not None and (self.last() == int(words[2]) or self.spun == int(words[3])):
                self.script.popleft()
                self.spun = 0
            else:
                return

    def ready(self) -> tuple[str, int, list[int]] | None:
        """The next operation, where it can be issued: its kind, address and values."""
        self.pass_on()
        if not self.script or self.script[0][0] == "fence" or None not in self.tags:
            return None
        kind, address, *rest = self.script[0]
        last = self.last()
        if kind == "spin":
            return None if self.spun and last is None else ("load", int(address), [])
        if "last" in rest and last is None:
            return None
        return kind, int(address), [(last or 0) if it == "last" else int(it) for it in rest]

    def issue(self, now: int) -> Operation | None:
        """Issues the next operation, if it can be."""
        found = self.ready()
        if found is None:
            return None
        kind, address, values = found
        tag, bank = self.tags.index(None), address % self.shape.tiles
        made = Operation(self.tile, len(self.operations), kind, address, values, tag, bank, now)
        self.tags[tag] = made
        self.operations.append(made)
        self.out += 1
        if self.script[0][0] == "spin":
            self.spun += 1
        else:
            self.script.popleft()
        return made

    def is_finished(self) -> bool:
        """Whether all of its script is issued and answered."""
        self.pass_on()
        return not self.script and not self.out

    def blocked(self) -> Iterator[Channel]:
        """Its output, where a flit stands before it and the processor holds no credit."""
        if not self.output.credits and (self.leaving or self.ready() is not None):
            yield self.output
