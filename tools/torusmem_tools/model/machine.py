"""A machine in plain Python, flit by flit: its agents, and what an attempt of one of them does."""
from __future__ import annotations

from torusmem_tools.model import campaign_cases
from torusmem_tools.model.agents import Bank, Processor, Router
from torusmem_tools.model.flits import Channel, Operation, packet
from torusmem_tools.model.operations import word_after
from torusmem_tools.model.torus import Shape


class Machine:
    """A machine of two texts, in the beginning."""

    def __init__(self, case: campaign_cases.Case) -> None:
        self.shape = Shape(case.radices, case.datelines or [it - 1 for it in case.radices])
        self.depth, tiles = case.depth, self.shape.tiles
        self.channels = [Channel(case.depth) for _ in range(tiles * self.shape.at_tile)]
        scripts: list[list[str]] = [[] for _ in range(tiles)]
        for processor, line in case.lines:
            scripts[processor].append(line)
        each = range(tiles)
        self.processors = [Processor(self.shape, self.channels, it, case.tags, scripts[it]) for it in each]
        self.routers = [Router(self.shape, self.channels, it) for it in each]
        self.banks = [Bank(self.shape, self.channels, it) for it in each]
        self.memory = dict(case.opening)
        self.reported = self.events = self.moves = self.rounds = 0

    def event(self, operation: Operation) -> None:
        """Numbers an event of an operation."""
        self.events += 1
        operation.events.append(self.events)

    def send(self, at: Processor, now: int) -> bool:
        """A processor puts a flit; with a head an operation is issued."""
        if not at.output.credits:
            return False
        if not at.leaving:
            issued = at.issue(now)
            if issued is None:
                return False
            self.event(issued)
            at.leaving = packet(issued, False)
        at.output.put(at.leaving.popleft(), now)
        return True

    def take(self, at: Processor, now: int) -> bool:
        """A processor takes a flit; with the last one of a reply an operation is answered."""
        flit = at.input.take()
        if flit is None:
            return False
        at.coming.append(flit)
        if flit.is_tail():
            at.coming = []
            at.tags[flit.operation.tag] = None
            at.out -= 1
            flit.operation.answered = now
            self.event(flit.operation)
        return True

    def serve(self, at: Bank, now: int) -> bool:
        """A bank serves the request that waits."""
        asked = at.waiting
        if asked is None:
            return False
        word = self.memory.get(asked.address, 0)
        self.memory[asked.address] = word_after(asked.kind, asked.values, word)
        asked.old, asked.served = 0 if asked.kind == "store" else word, now
        at.waiting, at.leaving = None, packet(asked, True)
        self.event(asked)
        return True

    def processor_step(self, at: Processor, choice: str, now: int) -> bool:
        """Makes a processor's choice; whether it moved."""
        if choice == "send":
            return self.send(at, now)
        if choice == "take":
            return self.take(at, now)
        if choice == "credit":
            return at.output.credit()
        if choice == "done":
            moved = not at.is_reported and at.is_finished()
            self.reported += moved
            at.is_reported |= moved
            return moved
        moved = at.is_reported and not at.has_seen and self.reported == self.shape.tiles
        at.has_seen |= moved
        return moved

    def bank_step(self, at: Bank, choice: str, now: int) -> bool:
        """Makes a bank's choice; whether it moved."""
        if choice == "take":
            return at.take()
        if choice == "serve":
            return self.serve(at, now)
        return at.send(now) if choice == "send" else at.output.credit()

    def step(self, agent: int, choice: str, port: int, now: int) -> bool:
        """Makes an attempt; whether it moved."""
        tile, kind = divmod(agent, 3)
        if kind == 0:
            return self.processor_step(self.processors[tile], choice, now)
        if kind == 1:
            return self.routers[tile].step(choice, port, now)
        return self.bank_step(self.banks[tile], choice, now)

    def end_round(self) -> None:
        """Counts for each channel the round at whose end a flit stands before it without a credit."""
        agents: list[Processor | Router | Bank] = [*self.processors, *self.routers, *self.banks]
        for agent in agents:
            for channel in agent.blocked():
                channel.waited += 1

    def operations(self) -> list[Operation]:
        """All operations that are issued, by processor and index."""
        return [it for processor in self.processors for it in processor.operations]

    def is_finished(self) -> bool:
        """Whether every script is finished."""
        return all(it.is_finished() for it in self.processors)
