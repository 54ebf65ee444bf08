"""The tools' model of a machine (torusmem_tools.model.machine, after the tables of docs/FLITS-AND-PORTS.md), as the library shows a
machine: to be stepped beside the library's. It reads texts without faults."""

from __future__ import annotations

import os
import sys
from typing import Any, List, Optional, Tuple

# Where the tools stand, in the repository and in an archive.
ROOT = os.path.join(os.path.dirname(os.path.realpath(__file__)), "..", "..", "..")
sys.path += [os.path.join(ROOT, "tools"), os.path.join(ROOT, "libexec", "torusmem")]

from torusmem_tools.model import replay  # noqa: E402

HEAD, TAIL, FLIT = 1 << 63, 1 << 62, 1 << 61
NAMES = "load store swap cas add and or xor max min".split()
# The choices by their numbers; a router's have a number of their own.
CHOICES = "send take take put credit credit serve done look".split()
OF_ROUTERS = {"take": 2, "put": 3, "credit": 5}


class Model:
    """A machine of two texts without faults."""

    def __init__(self, machine: str, scripts: str) -> None:
        self.case = replay.case_of(machine.encode("ascii"), scripts.encode("ascii"))
        self.machine = replay.Machine(self.case)
        self.shape = self.machine.shape
        # The attempts of a round, in order.
        self.steps = [(agent, OF_ROUTERS[word] if agent % 3 == 1 else CHOICES.index(word), port or 0)
                      for agent, word, port in replay.attempts(self.shape)]

    def step(self, agent: int, choice: int, number: int = 0) -> bool:
        """Attempts a choice of an agent, which has it; whether it moved."""
        return self.machine.step(agent, CHOICES[choice], number, 0)

    def is_finished(self) -> bool:
        return self.machine.is_finished()

    def served(self, tile: int) -> List[Any]:
        """The operations that a bank has served, in its order."""
        return sorted((it for it in self.machine.operations() if it.bank == tile and it.served is not None), key=lambda it: it.events[1])

    def entries(self, tile: int) -> List[Tuple[int, int, int, str, Tuple[int, ...], Optional[int]]]:
        """What a bank has served: the processor, the tag, the address, the operation, its values, and the word that it found."""
        return [(it.processor, it.tag, it.address, it.kind, tuple(it.values), old_of(it)) for it in self.served(tile)]

    def answers(self, tile: int) -> List[Tuple[int, str, Tuple[int, ...], int, int, Optional[int]]]:
        """What a processor is answered, in the order of the answers: the index, the operation, its values, its bank, its place
        there, and the word that it found."""
        answered = sorted((it for it in self.machine.processors[tile].operations if it.answered is not None), key=lambda it: it.events[2])
        return [(it.index, it.kind, tuple(it.values), it.bank, self.served(it.bank).index(it), old_of(it)) for it in answered]

    def row(self) -> List[int]:
        """The whole row of words: the channels, the memory, and how many processors have reported."""
        found: List[int] = []
        for channel in self.machine.channels:
            first, slots = channel.put_count - len(channel.flits), [0] * self.case.depth
            for number, flit in enumerate(channel.flits, first):
                slots[number % self.case.depth] = self.spelled(flit)
            found += slots
        words = [self.machine.memory.get(it, 0) for it in range(self.case.words)]
        return [*found, *words, self.machine.reported]

    def spelled(self, flit: Any) -> int:
        """The bits of a flit: in the head what the packet is, behind it the halves of its values."""
        it, is_reply = flit.operation, flit.is_reply
        tail = TAIL if flit.is_tail() else 0
        if flit.number:
            value = it.old if is_reply else it.values[(flit.number - 1) // 2]
            return tail | FLIT | (value >> 32 if flit.number % 2 else value & 0xFFFFFFFF)
        code, (dst, src) = NAMES.index(it.kind), (it.processor, it.bank) if is_reply else (it.bank, it.processor)
        low = self.served(it.bank).index(it) if is_reply else it.address // self.shape.tiles
        return HEAD | tail | FLIT | code % 8 << 58 | is_reply << 57 | dst << 51 | src << 45 | it.tag << 41 | code // 8 << 40 | low


def old_of(it: Any) -> Optional[int]:
    """The word in a reply; none in that of a store."""
    return None if it.kind == "store" else it.old
