"""Rounds in order on a machine in plain Python, each choice of each agent attempted once; and the schedule of a run that is
made of rounds."""
from __future__ import annotations

from typing import Callable, Iterator, List

from torusmem_tools.model.agents import Processor
from torusmem_tools.model.machine import Machine
from torusmem_tools.model.torus import Shape


def attempts(shape: Shape) -> Iterator[tuple[int, str, int | None]]:
    """The attempts of a round, in its order: the agent, its choice, and the number of the port if the choice has one."""
    for tile in range(shape.tiles):
        agent = 3 * tile
        yield from ((agent, it, None) for it in ("send", "take", "credit", "done", "look"))
        yield from ((agent + 1, it, port) for it in ("take", "put", "credit") for port in range(8 * shape.dims + 2))
        yield from ((agent + 2, it, None) for it in ("take", "serve", "send", "credit"))


# Whether a processor may begin its next operation now.
Begins = Callable[[Processor], bool]
# Makes the round of a number, and answers the lines of its moves.
Rounds = Callable[[Machine, int, Begins], List[str]]


def at_once(processor: Processor) -> bool:
    """A processor begins its next operation as soon as it can."""
    return True


def in_order(shape: Shape) -> Rounds:
    """What makes rounds in order: each choice of each agent is attempted once."""
    tries = [(*it, " ".join(str(word) for word in it if word is not None)) for it in attempts(shape)]

    def waits(machine: Machine, agent: int, choice: str, begins: Begins) -> bool:
        at = machine.processors[agent // 3]
        return agent % 3 == 0 and choice == "send" and not at.leaving and at.ready() is not None and not begins(at)

    return lambda machine, number, begins: [
        text
        for agent, choice, port, text in tries
        if not waits(machine, agent, choice, begins) and machine.step(agent, choice, port or 0, number)
    ]


def scheduled(machine: Machine, most: int, made: Rounds) -> Iterator[str]:
    """The lines of the schedule of a run whose rounds are made so: until every script is finished, at most so many."""
    for number in range(1, most + 1):
        if machine.is_finished():
            break
        moves = made(machine, number, at_once)
        yield from [f"# round {number}", *moves] if moves else []
    yield "# finished" if machine.is_finished() else "# stopped"
