"""Clocked rounds of a machine in plain Python: each choice that is enabled when a round begins is attempted once.

An arbiter orders the puts of a router. By `oldest` the flits that no head leads come first, and then the heads by the issues
of their operations; by `turn` puts begin at the input whose turn it is: the number of rounds before, modulo that of the
inputs. A guard holds the processors back while an operation is out for long.
`tools/schedule --clocked` prints these moves, and nothing where one of them is none in `torusmem steps`.
"""
from __future__ import annotations

from typing import Callable, Iterator, List, Tuple

from torusmem_tools.model import campaign_cases, replay

Attempt = Tuple[int, str, int]
# The inputs of a router that have a flit, in the order of its puts in the round behind so many.
Arbiter = Callable[[replay.Router, int], List[int]]
# Moves for each tag of each tile; as many rounds a guard waits that isn't given.
GUARD = 241


def oldest(at: replay.Router, before: int) -> list[int]:
    """The operation that was issued first goes first."""
    return sorted(sorted(at.latches), key=lambda port: 0 if at.latches[port].number else at.latches[port].operation.events[0])


def turn(at: replay.Router, before: int) -> list[int]:
    """The puts begin at the input whose turn it is."""
    return sorted(at.latches, key=lambda port: ((port - before) % at.shape.ports))


ARBITERS: dict[str, Arbiter] = {"oldest": oldest, "turn": turn}


def of_processor(machine: replay.Machine, at: replay.Processor, begins: replay.Begins) -> Iterator[str]:
    """The choices of a processor that are enabled."""
    if at.output.credits and (at.leaving or (at.ready() is not None and begins(at))):
        yield "send"
    if at.input.flits:
        yield "take"
    if at.output.returned:
        yield "credit"
    if not at.is_reported and at.is_finished():
        yield "done"
    if at.is_reported and not at.has_seen and machine.reported == machine.shape.tiles:
        yield "look"


def can_put(at: replay.Router, port: int) -> bool:
    """Whether the flit in a latch has its output and a credit there."""
    output = at.wanted(port)
    return output is not None and at.outputs[output].credits > 0


def of_router(at: replay.Router, puts: list[int]) -> Iterator[tuple[str, int]]:
    """The choices of a router that are enabled, where its puts are attempted in this order."""
    yield from (("take", port) for port, it in enumerate(at.inputs) if it.flits and port not in at.latches)
    yield from (("put", port) for port in puts if can_put(at, port))
    yield from (("credit", port) for port, it in enumerate(at.outputs) if it.returned)


def of_bank(at: replay.Bank) -> Iterator[str]:
    """The choices of a bank that are enabled."""
    if at.input.flits and not at.waiting and not at.leaving:
        yield "take"
    if at.waiting:
        yield "serve"
    if at.leaving and at.output.credits:
        yield "send"
    if at.output.returned:
        yield "credit"


def enabled(machine: replay.Machine, before: int, begins: replay.Begins, arbiter: Arbiter) -> list[Attempt]:
    """The attempts that are enabled now, in the order of the round behind so many."""
    made: list[Attempt] = []
    for tile in range(machine.shape.tiles):
        agent, router = 3 * tile, machine.routers[tile]
        made += [(agent, choice, 0) for choice in of_processor(machine, machine.processors[tile], begins)]
        made += [(agent + 1, choice, port) for choice, port in of_router(router, arbiter(router, before))]
        made += [(agent + 2, choice, 0) for choice in of_bank(machine.banks[tile])]
    return made


def line(attempt: Attempt) -> str:
    """The line of a move: the number of a port stands behind a choice of a router alone."""
    agent, choice, port = attempt
    return f"{agent} {choice} {port}" if agent % 3 == 1 else f"{agent} {choice}"


class Clocked:
    """Makes clocked rounds by an arbiter. Where an operation has been out for more rounds than a guard allows, a round begins
    none; without a guard each may."""

    def __init__(self, arbiter: Arbiter, guard: int | None = None) -> None:
        self.arbiter, self.guard = arbiter, guard
        # in how many rounds none began
        self.held = 0

    def is_held(self, machine: replay.Machine, number: int) -> bool:
        """Whether the guard holds back what would begin in the round of this number."""
        if self.guard is None:
            return False
        out = (it for at in machine.processors for it in at.tags if it is not None)
        return any(it.issued + self.guard + 1 < number for it in out)

    def moves(self, machine: replay.Machine, number: int, begins: replay.Begins) -> list[str]:
        """Makes the round of this number, from 1 on, and answers the lines of its moves."""
        is_held = self.is_held(machine, number)
        self.held += is_held
        made = enabled(machine, number - 1, (lambda at: False) if is_held else begins, self.arbiter)
        return [line(it) for it in made if machine.step(*it, number)]


def guard_of(case: campaign_cases.Case) -> int:
    """The guard of a machine, where none is given."""
    return GUARD * case.tiles() * case.tags


def bound(case: campaign_cases.Case, guard: int | None = None) -> int:
    """No operation is out for more rounds than these (`no_operation_waits_forever` of the crate fair_rounds)."""
    most = guard_of(case)
    return (most if guard is None else guard) + most + 2 * case.tiles() + 1


def fair(case: campaign_cases.Case, guard: int | None = None) -> Clocked:
    """Rounds in which the oldest operation goes first, with this guard, or with that of the machine."""
    return Clocked(oldest, guard_of(case) if guard is None else guard)
