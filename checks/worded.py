"""Clocked rounds as docs/FORMATS.md words them, and how far flits go in a round; for checks/clocked_rows."""
from __future__ import annotations

import copy
from collections import Counter
from typing import Callable, Iterator, Tuple

from torusmem_tools.model import campaign_cases, clocked_rounds, replay


def in_turn(machine: replay.Machine, number: int) -> Iterator[clocked_rounds.Attempt]:
    """The attempts of the round of a number, in their order, enabled or not, where the puts begin at the input whose turn it is."""
    for agent, choice, port in replay.attempts(machine.shape):
        yield agent, choice, ((port or 0) + (number - 1 if choice == "put" else 0)) % machine.shape.ports


def issue_of(machine: replay.Machine, agent: int, port: int) -> int:
    """The number of the issue of the operation whose head stands at an input of a router; 0 where none does."""
    flit = machine.routers[agent // 3].latches.get(port)
    return flit.operation.events[0] if flit and flit.number == 0 else 0


def by_age(machine: replay.Machine, number: int) -> Iterator[clocked_rounds.Attempt]:
    """The attempts of a round, in their order, enabled or not, where the heads go in the order of issue, behind other flits."""
    puts: list[Tuple[int, clocked_rounds.Attempt]] = []
    for agent, choice, port in replay.attempts(machine.shape):
        if choice == "put":
            puts.append((issue_of(machine, agent, port or 0), (agent, choice, port or 0)))
            continue
        yield from (it for _, it in sorted(puts))
        puts.clear()
        yield agent, choice, port or 0


ORDERS = {"turn": in_turn, "oldest": by_age}


def moves(arbiter: str, machine: replay.Machine, number: int, _: replay.Begins) -> list[str]:
    """Makes the clocked round of this number as docs/FORMATS.md words it, and answers the lines of its moves."""
    twin: Callable[[], replay.Machine] = lambda: copy.deepcopy(machine, {id(machine.shape): machine.shape})
    enabled, tried = [], twin()
    for attempt in ORDERS[arbiter](machine, number):
        if tried.step(*attempt, number):
            enabled.append(attempt)
            tried = twin()
    return [clocked_rounds.line(it) for it in enabled if machine.step(*it, number)]


def stages(case: campaign_cases.Case, schedule: str) -> int:
    """The most stages that a flit of a schedule goes in one round."""
    machine, most = replay.Machine(case), 0
    for number, attempts in replay.schedule_of(schedule.encode("ascii")).rounds:
        gone: Counter[replay.Flit | None] = Counter()
        for agent, choice, port in attempts:
            tile, router = agent // 3, machine.routers[agent // 3]
            end: replay.Processor | replay.Bank = machine.banks[tile] if agent % 3 == 2 else machine.processors[tile]
            flit = router.latches[port] if choice == "put" else None
            if choice == "take":
                flit = (router.inputs[port] if agent % 3 == 1 else end.input).flits[0]
            machine.step(agent, choice, port, number)
            gone[end.output.flits[-1] if choice == "send" else flit] += 1
        del gone[None]
        most = max(most, *gone.values(), 0)
    return most
