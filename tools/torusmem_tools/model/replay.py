"""Replays a schedule on a machine in plain Python, flit by flit, after the tables of docs/FLITS-AND-PORTS.md.

It reads texts that `torusmem steps` has accepted, and its events are compared with those of the report that
`torusmem steps` prints of the same texts. So what a tool prints of channels holds for the proved run. The machine and its
rounds, which stand in modules of their own, are named here too.
"""
from __future__ import annotations

import re
from dataclasses import dataclass
from typing import Iterator

from torusmem_tools import command
from torusmem_tools.model import campaign_cases
from torusmem_tools.model.agents import Bank, Processor, Router
from torusmem_tools.model.flits import Channel, Flit, Operation, packet
from torusmem_tools.model.machine import Machine
from torusmem_tools.model.ordered_rounds import Begins, Rounds, at_once, attempts, in_order, scheduled
from torusmem_tools.model.torus import Shape
from torusmem_tools.texts import report

__all__ = ["Bank", "Channel", "Flit", "Machine", "Operation", "Processor", "Router", "Shape", "packet"]
__all__ += ["Begins", "Rounds", "at_once", "attempts", "in_order", "scheduled"]
__all__ += ["MOST_BYTES", "Schedule", "Texts", "case_of", "compare", "last", "replayed", "schedule_of"]
# A schedule of the longest run: 241 moves for each of 65,536 operations, and a heading for each round.
MOST_BYTES = 1 << 30
HEADING = re.compile(rb"# round ([0-9]{1,20})")


@dataclass
class Schedule:
    """The attempts of a text by its rounds, each with its number; without headings each attempt is alone."""

    rounds: list[tuple[int, list[tuple[int, str, int]]]]
    has_rounds: bool

    def unit(self) -> str:
        """In what times are counted: in rounds, or in moves where the text has no headings."""
        return "round" if self.has_rounds else "move"


def words_of(line: bytes) -> list[str]:
    """The words of a line of a text that the program has accepted; none of a comment. Numbers lose leading zeros."""
    words = [it for it in re.split(rb"[ \t]+", line[:-1] if line.endswith(b"\r") else line) if it]
    if not words or words[0].startswith(b"#"):
        return []
    return [(it.lstrip(b"0") or b"0").decode("ascii") if it.isdigit() else it.decode("ascii") for it in words]


def schedule_of(text: bytes) -> Schedule:
    """The schedule of a text of steps."""
    made = Schedule([], False)
    for line in text.split(b"\n"):
        heading = HEADING.fullmatch(line)
        if heading:
            if not made.has_rounds:
                # what stands in front of the first heading is no round's: it goes as round 0
                made = Schedule([(0, [it for _, steps in made.rounds for it in steps])], True)
            made.rounds.append((int(heading[1]), []))
            continue
        words = words_of(line)
        if words:
            if not made.has_rounds:
                made.rounds.append((0, []))
            made.rounds[-1][1].append((int(words[0]), words[1], int(words[2]) if len(words) > 2 else 0))
    return made


@dataclass
class Texts:
    """A run: its machine and scripts, its schedule, and its report."""

    case: campaign_cases.Case
    schedule: Schedule
    report: report.Report


def case_of(machine: bytes, script: bytes) -> campaign_cases.Case:
    """The machine and the scripts of two texts that the program has accepted."""
    rows = ["\n".join(" ".join(words_of(it)) for it in text.split(b"\n")) for text in (machine, script)]
    return campaign_cases.case_of_texts("draw", rows[0], rows[1], "", [])


def replay_rounds(texts: Texts) -> Iterator[tuple[Machine, int]]:
    """The machine after each round of the schedule that moves, and the round's number, or the number of the move.

    Refuses, at the end, a run whose events, operations and replies aren't those of the report.
    """
    machine = Machine(texts.case)
    for number, attempts in texts.schedule.rounds:
        now = number if texts.schedule.has_rounds else machine.moves + 1
        moves = sum([machine.step(*it, now) for it in attempts])
        if moves:
            machine.moves += moves
            machine.rounds += 1
            machine.end_round()
            yield machine, now
    compare(machine, texts.report)


def last(texts: Texts) -> Machine:
    """The machine after the whole schedule."""
    machine = Machine(texts.case)
    for machine, _ in replay_rounds(texts):
        pass
    return machine


def compare(machine: Machine, found: report.Report) -> None:
    """Refuses a replay whose answers are not those of the report: their events, operations and replies."""
    made = {
        (it.processor, it.index): (it.bank, it.kind, it.address, tuple(it.values), it.old, *it.events)
        for it in machine.operations()
        if it.answered is not None
    }
    told = {
        (it.source, it.index): (it.bank, it.kind, it.address, it.values, it.reply or 0, it.issued, it.served, it.answered)
        for it in found.entries
        if it.index is not None
    }
    if made != told or found.is_complete != machine.is_finished():
        raise command.Refusal("the replay of the schedule is not the run of the report that `torusmem steps` prints")
