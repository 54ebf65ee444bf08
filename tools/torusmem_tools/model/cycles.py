"""Cycles of so many rounds. A flit passes a channel in two rounds, a take and a put, and in one cycle of most other
simulators; so curves that are to stand beside theirs count cycles of two rounds."""
from __future__ import annotations

from typing import Optional

from torusmem_tools import command

MOST = 16
HELP = "rounds that count as a cycle: 2 beside simulators in which a flit passes a channel in one; 1 if not given"


def add_word(parser: command.Parser, of: str = "") -> None:
    """Adds the option of the command line."""
    parser.add_argument("--cycle", metavar="C", type=command.whole(1, MOST), default=1, help=of + HELP)


def first_round(cycle: int, rounds: int) -> int:
    """The first round of a cycle of so many; both are counted from 1."""
    return (cycle - 1) * rounds + 1


def cycle_of(number: int, rounds: int) -> int:
    """The cycle of a round; 0 of none."""
    return -(-number // rounds)


def cycle_if(number: Optional[int], rounds: int) -> Optional[int]:
    """The cycle of a round, if there is one."""
    return None if number is None else cycle_of(number, rounds)


def unit(rounds: int) -> str:
    """What is counted."""
    return "round" if rounds == 1 else "cycle"
