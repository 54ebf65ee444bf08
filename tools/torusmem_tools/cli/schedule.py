"""Prints the moves of a run in rounds, as `torusmem schedule` does, by a model of its own in plain Python.

    tools/schedule machine.txt script.txt > schedule.txt
    tools/schedule machine.txt script.txt --rounds 10 | tools/load machine.txt script.txt -
    tools/schedule machine.txt script.txt --clocked > schedule.txt
    tools/schedule machine.txt script.txt --clocked --arbiter turn > schedule.txt

The moves of each round stand behind a line `# round N`, in their order; a round without a move has no line. The last
line is `# finished`, or `# stopped` where --rounds were made and a script isn't finished. With --clocked each round
attempts what is enabled when it begins; of the heads that wait in a router the oldest operation goes first, or with --arbiter
turn the inputs go first by turns. Nothing is printed where `torusmem schedule`, with the same options, doesn't
print the same, byte for byte.
"""
from __future__ import annotations

import argparse

from torusmem_tools import command
from torusmem_tools.model import campaign_cases, clocked_rounds, replay, schedule_runs

TOOL = "schedule"


def words() -> command.Parser:
    """The words of the command line."""
    parser = command.parser(TOOL, __doc__)
    parser.add_argument("machine", metavar="MACHINE", help="the text of a machine")
    parser.add_argument("script", metavar="SCRIPT", help="the text of its scripts")
    most = command.whole(1, 1000000)
    parser.add_argument("--rounds", metavar="R", type=most, default=1000000, help="the most rounds; 1000000 if not given")
    parser.add_argument("--clocked", action="store_true", help="clocked rounds, each of what is enabled when it begins")
    parser.add_argument("--arbiter", metavar="A", choices=list(clocked_rounds.ARBITERS), help="with --clocked: oldest, or turn; oldest if not given")
    guards = command.whole(0, 2**64 - 1)
    what = "with --clocked: none begins while an operation is out for more rounds; 241 for each tag of each tile if not given"
    parser.add_argument("--guard", metavar="B", type=guards, help=what)
    return parser


def by_program(texts: dict[str, str], rounds: int, how: list[str]) -> str:
    """The schedule of the program."""
    return command.torusmem_on(texts, "schedule", *texts, "--rounds", str(rounds), *how, fine=(0, 3))


def how_of(given: argparse.Namespace) -> list[str]:
    """The words that say how rounds are made; refuses words that are of no use together."""
    is_turned = given.arbiter == "turn"
    for name, is_idle in (("arbiter", not given.clocked), ("guard", not given.clocked or is_turned)):
        if is_idle and getattr(given, name) is not None:
            raise command.WrongWords(f"--{name} is of no use {'with --arbiter turn' if given.clocked else 'without --clocked'} (--help says more)")
    how = ["--clocked"] if given.clocked else []
    how += ["--arbiter", given.arbiter] if given.arbiter else []
    return [*how, "--guard", str(given.guard)] if given.guard is not None else how


def clocked_of(given: argparse.Namespace, case: campaign_cases.Case) -> clocked_rounds.Clocked | None:
    """What makes clocked rounds, where these are asked for."""
    if not given.clocked:
        return None
    return clocked_rounds.Clocked(clocked_rounds.turn) if given.arbiter == "turn" else clocked_rounds.fair(case, given.guard)


def work() -> str:
    """What the tool prints."""
    given = words().parse_args()
    how = how_of(given)
    command.refuse_twice(given.machine, given.script)
    machine, script = (command.contents(it) for it in (given.machine, given.script))
    with command.temporary_file(machine) as first, command.temporary_file(script) as second:
        texts = {first: given.machine, second: given.script}
        told = by_program(texts, given.rounds, how)
        case = replay.case_of(machine, script)
        made = schedule_runs.in_rounds(case, given.rounds, clocked_of(given, case))
        if made != told:
            raise command.Refusal("these are not the moves that `torusmem schedule` prints")
    return made
