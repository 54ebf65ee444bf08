"""The run that a tool for schedules shows: that of a schedule, or one in rounds, which `torusmem steps` makes too."""
from __future__ import annotations

import argparse

from torusmem_tools import command
from torusmem_tools.model import campaign_cases, clocked_rounds, replay
from torusmem_tools.texts import report

# The most rounds of a run that no schedule gives.
MOST_ROUNDS = 1000000
# What a tool takes with a written network.
WITH_NETWORK = {"REPORT": "what `torusmem simulate` or `tools/network simulate` printed", "TRAFFIC": "a traffic text"}


def add_words(parser: command.Parser, of_network: str) -> None:
    """The words of the command line that every tool for schedules has, and what it takes in place of a machine where a
    written network is given."""
    parser.add_argument("machine", metavar=f"MACHINE|{of_network}", help=f"the text of a machine; with --network: {WITH_NETWORK[of_network]}")
    parser.add_argument("script", metavar="SCRIPT", nargs="?", help="the text of its scripts")
    what = "the schedule of a run, as tools/schedule prints it, or any text of steps; the run in clocked rounds if not given"
    parser.add_argument("schedule", metavar="SCHEDULE", nargs="?", help=what)
    what = "without a schedule: the run in rounds as `torusmem round` makes them, not in clocked ones"
    parser.add_argument("--rounds-in-order", action="store_true", help=what)
    parser.add_argument("--network", metavar="NETWORK", help="the text of a network, in place of a machine")


def refuse_network_words(given: argparse.Namespace) -> None:
    """Refuses words that are of no use with a written network, or without a script where there is none."""
    if given.network is None:
        if given.script is None:
            raise command.WrongWords("the following arguments are required: SCRIPT (--help says more)")
        return
    for word, name in ((given.script, "a second text"), (given.rounds_in_order, "--rounds-in-order")):
        if word:
            raise command.WrongWords(f"{name} is of no use with --network (--help says more)")
    command.refuse_twice(given.network, given.machine)


def in_rounds(case: campaign_cases.Case, most: int, clocked: clocked_rounds.Clocked | None) -> str:
    """The schedule of a run in clocked rounds, or else in order, at most so many."""
    machine = replay.Machine(case)
    rounds = clocked.moves if clocked else replay.in_order(machine.shape)
    return "".join(f"{it}\n" for it in replay.scheduled(machine, most, rounds))


def confirm(case: campaign_cases.Case, machine: replay.Machine, lines: list[str]) -> None:
    """Has `torusmem steps` make the moves that a machine of the case has made; refuses a report of another run."""
    texts = case.machine_text(), case.script_text(), "".join(f"{it}\n" for it in lines)
    first, second, third = (command.temporary_file(it.encode("ascii")) for it in texts)
    with first as a, second as b, third as c:
        printed = command.torusmem("steps", a, b, c, fine=(0, 3))
    replay.compare(machine, report.parse_report(printed.encode("ascii"), "the report"))


def read(given: argparse.Namespace) -> replay.Texts:
    """The run of the texts that the command line names, which `torusmem steps` accepts."""
    command.refuse_twice(given.machine, given.script, given.schedule)
    if given.schedule is not None and given.rounds_in_order:
        raise command.WrongWords("--rounds-in-order is of no use with a schedule (--help says more)")
    machine, script = (command.contents(it) for it in (given.machine, given.script))
    steps = b"" if given.schedule is None else command.contents(given.schedule, replay.MOST_BYTES)
    with command.temporary_file(machine) as first, command.temporary_file(script) as second:
        texts = {first: given.machine, second: given.script}
        if given.schedule is None:
            with command.temporary_file(b"") as none:
                command.torusmem_on(texts, "steps", *texts, none, fine=(0, 3))
            case = replay.case_of(machine, script)
            clocked = None if given.rounds_in_order else clocked_rounds.fair(case)
            steps = in_rounds(case, MOST_ROUNDS, clocked).encode("ascii")
        with command.temporary_file(steps) as third:
            texts[third] = given.schedule or "the schedule"
            printed = command.torusmem_on(texts, "steps", *texts, fine=(0, 3))
    found = report.parse_report(printed.encode("utf-8"), "the report of `torusmem steps`")
    return replay.Texts(replay.case_of(machine, script), replay.schedule_of(steps), found)
