"""Who finds all outcomes of a script for the tools: `torusmem outcomes`, whose answers are proved, or, with `--plain`, a plain search
(model/outcome_search.py)."""
from __future__ import annotations

import re
from dataclasses import dataclass
from typing import Callable, List, NamedTuple, Tuple

from torusmem_tools import command
from torusmem_tools.command import Refusal
from torusmem_tools.model import campaign_cases
from torusmem_tools.model.outcome_search import Search
from torusmem_tools.model.outcome_states import Outcome, Reply

# The first line of what a tool prints of outcomes that the plain search has found.
NOTE = "# by a plain model of the machine: nothing of this is proved"
LINE = re.compile("outcome ([0-9]+) :(.*) ;(.*)")
EXACT = re.compile("exact, ([0-9]+) states")


class Outcomes(NamedTuple):
    """The outcomes that are known of a script, whether these are all, how many states were looked at, and what makes the steps of a
    run to an outcome."""

    known: List[Outcome]
    is_exact: bool
    states: int
    run: Callable[[Outcome], List[str]]


@dataclass(frozen=True)
class Asked:
    """Asks the program for the steps of a run to an outcome, which it prints by the outcome's number."""

    case: campaign_cases.Case
    most: int
    known: List[Outcome]

    def __call__(self, outcome: Outcome) -> List[str]:
        return asked(self.case, self.most, "--run", str(self.known.index(outcome)))[:-1]


def outcomes_of(case: campaign_cases.Case, most: int, is_plain: bool) -> Outcomes:
    """The outcomes of a script, by a search of so many states at most."""
    if is_plain:
        search = Search(case, most)
        return Outcomes(list(search.ends), search.is_exact, len(search.before), search.run)
    lines = asked(case, most)
    known = [outcome_of(it) for it in lines[:-1]]
    exact = EXACT.fullmatch(lines[-1])
    return Outcomes(known, exact is not None, int(exact[1]) if exact else most, Asked(case, most, known))


def asked(case: campaign_cases.Case, most: int, *words: str) -> List[str]:
    """The lines that `torusmem outcomes` prints of a machine and its scripts."""
    with command.temporary_file(case.machine_text().encode()) as machine, command.temporary_file(case.script_text().encode()) as script:
        return command.torusmem("outcomes", machine, script, "--states", str(most), *words, fine=(0, 5)).splitlines()


def outcome_of(line: str) -> Outcome:
    """The outcome of a line that the program prints."""
    found = LINE.fullmatch(line)
    if not found:
        raise Refusal(f"`torusmem outcomes` prints `{line}`")
    rows = [tuple(map(reply, it.split())) for it in found[2].split(" / ") if it.split()]
    numbers = list(map(int, found[3].split()))
    words: Tuple[Tuple[int, int], ...] = tuple(zip(numbers[::2], numbers[1::2]))
    return Outcome(tuple(rows), words)


def reply(word: str) -> Reply:
    """A reply that the program prints."""
    return "ok" if word == "ok" else int(word)
