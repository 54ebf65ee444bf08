"""Scripts with their words placed on the tiles of a machine, and without some of their fences."""
from __future__ import annotations

import itertools
from dataclasses import dataclass
from typing import Callable, Dict, Iterator, List, Tuple, TypeVar

from torusmem_tools import parallel
from torusmem_tools.model import campaign_cases
from torusmem_tools.model.outcome_list import Outcomes, outcomes_of
from torusmem_tools.model.outcome_states import Outcome

# The tile of each address, in their order.
Place = Tuple[int, ...]
Answer = TypeVar("Answer")


def addresses(case: campaign_cases.Case) -> List[int]:
    """The addresses of the scripts."""
    return sorted({int(text.split()[1]) for _, text in case.lines if text != "fence"})


def places(case: campaign_cases.Case) -> Iterator[Place]:
    """All ways to place the addresses of the scripts."""
    return itertools.product(range(case.tiles()), repeat=len(addresses(case)))


def placed(case: campaign_cases.Case, place: Place) -> campaign_cases.Case:
    """A script with each address at the bank of a tile: word k becomes the word k of that bank."""
    new = {a: k * case.tiles() + tile for k, (a, tile) in enumerate(zip(addresses(case), place))}
    lines = []
    for p, text in case.lines:
        words = text.split()
        lines.append((p, " ".join([words[0], str(new[int(words[1])]), *words[2:]]) if len(words) > 1 else text))
    opening = sorted((new[a], value) for a, value in case.opening if a in new)
    return case.with_(lines=lines, opening=opening, words=max(case.words, case.tiles() * len(new)))


def looks(look: Callable[[Place], Answer], some: List[Place], is_plain: bool) -> Iterator[Answer]:
    """What is found at each of some placements, in their order: by the program at as many at once as there are processors, behind
    the first, before which it may have to be built."""
    yield from map(look, some[:1])
    yield from parallel.answers(look, some[1:], 1 if is_plain else parallel.cores())


def fences(case: campaign_cases.Case) -> List[int]:
    """Which of the lines are fences."""
    return [at for at, (_, text) in enumerate(case.lines) if text == "fence"]


def without(case: campaign_cases.Case, line: int) -> campaign_cases.Case:
    """A script without one of its lines."""
    return case.with_(lines=[it for at, it in enumerate(case.lines) if at != line])


@dataclass
class Found:
    """The outcomes of a script as it is placed, with the addresses that it has in its text; and what was found of the placed one."""

    case: campaign_cases.Case
    search: Outcomes
    outcomes: Dict[Outcome, Outcome]

    def run(self, outcome: Outcome) -> List[str]:
        """The steps of a run to an outcome."""
        return self.search.run(self.outcomes[outcome])


def as_it_is(case: campaign_cases.Case, most: int, is_plain: bool) -> Found:
    """All outcomes of a script, by a search of so many states at most."""
    search = outcomes_of(case, most, is_plain)
    return Found(case, search, {it: it for it in search.known})


def found(case: campaign_cases.Case, place: Place, most: int, is_plain: bool) -> Found:
    """All outcomes of a placed script, by a search of so many states at most."""
    made, names = placed(case, place), addresses(case)
    search = outcomes_of(made, most, is_plain)
    outcomes = {}
    for it in search.known:
        words = sorted((names[a // case.tiles()], value) for a, value in it.words)
        outcomes[Outcome(it.replies, tuple(words))] = it
    return Found(made, search, outcomes)
