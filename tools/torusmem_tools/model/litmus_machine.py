"""Litmus tests on the machine: their scripts, with thread k at tile k, and what they show at each placement of the words."""
from __future__ import annotations

from typing import Dict, List, NamedTuple, Optional, Tuple

from torusmem_tools.model import campaign_cases, litmus_models, outcome_places
from torusmem_tools.model.memory_models import MODELS
from torusmem_tools.model.outcome_places import Found, Place
from torusmem_tools.model.outcome_states import Outcome
from torusmem_tools.texts.litmus import Litmus, Values


__all__ = ["MODELS", "Shown", "allowed", "ring", "scripts", "shown", "values"]


class Shown(NamedTuple):
    """A placement, whether the machine shows what the test asks for there, and a run that does; an open one has more states than
    were looked at, and none of these does."""

    place: Place
    outcome: Optional[Outcome]
    found: Found

    def is_open(self) -> bool:
        return self.outcome is None and not self.found.search.is_exact


def ring(test: Litmus) -> campaign_cases.Case:
    """The machine of a test if none is given: a ring of as many tiles as there are threads, four at least."""
    return campaign_cases.Case("steps", [max(4, len(test.threads))], None, 2, 4, 1, [], [])


def scripts(test: Litmus, machine: campaign_cases.Case) -> campaign_cases.Case:
    """The test on a machine, its words numbered in their order."""
    lines = [(it.processor, it.text()) for it in test.operations()]
    openings = [(k, value) for k, value in enumerate(test.openings.values()) if value]
    return machine.with_(lines=lines, opening=openings, words=max(1, len(test.openings)))


def values(test: Litmus, outcome: Outcome) -> Values:
    """What registers and words hold in the end of an outcome."""
    replies: Dict[Tuple[int, int], int] = {}
    rows = iter(outcome.replies)
    for p, thread in enumerate(test.threads):
        asked = [it for it in thread.operations if it.kind != "fence"]
        if asked:
            replies.update({(p, it.number): 0 if reply == "ok" else reply for it, reply in zip(asked, next(rows))})
    words, used = dict(outcome.words), {it.word for it in test.operations() if it.kind != "fence"}
    openings = test.openings.values()
    return test.values(replies, [words.get(k, 0) if k in used else opening for k, opening in enumerate(openings)])


def shown(test: Litmus, machine: campaign_cases.Case, most: int, is_plain: bool) -> List[Shown]:
    """What the machine shows at each placement."""
    case = scripts(test, machine)

    def look(place: Place) -> Shown:
        found = outcome_places.found(case, place, most, is_plain)
        return Shown(place, next((it for it in found.outcomes if test.condition(values(test, it))), None), found)

    return list(outcome_places.looks(look, list(outcome_places.places(case)), is_plain))


def allowed(test: Litmus) -> Dict[str, bool]:
    """Which models allow what the test asks for."""
    return litmus_models.allowed(test.operations(), list(test.openings.values()), lambda it: test.condition(test.values(*it)))
