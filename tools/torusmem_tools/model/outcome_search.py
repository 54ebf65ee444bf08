"""All outcomes of a script over all schedules, by a plain search of states (model/outcome_states.py)."""
from __future__ import annotations

from typing import Dict, List, Optional, Tuple

from torusmem_tools.model import campaign_cases
from torusmem_tools.model.outcome_states import ALONE, Machine, Move, Outcome, State


class Search:
    """The states that are reached, up to so many, each with the one before it and the move from there; and of each outcome an end."""

    def __init__(self, case: campaign_cases.Case, most: int = 100000, level: int = ALONE) -> None:
        self.machine = Machine(case, level)
        self.before: Dict[State, Optional[Tuple[State, Move]]] = {}
        self.ends: Dict[Outcome, State] = {}
        self.is_exact = True
        start = self.machine.settle(self.machine.first())
        self.before[start] = None
        stack = [start]
        while stack:
            s = stack.pop()
            moves = self.machine.choices(s)
            if not moves:
                self.end(s)
            for move in moves:
                after = self.machine.after(s, move)
                if after not in self.before:
                    if len(self.before) == most:
                        self.is_exact = False
                        return
                    self.before[after] = (s, move)
                    stack.append(after)

    def end(self, s: State) -> None:
        """Notes an end. No run stops before the scripts are finished (docs/THEOREM.md)."""
        if not self.machine.is_finished(s):
            raise RuntimeError("a state stands before the scripts are finished")
        self.ends.setdefault(self.machine.outcome(s), s)

    def run(self, outcome: Outcome) -> List[str]:
        """The steps of a run to an outcome."""
        s, way = self.ends[outcome], []
        while True:
            by = self.before[s]
            if by is None:
                break
            way.append(by[1])
            s = by[0]
        made: List[Move] = []
        s = self.machine.settle(self.machine.first(), made)
        for move in reversed(way):
            s = self.machine.after(s, move, made)
        return list(self.machine.steps(made))
