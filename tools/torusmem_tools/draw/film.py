"""What a page of `tools/animate` shows, round by round."""
from __future__ import annotations

import json
from dataclasses import dataclass, field
from html import escape
from typing import Any, Dict, List

from torusmem_tools.draw import svg_text
from torusmem_tools.draw.film_page import PAGE

MOST_ROUNDS = 500
# The radius of a flit where there is room.
DISC = 4.5


@dataclass
class Film:
    """For each round its number, the flits with their places, and what happened; of each flit its number and its looks: colour,
    whether a reply, whether a head, and what its tooltip says; and the radius of flits."""

    rounds: List[int] = field(default_factory=list)
    flits: List[List[List[Any]]] = field(default_factory=list)
    events: List[List[str]] = field(default_factory=list)
    numbers: Dict[Any, int] = field(default_factory=dict)
    looks: List[List[Any]] = field(default_factory=list)
    disc: float = DISC

    def page(self, what: str, unit: str, svg: str, wide: float) -> str:
        """The page, round a picture of this width in which no flits stand."""
        title = f"{what}: {unit}s {self.rounds[0]} to {self.rounds[-1]}"
        made = {"unit": unit, "rounds": self.rounds, "flits": self.flits, "events": self.events, "looks": self.looks, "disc": round(self.disc, 2)}
        told = json.dumps(made, separators=(",", ":")).replace("<", "\\u003c")
        looks = {"sans": svg_text.SANS, "mono": svg_text.MONO, "ink": svg_text.INK, "width": round(wide), "disc": DISC}
        return PAGE.format(title=escape(title), last=len(self.rounds) - 1, svg=svg, film=told, **looks)
