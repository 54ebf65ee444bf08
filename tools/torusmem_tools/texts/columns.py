"""Tables as text, their columns below each other."""
from __future__ import annotations

from typing import Callable, Collection, List, Sequence


def aligned(rows: List[List[str]], left: Collection[int] = (0,)) -> List[str]:
    """The rows as lines: these columns to the left, the others to the right."""
    widths = [max(map(len, column)) for column in zip(*rows)]
    cells: Callable[[Sequence[str]], List[str]] = lambda row: [it.ljust(wide) if at in left else it.rjust(wide) for at, (it, wide) in enumerate(zip(row, widths))]
    return ["  ".join(cells(row)).rstrip() for row in rows]
