"""Percentiles of numbers, by the nearest rank."""
from __future__ import annotations

from typing import Sequence


def percentile(rising: Sequence[int], part: int) -> int:
    """The least of the numbers that so many of a hundred of them do not exceed: the nearest rank."""
    return rising[max(0, -(-len(rising) * part // 100) - 1)]
