"""The ten operations on a word of a memory: what each leaves and replies (docs/FORMATS.md, Good reports, rule 4)."""
from __future__ import annotations

from typing import NamedTuple, Sequence, Tuple

MASK = 2**64 - 1
# How many values each operation brings, beside its address.
VALUES = {"load": 0, "store": 1, "swap": 1, "cas": 2, "add": 1, "and": 1, "or": 1, "xor": 1, "max": 1, "min": 1}
KINDS = tuple(VALUES)


def word_after(kind: str, values: Sequence[int], word: int) -> int:
    """The word that an operation leaves where it finds one."""
    if kind == "load":
        return word
    if kind == "cas":
        return values[1] if word == values[0] else word
    it = values[0]
    return {
        "store": it,
        "swap": it,
        "add": (word + it) & MASK,
        "and": word & it,
        "or": word | it,
        "xor": word ^ it,
        "max": max(word, it),
        "min": min(word, it),
    }[kind]


class Operation(NamedTuple):
    """An operation, or a fence: its processor and its number there, its kind, its word and its values."""

    processor: int
    number: int
    kind: str
    word: int
    values: Tuple[int, ...]

    def is_write(self) -> bool:
        return self.kind not in ("load", "fence")

    def text(self) -> str:
        """The operation as traces, logs and scripts have it."""
        return "fence" if self.kind == "fence" else " ".join([self.kind, *map(str, (self.word, *self.values))])

    def left(self, word: int) -> int:
        """The word that it leaves where it finds one."""
        return word_after(self.kind, self.values, word)

    def reply(self, word: int) -> str:
        """What it replies where it finds a word."""
        return "ok" if self.kind == "store" else str(word)
