"""A trace text (docs/FORMATS.md, Trace text) as operations, and the text of some of them."""
from __future__ import annotations

from dataclasses import dataclass
from typing import Dict, List, Optional, Tuple

from torusmem_tools.model.operations import Operation, word_after

# What an operation leaves depends on the word that it finds.
FOLLOWING = ("add", "and", "or", "xor", "max", "min")


@dataclass
class Call:
    """An operation of a trace, the line that issues it, and its answer with its line, if it has one."""

    asked: Operation
    issued: int
    answered: Optional[int] = None
    reply: str = ""

    def found(self) -> Optional[int]:
        """The word that it is known to have found, or must find to change it."""
        if self.reply.isdigit():
            return int(self.reply)
        return self.asked.values[0] if self.asked.kind == "cas" else None

    def left(self) -> Optional[int]:
        """The word that it left or may have left, where that is known, and where it may have found another."""
        if self.reply.isdigit():
            word = word_after(self.asked.kind, self.asked.values, int(self.reply))
            return None if word == int(self.reply) else word
        return self.asked.values[-1] if self.asked.kind in ("store", "swap", "cas") else None

    def may_leave_any(self) -> bool:
        """Whether it may have left a word that isn't known."""
        return self.answered is None and self.asked.kind in FOLLOWING


@dataclass
class TraceText:
    """A trace: its lines that are no events, as the number of words, with their numbers, and its operations."""

    others: List[Tuple[int, str]]
    calls: List[Call]


def parse(text: str) -> TraceText:
    """The trace of a text that the program has read."""
    found, by_name, counts = TraceText([], []), {}, {}  # type: TraceText, Dict[Tuple[int, int], Call], Dict[int, int]
    for number, line in enumerate(text.split("\n"), 1):
        words = line.partition("#")[0].split()
        if words[:1] == ["issue"]:
            processor, index = int(words[1]), counts.get(int(words[1]), 0)
            counts[processor] = index + 1
            asked = Operation(processor, index, words[2], int(words[3]), tuple(map(int, words[4:])))
            by_name[processor, index] = Call(asked, number)
            found.calls.append(by_name[processor, index])
        elif words[:1] == ["answer"]:
            told = by_name[int(words[1]), int(words[2])]
            told.answered, told.reply = number, words[3]
        elif line.strip():
            found.others.append((number, line.rstrip()))
    return found


def text_of(trace: TraceText, calls: List[Call]) -> str:
    """The text of some operations: those of a processor are counted anew."""
    lines, counts = list(trace.others), {}  # type: List[Tuple[int, str]], Dict[int, int]
    for it in calls:
        processor = it.asked.processor
        index = counts.get(processor, 0)
        counts[processor] = index + 1
        lines.append((it.issued, f"issue {processor} {it.asked.text()}"))
        if it.answered is not None:
            lines.append((it.answered, f"answer {processor} {index} {it.reply}"))
    return "".join(f"{line}\n" for _, line in sorted(lines, key=lambda it: it[0]))
