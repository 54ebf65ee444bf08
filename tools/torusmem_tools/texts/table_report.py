"""Makes a report (docs/FORMATS.md, Reports) from a table of operations, for tools/from_csv."""
from __future__ import annotations

from dataclasses import dataclass
from typing import Iterator

from torusmem_tools import command
from torusmem_tools.model.operations import word_after
from torusmem_tools.model.trace_pieces import LATER_KINDS, MOST_ENTRIES, Memory
from torusmem_tools.texts import report, table
from torusmem_tools.texts.report import Entry

LAST_INDEX = 4095


@dataclass
class Trace:
    """A table: its operations, with times where an entry has event numbers, how many weren't served, and whether bare digits of
    addresses and words are hexadecimal."""

    radices: list[int]
    words: int
    entries: list[Entry]
    unserved: int = 0
    is_hex: bool = False

    def limits(self) -> table.Limits:
        """What a report has room for."""
        return table.Limits(report.product(self.radices), self.words, LAST_INDEX, self.is_hex)


def read(text: bytes, path: str, trace: Trace) -> None:
    """Adds the operations of a table to the trace. Refused with the first line that can't be understood."""
    for line, entry in table.entries_of(text, path, trace.limits()):
        if entry is None:
            trace.unserved += 1
        elif len(trace.entries) == MOST_ENTRIES:
            raise command.Refusal(f"{path}, line {line}: there are more than {MOST_ENTRIES} operations")
        else:
            trace.entries.append(entry)


def rank(entries: list[Entry]) -> None:
    """Puts event numbers in place of the times."""
    times = []
    for at, it in enumerate(entries):
        times += [(it.issued, 0, at), (it.served, 1, at)] + ([] if it.answered is None else [(it.answered, 2, at)])
    for event, (_, what, at) in enumerate(sorted(times), 1):
        setattr(entries[at], ("issued", "served", "answered")[what], event)


def place(entries: list[Entry]) -> list[Entry]:
    """The entries by bank and service, each with its place in its bank."""
    found = sorted(entries, key=lambda it: (it.bank, it.served))
    for before, it in zip(found, found[1:]):
        it.place = before.place + 1 if before.bank == it.bank else 0
    return found


def words_after(opening: dict[int, int], entries: list[Entry]) -> dict[int, int]:
    """The words after all entries."""
    found = dict(opening)
    for it in entries:
        found[it.address] = word_after(it.kind, it.values, found.get(it.address, 0))
    return found


def contents(name: str, words: dict[int, int]) -> list[str]:
    """The lines of the words that are not 0."""
    return [f"{name} {at} {words[at]}" for at in sorted(words) if words[at]]


def lines(trace: Trace, memory: Memory) -> Iterator[str]:
    """The lines of the report (docs/FORMATS.md, Reports)."""
    entries = place(trace.entries)
    equal = len(set(trace.radices)) == 1
    answered = sorted((it for it in entries if it.answered is not None), key=lambda it: (it.source, it.index))
    yield f"torusmem {2 if any(it.kind in LATER_KINDS for it in entries) else 1}"
    yield f"shape {trace.radices[0] if equal else 'x'.join(map(str, trace.radices))} {len(trace.radices)} {trace.words}"
    yield from contents("init", memory.opening.words)
    for it in entries:
        yield f"entry {it.bank} {it.place} {it.source} {it.tag} {it.asked()} {it.replied()}"
    for it in answered:
        yield f"answer {it.source} {it.index} {it.bank} {it.place} {it.replied()}"
    closing = memory.closing.words if memory.closing else words_after(memory.opening.words, entries)
    yield from contents("word", closing)
    for it in sorted(entries, key=lambda it: it.served):
        yield f"order {it.bank} {it.place} {it.issued} {it.served} {it.answered or '-'}"
    yield "end complete" if len(answered) == len(entries) and not trace.unserved else "end incomplete"
