"""Checks the trace that a table tells, of any length: its rows are read by processes side by side, spread over files by
address and service, and judged in pieces (model/trace_pieces.py) by processes side by side."""
from __future__ import annotations

import os
import random
from collections import Counter
from dataclasses import dataclass
from itertools import accumulate, groupby
from operator import itemgetter
from typing import Any, Callable, Dict, List, Optional, Set, Tuple

from torusmem_tools import command, parallel
from torusmem_tools.model import row_exchange
from torusmem_tools.model.operations import MASK
from torusmem_tools.model.trace_pieces import ADDRESS, LINE, SERVED, Fault, Judge, pieces_of
from torusmem_tools.progress import Progress
from torusmem_tools.texts import table

# How many bytes are read at a time, and about how many rows there are in a range.
CHUNK = 2**22
RANGE, NAMES = 50000, 300000
# How many rows of each range are looked at to part them.
SAMPLES = 32


@dataclass
class Table:
    """A table: its bytes, and what may be in it."""

    path: str
    text: Any  # bytes, or a map of a file
    limits: table.Limits

    def begin(self) -> int:
        """Where the second line begins."""
        return self.text.find(b"\n") + 1 or len(self.text)


@dataclass
class Chunk:
    """A part of a table: its number, where it begins and ends, and how many lines stand before it."""

    number: int
    start: int
    end: int
    lines: int


@dataclass
class Read:
    """What was read of a chunk: its operations by address and service, their names, and how many weren't served."""

    rows: row_exchange.RangeFile
    names: row_exchange.RangeFile
    served: int
    unserved: int


@dataclass
class Verdict:
    """What is found of a trace: its first fault, if there is one, and of what it consists."""

    fault: Optional[Fault]
    served: int
    unserved: int
    words: int
    pieces: int

    def good_line(self) -> str:
        """The line of a good trace."""
        many: Callable[[int, str], str] = lambda count, name: f"{count} {name}{'' if count == 1 else 's'}"
        parts = f"{many(self.served, 'operation')} on {many(self.words, 'word')}, in {many(self.pieces, 'report')}"
        return f"good trace: {parts}\n"


def chunks_of(found: Table, processes: int) -> List[Chunk]:
    """The parts of a table, each of whole lines; all of it in one part where a field may go over lines."""
    start, ends = found.begin(), []
    if found.text.find(b'"') >= 0:
        return [Chunk(0, start, len(found.text), 1)]
    end = start
    while end < len(found.text):
        end = found.text.find(b"\n", min(end + CHUNK, len(found.text))) + 1 or len(found.text)
        ends.append(end)
    parts = list(zip([start, *ends], ends))
    count: Callable[[Tuple[int, int]], Any] = lambda part: found.text[part[0] : part[1]].count(b"\n")
    counts = parallel.answers(count, parts, processes)
    lines = accumulate(counts, initial=1)
    return [Chunk(number, *part, before) for number, (part, before) in enumerate(zip(parts, lines))]


def sample_rows(found: Table, count: int) -> Tuple[List[Tuple[int, int]], List[int]]:
    """The address and the service, and the name, of so many rows of a table; without those that can't be understood."""
    draw, begin, end = random.Random(1), found.begin(), len(found.text)
    rows = table.Rows(found.path, found.limits)
    for _ in range(count):
        start = found.text.rfind(b"\n", 0, draw.randrange(begin, end)) + 1
        line = found.text[start : found.text.find(b"\n", start) + 1 or end]
        if start >= begin:
            try:
                rows.take_text(line, 0)
            except command.Refusal:
                pass
    return [it[:2] for it in rows.served], rows.names


class Check:
    """The check of a table, in the steps in which it is made."""

    def __init__(self, found: Table, judge: Judge, processes: int, progress: Progress) -> None:
        self.table, self.judge, self.processes, self.progress = found, judge, processes, progress
        self.chunks = chunks_of(found, processes)
        self.borders: List[Tuple[Any, ...]] = []
        self.name_borders: List[int] = []
        self.reads: List[Read] = []
        self.ends: List[Optional[Tuple[Any, Any]]] = []
        closing = judge.memory.closing
        self.given = {*judge.memory.opening.words, *closing.words} if closing else set()

    def part(self) -> None:
        """Parts addresses and services, and names, into ranges, if there are enough of them."""
        last = self.chunks[-1:]
        lines = sum(it.lines + (it.end - it.start) // 60 for it in last)
        if lines > RANGE:
            rows, names = sample_rows(self.table, SAMPLES * (lines // RANGE + 1))
            self.borders = row_exchange.borders_of(rows, lines // RANGE + 1)
            self.name_borders = row_exchange.borders_of(names, lines // NAMES + 1)

    def read(self, chunk: Chunk) -> Read:
        """Reads a chunk, and spreads it over its files."""
        rows = self.rows_of(chunk)
        place: Callable[[str], str] = lambda name: os.path.join(self.judge.folder, f"{name}-{chunk.number}")
        served = len(rows.served)
        sort(rows.served)
        spread = row_exchange.write_ranges(rows.served, self.borders, place("rows"))
        return Read(spread, row_exchange.write_ranges(rows.names, self.name_borders, place("names")), served, rows.unserved)

    def rows_of(self, chunk: Chunk) -> table.Rows:
        """The rows of a chunk."""
        rows = table.Rows(self.table.path, self.table.limits)
        rows.take_text(self.table.text[chunk.start : chunk.end], chunk.lines)
        return rows

    def twice(self, number: int) -> Set[int]:
        """The names of a range that stand in more than one line."""
        names = row_exchange.read_range([it.names for it in self.reads], number)
        if len(set(names)) == len(names):
            return set()
        return {name for name, count in Counter(names).items() if count > 1}

    def twice_told(self, names: Set[int]) -> Optional[Fault]:
        """The first line whose name stands in an earlier line, where these names are those that stand twice."""
        lines: Dict[int, int] = {}
        for chunk in self.chunks if names else []:
            rows = self.rows_of(chunk)
            for name, row in zip(rows.names, rows.served):
                if name in lines:
                    which = f"operation {name & MASK} of processor {name >> 64}"
                    return Fault((-1, row[LINE], 0), row[LINE], f"{which} is in line {lines[name]} already")
                if name in names:
                    lines[name] = row[LINE]
        return None

    def first_fault(self, number: int) -> Tuple[Optional[Fault], int, int, List[int]]:
        """The first fault of a range of addresses and services, how many pieces and how many addresses it has that no
        range before it has, and those of its addresses whose words are given."""
        rows = row_exchange.read_range([it.rows for it in self.reads], number)
        sort(rows)
        before = next((it[1] for it in reversed(self.ends[:number]) if it), None)
        after = next((it[0][ADDRESS] for it in self.ends[number + 1 :] if it), None)
        pieces = list(pieces_of(rows, before, after))
        faults = [it for it in map(self.judge.fault, pieces) if it]
        addresses = [address for address, _ in groupby(rows, itemgetter(ADDRESS))]
        count = len(addresses) - (bool(pieces) and pieces[0].before is not None)
        given = [it for it in addresses if it in self.given]
        return first_of(faults), len(pieces), count, given

    def untouched(self, touched: Set[int]) -> List[Fault]:
        """The words that no operation is on, and that end as others than they open."""
        memory = self.judge.memory
        faults = []
        for address in sorted(self.given - touched):
            opening = memory.opening.words.get(address, 0)
            closing = memory.closing.words.get(address, 0) if memory.closing else opening
            if opening != closing and memory.closing:
                why = f"the word at address {address} is {closing}, but it opens with {opening}, and no operation is on it"
                faults.append(Fault((2, address, 0), 0, f"{memory.closing.place_of_word(address)}: {why}"))
        return faults

    def verdict(self) -> Verdict:
        """The whole check."""
        self.part()
        counted = self.progress.counted
        self.reads = list(counted(parallel.answers(self.read, self.chunks, self.processes), len(self.chunks), "parts read"))
        ranges = list(range(len(self.borders) + 1))
        self.ends = [row_exchange.ends([it.rows for it in self.reads], at) for at in ranges]
        names = list(range(len(self.name_borders) + 1))
        again = self.twice_told(set().union(*parallel.answers(self.twice, names, self.processes)))
        faults = [again] if again else []
        pieces, words, touched = 0, 0, set()
        for fault, made, found, given in counted(parallel.answers(self.first_fault, ranges, self.processes), len(ranges), "parts judged"):
            faults += [fault] if fault else []
            pieces, words = pieces + made, words + found
            touched.update(given)
        faults += self.untouched(touched)
        served, unserved = sum(it.served for it in self.reads), sum(it.unserved for it in self.reads)
        return Verdict(first_of(faults), served, unserved, words, pieces)


def sort(rows: List[table.Row]) -> None:
    """Sorts rows, that come in the order of their lines where address and service are the same: by each of both, since
    numbers are compared faster than rows."""
    rows.sort(key=itemgetter(SERVED))
    rows.sort(key=itemgetter(ADDRESS))


def first_of(faults: List[Fault]) -> Optional[Fault]:
    """The first of some faults, where there are."""
    return min(faults, key=lambda it: it.place) if faults else None
