#!/usr/bin/env python3
"""A small simulator of processors with caches over banks of memory, which writes the trace of its run as a table for
`tools/from_csv --check`, and its last memory. It has mistakes to be switched on, such as simulators have.

    examples/simulator.py --mistake stale trace.csv final.txt
    tools/from_csv trace.csv --check --final final.txt

The mistakes:

  stale   copies in caches are invalidated only some cycles after the word was written
  lost    an `add` reads the word and writes the sum some cycles later, over what was written meanwhile
  signed  `max` compares words as signed numbers
  buffer  the last stores stay in a write buffer, which nobody writes back at the end

It says on standard error which line of the table has the first wrong reply, or which words are wrong at the end: so one
can see whether a check finds it.
"""
from __future__ import annotations

import argparse
import heapq
import random
import sys
from dataclasses import dataclass
from typing import IO, Dict, List, Optional, Tuple

HEAD = "processor,index,tag,operation,address,values,reply,bank,issued,served,answered\n"
MASK = 2**64 - 1
KINDS = ["load"] * 6 + ["store", "store", "swap", "cas", "add", "add", "max", "min", "and", "or", "xor"]
# How long an invalidation of the mistake `stale` takes, and the sum of `lost`; in half cycles.
LATE, SLOW = 60, 12
# How many stores the buffer of the mistake `buffer` has room for.
ROOM = 4


@dataclass
class Operation:
    """An operation of a processor, with its times in half cycles; a reply of None is `ok`."""

    processor: int
    index: int
    kind: str
    address: int
    values: Tuple[int, ...]
    reply: Optional[int] = None
    issued: int = 0
    served: int = 0

    def row(self, answered: int) -> str:
        """The line of the table."""
        reply = "ok" if self.reply is None else self.reply
        values = " ".join(map(str, self.values))
        asked = f"{self.processor},{self.index},0,{self.kind},{self.address},{values}"
        return f"{asked},{reply},,{self.issued},{self.served},{answered}\n"


def signed(word: int) -> int:
    """A word as a signed number."""
    return word - 2**64 if word >> 63 else word


def new_word(kind: str, word: int, values: Tuple[int, ...], mistake: str = "") -> int:
    """The word that an operation leaves where it finds one."""
    if kind == "load":
        return word
    if kind == "cas":
        return values[1] if word == values[0] else word
    if kind == "max" and mistake == "signed":
        return max(word, values[0], key=signed)
    it = values[0]
    made = {"add": word + it & MASK, "and": word & it, "or": word | it, "xor": word ^ it}
    made.update(store=it, swap=it, max=max(word, it), min=min(word, it))
    return made[kind]


class Simulator:
    """The processors, their caches and the banks; beside them a memory that makes no mistakes, to tell replies by."""

    def __init__(self, given: argparse.Namespace, table: IO[str]) -> None:
        self.given, self.table = given, table
        self.draw = random.Random(given.seed)
        self.memory: Dict[int, int] = {}
        self.right: Dict[int, int] = {}
        self.copies: List[Dict[int, int]] = [{} for _ in range(given.processors)]
        self.holders: Dict[int, List[int]] = {}
        # of the mistake `buffer`: what is written back, and what isn't yet
        self.kept: Dict[int, int] = {}
        self.buffer: List[Tuple[int, int]] = []
        self.free = [0] * given.processors
        self.waiting: List[Tuple[int, int, str, object]] = []
        self.events = self.lines = self.made = 0
        self.wrong: Optional[Operation] = None
        self.wrong_line = 0
        # the last operation on each word, and its line
        self.last: Dict[int, Operation] = {}
        self.last_line: Dict[int, int] = {}

    def later(self, time: int, what: str, of: object) -> None:
        """Has something happen at a time."""
        self.events += 1
        heapq.heappush(self.waiting, (time, self.events, what, of))

    def drawn(self, processor: int, index: int) -> Operation:
        """The next operation of a processor."""
        kind = self.draw.choice(KINDS)
        # few words are asked for by many
        address = self.draw.randrange(self.draw.choice([4, self.given.words]))
        counts = {"load": 0, "cas": 2}
        values = tuple(self.draw.choice([1, 2, 3, self.draw.getrandbits(64)]) for _ in range(counts.get(kind, 1)))
        return Operation(processor, index, kind, address, values)

    def issue(self, time: int, it: Operation) -> None:
        """A processor hands out an operation: a load may find a copy in its cache."""
        it.issued = time
        is_here = it.kind == "load" and it.address in self.copies[it.processor]
        self.later(*((time + 1, "hit") if is_here else (time + self.hop(), "serve")), it)

    def hop(self) -> int:
        """How long a way takes."""
        return 2 * self.draw.randint(2, 20)

    def hit(self, time: int, it: Operation) -> None:
        """A load reads the copy in the cache of its processor, if that is still there."""
        copies = self.copies[it.processor]
        if it.address in copies:
            it.reply, it.served = copies[it.address], time
            self.tell(it)
            self.later(time + 1, "answer", it)
        else:
            self.later(time + 1 + self.hop(), "serve", it)

    def serve(self, time: int, it: Operation) -> None:
        """A bank serves an operation, one at a time."""
        bank = it.address % len(self.free)
        if time < self.free[bank]:
            self.later(self.free[bank], "serve", it)
            return
        self.free[bank] = time + 2
        old = self.memory.get(it.address, 0)
        new = new_word(it.kind, old, it.values, self.given.mistake)
        it.served, it.reply = time, None if it.kind == "store" else old
        self.tell(it)
        if it.kind == "add" and self.given.mistake == "lost":
            self.later(time + SLOW, "write", (it.address, new))
        else:
            self.memory[it.address] = new
        self.keep(it, new)
        self.share(time, it, old != new)
        self.later(time + self.hop(), "answer", it)

    def keep(self, it: Operation, word: int) -> None:
        """Stores go into a buffer, of which the oldest is written back where it is full; all else goes by it."""
        if self.given.mistake != "buffer" or it.kind == "load":
            return
        if it.kind == "store":
            self.buffer.append((it.address, word))
        else:
            self.buffer = [kept for kept in self.buffer if kept[0] != it.address]
            self.kept[it.address] = word
        if len(self.buffer) > ROOM:
            address, oldest = self.buffer.pop(0)
            self.kept[address] = oldest

    def share(self, time: int, it: Operation, is_new: bool) -> None:
        """Copies of the word are no longer valid where it is new; a load leaves one in its processor's cache."""
        if is_new and self.given.mistake == "stale":
            self.later(time + LATE, "invalidate", it.address)
        elif is_new:
            self.invalidate(it.address)
        if it.kind == "load" and self.given.mistake != "lost":
            self.copies[it.processor][it.address] = self.memory[it.address]
            self.holders.setdefault(it.address, []).append(it.processor)

    def invalidate(self, address: int) -> None:
        """Takes all copies of a word away."""
        for processor in self.holders.pop(address, []):
            self.copies[processor].pop(address, None)

    def tell(self, it: Operation) -> None:
        """Compares a reply with that of the memory without mistakes."""
        old = self.right.get(it.address, 0)
        self.right[it.address] = new_word(it.kind, old, it.values)
        if it.reply is not None and it.reply != old and self.wrong is None:
            self.wrong = it
        self.last[it.address] = it

    def answer(self, time: int, it: Operation) -> None:
        """A processor has its reply, and hands out its next operation."""
        self.lines += 1
        self.table.write(it.row(time))
        if it is self.wrong:
            self.wrong_line = self.lines + 1
        if it is self.last[it.address]:
            self.last_line[it.address] = self.lines + 1
        if self.made < self.given.operations:
            self.made += 1
            self.later(time + 2 * self.draw.randint(1, 5), "issue", self.drawn(it.processor, it.index + 4))

    def write(self, _: int, sum_of: Tuple[int, int]) -> None:
        """The sum of a slow `add` comes to the memory."""
        self.memory[sum_of[0]] = sum_of[1]

    def run(self) -> None:
        """All of it: each processor has four operations out at a time."""
        self.table.write(HEAD)
        for at in range(min(4 * self.given.processors, self.given.operations)):
            self.made += 1
            processor = at % self.given.processors
            self.later(2 * self.draw.randrange(8), "issue", self.drawn(processor, at // self.given.processors))
        does = {"issue": self.issue, "hit": self.hit, "serve": self.serve, "answer": self.answer, "write": self.write}
        does["invalidate"] = lambda time, address: self.invalidate(address)
        while self.waiting:
            time, _, what, of = heapq.heappop(self.waiting)
            does[what](time, of)

    def last_memory(self) -> Dict[int, int]:
        """The words at the end that aren't 0."""
        words = self.kept if self.given.mistake == "buffer" else self.memory
        return {address: word for address, word in sorted(words.items()) if word}

    def told(self) -> str:
        """What is wrong, and which line of the table shows it first."""
        if self.wrong:
            return f"line {self.wrong_line} has the first wrong reply"
        words = self.last_memory()
        wrong = [address for address, word in self.right.items() if words.get(address, 0) != word]
        if not wrong:
            return "nothing is wrong"
        first = min(wrong, key=lambda it: self.last[it].served)
        return f"line {self.last_line[first]} is the last on a word that is wrong at the end"


def number(word: str) -> int:
    """The reader of a number on the command line."""
    if not (word.isascii() and word.isdigit() and 0 < int(word) < 2**32):
        raise argparse.ArgumentTypeError(f"'{word}' is no number from 1 to {2**32 - 1}")
    return int(word)


def main() -> None:
    """Simulates, and writes the table and the last memory."""
    parser = argparse.ArgumentParser(description=__doc__, formatter_class=argparse.RawDescriptionHelpFormatter)
    parser.add_argument("table", metavar="TABLE", help="where the trace is written")
    parser.add_argument("final", metavar="FINAL", help="where the last memory is written")
    parser.add_argument("--mistake", choices=["stale", "lost", "signed", "buffer"], default="", help="none if not given")
    for name, least, what in (("processors", 4, "processors"), ("words", 64, "words"), ("operations", 2000, "operations")):
        parser.add_argument(f"--{name}", metavar="N", type=number, default=least, help=f"so many {what}; {least} if not given")
    parser.add_argument("--seed", metavar="N", type=number, default=1, help="what is drawn; 1 if not given")
    given = parser.parse_args()
    with open(given.table, "w", encoding="ascii", newline="\n") as table:
        made = Simulator(given, table)
        made.run()
    with open(given.final, "w", encoding="ascii", newline="\n") as final:
        final.writelines(f"{address} {word}\n" for address, word in made.last_memory().items())
    print(f"simulator: {made.told()}", file=sys.stderr)


if __name__ == "__main__":
    main()
