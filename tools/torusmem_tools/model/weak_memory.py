"""RISC-V's memory model by all orders: a log with annotations obeys it if some total order of its memory operations keeps preserved
program order and each word's order of writes, with the load value axiom and the atomicity axiom (The RISC-V Instruction Set Manual,
volume I, RVWMO Memory Consistency Model). An order is built operation by operation; what may come next depends on which ones came.
"""
from __future__ import annotations

from typing import Dict, FrozenSet, Iterable, Iterator, List, NamedTuple, Optional, Set, Tuple

from torusmem_tools.model.operations import VALUES

# An operation by its processor and its index there.
Name = Tuple[int, int]
RULES = frozenset(range(1, 14))
SETS = ("r", "w", "rw")


class Noted(NamedTuple):
    """An operation, or a fence: its kind, word and values, and the words behind them; of a fence its sets."""

    kind: str
    word: int = 0
    values: Tuple[int, ...] = ()
    words: Tuple[str, ...] = ()

    def reads(self) -> bool:
        return self.kind not in ("store", "fence")

    def is_write(self) -> bool:
        return self.kind not in ("load", "fence")

    def is_atomic(self) -> bool:
        return self.reads() and self.is_write()

    def is_rcsc(self) -> bool:
        return "rcpc" not in self.words and bool({"acquire", "release"} & set(self.words))

    def is_among(self, accesses: str) -> bool:
        """Whether it is of some accesses, `r`, `w` or both."""
        return "r" in accesses and self.reads() or "w" in accesses and self.is_write()

    def orders(self) -> List[Tuple[str, str]]:
        """The accesses that a fence keeps before others."""
        if self.words == ("tso",):
            return [("r", "rw"), ("w", "w")]
        return [(self.words[0], self.words[1])] if self.words else [("rw", "rw")]

    def text(self) -> str:
        numbers = [] if self.kind == "fence" else [str(self.word), *map(str, self.values)]
        return " ".join([self.kind, *numbers, *self.words])


class Dependency(NamedTuple):
    """Of a processor one operation on another, in some way."""

    operation: Name
    on: Name
    kind: str


class WeakLog:
    """Operations of each processor in program order; of each word its writes in their order; of each load the write that it
    read, or none; dependencies."""

    def __init__(self, programs: List[List[Noted]]) -> None:
        self.programs = programs
        self.made: Dict[Name, Noted] = {(p, k): it for p, program in enumerate(programs) for k, it in enumerate(program)}
        self.writes: Dict[int, List[Name]] = {it.word: [] for it in self.made.values() if it.kind != "fence"}
        self.source: Dict[Name, Optional[Name]] = {}
        self.dependencies: List[Dependency] = []

    def lines(self) -> List[str]:
        """The log's text."""
        words = max(self.writes, default=0) + 1
        found = ["log 1", f"words {words}"]
        found += [f"made {p} {it.text()}" for (p, _), it in self.made.items()]
        found += [f"depends {it.operation[0]} {it.operation[1]} on {it.on[1]} {it.kind}" for it in self.dependencies]
        found += [f"wrote {p} {k}" for writes in self.writes.values() for p, k in writes]
        for (p, k), by in self.source.items():
            found.append(f"read {p} {k} " + ("opening" if by is None else f"from {by[0]} {by[1]}"))
        return found

    def order_writes(self, orders: List[List[Name]]) -> None:
        """Puts the writes of each word in order: in these, and those of other words processor by processor."""
        for word in self.writes:
            given = [it for it in orders if self.made[it[0]].word == word]
            self.writes[word] = given[0] if given else [x for x, it in self.made.items() if it.is_write() and it.word == word]

    def may_depend(self, it: Dependency) -> bool:
        """Whether a log may have a dependency: of an operation on one before it that gives a register, and of data of what writes."""
        on, operation = self.made[it.on], self.made[it.operation]
        gives = on.reads() or "conditional" in on.words
        return it.on < it.operation and gives and operation.kind != "fence" and (it.kind != "data" or operation.is_write())

    def without_lone_conditionals(self) -> "WeakLog":
        """The log, where store conditionals without a load reserved on their word are stores."""
        while True:
            pairs = self.pairs()
            lone = [x for x, it in self.made.items() if "conditional" in it.words and (x not in pairs or self.made[pairs[x]].word != it.word)]
            if not lone:
                self.dependencies = [it for it in self.dependencies if self.may_depend(it)]
                return self
            for p, k in lone:
                it = self.made[p, k]
                self.made[p, k] = self.programs[p][k] = it._replace(words=tuple(word for word in it.words if word != "conditional"))

    def read(self, x: Name) -> Optional[Name]:
        """The write that a load or an atomic read; none for the opening word."""
        if not self.made[x].is_write():
            return self.source[x]
        writes = self.writes[self.made[x].word]
        return writes[writes.index(x) - 1] if writes.index(x) else None

    def pairs(self) -> Dict[Name, Name]:
        """Of each store conditional its load reserved: the last one before it, with neither of the two between."""
        found: Dict[Name, Name] = {}
        for p, program in enumerate(self.programs):
            last: Optional[int] = None
            for k, it in enumerate(program):
                if "conditional" in it.words and last is not None:
                    found[p, k] = (p, last)
                last = k if "reserved" in it.words else None if "conditional" in it.words else last
        return found

    def depends(self, y: Name, on: Name, kinds: Iterable[str]) -> bool:
        """Whether an operation has a dependency on another: a branch's lasts."""
        return any(it.on == on and it.kind in kinds and (it.operation == y or it.kind == "control" and it.operation[0] == y[0] and it.operation <= y)
                   for it in self.dependencies)

    def keeping(self, x: Name, y: Name) -> Iterator[int]:
        """The rules of preserved program order that keep the first before the second, by the manual's numbers."""
        a, b, between = self.made[x], self.made[y], [(x[0], k) for k in range(x[1] + 1, y[1])]
        one = a.word == b.word
        if b.is_write() and one:
            yield 1
        if a.reads() and b.reads() and one and self.read(x) != self.read(y):
            if not any(self.made[m].is_write() and self.made[m].word == b.word for m in between):
                yield 2
        if b.reads() and self.read(y) == x and (a.is_atomic() or "conditional" in a.words):
            yield 3
        for m in between:
            if self.made[m].kind == "fence" and any(a.is_among(p) and b.is_among(s) for p, s in self.made[m].orders()):
                yield 4
        if "acquire" in a.words:
            yield 5
        if "release" in b.words:
            yield 6
        if a.is_rcsc() and b.is_rcsc():
            yield 7
        if self.pairs().get(y) == x:
            yield 8
        yield from self.depending(x, y, between)

    def depending(self, x: Name, y: Name, between: List[Name]) -> Iterator[int]:
        """The rules of dependencies that do."""
        b = self.made[y]
        if self.depends(y, x, ["address"]):
            yield 9
        if self.depends(y, x, ["data"]):
            yield 10
        if b.is_write() and self.depends(y, x, ["control"]):
            yield 11
        if b.reads() and self.read(y) in between and self.depends(self.read(y) or y, x, ["address", "data"]):
            yield 12
        if b.is_write() and any(self.depends(m, x, ["address"]) for m in between):
            yield 13

    def kept(self) -> Dict[Tuple[Name, Name], Set[int]]:
        """The pairs of preserved program order, each with its rules."""
        found: Dict[Tuple[Name, Name], Set[int]] = {}
        for p, program in enumerate(self.programs):
            places = [(p, k) for k, it in enumerate(program) if it.kind != "fence"]
            for at, y in enumerate(places):
                for x in places[:at]:
                    rules = set(self.keeping(x, y))
                    if rules:
                        found[x, y] = rules
        return found

    def obeys(self, rules: FrozenSet[int] = RULES, are_atomic: bool = True) -> bool:
        """Whether there is an order: all are built, operation by operation."""
        names = [x for x, it in self.made.items() if it.kind != "fence"]
        before: Dict[Name, Set[Name]] = {x: set() for x in names}
        for (x, y), by in self.kept().items():
            if by & rules:
                before[y].add(x)
        pairs = self.pairs() if are_atomic else {}
        stack: List[FrozenSet[Name]] = [frozenset()]
        seen = set(stack)
        while stack:
            done = stack.pop()
            if len(done) == len(names):
                return True
            for x in names:
                after = done | {x}
                if x not in done and after not in seen and before[x] <= done and self.may(done, x, pairs.get(x)):
                    seen.add(after)
                    stack.append(after)
        return False

    def may(self, done: FrozenSet[Name], x: Name, reserved: Optional[Name]) -> bool:
        """Whether an operation may come next, behind those that are done: a write behind those before it on its word, what reads
        where it finds what it read, and a store conditional where no other processor's write came behind what its load read."""
        it, writes = self.made[x], self.writes[self.made[x].word]
        if it.is_write() and not set(writes[: writes.index(x)]) <= done:
            return False
        if it.reads():
            seen = [y for y in writes if y != x and (y in done or y[0] == x[0] and y[1] < x[1])]
            if (seen[-1] if seen else None) != self.read(x):
                return False
        if reserved is None:
            return True
        source = self.read(reserved)
        behind = writes[writes.index(source) + 1 if source is not None else 0:]
        return not any(y in done and y[0] != x[0] for y in behind)


def noted(text: str) -> Noted:
    """An operation as a log writes it."""
    kind, *rest = text.split()
    if kind == "fence":
        return Noted(kind, words=tuple(rest))
    count = 1 + VALUES[kind]
    return Noted(kind, int(rest[0]), tuple(map(int, rest[1:count])), tuple(rest[count:]))
