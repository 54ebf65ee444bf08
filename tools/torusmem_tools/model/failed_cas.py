"""Finds which word each cas that failed has found: by a search of all orders of the operations on one key, in which each takes effect
as late as an answer allows (just-in-time linearization: Lowe, Concurrency and Computation 29(4), 2017). A yes is asked of
`torusmem linearize` again, with these words as replies.

An operation that leaves the word as it is, a load or such a cas, takes effect as soon as the word allows, since that takes no
choice away.
"""
from __future__ import annotations

from dataclasses import dataclass, field
from typing import Dict, List, Optional, Set, Tuple

from torusmem_tools.model import operations
from torusmem_tools.texts.call_trace import Trace

MOST = 20000
# What a key holds and which open operations took effect; the state before, and the operation that led here, with the word found.
Key = Tuple[int, int]
Node = Tuple[Optional["Node"], int, int]


@dataclass
class Asked:
    """An operation on the key: its bit among the open ones, what it does, its reply, None where there is none, and whether it is
    a cas that failed."""

    bit: int
    kind: str
    values: Tuple[int, ...]
    reply: Optional[int]
    is_failed: bool

    def is_idle(self) -> bool:
        """Whether it leaves the word as it is."""
        if self.is_failed or self.kind == "load":
            return True
        return self.kind != "store" and self.reply is not None and operations.word_after(self.kind, self.values, self.reply) == self.reply

    def fits(self, word: int) -> bool:
        """Whether it can take effect on the word."""
        if self.is_failed:
            return word != self.values[0]
        return self.kind == "store" or self.reply is None or self.reply == word


@dataclass
class Search:
    """The states of a key between two events. `words` has what a bad answer could have told."""

    trace: Trace
    failed: Set[int]
    states: Dict[Key, Node]
    is_open: Dict[int, Asked] = field(default_factory=dict)
    words: List[int] = field(default_factory=list)
    is_undecided: bool = False

    def settled(self, word: int, done: int, node: Node) -> Tuple[Key, Node]:
        """The state behind all idle operations that fit."""
        for at, it in self.is_open.items():
            if not done & it.bit and it.is_idle() and it.fits(word):
                done, node = done | it.bit, (node, at, word)
        return (word, done), node

    def issue(self, at: int) -> None:
        """An operation is issued."""
        kind, _, *values = self.trace.calls.asked[at].split(" ")
        reply = self.trace.calls.replies[at]
        taken, bit = sum(it.bit for it in self.is_open.values()), 1
        while taken & bit:
            bit <<= 1
        if kind == "load" and not reply:
            return
        told = int(reply) if reply.isdigit() else None
        made = self.is_open[at] = Asked(bit, kind, tuple(map(int, values)), told, at in self.failed)
        if made.is_idle():
            self.states = dict(self.settled(*key, node) for key, node in self.states.items())

    def answer(self, at: int) -> bool:
        """An operation is answered: whether there is a state in which it took effect."""
        bit, found, seen, todo = self.is_open[at].bit, {}, set(self.states), list(self.states.items())
        while todo:
            (word, done), node = todo.pop()
            if done & bit:
                found[word, done & ~bit] = node
                continue
            for other, it in self.is_open.items():
                if done & it.bit or it.is_idle() or not it.fits(word):
                    continue
                key, made = self.settled(operations.word_after(it.kind, it.values, word), done | it.bit, (node, other, word))
                if key not in seen:
                    seen.add(key)
                    todo.append((key, made))
            self.is_undecided = self.is_undecided or len(seen) > MOST
            if self.is_undecided:
                return False
        self.words = sorted({word for word, _ in seen})
        self.states = found
        del self.is_open[at]
        return bool(found)

    def words_of_failed(self) -> Dict[int, str]:
        """The word that each failed cas found, in one of the orders."""
        node, found = next(iter(self.states.values())), {}
        while node[0] is not None:
            if node[1] in self.failed:
                found[node[1]] = str(node[2])
            node = node[0]
        return found


def words_found(trace: Trace, key: str, failed: Set[int], opening: int) -> Tuple[Search, Optional[int]]:
    """The search on a key, and the event from which on there is no order; None where there is one."""
    search = Search(trace, failed, {(opening, 0): (None, 0, 0)})
    for event in trace.calls.order:
        at = event if event >= 0 else ~event
        if at in trace.calls.dropped or trace.calls.asked[at].split(" ", 2)[1] != key:
            continue
        if event >= 0:
            search.issue(at)
        elif not search.answer(at):
            return search, event
    return search, None
