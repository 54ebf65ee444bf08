"""A watch of a trace that goes on."""

from __future__ import annotations

from ctypes import c_uint64, create_string_buffer
from typing import Any, Iterable, Optional

from . import _library
from ._faults import REASONS, Closed, TooMany
from ._kept import Kept, alone
from ._records import VALUES, Operation, number_of, word_of


class Watch(Kept):
    """A watch of a trace that goes on: what linearize() judges at the end, it judges at each event, so that a host
    checks itself while it runs. Its memory follows the operations that are open. opening: the words by address, from 0;
    there are no other addresses.

    Any thread may call it: it takes one call at a time, and others wait. `with` or close() gives its memory back, and so
    does dropping it.

        >>> from torusmem import Operation, Watch
        >>> with Watch([0] * 8) as watch:
        ...     store, load = watch.issue(Operation.STORE, 5, 17), watch.issue(Operation.LOAD, 5)
        ...     first, later = watch.answer(load, 17), watch.issue(Operation.LOAD, 5)
        ...     print(first, watch.answer(later, 0), watch.answer(later, 17), watch.answer(store))
        True False True True
    """

    _what, _letting_go = "watch", "watch_end"

    def __init__(self, opening: Iterable[int]) -> None:
        words = [word_of(it, "an opening word") for it in opening]
        self._begin()
        self._next = 0
        self._taken(self._calls.watch_begin(self._at, (c_uint64 * (len(words) or 1))(*words), len(words)), "watch")

    @alone
    def clone(self) -> Watch:
        """Another watch that has seen what this one has, and goes on by itself."""
        fresh = type(self).__new__(type(self))
        fresh._begin()
        fresh._next = self._next
        self._taken(self._calls.watch_clone(self._at, fresh._at), "watch")
        return fresh

    @alone
    def save(self) -> bytes:
        """The bytes of what it knows: Watch.restored() makes a watch of them that answers every later event as this one
        would. They follow the words and the operations that are open, and not the length of the trace.

            >>> from torusmem import Operation, Watch
            >>> with Watch([0] * 8) as watch:
            ...     load, saved = watch.issue(Operation.LOAD, 5), watch.save()
            ...     with Watch.restored(saved) as other:
            ...         print(other.answer(load, 1), other.answer(load, 0), watch.answer(load, 1))
            False True False
        """
        said = self._calls.watch_save(self._at, create_string_buffer(1), 0)
        if said.code != _library.SHORT:
            self._taken(said, "watch")
        out = create_string_buffer(said.value)
        said = self._calls.watch_save(self._at, out, len(out))
        self._taken(said, "watch")
        return out.raw[: said.value]

    @classmethod
    def restored(cls, saved: bytes) -> Watch:
        """The watch that was saved as these bytes. ValueError says where they are none."""
        made = cls.__new__(cls)
        made._begin()
        said = made._calls.watch_restore(made._at, saved, len(saved))
        if said.code == _library.BAD_RECORD:
            raise ValueError(f"torusmem: the bytes are no watch: byte {said.value} is wrong, or missing")
        made._taken(said, "watch")
        made._next = said.value
        return made

    def _taken(self, said: Any, what: str) -> bool:
        """Whether the event is taken; an exception says why it isn't judged."""
        if said.code in (_library.OK, _library.NOT_LINEARIZABLE):
            return bool(said.code == _library.OK)
        if said.code == _library.EMPTY:
            raise Closed("the watch is closed")
        if said.code == _library.FAULT_MEMORY:
            raise MemoryError(f"torusmem: {REASONS[12]} (F12)")
        if said.code == _library.TOO_MANY:
            raise TooMany("a word has more configurations than were allowed")
        raise IndexError(f"there is no {what}")

    @alone
    def issue(self, operation: Operation, address: int, *values: int) -> int:
        """Takes the issue of an operation, with none of a load, expected and new of a cas, else one value. Its number,
        by which its answer names it."""
        if len(values) != VALUES.get(operation, 1):
            raise ValueError(f"{Operation(operation).name} doesn't have the values {values!r}")
        first, second = ([word_of(it, "a value") for it in values] + [0, 0])[:2]
        asked = number_of(operation, "an operation"), number_of(address, "address"), first, second
        self._taken(self._calls.watch_issue(self._at, self._next, *asked), f"address {address}")
        self._next += 1
        return self._next - 1

    @alone
    def answer(self, number: int, old: Optional[int] = None, configurations: int = 1_000_000) -> bool:
        """Takes the answer to the operation of a number, whose old word is None of a store; whether one order explains
        the trace with it. Where none does the answer isn't taken, and the watch goes on as if it had not been given; so
        it is where more configurations of the word than these would be looked at, at once (TooMany): with the default never
        while at most 9 operations are open on one word."""
        has_old, word = (0, 0) if old is None else (1, word_of(old, "an old word"))
        told = word_of(number, "a number"), has_old, word, word_of(configurations, "configurations")
        return self._taken(self._calls.watch_answer(self._at, *told), f"open operation {number}")

    def __repr__(self) -> str:
        return f"<torusmem.Watch {'closed' if self.closed else 'of ' + str(self._next) + ' operations'}>"
