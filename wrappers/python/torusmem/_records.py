"""What calls take and answer: choices, operations, answers, entries, channels and steps."""

from __future__ import annotations

import os
from array import array
from ctypes import sizeof
from dataclasses import dataclass
from enum import IntEnum
from operator import index as whole
from typing import Any, Iterable, List, NamedTuple, Optional, Sequence, Tuple, Union

from . import _library

Text = Union[str, bytes]
Path = Union[str, "os.PathLike[str]"]
MOST = 2**32 - 1


class Choice(IntEnum):
    """What an agent attempts. TAKE_FROM, PUT and CREDIT_OF are a router's, with the number of its input or output."""

    SEND = 0
    TAKE = 1
    TAKE_FROM = 2
    PUT = 3
    CREDIT = 4
    CREDIT_OF = 5
    SERVE = 6
    DONE = 7
    LOOK = 8


class Operation(IntEnum):
    """An operation on one word."""

    LOAD = 0
    STORE = 1
    SWAP = 2
    CAS = 3
    ADD = 4
    AND = 5
    OR = 6
    XOR = 7
    MAX = 8
    MIN = 9


# Lines of a script that are no operation, for Machine.append.
FENCE = _library.FENCE
SPIN = _library.SPIN


class Kind(IntEnum):
    """What a channel of a route is: the injection of its tile, a hop out of it, or its ejection."""

    INJECTION = 0
    HOP = 1
    EJECTION = 2


@dataclass(frozen=True)
class Answer:
    """An operation of a processor that is answered.

    index: among the operations of its processor, from 0 in the order of issue
    operation, values: what was asked; values are none of a load, expected and new of a cas, else one
    bank, place: the tile of the bank that served it, and its place among the services there, from 0
    old: the word that was there before; None of a store, which is answered `ok`
    """

    index: int
    operation: Operation
    values: Tuple[int, ...]
    bank: int
    place: int
    old: Optional[int]


class Shape(NamedTuple):
    """What a machine is built to.

    radices, datelines: of each dimension, dimension 0 first
    depth, tags: the flits of a channel, and the tags of a processor
    words, tiles, ports: how many words and tiles there are, and inputs of a router, and as many outputs
    """

    radices: Tuple[int, ...]
    datelines: Tuple[int, ...]
    depth: int
    tags: int
    words: int
    tiles: int
    ports: int


class Entry(NamedTuple):
    """A service of a bank.

    source, tag: the tile of the processor that asked, and the tag by which it asked
    address: of the word that was asked for
    operation, values, old: as those of an Answer
    """

    source: int
    tag: int
    address: int
    operation: Operation
    values: Tuple[int, ...]
    old: Optional[int]


@dataclass(frozen=True)
class Ordered:
    """An operation that is served, in the one legal order.

    bank, place: the tile of the bank that served it, and its place among the services there, from 0
    source, index: the tile of the processor that asked, and its place among the operations of that, from 0
    issued, served, answered: the numbers of its issue, service and answer among all such events, from 1; answered is None
    while it has no answer
    """

    bank: int
    place: int
    source: int
    index: int
    issued: int
    served: int
    answered: Optional[int]


def ordered_from(raw: Any) -> Ordered:
    """A row of the order of the library."""
    return Ordered(raw.bank, raw.place, raw.source, raw.index, raw.issued, raw.served, raw.answered or None)


class Happened(NamedTuple):
    """An event of an operation that is served: its number among all events, from 1; what happened, "issue", "service" or
    "answer"; and the operation."""

    number: int
    what: str
    operation: Ordered


class Spin(NamedTuple):
    """A spin that ran out of loads: its processor, its line in the scripts text, from 1, the address that it looked at,
    the number that it sought and didn't find, and how many loads it made."""

    processor: int
    line: int
    address: int
    sought: int
    loads: int


class Channel(NamedTuple):
    """A channel of a route: its kind, its tile, and its number, which rises along every route.

    dim, minus, bit: of a hop its dimension, whether it goes in minus direction, and its bit; else 0
    """

    kind: Kind
    tile: int
    dim: int
    minus: bool
    bit: int
    number: int


class Line(NamedTuple):
    """A channel of the machine: its tile, its place among the channels there (docs/FLITS-AND-PORTS.md, "Channels and ports"),
    and the words at its places now: flits, and 0 where none is."""

    tile: int
    place: int
    words: Tuple[int, ...]


class Steps:
    """Steps, (agent, choice) or (agent, choice, number) each, as Machine.run takes them: made ready once, for many runs
    of any machines."""

    def __init__(self, steps: Iterable[Sequence[int]]) -> None:
        made: List[int] = []
        for step in steps:
            if not 2 <= len(step) <= 3:
                raise ValueError(f"a step is an agent, a choice and perhaps a number, not {step!r}")
            made.extend(step)
            if len(step) == 2:
                made.append(0)
        try:
            words = array("I", made)
        except (OverflowError, TypeError):
            words = array("I", [number_of(it, "an agent, a choice and a number") for it in made])
        self._length = len(made) // 3
        self._attempts = (_library.Attempt * self._length).from_buffer_copy(words)

    def __len__(self) -> int:
        return self._length

    def __reduce__(self) -> Any:
        return _steps_of, (bytes(self._attempts),)


def _steps_of(words: bytes) -> Steps:
    """Steps that were pickled."""
    made = Steps(())
    made._length = len(words) // sizeof(_library.Attempt)
    made._attempts = (_library.Attempt * made._length).from_buffer_copy(words)
    return made


VALUES = {Operation.LOAD: 0, Operation.CAS: 2}


def bytes_of(text: Text, what: str) -> bytes:
    if isinstance(text, str):
        return text.encode("utf-8", "surrogateescape")
    if isinstance(text, (bytes, bytearray, memoryview)):
        return bytes(text)
    raise TypeError(f"{what} must be str or bytes, not {type(text).__name__}")


def number_of(number: int, what: str) -> int:
    """A number that the library can be given: ctypes would cut off what is above 32 bits."""
    found = whole(number)
    if 0 <= found <= MOST:
        return found
    raise ValueError(f"{what} must be 0 to {MOST}, not {found}")


def values_of(raw: Any, operation: Operation) -> Tuple[int, ...]:
    return (raw.first, raw.second)[: VALUES.get(operation, 1)]


def answer_from(raw: Any) -> Answer:
    """An answer of the library."""
    operation, old = Operation(raw.operation), raw.old if raw.has_old else None
    return Answer(raw.index, operation, values_of(raw, operation), raw.bank, raw.place, old)


def word_of(number: int, what: str) -> int:
    """A word that the library can be given: ctypes would cut off what is above 64 bits."""
    found = whole(number)
    if 0 <= found < 2**64:
        return found
    raise ValueError(f"{what} must be 0 to {2**64 - 1}, not {found}")
