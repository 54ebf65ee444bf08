"""The judge of memory models."""

from __future__ import annotations

from ctypes import create_string_buffer
from dataclasses import dataclass
from enum import IntFlag
from typing import Any, Iterable, NamedTuple, Optional, Tuple, Union

from . import _library
from ._faults import LOG_REASONS, REASONS, LogFault, TextFault
from ._records import FENCE, VALUES, Operation, Text, bytes_of, number_of, word_of


class Model(IntFlag):
    """Memory models, weakest first: coherence; coherence with fences; partial and total store order; sequential
    consistency."""

    COHERENT = 1
    FENCED = 2
    PSO = 4
    TSO = 8
    SC = 16


class Init(NamedTuple):
    """An entry of a log: the opening word of an address, 0 where none is given. All of these stand in front."""

    address: int
    word: int


class Made(NamedTuple):
    """An entry of a log: the next operation in the program of a processor, below 4096; or FENCE, without the rest."""

    processor: int
    operation: int
    address: int = 0
    values: Tuple[int, ...] = ()


@dataclass(frozen=True)
class Wrote:
    """An entry of a log: an operation wrote next on its word, given by its processor and its index among what that made,
    from 0, fences too. Every operation but a load writes."""

    processor: int
    index: int


@dataclass(frozen=True)
class Read:
    """An entry of a log: a load read what an operation wrote, given by its processor and index; or, with None, the
    opening word."""

    processor: int
    index: int
    source: Optional[Tuple[int, int]] = None


@dataclass(frozen=True)
class Served:
    """An entry of a log: a load read what the last Wrote above left on its word."""

    processor: int
    index: int


@dataclass(frozen=True)
class Replied:
    """An entry of a log: what an operation replied, the word that was there before; None of a store."""

    processor: int
    index: int
    old: Optional[int] = None


LogEntry = Union[Init, Made, Wrote, Read, Served, Replied]


class Obeyed(NamedTuple):
    """The models that a log obeys, and the text that the program prints of it; its lines are entries, from 1."""

    models: Model
    text: str


class WrongReply(NamedTuple):
    """A reply of a log isn't what its operation does to the word that it finds: its entry, from 1, that word, and the
    entry that made the operation which left it, or 0 for the opening word."""

    entry: int
    word: int
    writer: int


def model(entries: Iterable[LogEntry], words: int = 2**32, order: bool = False) -> Union[Obeyed, WrongReply]:
    """Judges a log by five memory models, over a memory of so many words. The text has a line for each model, the cycle of
    the weakest that the log breaks, and with order an order of the strongest that it obeys. LogFault tells the first entry
    that can't stand.

        >>> from torusmem import Made, Model, Operation, Read, Wrote, model
        >>> log = [Made(0, Operation.STORE, 0, (1,)), Made(0, Operation.LOAD, 1), Made(1, Operation.STORE, 1, (1,))]
        >>> log += [Made(1, Operation.LOAD, 0), Wrote(0, 0), Wrote(1, 0), Read(0, 1), Read(1, 1)]
        >>> obeyed = model(log)
        >>> Model.TSO in obeyed.models, Model.SC in obeyed.models
        (True, False)
        >>> print("\\n".join(obeyed.text.splitlines()[4:8]))
        sc no
        no order of sc:
        line 1: 0 store 0 1
          before, in program order
    """
    made = [entry_from(entry) for entry in entries]
    raw = (_library.RawLogEntry * (len(made) or 1))(*made)
    count, asked, call = word_of(words, "a number of words"), int(order), _library.library().model
    out = create_string_buffer(1 << 12)
    said = call(count, raw, len(made), asked, out, len(out))
    if said.code == _library.SHORT:
        out = create_string_buffer(said.value)
        said = call(count, raw, len(made), asked, out, len(out))
    if said.code == _library.OK:
        return Obeyed(Model(said.models), out.raw[: said.value].decode("ascii"))
    if said.code == _library.WRONG_REPLY:
        return WrongReply(said.value, said.word, said.writer)
    if said.code == _library.FAULT_MEMORY:
        raise MemoryError(f"torusmem: {REASONS[12]} (F12)")
    raise LogFault(said.value, said.code)


class Decided(NamedTuple):
    """The models that a log obeys by its replies alone, those that it breaks, and the text that the program prints of it. A model
    is in neither where the search gave up, or annotations or weaker fences leave it open."""

    obeyed: Model
    broken: Model
    text: str


class Unwritten(NamedTuple):
    """The reply of this line is what no write of its word left: every model is broken."""

    line: int


class LostUpdate(NamedTuple):
    """The atomics of two lines found what only one write of their word left: every model is broken."""

    line: int
    other: int


def model_values(
    text: Text, nodes: int = 10_000, order: bool = False, file: str = "log text"
) -> Union[Decided, Unwritten, LostUpdate]:
    """Judges the log of a log text (docs/FORMATS.md, "Log text") by five memory models, by its operations and their replies alone,
    with at most so many nodes for each. With order the text has an order of the strongest that it obeys. TextFault tells the
    first fault of the text; file is how it names the text.

        >>> from torusmem import Model, model_values
        >>> made = "made 0 store 0 1\\nmade 0 load 1\\nmade 1 store 1 1\\nmade 1 load 0\\n"
        >>> log = "log 1\\nwords 2\\n" + made + "replied 0 1 0\\nreplied 1 1 0\\n"
        >>> decided = model_values(log)
        >>> Model.TSO in decided.obeyed, Model.SC in decided.broken
        (True, True)
    """
    given, most, call = bytes_of(text, "log"), word_of(nodes, "nodes"), _library.library().model_values
    out = create_string_buffer(1 << 12)
    said = call(given, len(given), most, int(order), out, len(out))
    if said.code == _library.SHORT:
        out = create_string_buffer(said.value)
        said = call(given, len(given), most, int(order), out, len(out))
    if said.code == _library.OK:
        return Decided(Model(said.obeyed), Model(said.broken), out.raw[: said.value].decode("ascii"))
    if said.code == _library.UNWRITTEN:
        return Unwritten(said.value)
    if said.code == _library.LOST_UPDATE:
        return LostUpdate(said.value, said.other)
    if said.code == _library.FAULT_MEMORY:
        raise MemoryError(f"torusmem: {REASONS[12]} (F12)")
    raise TextFault(file, said.value, said.code, "log", LOG_REASONS.get(said.code, ""))


def entry_from(entry: LogEntry) -> Any:
    """An entry as the library takes it."""
    if isinstance(entry, Init):
        address, word = number_of(entry.address, "an address"), word_of(entry.word, "an opening word")
        return _library.RawLogEntry(kind=_library.LOG_INIT, address=address, first=word)
    processor = number_of(entry.processor, "a processor")
    if isinstance(entry, Made):
        operation, address = number_of(entry.operation, "an operation"), number_of(entry.address, "an address")
        if operation != FENCE and len(entry.values) != VALUES.get(Operation(operation), 1):
            raise ValueError(f"{Operation(operation).name} doesn't have the values {entry.values!r}")
        first, second = ([word_of(it, "a value") for it in entry.values] + [0, 0])[:2]
        return _library.RawLogEntry(
            kind=_library.LOG_MADE, processor=processor, operation=operation, address=address, first=first, second=second
        )
    raw = _library.RawLogEntry(processor=processor, index=number_of(entry.index, "an index"))
    if isinstance(entry, Wrote):
        raw.kind = _library.LOG_WROTE
    elif isinstance(entry, Served):
        raw.kind = _library.LOG_SERVED
    elif isinstance(entry, Read) and entry.source is None:
        raw.kind = _library.LOG_READ_OPENING
    elif isinstance(entry, Read):
        raw.kind = _library.LOG_READ
        raw.from_processor, raw.from_index = (number_of(it, "a source") for it in entry.source or ())
    else:
        raw.kind = _library.LOG_REPLIED
        raw.has_old, raw.old = (0, 0) if entry.old is None else (1, word_of(entry.old, "an old word"))
    return raw
