"""What a machine shows."""

from __future__ import annotations

from ctypes import Array, byref, c_uint64, create_string_buffer
from typing import Any, Iterator, List, NoReturn, Optional

from . import _library
from ._faults import REASONS, Closed, fault_of
from ._kept import Kept, alone
from ._records import Answer, Channel, Entry, Happened, Kind, Line, Operation, Ordered, Shape, Spin, Text
from ._records import answer_from, bytes_of, number_of, ordered_from, values_of


class Looks(Kept):
    """What a machine shows, and what every call makes of a code."""

    _row: Any = None  # room for the row, once it was asked for

    def _refuse(self, code: int, what: str) -> NoReturn:
        if code == _library.EMPTY:
            raise Closed("the machine is closed")
        if code == _library.FAULT_MEMORY:
            raise MemoryError(f"torusmem: {REASONS[12]} (F12)")
        raise IndexError(f"there is no {what}")

    def _value(self, said: Any, what: str = "such number") -> int:
        if said.code != _library.OK:
            self._refuse(said.code, what)
        return int(said.value)

    @property
    @alone
    def shape(self) -> Shape:
        """What the machine is built to."""
        raw = _library.RawShape()
        self._value(self._calls.shape(self._at, byref(raw)))
        radices, datelines = tuple(raw.radices[: raw.dims]), tuple(raw.datelines[: raw.dims])
        return Shape(radices, datelines, raw.depth, raw.tags, raw.words, raw.tiles, raw.ports)

    @property
    @alone
    def tiles(self) -> int:
        """The number of tiles, 2 to 64."""
        return self._value(self._calls.tiles(self._at))

    @alone
    def word(self, address: int) -> int:
        """The word of an address."""
        said = self._calls.word(self._at, number_of(address, "address"))
        return self._value(said, f"address {address}")

    @alone
    def words(self) -> List[int]:
        """All words of the memory, by address."""
        count = self._value(self._calls.words(self._at))
        return self.row()[-count - 1 : -1]

    @alone
    def row(self) -> List[int]:
        """The row: the places of all channels in channel order, the words of the memory, and last the count of the
        processors that have reported."""
        return list(self._row_now())

    def _row_now(self) -> Any:
        """The room of the row, with what stands there now."""
        if self._row is None:
            said = self._calls.rows(self._at, (c_uint64 * 1)(), 0)
            if said.code != _library.SHORT:
                self._refuse(said.code, "row")
            self._row = (c_uint64 * said.value)()
        self._value(self._calls.rows(self._at, self._row, len(self._row)))
        return self._row

    @alone
    def row_array(self) -> memoryview:
        """The row as a buffer of 64-bit words, a copy of its own: `numpy.asarray` takes it without copying it again."""
        row = self._row_now()
        return memoryview((c_uint64 * len(row)).from_buffer_copy(row)).cast("B").cast("Q")

    @alone
    def words_array(self) -> memoryview:
        """All words of the memory, by address, as such a buffer."""
        return self.row_array()[-self._value(self._calls.words(self._at)) - 1 : -1]

    @alone
    def channels(self) -> List[Line]:
        """All channels in channel order, with the words at their places now."""
        row, shape = self.row(), self.shape
        each = shape.ports + 2  # a tile has an ejection for each of its two injections besides the inputs of its router
        cut = [tuple(row[shape.depth * it : shape.depth * (it + 1)]) for it in range(shape.tiles * each)]
        return [Line(it // each, it % each, words_now) for it, words_now in enumerate(cut)]

    @alone
    def answers(self, processor: int, first: int = 0) -> List[Answer]:
        """The answers of a processor (by its tile), in the order of answering; those from number `first` on."""
        at, processor = self._at, number_of(processor, "processor")
        count = self._value(self._calls.answers(at, processor), f"processor {processor}")
        made = []
        for number in range(number_of(first, "first"), count):
            made.append(answer_from(self._calls.answer_at(at, processor, number)))
        return made

    @alone
    def answers_array(self, processor: int, first: int = 0) -> Array[_library.RawAnswer]:
        """The same as an array of structures with the fields of torusmem_answer in include/torusmem.h, which is a buffer:
        of `numpy.asarray(it)` the field `old` is the words, each of 64 bits, where `has_old` is 1."""
        processor, first = number_of(processor, "processor"), number_of(first, "first")
        count = self._value(self._calls.answers(self._at, processor), f"processor {processor}")
        numbers = range(first, max(first, count))
        return (_library.RawAnswer * len(numbers))(*(self._calls.answer_at(self._at, processor, it) for it in numbers))

    @alone
    def answer_of(self, processor: int, index: int) -> Optional[Answer]:
        """The answer of a processor (by its tile) to its operation of this index, from 0 in the order of issue; None where
        it isn't answered yet. IndexError where the script of the processor can't make so many operations."""
        words = number_of(processor, "processor"), number_of(index, "index")
        raw = self._calls.answer_of(self._at, *words)
        if raw.code == _library.NOT_YET:
            return None
        if raw.code != _library.OK:
            self._refuse(raw.code, f"operation {index} of processor {processor}")
        return answer_from(raw)

    @alone
    def entries(self, bank: int, first: int = 0) -> List[Entry]:
        """The services of a bank (by its tile), in their order; those from number `first` on."""
        at, bank = self._at, number_of(bank, "bank")
        count = self._value(self._calls.entries(at, bank), f"bank {bank}")
        made = []
        for number in range(number_of(first, "first"), count):
            raw = self._calls.entry_at(at, bank, number)
            operation, old = Operation(raw.operation), raw.old if raw.has_old else None
            made.append(Entry(raw.source, raw.tag, raw.address, operation, values_of(raw, operation), old))
        return made

    @alone
    def entries_array(self, bank: int, first: int = 0) -> Array[_library.RawEntry]:
        """The same as an array of structures, with the fields of torusmem_entry, as answers_array()."""
        bank, first = number_of(bank, "bank"), number_of(first, "first")
        count = self._value(self._calls.entries(self._at, bank), f"bank {bank}")
        numbers = range(first, max(first, count))
        return (_library.RawEntry * len(numbers))(*(self._calls.entry_at(self._at, bank, it) for it in numbers))

    def order(self, first: int = 0) -> Iterator[Ordered]:
        """The operations that are served, in the one legal order, which is that of the services; those from row `first` on
        that are there when the iterator begins."""
        for it in self._rows_from(self._calls.order, _library.RawOrdered, number_of(first, "first")):
            yield ordered_from(it)

    def events(self, first: int = 1, row: int = 0) -> Iterator[Happened]:
        """The events of the operations that are served, in the order in which they happened; those numbered `first` or
        higher that are there when the iterator begins. The issue of an operation comes with its service: until then its
        number is left free. It goes over the rows of the order from `row` on alone: a host that follows a run gives the one
        that answered_to() has told before."""
        kinds = {_library.ISSUED: "issue", _library.SERVED: "service", _library.ANSWERED: "answer"}
        asked = number_of(row, "row"), number_of(first, "first")
        for it in self._rows_from(self._calls.events_from, _library.RawHappened, *asked):
            yield Happened(it.number, kinds[it.what], ordered_from(it.operation))

    @alone
    def answered_to(self, first: int = 0) -> int:
        """The first row of the order, from row `first` on, whose operation isn't answered yet; the number of rows, where
        all are."""
        return self._value(self._calls.answered_to(self._at, number_of(first, "first")))

    @alone
    def _rows_from(self, call: Any, kind: Any, *first: int) -> List[Any]:
        """The rows of the order, or the events, as the library has them."""
        out = (kind * 1)()
        said = call(self._at, *first, out, 0)
        if said.code == _library.SHORT:
            out = (kind * said.value)()
            said = call(self._at, *first, out, len(out))
        return list(out[: self._value(said)])

    @alone
    def spins_out(self, machine: Text, scripts: Text) -> List[Spin]:
        """The spins that ran out of loads in what was run so far, by processor, and of each in the order of its script:
        by the texts of which the machine was loaded, which are read once more. TextFault tells a fault of them."""
        at, texts = self._at, (bytes_of(machine, "machine"), bytes_of(scripts, "scripts"))
        given = at, texts[0], len(texts[0]), texts[1], len(texts[1])
        out = (_library.RawSpin * 1)()
        said = self._calls.spins_out(*given, out, 0)
        if said.code == _library.SHORT:
            out = (_library.RawSpin * said.value)()
            said = self._calls.spins_out(*given, out, len(out))
        if said.code not in (_library.OK, _library.EMPTY, _library.FAULT_MEMORY):
            raise fault_of(self._calls, texts[0], texts[1], ("machine text", "scripts text"))
        count = self._value(said)
        return [Spin(it.processor, it.line, it.address, it.sought, it.loads) for it in out[:count]]

    @alone
    def report(self) -> str:
        """The report of the run so far: the text that the program prints, a good report."""
        at = self._at
        said = self._calls.report(at, create_string_buffer(1), 0)
        if said.code != _library.SHORT:
            self._refuse(said.code, "report")
        out = create_string_buffer(said.value)
        length = self._value(self._calls.report(at, out, len(out)))
        return out.raw[:length].decode("ascii")

    @alone
    def route(self, src: int, dst: int, reply: bool = False) -> List[Channel]:
        """The channels of the route of a request, or of a reply, from tile to tile."""
        out = (_library.RawChannel * _library.LONGEST_ROUTE)()
        ends = number_of(src, "src"), number_of(dst, "dst")
        said = self._calls.route(self._at, *ends, 1 if reply else 0, out, len(out))
        count = self._value(said, f"route from tile {src} to tile {dst}")
        return [Channel(Kind(it.kind), it.tile, it.dim, bool(it.minus), it.bit, it.number) for it in out[:count]]

    @alone
    def next(self, at: int, input: int, dst: int) -> int:
        """The output by which a packet to tile dst leaves the router of tile `at`, where it came by this input."""
        words = number_of(at, "at"), number_of(input, "input"), number_of(dst, "dst")
        return self._value(self._calls.next(self._at, *words), f"tile {at} or {dst}, or no input {input}")
