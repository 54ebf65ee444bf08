"""A machine."""

from __future__ import annotations

import os
from ctypes import byref, c_uint64, create_string_buffer
from operator import index as whole
from typing import Any, Iterable, Optional, Sequence, Tuple, Union

from . import _library
from ._faults import REASONS, fault_of
from ._kept import alone
from ._looks import Looks
from ._records import MOST, Path, Shape, Steps, Text, bytes_of, number_of


NO_RECORD = "torusmem: the machine keeps no record: make it with recorded=True"


class Machine(Looks):
    """A machine: its tiles, with a processor, a router and a bank each, their channels, and the memory.

    Machine(machine_text, scripts_text) is loaded and hasn't moved yet; Machine.read(machine_file, scripts_file) reads
    both from files. TextFault tells the first fault of the first bad text. With recorded=True the machine keeps a record of
    what is done to it, so that it can be saved.

    Any thread may call it: it takes one call at a time, and others wait. `with` or close() gives its memory back, and so
    does dropping it.
    """

    _what, _letting_go = "machine", "free"

    def __init__(self, machine: Text, scripts: Text = b"", recorded: bool = False) -> None:
        names = ("machine text", "scripts text")
        self._load(bytes_of(machine, "machine"), bytes_of(scripts, "scripts"), names, recorded)

    @classmethod
    def read(cls, machine: Path, scripts: Path, recorded: bool = False) -> Machine:
        """The machine of two files. A fault names the file."""
        texts = []
        for path in (machine, scripts):
            with open(path, "rb") as file:
                texts.append(file.read())
        made = cls.__new__(cls)
        made._load(texts[0], texts[1], (os.fspath(machine), os.fspath(scripts)), recorded)
        return made

    @classmethod
    def of(cls, shape: Shape, words: Sequence[int] = (), recorded: bool = False) -> Machine:
        """The machine of a shape: its first words are given, and the others are 0. ValueError tells what is wrong with the
        shape, of which tiles and ports aren't looked at. With recorded=True it keeps a record, and can be saved."""
        if len(shape.datelines) != len(shape.radices):
            raise ValueError(f"torusmem: {REASONS[13]} (F13)")
        raw = _library.RawShape(dims=len(shape.radices), depth=shape.depth, tags=shape.tags, words=shape.words)
        raw.radices[:], raw.datelines[:] = ([*it, 0, 0, 0][:3] for it in (shape.radices, shape.datelines))
        made = cls._empty()
        call = made._calls.open_recorded if recorded else made._calls.open
        said = call(made._at, byref(raw), (c_uint64 * max(1, len(words)))(*words), len(words))
        if said.code in REASONS and said.code != _library.FAULT_MEMORY:
            raise ValueError(f"torusmem: {REASONS[said.code]} (F{said.code})")
        made._value(said)
        return made

    @alone
    def reopened(self) -> Machine:
        """Finishes its scripts, and opens a machine of the same shape that goes on with its words: what is asked of that is
        answered as if this one had gone on, and its limits begin anew. This one keeps its answers."""
        fresh = self._empty()
        self._value(self._calls.reopen(self._at, fresh._at))
        return fresh

    @classmethod
    def _empty(cls) -> Machine:
        """A machine that nothing is loaded into yet."""
        made = cls.__new__(cls)
        made._begin()
        made._step = made._calls.step
        return made

    @alone
    def save(self) -> bytes:
        """The bytes of its record: Machine.restored() makes this machine of them again. ValueError where it keeps none."""
        said = self._calls.save(self._at, create_string_buffer(1), 0)
        if said.code == _library.NO_RECORD:
            raise ValueError(NO_RECORD)
        if said.code != _library.SHORT:
            self._refuse(said.code, "record")
        out = create_string_buffer(said.value)
        count = self._value(self._calls.save(self._at, out, len(out)))
        return out.raw[:count]

    @classmethod
    def restored(cls, saved: bytes) -> Machine:
        """The machine that was saved as these bytes: it shows what that showed, does what that would do, and keeps the
        record. ValueError says where the bytes are no record of a machine."""
        made = cls._empty()
        said = made._calls.restore(made._at, saved, len(saved))
        if said.code == _library.BAD_RECORD:
            raise ValueError(f"torusmem: the bytes are no record of a machine: byte {said.value} is wrong, or missing")
        if said.code == _library.BAD_ACTION:
            raise ValueError(f"torusmem: action {said.value} of the record can't be done")
        if said.code in REASONS and said.code != _library.FAULT_MEMORY:
            raise ValueError(f"torusmem: a text of the record, line {said.value}: {REASONS[said.code]} (F{said.code})")
        made._value(said)
        return made

    @alone
    def clone(self) -> Machine:
        """The same machine once more, with the same record, which is done again. ValueError where it keeps none."""
        fresh = self._empty()
        said = self._calls.clone(self._at, fresh._at)
        if said.code == _library.NO_RECORD:
            raise ValueError(NO_RECORD)
        self._value(said)
        return fresh

    def _load(self, machine: bytes, scripts: bytes, files: Tuple[str, str], recorded: bool) -> None:
        self._begin()
        self._step = self._calls.step
        load = self._calls.load_recorded if recorded else self._calls.load
        said = load(self._at, machine, len(machine), scripts, len(scripts))
        if said.code == _library.OK:
            return
        if said.code == _library.FAULT_MEMORY:
            raise MemoryError(f"torusmem: {REASONS[12]} (F12)")
        raise fault_of(self._calls, machine, scripts, files)

    # Steps.

    def step(self, agent: int, choice: int, number: int = 0) -> bool:
        """Attempts one choice of one agent; whether it moved. What isn't enabled changes nothing. IndexError: there is no such
        agent, or it has no such choice.

        number: the router's input of TAKE_FROM and PUT, its output of CREDIT_OF; not looked at for other choices.
        """
        if not (0 <= agent <= MOST and 0 <= choice <= MOST and 0 <= number <= MOST):
            agent, choice, number = number_of(agent, "agent"), number_of(choice, "choice"), number_of(number, "number")
        with self._lock:
            said = self._step(self._at, agent, choice, number)
        if said.code:
            self._refuse(said.code, "such step")
        return bool(said.value == 1)

    @alone
    def enabled(self, agent: int, choice: int, number: int = 0) -> bool:
        """Whether such a step would move now. IndexError, as of step()."""
        words = number_of(agent, "agent"), number_of(choice, "choice"), number_of(number, "number")
        return self._value(self._calls.enabled(self._at, *words), "such step") == 1

    @alone
    def run(self, steps: Union[Steps, Iterable[Sequence[int]]]) -> int:
        """Makes these steps, (agent, choice) or (agent, choice, number) each, in one call; how many of them moved. What is
        made again and again is best made ready as Steps. Such a call ends, and can't be interrupted before. IndexError, as of
        step(): then none is made."""
        made = steps if isinstance(steps, Steps) else Steps(steps)
        said = self._calls.run(self._at, made._attempts, len(made))
        return self._value(said, f"such step: number {said.value} of the list")

    @alone
    def round(self) -> None:
        """Attempts each choice of each agent once."""
        self._value(self._calls.round(self._at))

    @alone
    def finish(self) -> int:
        """Makes rounds until every script is finished; how many. Such a call ends, and can't be interrupted before."""
        return self._value(self._calls.finish(self._at))

    @alone
    def fair_round(self) -> bool:
        """Attempts each choice once that is enabled now; of the heads in a router the oldest operation's goes first. Whether
        the guard held back what would have begun: it does where an operation has been out for more than 241 fair rounds for
        each tag of each tile. So no operation waits for ever, as it may in other rounds."""
        return self._value(self._calls.fair_round(self._at)) == 1

    @alone
    def fair_rounds(self, most: int = 2**64 - 1) -> int:
        """Makes fair rounds until every script is finished, at most so many; how many."""
        return self._value(self._calls.fair_rounds(self._at, most))

    @alone
    def clocked_round(self, turn: int) -> None:
        """Attempts each choice once that is enabled now, so that a flit goes one stage at most. The puts of each router begin
        at input `turn` modulo the number of its inputs: give the number of rounds so far, below 2**64."""
        self._value(self._calls.clocked_round(self._at, turn))

    @alone
    def finish_clocked(self) -> int:
        """Makes clocked rounds, with the turns from 0 on, until every script is finished; how many. Such a call ends, and
        can't be interrupted before."""
        return self._value(self._calls.finish_clocked(self._at))

    @alone
    def append(
        self,
        processor: int,
        operation: int,
        address: int = 0,
        first: Optional[int] = 0,
        second: Optional[int] = 0,
    ) -> None:
        """Gives a processor a further line at the end of its script, at any time: an Operation, FENCE or SPIN.

        first: the value of a store, swap, add, and, or, xor, max or min; what a cas expects; what a spin waits for
        second: what a cas writes; how many loads a spin may make, 1 to 4096

        A value that is None is `last`, the number replied to the operation just before it. What the line doesn't have
        isn't looked at. ValueError tells why the line is refused; the machine is as it was then.
        """
        self._given(self._calls.append, processor, operation, address, first, second)

    @alone
    def ask(
        self,
        processor: int,
        operation: int,
        address: int = 0,
        first: Optional[int] = 0,
        second: Optional[int] = 0,
    ) -> int:
        """Gives a processor an Operation, as append() does; its index among the operations of the processor, from 0 in the
        order of issue: what the processor issues under this index, whenever it does, is what was asked.

        ValueError tells why it is refused, as of append(); also where the script has a spin, since nobody can tell
        beforehand how many loads that makes.
        """
        return self._given(self._calls.ask, processor, operation, address, first, second)

    def _given(
        self, call: Any, processor: int, operation: int, address: int, first: Optional[int], second: Optional[int]
    ) -> int:
        """What a call answers that gives a processor a line."""
        words = number_of(processor, "processor"), number_of(operation, "operation"), number_of(address, "address")
        values = [0 if it is None else whole(it) for it in (first, second)]
        if not all(0 <= it < 2**64 for it in values):
            raise ValueError("a value is a word of 64 bits")
        lasts = (_library.FIRST_IS_LAST if first is None else 0) + (_library.SECOND_IS_LAST if second is None else 0)
        said = call(self._at, *words, *values, lasts)
        if said.code in REASONS and said.code != _library.FAULT_MEMORY:
            why = create_string_buffer(256)
            self._calls.explain_line(self._at, said.code, *words, *values, lasts, why, len(why))
            raise ValueError(f"torusmem: {why.value.decode('ascii')} (F{said.code})")
        if said.code == _library.BEHIND_SPIN:
            raise ValueError("torusmem: the script has a spin, and the index of what comes behind it isn't known")
        return self._value(said, "such line")

    @property
    @alone
    def finished(self) -> bool:
        """Whether every script is finished."""
        return self._value(self._calls.finished(self._at)) == 1

    @property
    @alone
    def moves_left(self) -> int:
        """How many moves any schedule can still make, at most."""
        return self._value(self._calls.moves_left(self._at))

    # Its end.

    def close(self) -> None:
        """Gives its memory back. A second time nothing happens."""
        super().close()
        self._row = None

    def __repr__(self) -> str:
        return f"<torusmem.Machine {'closed' if self.closed else 'of ' + str(self._size()) + ' tiles'}>"

    def _size(self) -> Any:
        return self._calls.tiles(self._at).value
