"""All outcomes of scripts, over every schedule, and runs to them."""

from __future__ import annotations

from ctypes import create_string_buffer
from typing import Any, Callable, NamedTuple, Optional, Tuple

from . import _library
from ._faults import REASONS, fault_of
from ._records import Text, bytes_of, word_of

FILES = ("machine text", "scripts text")


class Outcomes(NamedTuple):
    """The outcomes of scripts that are known: whether they are all; how many; in how many states they were found; and the text that
    the program prints, a line for each and a last line."""

    exact: bool
    outcomes: int
    states: int
    text: str


class Reached(NamedTuple):
    """What is found of a run with some replies. reached: True with its steps in text; False where no run of any schedule has
    them, or None where none is known that has, and text says so."""

    reached: Optional[bool]
    text: str


class Unsearched(ValueError):
    """Outcomes are not searched for: the scripts have more than 256 operations, or other numbers of replies than an answer, or
    a word of that is no reply."""


def outcomes(machine: Text, scripts: Text, states: int = 100_000, files: Tuple[str, str] = FILES) -> Outcomes:
    """The outcomes of a scripts text on the machine of a machine text, over all schedules (docs/OUTCOMES.md), in at most so
    many states, 1 to 10000000. TextFault tells the first fault of the first bad text; files is how it names them. Unsearched
    where the scripts have more than 256 operations.

        >>> from torusmem import outcomes
        >>> machine, scripts = "radix 2\\ndims 1\\ndepth 4\\ntags 4\\nwords 2\\n", "0 store 1 5\\n1 load 1\\n"
        >>> print(outcomes(machine, scripts).text, end="")
        outcome 0 : ok / 0 ; 1 5
        outcome 1 : ok / 5 ; 1 5
        exact, 5 states
    """
    one, two = bytes_of(machine, "machine"), bytes_of(scripts, "scripts")
    call, most = _library.library().outcomes, word_of(states, "states")
    said, text = filled(lambda out, room: call(one, len(one), two, len(two), most, out, room))
    if said.code not in (_library.OK, _library.UNDECIDED):
        raise why_not(said, one, two, files)
    return Outcomes(said.code == _library.OK, said.outcomes, said.states, text)


def outcomes_run(
    machine: Text, scripts: Text, number: int, states: int = 100_000, files: Tuple[str, str] = FILES
) -> Optional[str]:
    """The steps of a run to the outcome of a number, as outcomes() counts them: a steps text. IndexError where there is no
    outcome of this number; None where none of this number is known, and there may be others.

        >>> from torusmem import outcomes_run
        >>> machine, scripts = "radix 2\\ndims 1\\ndepth 4\\ntags 4\\nwords 2\\n", "0 store 1 5\\n1 load 1\\n"
        >>> outcomes_run(machine, scripts, 1).splitlines()[-1]
        '# finished'
    """
    one, two = bytes_of(machine, "machine"), bytes_of(scripts, "scripts")
    call, most, place = _library.library().outcomes_run, word_of(states, "states"), word_of(number, "a number")
    said, text = filled(lambda out, room: call(one, len(one), two, len(two), most, place, out, room))
    if said.code == _library.NONE:
        raise IndexError(f"there is no outcome {number}")
    if said.code not in (_library.OK, _library.UNDECIDED):
        raise why_not(said, one, two, files)
    return text if said.code == _library.OK else None


def reach(
    machine: Text, scripts: Text, answer: Text, states: int = 100_000, files: Tuple[str, str] = FILES
) -> Reached:
    """A run whose replies are those of an answer: of each processor that has any, in the order of issue, with ` / ` between two
    processors, and `*` for any reply. Unsearched also where no script can have such replies.

        >>> from torusmem import reach
        >>> machine, scripts = "radix 2\\ndims 1\\ndepth 4\\ntags 4\\nwords 2\\n", "0 store 1 5\\n1 load 1\\n"
        >>> reach(machine, scripts, "ok / 5").reached, reach(machine, scripts, "ok / 4").text
        (True, 'never, 5 states\\n')
    """
    one, two = bytes_of(machine, "machine"), bytes_of(scripts, "scripts")
    call, most, asked = _library.library().reach, word_of(states, "states"), bytes_of(answer, "answer")
    said, text = filled(lambda out, room: call(one, len(one), two, len(two), asked, len(asked), most, out, room))
    found = {_library.OK: True, _library.NEVER: False, _library.UNDECIDED: None}
    if said.code not in found:
        raise why_not(said, one, two, files)
    return Reached(found[said.code], text)


def filled(call: Callable[[Any, int], Any]) -> Tuple[Any, str]:
    """What a call answers, and what it puts into a buffer: once more, where that was too short."""
    out = create_string_buffer(1 << 12)
    said = call(out, len(out))
    if said.code == _library.SHORT:
        out = create_string_buffer(said.value)
        said = call(out, len(out))
    has_text = said.code in (_library.OK, _library.UNDECIDED, _library.NEVER)
    return said, out.raw[: said.value].decode("ascii") if has_text else ""


def why_not(said: Any, machine: bytes, scripts: bytes, files: Tuple[str, str]) -> Exception:
    """Why nothing is searched."""
    calls = _library.library()
    if said.code not in REASONS:
        return Unsearched(f"torusmem: {calls.code_text(said.code).decode('ascii')}")
    if said.code == _library.FAULT_MEMORY:
        return MemoryError(f"torusmem: {REASONS[12]} (F12)")
    if said.value == 0:
        return ValueError("torusmem: the number of states is not 1 to 10000000")
    return fault_of(calls, machine, scripts, files)
