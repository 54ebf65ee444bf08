"""What the faults say, and the exceptions that tell them."""

from __future__ import annotations

from ctypes import create_string_buffer
from typing import Any, Tuple

from . import _library

# What the faults say of a text, by their numbers: the table of docs/FORMATS.md.
REASONS = {
    1: "a radix is not 2 to 8",
    2: "the number of dimensions is not 1 to 3",
    3: "more than 64 tiles",
    4: "a line is not understood",
    5: "a setting is missing or given twice",
    6: "a number is out of its range",
    7: "an address is not below the number of words",
    8: "a processor is not below the number of tiles",
    9: "a script is too long, or all together are",
    10: "`last` in the first operation of a script",
    11: "a step names no agent, no channel, or a choice that its agent doesn't have",
    12: "a request for memory was refused",
    13: "a list has not one number for each dimension",
    14: "a dateline is not below its radix",
}

# What they say of a network text.
NETWORK_REASONS = {
    4: "a line is not understood",
    5: "the number of channels is missing, or something is given twice or too late",
    6: "a number is out of its range, or its channel not of the kind that belongs there",
    9: "channels times ejection channels are more than 134217728, or more than 4194304 pairs",
}

# What they say of an event of a trace.
EVENT_REASONS = {
    4: "an operation or a reply isn't there, or the reply doesn't go with its operation",
    5: "the operation is answered already",
    6: "its processor has no such operation yet",
    8: "its processor is not below 4096",
}

# What they say of an entry of a log.
LOG_REASONS = {
    4: "there is no such operation or reply, or the entry names an operation of another kind",
    5: "it comes too late, its operation is named already, or nothing behind it names its operation",
    6: "its processor has made no such operation so far, or the number of words is not 1 to 4294967296",
    7: "the address is not below the number of words, or a load and its write are on different words",
    8: "its processor is not below 4096",
    9: "there are more than 4194304 operations, or operations on more than 1048576 addresses",
}


class TextFault(ValueError):
    """A text was refused: its first fault.

    text: `machine`, `scripts`, `network`, `trace` or `log`
    file: the file that it was read from, or `machine text` and so on
    line: the line of the fault, from 1
    fault: its number, 1 for F1 and so on
    reason: why, as `address 300: the machine has the words 0 to 255`; of a network text, or where memory was refused
        for that, what the fault says in general (NETWORK_REASONS, REASONS)
    sentence: file, line and reason, as `script.txt:12: address 300: the machine has the words 0 to 255`
    """

    def __init__(self, file: str, line: int, fault: int, text: str = "", reason: str = "") -> None:
        self.file, self.line, self.fault, self.text = file, line, fault, text
        self.reason = reason or REASONS.get(fault, "a fault that this version doesn't know")
        self.sentence = f"{file}:{line}: {self.reason}"
        super().__init__(f"{file}, line {line}: F{fault}: {self.reason}")

    def __reduce__(self) -> Any:
        return TextFault, (self.file, self.line, self.fault, self.text, self.reason)


class BadReport(ValueError):
    """A text is no good report: `file`; `line`, the first bad line, from 1; and the `reason`, which says just this."""

    def __init__(self, file: str, line: int) -> None:
        self.file, self.line = file, line
        self.reason = "this is the first bad line of the report"
        super().__init__(f"{file}, line {line}: {self.reason}")

    def __reduce__(self) -> Any:
        return BadReport, (self.file, self.line)


class EventFault(ValueError):
    """An event of a trace can't stand: `event`, its place from 0; the `fault`, 4 for F4 and so on; and the `reason`."""

    def __init__(self, event: int, fault: int) -> None:
        self.event, self.fault = event, fault
        self.reason = EVENT_REASONS.get(fault, "a fault that this version doesn't know")
        super().__init__(f"event {event}: F{fault}: {self.reason}")

    def __reduce__(self) -> Any:
        return EventFault, (self.event, self.fault)


class LogFault(ValueError):
    """An entry of a log can't stand: `entry`, its number from 1, or 0 where the number of words is at fault; the `fault`,
    4 for F4 and so on; and the `reason`."""

    def __init__(self, entry: int, fault: int) -> None:
        self.entry, self.fault = entry, fault
        self.reason = LOG_REASONS.get(fault, "a fault that this version doesn't know")
        super().__init__(f"entry {entry}: F{fault}: {self.reason}")

    def __reduce__(self) -> Any:
        return LogFault, (self.entry, self.fault)


class Closed(ValueError):
    """The machine or watch is closed."""


class TooMany(RuntimeError):
    """An answer isn't decided, since its word has more configurations than were allowed; the watch hasn't taken it."""


def fault_of(calls: Any, machine: bytes, scripts: bytes, files: Tuple[str, str]) -> Exception:
    """Why the texts are refused, which are read once more."""
    out = create_string_buffer(256)
    said = calls.explain(machine, len(machine), scripts, len(scripts), out, len(out))
    if said.code == _library.SHORT:
        out = create_string_buffer(said.length)
        said = calls.explain(machine, len(machine), scripts, len(scripts), out, len(out))
    if said.text == _library.NO_TEXT:
        return MemoryError(f"torusmem: {REASONS[12]} (F12)")
    text = "machine" if said.text == _library.MACHINE_TEXT else "scripts"
    reason = ""
    if said.code == _library.OK:
        reason = out.raw[: said.length].decode("ascii").partition(": ")[2]
    return TextFault(files[said.text - 1], said.line, said.fault, text, reason)
