"""Reads a waveform (VCD, value change dump, IEEE 1364 section 18): some of its signals, as they are before each rising edge of a
clock."""
from __future__ import annotations

import io
from dataclasses import dataclass, field
from typing import Dict, Iterator, List, Tuple

from torusmem_tools import command


@dataclass
class Signal:
    """A signal of a dump: its name, how many bits it has, and by which word the dump calls it."""

    name: str
    width: int
    code: bytes


@dataclass
class Dump:
    """A dump whose heading is read: its signals, and the lines behind it."""

    path: str
    signals: List[Signal] = field(default_factory=list)
    rest: Iterator[bytes] = iter(())

    def find(self, name: str) -> Signal:
        """The signal of a name, or the only one whose name ends with it behind a point."""
        found = [it for it in self.signals if it.name == name]
        found = found or [it for it in self.signals if it.name.endswith("." + name)]
        # A wire that goes through several modules is one signal of the dump.
        if len({it.code for it in found}) == 1:
            return found[0]
        why = f"{len(found)} signals are called so" if found else "there is no such signal"
        raise command.Refusal(f"{self.path}: {name}: {why}")


def tokens(lines: Iterator[bytes]) -> Iterator[bytes]:
    """The words of the heading, to its end."""
    for line in lines:
        for word in line.split():
            yield word
            if word == b"$enddefinitions":
                return


def read(path: str) -> Dump:
    """The heading of a dump."""
    lines = iter(io.BytesIO(command.contents(path)))
    dump, scopes, words = Dump(path, rest=lines), [], tokens(lines)
    for word in words:
        if not word.startswith(b"$") or word == b"$end":
            continue
        said: List[str] = []
        for it in words:
            if it == b"$end":
                break
            said.append(it.decode("utf-8", "replace"))
        if word == b"$scope":
            scopes.append(said[-1] if said else "")
        elif word == b"$upscope" and scopes:
            scopes.pop()
        elif word == b"$var":
            if len(said) < 4 or not said[1].isdigit():
                raise command.Refusal(f"{path}: no VCD: $var {' '.join(said)}")
            dump.signals.append(Signal(".".join([*scopes, said[3]]), int(said[1]), said[2].encode()))
    if not dump.signals:
        raise command.Refusal(f"{path}: no VCD: it names no signals")
    return dump


def changes(dump: Dump, wanted: Dict[bytes, str]) -> Iterator[Tuple[int, bytes, bytes]]:
    """Each change of the wanted signals: the time, the signal's word, and its bits, highest first."""
    time = 0
    for line in dump.rest:
        first = line[:1]
        if first == b"#":
            word = line[1:].strip()
            if not word.isdigit():
                raise command.Refusal(f"{dump.path}: no VCD: a line {line.strip().decode('utf-8', 'replace')}")
            time = int(word)
        elif first in b"bB" and first:
            bits, _, code = line[1:].strip().partition(b" ")
            if code.strip() in wanted:
                yield time, code.strip(), bits.lower()
        elif first in b"01xXzZ" and first:
            code = line[1:].strip()
            if code in wanted:
                yield time, code, first.lower()


def edges(dump: Dump, clock: Signal, wanted: List[Signal]) -> Iterator[Tuple[int, bool, Dict[bytes, bytes]]]:
    """Each rising edge of the clock: its time, and the bits of the signals just before it. Last comes the end of the dump, as if
    it were an edge (the flag says so), if there was one before."""
    codes = {it.code: it.name for it in [clock, *wanted]}
    now: Dict[bytes, bytes] = {code: b"x" for code in codes}
    coming: Dict[bytes, bytes] = {}
    last, is_begun = -1, False
    for time, code, bits in changes(dump, codes):
        if time != last:
            now.update(coming)
            coming, last = {}, time
        coming[code] = bits
        if code == clock.code and bits == b"1" and now[code] == b"0":
            is_begun = True
            yield time, False, now
    now.update(coming)
    if is_begun:
        yield last, True, now


def number(bits: bytes, high: int, low: int) -> int:
    """Some bits of a signal as a number, or -1 where one of them isn't known. A dump leaves out leading bits that are 0, or
    like the highest where that isn't known."""
    fill = bits[:1] if bits[:1] in (b"x", b"z") else b"0"
    whole = bits.rjust(high + 1, fill)
    part = whole[len(whole) - 1 - high:len(whole) - low]
    return int(part, 2) if part.strip(b"01") == b"" else -1
