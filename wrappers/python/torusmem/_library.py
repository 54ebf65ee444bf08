"""The shared library beneath: where it is found, and what its calls take and answer (include/torusmem.h)."""

from __future__ import annotations

import ctypes
import os
import sys
from ctypes import POINTER, Structure, c_bool, c_char_p, c_size_t, c_uint32, c_uint64, c_void_p
from typing import Any, Iterator, List, Optional

SONAME = "libtorusmem.so.0.3"
# The number of calls, codes and limits that the header has.
OK, FAULT_MEMORY, BAD_REPORT, EMPTY, FULL, NONE, SHORT, NO_ROUTE, CYCLE = 0, 12, 15, 16, 17, 18, 19, 20, 21
NOT_LINEARIZABLE, TOO_MANY, TOO_OPEN = 22, 23, 24
BEHIND_SPIN, NOT_YET = 25, 26
NO_RECORD, BAD_RECORD, BAD_ACTION, WRONG_REPLY, NO_PAIR, NOT_RISING = 27, 28, 29, 30, 31, 32
UNWRITTEN, LOST_UPDATE = 33, 34
UNDECIDED, NEVER, TOO_LONG, NO_REPLY, OTHER_COUNT = 35, 36, 37, 38, 39
ISSUE, ANSWER = 0, 1
ISSUED, SERVED, ANSWERED = 0, 1, 2
LOG_INIT, LOG_MADE, LOG_WROTE, LOG_READ, LOG_READ_OPENING, LOG_SERVED, LOG_REPLIED = 0, 1, 2, 3, 4, 5, 6
FENCE, SPIN, FIRST_IS_LAST, SECOND_IS_LAST = 10, 11, 1, 2
NO_TEXT, MACHINE_TEXT, SCRIPTS_TEXT = 0, 1, 2
LONGEST_ROUTE = 10


class LibraryNotFound(ImportError):
    """The shared library isn't there, or isn't one of this version: what was tried, and how it is made."""


class Held(Structure):
    """Room for a machine, or for a watch."""

    _fields_ = [("full", c_bool), ("at", c_void_p)]


class Outcome(Structure):
    """What a call answers: a code and a number."""

    _fields_ = [("code", c_uint32), ("value", c_uint64)]


class RawAnswer(Structure):
    _fields_ = [(it, c_uint32) for it in ("code", "index", "operation", "bank", "place", "has_old")] + [
        (it, c_uint64) for it in ("first", "second", "old")
    ]


class RawEntry(Structure):
    _fields_ = [(it, c_uint32) for it in ("code", "source", "tag", "address", "operation", "has_old")] + [
        (it, c_uint64) for it in ("first", "second", "old")
    ]


class Attempt(Structure):
    """An attempt: what step takes."""

    _fields_ = [(it, c_uint32) for it in ("agent", "choice", "number")]


class RawShape(Structure):
    _fields_ = [("dims", c_uint32), ("radices", c_uint32 * 3), ("datelines", c_uint32 * 3)] + [
        (it, c_uint32) for it in ("depth", "tags", "words", "tiles", "ports")
    ]


class RawChannel(Structure):
    _fields_ = [(it, c_uint32) for it in ("kind", "tile", "dim", "minus", "bit", "number")]


class RawOrdered(Structure):
    _fields_ = [(it, c_uint32) for it in ("bank", "place", "source", "index", "issued", "served", "answered")]


class RawHappened(Structure):
    _fields_ = [("number", c_uint32), ("what", c_uint32), ("operation", RawOrdered)]


class RawSpin(Structure):
    _fields_ = [(it, c_uint32) for it in ("processor", "address", "loads")] + [
        (it, c_uint64) for it in ("line", "sought")
    ]


class RawEvent(Structure):
    _fields_ = [(it, c_uint32) for it in ("kind", "processor", "operation", "address", "index", "has_old")] + [
        (it, c_uint64) for it in ("first", "second", "old")
    ]


class RawLogEntry(Structure):
    _fields_ = [
        (it, c_uint32)
        for it in ("kind", "processor", "index", "operation", "address", "from_processor", "from_index", "has_old")
    ] + [(it, c_uint64) for it in ("first", "second", "old")]


class RawModels(Structure):
    """Which memory models a log obeys."""

    _fields_ = [(it, c_uint32) for it in ("code", "models")] + [(it, c_uint64) for it in ("value", "word", "writer")]


class RawSaid(Structure):
    _fields_ = [("code", c_uint32), ("line", c_uint64), ("length", c_uint64)]


class RawDecided(Structure):
    _fields_ = [(it, c_uint32) for it in ("code", "obeyed", "broken")] + [(it, c_uint64) for it in ("value", "other")]


class RawSearched(Structure):
    _fields_ = [("code", c_uint32)] + [(it, c_uint64) for it in ("outcomes", "states", "value")]


class Explanation(Structure):
    """Why a load is refused."""

    _fields_ = [(it, c_uint32) for it in ("code", "fault", "text")] + [(it, c_uint64) for it in ("line", "length")]


_M = POINTER(Held)
# Each call: what it answers, and what it takes.
CALLS = {
    "version": (c_char_p, []),
    "code_text": (c_char_p, [c_uint32]),
    "load": (Outcome, [_M, c_char_p, c_size_t, c_char_p, c_size_t]),
    "open": (Outcome, [_M, POINTER(RawShape), POINTER(c_uint64), c_size_t]),
    "open_recorded": (Outcome, [_M, POINTER(RawShape), POINTER(c_uint64), c_size_t]),
    "reopen": (Outcome, [_M, _M]),
    "load_recorded": (Outcome, [_M, c_char_p, c_size_t, c_char_p, c_size_t]),
    "save": (Outcome, [_M, c_void_p, c_size_t]),
    "restore": (Outcome, [_M, c_char_p, c_size_t]),
    "clone": (Outcome, [_M, _M]),
    "explain": (Explanation, [c_char_p, c_size_t, c_char_p, c_size_t, c_void_p, c_size_t]),
    "free": (None, [_M]),
    "step": (Outcome, [_M, c_uint32, c_uint32, c_uint32]),
    "run": (Outcome, [_M, POINTER(Attempt), c_size_t]),
    "enabled": (Outcome, [_M, c_uint32, c_uint32, c_uint32]),
    "round": (Outcome, [_M]),
    "finish": (Outcome, [_M]),
    "fair_round": (Outcome, [_M]),
    "fair_rounds": (Outcome, [_M, c_uint64]),
    "clocked_round": (Outcome, [_M, c_uint64]),
    "finish_clocked": (Outcome, [_M]),
    "append": (Outcome, [_M, c_uint32, c_uint32, c_uint32, c_uint64, c_uint64, c_uint32]),
    "ask": (Outcome, [_M, c_uint32, c_uint32, c_uint32, c_uint64, c_uint64, c_uint32]),
    "explain_line": (
        c_size_t,
        [_M, c_uint32, c_uint32, c_uint32, c_uint32, c_uint64, c_uint64, c_uint32, c_char_p, c_size_t],
    ),
    "finished": (Outcome, [_M]),
    "moves_left": (Outcome, [_M]),
    "shape": (Outcome, [_M, POINTER(RawShape)]),
    "tiles": (Outcome, [_M]),
    "words": (Outcome, [_M]),
    "word": (Outcome, [_M, c_uint32]),
    "row": (Outcome, [_M, c_uint32]),
    "rows": (Outcome, [_M, POINTER(c_uint64), c_size_t]),
    "answers": (Outcome, [_M, c_uint32]),
    "answer_at": (RawAnswer, [_M, c_uint32, c_uint32]),
    "answer_of": (RawAnswer, [_M, c_uint32, c_uint32]),
    "entries": (Outcome, [_M, c_uint32]),
    "entry_at": (RawEntry, [_M, c_uint32, c_uint32]),
    "order": (Outcome, [_M, c_uint32, POINTER(RawOrdered), c_size_t]),
    "answered_to": (Outcome, [_M, c_uint32]),
    "events_from": (Outcome, [_M, c_uint32, c_uint32, POINTER(RawHappened), c_size_t]),
    "events": (Outcome, [_M, c_uint32, POINTER(RawHappened), c_size_t]),
    "spins_out": (Outcome, [_M, c_char_p, c_size_t, c_char_p, c_size_t, POINTER(RawSpin), c_size_t]),
    "report": (Outcome, [_M, c_void_p, c_size_t]),
    "check": (Outcome, [c_char_p, c_size_t]),
    "route": (Outcome, [_M, c_uint32, c_uint32, c_uint32, POINTER(RawChannel), c_size_t]),
    "next": (Outcome, [_M, c_uint32, c_uint32, c_uint32]),
    "network": (Outcome, [c_char_p, c_size_t, c_void_p, c_size_t]),
    "network_answer": (Outcome, [c_char_p, c_size_t, c_void_p, c_size_t]),
    "linearize": (
        Outcome,
        [POINTER(c_uint64), c_size_t, POINTER(RawEvent), c_size_t, c_uint64, POINTER(c_uint64), c_size_t],
    ),
    "linearize_answer": (RawSaid, [c_char_p, c_size_t, c_uint64, c_void_p, c_size_t]),
    "model_values": (RawDecided, [c_char_p, c_size_t, c_uint64, c_uint32, c_void_p, c_size_t]),
    "outcomes": (RawSearched, [c_char_p, c_size_t, c_char_p, c_size_t, c_uint64, c_void_p, c_size_t]),
    "outcomes_run": (Outcome, [c_char_p, c_size_t, c_char_p, c_size_t, c_uint64, c_uint64, c_void_p, c_size_t]),
    "reach": (Outcome, [c_char_p, c_size_t, c_char_p, c_size_t, c_char_p, c_size_t, c_uint64, c_void_p, c_size_t]),
    "model": (RawModels, [c_uint64, POINTER(RawLogEntry), c_size_t, c_uint32, c_void_p, c_size_t]),
    "watch_begin": (Outcome, [_M, POINTER(c_uint64), c_size_t]),
    "watch_issue": (Outcome, [_M, c_uint64, c_uint32, c_uint32, c_uint64, c_uint64]),
    "watch_answer": (Outcome, [_M, c_uint64, c_uint32, c_uint64, c_uint64]),
    "watch_clone": (Outcome, [_M, _M]),
    "watch_save": (Outcome, [_M, c_void_p, c_size_t]),
    "watch_restore": (Outcome, [_M, c_char_p, c_size_t]),
    "watch_end": (None, [_M]),
}


class Library:
    """The calls of the library, each under its name without `torusmem_`."""

    def __init__(self, handle: ctypes.CDLL) -> None:
        for name, (answered, taken) in CALLS.items():
            call = getattr(handle, f"torusmem_{name}")
            call.restype, call.argtypes = answered, taken
            setattr(self, name, call)

    def __getattr__(self, name: str) -> Any:  # for type checkers: every name of CALLS is set
        raise AttributeError(name)


def places() -> Iterator[str]:
    """Where the library is looked for, in this order; a name without a slash is left to the loader of programs."""
    here = os.path.dirname(os.path.realpath(__file__))
    yield os.path.join(here, SONAME)
    for prefix in (sys.prefix, os.path.join(os.path.expanduser("~"), ".local"), "/usr/local"):
        yield os.path.join(prefix, "lib", SONAME)
    yield SONAME


def loaded(path: str) -> Library:
    """The library of a file, or an OSError or AttributeError that says why there is none."""
    made = Library(ctypes.CDLL(path))
    version = made.version().decode("ascii")
    if not SONAME.endswith(f".so.{version.rpartition('.')[0]}"):
        raise OSError(f"{path}: it is of version {version}, not one of {SONAME}")
    return made


def find() -> Library:
    """The library that the variable TORUSMEM_SO names, or the first one that is found."""
    named = os.environ.get("TORUSMEM_SO")
    tried: List[str] = []
    for path in [named] if named else places():
        if not named and os.sep in path and not os.path.exists(path):
            tried.append(f"{path}: there is no such file")
            continue
        try:
            return loaded(os.path.abspath(path) if named else path)
        except (OSError, AttributeError) as why:
            tried.append(str(why))
    raise LibraryNotFound(
        "no shared library of torusmem was found. In its repository `./torusmem --library` proves and builds the library, "
        "and `make install-lib PREFIX=$HOME/.local` installs it where this package looks; "
        "the variable TORUSMEM_SO names one that stands elsewhere. Tried:\n  " + "\n  ".join(tried)
    )


_found: Optional[Library] = None


def library() -> Library:
    """The library, looked for at the first call."""
    global _found
    if _found is None:
        _found = find()
    return _found
