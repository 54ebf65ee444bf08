"""torusmem from Python: a shared memory over a wormhole torus, proved to behave like one sequential memory.

A Machine is made of a machine text and a scripts text, then stepped, looked at and closed:

    >>> import torusmem
    >>> from torusmem import Choice, Machine
    >>> text = "radix 2\\ndims 1\\ndepth 4\\ntags 4\\nwords 8\\n"
    >>> with Machine(text, "0 store 5 17\\n0 fence\\n0 load 5\\n") as machine:
    ...     moved = machine.step(0, Choice.SEND)    # processor 0 puts its first flit
    ...     rounds = machine.finish()
    ...     print(moved, rounds, machine.word(5), machine.answers(0)[1].old)
    ...     torusmem.check(machine.report())
    True 12 17 17

docs/FORMATS.md has the texts and reports, docs/FLITS-AND-PORTS.md the channels and choices.

Tile t has the agents 3t (its processor), 3t + 1 (its router) and 3t + 2 (its bank). What refuses a text or a report is an exception with the file, the line and
the reason: TextFault, BadReport.

network() judges any network that is written down, and answers numbers that rise along every route, a pair without a
route, or a cycle with the channels that fill up; network_answer() one whose routers choose, too, and gives the text. linearize() finds an order that explains a trace of calls and answers,
or the event from which on there is none, or that the trace is undecided; linearize_answer() says why. A Watch judges a trace
event by event, while it goes on. model() tells which memory models a log of programs obeys, and the cycle of the weakest that
it breaks; model_values() asks the replies alone. outcomes() finds all outcomes of small scripts, over every schedule,
outcomes_run() a run to one, and reach() a run with given replies, or that there is none.

The library beneath is proved; this package, which only passes numbers and texts on, is tested.
"""

from __future__ import annotations

from ._faults import BadReport, Closed, EVENT_REASONS, EventFault, LOG_REASONS, LogFault, NETWORK_REASONS, REASONS
from ._faults import TextFault, TooMany
from ._judges import Answered, Cycle, Event, Fill, Issued, Judged, Linearizable, Link, NoPair, NoRoute, NotLinearizable
from ._judges import Rising, Said, Undecided, Verdict, check, linearize, linearize_answer, network, network_answer
from ._library import LibraryNotFound
from ._machine import Machine
from ._models import Decided, Init, LogEntry, LostUpdate, Made, Model, Obeyed, Read, Replied, Served, Unwritten
from ._models import WrongReply, Wrote, model, model_values
from ._records import Answer, Channel, Choice, Entry, FENCE, Happened, Kind, Line, Operation, Ordered, SPIN, Shape, Spin
from ._records import Steps
from ._searches import Outcomes, Reached, Unsearched, outcomes, outcomes_run, reach
from ._watch import Watch

__version__ = "0.3.0"
__all__ = [
    "Answer",
    "Answered",
    "BadReport",
    "Channel",
    "Choice",
    "Closed",
    "Cycle",
    "Decided",
    "EVENT_REASONS",
    "Entry",
    "Event",
    "EventFault",
    "FENCE",
    "Fill",
    "Happened",
    "Init",
    "Issued",
    "Judged",
    "Kind",
    "LOG_REASONS",
    "LibraryNotFound",
    "Line",
    "Linearizable",
    "Link",
    "LogEntry",
    "LogFault",
    "LostUpdate",
    "Machine",
    "Made",
    "Model",
    "NETWORK_REASONS",
    "NoPair",
    "NoRoute",
    "NotLinearizable",
    "Obeyed",
    "Operation",
    "Ordered",
    "Outcomes",
    "REASONS",
    "Reached",
    "Read",
    "Replied",
    "Rising",
    "SPIN",
    "Said",
    "Served",
    "Shape",
    "Spin",
    "Steps",
    "TextFault",
    "TooMany",
    "Undecided",
    "Unsearched",
    "Unwritten",
    "Verdict",
    "Watch",
    "WrongReply",
    "Wrote",
    "check",
    "linearize",
    "linearize_answer",
    "model",
    "model_values",
    "network",
    "network_answer",
    "outcomes",
    "outcomes_run",
    "reach",
]
