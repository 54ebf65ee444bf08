"""Draws the cycle of a log that breaks a memory model, as an SVG picture.

    tools/cycle examples/models/store_buffering.txt > cycle.svg
    ./torusmem model log.txt > verdict.txt; tools/cycle log.txt --verdict verdict.txt > cycle.svg

It is the cycle that `torusmem model LOG` prints, of the weakest model that fails. Each processor on it has a column, with
its operations from top to bottom in program order. A box has the line of the log that made the operation, and of a
load what it read. Operations beside the cycle are grey, and several in a row stand as their number. An arrow leads from
each operation of the cycle to the next, and its colour is the reason why that one comes later in every order that
explains the log:

  program order  the model keeps the two in their order
  read           the second read what the first wrote
  overwritten    the second overwrites what the first wrote or read
  stale          the second read an older write than the first, though its own processor made that before it
  pair           the first is a conditional store, and the second a store of another processor behind what its load read

Beside an arrow of RISC-V's model stands the number of the rule that keeps the two in their order.

At most 200 operations are on a cycle that is drawn. Where a log obeys each model, there is no cycle, and nothing is
drawn. --verdict FILE takes what `torusmem model LOG` printed, and starts no program. With --width 252pt, a column of a
paper, letters have 7 points.
"""
from __future__ import annotations

import os
import re
from typing import Dict

from torusmem_tools import command
from torusmem_tools.command import Refusal
from torusmem_tools.draw import paper
from torusmem_tools.draw.log_cycle import Cycle, Log, draw_cycle, is_reason

TOOL = "cycle"
MOST = 200


def log_of(text: str, path: str) -> Log:
    """A log as the program has read it (docs/FORMATS.md, Log text)."""
    found = Log()
    last: Dict[str, str] = {}
    for number, line in enumerate(text.split("\n"), 1):
        words = line.partition("#")[0].split()
        try:
            if words:
                found.take(words, number, last)
        except (IndexError, KeyError, ValueError):
            raise Refusal(f"{path}, line {number}: no line of a log is written so") from None
    return found


def cycle_of(said: str, log: Log, path: str, verdict: str) -> Cycle:
    """The cycle that the program printed of a log: the names of both texts stand in what is refused."""
    head, _, rest = said.partition("no order of ")
    if not rest:
        obeyed = re.search("^sc yes$", head, re.MULTILINE)
        raise Refusal(f"{path} obeys each model: there is no cycle" if obeyed else f"{verdict} has no verdict of `torusmem model`")
    model, _, rest = rest.partition(":\n")
    lines = rest.partition("an order of ")[0].splitlines()
    at = {line: (p, k) for p in log.lines for k, line in enumerate(log.lines[p])}
    steps = []
    for said_here, why in zip(lines[:-1:2], lines[1::2]):
        named = re.fullmatch(r"line ([0-9]+): ([0-9]+) (.*)", said_here)
        place = at.get(int(named[1])) if named else None
        if not named or not place or not is_reason(why.strip()) or f"{log.asked[place[0]][place[1]]} ".find(f"{named[3]} "):
            raise Refusal(f"{path} is not the log of this verdict: `{said_here}`")
        steps.append((*place, why.strip()))
    if not steps or lines[-1] != lines[0]:
        raise Refusal(f"{verdict} has no cycle of `torusmem model`")
    if len(steps) > MOST:
        raise Refusal(f"the cycle has {len(steps)} operations, and at most {MOST} are drawn")
    return Cycle(model, steps)


def words() -> command.Parser:
    """The words of the command line."""
    parser = command.parser(TOOL, __doc__)
    parser.add_argument("log", metavar="LOG", help="the log text; - is standard input")
    parser.add_argument("--verdict", metavar="FILE", help="what `torusmem model LOG` printed; - is standard input")
    paper.add_word(parser)
    return parser


def work() -> str:
    """The picture."""
    given = words().parse_args()
    command.refuse_twice(given.log, given.verdict)
    text = command.contents(given.log)
    if given.verdict:
        said = command.contents(given.verdict).decode("utf-8", "replace")
    else:
        with command.temporary_file(text) as path:
            # Both a model that is broken and a refused log have the status 1, but then nothing is printed.
            said = command.torusmem("model", path, fine=(0, 1)) or command.torusmem_on({path: given.log}, "model", path)
    log = log_of(text.decode("utf-8", "replace"), given.log)
    return draw_cycle(log, cycle_of(said, log, given.log, given.verdict or given.log), os.path.basename(given.log), given.width, TOOL)
