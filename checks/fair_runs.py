"""How long operations wait in clocked rounds, and how answers are shared; and barriers by scripts. For checks/clocked_rows.

Of runs where each tile keeps one operation of one kind out, the waits are counted from what `torusmem schedule` prints alone: a
processor puts the flits of its requests, and takes those of its replies, one after the other.
"""
from __future__ import annotations

import subprocess
from dataclasses import dataclass
from typing import Iterator, List, Optional, Tuple

from torusmem_tools import command
from torusmem_tools.model import campaign_cases, clocked_rounds, replay
from torusmem_tools.texts import report

# The rounds of issue and answer; no answer where it isn't over.
Wait = Tuple[int, Optional[int]]
# What is wrong; empty where nothing is.
Row = Tuple[str, str]
# The rounds of runs on 8x8, and of those on 4x4.
LONG = 20000
SHORT = 5000
# The most operations of all scripts of a machine.
MOST_OPERATIONS = 65536
# One operation of each length at word 0, with its flits: those of the request and of the reply, by hand.
KINDS = (("load 0", 1, 3), ("store 0 3", 3, 1), ("add 0 3", 3, 3), ("cas 0 0 3", 5, 3))
# The most loads of a barrier's spin.
LOADS = 5
# No spin of a barrier has a chance to make so many.
PATIENCE = 900


@dataclass(frozen=True)
class Ran:
    """What the program printed on standard output and on standard error, and its status."""

    printed: str
    said: str
    status: int


def ran(name: str, case: campaign_cases.Case, *words: str) -> Ran:
    """What a command of the program does with a machine and its scripts."""
    texts = (command.temporary_file(it.encode("ascii")) for it in (case.machine_text(), case.script_text()))
    with next(texts) as machine, next(texts) as script:
        made = subprocess.run([command.program_path(), name, machine, script, *words], capture_output=True, text=True, check=False)
    return Ran(made.stdout, made.stderr, made.returncode)


def each(radices: list[int], depth: int, tags: int, lines: list[str]) -> campaign_cases.Case:
    """A machine on which each tile has these lines."""
    tiles = report.product(radices)
    return campaign_cases.Case("rounds", radices, None, depth, tags, tiles, [], [(it, line) for it in range(tiles) for line in lines])


def waits(schedule: str, tiles: int, asked: int, replied: int) -> list[list[Wait]]:
    """The operations of each tile, which has one out at once: of requests of so many flits, and replies of so many."""
    issues: list[list[int]] = [[] for _ in range(tiles)]
    answers: list[list[int]] = [[] for _ in range(tiles)]
    for number, attempts in replay.schedule_of(schedule.encode("ascii")).rounds:
        for agent, choice, _ in attempts:
            if agent % 3 == 0 and choice in ("send", "take"):
                (issues if choice == "send" else answers)[agent // 3].append(number)
    found: list[list[Wait]] = []
    for sent, taken in zip(issues, answers):
        ends: list[int | None] = [*taken[replied - 1 :: replied]]
        begun = sent[::asked]
        found.append(list(zip(begun, ends + [None] * (len(begun) - len(ends)))))
    return found


def longest(of: list[list[Wait]], last: int) -> int:
    """The longest wait; what isn't answered waits to the last round."""
    return max((last if end is None else end) - begun for row in of for begun, end in row)


def shares(of: list[list[Wait]]) -> list[int]:
    """How many operations of each tile are answered."""
    return [sum(end is not None for _, end in row) for row in of]


def shared(radices: list[int], rounds: int, line: str, asked: int, replied: int) -> Iterator[Row]:
    """What is looked at where each tile keeps an operation out: each wait is within the bound, and the shares are equal within a
    tenth. By turns some tile gets nothing, so that this can fail."""
    # A bank serves an operation in five rounds or more.
    lines = min(rounds // 5, MOST_OPERATIONS // report.product(radices))
    case = each(radices, 1, 1, [line] * lines)
    for arbiter in ("oldest", "turn"):
        made = ran("schedule", case, "--clocked", "--arbiter", arbiter, "--rounds", str(rounds))
        found = waits(made.printed, case.tiles(), asked, replied)
        wait, least, most = longest(found, rounds), min(shares(found)), max(shares(found))
        said = f"{least} to {most} answers, longest wait {wait}"
        if arbiter == "turn":
            yield f"by turns a tile of {case.shape()} starves: {line}", "" if least * 2 < most else said
            continue
        is_fair = made.status == 3 and 0 < most <= least * 1.1 and wait <= clocked_rounds.bound(case)
        yield f"each tile of {case.shape()} is served: {line}", "" if is_fair else said


def barrier(radices: list[int], *how: str) -> tuple[campaign_cases.Case, Ran]:
    """A barrier of all tiles, each of which counts itself and waits for all."""
    tiles = report.product(radices)
    case = each(radices, 1, 1, ["add 0 1", "fence", f"spin 0 {tiles} {PATIENCE}"])
    return case, ran("round", case, *how)


def loads(printed: str) -> list[int]:
    """How many loads each tile of a report makes."""
    found = report.parse_report(printed.encode("ascii"), "the report")
    return [sum(it.source == tile and it.kind == "load" for it in found.entries) for tile in range(found.tiles())]


def barriers() -> Iterator[Row]:
    """What is looked at of barriers: they end, with few loads a spin. In rounds in order one of 4x4 doesn't, which says so."""
    for radices in ([2, 2], [4, 4], [8, 8]):
        case, made = barrier(radices, "--clocked")
        found = loads(made.printed)
        is_over = made.status == 0 and not made.said and 1 <= min(found) and max(found) <= LOADS
        yield f"a barrier of {case.shape()} ends", "" if is_over else f"status {made.status}, {max(found)} loads, {made.said}"
    case, made = barrier([4, 4])
    spent = sum(it == PATIENCE for it in loads(made.printed))
    said = f"{spent} spin{'' if spent == 1 else 's'} ran out of loads\n"
    yield "one in rounds in order says how many spins ran out", "" if spent and made.said == said else made.said


def held(case: campaign_cases.Case, guard: int) -> Iterator[Row]:
    """What is looked at of a guard that acts: what the program says of it, and that no wait exceeds its bound."""
    clocked, machine = clocked_rounds.fair(case, guard), replay.Machine(case)
    made = "".join(f"{it}\n" for it in replay.scheduled(machine, LONG, clocked.moves))
    by = ran("schedule", case, "--clocked", "--guard", str(guard), "--rounds", str(LONG))
    yield f"the moves with a guard of {guard}", "" if by.printed == made else "others"
    said = f"the guard held operations back in {clocked.held} round{'' if clocked.held == 1 else 's'}\n" if clocked.held else ""
    yield f"the line on a guard of {guard}", "" if by.said == said else f"{by.said!r} in place of {said!r}"
    most = max(((it.answered or LONG) - it.issued for it in machine.operations()), default=0)
    yield f"the waits with a guard of {guard}", "" if most <= clocked_rounds.bound(case, guard) else f"one of {most}"


def rows(is_all: bool) -> List[str]:
    """What is wrong with each row, empty where nothing is."""
    radices, rounds = ([8, 8], LONG) if is_all else ([4, 4], SHORT)
    found = [it for kind in KINDS for it in shared(radices, rounds, *kind)]
    found += barriers()
    for radices, tags, guard in (([4], 1, 30), ([2, 2], 2, 40), ([2, 3], 4, 60)):
        found += held(each(radices, 1, tags, ["add 0 1", "cas 1 0 3", "load 0"] * 8), guard)
    return [why and f"{name}: {why}" for name, why in found]
