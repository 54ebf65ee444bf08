"""Runs in which each processor asks for an operation with a given probability a round, and what they come to.

What is asked for waits at its processor for its turn and for a tag, without a limit, as in the source queue of an
open network: Dally and Towles, Principles and Practices of Interconnection Networks, 2004, chapter 23. The rounds are made by
model/clocked_rounds.py, in which a processor doesn't begin an operation before its round; `torusmem steps` makes the same
moves, and its report must have the same events.
"""
from __future__ import annotations

import itertools
from dataclasses import dataclass
from typing import Any, Callable

from torusmem_tools import command
from torusmem_tools.model import campaign_cases, clocked_rounds, cycles, replay, schedule_runs, traffic_patterns
from torusmem_tools.model.percentiles import percentile
from torusmem_tools.texts import report

# Words of each bank.
WORDS = 64
# The most operations of a script, and of all.
MOST_OF_ONE, MOST_OF_ALL = 4096, 65536
# Probabilities are drawn as parts of a million.
MILLION = 1000000
# How many rounds are made between two looks whether all that is measured is answered.
BETWEEN_LOOKS = 8


@dataclass(frozen=True)
class Point:
    """What is asked of one run. Its times are cycles of so many rounds."""

    radices: tuple[int, ...]
    traffic: str
    load: float
    tags: int
    depth: int
    stores: int
    warm_up: int
    window: int
    drain: int
    is_clocked: bool
    cycle: int
    seed: int

    def shape(self) -> str:
        """The radices, as in `4x4`."""
        return "x".join(map(str, self.radices))

    def tiles(self) -> int:
        """How many tiles there are."""
        return report.product(list(self.radices))

    def cycles(self) -> int:
        """How many cycles are made at most."""
        return self.warm_up + self.window + self.drain


@dataclass(frozen=True)
class Found:
    """What a run came to: operations answered for each cycle and tile, and the times of those asked for in the window; the
    least and the most that are answered of a tile, the longest of the times, and the tile of which the least is answered."""

    accepted: float
    latency: float
    p95: int
    measured: int
    is_drained: bool
    least: float
    most: float
    longest: int
    worst: int


def bank_of(numbers: campaign_cases.Numbers, point: Point, source: int) -> int:
    """The bank that a processor asks next."""
    if point.traffic == "hot-spot":
        return 0 if numbers.below(4) == 0 else numbers.below(point.tiles())
    if point.traffic == "uniform":
        return numbers.below(point.tiles())
    return traffic_patterns.target(point.traffic, source, point.radices, point.tiles())


def asked(point: Point) -> tuple[campaign_cases.Case, list[list[int]]]:
    """The machine and the scripts of a run, and for each processor the cycles in which its operations are asked for."""
    numbers, tiles = campaign_cases.Numbers(point.seed), point.tiles()
    case = campaign_cases.Case("rounds", list(point.radices), None, point.depth, point.tags, tiles * WORDS, [], [])
    asks: list[list[int]] = [[] for _ in range(tiles)]
    for now, processor in itertools.product(range(1, point.cycles() + 1), range(tiles)):
        if numbers.below(MILLION) >= round(point.load * MILLION):
            continue
        address = bank_of(numbers, point, processor) + tiles * numbers.below(WORDS)
        is_store = numbers.below(100) < point.stores
        case.lines.append((processor, f"store {address} {len(asks[processor]) + 1}" if is_store else f"load {address}"))
        asks[processor].append(now)
    if max(map(len, asks)) > MOST_OF_ONE or len(case.lines) > MOST_OF_ALL:
        raise command.Refusal(
            f"{len(case.lines)} operations are asked for in {point.cycles()} {cycles.unit(point.cycle)}s, and a machine makes at most "
            f"{MOST_OF_ALL}, of one processor {MOST_OF_ONE}: take a lower load, or fewer {cycles.unit(point.cycle)}s"
        )
    return case, asks


def made(point: Point, case: campaign_cases.Case, asks: list[list[int]]) -> tuple[replay.Machine, list[str]]:
    """The machine after the run, and its moves: until all that is measured is answered, at most all cycles. What is asked for
    in a cycle is ready in its first round."""
    machine, lines = replay.Machine(case), []
    rounds = clocked_rounds.fair(case).moves if point.is_clocked else replay.in_order(machine.shape)
    due = [sum(it <= point.warm_up + point.window for it in of_one) for of_one in asks]
    for number in range(1, point.cycles() * point.cycle + 1):
        now = cycles.cycle_of(number, point.cycle)
        lines += rounds(machine, number, lambda at: asks[at.tile][len(at.operations)] <= now)
        if now > point.warm_up + point.window and number % BETWEEN_LOOKS == 0 and is_answered(machine, due):
            break
    return machine, lines


def is_answered(machine: replay.Machine, due: list[int]) -> bool:
    """Whether so many operations of each processor are issued, and all of these answered."""
    return all(
        len(it.operations) >= count and all(of.answered is not None for of in it.operations[:count])
        for it, count in zip(machine.processors, due)
    )


def measured(point: Point) -> Found:
    """Makes a run, has the program make the same moves, and measures it."""
    case, asks = asked(point)
    machine, lines = made(point, case, asks)
    schedule_runs.confirm(case, machine, lines)
    return found_of(point, machine, asks)


def found_of(point: Point, machine: replay.Machine, asks: list[list[int]]) -> Found:
    """What a run came to. A time counts the cycle in which an operation is asked for and that in which it is answered."""
    within: Callable[[int], bool] = lambda now: point.warm_up < now <= point.warm_up + point.window
    ends = [[cycles.cycle_if(it.answered, point.cycle) for it in processor.operations] for processor in machine.processors]
    of_one = [sum(it is not None and within(it) for it in row) for row in ends]
    times, is_drained = [], True
    for row, asked_in in zip(ends, asks):
        for at, now in enumerate(asked_in):
            if not within(now):
                continue
            last = row[at] if at < len(row) else None
            is_drained &= last is not None
            times += [last - now + 1] if last is not None else []
    if not times:
        raise command.Refusal("no operation is measured: --window is too short for this load")
    rising = sorted(times)
    accepted = sum(of_one) / (point.window * len(of_one))
    shares = min(of_one) / point.window, max(of_one) / point.window
    return Found(accepted, sum(rising) / len(rising), percentile(rising, 95), len(rising), is_drained, *shares, rising[-1], of_one.index(min(of_one)))


def zero_load(point: Point) -> float | None:
    """The mean time of an operation with nothing else under way, by its formula, in cycles; of rounds in order there is
    none."""
    if not point.is_clocked:
        return None
    shape, tiles = replay.Shape(list(point.radices), [it - 1 for it in point.radices]), range(point.tiles())
    # a load and a store have four flits, request and reply together
    time: Callable[[int, int], int] = lambda a, b: cycles.cycle_of(4 * shape.hops(a, b) + (13 if point.depth > 1 else 15), point.cycle)
    uniform = sum(time(a, b) for a in tiles for b in tiles) / len(tiles) ** 2
    if point.traffic == "uniform":
        return uniform
    if point.traffic == "hot-spot":
        return uniform * 3 / 4 + sum(time(a, 0) for a in tiles) / len(tiles) / 4
    return sum(time(a, bank_of(campaign_cases.Numbers(0), point, a)) for a in tiles) / len(tiles)


def result(point: Point) -> Any:
    """In a process of its own: what a run came to, or why it didn't."""
    try:
        return measured(point)
    except (command.Refusal, command.WrongWords, OSError, MemoryError) as why:
        return str(why) or "there is no memory left"
