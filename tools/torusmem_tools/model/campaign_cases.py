"""Draws the runs of a campaign: of a seed and a way always the same machine, scripts, steps and words.

The numbers come from the generator below and nothing else, so that a seed draws the same run on every machine.
"""
from __future__ import annotations

from dataclasses import dataclass, field, replace
from typing import TypeVar

from torusmem_tools.model import traffic_patterns
from torusmem_tools.model.operations import MASK, VALUES
from torusmem_tools.model.torus import moved
from torusmem_tools.texts import report

MOST_OF_ALL = 65536
MOST_OF_ONE = 4096
WAYS = ["workers", "rounds", "draw", "library"]
KINDS = ["load", "store", "swap", "cas", "add", "and", "or", "xor", "max", "min", "fence", "spin"]
PATTERNS = ["uniform", "hot word", "hot bank", "neighbour", "transpose", "complement", "tornado"]
SIDES = range(2, 9)
SHAPES = [[a] for a in SIDES] + [[a, b] for a in SIDES for b in SIDES]
SHAPES += [[a, b, c] for a in SIDES for b in SIDES for c in SIDES if a * b * c <= report.MOST_TILES]
Item = TypeVar("Item")


class Numbers:
    """SplitMix64: Steele, Lea and Flood, Fast splittable pseudorandom number generators, 2014."""

    def __init__(self, seed: int) -> None:
        self.state = seed & MASK

    def next(self) -> int:
        """The next number, of 64 bits."""
        self.state = (self.state + 0x9E3779B97F4A7C15) & MASK
        z = self.state
        z = ((z ^ (z >> 30)) * 0xBF58476D1CE4E5B9) & MASK
        z = ((z ^ (z >> 27)) * 0x94D049BB133111EB) & MASK
        return z ^ (z >> 31)

    def below(self, limit: int) -> int:
        """A number below the limit."""
        return self.next() % limit

    def among(self, items: list[Item]) -> Item:
        """One of the items."""
        return items[self.below(len(items))]

    def order(self, items: list[Item]) -> list[Item]:
        """The items in a drawn order: Fisher and Yates, in the form of Durstenfeld, CACM 7(7), 1964."""
        made = list(items)
        for at in range(len(made) - 1, 0, -1):
            other = self.below(at + 1)
            made[at], made[other] = made[other], made[at]
        return made


@dataclass
class Case:
    """A run: its machine, the lines of its scripts, its steps where there are, and the words of its command line."""

    way: str
    radices: list[int]
    datelines: list[int] | None
    depth: int
    tags: int
    words: int
    opening: list[tuple[int, int]]
    lines: list[tuple[int, str]]
    steps: list[str] = field(default_factory=list)
    options: list[str] = field(default_factory=list)

    def tiles(self) -> int:
        """The number of tiles."""
        return report.product(self.radices)

    def shape(self) -> str:
        """The radices, as in `2x4`."""
        return "x".join(map(str, self.radices))

    def operations(self) -> int:
        """The greatest number of operations that the scripts can make."""
        return sum(count(text) for _, text in self.lines)

    def machine_text(self) -> str:
        """The text of the machine."""
        rows = [f"radix {' '.join(map(str, self.radices))}", f"dims {len(self.radices)}"]
        rows += [f"depth {self.depth}", f"tags {self.tags}", f"words {self.words}"]
        if self.datelines is not None:
            rows.append(f"dateline {' '.join(map(str, self.datelines))}")
        return "".join(f"{it}\n" for it in rows + [f"init {a} {v}" for a, v in self.opening])

    def script_text(self) -> str:
        """The text of the scripts."""
        return "".join(f"{processor} {text}\n" for processor, text in self.lines)

    def steps_text(self) -> str:
        """The text of the steps."""
        return "".join(f"{it}\n" for it in self.steps)

    def with_(self, **changed: object) -> Case:
        """The same with some fields changed."""
        return replace(self, **changed)


def count(line: str) -> int:
    """How many operations a line of a script counts."""
    first, *rest = line.split()
    return int(rest[-1]) if first == "spin" else int(first != "fence")


def bank(numbers: Numbers, pattern: str, source: int, radices: list[int], hot: int) -> int:
    """The bank that a processor asks by a traffic pattern; as neighbour the next one in dimension 0 alone, so that a seed draws the
    run that it always drew."""
    tiles = report.product(radices)
    if pattern == "uniform":
        return numbers.below(tiles)
    if pattern == "hot bank":
        return hot if numbers.below(4) else numbers.below(tiles)
    if pattern == "neighbour":
        return moved(source, 0, 1, radices)
    return traffic_patterns.target("bit-complement" if pattern == "complement" else pattern, source, radices, tiles)


def address(numbers: Numbers, pattern: str, source: int, case: Case, hot: int) -> int:
    """The address that a processor asks for by a traffic pattern; any, where the bank has no word."""
    if pattern == "hot word" and numbers.below(8):
        return hot % case.words
    home = bank(numbers, pattern, source, case.radices, hot % case.tiles()) if pattern != "hot word" else case.words
    if home >= case.words:
        return numbers.below(case.words)
    return home + case.tiles() * numbers.below((case.words - 1 - home) // case.tiles() + 1)


def value(numbers: Numbers, may_be_last: bool) -> str:
    """A value of an operation."""
    if may_be_last and numbers.below(4) == 0:
        return "last"
    return str(numbers.among([numbers.below(3), numbers.below(100), numbers.next(), MASK]))


def line(numbers: Numbers, at: int, has_earlier: bool, room: int) -> str:
    """A line of a script, without its processor, of at most so many operations."""
    kind = str(numbers.among(KINDS))
    if kind == "fence":
        return kind
    if kind == "spin":
        return f"spin {at} {numbers.below(3)} {1 + numbers.below(min(room, 20))}"
    values = [value(numbers, has_earlier) for _ in range(VALUES[kind])]
    return " ".join([kind, str(at), *values])


def scripts(numbers: Numbers, case: Case, most: int) -> list[tuple[int, str]]:
    """The lines of all processors, each of at most so many operations; a quarter of the processors have none."""
    pattern, hot = str(numbers.among(PATTERNS)), numbers.next()
    made: list[tuple[int, str]] = []
    for processor in range(case.tiles()):
        left = 0 if numbers.below(4) == 0 else 1 + numbers.below(most)
        has_earlier = False
        while left > 0:
            text = line(numbers, address(numbers, pattern, processor, case, hot), has_earlier, left)
            made.append((processor, text))
            left -= count(text) or numbers.below(2)
            has_earlier = has_earlier or text != "fence"
    return made


def attempts(dims: int, tile: int) -> list[list[str]]:
    """The steps of the processor, the router and the bank of a tile (docs/FORMATS.md, Steps text)."""
    ports = range(8 * dims + 2)
    processor = [f"{3 * tile} {it}" for it in ("send", "take", "credit", "done", "look")]
    router = [f"{3 * tile + 1} {it} {port}" for it in ("take", "put", "credit") for port in ports]
    return [processor, router, [f"{3 * tile + 2} {it}" for it in ("take", "serve", "send", "credit")]]


def schedule(numbers: Numbers, case: Case) -> list[str]:
    """Steps: blocks of all attempts in drawn orders, of all but those of one tile, of one agent's, and single draws."""
    by_agent = [it for tile in range(case.tiles()) for it in attempts(len(case.radices), tile)]
    every = [it for agent in by_agent for it in agent]
    orders = [numbers.order(every) for _ in range(3)] + [every, every[::-1]]
    made: list[str] = []
    room = min(len(every) * (1 + numbers.below(numbers.among([4, 16, 64]))), 100000)
    while len(made) < room:
        kind = numbers.below(8)
        if kind < 4:
            order = numbers.among(orders)
            made += order
        elif kind == 4:
            starved = 3 * numbers.below(case.tiles())
            left_out = (f"{starved} ", f"{starved + 1} ", f"{starved + 2} ")
            made += [it for it in numbers.among(orders) if not it.startswith(left_out)]
        elif kind == 5:
            made += numbers.order(numbers.among(by_agent)) * (1 + numbers.below(4))
        else:
            made += [str(numbers.among(every)) for _ in range(64)]
    most = max((sum(count(text) for at, text in case.lines if at == it) for it in range(case.tiles())), default=0)
    # half of them end with so many rounds as will mostly do
    rounds = min(30 + 8 * most, 80000 // len(every)) if numbers.below(2) else 0
    return made + every * rounds


def shape(numbers: Numbers, way: str) -> list[int]:
    """The radices: small machines more often, and by steps and by the library hardly ever large ones."""
    limits = [4, 8, 8, 16, 64] if way in ("workers", "rounds") else [4, 4, 8, 8, 16]
    most = 64 if numbers.below(100) == 0 else numbers.among(limits)
    return list(numbers.among([it for it in SHAPES if report.product(it) <= most]))


def draw_case(seed: int, way: str, draws: bool = False) -> Case:
    """The run of a seed; draws: whether the program has `draw`, which then draws the schedules of even seeds."""
    numbers = Numbers(len(WAYS) * seed + WAYS.index(way))
    radices = shape(numbers, way)
    words = 1 + numbers.below(numbers.among([4, 64, 4096]))
    datelines = [numbers.below(it) for it in radices] if numbers.below(2) else None
    case = Case(way, radices, datelines, 1 + numbers.below(8), 1 + numbers.below(16), words, [], [])
    first = numbers.below(words)
    case.opening = [((first + at) % words, numbers.next()) for at in range(numbers.below(min(words, 8) + 1))]
    most = min(MOST_OF_ONE, MOST_OF_ALL // case.tiles())
    # one in two hundred is long
    length = most if numbers.below(200) == 0 and way != "library" else min(most, numbers.among([2, 8, 8, 24, 64]))
    case.lines = scripts(numbers, case, length)
    is_cut = numbers.below(5) == 0
    if way == "workers":
        case.options = ["--workers", str(1 + numbers.below(16))]
        case.options += ["--turns", str(1 + numbers.below(numbers.among([100, 10000])))] if is_cut else []
    elif way == "rounds":
        case.options = ["--rounds", str(1 + numbers.below(200))] if is_cut else []
    elif way == "draw" and draws and seed % 2 == 0:
        case.options = ["--seed", str(numbers.next())]
        case.options += ["--steps", str(1 + numbers.below(numbers.among([20, 200, 2000])))] if is_cut else []
    elif way == "draw":
        case.steps = schedule(numbers, case)
    else:
        case.options = [str(numbers.next()), str(1 + numbers.below(numbers.among([50, 500, 2000])))]
    return case


def case_of_texts(way: str, machine: str, script: str, steps: str, options: list[str]) -> Case:
    """The run of given texts, which the program accepts."""
    rows = [it.split() for it in machine.splitlines() if it.split() and not it.split()[0].startswith("#")]
    said = {it[0]: list(map(int, it[1:])) for it in rows}
    radices = said["radix"] * (said["dims"][0] if len(said["radix"]) == 1 else 1)
    opening = [(int(it[1]), int(it[2])) for it in rows if it[0] == "init"]
    made = Case(way, radices, said.get("dateline"), said["depth"][0], said["tags"][0], said["words"][0], opening, [])
    rows = [it.split() for it in script.splitlines() if it.split() and not it.split()[0].startswith("#")]
    made.lines = [(int(it[0]), " ".join(it[1:])) for it in rows]
    rows = [it.split() for it in steps.splitlines() if it.split() and not it.split()[0].startswith("#")]
    return made.with_(steps=[" ".join(it) for it in rows], options=options)
