"""Measures a machine, or a written network, under an offered load: what it accepts, and how long it takes, as a table or a plot.

    tools/sweep --shape 4x4
    tools/sweep --shape 4x4 --shape 8x8 --traffic uniform --svg > sweep.svg
    tools/sweep --shape 4x4 --traffic uniform --loads 0.02,0.06,0.1 --csv
    tools/network mesh 4x4 > mesh.txt; tools/sweep --network mesh.txt --loads 0.02,0.04,0.06,0.08
    tools/sweep --network mesh.txt --length 1 --cycle 2 --saturation
    tools/sweep --network mesh.txt --csv > loads.csv; tools/sweep --network mesh.txt --saturation --csv > saturations.csv
    tools/sweep --read loads.csv --read saturations.csv --svg --width 252pt > mesh.svg

For each shape, pattern and load, and for each of --seeds seeds, a run is drawn. Each tile asks for an operation with
the probability of the load a round; of these --stores in a hundred are stores, the others loads. What is asked for waits
at its processor for its turn and for one of --tags tags. The rounds are clocked, or with --rounds-in-order those of
`torusmem round`: --warm-up of them, then --window, which are measured, then at most --drain, in which tiles ask on. The
run ends as soon as all operations that were asked for in the window are answered. `torusmem steps` makes the same
moves, and its report has the same events.

Accepted are the operations that are answered in the window, for each round and tile. The latency is that of the
operations that are asked for in it: the rounds from the one in which it is asked for to that of its answer, both
counted. Both stand as a mean over the seeds with the half width of its 95 % interval by Student's t. Behind the greatest 95th
percentile stand the longest latency, and the least (of which tile or sender) and the most that is accepted of one. The latency without
load is that of the formula of docs/FORMATS.md. A load is saturated where the latency is over three times that, or where
in some run not all that is measured is answered. With --saturation the least such load is looked for, by bisection to 0.002, in
runs of each seed: `saturation 0.412 +- 0.006` is the mean over the seeds, with its interval.

Traffic is uniform (every bank as often), transpose (the bank whose digits are the processor's, reversed), bit-complement
(each digit d is radix - 1 - d), neighbour (the next bank in each dimension), tornado (half of the way round in each
dimension), bit-reverse (the processor's bits, reversed), shuffle (its bits, turned by one to the left), or hot-spot (a quarter
of the operations to bank 0, the others uniform): Dally and Towles, Principles and Practices of Interconnection Networks, 3.2.

With --network each sender of the network asks for a packet of --length flits with the probability of the load a round, as
`tools/network traffic` draws them, by its patterns, and also --to, --matrix, --hot and --burst. Accepted are the packets that
are delivered in the window, for each round and sender; the latency is that of docs/FORMATS.md ("Traffic text"). The rounds are those
of `torusmem simulate`. Where routers choose, and with --replies, --outstanding, --router-delay, --link-delay or --arbiter oldest, they
are those of the plain model (`tools/network simulate`), and the output and a picture say so; virtual channels share no link, each carries a flit
in two rounds. With --replies a packet counts with all its answers. The latency without load is that of the shortest way. All else is
as of machines. A curve of latency ends at its first saturated load; with --read its least saturated load stands in the picture, too.

A flit passes a channel in two rounds, a take and a put. With --cycle 2 all that is said of rounds is said of cycles of two, as
they are in simulators in which a flit passes a channel in one cycle.
"""
from __future__ import annotations

import itertools
import json
import multiprocessing
import os
import signal
from dataclasses import replace
from typing import Any, Callable, Iterator

from torusmem_tools import command
from torusmem_tools.draw import curves, paper
from torusmem_tools.model import cycles, offered_load, offered_packets, router_rules, swept, traffic_draw, traffic_patterns, trial
from torusmem_tools.model.swept import Point, Row
from torusmem_tools.model.torus import radices_of
from torusmem_tools.progress import rewrite
from torusmem_tools.texts import swept_rows
from torusmem_tools.texts.columns import aligned

TOOL = "sweep"
LOADS = (0.01, 0.03, 0.05, 0.07, 0.09, 0.11, 0.13, 0.15)
# What is offered where the command line doesn't say.
TAGS, STORES = 16, 30
# The patterns of a machine where the command line names none: those that every shape has.
USUAL = tuple(it for it in traffic_patterns.PATTERNS if it not in traffic_patterns.BY_BITS)


def ignore_interrupts() -> None:
    """A process of its own leaves an interrupt to the one that started it."""
    signal.signal(signal.SIGINT, signal.SIG_IGN)


def say(text: str) -> None:
    """On a terminal, writes a line in place of what standard error's last line has."""
    if os.isatty(2):
        rewrite(text)


def numbered_result(numbered: tuple[int, Point]) -> tuple[int, offered_load.Found | str]:
    """In a process of its own: what a run came to, with its number, or why it didn't."""
    return numbered[0], swept.result(numbered[1])


def all_measured(points: list[Point], jobs: int, measure: Callable[[tuple[int, Point]], Any]) -> list[Any]:
    """What all runs came to, so many made at once, in their order."""
    found: list[Any] = [None] * len(points)
    with multiprocessing.get_context("fork").Pool(min(jobs, len(points)), ignore_interrupts) as pool:
        for done, (at, made) in enumerate(pool.imap_unordered(measure, list(enumerate(points)))):
            if isinstance(made, str):
                raise command.Refusal(made)
            found[at] = made
            say(f"{TOOL}: {done + 1} of {len(points)} runs")
    say("")
    return found


def saturations(given: Any) -> list[Row]:
    """Where each network or shape is saturated by each pattern."""
    points = list(dict.fromkeys(replace(it, load=1.0) for it in points_of(given)))
    found = all_measured(seeded(points, given), given.jobs, swept.saturation)
    return [swept.saturation_row(it, found[at * given.seeds : (at + 1) * given.seeds]) for at, it in enumerate(points)]


def seeded(points: list[Point], given: Any) -> list[Point]:
    """The points with each of the seeds."""
    return [replace(it, seed=(it.seed + k) % 2**64) for it in points for k in range(given.seeds)]


def made_by(rows: list[Row]) -> str:
    """The line on runs that the program didn't make."""
    has_many = has_many_arbiters(rows)
    by_tools = [it for it in rows if it["by"] == swept.TOOLS]
    names = dict.fromkeys(f"{next(iter(it.values()))}{', ' + it['arbiter'] if has_many else ''}" for it in by_tools)
    return f"# by the plain model of tools/network, which isn't proved: {', '.join(names)}\n" if names else ""


def has_many_arbiters(rows: list[Row]) -> bool:
    """Whether some rows differ in their arbiter."""
    return len({it["arbiter"] for it in rows}) > 1


def traffic(row: Row, has_many: bool) -> str:
    """The traffic of a row, and its arbiter where there are many."""
    return f"{row['traffic']}, {row['arbiter']}" if has_many else str(row["traffic"])


def saturation_table(rows: list[Row]) -> str:
    """The same as text."""
    cells = [[next(iter(rows[0])), "traffic", "without load", ""]]
    for it in rows:
        zero = "-" if it["zero_load"] is None else f"{it['zero_load']:.2f}"
        cells.append([it[cells[0][0]], traffic(it, has_many_arbiters(rows)), zero, f"saturation {it['saturation']:.3f} +- {it['saturation_within']:.3f}"])
    return "".join(f"{it}\n" for it in aligned(cells, (0, 1, 3))) + made_by(rows)


def table(rows: list[Row]) -> str:
    """What the loads came to, as text."""
    first = next(iter(rows[0]))
    one = "of one sender" if first == "network" else "of one tile"
    heads = [first, "traffic", "offered", "accepted", "latency", "p95", "longest", one, "without load", ""]
    cells = [heads]
    for it in rows:
        zero = "-" if it["zero_load"] is None else f"{it['zero_load']:.2f}"
        both = f"{it['accepted']:.4f} +- {it['accepted_within']:.4f}", f"{it['latency']:.2f} +- {it['latency_within']:.2f}"
        mark = "saturated" if it["saturated"] else ""
        share = f"{it['least']:.4f} ({it['worst']}) to {it['most']:.4f}"
        cells.append([it[heads[0]], traffic(it, has_many_arbiters(rows)), f"{it['offered']:g}", *both, str(it["p95"]), str(it["longest"]), share, zero, mark])
    return "".join(f"{it}\n" for it in aligned(cells, (0, 1, 9))) + made_by(rows)


def csv(rows: list[Row]) -> str:
    """The same as comma-separated values, under the names of the columns."""
    cell: Callable[[object], str] = lambda it: "" if it is None else str(it).lower() if isinstance(it, bool) else str(it)
    return "".join(",".join(line) + "\n" for line in [list(rows[0]), *([cell(it) for it in row.values()] for row in rows)])


def loads_of(word: str) -> list[float]:
    """The reader of the word behind --loads."""
    return sorted(set(map(traffic_draw.fraction, word.split(","))))


def words() -> command.Parser:
    """The words of the command line."""
    parser = command.parser(TOOL, __doc__)

    def add(name: str, metavar: str, **more: Any) -> None:
        parser.add_argument(f"--{name}", metavar=metavar, **more)

    number: Callable[[str, str, int, int, int, str], None] = lambda name, metavar, least, most, default, what: add(
        name, metavar, type=command.whole(least, most), default=default, help=f"{what}; {default} if not given"
    )
    shape = "the radix of each dimension, as 4x2; may be given more than once, and then the curves lie over each other"
    what = parser.add_mutually_exclusive_group(required=True)
    what.add_argument("--shape", metavar="RADIX[xRADIX..]", type=radices_of, action="append", help=shape)
    network = "the text of a network, in place of a machine; may be given more than once, too"
    what.add_argument("--network", metavar="NETWORK", action="append", help=network)
    read = "with --svg: a file of what --json or --csv printed of loads, whose curves are drawn, and also of saturations; may be given more than once, too"
    what.add_argument("--read", metavar="FILE", action="append", help=read)
    usual = f"if not given all but {' and '.join(traffic_patterns.BY_BITS)}, of a network uniform"
    patterns = f"one of {', '.join(traffic_patterns.PATTERNS)}; may be given more than once; {usual}"
    add("traffic", "PATTERN", choices=traffic_patterns.PATTERNS, action="append", help=patterns)
    loads = f"offered loads, operations per tile and round, or packets per sender and round; {','.join(map(str, LOADS))} if not given"
    add("loads", "L[,L..]", type=loads_of, help=loads)
    parser.add_argument("--saturation", action="store_true", help="in place of loads: the least load that is saturated, by bisection, of each seed")
    of_one: Callable[[str, str, int, int, str], None] = lambda name, metavar, least, most, what: add(name, metavar, type=command.whole(least, most), help=what)
    of_one("tags", "T", 1, 16, f"of a machine: operations of a processor that may be out at once; {TAGS} if not given")
    number("depth", "D", 1, 8, 4, "flits that a channel holds")
    of_one("stores", "P", 0, 100, f"of a machine: how many in a hundred are stores; {STORES} if not given")
    traffic_draw.add_demand_words(parser, "of a network: ", 1000)
    number("warm-up", "R", 0, 100000, 200, "rounds before the measured ones")
    number("window", "R", 1, 100000, 500, "rounds that are measured")
    number("drain", "R", 0, 100000, 500, "the most rounds behind these")
    router_rules.add_words(parser, "of a network: ", many=True)
    cycles.add_word(parser)
    number("seeds", "N", 2, 30, 5, "runs of each load, each by a seed of its own")
    number("seed", "S", 0, 2**64 - 1, 1, "the first seed")
    jobs = "runs at once; as many as cores if not given"
    add("jobs", "J", type=command.whole(1, 1024), default=os.cpu_count() or 1, help=jobs)
    paper.add_word(parser, "with --svg: ", paper.Paper(620))
    parser.add_argument("--rounds-in-order", action="store_true", help="rounds as `torusmem round` makes, not clocked ones")
    shown = parser.add_mutually_exclusive_group()
    shown.add_argument("--svg", action="store_true", help="draw the curves")
    shown.add_argument("--json", action="store_true", help="print JSON, an item for each load")
    shown.add_argument("--csv", action="store_true", help="print comma-separated values, a line for each load")
    return parser


def points_of(given: Any) -> Iterator[Point]:
    """The loads that are asked for, each with the first seed."""
    rounds = given.warm_up, given.window, given.drain
    for network, pattern, arbiter, load in itertools.product(given.network or [], given.traffic or [None], given.arbiter or [None], given.loads):
        demand, rules = traffic_draw.demand_of(given, pattern), router_rules.rules_of(given, arbiter, given.cycle)
        yield offered_packets.Point(network, demand, load, given.depth, *rounds, given.cycle, rules, given.seed)
    tags, stores = given.tags or TAGS, STORES if given.stores is None else given.stores
    for radices, pattern, load in itertools.product(given.shape or [], given.traffic or USUAL, given.loads):
        yield offered_load.Point(tuple(radices), pattern, load, tags, given.depth, stores, *rounds, not given.rounds_in_order, given.cycle, given.seed)


def asked() -> Any:
    """What the command line asks for; refuses words that are of no use together."""
    given = words().parse_args()
    of_networks, of_machines = ("length", "digits", "burst", "hot", "to", "matrix", "arbiter", *router_rules.OPTIONS), ("tags", "stores", "rounds_in_order")
    way = next(it for it in ("shape", "network", "read") if getattr(given, it))
    for name in {"shape": of_networks, "network": of_machines, "read": (*of_networks, *of_machines, "traffic", "loads", "saturation")}[way]:
        if getattr(given, name) is not None and getattr(given, name) is not False:
            raise command.WrongWords(f"--{name.replace('_', '-')} is of no use with --{way} (--help says more)")
    if given.read and not given.svg:
        raise command.WrongWords("--read is of use with --svg alone (--help says more)")
    for name in ("loads", "svg"):
        if given.saturation and getattr(given, name):
            raise command.WrongWords(f"--{name} is of no use with --saturation (--help says more)")
    given.loads = given.loads or list(LOADS)
    return given


def named(rows: list[Row], given: Any) -> list[Row]:
    """The rows, whose first column says whether it has shapes or networks."""
    return [{("network" if key == "shape" and given.network else key): it for key, it in row.items()} for row in rows]


def plot(rows: list[Row], given: Any, words: str) -> str:
    """The curves of some rows."""
    first = next(it for it in rows if "offered" in it)
    length, unit = first["length"], first["unit"]
    what = "operations per tile" if length is None else "flits per node" if length == "1" else "packets per sender"
    said = words if length is None else f"packets of {length} flit{'s' * (length != '1')}, depth {first['depth']}"
    return curves.plot(rows, given.width, said, f"offered and accepted: {what} and {unit}", unit)


def work() -> str:
    """What the tool prints."""
    given = asked()
    if given.read:
        rows = swept_rows.read(given.read)
        return plot(rows, given, f"depth {rows[0]['depth']}")
    for it in points_of(given):
        # (what is refused is refused ahead of all runs, and they need not read the networks again)
        swept.zero_load(it)
    if any(isinstance(it, offered_load.Point) or it.rules.are_plain(offered_packets.network_of(it.network)) for it in points_of(given)):
        os.environ["TORUSMEM"] = trial.built_torusmem()
    if given.saturation:
        rows = named(saturations(given), given)
        return json.dumps(rows, indent=2) + "\n" if given.json else csv(rows) if given.csv else saturation_table(rows)
    points = list(dict.fromkeys(points_of(given)))
    found = all_measured(seeded(points, given), given.jobs, numbered_result)
    rows = [swept.row_of(it, found[at * given.seeds : (at + 1) * given.seeds]) for at, it in enumerate(points)]
    if given.json:
        return json.dumps(named(rows, given), indent=2) + "\n"
    if given.csv:
        return csv(named(rows, given))
    if not given.svg:
        return table(named(rows, given))
    rounds, stores = "rounds in order" if given.rounds_in_order else "clocked rounds", STORES if given.stores is None else given.stores
    return plot(rows, given, f"{rounds}, {stores} % stores, depth {given.depth}, {given.tags or TAGS} tags")
