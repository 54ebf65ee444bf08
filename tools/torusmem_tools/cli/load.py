"""Counts what a schedule, or traffic on a network, brings over each channel, and how long each operation or packet takes.

    tools/load machine.txt script.txt
    tools/load machine.txt script.txt --by-tile
    tools/load machine.txt script.txt --json > load.json
    tools/load machine.txt script.txt --svg > load.svg
    tools/load machine.txt script.txt --histogram > times.svg
    tools/load machine.txt script.txt --distribution > tail.svg
    torusmem draw machine.txt script.txt --seed 1 | tools/load machine.txt script.txt -
    tools/network simulate mesh.txt traffic.txt --depth 4 | tools/load --network mesh.txt -
    tools/load --network mesh.txt report.txt --svg > network.svg

Without a schedule the run is made in clocked rounds, each of what is enabled when it begins (`tools/schedule --clocked`). With
--rounds-in-order it is that of `torusmem schedule`, in which a flit may go many hops in one round.

Of a channel: the flits that were put on it; the rounds in which some were (busy); the rounds at whose end a flit
stood before it and its sender held no credit (waited); and the greatest number of flits that were in it (most).
The sums are by kind, dimension, direction, class and bit. Of an operation: the rounds from its issue to its
service, and from there to its answer, and the hops of its request. A percentile is the least value that so many
of a hundred don't exceed. The numbers are those of the run that `torusmem steps` makes of the schedule; where the
text has no lines `# round N`, each move counts as a round. Of the processors that come off worst and best stand how many of
their operations are answered, their share of all that are, and their longest wait.

Of a run that the tool makes itself in clocked rounds the bound stands there too, which no wait exceeds by a proved law. With
--by-tile each processor has a line.

With --network the counts are those of a report on packets through a written network (docs/FORMATS.md, Traffic text). Of a
channel: the flits that leave it, and the rounds for which one waited behind it. Of a packet that is delivered: the rounds for
which it waited at its sender, those from its beginning to its delivery, and both together, its latency; of the senders what
is told of processors, and the same by message class and by the hops of the shortest way. Of packets that receivers answered
the rounds with all answers are told, too. --svg draws the network twice, in the colours of the flits and of the waits, or once with
--only, with their numbers where it has at most 100 channels.

A flit passes a channel in two rounds, a take and a put. With --cycle 2 times are in cycles of two rounds, as they are in
simulators in which a flit passes a channel in one cycle.
"""
from __future__ import annotations

import argparse
import json
from typing import Any, Callable, Sequence

from torusmem_tools import command
from torusmem_tools.draw import channel_load, network_load, paper, torus_layout
from torusmem_tools.draw.distribution import drawn_all
from torusmem_tools.draw.histogram import summary_of
from torusmem_tools.draw.paper import Paper
from torusmem_tools.model import clocked_rounds, cycles, replay, schedule_runs
from torusmem_tools.model.network import parse_network
from torusmem_tools.model.network_words import text_of
from torusmem_tools.texts import traffic_report
from torusmem_tools.texts.columns import aligned

TOOL = "load"
COUNTS = ("flits", "busy", "waited", "most")
TIMES = ("issue_to_service", "service_to_answer", "issue_to_answer")


def rows_of(machine: replay.Machine) -> list[dict[str, Any]]:
    """A row for each channel, in channel order."""
    rows: list[dict[str, Any]] = []
    for wire, it in zip(torus_layout.wires(machine.shape), machine.channels):
        counts = {"flits": it.put_count, "busy": it.busy, "waited": it.waited, "most": it.most}
        rows.append({**wire.as_json(), **counts, "name": wire.name()})
    return rows


def summed(rows: list[dict[str, Any]], name: str) -> list[dict[str, Any]]:
    """The sums by one of the words for a channel; of the greatest number of flits the greatest."""
    made = []
    for key in sorted({it[name] for it in rows if name in it}, key=str):
        of = [it for it in rows if it.get(name) == key]
        sums = {what: sum(it[what] for it in of) for what in COUNTS[:3]}
        made.append({name: key, "channels": len(of), **sums, "most": max(it["most"] for it in of)})
    return made


def hottest(rows: list[dict[str, Any]], most: int) -> list[dict[str, Any]]:
    """The channels with the most flits; of those with as many the one that was waited for longer, then in order."""
    used = [it for it in rows if it["flits"]]
    return sorted(used, key=lambda it: (-it["flits"], -it["waited"], it["tile"], it["place"]))[:most]


def operations_of(machine: replay.Machine, cycle: int) -> list[dict[str, Any]]:
    """A row for each operation that is issued, with its times in cycles of so many rounds."""
    rows = []
    for it in machine.operations():
        row: dict[str, Any] = {"processor": it.processor, "index": it.index, "kind": it.kind, "address": it.address, "bank": it.bank}
        row.update(hops=machine.shape.hops(it.processor, it.bank), issued=cycles.cycle_of(it.issued, cycle))
        rows.append({**row, "served": cycles.cycle_if(it.served, cycle), "answered": cycles.cycle_if(it.answered, cycle)})
    return rows


def by_processor(rows: list[dict[str, Any]], last: int) -> list[dict[str, Any]]:
    """What becomes of the operations of each processor that issues some: how many are answered, their share of all that are, and
    the longest wait of one, which ends with the last round where it isn't answered."""
    whole, found = sum(it["answered"] is not None for it in rows), []
    for processor in sorted({it["processor"] for it in rows}):
        of = [it for it in rows if it["processor"] == processor]
        here = sum(it["answered"] is not None for it in of)
        longest = max((last if it["answered"] is None else it["answered"]) - it["issued"] for it in of)
        found.append({"processor": processor, "operations": len(of), "answered": here, "share": round(here / max(whole, 1), 5), "longest_wait": longest})
    return found


def times_of(rows: list[dict[str, Any]]) -> dict[str, Any]:
    """The spread of the times and of the hops."""
    far: Callable[[str, str], list[int]] = lambda first, last: [it[last] - it[first] for it in rows if it[last] is not None]
    made = {"issue_to_service": far("issued", "served"), "issue_to_answer": far("issued", "answered")}
    answered = [it for it in rows if it["answered"] is not None]
    made["service_to_answer"] = [it["answered"] - it["served"] for it in answered]
    made["hops"] = [it["hops"] for it in rows]
    return {it: summary_of(made[it]) for it in (*TIMES, "hops")}


def figures(texts: replay.Texts, top: int, cycle: int, is_fair: bool) -> dict[str, Any]:
    """All that is counted; times are cycles of so many rounds. Of fair rounds there is a bound of all waits."""
    machine = replay.last(texts)
    if cycle != 1 and texts.schedule.unit() != "round":
        raise command.WrongWords("--cycle is of no use where the schedule has no rounds (--help says more)")
    rows, operations = rows_of(machine), operations_of(machine, cycle)
    made: dict[str, Any] = {"radices": machine.shape.radices, "depth": machine.depth, "unit": texts.schedule.unit()}
    made["time"] = made["unit"] if cycle == 1 else cycles.unit(cycle)
    made.update(rounds=machine.rounds, moves=machine.moves, finished=machine.is_finished())
    made.update(operations=len(operations), times=times_of(operations), hottest=hottest(rows, top))
    for name, key in (("kinds", "kind"), ("dimensions", "dimension"), ("directions", "direction")):
        made[name] = summed(rows, key)
    made.update(classes=summed(rows, "class"), bits=summed(rows, "bit"), channels=rows, runs=operations)
    made["bound"] = cycles.cycle_of(clocked_rounds.bound(texts.case), cycle) if is_fair else None
    return {**made, "processors": by_processor(operations, cycles.cycle_of(machine.rounds, cycle))}


def time_rows(made: dict[str, Any], names: Sequence[str]) -> list[list[str]]:
    """The rows of the spreads of these names, where there are any numbers."""
    found = [(it, made["times"][it]) for it in names if made["times"][it]]
    shown: Callable[[str, dict[str, Any]], str] = lambda key, it: f"{it[key]:.2f}" if key == "mean" else str(it[key])
    named: Callable[[str], str] = lambda name: "of a request" if name == "hops" else name.replace("_", " ")
    return [[named(name), *(shown(key, it) for key in it)] for name, it in found]


def waits(made: dict[str, Any], by_tile: bool) -> list[str]:
    """What becomes of the operations of the processors, and the bound of their waits, where there is one."""
    rows, bound = made["processors"], made["bound"]
    if not rows:
        return []
    lines = aligned(network_load.shares(rows, "processor", "answered"))
    if by_tile:
        heads = ["processor", "operations", "answered", "share", "longest wait"]
        cells = [[str(it["processor"]), str(it["operations"]), str(it["answered"]), f"{it['share']:.4f}", str(it["longest_wait"])] for it in rows]
        lines = aligned([heads + ["bound"], *(it + [str(bound)] for it in cells)] if bound else [heads, *cells])
    return ["", *lines, *([f"no wait exceeds {bound} {made['time']}s"] if bound else [])]


def table(made: dict[str, Any], by_tile: bool) -> str:
    """What is counted, as text."""
    shape, how = " x ".join(map(str, made["radices"])), "finished" if made["finished"] else "not finished"
    span = f"{made['rounds']} rounds" if made["unit"] == "round" else "no rounds"
    lines = [f"{shape} tiles, depth {made['depth']}: {made['moves']} moves in {span}, {how}"]
    heads = [f"{made['time']}s", "count", "least", "mean", "median", "p95", "p99", "greatest"]
    for head, names in ((heads[0], TIMES), ("hops", ("hops",))):
        rows = time_rows(made, names)
        lines += ["", *aligned([[head, *heads[1:]], *rows])] if rows else []
    lines += waits(made, by_tile)
    for name in ("kinds", "dimensions", "directions", "classes", "bits"):
        if made[name]:
            columns = list(made[name][0])
            lines += ["", *aligned([columns, *([str(it[head]) for head in columns] for it in made[name])])]
    columns = ["hottest channels", *COUNTS]
    lines += ["", *aligned([columns, *([it["name"], *(str(it[head]) for head in COUNTS)] for it in made["hottest"])])]
    return "\n".join(lines) + "\n"


def drawn_times(made: dict[str, Any], given: Paper | None, is_distribution: bool) -> str:
    """The histograms of the times of all operations that are answered, or their distribution functions."""
    of = [it for it in made["runs"] if it["answered"] is not None]
    if not of:
        raise command.Refusal("no operation is answered, so that there are no times to draw")
    said = f"{' x '.join(map(str, made['radices']))} tiles: {len(of)} operations"
    ways = (("issue", "issued", "service", "served"), ("service", "served", "answer", "answered"), ("issue", "issued", "answer", "answered"))
    times = [(f"from {begin} to {end}", [it[last] - it[first] for it in of]) for begin, first, end, last in ways]
    return drawn_all(times, said, made["time"], "operations", given, is_distribution)


def of_network(given: argparse.Namespace, top: int) -> str:
    """What the tool prints of a report on packets through a written network."""
    net = parse_network(text_of(given.network), given.network)
    made = network_load.figures(net, traffic_report.read_traffic_report(net, given.machine), top, given.cycle)
    if given.json:
        return json.dumps(made, indent=2) + "\n"
    if given.histogram or given.distribution:
        return network_load.drawn_times(made, given.width, given.distribution)
    return network_load.picture(net, made, given.width, given.only) if given.svg else network_load.table(made)


def words() -> command.Parser:
    """The words of the command line."""
    parser = command.parser(TOOL, __doc__)
    schedule_runs.add_words(parser, "REPORT")
    shown = parser.add_mutually_exclusive_group()
    shown.add_argument("--json", action="store_true", help="print JSON, with a row for each channel and operation")
    shown.add_argument("--svg", action="store_true", help="draw the torus, its channels in the colours of their loads")
    shown.add_argument("--histogram", action="store_true", help="draw how many operations took how long")
    shown.add_argument("--distribution", action="store_true", help="draw which share of the operations took longer than a time, for heavy tails")
    shown.add_argument("--by-tile", action="store_true", help="of a machine: a line for each processor, with its longest wait")
    most = command.whole(0, 65536)
    paper.add_word(parser, "with --svg, --histogram or --distribution: ")
    cycles.add_word(parser)
    parser.add_argument("--only", choices=tuple(network_load.COUNTS), help="of --network with --svg: one of the two pictures, the flits or the waits")
    parser.add_argument("--top", metavar="N", type=most, help="how many channels to name; 10 if not given")
    return parser


def work() -> str:
    """What the tool prints."""
    given = words().parse_args()
    picture = next((it for it in ("svg", "histogram", "distribution") if getattr(given, it)), None)
    if given.top is not None and picture:
        raise command.WrongWords(f"--top is of no use with --{picture} (--help says more)")
    if given.width and not picture:
        raise command.WrongWords("--width is of use with --svg, --histogram and --distribution alone (--help says more)")
    if given.only and not (given.svg and given.network):
        raise command.WrongWords("--only is of use with --network and --svg alone (--help says more)")
    schedule_runs.refuse_network_words(given)
    if given.network is not None and given.by_tile:
        raise command.WrongWords("--by-tile is of no use with --network (--help says more)")
    top = 10 if given.top is None else given.top
    if given.network is not None:
        return of_network(given, top)
    texts = schedule_runs.read(given)
    made = figures(texts, top, given.cycle, given.schedule is None and not given.rounds_in_order)
    if given.json:
        return json.dumps(made, indent=2) + "\n"
    if given.histogram or given.distribution:
        return drawn_times(made, given.width, given.distribution)
    return channel_load.picture(made, replay.Machine(texts.case).shape, given.width, TOOL) if given.svg else table(made, given.by_tile)
