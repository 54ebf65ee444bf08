"""What packets bring over the channels of a written network, for `tools/load --network`: counts, times and a picture."""
from __future__ import annotations

import math
from typing import Any, Callable, Dict, List, Optional, Tuple

from torusmem_tools.command import Refusal
from torusmem_tools.draw import svg_text
from torusmem_tools.draw.channel_load import colour, step_of
from torusmem_tools.draw.channel_marks import name_of
from torusmem_tools.draw.diagram import Diagram, Marks
from torusmem_tools.draw.diagram_fit import diagram
from torusmem_tools.draw.distribution import drawn_all
from torusmem_tools.draw.histogram import summary_of
from torusmem_tools.draw.network_picture import COLUMN, MARGIN, PAGE
from torusmem_tools.draw.paper import Paper
from torusmem_tools.draw.router_ends import Plan, plan_of
from torusmem_tools.draw.strokes import LETTERS
from torusmem_tools.model.cycles import cycle_if, cycle_of, unit
from torusmem_tools.model.hop_counts import Ways
from torusmem_tools.model.message_classes import groups_of
from torusmem_tools.model.network import Network
from torusmem_tools.model.packet_rounds import Packet
from torusmem_tools.texts.columns import aligned
from torusmem_tools.texts.traffic_report import Delivered, Sent

Row = Dict[str, Any]
KINDS = {"inject": "injection", "hop": "hop", "eject": "ejection"}
TIMES = {"asked_to_begun": "wait at the sender", "begun_to_delivered": "begun to delivered", "latency": "latency"}
# Of a packet that is answered: the latency of it with all its answers.
EXCHANGE = {"asked_to_answered": "asked to answered"}
COUNTS = {"flits": "flits that leave a channel", "waited": "rounds for which one waits behind it"}
# A network with at most so many channels has a number at each, and a picture at most so many channels.
MOST_NUMBERED, MOST_DRAWN = 100, 4096
# Panels that are higher together stand side by side where the paper is wider than this.
TALL, WIDE = 650, 400


def in_cycles(sent: List[Sent], cycle: int) -> List[Sent]:
    """Packets whose times are cycles of so many rounds."""
    of: Callable[[Sent], Packet] = lambda it: it.packet._replace(round=cycle_of(it.packet.round, cycle))
    return [Sent(of(it), cycle_if(it.begun, cycle), cycle_if(it.delivered, cycle), it.answers) for it in sent]


def times_of(it: Sent) -> Optional[Dict[str, int]]:
    """The times of a packet that is delivered; the first and the last round are counted, but of the wait."""
    if it.begun is None or it.delivered is None:
        return None
    wait = it.begun - it.packet.round
    return {"asked_to_begun": wait, "begun_to_delivered": it.delivered - it.begun + 1, "latency": it.delivered - it.packet.round + 1}


def exchange_times(found: Delivered, cycle: int) -> List[int]:
    """For each packet that is answered, with all its answers delivered, the cycles from its own to that of the last of these."""
    asked = {it.answers for it in found.sent}
    ends = [(it.packet.round, end) for number, (it, end) in enumerate(zip(found.sent, found.whole())) if number in asked and it.answers < 0]
    return [cycle_of(end, cycle) - cycle_of(begin, cycle) + 1 for begin, end in ends if end is not None]


def grouped(sent: List[Sent], last: int, name: str, key: Callable[[Packet], int]) -> List[Row]:
    """What becomes of the packets of each sender, of each class of senders, or of each number of hops, by this key of a packet: how many
    are delivered, their share of all that are, the mean and the greatest latency of these, and the longest wait of one, which ends with
    the last round where it isn't delivered."""
    found: Dict[int, List[Sent]] = {}
    for it in sent:
        found.setdefault(key(it.packet), []).append(it)
    whole, rows = sum(it.delivered is not None for it in sent), []
    for number, of in sorted(found.items()):
        times = [it.delivered - it.packet.round + 1 for it in of if it.delivered is not None]
        longest = max((last if it.delivered is None else it.delivered) - it.packet.round + 1 for it in of)
        row: Row = {name: number, "packets": len(of), "delivered": len(times), "share": round(len(times) / max(whole, 1), 5)}
        row.update(least=min(times, default=None), latency=round(sum(times) / len(times), 2) if times else None, greatest=max(times, default=None))
        rows.append({**row, "longest_wait": max(longest, 0)})
    return rows


def group_table(rows: List[Row], name: str) -> List[str]:
    """What becomes of the packets of each message class, or of each number of hops."""
    shown: Callable[[Any], str] = lambda it: "-" if it is None else f"{it:.2f}" if isinstance(it, float) else str(it)
    heads = {it: it for it in (name, "packets", "delivered", "least")}
    heads.update(latency="mean latency", greatest="greatest", longest_wait="longest wait")
    return list(aligned([list(heads.values()), *([shown(row[it]) for it in heads] for row in rows)]))


def summed(rows: List[Row]) -> List[Row]:
    """The sums by the kind of channel."""
    kinds = [it for it in KINDS.values() if any(row["kind"] == it for row in rows)]
    of = {kind: [it for it in rows if it["kind"] == kind] for kind in kinds}
    return [{"kind": kind, "channels": len(of[kind]), **{what: sum(it[what] for it in of[kind]) for what in COUNTS}} for kind in kinds]


def figures(net: Network, found: Delivered, top: int, cycle: int = 1) -> Row:
    """All that is counted; times are cycles of so many rounds."""
    plan, sent = plan_of(net), in_cycles(found.sent, cycle)
    rows: List[Row] = [{"channel": x, "kind": KINDS[net.kinds[x]], "name": name_of(net, plan, x), "flits": flits, "waited": waited}
            for x, (flits, waited) in enumerate(found.channels)]
    times = [it for it in map(times_of, sent) if it]
    hottest = sorted((it for it in rows if it["flits"]), key=lambda it: (-it["flits"], -it["waited"], it["channel"]))
    runs = [{**it.packet._asdict(), "begun": it.begun, "delivered": it.delivered} for it in sent]
    group = {x: number for number, (starts, _) in enumerate(groups_of(net)) for x in starts}
    last = cycle_of(found.rounds(), cycle)
    ways = Ways(net)
    groups = {"senders": grouped(sent, last, "sender", lambda it: it.start), "classes": grouped(sent, last, "class", lambda it: group[it.start]),
              "hops": grouped(sent, last, "hops", lambda it: max(ways.channels(it.start, it.end) - 2, 0))}
    spreads = {it: summary_of([row[it] for row in times]) for it in TIMES}
    spreads.update({it: summary_of(exchange_times(found, cycle)) for it in EXCHANGE})
    return {"unit": unit(cycle), "end": found.end, **groups, "packets": len(found.sent), "delivered": len(times),
            "times": spreads, "kinds": summed(rows), "hottest": hottest[:top], "channels": rows, "runs": runs}


def shares(rows: List[Row], name: str, count: str) -> List[List[str]]:
    """What becomes of what those ask that come off worst and best, by one of their counts; the first of several."""
    number: Callable[[Row, str], float] = lambda it, key: float(it[key])
    ends: Callable[[str], List[Row]] = lambda key: [of(rows, key=lambda it: number(it, key)) for of in (min, max)]
    cells: Callable[[str, str], List[str]] = lambda key, form: [f"{it[key]:{form}} ({it[name]})" for it in ends(key)]
    heads = [f"of one {name} of {len(rows)}", "least", "greatest"]
    delivered = [it for it in rows if it.get("latency") is not None]
    means = [[f"{it['latency']:.2f} ({it[name]})" for it in (of(delivered, key=lambda it: number(it, "latency")) for of in (min, max))]] if delivered else []
    latency = [["mean latency", *it] for it in means]
    return [heads, [count, *cells(count, "d")], ["share of all", *cells("share", ".4f")], *latency, ["longest wait", *cells("longest_wait", "d")]]


def table(made: Row) -> str:
    """What is counted, as text."""
    lines = [f"{len(made['channels'])} channels: {made['delivered']} of {made['packets']} packets delivered, {made['end']}"]
    shown: Callable[[str, Row], str] = lambda key, it: f"{it[key]:.2f}" if key == "mean" else str(it[key])
    cells = [[{**TIMES, **EXCHANGE}[it], *(shown(key, of) for key in of)] for it, of in made["times"].items() if of]
    heads = [f"{made['unit']}s", "count", "least", "mean", "median", "p95", "p99", "greatest"]
    lines += ["", *aligned([heads, *cells])] if cells else []
    lines += ["", *aligned(shares(made["senders"], "sender", "delivered"))] if made["senders"] else []
    for name, rows in (("class", made["classes"]), ("hops", made["hops"])):
        lines += ["", *group_table(rows, name)] if len(rows) > 1 else []
    lines += ["", *aligned([list(made["kinds"][0]), *([str(it) for it in row.values()] for row in made["kinds"])])]
    hottest = [[f"{it['channel']} {it['name']}", str(it["flits"]), str(it["waited"])] for it in made["hottest"]]
    return "\n".join([*lines, "", *aligned([["hottest channels", *COUNTS], *hottest])]) + "\n"


def drawn_times(made: Row, given: Optional[Paper], is_distribution: bool) -> str:
    """The histograms of the times of all packets that are delivered, or their distribution functions."""
    of = [it for it in made["runs"] if it["delivered"] is not None]
    if not of:
        raise Refusal("no packet is delivered, so that there are no times to draw")
    said = f"{len(made['channels'])} channels: {len(of)} packets"
    times = [("wait at the sender", [it["begun"] - it["round"] for it in of]),
             ("from begun to delivered", [it["delivered"] - it["begun"] + 1 for it in of]), ("latency", [it["delivered"] - it["round"] + 1 for it in of])]
    return drawn_all(times, said, made["unit"], "packets", given, is_distribution)


def tooltips(net: Network, plan: Plan, made: Row) -> Dict[int, str]:
    """What the tooltips of channels say."""
    return {it["channel"]: f"channel {it['channel']}, {it['name']}: {it['flits']} flits, waited {it['waited']}" for it in made["channels"]}


def scale(most: int, said: str, wide: float) -> List[str]:
    """What the colours mean: a bar with ticks below a line of text, from (0, 0) on."""
    far = min(wide, 150.0) - 8
    parts = [svg_text.text(0, LETTERS, said, LETTERS)]
    for it in range(40):
        parts.append(svg_text.element("rect", x=far * it / 40, y=11, width=far / 40 + 0.2, height=6, fill=colour(it / 39)))
    for it in range(0, most + 1, step_of(max(most, 1), 4)):
        x = far * it / max(most, 1)
        parts.append(svg_text.element("path", d=svg_text.path([(x, 17), (x, 19.5)]), stroke=svg_text.INK, stroke_width=0.6))
        parts.append(svg_text.text(x, 26.5, str(it), LETTERS, text_anchor="start" if it == 0 else "middle"))
    return parts


class Panel:
    """The network in the colours of one of the counts."""

    def __init__(self, net: Network, plan: Plan, made: Row, count: str, room: float) -> None:
        self.rows, self.count = made["channels"], count
        self.most = max(it[count] for it in self.rows)
        inks = {it["channel"]: colour(it[count] / max(self.most, 1)) for it in self.rows}
        numbers = {it["channel"]: str(it[count]) for it in self.rows} if len(self.rows) <= MOST_NUMBERED else {}
        self.diagram: Diagram = diagram(plan, Marks(numbers, replies=net.replies, inks=inks), room)
        self.titles = tooltips(net, plan, made)
        left, top, right, low = self.diagram.extent()
        self.place, self.wide, self.high = (-left, 32 - top), right - left, 32 + low - top

    def part(self, x: float, y: float) -> str:
        """The panel with its scale, at this place."""
        dx, dy = (svg_text.short(it) for it in self.place)
        drawn = svg_text.group(self.diagram.parts(self.titles), transform=f"translate({dx},{dy})")
        signs = svg_text.group(scale(self.most, COUNTS[self.count], self.wide), transform="translate(0,0)")
        return svg_text.group([signs, drawn], transform=f"translate({svg_text.short(x)},{svg_text.short(y)})")


def picture(net: Network, made: Row, on: Optional[Paper], only: Optional[str] = None) -> str:
    """The network twice, or once with one of the counts: in the colours of its loads, and in those of its waits; side by side where
    there is room."""
    if len(net.kinds) > MOST_DRAWN:
        raise Refusal(f"a picture has at most {MOST_DRAWN} channels, and the network has {len(net.kinds)}")
    plan = plan_of(net)
    if not plan.names:
        raise Refusal("there is nothing to draw: no packets go from one channel to another")
    room, counts = on.room(LETTERS) if on else math.inf, [it for it in COUNTS if only in (None, it)]
    panels = [Panel(net, plan, made, it, room - 2 * MARGIN) for it in counts]
    is_tall = len(panels) > 1 and sum(it.high for it in panels) > TALL and room > WIDE
    if is_tall:
        panels = [Panel(net, plan, made, it, min(room, PAGE) / 2 - 2 * MARGIN) for it in counts]
    said = f"{made['delivered']} of {made['packets']} packets delivered, {made['end']}"
    is_beside = is_tall or sum(it.wide for it in panels) + 4 * MARGIN <= (room if on else 2 * COLUMN)
    places: List[Tuple[float, float]] = [(MARGIN, 22.0), (panels[0].wide + 3 * MARGIN, 22.0) if is_beside else (MARGIN, panels[0].high + 22 + 3 * MARGIN)]
    parts = [svg_text.text(MARGIN, 13, said, LETTERS, font_weight="bold"), *(it.part(*at) for it, at in zip(panels, places))]
    size = max(x + it.wide for it, (x, _) in zip(panels, places)) + MARGIN, max(y + it.high for it, (_, y) in zip(panels, places)) + MARGIN
    size = max(size[0], 1.1 * 0.6 * LETTERS * len(said) + 2 * MARGIN), size[1]
    return on.svg("load", *size, parts, letters=LETTERS) if on else svg_text.svg(*size, parts, unit="pt")
