"""Runs in which each sender of a written network asks for a packet with a given probability a round, and what they come to.

What is asked for waits at its sender without a limit, as in model/offered_load.py. `torusmem simulate` makes the run, or, where the
program has no such command or doesn't know the network or the rules, the model of model/packet_rounds.py, which prints such a report.
Where receivers answer, what is asked for is a packet with all that answers it.
"""
from __future__ import annotations

import functools
import itertools
import os
from collections import Counter
from dataclasses import dataclass
from typing import Any, List, Optional

from torusmem_tools import command
from torusmem_tools.model import campaign_cases, cycles, traffic_draw, trial
from torusmem_tools.model.adaptive_walk import stuck
from torusmem_tools.model.exchanges import Answers
from torusmem_tools.model.hop_counts import Ways
from torusmem_tools.model.network import Network, channel_dependencies, parse_network
from torusmem_tools.model.network_words import text_of
from torusmem_tools.model.offered_load import Found
from torusmem_tools.model.packet_rounds import Packet, Simulation
from torusmem_tools.model.percentiles import percentile
from torusmem_tools.model.router_rules import Rules
from torusmem_tools.texts import traffic_report


@dataclass(frozen=True)
class Point:
    """What is asked of one run. Its times are cycles of so many rounds."""

    network: str
    demand: traffic_draw.Demand
    load: float
    depth: int
    warm_up: int
    window: int
    drain: int
    cycle: int
    rules: Rules
    seed: int

    @property
    def traffic(self) -> str:
        """The pattern of what is asked for."""
        return self.demand.pattern

    def shape(self) -> str:
        """What the network is called: its file, without folder and suffix."""
        return os.path.splitext(os.path.basename(self.network))[0]

    def cycles(self) -> int:
        """How many cycles count at most."""
        return self.warm_up + self.window + self.drain

    def is_measured(self, number: int) -> bool:
        """Whether a cycle is one of the window."""
        return self.warm_up < number <= self.warm_up + self.window


@functools.lru_cache(maxsize=None)
def network_of(path: str) -> Network:
    """The network of a text; refused where no packets can be sent through it."""
    net = parse_network(text_of(path), path)
    wrong = stuck(net) if net.is_adaptive() else channel_dependencies(net)[0]
    if wrong is not None and wrong.startswith("no "):
        raise command.Refusal(f"{path}: {wrong}")
    return net


def traffic_of(point: Point) -> traffic_draw.Traffic:
    """Where packets go; refused where there are none."""
    made = traffic_draw.Traffic(network_of(point.network), point.demand, bool(point.rules.replies))
    if not made.pairs():
        raise command.Refusal(f"{point.network} has no pair that packets of {point.traffic} go between")
    return made


can_simulate = functools.lru_cache(maxsize=None)(lambda program: trial.has_command(program, "simulate"))


def is_by_program(point: Point) -> bool:
    """Whether the program makes the runs."""
    return point.rules.are_plain(network_of(point.network)) and can_simulate(command.program_path())


def report_lines(point: Point, asked: List[Packet]) -> List[str]:
    """The report on packets, by the program where it can make one."""
    if not is_by_program(point):
        return stopped(point, asked)
    with command.temporary_file("".join(f"{traffic_draw.line(it)}\n" for it in asked).encode("ascii")) as traffic:
        words = ["simulate", point.network, traffic, "--depth", str(point.depth), "--arbiter", point.rules.arbiter]
        return command.torusmem(*words, fine=(0, 1, 3)).splitlines()


def stopped(point: Point, asked: List[Packet]) -> List[str]:
    """The report by the model, which stops once all that is measured is delivered, or behind the last round that counts."""
    run = Simulation(network_of(point.network), point.depth, asked, point.rules)
    due = [number for number, it in enumerate(asked) if point.is_measured(cycles.cycle_of(it.round, point.cycle))]
    for number in range(1, point.cycles() * point.cycle + 1):
        run.round(number)
        if number > (point.warm_up + point.window) * point.cycle and all(run.exchanges.is_over(it) for it in due):
            break
    return run.lines(f"not over after round {number}")


def measured(point: Point) -> Found:
    """Makes a run, and measures it."""
    traffic, numbers = traffic_of(point), campaign_cases.Numbers(point.seed)
    rounds = (cycles.first_round(it, point.cycle) for it in range(1, point.cycles() + 1))
    asked = [it for number in rounds for it in traffic_draw.draw_packets(traffic, numbers, point.load, number)]
    found = traffic_report.parse_traffic_report(network_of(point.network), report_lines(point, asked), "the report")
    return found_of(point, found, sorted(traffic.ends))


def found_of(point: Point, report: traffic_report.Delivered, senders: List[int]) -> Found:
    """What the packets of the window come to, each with its answers; one that is delivered behind the last cycle that counts is not."""
    sent = [(it, end) for it, end in zip(report.sent, report.whole()) if it.answers < 0]
    ends = [cycles.cycle_if(end, point.cycle) for _, end in sent]
    last = [it if it is not None and it <= point.cycles() else None for it in ends]
    begins = [cycles.cycle_of(it.packet.round, point.cycle) for it, _ in sent]
    due = [(begin, end) for begin, end in zip(begins, last) if point.is_measured(begin)]
    times = sorted(end - begin + 1 for begin, end in due if end is not None)
    if not times:
        raise command.Refusal("no packet is measured: --window is too short for this load")
    arrived = Counter(it.packet.start for (it, _), end in zip(sent, last) if end is not None and point.is_measured(end))
    of_one = [arrived[it] for it in senders]
    accepted, shares = sum(of_one) / (point.window * len(senders)), (min(of_one) / point.window, max(of_one) / point.window)
    measures = sum(times) / len(times), percentile(times, 95), len(times), len(times) == len(due)
    return Found(accepted, *measures, *shares, times[-1], senders[of_one.index(min(of_one))])


@functools.lru_cache(maxsize=None)
def alone(channels: int, size: int, depth: int, rules: Rules) -> int:
    """The rounds that a packet takes which is alone in a network, over so many channels: two for each and for each further flit, or three
    for such a flit where a channel holds one, and more where routers or links take their time."""
    net = Network()
    for kind in ("inject", *["hop"] * (channels - 2), "eject"):
        net.channel(kind, 0, 0)
    net.route(list(range(channels)))
    run = Simulation(net, depth, [Packet(1, 0, channels - 1, size)], Rules(router_delay=rules.router_delay, link_delay=rules.link_delay))
    run.run()
    return run.courses[0].delivered or 0


def zero_load(point: Point) -> Optional[float]:
    """The mean latency of a packet with nothing else under way, by the shortest way, and of its answers one behind the other; in cycles."""
    pairs, net = traffic_of(point).pairs(), network_of(point.network)
    ways, answers, times = Ways(net), Answers(net, point.rules), 0.0

    def rounds(i: int, j: int, size: int) -> int:
        own = alone(ways.channels(i, j), size, point.depth, point.rules)
        return own + max((rounds(*it) for it in answers.to(i, j)), default=0)

    for (share, i, j), (size, part) in itertools.product(pairs, point.demand.lengths):
        times += share * part / traffic_draw.MILLION * cycles.cycle_of(rounds(i, j, size), point.cycle)
    return times / sum(share for share, _, _ in pairs)


def result(point: Point) -> Any:
    """In a process of its own: what a run came to, or why it didn't."""
    try:
        return measured(point)
    except (command.Refusal, command.WrongWords, OSError, MemoryError) as why:
        return str(why) or "there is no memory left"
