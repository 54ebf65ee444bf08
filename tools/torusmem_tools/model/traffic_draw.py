"""Draws packets for a written network: each sender asks for one with a given probability a round, by a pattern of traffic.

Senders and receivers of which some packets go to one receiver belong together, as those of one message class do. In such a
group the n-th sender stands where the n-th receiver stands, by the numbers of their channels; their digits are given.
"""
from __future__ import annotations

import itertools
from argparse import ArgumentParser, Namespace
from dataclasses import dataclass
from functools import partial
from typing import Callable, Dict, List, Optional, Sequence, Tuple

from torusmem_tools import command
from torusmem_tools.model import campaign_cases, traffic_patterns
from torusmem_tools.model.message_classes import groups_of
from torusmem_tools.model.network import Network
from torusmem_tools.model.network_words import sizes, text_of
from torusmem_tools.model.packet_rounds import MOST, Packet
from torusmem_tools.texts import report, traffic_table

# The patterns that the command line names, and those that options give.
PATTERNS = traffic_patterns.PATTERNS
GIVEN = ("permutation", "matrix")
# Probabilities are drawn as parts of a million.
MILLION = 1000000
# No traffic text of `tools/network traffic` has more rounds or packets, and no burst more rounds.
MOST_DRAWN = 1000000
# A number, and its share in parts of a million.
Share = Tuple[int, int]


@dataclass(frozen=True)
class Demand:
    """What senders ask for: a pattern; the digits of their places; the lengths of packets with their shares; the mean rounds of a
    burst, or 1 where there are none; of `hot-spot` the places with their shares; of `permutation` the receiver of each sender, or
    -1; of `matrix` its file."""

    pattern: str
    digits: Tuple[int, ...] = ()
    lengths: Tuple[Share, ...] = ((4, MILLION),)
    burst: int = 1
    hot: Tuple[Share, ...] = ()
    to: Tuple[int, ...] = ()
    matrix: str = ""


class Traffic:
    """Where the packets of each sender go by a pattern, and how long they are."""

    def __init__(self, net: Network, demand: Demand, is_of_requests: bool = False) -> None:
        self.demand, self.net = demand, net
        self.joined = set(net.joins)
        silent = {y for _, y in net.replies} if is_of_requests else set()
        self.ends: Dict[int, List[int]] = {}
        for i, j in sorted(self.joined):
            if i not in silent:
                self.ends.setdefault(i, []).append(j)
        self.groups = groups_of(net)
        self.places = {x: (k, ends) for starts, ends in self.groups for k, x in enumerate(starts)}
        self.weights = traffic_table.matrix(text_of(demand.matrix), demand.matrix) if demand.matrix else []
        # The senders that are in a burst.
        self.bursting: Dict[int, bool] = {}
        for starts, ends in self.groups:
            self.check(starts, ends)

    def check(self, starts: List[int], ends: List[int]) -> None:
        """Refuses senders and receivers that the pattern or the digits don't fit."""
        demand = self.demand
        if demand.pattern == "matrix":
            traffic_table.fit(self.weights, demand.matrix, len(starts), len(ends))
        elif demand.pattern == "permutation":
            if len(demand.to) != len(starts):
                raise command.Refusal(f"{len(starts)} senders belong together, and --to has {len(demand.to)} places")
            self.below("--to", max(demand.to), len(ends))
        elif demand.pattern == "hot-spot":
            self.below("--hot", max([0, *(place for place, _ in demand.hot)]), len(ends))
        elif demand.pattern != "uniform":
            self.check_places(len(starts), len(ends))

    def below(self, option: str, place: int, count: int) -> None:
        """Refuses a place of an option that no receiver has."""
        if place >= count:
            raise command.Refusal(f"{option}: there is no receiver {place}: {count} belong together, 0 to {count - 1}")

    def check_places(self, starts: int, ends: int) -> None:
        """Refuses so many senders and receivers where each sender is to have one receiver, by its place."""
        pattern, digits = self.demand.pattern, list(self.demand.digits)
        if starts != ends:
            raise command.Refusal(f"{starts} senders have {ends} receivers, and {pattern} needs as many")
        if pattern in traffic_patterns.BY_BITS:
            traffic_patterns.bits_of(starts, pattern)
        elif not digits:
            raise command.WrongWords(f"{pattern} needs the digits of the senders: --digits, as 4x4 (--help says more)")
        elif report.product(digits) != starts:
            raise command.Refusal(f"{starts} senders belong together, and --digits has {report.product(digits)} places")

    def end(self, numbers: campaign_cases.Numbers, x: int) -> Optional[int]:
        """The receiver of the next packet of a sender; none where the network has no such pair."""
        (place, ends), demand = self.places[x], self.demand
        if demand.pattern == "hot-spot" and not demand.hot and numbers.below(4) == 0:
            return ends[0] if (x, ends[0]) in self.joined else None
        if demand.pattern in ("uniform", "hot-spot"):
            hot = chosen(numbers, demand.hot) if demand.hot else None
            return self.ends[x][numbers.below(len(self.ends[x]))] if hot is None else self.pair(x, ends[hot])
        if demand.pattern == "matrix":
            row = self.weights[place]
            at = numbers.below(sum(row)) if sum(row) else 0
            return self.pair(x, ends[next(k for k, gone in enumerate(itertools.accumulate(row)) if at < gone)]) if sum(row) else None
        goal = self.goal(place, len(ends))
        return None if goal < 0 else self.pair(x, ends[goal])

    def goal(self, place: int, count: int) -> int:
        """The only place to which the packets of a place go, or -1."""
        demand = self.demand
        return demand.to[place] if demand.pattern == "permutation" else traffic_patterns.target(demand.pattern, place, demand.digits, count)

    def pair(self, x: int, j: int) -> Optional[int]:
        """The receiver, where the network has this pair."""
        return j if (x, j) in self.joined else None

    def share(self, x: int) -> float:
        """How often a sender asks, beside those that ask most."""
        if self.demand.pattern != "matrix":
            return 1.0
        return sum(self.weights[self.places[x][0]]) / max(sum(row) for row in self.weights)

    def pairs(self) -> List[Tuple[float, int, int]]:
        """The pairs that packets go between, each with its share of the packets."""
        return [(share, x, j) for x in sorted(self.ends) for share, j in self.shares(x) if share and (x, j) in self.joined]

    def shares(self, x: int) -> List[Tuple[float, int]]:
        """The receivers of a sender, each with its share of what the sender asks for."""
        (place, group), demand = self.places[x], self.demand
        if demand.pattern in ("uniform", "hot-spot"):
            hot = [(part / MILLION, group[at]) for at, part in demand.hot] or [(0.25, group[0])]
            hot = hot if demand.pattern == "hot-spot" else []
            rest = 1 - sum(it for it, _ in hot)
            return [*((rest / len(self.ends[x]), j) for j in self.ends[x]), *hot]
        if demand.pattern == "matrix":
            most = max(sum(row) for row in self.weights)
            return [(weight / most, group[at]) for at, weight in enumerate(self.weights[place])]
        goal = self.goal(place, len(group))
        return [] if goal < 0 else [(1.0, group[goal])]

    def asks(self, numbers: campaign_cases.Numbers, x: int, rate: float) -> bool:
        """Whether a sender asks for a packet in the next round: with the probability of the rate; or, in bursts, in each round of a
        burst, which ends with one over its mean length, and begins so often that the rate comes out (an on-off process: Dally and
        Towles, chapter 24)."""
        rate, burst = rate * self.share(x), self.demand.burst
        if burst == 1 or rate == 1:
            return numbers.below(MILLION) < round(rate * MILLION)
        if x not in self.bursting:
            chance = rate
        else:
            chance = 1 - 1 / burst if self.bursting[x] else min(1.0, rate / (1 - rate) / burst)
        self.bursting[x] = numbers.below(MILLION) < round(chance * MILLION)
        return self.bursting[x]

    def size(self, numbers: campaign_cases.Numbers) -> int:
        """The length of the next packet."""
        lengths = self.demand.lengths
        found = lengths[0][0] if len(lengths) == 1 else chosen(numbers, lengths)
        return lengths[-1][0] if found is None else found


def chosen(numbers: campaign_cases.Numbers, shares: Sequence[Share]) -> Optional[int]:
    """A number that is drawn by the shares; none for the rest of them."""
    drawn = numbers.below(MILLION)
    return next((it for (it, _), gone in zip(shares, itertools.accumulate(part for _, part in shares)) if drawn < gone), None)


def draw_packets(traffic: Traffic, numbers: campaign_cases.Numbers, rate: float, number: int) -> List[Packet]:
    """The packets that are asked for in a round, by the channels of their senders."""
    found = []
    for x in sorted(traffic.ends):
        if traffic.asks(numbers, x, rate):
            j = traffic.end(numbers, x)
            if j is not None:
                found.append(Packet(number, x, j, traffic.size(numbers)))
    return found


def line(packet: Packet) -> str:
    """The line of a packet in a traffic text."""
    return f"at {packet.round} send {packet.start} {packet.end} {packet.size}"


def fraction(word: str) -> float:
    """The reader of a probability: a decimal fraction above 0, at most 1."""
    if not word.replace(".", "", 1).isdigit() or not word.isascii() or not 0 < float(word) <= 1:
        raise command.bad_word(f"{word!r} is no decimal fraction above 0 and at most 1")
    return float(word)


def shares_of(least: int, most: int, whole: bool, example: str) -> Callable[[str], Tuple[Share, ...]]:
    """The reader of numbers from `least` to `most`, each with its share behind a colon; of a number alone the share is the rest. Where
    they are to be `whole`, the shares come to 1, else to at most 1."""
    def read(word: str) -> Tuple[Share, ...]:
        parts = [it.partition(":") for it in word.split(",")]
        given = [round(fraction(part) * MILLION) for _, sign, part in parts if sign]
        rest, bare = MILLION - sum(given), len(parts) - len(given)
        if bare > 1 or bare and rest <= 0 or rest < 0 or whole and not bare and rest:
            raise command.bad_word(f"{word!r} is no list of numbers with shares that come to {'' if whole else 'at most '}1, as {example}")
        numbers = map(command.whole(least, most), (it for it, _, _ in parts))
        return tuple((it, round(fraction(part) * MILLION) if sign else rest) for it, (_, sign, part) in zip(numbers, parts))

    return read


def permutation_of(word: str) -> Tuple[int, ...]:
    """The reader of the receivers of all senders, `-` where one sends nothing."""
    found = tuple(-1 if it == "-" else command.whole(0, MOST)(it) for it in word.split(","))
    if max(found) < 0:
        raise command.bad_word(f"{word!r} names no receiver: a list has one for each sender, as 1,0,-,2")
    return found


def add_demand_words(words: ArgumentParser, of: str, most: int) -> None:
    """The words of the command line for what senders ask for."""
    add = words.add_argument
    length = "how many flits a packet has, or lengths with their shares, as 1:0.8,5:0.2; 4 if not given"
    add("--length", metavar="L", type=shares_of(1, most, True, "1:0.8,5:0.2"), help=f"{of}{length}")
    add("--digits", metavar="RADIX[xRADIX..]", type=partial(sizes, most=3), help=f"{of}the digits of the senders, as 4x4, for the patterns by digits")
    add("--burst", metavar="B", type=command.whole(2, MOST_DRAWN), help=f"{of}packets come in bursts of B rounds, on average, in each of which a sender asks")
    hot = "the places of receivers, each with its share of the packets, as 5:0.2,9:0.1; 0:0.25 if not given"
    add("--hot", metavar="P[:S][,..]", type=shares_of(0, MOST, False, "5:0.2,9:0.1"), help=f"{of}of hot-spot {hot}")
    add("--to", metavar="P[,P..]", type=permutation_of, help=f"{of}the receiver of each sender, by their places, as 1,0,-,2; - where one sends nothing")
    add("--matrix", metavar="FILE", help=f"{of}CSV with a row for each sender: how often its packets go to each receiver; the greatest row has the rate")


def demand_of(given: Namespace, pattern: Optional[str]) -> Demand:
    """What the command line asks senders to ask for, by this pattern, where it names one."""
    ways = [name for name, it in (("pattern", pattern), ("to", given.to), ("matrix", given.matrix)) if it]
    if len(ways) > 1:
        named = {"pattern": f"the pattern {pattern}"}
        raise command.WrongWords(f"{named.get(ways[0], f'--{ways[0]}')} and --{ways[1]} exclude one another (--help says more)")
    pattern = pattern or ("permutation" if given.to else "matrix" if given.matrix else "uniform")
    if given.hot and pattern != "hot-spot":
        raise command.WrongWords("--hot is of use with hot-spot alone (--help says more)")
    more = {"lengths": given.length} if given.length else {}
    return Demand(pattern, tuple(given.digits or ()), burst=given.burst or 1, hot=given.hot or (), to=given.to or (), matrix=given.matrix or "", **more)


def add_words(words: ArgumentParser) -> None:
    """The words of the command line for drawn packets."""
    add = words.add_argument
    add("--packets", metavar="N", type=command.whole(1, MOST_DRAWN), help="of traffic: how many packets; 100 if not given")
    add("--rate", metavar="R", type=fraction, help="of traffic: with which probability a sender asks for one in a round; 0.05 if not given")
    add("--pattern", choices=PATTERNS, metavar="P", help=f"of traffic: {', '.join(PATTERNS)}; uniform if not given")
    add_demand_words(words, "of traffic: ", MOST)
    add("--seed", metavar="S", type=command.whole(0, 2**64 - 1), help="of traffic: the seed; 1 if not given")
    add("--requests", action="store_true", help="of traffic: nothing from channels on which receivers answer, for simulate --replies")
    table = "of traffic: the packets of a table, CSV with the columns round,source,destination and maybe length,class"
    add("--from-csv", metavar="FILE", help=table)


# What is of no use where a table has the packets.
DRAWN = ("packets", "rate", "pattern", "digits", "burst", "hot", "to", "matrix", "seed", "requests")


def traffic_text(net: Network, given: Namespace) -> str:
    """The traffic text that the command line asks for: the packets of a table, or rounds are drawn until there are so many."""
    if given.from_csv:
        for option in DRAWN:
            if getattr(given, option) not in (None, False):
                raise command.WrongWords(f"--{option} is of no use with --from-csv (--help says more)")
        if given.length and len(given.length) > 1:
            raise command.WrongWords("--length is one number with --from-csv, that of rows without a length (--help says more)")
        rows = traffic_table.packets(net, groups_of(net), text_of(given.from_csv), given.from_csv, given.length[0][0] if given.length else 4)
        return "".join(f"{line(it)}\n" for it in rows)
    traffic = Traffic(net, demand_of(given, given.pattern), bool(given.requests))
    if not traffic.pairs():
        raise command.Refusal("the network has no pair that packets of this pattern go between")
    numbers, rate, most = campaign_cases.Numbers(1 if given.seed is None else given.seed), given.rate or 0.05, given.packets or 100
    found: List[Packet] = []
    for number in range(1, MOST_DRAWN + 1):
        found += draw_packets(traffic, numbers, rate, number)
        if len(found) >= most:
            return "".join(f"{line(it)}\n" for it in found[:most])
    raise command.Refusal(f"{len(found)} packets are asked for in {MOST_DRAWN} rounds: take a higher rate, or fewer packets")
