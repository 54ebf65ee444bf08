"""Which packets answer which: an exchange is a packet, its answers, the answers to these, and so on. A receiver answers on each channel
that a line `reply` names, to the place of the sender, from the next round on."""
from __future__ import annotations

from collections import Counter
from typing import Dict, List, NamedTuple

from torusmem_tools.command import Refusal
from torusmem_tools.model.message_classes import groups_of
from torusmem_tools.model.network import Network
from torusmem_tools.model.router_rules import Rules


class Answer(NamedTuple):
    """The channels of a packet that is to be sent, and its length."""

    start: int
    end: int
    size: int


class Answers:
    """What receivers answer, by the lines `reply` of a network."""

    def __init__(self, net: Network, rules: Rules) -> None:
        groups = groups_of(net)
        self.joined, self.lengths = set(net.joins), rules.replies
        self.places = {x: (number, k) for number, (starts, _) in enumerate(groups) for k, x in enumerate(starts)}
        self.ends = [ends for _, ends in groups]
        self.after: Dict[int, List[int]] = {}
        for x, y in net.replies if rules.replies else ():
            self.after.setdefault(x, []).append(y)
        self.classes = sorted({self.places[y][0] for ys in self.after.values() for y in ys if y in self.places})
        if rules.replies and not self.after:
            raise Refusal("--replies: the network has no line `reply`, so that no receiver answers")
        if len(rules.replies) > 1 and len(rules.replies) != len(self.classes):
            raise Refusal(f"--replies has {len(rules.replies)} lengths, and the network has {len(self.classes)} classes of answers")

    def to(self, start: int, end: int) -> List[Answer]:
        """The answers to a packet between these channels."""
        return [self.made(y, start, end) for y in self.after.get(end, ())]

    def made(self, y: int, start: int, end: int) -> Answer:
        """The answer on channel y."""
        group, place = self.places.get(y, (0, 0))[0], self.places[start][1]
        ends = self.ends[group]
        if y not in self.places or place >= len(ends) or (y, ends[place]) not in self.joined:
            raise Refusal(f"--replies: a packet from channel {start} to {end} is answered on channel {y}, from which no packets go to the sender's place")
        return Answer(y, ends[place], self.lengths[self.classes.index(group) if len(self.lengths) > 1 else 0])

    def senders(self) -> List[int]:
        """The channels on which answers go out."""
        return sorted({y for ys in self.after.values() for y in ys})


class Exchanges:
    """The exchanges that are under way. A packet has a number, and so has the one that its exchange begins with."""

    def __init__(self, count: int) -> None:
        self.first = list(range(count))
        # How many packets of an exchange aren't delivered, and how many exchanges of a sender aren't over.
        self.left: Dict[int, int] = {}
        self.busy: Counter[int] = Counter()

    def begin(self, packet: int, start: int) -> None:
        """A sender begins a packet."""
        if self.first[packet] == packet:
            self.left[packet] = 1
            self.busy[start] += 1

    def answer(self, packet: int) -> int:
        """An answer to a packet is made: its number."""
        self.first.append(self.first[packet])
        self.left[self.first[packet]] += 1
        return len(self.first) - 1

    def is_over(self, packet: int) -> bool:
        """Whether the exchange that begins with a packet was begun and is over."""
        return self.left.get(packet) == 0

    def deliver(self, packet: int, start: int) -> None:
        """A packet is delivered, and its answers are made; this is the sender of the packet that its exchange begins with."""
        first = self.first[packet]
        self.left[first] -= 1
        self.busy[start] -= not self.left[first]
