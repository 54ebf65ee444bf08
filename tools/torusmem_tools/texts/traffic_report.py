"""The report on packets that were sent through a written network (docs/FORMATS.md, Traffic text), read again."""
from __future__ import annotations

import re
from dataclasses import dataclass
from typing import List, Optional, Tuple

from torusmem_tools import command
from torusmem_tools.command import Refusal
from torusmem_tools.model.network import Network
from torusmem_tools.model.packet_rounds import Packet

PACKET = re.compile(r"packet ([0-9]+) ([0-9]+) ([0-9]+) ([0-9]+) begun ([0-9]+|-) delivered ([0-9]+|-) latency ([0-9]+|-)(?: answers ([0-9]+))?")
CHANNEL = re.compile(r"channel ([0-9]+) flits ([0-9]+) waited ([0-9]+)")
END = re.compile(r"(empty|locked|going|not over) after round ([0-9]+)")


@dataclass
class Sent:
    """A packet, the rounds in which it is begun and delivered, and the number of the packet that it answers, or -1."""

    packet: Packet
    begun: Optional[int]
    delivered: Optional[int]
    answers: int = -1

    def latency(self) -> Optional[int]:
        """The rounds from that from which on it may be begun to its delivery, both counted."""
        return None if self.delivered is None else self.delivered - self.packet.round + 1


@dataclass
class Delivered:
    """A report: the packets; of each channel the flits that leave it and the rounds in which one waits behind it; the end."""

    sent: List[Sent]
    channels: List[Tuple[int, int]]
    end: str

    def rounds(self) -> int:
        """The number in its last line."""
        return int(self.end.split()[-1])

    def whole(self) -> List[Optional[int]]:
        """For each packet the round in which it, its answers, the answers to these and so on are all delivered, or none."""
        found = [it.delivered for it in self.sent]
        for number in reversed(range(len(found))):
            above = self.sent[number].answers
            if above >= 0:
                last, own = found[above], found[number]
                found[above] = None if last is None or own is None else max(last, own)
        return found


def round_of(word: str) -> Optional[int]:
    """The round that a word spells, or none."""
    return None if word == "-" else int(word)


def parse_traffic_report(net: Network, lines: List[str], path: str) -> Delivered:
    """The report that some lines spell, of this network."""
    found = Delivered([], [], "")
    joined = set(net.joins)
    for number, line in enumerate(lines, 1):
        where = f"{path}, line {number}"
        if line.startswith("#"):
            continue
        if found.end:
            raise Refusal(f"{where}: the report is over")
        if it := PACKET.fullmatch(line):
            sent = Sent(Packet(*map(int, it.groups()[:4])), round_of(it[5]), round_of(it[6]), int(it[8] or -1))
            if (sent.packet.start, sent.packet.end) not in joined:
                raise Refusal(f"{where}: no packets go from channel {sent.packet.start} to channel {sent.packet.end}")
            if sent.latency() != round_of(it[7]) or found.channels or sent.answers >= len(found.sent):
                raise Refusal(f"{where}: no report has such a line there")
            found.sent.append(sent)
        elif it := CHANNEL.fullmatch(line):
            if int(it[1]) != len(found.channels):
                raise Refusal(f"{where}: the line of channel {len(found.channels)} is missing")
            found.channels.append((int(it[2]), int(it[3])))
        elif END.fullmatch(line) and len(found.channels) == len(net.kinds):
            found.end = line
        else:
            raise Refusal(f"{where}: no report of this network has such a line there")
    if not found.end:
        raise Refusal(f"{path}: the report has no last line")
    return found


def read_traffic_report(net: Network, path: str) -> Delivered:
    """The report in a file."""
    text = command.contents(path).decode("utf-8", "replace")
    return parse_traffic_report(net, text.split("\n")[: -1 if text.endswith("\n") else None], path)
