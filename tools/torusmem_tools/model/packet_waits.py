"""Which packets wait for which, where a simulation of packets is locked: sentences behind its report."""
from __future__ import annotations

from typing import Dict, List, NamedTuple, Optional, Set

from torusmem_tools.model.deadlock import label_of
from torusmem_tools.model.network import Network
from torusmem_tools.model.packet_rounds import Simulation, read_traffic
from torusmem_tools.model.router_rules import Rules


class Wait(NamedTuple):
    """What a packet's head waits for: channels, and the packets that stand there or own them."""

    channels: List[int]
    packets: List[int]


class Standing:
    """The packets whose flits stand in a network: what each holds, and what it waits for."""

    def __init__(self, run: Simulation) -> None:
        self.run, self.holds = run, {}  # type: Simulation, Dict[int, List[int]]
        for x, at in enumerate(run.machine.channels):
            for flit in (*at.flits, *([at.latch] if at.latch else [])):
                if x not in self.holds.setdefault(flit.packet, []):
                    self.holds[flit.packet].append(x)
        self.waits = {packet: it for packet in sorted(self.holds) if (it := self.wait(packet))}

    def wait(self, packet: int) -> Optional[Wait]:
        """What a packet waits for: behind others in a channel these, at its receiver channels for answers, else what its head asks for."""
        for x in self.holds[packet]:
            at = self.run.machine.channels[x]
            if at.latch is not None and at.latch.packet == packet:
                ahead = self.run.machine.outputs(x)
                if at.latch.head or not self.follows(packet, ahead):
                    return Wait(ahead, self.at(ahead, packet))
            elif at.flits and any(it.packet == packet and it.head for it in at.flits):
                front = at.flits[0].packet
                if self.run.net.kinds[x] == "eject" and front == packet:
                    ahead = [y for y in self.run.machine.answers.get(x, []) if not self.run.machine.channels[y].held]
                    return Wait(ahead, self.at(ahead, packet))
                blocker = front if front != packet or at.latch is None else at.latch.packet
                return Wait([x], [] if blocker == packet else [blocker])
        return None

    def follows(self, packet: int, ahead: List[int]) -> bool:
        """Whether flits of a packet stand in what is ahead of others of it, so that these wait for them."""
        return any(x in self.holds[packet] for x in ahead)

    def at(self, channels: List[int], but: int) -> List[int]:
        """The packets that stand in some channels, or own them, but one."""
        found: Set[int] = set()
        for y in channels:
            at = self.run.machine.channels[y]
            found |= {it.packet for it in (*at.flits, *([at.latch] if at.latch else []))}
            if at.owner is not None:
                found |= {it for it, held in self.holds.items() if at.owner in held and y in held}
        return sorted(found - {but})

    def around(self) -> List[int]:
        """Packets of which each waits for the next, and the last for the first; or none."""
        path: List[int] = []
        packet = next(iter(self.waits), -1)
        while packet in self.waits and packet not in path:
            path.append(packet)
            packet = next((it for it in self.waits[packet].packets if it in self.waits), -1)
        return path[path.index(packet):] if packet in path else []


def named(run: Simulation, channels: List[int]) -> str:
    """Channels as a sentence names them."""
    return ", ".join(f"{x}{label_of(run.net, x)}" for x in channels)


def waits_said(run: Simulation) -> List[str]:
    """The sentences: a round of packets that wait for one another, then each packet, then how many aren't begun."""
    standing = Standing(run)
    around, said = standing.around(), []
    if around:
        said.append(f"# packets {' '.join(map(str, around))} wait each for the next, and the last for the first")
    for packet in [*around, *(it for it in standing.waits if it not in around)]:
        it, course = standing.waits[packet], run.courses[packet].packet
        others = f", where packet{'s' * (len(it.packets) > 1)} {' '.join(map(str, it.packets))} stand{'s' * (len(it.packets) == 1)}" if it.packets else ""
        said.append(f"# packet {packet}, from {course.start} to {course.end}, holds {named(run, standing.holds[packet])}; "
                    f"it waits for {named(run, it.channels)}{others}")
    left = sum(it.begun is None for it in run.courses)
    return [*said, *[f"# {left} packet{'s aren' if left > 1 else ' isn'}'t begun"] * (left > 0)]


def simulated(net: Network, depth: int, text: str, path: str, rules: Rules, is_explained: bool) -> List[str]:
    """The report on the packets of a traffic text, by these rules; where it ends locked and is to be explained, with what waits for what."""
    run = Simulation(net, depth, read_traffic(net, text, path), rules)
    lines = run.report()
    return [*lines, *(waits_said(run) if is_explained and lines[-1].startswith("locked") else [])]
