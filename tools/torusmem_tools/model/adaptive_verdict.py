"""The verdict on a network whose routers choose, for pictures and sentences: by the plain walk, or as `torusmem network`
printed it."""
from __future__ import annotations

from typing import List, Optional, Tuple

from torusmem_tools.command import Refusal
from torusmem_tools.model.adaptive_walk import Edge, AdaptiveVerdict, Walk, duato_verdict
from torusmem_tools.model.dead_fillings import DeadSets, fills_read
from torusmem_tools.model.dead_sets import LOCKS, NEVER, Fill, dead_lines, fault_of_dead_lines, fill_lines
from torusmem_tools.model.deadlock import label_of
from torusmem_tools.model.network import Network, number_of
from torusmem_tools.model.network_totals import totals_line


def turns_of(lines: List[List[str]], net: Network) -> Optional[List[Tuple[int, Edge, int]]]:
    """The dependencies between the channels of a cycle, each on a line `X to J`, `X to J over A B` or `X replies Y`; none where
    one doesn't lead to the next, as the walk sees it."""
    walk, turns = Walk(net), []
    for words, behind in zip(lines, lines[1:] + lines[:1]):
        x, y = number_of(words[0]), number_of(behind[0])
        ends, over = [number_of(it) for it in words[2:3]], tuple(number_of(it) for it in words[4:])
        if words[1:2] == ["replies"] and len(words) == 3 and ends == [y] and (x, y) in net.replies:
            turns.append((x, Edge(None), y))
        elif words[1:2] == ["to"] and ends and words[3:4] == ["over"][:len(over)] and walk.leads(x, ends[0], over, y):
            turns.append((x, Edge(ends[0], over), y))
        else:
            return None
    return turns


def walked_verdict(net: Network) -> AdaptiveVerdict:
    """The verdict of the plain walk, with channels of a dead set that fill up."""
    found = duato_verdict(net)
    return found._replace(fills=DeadSets(net).filling()) if found.dead else found


def fills_in(net: Network, lines: List[str], path: str) -> List[Fill]:
    """The channels that fill up, by the lines behind the greatest dead set. Refused where these don't in this network."""
    fills = fills_read(lines) if lines else []
    if fills is None or (lines and not DeadSets(net).is_dead(fills)):
        raise Refusal(f"{path}: behind the dead set stand no channels that fill up until nothing can go")
    return fills


def found_in(net: Network, text: str, path: str) -> AdaptiveVerdict:
    """The verdict that a text of `torusmem network` has. Refused where it is no verdict of this network, as far as the
    plain walk can see."""
    walked, lines = duato_verdict(net), text.splitlines()
    kind = walked.kind
    if kind in ("rising", "cycle") and lines[-1:] == [totals_line(net)]:
        lines.pop()
    said = [it for it in lines if it in ("rising", "cycle", "no pair") or it.startswith(("no route ", "no choice ", "no escape "))]
    if said != [kind]:
        raise Refusal(f"{path}: the network's verdict is `{kind}`, and not `{' '.join(said)}`")
    last = (walked.may() or [kind])[0]
    behind = lines[lines.index(last) + 1:] if last in lines else []
    if kind == "cycle" and walked.is_free():
        behind = behind[len([it for it in behind if not it.startswith(("number ", NEVER))]):]
    begun = next((k for k, it in enumerate(behind) if it.startswith("fill ") or it == LOCKS), len(behind))
    wrong = fault_of_dead_lines(net, walked.dead, behind[:begun]) if behind else ""
    if wrong:
        raise Refusal(f"{path}: {wrong}")
    walked = walked._replace(fills=fills_in(net, behind[begun:], path))
    if kind == "cycle":
        turns = turns_of([it.split() or [""] for it in lines[:len(lines) - len(behind)] if it not in ("cycle", last)], net)
        if not turns:
            raise Refusal(f"{path}: it has no cycle of this network")
        return walked._replace(turns=turns)
    found = {}
    for words in (it.split() for it in lines):
        if words[:1] == ["number"] and len(words) == 3 and min(map(number_of, words[1:])) >= 0:
            found[int(words[1])] = int(words[2])
    if kind == "rising" and (set(found) != set(range(len(net.kinds))) or any(found[x] >= found[y] for x, y in Walk(net).edges())):
        raise Refusal(f"{path}: its numbers don't rise in this network")
    return walked._replace(numbers=[found[x] for x in sorted(found)])


def filled(net: Network, fills: List[Fill]) -> List[str]:
    """A sentence on each channel that fills up, and what comes of it."""
    lines = []
    for it in fills:
        over = "".join(f", {x}{label_of(net, x)}" for x in it.way[1:])
        sent = f" from {it.way[0]}{label_of(net, it.way[0])}" if it.way else ""
        lines.append(f"channel {it.at}{label_of(net, it.at)} fills up with packets to {it.to}{label_of(net, it.to)}{sent}{' over' * bool(over)}{over[1:]}")
    return lines + ["locks up"] * bool(fills)


def sentences(net: Network, found: AdaptiveVerdict) -> str:
    """The verdict's line; how far packets go, or a sentence on each dependency of a cycle."""
    lines = [found.kind]
    if found.kind == "rising":
        word, *numbers = found.travel.split()
        most = f"packets go over at most {numbers[0]} channels"
        lines = [most if word == "bounded" else f"packets to {numbers[0]} can come back to channel {numbers[1]}", found.kind]
    for x, edge, y in found.turns:
        there = f"{y}{label_of(net, y)}"
        if edge.to is None:
            lines.append(f"packets that come out of channel {x}{label_of(net, x)} are answered on channel {there}")
            continue
        over = ", ".join(f"{it}{label_of(net, it)}" for it in edge.over)
        goes = f" can go on over {over}, which {'are' if edge.over[1:] else 'is'} no escape{'s' if edge.over[1:] else ''}, and" if over else ""
        lines.append(f"packets to {edge.to}{label_of(net, edge.to)} that hold channel {x}{label_of(net, x)}{goes} wait for channel {there}")
    return "\n".join([*lines, *found.may(), *dead_lines(found.dead), *filled(net, found.fills)]) + "\n"
