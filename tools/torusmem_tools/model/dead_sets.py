"""Dead sets of networks whose routers choose: in each of their channels packets wait for others of them alone, whatever they
could choose (Duato, IEEE TPDS 4(12), 1993, and 6(10), 1995). Where there is none but the empty one, choices rise, and packets
of one flit never deadlock. Nothing here is proved."""
from __future__ import annotations

from typing import Dict, Iterator, List, NamedTuple, Optional, Sequence, Set, Tuple

from torusmem_tools.model.network import Network

NEVER = "never locks up with packets of one flit"
LOCKS = "locks up"
# A channel in which packets wait, and the channels by which they can leave it.
Case = Tuple[int, Set[int]]


class Fill(NamedTuple):
    """A channel that packets to an ejection channel fill, and the channels that they come over, the injection channel first."""

    at: int
    to: int
    way: Tuple[int, ...]


def cases(net: Network) -> Iterator[Case]:
    """Where packets wait: on each way to an ejection channel for what they could choose, and at its end for each channel on
    which they are answered."""
    answers: Dict[int, List[int]] = {}
    for x, y in net.replies:
        answers.setdefault(x, []).append(y)
    for j in sorted({j for _, j in net.joins}):
        seen, more = set(), [i for i, to in net.joins if to == j]
        while more:
            x = more.pop()
            if x in seen:
                continue
            seen.add(x)
            if net.kinds[x] == "eject":
                yield from ((x, {y}) for y in answers.get(x, []))
                continue
            yield x, set(net.after(x, j))
            more.extend(net.after(x, j))


def left_of(count: int, found: List[Case]) -> List[int]:
    """The channels, of so many, that are left once each of these cases is struck out that can leave to a channel of none."""
    left = [0] * count
    waiting: Dict[int, List[int]] = {}
    for k, (x, ways) in enumerate(found):
        left[x] += 1
        for y in ways:
            waiting.setdefault(y, []).append(k)
    free = [x for x, cases_left in enumerate(left) if cases_left == 0]
    struck: Set[int] = set()
    while free:
        for k in waiting.get(free.pop(), []):
            if k not in struck:
                struck.add(k)
                x = found[k][0]
                left[x] -= 1
                if left[x] == 0:
                    free.append(x)
    return [x for x, cases_left in enumerate(left) if cases_left]


def greatest_dead_set(net: Network) -> List[int]:
    """The channels of the greatest dead set."""
    return left_of(len(net.kinds), list(cases(net)))


def dead_lines(dead: Optional[List[int]]) -> List[str]:
    """What `torusmem network` says of dead sets, but for numbers; nothing where it doesn't look for them."""
    return [] if dead is None else [f"dead {x}" for x in dead] or [NEVER]


def fill_lines(fills: Sequence[Fill]) -> List[str]:
    """What stands behind the greatest dead set where channels are filled, the first of them first."""
    return [f"fill {' '.join(map(str, (it.to, *it.way, it.at)))}" for it in fills] + [LOCKS] * bool(fills)


def fault_of_dead_lines(net: Network, dead: Optional[List[int]], lines: List[str]) -> str:
    """What is wrong with the lines that stand behind a verdict; nothing if all is right."""
    numbers = [it.split() for it in lines if it.startswith("number ")]
    if [it for it in lines if not it.startswith("number ")] != dead_lines(dead):
        return f"behind the verdict stands {lines[:3]}, and not {dead_lines(dead)[:3]}"
    if dead != []:
        return "numbers stand behind the verdict" if numbers else ""
    rank = [int(it[2]) for it in numbers]
    if [it[1] for it in numbers] != [str(x) for x in range(len(net.kinds))] or lines[-1:] != [NEVER]:
        return "the numbers behind the verdict aren't those of all channels"
    falls = [x for x, ways in cases(net) if not any(rank[x] < rank[y] for y in ways)]
    return f"no choice behind channel {falls[0]} rises" if falls else ""
