"""How routers, links and receivers of a written network behave in the plain model of packets (model/packet_rounds.py), and the words of
the command line that say so. `torusmem simulate` knows the first two arbiters, and none of the rest."""
from __future__ import annotations

from argparse import ArgumentParser, Namespace
from collections import deque
from typing import Deque, Iterable, List, NamedTuple, Optional, Tuple

from torusmem_tools import command
from torusmem_tools.model.network import Network

# Which head an output takes: `rotating`, that of the first input behind the one whose head it took last; `turn`, any that it has
# room for, in an order that begins with another input in each round; `oldest`, that of the packet that could be begun first.
ARBITERS = ("rotating", "turn", "oldest")
PROVED = ARBITERS[:2]
MOST_DELAY, MOST_OUT, MOST_FLITS = 64, 65536, 2147483647
OPTIONS = ("router_delay", "link_delay", "replies", "outstanding")


class Rules(NamedTuple):
    """The arbiter; for how many rounds a flit is in a router, and on a link, beside the two of each channel; how many flits the answers
    of receivers have, one number or one for each class of answers, or none where nothing is answered; and how many exchanges a
    sender may have under way, or 0 for any number."""

    arbiter: str = ARBITERS[0]
    router_delay: int = 0
    link_delay: int = 0
    replies: Tuple[int, ...] = ()
    outstanding: int = 0

    def are_plain(self, net: Network) -> bool:
        """Whether `torusmem simulate` knows them, and the network."""
        return self.arbiter in PROVED and not any(self[1:]) and not net.is_adaptive()

    def said(self, net: Network) -> str:
        """What stands ahead of a report that `torusmem simulate` doesn't make."""
        parts = [f"arbiter {self.arbiter}", *["routers choose"] * net.is_adaptive()]
        parts += [f"{name.replace('_', ' ')} {' '.join(map(str, it)) if isinstance(it, tuple) else it}" for name, it in zip(OPTIONS, self[1:]) if it]
        return f"# by the plain model of tools/network, which isn't proved: {', '.join(parts)}"


def behind(numbers: Iterable[int], last: Optional[int]) -> int:
    """The first of some numbers behind the last one, going round."""
    return min(numbers, key=lambda it: (last is not None and it <= last, it))


class Flights:
    """When a flit comes to the end of its channel, and a credit to the begin, where routers and links take their time: a flit goes over
    a link and through the first stages of the router behind it, with others behind it, before it can be taken; a credit goes back
    over the link. The links are the hops."""

    def __init__(self, net: Network, rules: Rules) -> None:
        self.back = [rules.link_delay * (kind == "hop") for kind in net.kinds]
        self.ahead = [link + rules.router_delay * (kind != "eject") for link, kind in zip(self.back, net.kinds)]
        self.flits: List[Deque[int]] = [deque() for _ in net.kinds]
        self.credits: List[Deque[int]] = [deque() for _ in net.kinds]

    def may(self, word: str, x: int, number: int) -> bool:
        """Whether what a move takes from a channel is there by the round of this number."""
        if word in ("take", "accept"):
            return number - self.flits[x][0] > self.ahead[x]
        return word != "credit" or number - self.credits[x][0] > self.back[x]

    def note(self, word: str, x: int, y: int, number: int) -> None:
        """Notes a move of this round: of a put also the channel that it leads to."""
        if word in ("send", "more", "put"):
            self.flits[y if word == "put" else x].append(number)
        elif word == "credit":
            self.credits[x].popleft()
        else:
            self.flits[x].popleft()
            self.credits[x].append(number)


def lengths_of(word: str) -> Tuple[int, ...]:
    """The reader of the lengths of answers."""
    return tuple(map(command.whole(1, MOST_FLITS), word.split(",")))


def add_words(words: ArgumentParser, of: str, many: bool = False) -> None:
    """The words of the command line; of one that takes many arbiters, `arbiter` is a list."""
    add = words.add_argument
    arbiter = f"{of}which head an output takes, of {', '.join(ARBITERS)}; {'may be given more than once; ' * many}{ARBITERS[0]} if not given"
    add("--arbiter", choices=ARBITERS, metavar="NAME", action="append" if many else "store", help=arbiter)
    unit = f"0 to {MOST_DELAY}; 0 if not given"
    add("--router-delay", metavar="R", type=command.whole(0, MOST_DELAY), help=f"{of}so many rounds more in each router, one flit behind the other, {unit}")
    add("--link-delay", metavar="R", type=command.whole(0, MOST_DELAY), help=f"{of}so many rounds more on each hop, and for its credit on the way back, {unit}")
    length = "how many flits an answer has, or of each class of answers, as 1,5"
    add("--replies", metavar="L[,L..]", type=lengths_of, help=f"{of}receivers answer by the lines `reply`: {length}")
    add("--outstanding", metavar="K", type=command.whole(1, MOST_OUT), help=f"{of}a sender has at most K packets under way that aren't delivered and answered")


def rules_of(given: Namespace, arbiter: Optional[str], rounds: int = 1) -> Rules:
    """The rules of the command line with this arbiter, or the usual one; its delays are in units of so many rounds."""
    router, link = ((getattr(given, it) or 0) * rounds for it in OPTIONS[:2])
    return Rules(arbiter or ARBITERS[0], router, link, given.replies or (), given.outstanding or 0)
