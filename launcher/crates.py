"""The crates that the program stands on: what `crates.txt` says of them, how long each takes, and what is left to do."""

from __future__ import annotations

import heapq
import os

HERE = os.path.dirname(os.path.realpath(__file__))
ROOT = os.path.dirname(HERE)
# The seconds of a crate that `seconds.txt` doesn't name.
PLAIN = 20.0


def rows(root: str) -> dict[str, tuple[str, list[str]]]:
    """By crate: its line of crates.txt, and the crates of the repository that it stands on."""
    found = {}
    with open(f"{root}/crates.txt", encoding="utf-8") as file:
        for line in (it.partition("#")[0].strip() for it in file):
            if line:
                head, _, uses = line.partition(":")
                found[head.split()[0]] = (line, uses.split())
    return {name: (line, [it for it in uses if it in found]) for name, (line, uses) in found.items()}


def below(listed: dict[str, tuple[str, list[str]]], name: str) -> list[str]:
    """The crate and all that it stands on, each after those that it stands on itself."""
    found: list[str] = []

    def visit(it: str) -> None:
        for use in listed[it][1]:
            visit(use) if use not in found else None
        if it not in found:
            found.append(it)

    visit(name)
    return found


def seconds() -> dict[str, float]:
    """The processor seconds of a proof of each crate, as they were measured once."""
    with open(f"{HERE}/seconds.txt", encoding="utf-8") as file:
        words = [it.partition("#")[0].split() for it in file]
    return {it[0]: float(it[1]) for it in words if it}


class Plan:
    """Which crate is to be proved next, and how long it all takes. A crate is proved by one process: several would each read
    what it stands on, and take twice the processor time for the same time by the clock."""

    def __init__(self, uses: dict[str, list[str]], cores: int) -> None:
        self.uses, self.cores = uses, cores
        known = seconds()
        self.cost = {it: known.get(it, PLAIN) for it in uses}
        # By crate: the seconds of the longest way from it to the top.
        self.way: dict[str, float] = {}
        for it in reversed(list(uses)):
            above = [self.way[other] for other in uses if it in uses[other]]
            self.way[it] = self.cost[it] + max(above, default=0.0)

    def pace(self, took: dict[str, float]) -> float:
        """How many times the expected seconds crates take here, at least once, by the seconds of some. Those that took much
        less were taken up from earlier, and don't count."""
        pairs = [(seconds, self.cost[it]) for it, seconds in took.items()]
        pairs = [(seconds, cost) for seconds, cost in pairs if seconds > cost / 4]
        return max(sum(it for it, _ in pairs) / sum(it for _, it in pairs), 1.0) if pairs else 1.0

    def chosen(self, done: set[str], running: set[str], held: set[str]) -> str | None:
        """The crate to begin now: of those that are ready and that no other rt holds, the one with the longest way to the top."""
        ready = [it for it in self.uses if it not in done | running | held and done.issuperset(self.uses[it])]
        return max(ready, key=lambda it: self.way[it]) if ready and len(running) < self.cores else None

    def left(self, done: set[str], running: dict[str, float]) -> float:
        """The seconds that are left, where some crates are proved, and some are worked on for so long."""
        done, busy, now = set(done), {*running}, 0.0
        ends = [(max(self.cost[it] - gone, 1.0), it) for it, gone in running.items()]
        heapq.heapify(ends)
        while True:
            while (name := self.chosen(done, busy, set())) is not None:
                busy.add(name)
                heapq.heappush(ends, (now + self.cost[name], name))
            if not ends:
                return now
            now, name = heapq.heappop(ends)
            done.add(name)
            busy.remove(name)
