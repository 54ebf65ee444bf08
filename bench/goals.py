"""The goals of bench/README.md, and the figures that bench/all keeps of them."""
from __future__ import annotations

import os
import re
from typing import Optional

import measure

# Where what a script prints is kept.
KEPT = f"{measure.OUT}/all"
MOST, FEWEST = "at most", "at least"
# What is to be reached; the script, how its rows begin, the column (-1: the last), and the figure. Of a cell `8.1 (1.35)` the
# number in brackets counts, but for `threads`, where it is that of the medians. Of some rows the worst counts.
GOALS = (
    ("`write_report` into memory, times plain Rust", "run", r"\| `write_report` into memory", -1, MOST, 1.1),
    ("`next`, times plain Rust", "run", r"\| `next`", -1, MOST, 1.1),
    ("writer, checker and reader of scripts, times `md5sum`", "run", r"\| `(write_report` into|check_report|read_scripts` of)", 3, MOST, 5),
    ("a sparse round, times plain Rust", "run", r"\| a round, .* one processor asks", -1, MOST, 1 / 12),
    ("a dense round, times plain Rust", "run", r"\| a round, .* all processors ask", -1, MOST, 1 / 2),
    ("a sparse list of moves, times plain Rust", "run", r"\| a move by a list of 495,744 ", -1, MOST, 1.4),
    ("a dense list of moves, times plain Rust", "run", r"\| a move by a list of 1,048,576 ", -1, MOST, 1.15),
    ("`run` by 1 worker, times plain loops", "threads", r"\| 1 \| .*\(", 4, MOST, 1 / 1.6),
    ("`run` by 2 workers, times plain loops", "threads", r"\| 2 \| .*\(", 4, MOST, 1 / 1.3),
    ("`run` by 4 workers, times plain loops", "threads", r"\| 4 \| .*\(", 4, MOST, 1 / 1.1),
    ("`run` by 8 workers, times that by 4", "threads", r"\| 8 \| [^(]*$", 1, MOST, 1.1),
    ("`round` on the sparse load, times as fast", "whole", r"\| sparse.*`round`", -1, FEWEST, 4),
    ("`round` on the dense load in two dimensions, times as fast", "whole", r"\| dense, 8 by 8 \| `round`", -1, FEWEST, 1.6),
    ("`round` on the dense load in three dimensions, times as fast", "whole", r"\| dense, 4 by 4 by 4", -1, FEWEST, 1.8),
    ("instructions of `steps`, times `round`", "counts", r"\| \w+ \| [^|]* \| [\d,]+ \| [\d,]+ \|", -1, MOST, 1.5),
    ("the judge of traces, times plain Rust", "traces", r"\| \d+ processes", -1, MOST, 1.5),
    ("the judges of networks, times plain Rust", "networks", r"\| judging", -1, MOST, 2),
    ("simulated flits, millions a second", "clocked", r"\| (mesh|torus)", 6, FEWEST, 10),
    ("`model`, times plain Rust, in processor time", "models", r"\| of ", -1, MOST, 2),
    ("`model --model rvwmo`, times plain Rust, in processor time", "models", r"\| RISC-V", -1, MOST, 1.5),
    ("`steps`, times `round`", "schedules", r"\| `steps`", -1, MOST, 1.5),
    ("`round --clocked`, times `round`", "schedules", r"\| `round --clocked`", -1, MOST, 1.5),
    ("`network --explain` on a refused text, times `network`", "refusals", r"\| `network --explain`", -1, MOST, 1.1),
    ("a step by a call from C, times one inside", "library", r"\| (an attempt|a move)", 3, MOST, 1.3),
    ("memory of a machine before its operations, times that before", "memory", r"\| 64 tiles", -1, MOST, 0.5),
)


def found(name: str, begin: str, column: int, sign: str) -> Optional[float]:
    """The worst figure of the rows that begin so."""
    text = measure.read(f"{KEPT}/{name}").decode() if os.path.exists(f"{KEPT}/{name}") else ""
    rows = [line.strip().strip("|").split("|") for line in text.splitlines() if re.match(begin, line)]
    numbers = [re.findall(r"\d[\d,]*(?:\.\d+)?", row[column]) for row in rows if len(row) > column]
    its = [float(it[0 if name == "threads" else -1].replace(",", "")) for it in numbers if it]
    return (max(its) if sign == MOST else min(its)) if its else None


def table() -> str:
    """The goals as a table: the figures, and whether they are met."""
    lines = ["| goal | | figure | |", "| --- | --- | --- | --- |"]
    for what, name, begin, column, sign, wanted in GOALS:
        it = found(name, begin, column, sign)
        is_met = it is not None and (it <= round(wanted, 2) if sign == MOST else it >= wanted)
        cells = [what, f"{sign} {round(wanted, 2):g}", *(["-", "not taken"] if it is None else [f"{it:g}", "met" if is_met else "missed"])]
        lines.append(f"| {' | '.join(cells)} |")
    return "\n".join(lines) + "\n"
