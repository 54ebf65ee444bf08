"""Prints a small part of a trace that no order explains, if there is none for the whole.

    tools/smallest trace.txt > small.txt
    tools/smallest trace.txt --timeline small.svg > small.txt
    tools/smallest calls.csv > small.txt

`torusmem linearize --smallest` finds it (docs/FORMATS.md, Trace text). It begins with the operations that `--explain` cites, if no
order explains these, else with those on the word of the first bad answer. Then it leaves out operations as long as there is no
order, and as long as no other one lacks what it found. It judges each part, a thousand at most.

What is printed is a trace text. Standard error has how many operations it has, and why it has no order, by its own lines.
--timeline writes a picture of it, as tools/timeline draws it.
"""
from __future__ import annotations

import subprocess
from typing import List, Tuple

from torusmem_tools import command
from torusmem_tools.command import Refusal
from torusmem_tools.draw import trace_timeline

TOOL = "smallest"
# What stands before the lines on a part, and behind the line on the whole.
PART = "smallest:"


def write_timeline(path: str, text: str, name: str) -> None:
    """Writes a picture of a trace."""
    trace = trace_timeline.judge_trace(text.encode(), name)
    picture = trace_timeline.draw_trace(trace, trace_timeline.window_of(trace, None, None), None, TOOL)
    try:
        with open(path, "w", encoding="utf-8") as file:
            file.write(picture)
    except OSError as fault:
        raise Refusal(f"cannot write {path}: {fault.strerror or fault}") from None


def smallest(path: str, name: str) -> Tuple[str, List[str]]:
    """The text of a small part of the trace of a file, and the lines on it."""
    program = command.program_path()
    try:
        asked = subprocess.run([program, "linearize", path, "--smallest"], stdin=subprocess.DEVNULL, capture_output=True, check=False)
    except OSError as fault:
        raise Refusal(f"cannot run {program}: {fault.strerror or fault}") from None
    lines = asked.stderr.decode("utf-8", "replace").rstrip("\n").split("\n")
    if asked.returncode == 0:
        raise Refusal(f"{name}: an order explains it")
    if asked.returncode != 1 or not asked.stdout:
        first = next((it for it in lines if it.startswith(("fault ", "undecided "))), lines[-1])
        raise command.name_refusal(Refusal(first), name, command.explain_refusal(path, "linearize"))
    at = next((at for at, it in enumerate(lines) if it.startswith("not linearizable ")), 0)
    return asked.stdout.decode("utf-8", "replace"), lines[at + 1 :]


def words() -> command.Parser:
    """The words of the command line."""
    parser = command.parser(TOOL, __doc__)
    parser.add_argument("trace", metavar="TRACE", help="the trace text or the table; - is standard input")
    parser.add_argument("--timeline", metavar="FILE", help="write a picture of what is left, as SVG")
    return parser


def work() -> str:
    """The trace that is left."""
    given = words().parse_args()
    with command.temporary_file(command.contents(given.trace)) as path:
        left, lines = smallest(path, given.trace)
    if given.timeline:
        write_timeline(given.timeline, left, given.trace)
    command.say(TOOL, lines[0])
    for it in lines[1:]:
        command.put_line(it[len(PART) :].lstrip() if it.startswith(PART) else it)
    return left
