"""What growth, loads, threads and plot share: the program that is measured, its runs, and the file of figures.

A run is timed from its start to its end, and what it prints is thrown away. What it prints and says, and its peak
memory, are taken of one run more. Times are in microseconds, memory is in KiB.
"""
from __future__ import annotations

import ctypes
import importlib.machinery
import importlib.util
import json
import os
import platform
import re
import shutil
import signal
import subprocess
import sys
import threading
import time
from contextlib import contextmanager
from types import ModuleType
from typing import Any, Iterator, NamedTuple

BENCH = os.path.dirname(os.path.realpath(__file__))
ROOT = os.path.dirname(BENCH)
OUT = f"{BENCH}/out"
sys.path.insert(0, f"{ROOT}/tools")
from torusmem_tools import command  # noqa: E402

# Seconds after which a run is killed.
LIMIT = 120
ENDED = re.compile(r"^finished: (\d+) rounds?, (\d+) moves?, (\d+) operations? (?:is|are) answered$", re.MULTILINE)
# Of prctl: what this process's children leave behind is handed to it, and not to the first process.
PR_SET_CHILD_SUBREAPER = 36
# Behind two names of files, for what it prints and what it says, starts a command as soon as a line comes from
# standard input, and prints its number before that.
SHELL = 'out=$1 said=$2; shift 2; exec 3<&0; { read -r _ <&3; exec "$@" 3<&- </dev/null; } >"$out" 2>"$said" & echo $!'


class Told(NamedTuple):
    """What a run says of itself, and its peak memory."""

    rounds: int
    moves: int
    operations: int
    memory: int


def program() -> str:
    """The program that is measured: the one that TORUSMEM names, or the one that ./torusmem has built."""
    named = os.environ.get("TORUSMEM")
    found = named or f"{ROOT}/crates/torusmem/out/torusmem"
    if not os.path.isfile(found) or not os.access(found, os.X_OK):
        builds = "./torusmem run examples/machine.txt examples/script.txt proves and builds it"
        why = "TORUSMEM names it" if named else builds
        raise command.Refusal(f"there is no program {found}: {why}")
    return os.path.abspath(found)


def module(name: str) -> ModuleType:
    """A script of this folder, as a module of its own."""
    loader = importlib.machinery.SourceFileLoader(name, f"{BENCH}/{name}")
    made = importlib.util.module_from_spec(importlib.util.spec_from_loader(name, loader))
    loader.exec_module(made)
    return made


def compiled(name: str) -> str:
    """Compiles a plain Rust program, if it is older than its sources."""
    if not shutil.which("rustc"):
        raise command.Refusal("there is no command 'rustc' on the path")
    made, folder = f"{OUT}/plain_{name}", f"{BENCH}/baseline"
    sources = [f"{at}/{it}" for at, _, names in os.walk(folder) for it in names]
    if not os.path.isfile(made) or os.path.getmtime(made) < max(map(os.path.getmtime, sources)):
        os.makedirs(OUT, exist_ok=True)
        words = ["rustc", "-O", "-C", "target-cpu=x86-64-v2", "--edition", "2021", "-o", made, f"{folder}/{name}.rs"]
        if subprocess.run(words, stdout=sys.stderr, check=False).returncode:
            raise command.Refusal(f"{name}.rs was not compiled: the lines above say why")
    return made


def write(path: str, text: str) -> str:
    """Writes a text, and answers its path."""
    with open(path, "w", encoding="ascii", newline="\n") as file:
        file.write(text)
    return path


def read(path: str) -> bytes:
    """The bytes of a file."""
    with open(path, "rb") as file:
        return file.read()


# Runs.


@contextmanager
def bounded(pid: int) -> Iterator[None]:
    """Kills a process that is waited for here, where that takes too long or is interrupted."""
    guard = threading.Timer(LIMIT, os.kill, (pid, signal.SIGKILL))
    guard.daemon = True
    guard.start()
    try:
        yield
    except KeyboardInterrupt:
        os.kill(pid, signal.SIGKILL)
        raise
    finally:
        guard.cancel()


def ended(pid: int, words: list[str]) -> tuple[int, Any]:
    """Waits for a process: when it had ended, and what it used."""
    with bounded(pid):
        _, status, used = os.wait4(pid, 0)
        end = time.perf_counter_ns()
    asked = " ".join([os.path.basename(words[0]), *words[1:2]])
    if os.WIFSIGNALED(status):
        killed = os.WTERMSIG(status) == signal.SIGKILL
        how = f"was killed after {LIMIT} seconds" if killed else f"was ended by signal {os.WTERMSIG(status)}"
        raise command.Refusal(f"a run of {asked} {how}")
    if os.WEXITSTATUS(status):
        raise command.Refusal(f"a run of {asked} ended with status {os.WEXITSTATUS(status)}")
    return end, used


def timed(words: list[str]) -> tuple[int, int]:
    """Runs a command, and throws away what it prints: by the clock, and of processors."""
    null = [(os.POSIX_SPAWN_OPEN, at, os.devnull, os.O_RDWR, 0) for at in (0, 1, 2)]
    start = time.perf_counter_ns()
    pid = os.posix_spawn(words[0], words, os.environ, file_actions=null)
    end, used = ended(pid, words)
    return (end - start) // 1000, round(1e6 * (used.ru_utime + used.ru_stime))


def looked_at(words: list[str], room: str) -> int:
    """Runs a command that leaves what it prints and says in the folder's files `out` and `said`: its peak memory.

    Linux counts in the peak of a process also that of the memory which it left when it began its program. So Python,
    which has some 14 MB, doesn't start it: a shell does, which leaves it to this process. It begins when the shell has
    ended, so that the shell can't be the one that waits for it.
    """
    if ctypes.CDLL(None).prctl(PR_SET_CHILD_SUBREAPER, 1, 0, 0, 0):
        raise command.Refusal("this system doesn't hand a process on to another: peak memory is measured on Linux")
    shell = ["/bin/sh", "-c", SHELL, "sh", f"{room}/out", f"{room}/said", *words]
    with subprocess.Popen(shell, stdin=subprocess.PIPE, stdout=subprocess.PIPE) as ran:
        pid = int(ran.stdout.read())
        ran.wait()
        ran.stdin.write(b"\n")
    return ended(pid, words)[1].ru_maxrss


def told(words: list[str], room: str) -> Told:
    """What a run of the program with --explain says; what it prints is left in the folder's file `out`."""
    memory = looked_at([*words, "--explain"], room)
    found = ENDED.search(read(f"{room}/said").decode("utf-8", "replace"))
    if not found:
        raise command.Refusal(f"{words[0]} doesn't say how many rounds, moves and operations its run had")
    return Told(*map(int, found.groups()), memory)


def both(found: list[int]) -> dict[str, int]:
    """The best and the median of the times."""
    return {"best": min(found), "median": sorted(found)[len(found) // 2]}


# How the figures were taken.


def busy() -> float:
    """How many seconds all cores have been busy in all, and this process and its children less."""
    try:
        ticks = list(map(int, read("/proc/stat").split(b"\n", 1)[0].split()[1:9]))
    except (OSError, ValueError):
        return 0.0
    # (all but idle and waiting for a disc)
    every = sum(ticks) - ticks[3] - ticks[4]
    return every / os.sysconf("SC_CLK_TCK") - sum(os.times()[:4])


class Clock:
    """Says how the figures were taken that are taken from its making on."""

    def __init__(self) -> None:
        self.start, self.busy = time.monotonic(), busy()

    def said(self, passes: int) -> dict[str, Any]:
        """The passes, the machine, and how many of its cores other work kept busy meanwhile."""
        other = (busy() - self.busy) / max(time.monotonic() - self.start, 0.01)
        cores = len(os.sched_getaffinity(0))
        return {
            "passes": passes,
            "machine": platform.machine(),
            "cores": cores,
            "beside": round(max(other, 0.0), 1),
            "niceness": os.nice(0),
        }


def sentence(taken: dict[str, Any]) -> str:
    """The same as a sentence of a document."""
    nice = f", at a niceness of {taken['niceness']}" if taken["niceness"] else ""
    passes = f"{taken['passes']} passes" if taken["passes"] > 1 else "one pass"
    machine = f"a machine of {taken['cores']} cores ({taken['machine']})"
    return f"Taken in {passes}{nice}, on {machine} of which other work kept {taken['beside']} busy meanwhile."


# The file of figures.


def stored(path: str) -> dict[str, Any]:
    """The figures of a file; none where there is no file."""
    return figures(path) if os.path.exists(path) else {}


def figures(path: str) -> dict[str, Any]:
    """The figures of a file, by the script that measured them."""
    try:
        found = json.loads(command.contents(path))
    except (ValueError, RecursionError) as fault:
        raise command.Refusal(f"{path} is no JSON, line {getattr(fault, 'lineno', 1)}") from None
    if not isinstance(found, dict):
        raise command.Refusal(f"{path} has no figures: an object with the parts growth, loads, threads and whole")
    return found


def part(found: dict[str, Any], name: str, path: str) -> dict[str, Any]:
    """What a script has measured."""
    if not isinstance(found.get(name), dict):
        raise command.Refusal(f"{path} has no figures of bench/{name}, which --json writes there")
    return found[name]


def not_as_described(name: str, path: str) -> command.Refusal:
    """Why stored figures can't be shown."""
    return command.Refusal(f"the figures of bench/{name} in {path} aren't as bench/README.md describes them")


def laid_out(found: dict[str, Any]) -> str:
    """The figures as JSON, each row of a list in a line of its own."""
    parts = []
    for name, made in sorted(found.items()):
        rows = []
        for key, it in made.items() if isinstance(made, dict) else ():
            every = ",\n   ".join(map(json.dumps, it)) if isinstance(it, list) else ""
            rows.append(f"  {json.dumps(key)}: " + (f"[\n   {every}\n  ]" if every else json.dumps(it)))
        inside = ",\n".join(rows)
        parts.append(f" {json.dumps(name)}: " + (f"{{\n{inside}\n }}" if rows else json.dumps(made)))
    return "{\n" + ",\n".join(parts) + "\n}\n"


def keep(path: str, name: str, made: dict[str, Any]) -> None:
    """Puts what a script has measured into the file, in place of what it had of it."""
    write(f"{path}.new", laid_out({**stored(path), name: made}))
    os.replace(f"{path}.new", path)


def words(tool: str, text: str, passes: int) -> command.Parser:
    """The words of the command line that each script takes."""
    parser = command.parser(tool, text)
    number = {"type": command.whole(1, 10000), "nargs": "?", "metavar": "PASSES"}
    parser.add_argument("passes", **number, help=f"how often each run is made; {passes} times if not given")
    parser.add_argument("--json", metavar="FILE", help="put the figures into this file, beside those of other scripts")
    stored_ones = "measure nothing, and print the tables of the figures that this file has"
    parser.add_argument("--tables", metavar="FILE", help=stored_ones)
    return parser


def work(name: str, given: Any, tables: Any, measured: Any) -> str:
    """The tables of figures that are measured now, and kept where that is asked for; or of stored ones."""
    if given.tables:
        found = figures(given.tables)
        if name not in found:
            return "These figures aren't taken yet: `bench/renew` takes them.\n"
        made = part(found, name, given.tables)
        try:
            return tables(made)
        except (KeyError, TypeError, ValueError, IndexError, AttributeError, ArithmeticError):
            raise not_as_described(name, given.tables) from None
    if given.json:
        # (so that a file that can't be kept is reported before the minutes, not after them)
        stored(given.json)
        if not os.access(os.path.dirname(os.path.abspath(given.json)), os.W_OK):
            raise command.Refusal(f"cannot write {given.json}")
    made = measured()
    if given.json:
        keep(given.json, name, made)
    return tables(made)
