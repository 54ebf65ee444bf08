"""Makes a run of a campaign and judges it: by its status and streams, by `torusmem check`, and by model/report_judge.py."""
from __future__ import annotations

import os
import re
import subprocess
import tempfile
import time
from dataclasses import dataclass, field
from typing import List, Optional

from torusmem_tools import command
from torusmem_tools.model.campaign_cases import Case
from torusmem_tools.model.report_judge import BadReport, check_report
from torusmem_tools.texts import report

PATIENCE = 600
NAMES = ["machine.txt", "script.txt", "steps.txt", "words.txt", "report.txt"]
SANITIZERS = ["-fsanitize=address,undefined", "-fno-sanitize-recover=all"]


@dataclass
class Programs:
    """What a campaign starts: torusmem, and the driver of the C library where it goes by that; and whether torusmem
    draws schedules."""

    torusmem: str
    driver: str = ""
    draws: bool = False


@dataclass
class Outcome:
    """What came of a run: good, or what is wrong in one word and in more; its rounds, its seconds, its report, and its
    steps where the program drew them."""

    kind: str
    more: str = ""
    rounds: int | None = None
    wall: float = 0.0
    report: bytes = b""
    steps: list[str] = field(default_factory=list)

    def is_good(self) -> bool:
        """Whether nothing is wrong with it."""
        return self.kind == "good"

    def verdict(self) -> str:
        """Both in one line."""
        between = " " if self.is_good() else ": "
        return command.printable(f"{self.kind}{between}{self.more}" if self.more else self.kind)


def built_torusmem() -> str:
    """The program: that of the variable TORUSMEM, the kept look where TORUSMEM_UNPROVED is 1, or that of this folder, which is
    built first where that is to be done."""
    if command.is_unproved():
        return command.kept_look()
    named = os.environ.get("TORUSMEM")
    here = os.path.join(command.ROOT, "torusmem")
    if named or not os.path.isdir(os.path.join(command.ROOT, "crates")):
        return os.path.abspath(named or here)
    command.torusmem("check", os.path.join(command.ROOT, "examples", "report.txt"))
    return os.path.join(command.ROOT, "crates", "torusmem", "out", "torusmem")


def built_driver(folder: str) -> str:
    """Compiles the driver of the C library, with the sanitizers, into the folder."""
    own = os.path.join(command.ROOT, "crates", "torusmem_c", "out", "libtorusmem_c.a")
    library = os.environ.get("TORUSMEM_LIB") or own
    if not os.path.isfile(library):
        how = "`./torusmem --library` makes it, and TORUSMEM_LIB names another"
        raise command.Refusal(f"there is no {library}: {how}")
    made, include = os.path.join(folder, "driver"), os.path.join(command.ROOT, "include")
    compiler = os.environ.get("CC") or "cc"
    words = [compiler, "-std=c99", "-Wall", "-Wextra", "-Werror", "-g", "-O1", *SANITIZERS, "-I", include, "-o", made]
    words += [os.path.join(command.ROOT, "tools", "library_driver.c")]
    words += [os.path.join(include, "torusmem_heap.c"), library]
    try:
        said = subprocess.run(words, capture_output=True, text=True, errors="replace", check=False)
    except OSError as fault:
        raise command.Refusal(f"cannot run {compiler}: {fault.strerror or fault}") from None
    if said.returncode:
        raise command.Refusal(f"{compiler}: {said.stderr.strip().splitlines()[0] if said.stderr.strip() else 'failed'}")
    return made


def has_command(torusmem: str, name: str) -> bool:
    """Whether the program has a command: it then prints its help, with the status 2 that help has, whatever it calls itself."""
    try:
        said = subprocess.run([torusmem, name, "--help"], stdin=subprocess.DEVNULL, capture_output=True, check=False)
    except OSError as fault:
        raise command.Refusal(f"cannot run {torusmem}: {fault.strerror or fault}") from None
    return re.search(rf"Usage: \S+ {name}\b".encode(), said.stdout) is not None


def write(case: Case, folder: str) -> None:
    """Writes the texts of a run into a folder."""
    os.makedirs(folder, exist_ok=True)
    texts = [case.machine_text(), case.script_text(), case.steps_text(), " ".join([case.way, *case.options]) + "\n"]
    for name, text in zip(NAMES, texts):
        if text or name != "steps.txt":
            with open(os.path.join(folder, name), "w", encoding="ascii", newline="\n") as file:
                file.write(text)


def store(case: Case, found: Outcome, folder: str) -> None:
    """Keeps the texts of a run, its report, and what is wrong with it."""
    # steps that are wrong themselves are drawn again
    write(case.with_(steps=found.steps) if found.steps and found.kind != "draw" else case, folder)
    with open(os.path.join(folder, "report.txt"), "wb") as file:
        file.write(found.report)
    with open(os.path.join(folder, "verdict.txt"), "w", encoding="utf-8") as file:
        file.write(found.verdict() + "\n")


def start_words(case: Case, programs: Programs, folder: str) -> list[str]:
    """The words that start a run whose texts are in the folder."""
    machine, script, steps = (os.path.join(folder, name) for name in NAMES[:3])
    if case.way == "library":
        return [programs.driver, machine, script, *case.options]
    if case.way == "draw":
        return [programs.torusmem, "steps", machine, script, steps]
    return [programs.torusmem, "run" if case.way == "workers" else "round", machine, script, *case.options]


def run(words: list[str], printed: str) -> tuple[int, str]:
    """Runs a command that prints to a file: its status (-1000 where it takes too long), and standard error."""
    null, pipe = subprocess.DEVNULL, subprocess.PIPE
    try:
        with open(printed, "wb") as file:
            ran = subprocess.run(words, stdin=null, stdout=file, stderr=pipe, timeout=PATIENCE, check=False)
    except subprocess.TimeoutExpired:
        return -1000, ""
    except OSError as fault:
        raise command.Refusal(f"cannot run {words[0]}: {fault.strerror or fault}") from None
    return ran.returncode, ran.stderr.decode("utf-8", "replace").strip()


def unexpected(case: Case, status: int, said: str) -> str:
    """What standard error says beside the spins that ran out of loads in a run of the program that finished."""
    return "" if status == 0 and case.way != "library" and re.fullmatch(r"\d+ spins? ran out of loads", said) else said


def is_cut(case: Case) -> bool:
    """Whether a run may end before its scripts are finished."""
    is_given = case.way == "draw" and (case.steps or not case.options)
    return bool(is_given) or any(it in case.options for it in ("--turns", "--rounds", "--steps"))


def outcome_of(case: Case, programs: Programs, folder: str, status: int, said: str) -> Outcome:
    """What is to be said of a run that ended with a status, and whose report is in the folder."""
    where, found = os.path.join(folder, NAMES[4]), Outcome("good")
    if case.way == "library" and status == 0:
        counts = re.fullmatch(r"(\d+) calls, (\d+) rounds", said)
        found.rounds, said = (int(counts[2]), "") if counts else (None, said)
    if status == -1000:
        return Outcome("slow", f"it took more than {PATIENCE} seconds")
    if status < 0:
        return Outcome("crash", f"signal {-status}, {said}")
    if unexpected(case, status, said) or status not in ([0, 3] if is_cut(case) else [0]):
        return Outcome(f"status {status}", said[-300:])
    verdict, why = run([programs.torusmem, "check", where], os.path.join(folder, "judged.txt"))
    with open(os.path.join(folder, "judged.txt"), "rb") as file:
        if verdict != 0 or file.read() != b"good report\n" or why:
            return Outcome("check", f"status {verdict}, {why}")
    try:
        check_report(case, report.parse_report(command.contents(where, command.MOST_BYTES), "its report"), status)
    except BadReport as wrong:
        return Outcome(wrong.kind, str(wrong))
    except command.Refusal as why_not:
        return Outcome("text", str(why_not))
    if status == 3:
        found.more = "unfinished"
        if case.way == "rounds":
            found.rounds = int(case.options[1])
    return found


def schedule(case: Case, programs: Programs, folder: str) -> tuple[int, list[str], str]:
    """Has the program draw the steps of a run into the folder: its status, the steps, and what is wrong with them."""
    machine, script, steps = (os.path.join(folder, name) for name in NAMES[:3])
    status, said = run([programs.torusmem, "draw", machine, script, *case.options], steps)
    if unexpected(case, status, said) or status not in ([0, 3] if is_cut(case) else [0]):
        return status, [], f"status {status}, {said[-300:]}"
    lines = command.contents(steps, command.MOST_BYTES).decode("utf-8", "replace").splitlines()
    made = [it for it in lines if it and not it.startswith("#")]
    last = "# stopped" if status else "# finished"
    if not lines or lines[-1] != last:
        return status, made, f"status {status}, and its last line is not '{last}'"
    most = int(case.options[case.options.index("--steps") + 1]) if "--steps" in case.options else len(made)
    if len(made) > most or (status and len(made) != most):
        return status, made, f"status {status} after {len(made)} steps of {most}"
    return status, made, ""


def try_case(case: Case, programs: Programs, folder: str, takes_report: bool = False) -> Outcome:
    """Makes a run in a folder, and judges it."""
    write(case, folder)
    begun = time.monotonic()
    drawn: Optional[int] = None
    steps: List[str] = []
    if case.way == "draw" and not case.steps and case.options:
        drawn, steps, wrong = schedule(case, programs, folder)
        if wrong:
            return Outcome("draw", wrong, None, time.monotonic() - begun, b"", steps)
    status, said = run(start_words(case, programs, folder), os.path.join(folder, NAMES[4]))
    wall = time.monotonic() - begun
    found = outcome_of(case, programs, folder, status, said)
    if found.is_good() and drawn not in (None, status):
        found = Outcome("draw", f"status {drawn}, and {status} of `steps` with what it drew")
    found.wall, found.steps = wall, steps
    if takes_report or not found.is_good():
        with open(os.path.join(folder, NAMES[4]), "rb") as file:
            found.report = file.read(command.MOST_BYTES)
    return found


def tried_often(case: Case, programs: Programs, times: int, wanted: str = "") -> Outcome:
    """Makes a run up to so many times, in a folder of its own: until it goes wrong, in the way that is wanted."""
    with tempfile.TemporaryDirectory(prefix="torusmem-") as folder:
        for _ in range(times):
            found = try_case(case, programs, folder)
            if found.kind == wanted or (not wanted and not found.is_good()):
                break
    return found
