"""What checks of drawn cases share: where the tools' models stand, what a program answers, and which rows passed."""
from __future__ import annotations

import importlib.machinery
import importlib.util
import os
import subprocess
import sys
import tempfile
from typing import Any, NamedTuple

ROOT = os.path.dirname(os.path.dirname(os.path.realpath(__file__)))
# The program that is checked; none where the variable isn't set.
PROGRAM = os.environ.get("TORUSMEM", "")
sys.path.insert(0, f"{ROOT}/tools")


class Answer(NamedTuple):
    """A status, and what is printed on both outputs."""

    status: int
    out: str
    err: str

    def lines(self) -> list[str]:
        return self.out.splitlines()


def asked(*words: str, text: str = "", program: str = "") -> Answer:
    """What the program answers to these words, with the text as its standard input."""
    ran = subprocess.run([program or PROGRAM, *words], input=text.encode("ascii"), capture_output=True, check=False)
    return Answer(ran.returncode, ran.stdout.decode("ascii", "replace"), ran.stderr.decode("ascii", "replace"))


def beside(name: str) -> Any:
    """A check of this folder as a module."""
    loader = importlib.machinery.SourceFileLoader(name, f"{ROOT}/checks/{name}")
    module = importlib.util.module_from_spec(importlib.machinery.ModuleSpec(name, loader, origin=loader.path))
    sys.modules[name] = module
    loader.exec_module(module)
    return module


def write(path: str, text: str) -> None:
    with open(path, "w", encoding="ascii") as file:
        file.write(text)


def drawn_report(machine: list[str], script: list[str], seed: int, *more: str) -> str:
    """The report of the run of two texts by the schedule that `draw` draws from a seed."""
    with tempfile.TemporaryDirectory() as folder:
        paths = [f"{folder}/{it}" for it in ("machine", "script", "steps")]
        for path, lines in zip(paths, (machine, script)):
            write(path, "".join(f"{it}\n" for it in lines))
        write(paths[2], asked("draw", *paths[:2], "--seed", str(seed), *more).out)
        return asked("steps", *paths).out


class Rows:
    """The rows of a check: how many passed and failed. A row whose reason isn't empty has failed, and is printed."""

    def __init__(self, name: str) -> None:
        self.name, self.passed, self.failed = name, 0, 0

    def row(self, what: str, why: str) -> None:
        self.passed, self.failed = self.passed + (not why), self.failed + bool(why)
        if why:
            print(f"FAILED {what}: {why}")

    def is_so(self, what: str, is_good: bool) -> None:
        """A row of something that must be so."""
        self.row(what, "" if is_good else "it isn't so")

    def skip(self, why: str) -> None:
        print(f"{self.name}: skipped: {why}")

    def end(self) -> int:
        """Prints the last line, and answers the status of the check."""
        print(f"{self.name}: {self.passed} passed, {self.failed} failed")
        return 1 if self.failed else 0
