"""Runs a command of the program without proofs: by the kept look of launcher/look.py, or by `rt try` alone where none can be
kept."""

from __future__ import annotations

import os
import re
import shutil
import signal
import subprocess
import sys
import tempfile
from typing import Callable

import look
import words
from bitcode import ENDED, NotKept, NotMade, started
from build import PROGRAM, Interrupted, say
from crates import ROOT

# The seconds that a command may take, once it is compiled.
SECONDS = 600
# The lines of rt try that stand behind what the program wrote to standard error.
ITS_OWN = re.compile(rb"^(?:interpreter|checked|races|rt|note|error|warning|run)[:=]", re.M)
PROVED = "./torusmem, which proves and builds the program first"


def standard_input(folder: str) -> str:
    """The path of a file with all that standard input has."""
    path = f"{folder}/input"
    with open(path, "wb") as file:
        shutil.copyfileobj(sys.stdin.buffer, file)
    return path


def run(name: str, given: list[str], told: Callable[[words.Answer], int]) -> int:
    """Does what the words ask for, by the program of this name, and answers its status."""
    asked = words.asked(given)
    if isinstance(asked, words.Answer):
        return told(asked)
    if given[:1] == ["run"]:
        say(f"run makes threads, which --unproved can't: use {PROVED}")
        return 2
    fault = words.unread(asked) if asked else None
    if fault is not None:
        return told(fault)
    say(look.NOTE)
    try:
        try:
            path = look.look_for(name)
        except NotMade as why:
            return look.told(why)
        except NotKept as why:
            say(f"the look can't be kept ({why}), so the program is compiled for this one run")
            return tried(name, asked)
    except Interrupted:
        say("interrupted. Nothing is kept of this look")
        return 130
    for it in (signal.SIGPIPE, signal.SIGXFSZ):
        signal.signal(it, signal.SIG_DFL)
    # By its first word a program names itself.
    os.execv(path, [f"{ROOT}/{PROGRAM}", *given])


def tried(name: str, asked: words.Job | None) -> int:
    """Has `rt try` compile the program of this name and run it once."""
    if asked is None:
        say("rt try can't take these words; the program itself tells what is wrong with them")
        return 2
    line, files = [*asked.words], []
    with tempfile.TemporaryDirectory(prefix="torusmem-") as folder:
        for place in asked.files:
            # In its folder each file has a plain name, since its own may be no word of rt's.
            path = os.path.abspath(line[place]) if line[place] != "-" else standard_input(folder)
            files += ["--data", f"file{place}={path}"]
            line[place] = f"file{place}"
        command = ["rt", "try", "--seconds", str(SECONDS), *files, "--", *line]
        with started(*command, cwd=f"{ROOT}/crates/{name}", stdout=subprocess.PIPE, stderr=subprocess.PIPE) as ran:
            output, errors = ran.communicate()
    ended = ENDED.search(errors)
    its_own = ITS_OWN.search(errors)
    errors = errors[: its_own.start()] if ended and its_own else errors
    sys.stderr.buffer.write(errors)
    sys.stderr.flush()
    if ended is None:
        say("there is no answer, as the lines above say. A look without proofs takes at most")
        say(f"{SECONDS} seconds and prints at most 1 MiB: use {PROVED}")
        return ran.returncode or 2
    try:
        sys.stdout.buffer.write(output)
        sys.stdout.flush()
    except OSError:
        os.dup2(os.open(os.devnull, os.O_WRONLY), 1)
        print("output failed", file=sys.stderr)
        return 4
    return int(ended[1])
