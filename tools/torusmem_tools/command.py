"""What the tools of this folder share: their command lines, files, streams and statuses, and calls of torusmem.

Every tool prints to standard output only when all of its work is done. On a fault it prints one line on
standard error, and of a text that torusmem refuses its reason on the next. Its status is 0, or 1 (a text can't be read or is
refused), 2 (the words of the command line are wrong), 4 (standard output failed), or 130 (interrupted). from_csv, which judges,
has 1 for a no alone, 2 for a text or a file that is refused, too, and 5 for what isn't decided. Where the reader of its output
goes away, as `head` does, it ends without a word by SIGPIPE.
"""
from __future__ import annotations

import argparse
import functools
import importlib
import itertools
import mmap
import os
import shutil
import signal
import subprocess
import sys
import tempfile
from contextlib import contextmanager
from typing import IO, Callable, Iterable, Iterator, NoReturn, Optional, Sequence

ROOT = os.path.dirname(os.path.dirname(os.path.dirname(os.path.realpath(__file__))))
# No other text is longer, so that a device without end doesn't take the memory of the machine.
MOST_TEXT = 2**31
# No report is longer: five sections of at most 65,536 lines and three lines more, of at most 128 bytes each.
MOST_BYTES = (5 * 65536 + 3) * 128


class Refusal(Exception):
    """A text can't be read, or is not what it must be: the line that says so, and lines that say why, or that say it in a file
    alone. The status is the tool's, but for a verdict that has its own."""

    lines: Sequence[str] = ()
    story: Sequence[str] = ()
    status: Optional[int] = None


class No(Refusal):
    """What is judged is wrong."""

    status = 1


class WrongWords(Exception):
    """The words of the command line are wrong: the line that says so."""


class HelpAsked(Exception):
    """`--help` was given: its text."""


class Parser(argparse.ArgumentParser):
    """A parser of command lines that prints nothing, and tells by an exception what is to be printed."""

    def error(self, message: str) -> NoReturn:
        """What argparse calls when the words are wrong."""
        raise WrongWords(f"{message} (--help says more)")

    def print_help(self, file: Optional[IO[str]] = None) -> NoReturn:
        """What argparse calls at `--help`."""
        raise HelpAsked(self.format_help())


def parser(tool: str, text: str) -> Parser:
    """A parser for a tool, whose help begins with the text."""
    return Parser(prog=tool, description=text, formatter_class=argparse.RawDescriptionHelpFormatter, allow_abbrev=False)


def whole(least: int, most: int) -> Callable[[str], int]:
    """The reader of a word of the command line that is a number between `least` and `most`."""

    def read(word: str) -> int:
        if word.isascii() and word.isdigit() and len(word) <= 20 and least <= int(word) <= most:
            return int(word)
        raise bad_word(f"'{word}' is no number from {least} to {most}")

    return read


def bad_word(why: str) -> Exception:
    """What the reader of a word of the command line raises."""
    return argparse.ArgumentTypeError(why)


def start(tool: str) -> NoReturn:
    """Runs the tool of this name: the work of its module, which says what its status is where a text or a file is refused, if that
    isn't 1."""
    module = importlib.import_module(f"torusmem_tools.cli.{tool}")
    run(tool, module.work, getattr(module, "REFUSED", 1))


def run(tool: str, work: Callable[[], str], status: int = 1) -> NoReturn:
    """Does a tool's work, prints the text that it answers, and ends the process with its status: this one where a text or a file
    is refused."""
    try:
        text = work()
    except HelpAsked as asked:
        text = str(asked)
    except WrongWords as wrong:
        leave(tool, 2, str(wrong))
    except Refusal as refused:
        say(tool, str(refused))
        for line in refused.lines:
            put_line(line)
        leave(tool, status if refused.status is None else refused.status)
    except OSError as fault:
        leave(tool, status, str(fault))
    except MemoryError:
        leave(tool, status, "there is no memory left")
    except KeyboardInterrupt:
        leave(tool, 130, "interrupted")
    put(tool, text)
    leave(tool, 0)


def put(tool: str, text: str) -> None:
    """Prints a text on standard output, to its last byte."""
    try:
        rest = memoryview(text.encode("utf-8"))
        while rest:
            rest = rest[os.write(1, rest) :]
    except BrokenPipeError:
        signal.signal(signal.SIGPIPE, signal.SIG_DFL)
        os.kill(os.getpid(), signal.SIGPIPE)
    except OSError:
        leave(tool, 4, "output failed")
    except KeyboardInterrupt:
        leave(tool, 130, "interrupted")


def say(tool: str, text: str) -> None:
    """Prints a line on standard error."""
    put_line(f"{tool}: {text}")


def put_line(text: str) -> None:
    """Prints a line on standard error, without a tool's name."""
    try:
        os.write(2, f"{printable(text)}\n".encode("utf-8"))
    except OSError:
        pass


def leave(tool: str, status: int, why: str = "") -> NoReturn:
    """Ends the process; nothing is left to be printed."""
    if why:
        say(tool, why)
    os._exit(status)


def printable(text: str) -> str:
    """The text in one line, with what can't be printed written as `?`."""
    return "".join(it if it.isprintable() else "?" for it in text)


def contents(path: str, most: int = MOST_TEXT) -> bytes:
    """The bytes of a file, or of standard input for `-`. Refused if there are more than `most`, of a file before it
    is read."""
    try:
        with open(0 if path == "-" else path, "rb", closefd=path != "-") as file:
            parts, length = [], 0
            is_long = os.fstat(file.fileno()).st_size > most
            while not is_long and (part := file.read(2**20)):
                parts.append(part)
                length += len(part)
                is_long = length > most
    except OSError as fault:
        raise Refusal(f"cannot read {path}: {fault.strerror or fault}") from None
    if is_long:
        raise Refusal(f"cannot read {path}: longer than {'2 GiB' if most == MOST_TEXT else f'{most} bytes'}")
    return b"".join(parts)


def refuse_twice(*paths: Optional[str]) -> None:
    """Refuses words of the command line of which two are standard input."""
    if paths.count("-") > 1:
        raise WrongWords("- is given twice, and there is one standard input")


def map_file(path: str) -> bytes | mmap.mmap:
    """The bytes of a file, or of standard input for `-`. A long file isn't read into memory, and may have any length."""
    try:
        if path != "-" and os.path.isfile(path) and os.path.getsize(path) > 2**20:
            with open(path, "rb") as file:
                return mmap.mmap(file.fileno(), 0, access=mmap.ACCESS_READ)
    except OSError as fault:
        raise Refusal(f"cannot read {path}: {fault.strerror or fault}") from None
    return contents(path)


def program_path() -> str:
    """The program: the one that TORUSMEM names, the kept look where TORUSMEM_UNPROVED is 1, the one of this folder, or, where pip
    has installed the tools, that of the path."""
    if named := os.environ.get("TORUSMEM"):
        return named
    if is_unproved():
        return kept_look()
    own = os.path.join(ROOT, "torusmem")
    return own if os.path.isfile(own) else shutil.which("torusmem") or "torusmem"


def is_unproved() -> bool:
    """Whether the kept look is asked for, which proves nothing."""
    return os.environ.get("TORUSMEM_UNPROVED") == "1" and not os.environ.get("TORUSMEM")


@functools.lru_cache(maxsize=None)
def kept_look() -> str:
    """The path of the program that is compiled without proofs. What is said of it goes to standard error."""
    asked = subprocess.run([sys.executable, os.path.join(ROOT, "launcher", "look.py")], stdout=subprocess.PIPE, check=False)
    if asked.returncode == 130:
        raise KeyboardInterrupt
    if asked.returncode:
        raise Refusal("there is no program without proofs, as the lines above say")
    return os.fsdecode(asked.stdout).rstrip("\n")


def torusmem(*words: str, program: str | None = None, fine: tuple[int, ...] = (0,)) -> str:
    """What the program prints on the words. Where its status is not fine, its line is the reason of an exception."""
    program = program or program_path()
    with tempfile.TemporaryFile() as printed:
        try:
            null, pipe = subprocess.DEVNULL, subprocess.PIPE
            asked = subprocess.Popen([program, *words], stdin=null, stdout=printed, stderr=pipe)
        except OSError as fault:
            raise Refusal(f"cannot run {program}: {fault.strerror or fault}") from None
        with asked:
            last = last_line(asked.stderr or [])
        if asked.returncode not in fine:
            why = last or f"{program} ended with status {asked.returncode}"
            raise WrongWords(why) if asked.returncode == 2 else Refusal(why)
        printed.seek(0)
        return printed.read().decode("utf-8", "replace")


def torusmem_on(texts: dict[str, str], *words: str, fine: tuple[int, ...] = (0,)) -> str:
    """What the program prints on words of which some are copies of texts, each with the name of its text. Where a text
    is refused, its name stands before the program's line, and the reason behind that on a line of its own."""
    try:
        return torusmem(*words, fine=fine)
    except Refusal as why:
        for path, name in texts.items():
            reasons = explain_refusal(path, *words)
            if reasons or len(texts) == 1:
                raise name_refusal(why, name, reasons) from None
        raise


def name_refusal(why: Refusal, name: str, reasons: Sequence[str]) -> Refusal:
    """A refusal of the program by the name of the text, with its reasons."""
    made = Refusal(f"{name}: {why}")
    made.lines = [f"{name}:{it}" for it in reasons]
    return made


def explain_refusal(path: str, *words: str) -> list[str]:
    """What the program says of a text with `--explain`, behind its first line: each line without the text's name. The
    text is one of the words, or else the last one."""
    program = program_path()
    null, pipe = subprocess.DEVNULL, subprocess.PIPE
    try:
        asked = subprocess.run([program, *words, *([] if path in words else [path]), "--explain"], stdin=null, stdout=null, stderr=pipe, check=False)
    except OSError as fault:
        raise Refusal(f"cannot run {program}: {fault.strerror or fault}") from None
    lines = asked.stderr.decode("utf-8", "replace").split("\n")
    return [it[len(path) + 1 :] for it in lines if it.startswith(f"{path}:")]


def explain_answer(path: str, *words: str) -> list[str]:
    """Why the trace of a text has no order: the line on its first bad answer, and one for each operation that is open there."""
    return list(itertools.takewhile(lambda it: it[:1].isdigit(), explain_refusal(path, "linearize", *words)))


def last_line(lines: Iterable[bytes]) -> str:
    """The last of the lines. Those before it, as those of a first build, go to standard error at once."""
    last = b""
    for line in lines:
        if last:
            os.write(2, last)
        last = line
    return last.decode("utf-8", "replace").strip()


@contextmanager
def temporary_file(text: bytes) -> Iterator[str]:
    """A file of the text, for as long as the program reads it: it reads what the tool has read, also of a pipe."""
    with tempfile.TemporaryDirectory(prefix="torusmem-") as room:
        path = os.path.join(room, "text")
        with open(path, "wb") as file:
            file.write(text)
        yield path
