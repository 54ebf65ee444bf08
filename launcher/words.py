"""What the words of the command line ask for, as far as that is known before the program is built: help, the version,
an unknown command, wrong words, and the names of files. The texts are those of the built program, with which
`checks/program` compares them. Words of which this can't tell are left to the program."""

from __future__ import annotations

import errno
import os
import re
import stat
from dataclasses import dataclass
from typing import NoReturn

import commands

VERSION = "torusmem 0.3.0\n"
# Of an option the limits of its number, or WORD for any word, WORDS for two; None for a flag.
WORD, WORDS = (0, -1), (0, -2)


def limits_of(it: commands.Word) -> tuple[int, int] | None:
    """What stands behind an option."""
    return None if it.kind == "-" else it.limits() or (WORDS if it.is_files() else WORD)


ROWS = [it for it in commands.table().commands.values() if it.name != "help"]
# The positional words of each command, and its options; and the options that have to be given.
COMMANDS = {it.name: ([word.name for word in it.arguments], {word.name: limits_of(word) for word in commands.options_of(it)}) for it in ROWS}
REQUIRED = {it.name: [word.name for word in it.options if word.is_required] for it in ROWS}
FILES = {word.name for it in ROWS for word in it.arguments if word.kind == "PATH"}
TILES = (0, 4294967295)
# Why a file can't be read, where the program has words for it.
WHY = {errno.ENOENT: "no such file or directory", errno.EACCES: "permission denied", errno.EISDIR: "it is a directory"}
TRY = "\n\nFor more information, try '--help'.\n"


@dataclass
class Answer:
    """What there is to say without the program: a text for standard output, or for standard error, and the status; and
    what standard error says behind it."""

    text: str
    status: int
    is_asked_for: bool = False
    reason: str = ""


@dataclass
class Job:
    """A command with its words as they are given, the places of those that name files, and whether `--explain` is one, and
    `--json`."""

    words: list[str]
    files: list[int]
    is_explained: bool = False
    is_json: bool = False


class Wrong(Exception):
    """The words are wrong: what the program says of them, without `error: ` and without the hint at the end."""


class Unclear(Exception):
    """What the program makes of the words can't be told here."""


def help_of(name: str) -> Answer:
    return Answer(commands.help_text(name), 2, True)


def usage_of(name: str) -> str:
    """The usage of a command, as its help says it, or of the program where the name is empty."""
    text = help_of(name or "torusmem").text
    return "\n\n" + next(line for line in text.split("\n") if line.startswith("Usage: "))


def closeness(a: str, b: str) -> float:
    """How close two words are, from 0 to 1 (Jaro, JASA 84(406), 1989)."""
    if a == b:
        return 1.0
    reach = max(max(len(a), len(b)) // 2 - 1, 0)
    taken = [False] * len(b)
    ours = []
    for at, letter in enumerate(a):
        for other in range(max(at - reach, 0), min(at + reach + 1, len(b))):
            if b[other] == letter and not taken[other]:
                taken[other] = True
                ours.append(letter)
                break
    if not ours:
        return 0.0
    theirs = [letter for letter, is_taken in zip(b, taken) if is_taken]
    swapped = sum(x != y for x, y in zip(ours, theirs)) // 2
    found = len(ours)
    return (found / len(a) + found / len(b) + (found - swapped) / found) / 3.0


def similar(word: str, names: list[str]) -> list[str]:
    """The names that are close to the word, the closest last."""
    fits: list[tuple[float, str]] = []
    for name in names:
        fit = closeness(word, name)
        if fit > 0.7:
            fits.insert(sum(other <= fit for other, _ in fits), (fit, name))
    return [name for _, name in fits]


def number(text: str, shown: str, limits: tuple[int, int]) -> None:
    """Holds the word that is given for a number to its limits."""
    why = ""
    if not text:
        why = "cannot parse integer from empty string"
    elif text[0] == "-":
        raise Unclear
    elif not re.fullmatch(r"\+?[0-9]+", text):
        why = "invalid digit found in string"
    elif int(text) >= (2**63 if limits[1] < 2**63 else 2**64):
        why = "number too large to fit in target type"
    elif not limits[0] <= int(text) <= limits[1]:
        why = f"{text.lstrip('+')} is not in {limits[0]}..={limits[1]}"
    if why:
        raise Wrong(f"invalid value '{text}' for '{shown}': {why}")


def asked(words: list[str]) -> Answer | Job | None:
    """What the words ask for, or None where only the program can tell."""
    if any("\udc80" <= letter <= "\udcff" for word in words for letter in word):
        return Answer("the command line can't be read\n", 2)
    try:
        return top(words)
    except Wrong as wrong:
        return Answer(f"error: {wrong}{TRY}", 2)
    except Unclear:
        return None


def top(words: list[str]) -> Answer | Job:
    """What the words ask for."""
    if not words:
        names = ", ".join([*COMMANDS, "help"])
        raise Wrong(f"'torusmem' requires a subcommand but one was not provided\n  [subcommands: {names}]{usage_of('')}")
    first, rest = words[0], words[1:]
    if first in ("-h", "--help"):
        return help_of("torusmem")
    if first in ("-V", "--version"):
        return Answer(VERSION, 2 if rest else 0, True)
    if first == "--commands" and not rest:
        return Answer(commands.text(), 0, True)
    if first == "help":
        return help_on(rest)
    if first in COMMANDS:
        return command(first, rest)
    if first.startswith("-"):
        stray("", first, ["help", "version"])
    close = similar(first, [*COMMANDS, "help"])
    tip = ""
    if close:
        few = "a similar subcommand exists: " if len(close) == 1 else "some similar subcommands exist: "
        tip = "\n\n  tip: " + few + ", ".join(f"'{name}'" for name in close)
    raise Wrong(f"unrecognized subcommand '{first}'{tip}{usage_of('')}")


def help_on(names: list[str]) -> Answer:
    """The help of the command that is named."""
    if not names:
        return help_of("torusmem")
    if names[0] not in [*COMMANDS, "help"]:
        raise Wrong(f"unrecognized subcommand '{names[0]}'{usage_of('')}")
    if len(names) > 1:
        raise Unclear
    return help_of(names[0])


def command(name: str, rest: list[str]) -> Answer | Job:
    """What the words of a command ask for."""
    needed, options = COMMANDS[name]
    found: list[int] = []
    given: list[str] = []
    at = 0
    while at < len(rest):
        word = rest[at]
        at += 1
        if word in ("-h", "--help"):
            return help_of(name)
        if word.startswith("-") and word != "-":
            option, has_value, value = word[2:].partition("=")
            if not word.startswith("--") or option not in options:
                if given:
                    raise Unclear
                stray(name, word, [*options, "help"], bool(found))
            limits = options[option]
            if limits == WORDS:
                raise Unclear
            if limits is not None and not has_value:
                if at == len(rest):
                    raise Wrong(f"a value is required for '--{option} <{option}>' but none was supplied")
                value = rest[at]
                at += 1
            shown = f"--{option} <{option}>" if limits else f"--{option}"
            if limits == WORD:
                pass
            elif limits:
                number(value, shown, limits)
            elif has_value:
                if given or not value:
                    raise Unclear
                raise Wrong(f"unexpected value '{value}' for '{shown}' found; no more were expected{usage_with(name, [option])}")
            if option in given:
                raise Wrong(f"the argument '{shown}' cannot be used multiple times{usage_of(name)}")
            given.append(option)
            continue
        if len(found) == len(needed):
            raise Wrong(f"unexpected argument '{word}' found{usage_of(name)}")
        if needed[len(found)] not in FILES:
            number(word, f"<{needed[len(found)]}>", TILES)
        found.append(at - 1)
    missing = [f"--{it} <{it}>" for it in REQUIRED.get(name, []) if it not in given]
    missing += [f"<{it}>" for it in needed[len(found) :]]
    if missing:
        lines = "".join(f"\n  {it}" for it in missing)
        raise Wrong(f"the following required arguments were not provided:{lines}{usage_with(name, given)}")
    text = {"network": misuse, "model": misuse_of_model}.get(name, lambda given: "")(given)
    if text:
        return Answer(text, 2)
    return Job([name, *rest], [1 + place for place, it in zip(found, needed) if it in FILES], "explain" in given, "json" in given)


def misuse(given: list[str]) -> str:
    """What is wrong with options of `network` beside each other, or nothing."""
    runs = {"run", "replay"} & set(given)
    if len(runs) == 2:
        return "network takes --run or --replay, not both\n"
    if "names" in given and runs:
        return "--names goes with neither --run nor --replay: it is of a verdict\n"
    if "depth" in given and not runs:
        return "--depth goes with --run or --replay: a verdict is that of every depth\n"
    return ""


def misuse_of_model(given: list[str]) -> str:
    """What is wrong with options of `model` beside each other, or nothing."""
    if {"values", "texts"} <= set(given):
        return "model takes --texts or --values, not both\n"
    if "nodes" in given and "values" not in given:
        return "--nodes goes with --values: without it nothing is searched\n"
    return ""


def usage_with(name: str, used: list[str]) -> str:
    """The usage of a command, or of the program where the name is empty, with the options that have to be given, and
    those that were used or meant."""
    needed, options = COMMANDS[name] if name else (["COMMAND"], {})
    named = list(dict.fromkeys([*REQUIRED.get(name, []), *used]))
    shown = [f"--{it} <{it}>" if options.get(it) else f"--{it}" for it in named]
    return "\n\nUsage: " + " ".join(["torusmem", *[name] * bool(name), *shown, *[f"<{it}>" for it in needed]])


def stray(name: str, word: str, options: list[str], is_behind_words: bool = False) -> NoReturn:
    """Says that the command, or the program where the name is empty, has no such option."""
    if not re.fullmatch(r"-\w|--[\w-]+", word):
        raise Unclear
    close = similar(word[2:], options)
    if close:
        raise Wrong(
            f"unexpected argument '{word}' found\n\n  tip: a similar argument exists: '--{close[-1]}'{usage_with(name, close[-1:])}"
        )
    tip = f"\n\n  tip: to pass '{word}' as a value, use '-- {word}'" if name else ""
    usage = usage_with(name, []) if is_behind_words and word.startswith("--") else usage_of(name)
    raise Wrong(f"unexpected argument '{word}' found{tip}{usage}")


def unread(job: Job) -> Answer | None:
    """The fault of the first text that can't be read. A pipe is left to the program, which reads it once; so is
    standard input, whose name is `-`, and which can be one text only."""
    names = [job.words[place] for place in job.files]
    for at, name in enumerate(names):
        why: str | None = ""
        if name == "-":
            why = "standard input can be one text only" if "-" in names[:at] else ""
        else:
            try:
                kind = os.stat(name).st_mode
                if stat.S_ISREG(kind):
                    with open(name, "rb"):
                        pass
                elif stat.S_ISDIR(kind):
                    why = WHY[errno.EISDIR]
            except (OSError, ValueError) as fault:
                why = WHY.get(getattr(fault, "errno", None) or 0)
        if why != "":
            is_told = why and (job.is_explained or os.isatty(2))
            reason = f"{name}: {why}\n" if is_told else ""
            if job.is_json:
                return Answer(fault_object(job.words[0], f"cannot read {name}"), 1, True, reason)
            return Answer(f"cannot read {name}\n", 1, False, reason)
    return None


def json_string(line: str) -> str:
    """A line as the program writes it in a JSON object."""
    quoted = re.sub(r'["\\]', r"\\\g<0>", line)
    return '"' + re.sub("[\0-\x1f]", lambda it: f"\\u{ord(it[0]):04x}", quoted) + '"'


def fault_object(command: str, text: str) -> str:
    """The JSON object of a command that answers a fault with these lines."""
    lines = re.split("\r?\n", text[:-1] if text.endswith("\n") else text)
    return f'{{"command": {json_string(command)}, "verdict": "fault", "lines": [{", ".join(map(json_string, lines))}]}}\n'
