"""The commands of the program with their words, and the help that it prints of them, made of launcher/commands.txt; the built
program is compared with these (checks/program). The parser of the words adds the command `help` by itself.

    python3 launcher/commands.py                    prints the names of the commands
    python3 launcher/commands.py NAME               prints the help of a command, or, for `torusmem`, of the program
    python3 launcher/commands.py --write PROGRAM    writes launcher/commands.txt as this program prints the table: the path that
                                                    launcher/look.py prints, say
"""
from __future__ import annotations

import functools
import os
import subprocess
import sys
from dataclasses import dataclass, field

PATH = f"{os.path.dirname(os.path.realpath(__file__))}/commands.txt"
# The columns of a help text.
WIDTH = 100


@dataclass
class Word:
    """A positional word of a command, or an option: its kind (launcher/commands.txt says which there are), and what it is."""

    name: str
    kind: str
    about: str
    is_required: bool = False

    def limits(self) -> tuple[int, int] | None:
        """The least and the most of a number."""
        least, dots, most = self.kind.partition("..")
        return (int(least), int(most)) if dots else None

    def is_written(self) -> bool:
        """Whether its value is written by hand: a number, or replies."""
        return self.limits() is not None or self.kind == "REPLIES"

    def shown(self) -> str:
        """An option with its values, as the help names it."""
        names = [f" <{it}>" for it in self.kind.split(",")] if self.is_files() else [f" <{self.name}>"] * (self.kind != "-")
        return f"--{self.name}" + "".join(names)

    def is_files(self) -> bool:
        """Whether it is followed by files that have names of their own."""
        return "," in self.kind and self.kind.isupper()

    def choices(self) -> list[str]:
        """The words of which it is one; none where it isn't."""
        return self.kind.split(",") if "," in self.kind and not self.is_files() else []


@dataclass
class Command:
    """A command, its positional words and its options in the order of the help."""

    name: str
    about: str
    arguments: list[Word] = field(default_factory=list)
    options: list[Word] = field(default_factory=list)


@dataclass
class Table:
    """What the program is, its commands by name, and the options of all but `help`."""

    about: str = ""
    commands: dict[str, Command] = field(default_factory=dict)
    common: list[Word] = field(default_factory=list)


def text() -> str:
    """What `torusmem --commands` prints."""
    with open(PATH, encoding="utf-8") as file:
        return "".join(it for it in file if not it.startswith("#"))


@functools.lru_cache(maxsize=None)
def table() -> Table:
    """The table of launcher/commands.txt."""
    made, last = Table(), Command("", "")
    for line in filter(None, text().split("\n")):
        word, rest = line.split(" ", 1)
        if word == "program":
            made.about = rest
        elif word == "command":
            name, about = rest.split(" ", 1)
            last = made.commands[name] = Command(name, about)
        else:
            rows = last.arguments if word == "argument" else last.options
            if word == "common":
                rows, rest = made.common, rest.split(" ", 1)[1]
            name, kind, about = rest.split(" ", 2)
            rows.append(Word(name, kind, about, word == "required"))
    topic = Word("[COMMAND]...", "COMMAND", "Print help for the subcommand(s)")
    made.commands["help"] = Command("help", "Print this message or the help of the given subcommand(s)", [topic])
    return made


def options_of(it: Command) -> list[Word]:
    """The options of a command, with those of all."""
    return [] if it.name == "help" else [*it.options, *table().common]


def usage(it: Command) -> str:
    """The usage of a command."""
    words = [f"[OPTIONS]"] * (it.name != "help") + [word.shown() for word in it.options if word.is_required]
    return " ".join(["Usage: torusmem", it.name, *words, *map(bracketed, it.arguments)])


def bracketed(it: Word) -> str:
    return it.name if it.name.startswith("[") else f"<{it.name}>"


def listed(rows: list[tuple[str, str]], is_apart: bool = False) -> list[str]:
    """Rows of what is named and what it is, behind it, or on a line of its own."""
    if is_apart:
        return [line for what, about in rows for line in (f"  {what}", f"          {about}")]
    room = max(len(what) for what, _ in rows)
    return [f"  {what:<{room}}  {about}" for what, about in rows]


def help_text(name: str) -> str:
    """The help of a command, or of the program."""
    rows = table()
    if name == "torusmem":
        commands = listed([(it.name, it.about) for it in rows.commands.values()])
        options = listed([("-h, --help", "Print help"), ("-V, --version", "Print version")])
        lines = [rows.about, "", "Usage: torusmem <COMMAND>", "", "Commands:", *commands, "", "Options:", *options]
        return "\n".join(lines) + "\n"
    it = rows.commands[name]
    lines = [it.about, "", usage(it), "", "Arguments:", *listed([(bracketed(word), word.about) for word in it.arguments])]
    shown = [(f"    {word.shown()}", word.about) for word in options_of(it)]
    if shown:
        # Where little room is left behind the longest name, a text that is too long for it has all on lines of their own.
        taken = max(len(what) for what, _ in shown) + 8
        is_apart = 10 * taken > 4 * WIDTH and any(len(about) > WIDTH - taken for _, about in shown)
        lines += ["", "Options:", *listed([*shown, ("-h, --help", "Print help")], is_apart)]
    return "\n".join(lines) + "\n"


def write(program: str) -> int:
    """Writes the table that the program prints, behind the comment of the file."""
    printed = subprocess.run([program, "--commands"], stdout=subprocess.PIPE, check=True).stdout.decode("utf-8")
    with open(PATH, encoding="utf-8") as file:
        head = "".join(it for it in file if it.startswith("#"))
    with open(PATH, "w", encoding="utf-8") as file:
        file.write(head + printed)
    return 0


def main() -> int:
    """Prints what is asked for."""
    if sys.argv[1:2] == ["--write"] and len(sys.argv) == 3:
        return write(sys.argv[2])
    names = [*table().commands]
    if sys.argv[1:] and sys.argv[1] not in (*names, "torusmem") or len(sys.argv) > 2:
        sys.stderr.write(__doc__ or "")
        return 2
    sys.stdout.write(help_text(sys.argv[1]) if sys.argv[1:] else "".join(f"{it}\n" for it in names))
    return 0


if __name__ == "__main__":
    sys.exit(main())
