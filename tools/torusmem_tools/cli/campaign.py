"""Draws a run from each seed, makes it, judges it, and keeps a record; makes a run that goes wrong smaller.

    tools/campaign --seeds 1..1000 --by workers --jobs 2 --record workers.tsv
    tools/campaign --join one.tsv other.tsv --record all.tsv
    tools/campaign --shrink 17 --by workers --keep small

A seed draws a machine (shape, datelines, depth, tags, words) and scripts by a traffic pattern. Run it is by
`torusmem run` with 1 to 16 workers, by `torusmem round`, by `torusmem steps` and a drawn schedule (that of
`torusmem draw` for even seeds, where the program has that command), or through the C library, by drawn calls of
which some are wrong, with the compiler's sanitizers. Each report is judged by `torusmem check`, and by a reading of
its own: one memory, scripts, what waits for an answer, order, tags.

The record has a line for each seed: seed, shape, operations that the scripts can make at most, way and options,
verdict, rounds where they are known (else -), seconds. A campaign goes on where its record ends. The texts of a
run that goes wrong are kept in the folder of --keep. At the end there is a summary; the status is 1 if a run
went wrong. docs/CAMPAIGNS.md shows campaigns on one machine and on many.
"""
from __future__ import annotations

import argparse
import contextlib
import os
import re
import signal
import tempfile
import time
from typing import Callable

from torusmem_tools import command
from torusmem_tools.model import campaign_cases, shrinking, trial
from torusmem_tools.model.seed_runs import rows_made
from torusmem_tools.progress import rewrite
from torusmem_tools.texts.campaign_record import Row, add, append_row, read_rows, summary, write_record

TOOL = "campaign"
MOST_SEED = 2**60


class Progress:
    """On a terminal, a line of standard error that says how far a campaign is, and that is gone at the end."""

    def __init__(self) -> None:
        self.begun, self.said, self.is_shown = time.monotonic(), 0.0, os.isatty(2)

    def say(self, done: int, of: int, wrong: int) -> None:
        """Says it, at most twice a second."""
        now = time.monotonic()
        if self.is_shown and now - self.said > 0.5:
            self.said = now
            rate = done / max(now - self.begun, 0.001)
            self.put(f"{TOOL}: {done} of {of} seeds, {wrong} wrong, {rate:.1f} a second")

    def put(self, text: str) -> None:
        """Writes in place of what the line has."""
        if self.is_shown:
            rewrite(text)


def seeds_of(word: str) -> range:
    """The reader of `A..B`."""
    found = re.fullmatch(r"(\d{1,19})(?:\.\.(\d{1,19}))?", word)
    if found is None or int(found[1]) > int(found[2] or found[1]) or int(found[2] or found[1]) > MOST_SEED:
        raise command.bad_word(f"'{word}' is no seed and no range of seeds, as 1..1000")
    return range(int(found[1]), int(found[2] or found[1]) + 1)


def minutes_of(word: str) -> float:
    """The reader of a number of minutes."""
    if re.fullmatch(r"\d{1,6}(\.\d{1,3})?", word) and float(word) > 0:
        return float(word)
    raise command.bad_word(f"'{word}' is no number of minutes, as 10 or 0.5")


def programs_of(given: argparse.Namespace, folder: str) -> trial.Programs:
    """The programs that runs need, built where that is to be done."""
    if given.by == "workers" and command.is_unproved():
        raise command.Refusal("run makes threads, which a look without proofs can't: unset TORUSMEM_UNPROVED")
    torusmem = trial.built_torusmem()
    driver = trial.built_driver(folder) if given.by == "library" else ""
    return trial.Programs(torusmem, driver, given.by == "draw" and trial.has_command(torusmem, "draw"))


def campaign(given: argparse.Namespace, folder: str) -> list[Row]:
    """Makes the runs of the seeds that the record doesn't have, as far as there is time; answers the record."""
    rows = read_rows(given.record) if given.record and os.path.exists(given.record) else {}
    left = [it for it in given.seeds if (given.by, it) not in rows]
    until = time.monotonic() + 60 * given.minutes if given.minutes else None
    progress, wrong, done = Progress(), 0, 0
    programs = programs_of(given, folder)
    with append_row(given.record, rows) as record, contextlib.closing(rows_made(left, given, programs, folder)) as made:
        for row in made:
            add(rows, row)
            record.write(row.text())
            record.flush()
            done, wrong = done + 1, wrong + (not row.is_good())
            progress.say(done, len(left), wrong)
            if until is not None and time.monotonic() > until:
                break
    if until is None and done < len(left):
        raise command.Refusal("a process of the campaign was ended")
    progress.put("")
    wanted = set(given.seeds)
    return sorted((it for it in rows.values() if it.seed in wanted and it.key()[0] == given.by), key=Row.key)


def join_records(given: argparse.Namespace) -> list[Row]:
    """The lines of all records together; written, where that is asked."""
    rows: dict[tuple[str, int], Row] = {}
    for path in given.join:
        for row in read_rows(path).values():
            add(rows, row)
    found = sorted(rows.values(), key=Row.key)
    if given.record:
        write_record(given.record, found)
    return found


def given_case(given: argparse.Namespace, folder: str) -> tuple[campaign_cases.Case, trial.Programs]:
    """The run that is to be made smaller, that of a seed or of the texts of a folder; and the programs for it."""
    if given.shrink.isascii() and given.shrink.isdigit():
        programs = programs_of(given, folder)
        return campaign_cases.draw_case(int(given.shrink), given.by, programs.draws), programs
    text: Callable[[str], str] = lambda name: command.contents(os.path.join(given.shrink, name)).decode("ascii", "replace")
    there: Callable[[str], bool] = lambda name: os.path.exists(os.path.join(given.shrink, name))
    words = text("words.txt").split() if there("words.txt") else [given.by]
    try:
        steps = text("steps.txt") if there("steps.txt") else ""
        # where there are steps, the words that drew them are of no use any more
        options = [] if steps else words[1:]
        case = campaign_cases.case_of_texts(words[0], text("machine.txt"), text("script.txt"), steps, options)
        given.by = case.way
        return case, programs_of(given, folder)
    except (ValueError, KeyError, IndexError):
        raise command.Refusal(f"{given.shrink} hasn't the texts of a run") from None


def shrunk(given: argparse.Namespace, folder: str) -> str:
    """Makes a run smaller, keeps its texts, and says what is left of it."""
    (case, programs), tries, progress = given_case(given, folder), 0, Progress()
    times = given.tries or (10 if case.way == "workers" else 1)
    first = trial.tried_often(case, programs, times)
    if first.is_good():
        raise command.Refusal(f"nothing went wrong in {times} {'try' if times == 1 else 'tries'}")
    if first.steps and first.kind != "draw":
        case = case.with_(steps=first.steps, options=[])

    def fails(other: campaign_cases.Case) -> bool:
        nonlocal tries
        tries += 1
        sizes = f"{len(other.lines)} script lines, {len(other.steps)} steps, {other.tiles()} tiles"
        progress.put(f"{TOOL}: {tries} tries, {sizes}")
        return trial.tried_often(other, programs, times, first.kind).kind == first.kind

    small = shrinking.smaller(case, fails)
    with tempfile.TemporaryDirectory(prefix="torusmem-") as room:
        last = trial.try_case(small, programs, room, True)
    progress.put("")
    where = given.keep or f"small-{case.way}"
    trial.store(small, last, where)
    parts = [f"{small.tiles()} tiles", f"depth {small.depth}", f"tags {small.tags}", f"words {small.words}"]
    parts += [f"{len(small.lines)} script lines"] + ([f"{len(small.steps)} steps"] if small.way == "draw" else [])
    parts += small.options
    return f"{', '.join(parts)}: {last.verdict()}\n{tries} tries; the texts are in {where}\n"


def words() -> command.Parser:
    """The words of the command line."""
    parser = command.parser(TOOL, __doc__)
    what = parser.add_mutually_exclusive_group(required=True)
    text = "the seeds, from A to B, both of them too; or one seed"
    what.add_argument("--seeds", metavar="A..B", type=seeds_of, help=text)
    what.add_argument("--join", metavar="RECORD", nargs="+", help="puts records together, into that of --record")
    text = "makes the run of a seed smaller, or that of a folder of texts as --keep has them"
    what.add_argument("--shrink", metavar="SEED", help=text)
    text = "how runs are made; by workers if not given"
    parser.add_argument("--by", choices=campaign_cases.WAYS, help=text)
    text = "how many runs at once; 1 if not given"
    parser.add_argument("--jobs", metavar="N", type=command.whole(1, 1024), help=text)
    parser.add_argument("--record", metavar="FILE", help="the record; where it is there, the campaign goes on at its end")
    text = "where the texts of runs that go wrong are kept, or those of --shrink"
    parser.add_argument("--keep", metavar="FOLDER", help=text)
    parser.add_argument("--minutes", metavar="M", type=minutes_of, help="ends after so many minutes")
    text = "of --shrink: how often a run is tried; 1 if not given, 10 by workers"
    parser.add_argument("--tries", metavar="N", type=command.whole(1, 10**6), help=text)
    return parser


# The options that mean nothing with each of the three.
USELESS = {
    "seeds": ("tries",),
    "join": ("by", "jobs", "keep", "minutes", "tries"),
    "shrink": ("jobs", "record", "minutes"),
}


def asked() -> argparse.Namespace:
    """What the command line asks for. Options that mean nothing with the others are refused."""
    given = words().parse_args()
    what = next(it for it in USELESS if getattr(given, it) is not None)
    for it in USELESS[what]:
        if getattr(given, it) is not None:
            raise command.WrongWords(f"--{it} is of no use with --{what} (--help says more)")
    given.by, given.jobs = given.by or "workers", given.jobs or 1
    return given


def work() -> str:
    """What the tool prints."""
    given = asked()
    signal.signal(signal.SIGTERM, signal.default_int_handler)
    with tempfile.TemporaryDirectory(prefix="torusmem-") as folder:
        if given.shrink:
            return shrunk(given, folder)
        rows = join_records(given) if given.join else campaign(given, folder)
    if any(not it.is_good() for it in rows):
        command.put(TOOL, summary(rows))
        raise command.Refusal(f"{sum(not it.is_good() for it in rows)} of {len(rows)} runs went wrong")
    return summary(rows)
