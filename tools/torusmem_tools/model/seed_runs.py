"""Makes the runs of seeds in processes side by side, for tools/campaign; each gives a line of the record."""
from __future__ import annotations

import argparse
import os
import selectors
from typing import Generator, NoReturn

from torusmem_tools import command, parallel
from torusmem_tools.model import campaign_cases, trial
from torusmem_tools.texts.campaign_record import Row, row_of


def made_run(seed: int, given: argparse.Namespace, programs: trial.Programs, folder: str) -> Row:
    """Makes the run of a seed."""
    case = campaign_cases.draw_case(seed, given.by, programs.draws)
    found = trial.try_case(case, programs, folder)
    if given.keep and not found.is_good():
        trial.store(case, found, os.path.join(given.keep, f"{given.by}-{seed}"))
    words = " ".join([given.by, *case.options])
    rounds = "-" if found.rounds is None else str(found.rounds)
    return Row(seed, case.shape(), case.operations(), words, found.verdict(), rounds, f"{found.wall:.4f}")


def told_runs(
    seeds: list[int], given: argparse.Namespace, programs: trial.Programs, folder: str, pipe: int
) -> NoReturn:
    """In a process of its own: makes the runs of the seeds, and writes a line of the record for each into the pipe."""
    parallel.leave_signals()
    try:
        for seed in seeds:
            os.write(pipe, made_run(seed, given, programs, folder).text().encode("utf-8"))
    except (command.Refusal, OSError, MemoryError) as why:
        os.write(pipe, f"{command.printable(str(why))}\n".encode("utf-8"))
    finally:
        os._exit(0)


def row_told(line: str) -> Row:
    """The line of the record that a process of its own tells, or its refusal."""
    found = row_of(line)
    if found is None:
        raise command.Refusal(line)
    return found


def rows_made(seeds: list[int], given: argparse.Namespace, programs: trial.Programs, folder: str) -> Generator[Row, None, None]:
    """Makes the runs of the seeds, so many at once as is asked, and answers their lines as they come."""
    pipes, children = selectors.DefaultSelector(), []
    try:
        for job in range(min(given.jobs, len(seeds))):
            out, into = os.pipe()
            child = os.fork()
            if child == 0:
                told_runs(seeds[job :: given.jobs], given, programs, os.path.join(folder, str(job)), into)
            os.close(into)
            children.append(child)
            pipes.register(out, selectors.EVENT_READ, [b""])
        while pipes.get_map():
            for ready, _ in pipes.select():
                read = os.read(ready.fd, 65536)
                *lines, ready.data[0] = (ready.data[0] + read).split(b"\n")
                for line in lines:
                    yield row_told(line.decode("utf-8", "replace"))
                if not read:
                    pipes.unregister(ready.fd)
                    os.close(ready.fd)
    finally:
        parallel.end(children)
