"""Which answers can come? All outcomes of a script over all schedules of processors, routers and banks.

    tools/outcomes machine.txt script.txt
    tools/outcomes machine.txt script.txt --run 2 > steps.txt && ./torusmem steps machine.txt script.txt steps.txt
    tools/outcomes --places machine.txt script.txt --fences
    tools/outcomes --litmus examples/litmus/*.litmus

An outcome is the reply to each operation, by processor and in the order of issue, and the words in the end. They are those of
`torusmem outcomes`, which is proved; with --plain they are found by a plain model of the machine in Python, so NOTHING OF THAT IS
PROVED (checks/outcome_rows compares both). `torusmem steps` replays the run to an outcome.

With --places each address of the scripts is put at each tile in turn, as the script's words may lie anywhere: a table has a line
for each placement, with its outcomes by their numbers. With --fences it says of each fence, by its line in the script, whether it
is superfluous there: without it alone the outcomes are the same. Else it is needed, for the outcomes that come without it.

--at 1,0 looks at one placement alone: each address by its tile. With --svg it draws up to four placements, on a ring of at most four
tiles: the ways of the requests, and in bold the outcomes that not all of them have.

With --litmus it reads tests as litmus7 has them, of X86 or RISCV: stores, loads, atomics, full fences, and `exists`. Thread k runs
at tile k of a ring of four tiles (more for more threads), of depth 2 and four tags, or of the machine of --machine. It prints at
how many placements of the words some run ends as the test asks, and which memory models allow that, by all runs of their abstract
machines: coherent, fenced, pso, tso and sc.

--runs FOLDER writes of each such run, and of one for each needed fence, the machine, the script and the steps. Where a search has
more than N states (--states), its outcomes may be more than are known, and the status is 5.
"""
from __future__ import annotations

import argparse
import itertools
import os
from typing import Dict, List, Sequence, Tuple

from torusmem_tools import command, progress
from torusmem_tools.command import Refusal, WrongWords
from torusmem_tools.draw import placement_picture
from torusmem_tools.model import campaign_cases, litmus_machine, litmus_models, outcome_places, replay, trial
from torusmem_tools.model.outcome_list import NOTE
from torusmem_tools.model.outcome_places import Found, Place
from torusmem_tools.model.outcome_states import Outcome
from torusmem_tools.model.torus import Shape
from torusmem_tools.texts import litmus
from torusmem_tools.texts.columns import aligned

TOOL = "outcomes"
MOST_PLACES, MOST_LOGS = 4096, 100000


def words() -> command.Parser:
    """The words of the command line."""
    parser = command.parser(TOOL, __doc__)
    parser.add_argument("texts", metavar="TEXT", nargs="+", help="the machine and the scripts; with --litmus tests; - is standard input")
    parser.add_argument("--run", metavar="K", type=command.whole(0, 10**7), help="print the steps of a run to outcome K")
    parser.add_argument("--places", action="store_true", help="a table of all placements of the addresses")
    parser.add_argument("--at", metavar="TILES", action="append", type=tiles_of, help="with --places: this placement alone, as 1,0; may stand several times")
    parser.add_argument("--svg", action="store_true", help="with --at: a picture of these placements")
    parser.add_argument("--fences", action="store_true", help="with --places: which fences are superfluous")
    parser.add_argument("--litmus", action="store_true", help="a table of litmus tests, beside what memory models allow")
    parser.add_argument("--machine", metavar="MACHINE", help="with --litmus: the text of a machine, in place of a ring")
    parser.add_argument("--runs", metavar="FOLDER", help="with --fences or --litmus: write the runs there")
    parser.add_argument("--plain", action="store_true", help="by a plain model in Python, which isn't proved")
    parser.add_argument("--states", metavar="N", type=command.whole(1, 10**7), default=100000, help="the most states of a search; 100000 if not given")
    return parser


def tiles_of(word: str) -> Place:
    """The reader of a placement, as 1,0."""
    return tuple(command.whole(0, 63)(it) for it in word.split(","))


def refuse_words(given: argparse.Namespace) -> None:
    """Refuses words that are of no use together."""
    of_no_use = [
        ("--places", given.places and given.litmus, "with --litmus"),
        ("--fences", given.fences and not given.places, "without --places"),
        ("--at", given.at is not None and not given.places, "without --places"),
        ("--svg", given.svg and not given.at, "without --at"),
        ("--svg", given.svg and given.fences, "with --fences"),
        ("--machine", given.machine is not None and not given.litmus, "without --litmus"),
        ("--runs", given.runs is not None and not given.litmus and not given.fences, "without --fences or --litmus"),
        ("--run", given.run is not None and (given.places or given.litmus), "with --places or --litmus"),
    ]
    for name, is_idle, why in of_no_use:
        if is_idle:
            raise WrongWords(f"{name} is of no use {why} (--help says more)")
    if not given.litmus and len(given.texts) != 2:
        raise WrongWords("a machine and its scripts are two texts (--help says more)")
    command.refuse_twice(*given.texts, given.machine)


def accepted(machine: bytes, script: bytes, names: Sequence[str]) -> campaign_cases.Case:
    """The machine and the scripts of two texts, as the program takes them."""
    with command.temporary_file(machine) as first, command.temporary_file(script) as second, command.temporary_file(b"") as third:
        command.torusmem_on(dict(zip((first, second), names)), "steps", first, second, third, fine=(0, 3))
    return replay.case_of(machine, script)


def lines_of(script: bytes) -> List[int]:
    """The number of each line of a script that says something."""
    return [number for number, line in enumerate(script.split(b"\n"), 1) if replay.words_of(line)]


def write_run(folder: str, name: str, found: Found, outcome: Outcome) -> None:
    """Writes the three texts of a run to an outcome."""
    steps = "".join(f"{it}\n" for it in [*found.run(outcome), "# finished"])
    try:
        os.makedirs(folder, exist_ok=True)
        for kind, text in (("machine", found.case.machine_text()), ("script", found.case.script_text()), ("steps", steps)):
            with open(os.path.join(folder, f"{name}.{kind}.txt"), "w", encoding="ascii") as file:
                file.write(text)
    except OSError as fault:
        raise Refusal(f"cannot write in {folder}: {fault.strerror or fault}") from None


def ended(lines: List[str], is_exact: bool, is_plain: bool) -> str:
    """The text of some lines, behind a note where they are by the plain model. Where something isn't decided, it is printed at once, and the status says so."""
    text = "".join(f"{it}\n" for it in ([NOTE] if is_plain else []) + lines)
    if not is_exact:
        command.put(TOOL, text)
        command.leave(TOOL, 5)
    return text


def listed(found: Found, run: int | None, states: int, is_plain: bool) -> str:
    """The outcomes, or the steps of a run to one."""
    outcomes = sorted(found.outcomes, key=Outcome.text)
    if run is not None:
        if run >= len(outcomes):
            others = "" if found.search.is_exact else f", by {states} states; there may be others"
            raise WrongWords(f"there is no outcome {run}: {len(outcomes)} are known{others}")
        return ended([*found.run(outcomes[run]), "# finished"], True, is_plain)
    lines = [f"outcome {k} : {it.text()}" for k, it in enumerate(outcomes)]
    is_exact = found.search.is_exact
    last = f"exact, {found.search.states} states"
    return ended([*lines, last if is_exact else f"undecided, {states} states: {len(outcomes)} outcomes are known, there may be others"], is_exact, is_plain)


# What is found at a placement, with all fences and without each.
Look = Tuple[Found, Dict[int, Found]]


class Table:
    """The table of placements: what is found at each, and without each fence there."""

    def __init__(self, case: campaign_cases.Case, lines: List[int], how: Tuple[int, bool]) -> None:
        self.case, self.lines, self.how, self.is_exact = case, lines, how, True
        self.rows: List[Tuple[Place, Found, Dict[int, Found]]] = []

    def look(self, place: Place, fences: List[int]) -> Look:
        """Looks at a placement, with all fences and without each."""
        others = {it: outcome_places.found(outcome_places.without(self.case, it), place, *self.how) for it in fences}
        return outcome_places.found(self.case, place, *self.how), others

    def add(self, place: Place, look: Look) -> None:
        """Adds what is found at a placement."""
        here, others = look
        self.rows.append((place, here, others))
        self.is_exact &= all(it.search.is_exact for it in (here, *others.values()))

    def numbers(self) -> Dict[Outcome, int]:
        """All outcomes, each with its number."""
        every = {it for _, here, others in self.rows for found in (here, *others.values()) for it in found.outcomes}
        return {it: k for k, it in enumerate(sorted(every, key=Outcome.text))}

    def text(self) -> List[str]:
        """The lines."""
        numbers = self.numbers()
        head = [f"word {a}" for a in outcome_places.addresses(self.case)] + ["outcomes"]
        rows = [head + [f"fence in line {self.lines[it]}" for it in (self.rows[0][2] if self.rows else ())]]
        for place, here, others in self.rows:
            cells = [f"tile {it}" for it in place] + [of(numbers, here.outcomes, here)]
            rows.append(cells + [self.verdict(numbers, here, it) for it in others.values()])
        return aligned(rows, range(len(rows[0]))) + [f"outcome {k} : {it.text()}" for it, k in numbers.items()]

    def verdict(self, numbers: Dict[Outcome, int], here: Found, without: Found) -> str:
        """What is said of a fence."""
        new = [it for it in without.outcomes if it not in here.outcomes]
        if new and here.search.is_exact:
            return f"needed: {of(numbers, new, without)}"
        return "superfluous" if here.search.is_exact and without.search.is_exact else "undecided"

    def write(self, folder: str) -> None:
        """Writes a run for each needed fence."""
        for place, here, others in self.rows:
            for line, without in others.items():
                new = sorted((it for it in without.outcomes if it not in here.outcomes), key=Outcome.text)
                if new and here.search.is_exact:
                    write_run(folder, f"tiles-{'-'.join(map(str, place))}.without-line-{self.lines[line]}", without, new[0])


def of(numbers: Dict[Outcome, int], outcomes: Sequence[Outcome] | Dict[Outcome, Outcome], found: Found) -> str:
    """Outcomes by their numbers; with `..` where there may be more."""
    return " ".join([*map(str, sorted(numbers[it] for it in outcomes)), *([] if found.search.is_exact else [".."])])


def chosen(case: campaign_cases.Case, given: argparse.Namespace) -> List[Place]:
    """The placements that are looked at."""
    count = len(outcome_places.addresses(case))
    for place in given.at or []:
        if len(place) != count or max(place) >= case.tiles():
            raise WrongWords(f"--at {','.join(map(str, place))}: the scripts have {count} addresses, and the tiles are below {case.tiles()}")
    if not given.at and case.tiles() ** count > MOST_PLACES:
        raise Refusal(f"there are {case.tiles() ** count} placements, and at most {MOST_PLACES} are gone through")
    return given.at or list(outcome_places.places(case))


def placed(case: campaign_cases.Case, lines: List[int], given: argparse.Namespace) -> str:
    """The table of placements, or the picture."""
    table, places, told = Table(case, lines, (given.states, given.plain)), chosen(case, given), progress.Progress(TOOL)
    fences = outcome_places.fences(case) if given.fences else []
    looks = outcome_places.looks(lambda it: table.look(it, fences), places, given.plain)
    for at, place in enumerate(places, 1):
        with told.waiting(f"placement {at} of {len(places)}"):
            table.add(place, next(looks))
    if given.runs:
        table.write(given.runs)
    if given.svg:
        return picture(case, table)
    return ended(table.text(), table.is_exact, given.plain)


def picture(case: campaign_cases.Case, table: Table) -> str:
    """The picture of some placements."""
    shape = Shape(case.radices, case.datelines or [it - 1 for it in case.radices])
    if shape.dims > 1 or shape.tiles > placement_picture.MOST_TILES or len(table.rows) > 4 or not table.is_exact:
        raise Refusal("a picture has up to four placements, of known outcomes, on a ring of at most four tiles")
    names = outcome_places.addresses(case)
    common = set.intersection(*(set(found.outcomes) for _, found, _ in table.rows))
    requests = sorted({(p, int(text.split()[1])) for p, text in case.lines if text != "fence"})
    panels = []
    for place, found, _ in table.rows:
        words = {tile: [a for a, home in zip(names, place) if home == tile] for tile in place}
        outcomes = sorted(found.outcomes, key=Outcome.text)
        scripts = [f"P{p}, {look}: " + "; ".join(text for at, text in case.lines if at == p)
                   for p, look in zip(sorted({it for it, _ in requests}), itertools.cycle(placement_picture.LOOKS))]
        said = [*scripts, "", f"{len(outcomes)} outcomes:", *(f"  {it.text().partition(' ;')[0]}" for it in outcomes)]
        bold = [False] * (len(scripts) + 2) + [it not in common for it in outcomes]
        heading = ", ".join(f"word {a} at tile {home}" for a, home in zip(names, place))
        panels.append(placement_picture.Panel(heading, words, requests, said, bold))
    return placement_picture.draw_placements(shape, panels, "placements of the words of a script")


def refuse_large(test: litmus.Litmus, case: campaign_cases.Case, name: str) -> None:
    """Refuses a test that the machine has no room for, or that would take too long."""
    tiles = min(case.tiles(), 64 if case.radices[1:] else 8)
    if len(test.threads) > tiles:
        raise Refusal(f"{name}: {len(test.threads)} threads, and {tiles} tiles")
    if case.tiles() ** len(test.openings) > MOST_PLACES:
        raise Refusal(f"{name}: more than {MOST_PLACES} placements of its words")
    if litmus_models.most_logs(test.operations(), len(test.openings)) > MOST_LOGS:
        raise Refusal(f"{name}: its loads may read too many stores: there are more than {MOST_LOGS} ways")


def tests(given: argparse.Namespace) -> str:
    """The table of litmus tests."""
    machine = None
    if given.machine:
        machine = accepted(command.contents(given.machine), b"", (given.machine, "the empty script"))
    rows, is_exact, told = [["test", "machine", *litmus_machine.MODELS]], True, progress.Progress(TOOL)
    for at, name in enumerate(given.texts, 1):
        test = litmus.read(command.contents(name), name)
        case = machine or litmus_machine.ring(test)
        refuse_large(test, case, name)
        with told.waiting(f"test {at} of {len(given.texts)}, {test.name}"):
            allowed = litmus_machine.allowed(test)
            shown = litmus_machine.shown(test, case, given.states, given.plain)
        seen, open_ = [it for it in shown if it.outcome], sum(it.is_open() for it in shown)
        is_exact &= not open_
        said = f"{len(seen)} of {len(shown)}" + (f", {open_} undecided" if open_ else "")
        rows.append([test.name, said, *("yes" if allowed[it] else "no" for it in litmus_machine.MODELS)])
        if given.runs and seen and seen[0].outcome:
            write_run(given.runs, f"{test.name}.tiles-{'-'.join(map(str, seen[0].place))}", seen[0].found, seen[0].outcome)
    return ended(aligned(rows, range(len(rows[0]))), is_exact, given.plain)


def hold_program() -> None:
    """Has the program built where that is to be done, once: the many runs behind this don't look at its sources again."""
    if not os.environ.get("TORUSMEM") and os.path.isdir(os.path.join(command.ROOT, "crates")):
        os.environ["TORUSMEM"] = trial.built_torusmem()


def work() -> str:
    """What the tool prints."""
    given = words().parse_args()
    refuse_words(given)
    if (given.litmus or given.places) and not given.plain:
        hold_program()
    if given.litmus:
        return tests(given)
    machine, script = (command.contents(it) for it in given.texts)
    case = accepted(machine, script, given.texts)
    if given.places:
        return placed(case, lines_of(script), given)
    with progress.Progress(TOOL).waiting(f"a search of at most {given.states} states"):
        found = outcome_places.as_it_is(case, given.states, given.plain)
    return listed(found, given.run, given.states, given.plain)
