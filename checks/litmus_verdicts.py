"""What memory models allow of the tests in examples/litmus, by the literature; for checks/outcome_rows.

The letters are of coherence, PSO, TSO and SC: `a` allowed, `f` forbidden, `-` not told there.

SC forbids each test, and each word alone is coherent in all but those on one word (Lamport, IEEE TC 28(9), 1979; Alglave,
Maranget and Tautschnig, Herding Cats, TOPLAS 36(2), 2014, Figure 17 and Table III, which have the tests' names). TSO: Sewell, Sarkar,
Owens, Zappa Nardelli and Myreen, x86-TSO, CACM 53(7), 2010, and Owens, Sarkar and Sewell, TPHOLs 2009 (SB, SB+mfences, n6, iwp2.4 =
SB+rfis, MP, LB, IRIW, WRC, atomics); of the others by the rule of Alglave, Fences in Weak Memory Models, FMSD 40(2), 2012: a test is
forbidden if no pair on its cycle is a store and a later load without a fence between. PSO: by the same rule with pairs of two
stores, too (The SPARC Architecture Manual, Version 8, Appendix K). Its manual doesn't order the store of an atomic before a later
load, as x86 does.
"""
from __future__ import annotations

import contextlib
import glob
import os
from typing import Dict, Iterator, List, Optional, Set, Tuple

from rows import PROGRAM, ROOT, asked

from torusmem_tools import command
from torusmem_tools.model import campaign_cases, litmus_machine, litmus_models, outcome_places
from torusmem_tools.model.memory_models import MODELS, verdicts
from torusmem_tools.model.outcome_states import Outcome
from torusmem_tools.texts import litmus, report
from torusmem_tools.texts.litmus import Litmus

TOLD = ("coherent", "pso", "tso", "sc")
VERDICTS = """
SB             a a a f
SB+mfence+po   a a a f
SB+mfences     a f f f
SB+xchgs       a - f f
SB+rfis        a a a f
MP             a a f f
MP+mfence+po   a f f f
MP+po+mfence   a a f f
MP+mfences     a f f f
MP+xchg+po     a a f f
LB             a f f f
LB+mfence+po   a f f f
LB+mfences     a f f f
R              a a a f
R+mfence+po    a a a f
R+po+mfence    a a f f
R+mfences      a f f f
S              a a f f
S+mfence+po    a f f f
S+po+mfence    a a f f
S+mfences      a f f f
2+2W           a a f f
2+2W+mfence+po a a f f
2+2W+mfences   a f f f
WRC            a f f f
WRC+mfences    a f f f
RWC            a a a f
RWC+po+mfence  a f f f
RWC+mfences    a f f f
ISA2           a a f f
ISA2+mfences   a f f f
IRIW           a f f f
IRIW+mfences   a f f f
n6             a a a f
CoRR           f f f f
CoWW           f f f f
CoRW           f f f f
CoWR           f f f f
INC            f f f f
CAS            f f f f
"""
# What a row looks at, and why it fails.
Row = Tuple[str, str]


def tests() -> Dict[str, Litmus]:
    """The tests of the folder, by their names."""
    found = {}
    for path in sorted(glob.glob(f"{ROOT}/examples/litmus/*.litmus")):
        with open(path, "rb") as file:
            found[os.path.basename(path)[: -len(".litmus")]] = litmus.read(file.read(), path)
    return found


def outcomes(test: Litmus) -> Dict[str, Set[Outcome]]:
    """The outcomes that each model allows."""
    found: Dict[str, Set[Outcome]] = {it: set() for it in MODELS}
    operations, openings = test.operations(), list(test.openings.values())
    for log in litmus_models.logs(operations, openings):
        replies, words = litmus_models.ended(log)
        rows: List[Tuple[object, ...]] = []
        for p, thread in enumerate(test.threads):
            made = [it for it in thread.operations if it.kind != "fence"]
            rows += [tuple("ok" if it.kind == "store" else replies[p, it.number] for it in made)] if made else []
        outcome = Outcome(tuple(rows), tuple((a, word) for a, word in enumerate(words) if word))
        for model, obeys in verdicts(log).items():
            found[model] |= {outcome} if obeys else set()
    return found


def log_text(test: Litmus, outcome: Outcome) -> str:
    """The log of a test with the replies of an outcome."""
    lines = ["log 1", f"words {len(test.openings)}"]
    lines += [f"init {a} {value}" for a, value in enumerate(test.openings.values()) if value]
    lines += [f"made {it.processor} {it.text()}" for it in test.operations()]
    for thread, replies in zip((it for it in test.threads if it.operations), outcome.replies):
        made = [it for it in thread.operations if it.kind != "fence"]
        lines += [f"replied {it.processor} {it.number} {reply}" for it, reply in zip(made, replies)]
    return "".join(f"{it}\n" for it in lines)


def by_program(test: Litmus, allowed: Dict[str, Set[Outcome]]) -> Iterator[str]:
    """What is wrong with what `model --values` says of each list of replies that the weakest model or a stronger one allows."""
    for outcome in {it.replies: it for it in allowed["coherent"]}.values():
        said = asked("model", "-", "--values", text=log_text(test, outcome))
        wanted = [f"{model} {'yes' if any(it.replies == outcome.replies for it in allowed[model]) else 'no'}" for model in MODELS]
        # Two writes that leave the same, as two increments that found the same: no reply says which of them a load found.
        if said.status != 5 and said.lines() != wanted:
            yield f"{said} in place of {wanted} of {outcome.text()}"


def on_machine(test: Litmus, allowed: Dict[str, Set[Outcome]]) -> Iterator[str]:
    """What is wrong with what the machine shows: each outcome is one of the model that it is proved to obey, at each placement; and
    with one tag its outcomes are those of sequential consistency, wherever the words are."""
    for tags, model in ((4, "fenced"), (1, "sc")):
        case = litmus_machine.scripts(test, litmus_machine.ring(test).with_(tags=tags, radices=[max(3, len(test.threads))]))
        for place in outcome_places.places(case):
            found = outcome_places.found(case, place, 100000, True)
            made = set(found.outcomes)
            if not found.search.is_exact or not made <= allowed[model] or tags == 1 and made != allowed[model]:
                yield f"with {tags} tags at {place} {len(made)} outcomes, and {model} has {len(allowed[model])}"


def outcome_of(found: report.Report) -> Outcome:
    """The outcome that a report shows."""
    replies: Dict[int, List[Tuple[int, object]]] = {}
    for it in found.entries:
        replies.setdefault(it.source, []).append((it.index or 0, "ok" if it.reply is None else it.reply))
    rows = tuple(tuple(reply for _, reply in sorted(replies[p], key=lambda one: one[0])) for p in sorted(replies))
    return Outcome(rows, tuple(sorted(found.closing.items())))


def replayed(case: campaign_cases.Case, steps: List[str]) -> Optional[Outcome]:
    """What the report of some steps shows; nothing where a script isn't finished."""
    texts = (case.machine_text(), case.script_text(), "".join(f"{it}\n" for it in steps))
    with contextlib.ExitStack() as files:
        said = asked("steps", *(files.enter_context(command.temporary_file(it.encode())) for it in texts))
    return None if said.status else outcome_of(report.parse_report(said.out.encode(), "the report"))


def runs(test: Litmus) -> Iterator[str]:
    """What is wrong with the runs that show what a test asks for: `torusmem steps` must show the same words and replies."""
    for it in litmus_machine.shown(test, litmus_machine.ring(test), 100000, True):
        if it.outcome and replayed(it.found.case, it.found.run(it.outcome)) != it.found.outcomes[it.outcome]:
            yield f"the run at {it.place} shows something else"


def rows() -> Iterator[Row]:
    """All rows."""
    told = {it.split()[0]: it.split()[1:] for it in VERDICTS.strip().split("\n")}
    found = tests()
    yield "the tests of examples/litmus", "" if set(found) == set(told) and len(told) == 40 else f"{set(found) ^ set(told)}"
    for name, test in found.items():
        allowed, ends = litmus_machine.allowed(test), outcomes(test)
        wrong = [model for model, it in zip(TOLD, told[name]) if it != "-" and allowed[model] != (it == "a")]
        yield f"{name}: what models allow", " ".join(wrong)
        yield f"{name}: on the machine", "; ".join(on_machine(test, ends))
        if PROGRAM:
            yield f"{name}: by replies", "; ".join(by_program(test, ends))
            yield f"{name}: its runs", "; ".join(runs(test))
