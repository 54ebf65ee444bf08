"""Makes a report, which `torusmem check` can judge, from a table of operations (CSV, comma-separated values).

    tools/from_csv examples/trace.csv --shape 2 --words 8 > report.txt
    ./torusmem check report.txt
    tools/from_csv examples/stale.csv --check
    tools/from_csv examples/calls.csv --trace > trace.txt
    ./torusmem linearize trace.txt
    tools/from_csv examples/models/buffers.csv --log > log.txt
    ./torusmem model log.txt

The first line of the table names its columns, and each further line is an operation:

    processor,index,tag,operation,address,values,reply,bank,issued,served,answered

  processor  the tile that asked, from 0
  index      the number of the operation among those of its processor, from 0
  tag        0 to 15; empty is 0
  operation  load, store, swap, cas, add, and, or, xor, max or min
  address    the number of the word, from 0
  values     none for load, `EXPECTED NEW` for cas, else one
  reply      `ok` for store, else the word that was there before; `true` or `ok` for a cas that found what it expected
  bank       the tile that served; empty is the home of the address: its remainder by the number of tiles
  issued, served, answered
             times, in cycles or seconds, say, with up to nine digits behind a point. Empty `answered`: no
             answer yet. Empty `served`: not served yet; such an operation is skipped

A number may be spelled `17`, `+17`, `17.0`, `1_000`, `0x1f` or `0b11`; one above 2^64-1 is refused. With --hex bare digits of
addresses, values and replies are hexadecimal, as `00ff`, also those of --init, --final and --opening. Columns may be parted
by semicolons or tabs, too, where the table has no commas and no quotes.

Times become event numbers by their rank. At the same time issues come first, then services, then answers, and
of the same kind that of the earlier line. The entries of a bank come in the order of their services. Whether
the replies and the times fit together is not looked at here: `torusmem check` says that.

With --check no report is printed: it is given to `torusmem check`, and if it is bad, the first line of the table
is named, in the order of services, with which the trace isn't good any more, and why. There is no limit to the
length of the table, to processors, indexes and addresses: of a long table many reports are made, each of some words
or of some operations on one, and judged side by side. Shape and words needn't be given; where the shape is, a bank
must be the home of its address, else the column isn't looked at.

With --trace a trace text is printed, for `torusmem linearize`, which needs no time of a service: it finds one order
of the operations, or the first event from which on there is none. Of the columns only these are looked at, and may
stand in any order: processor, operation, address, values, reply, issued, answered. A processor, an address and a value may
be names, which are numbered; comments of the trace text say how. What looks like a number and isn't one (`00ff`, `1e3`, `-1`)
is a name, and so is a word among numbers: the last lines on standard error count both. `nil` is a key that is missing, as a
reply or as the value of a store, which deletes it; `fail` as the reply is an operation that failed. A cas may reply `true` or
`ok`, if it found what it expected, and `false` or `fail`, if it found another word. Times may be dates, as RFC 3339 has them.
At equal times issues come before answers, which is the most that the times allow; with --strict answers come first. Words
are given by --words, or as many as the addresses need. Where `nil` or a name is a value, each key holds `nil` at first, unless
an operation counts on it (add, and, or, xor, max, min); else 0; --opening says otherwise.

In place of a table --trace reads a log, in the order of time: a map on each line, as EDN (a history of Jepsen) or as JSON, or
lines of `jepsen.util` in Jepsen's own log:

    {:process 0, :type :invoke, :f :write, :value 3}
    {:process 0, :type :invoke, :f :cas, :value ["x" [1 2]]}
    {:process 0, :type :invoke, :f :put, :key "x", :value "blue"}
    INFO  jepsen.util - 0 :invoke :write 3

The value is that of one register, or a pair of a key and what is said of it. `read` and `get`, `write` and `put`, and `cas` are
load, store and cas; `:ok` answers, a cas with the word that it expected; what is `:info` is never answered. Lines of
the nemesis are skipped. What failed did not happen, and is skipped. But a cas that failed without an `:error` found
another word than it expected: --check looks for its place in the order. What was skipped, and how many are never answered, is
printed last, on standard error.

With --trace --check the trace is judged, and the line of the table or of the log is named from which on there is no order; with
--explain, and on a terminal, also which values were possible there, who wrote the value that came, who wrote over it
before, and of a lost update both operations.

With --log a log text is printed, for `torusmem model`, which says which memory models it obeys. The lines of a processor
stand in its program order, and `fence` is an operation, too, without an address. Of the columns only these are looked
at: processor (below 4096), operation, address, values, reply (may be empty), and if there are such:

  order      a number that rises along the writes of each word, as the time at which they took effect. Without this
             column the lines of a word's writes stand in their order. A load that has one read the last write of its
             word with a lesser number
  source     of a load: the line of the table whose write it read, or `opening`. A load without source and
             order read the only write that left its reply
  annotations   for RISC-V's memory model: acquire, release (the bits aq and rl), rcpc, of a load reserved, of a store
             conditional, divided by blanks; of a fence its two sets, of r, w and rw, or tso
  address on, data on, control on   the lines whose reply the address, or what is written, comes of; of the first
             operation behind a branch those that the branch depends on

With --log --check it is judged, and what `torusmem model` prints names the lines of the table; the status is 1 if a
model isn't obeyed.

The status is 0 for a yes, 1 for a no and 5 where `torusmem linearize` doesn't decide; 2 if the words of the command line are
wrong, or a table, a log or a file can't be read or judged. With --junit FILE the verdict is written to a file, too: a test
case for the table, or for each memory model; a no is a failure whose text is what --explain says, and statuses 2 and 5 are
errors.

A text of --init or --final has a line `ADDRESS WORD` for each word that isn't 0 at the beginning, or at the end.
With --final the words at the end are those of the text, in place of those that the operations leave.
"""
from __future__ import annotations

import sys


import gc
import os
import tempfile
import time
from argparse import Namespace
from dataclasses import dataclass
from typing import Any, List, Sequence

from torusmem_tools import command, parallel, progress
from torusmem_tools.model import trace_check, trace_verdict, trial
from torusmem_tools.model.torus import radices_of
from torusmem_tools.model.trace_pieces import Judge
from torusmem_tools.texts import call_table, call_trace, junit, operation_log, report, table, table_report
from torusmem_tools.texts.memory_words import memory_of, opening_of, words_given
from torusmem_tools.texts.numbering import MOST_WORDS

TOOL = "from_csv"
# The status where a text or a file is refused, since 1 is a no.
REFUSED = 2


@dataclass
class Found:
    """What is printed: the text, the lines on standard error behind it, the status, and what was judged where it isn't one
    verdict on the table."""

    text: str
    lines: Sequence[str] = ()
    status: int = 0
    cases: Sequence[junit.Case] = ()


def words() -> command.Parser:
    """The words of the command line."""
    parser = command.parser(TOOL, __doc__)
    parser.add_argument("table", metavar="TABLE", help="the table; - is standard input, here or for one of the texts")
    shape = "the radix of each dimension, 2 to 8, as 4x2; their product, the number of tiles, is at most 64"
    parser.add_argument("--shape", metavar="RADIX[xRADIX..]", type=radices_of, help=shape)
    most = command.whole(1, MOST_WORDS)
    parser.add_argument("--words", metavar="M", type=most, help="the number of words, at most 65536; with --trace or --log 2^32")
    init = "the words that are not 0 at the beginning, as a text, or one, as --init A V; may be given more than once"
    parser.add_argument("--init", metavar="FILE", type=opening_of, action="append", default=[], help=init)
    parser.add_argument("--final", metavar="FILE", help="the words that are not 0 at the end")
    parser.add_argument("--check", action="store_true", help="have the trace judged, and name the line that is wrong")
    parser.add_argument("--trace", action="store_true", help="print a trace text, for torusmem linearize")
    parser.add_argument("--log", action="store_true", help="print a log text, for torusmem model")
    why = "with --trace --check: say why there is no order, as is always said on a terminal"
    parser.add_argument("--explain", action="store_true", help=why)
    first = "with --trace: what each key holds at first, spelled as in the table or the log, where --init says nothing of it"
    parser.add_argument("--opening", metavar="WORD", help=first)
    parser.add_argument("--strict", action="store_true", help="with --trace: at equal times answers come before issues")
    bound = "with --trace --check: how many configurations of a word are allowed at once"
    parser.add_argument("--configurations", metavar="N", type=command.whole(1, 2**32 - 1), help=bound)
    bare = "addresses, values and replies are hexadecimal where they are bare digits, as 00ff"
    parser.add_argument("--hex", action="store_true", help=bare)
    build = "with --check: write the verdict to a JUnit file, too, for a build system"
    parser.add_argument("--junit", metavar="FILE", help=build)
    cores = "with --check: how many processes; as many as cores if not given"
    parser.add_argument("--jobs", metavar="N", type=command.whole(1, 1024), help=cores)
    return parser


def say_unserved(unserved: int, served: int) -> None:
    """Says how many operations were left out."""
    if unserved:
        command.say(TOOL, f"left out, since not served: {unserved} of {unserved + served} operations")


def check(given: Namespace) -> Found:
    """Has the trace judged."""
    tiles = report.product(given.shape) if given.shape else None
    limits = table.Limits(tiles, given.words, is_hex=given.hex)
    memory = memory_of(given, limits)
    text: Any = command.map_file(given.table)  # bytes, or a map of a file
    found = trace_check.Table(given.table, table.with_commas(text, given.table), limits)
    table.first_row(found.text[: found.begin()], given.table)
    with tempfile.TemporaryDirectory(prefix="torusmem-") as folder:
        judge = Judge(trial.built_torusmem(), folder, memory)
        told = progress.Progress(TOOL)
        try:
            made = trace_check.Check(found, judge, given.jobs or parallel.cores(), told).verdict()
        finally:
            told.clear()
    say_unserved(made.unserved, made.served)
    fault = made.fault
    if fault:
        raise command.No(f"{given.table}, line {fault.line}: {fault.why}" if fault.line else fault.why)
    return Found(made.good_line())


def made(given: Namespace) -> Found:
    """The report."""
    trace = table_report.Trace(given.shape, given.words, [], is_hex=given.hex)
    memory = memory_of(given, trace.limits())
    table_report.read(table.with_commas(command.contents(given.table), given.table), given.table, trace)
    table_report.rank(trace.entries)
    say_unserved(trace.unserved, len(trace.entries))
    return Found("".join(f"{it}\n" for it in table_report.lines(trace, memory)))


def refuse_shape(given: Namespace) -> None:
    """Refuses what a text of the program has no use for."""
    if given.shape or given.final:
        way = "--log" if given.log else "--trace"
        raise command.WrongWords(f"{'--shape' if given.shape else '--final'} is of no use with {way} (--help says more)")


def words_of(given: Namespace, found: call_trace.Calls | operation_log.Table, opening: dict[int, int]) -> int:
    """How many words a text of the program has."""
    greatest = found.greatest_address()
    count = given.words or max([greatest, *opening]) + 1
    if greatest >= count:
        line, address = found.first_address_from(count)
        raise command.Refusal(f"{given.table}, line {line}: the address {address} is not below {count}")
    return count


def opening_words(given: Namespace) -> dict[int, int]:
    """The opening words of a text of the program that the command line gives."""
    return memory_of(given, table.Limits(None, given.words or MOST_WORDS, is_hex=given.hex)).opening.words


def log(given: Namespace) -> Found:
    """The log text, or with --check what the program says of it."""
    opening = opening_words(given)
    found = operation_log.read_log(command.contents(given.table), given.table, opening, given.hex)
    lines_made = list(found.lines(words_of(given, found, opening), opening))
    if not given.check:
        return Found("".join(f"{text}\n" for _, text in lines_made))
    said, is_obeyed = operation_log.model_verdict(lines_made, given.table)
    return Found(said, status=0 if is_obeyed else 1, cases=operation_log.cases_of(said, given.table))


def trace(given: Namespace) -> Found:
    """The trace text, or with --check what the program says of it."""
    gc.disable()  # it would look again and again at rows that hold no circles
    told = progress.Progress(TOOL)
    opening = opening_words(given)
    calls = call_table.read_calls(command.contents(given.table), given.table, given.strict, told, given.hex)
    told.say("putting events in order")
    opening = calls.opening(opening, given.opening)
    words = words_of(given, calls, opening)
    lines = [it for it in (calls.left_out(is_placed=given.check), *calls.names.left()) if it]
    is_told = given.explain or os.isatty(2)
    try:
        if given.check:
            options = [] if given.configurations is None else ["--configurations", str(given.configurations)]
            judge = trace_verdict.Judge(calls, words, opening, options, told)
            text = trace_verdict.verdict(judge, is_told or given.junit is not None)
        else:
            text = call_trace.trace_of(calls, words, opening).text()
    except command.Refusal as why:
        why.lines = [*(why.lines if is_told or not why.story else ()), *(f"{TOOL}: {it}" for it in lines)]
        raise
    finally:
        told.clear()
    return Found(text, lines)


def refuse_useless(given: Namespace) -> None:
    """Refuses options that mean nothing with the others."""
    if given.trace and given.log:
        raise command.WrongWords("--trace and --log print different texts (--help says more)")
    for alone, is_given in (("--strict", given.strict), ("--configurations", given.configurations is not None),
                            ("--explain", given.explain), ("--opening", given.opening is not None)):
        if given.trace or not is_given:
            continue
        raise command.WrongWords(f"{alone} is of use with --trace alone (--help says more)")
    judging = {"--jobs": given.jobs, "--explain": given.explain or None, "--configurations": given.configurations}
    of_check = next((name for name, it in {**judging, "--junit": given.junit}.items() if it is not None), None)
    if of_check and not given.check:
        raise command.WrongWords(f"{of_check} is of use with --check alone (--help says more)")
    if (given.trace or given.log) and given.jobs is not None:
        raise command.WrongWords(f"--jobs is of no use with {'--log' if given.log else '--trace'} (--help says more)")


def result(given: Namespace) -> Found:
    """What is found of the table, or the text that is made of it."""
    if not given.trace:
        call_table.refuse_calls(given.table, given.log)
    if given.trace or given.log:
        return trace(given) if given.trace else log(given)
    return check(given) if given.check else made(given)


def result_for_build(given: Namespace) -> Found:
    """The same, and in a JUnit file."""
    junit.refuse_input(given.junit, [given.table, given.final, *(it for it in given.init if isinstance(it, str))])
    junit.write(given.junit, b"")
    began = time.monotonic()

    def put(cases: List[junit.Case]) -> None:
        junit.write(given.junit, junit.text_of(TOOL, given.table, cases, time.monotonic() - began))

    try:
        found = result(given)
    except command.Refusal as why:
        put([junit.refused_case(given.table, why, REFUSED)])
        raise
    put(list(found.cases) or [junit.Case(given.table, found.status, found.text.rstrip("\n"), found.lines)])
    return found


def refuse_missing(given: Namespace) -> None:
    """Refuses a command line on which a report lacks something, or that names standard input twice."""
    is_text = given.trace or given.log
    if not is_text and given.words is not None and given.words > 65536:
        raise command.WrongWords("argument --words: there are at most 65536 without --trace and --log (--help says more)")
    missing = [name for name in ("shape", "words") if getattr(given, name) is None]
    if missing and not given.check and not is_text:
        wanted = ", ".join(f"--{name}" for name in missing)
        raise command.WrongWords(f"the following arguments are required without --check: {wanted} (--help says more)")
    command.refuse_twice(given.table, given.final, *given.init)
    if is_text:
        refuse_shape(given)


def work() -> str:
    """What the tool prints."""
    given = words().parse_args(words_given(sys.argv[1:]))
    refuse_useless(given)
    refuse_missing(given)
    found = result(given) if given.junit is None else result_for_build(given)
    if found.lines or found.status:
        command.put(TOOL, found.text)
        for it in found.lines:
            command.say(TOOL, it)
        command.leave(TOOL, found.status)
    return found.text
