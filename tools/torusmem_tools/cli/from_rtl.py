"""Makes a trace text or a log text from the waveform (VCD) of somebody's own memory in hardware.

    tools/from_rtl examples/wave.vcd examples/wave_signals.txt > trace.txt
    ./torusmem linearize trace.txt
    tools/from_rtl examples/wave.vcd examples/wave_signals.txt --log > log.txt
    ./torusmem model log.txt

The second text says which signals of the waveform are the ports of the processors, a line for each:

    processors 2                        how many processors there are
    words 10                            and how many words
    clock bench.clock                   everything counts just before a rising edge of it,
    reset bench.reset                   but not while this is 1 (may be missing)
    issue bench.accepted/1              1: the processor issues an operation at this edge
    operation bench.operation/4         its number: 0 load, 1 store, 2 swap, 3 cas, 4 add, 5 and, 6 or, 7 xor, 8 max, 9 min
    address bench.address/32            its address; or in place of this line
    bank bench.bank/6                   a bank
    word bench.word/32                  and a word of it,
    banks 2                             by which the address is word * banks + bank
    first bench.first/64                its value; of a cas what it expects
    second bench.second/64              of a cas what it writes
    tag bench.tag/4                     its tag (if there is none, a processor is answered in the order of its issues)
    answer bench.replied/1              1: the processor is answered at this edge,
    answer_tag bench.reply_tag/4        with this tag,
    reply bench.reply_value/64          and this word, the one before the operation; not looked at for a store
    place bench.reply_place/32          of an answer: a number that rises along the operations of each word (may be missing)

A name is a signal's with its scopes, as the waveform has them, or the end of it behind a point, if only one ends so. `/4` behind
it says that each processor has four bits, processor 0 the lowest; `{P}` in it stands for the processor's number, as
tile{P}.issue. Lines `code 12 load` name other numbers of operations, of all that there are. `#` begins a comment.

At one edge issues come before answers, which allows the most orders. Answers that stand at the end of the waveform count,
too. A log has the operations of each processor in the order of its issues. With `place` it says how each word's operations
follow one another; else give it to `torusmem model --values`. An operation that isn't answered is open in a trace. In a log
there is no such operation: a load is left out, and another refused.
"""
from __future__ import annotations

from typing import List

from torusmem_tools import command
from torusmem_tools.texts import port_signals, waveform

TOOL = "from_rtl"


def words() -> command.Parser:
    """The words of the command line."""
    parser = command.parser(TOOL, __doc__)
    parser.add_argument("dump", metavar="VCD", help="the waveform; - is standard input")
    parser.add_argument("signals", metavar="SIGNALS", help="which signals are the ports of the processors")
    parser.add_argument("--log", action="store_true", help="print a log text, for torusmem model, in place of a trace")
    return parser


def trace(reader: port_signals.Reader) -> List[str]:
    """The lines of the trace."""
    lines = ["trace 1", f"words {reader.names.numbers['words']}"]
    for is_answer, it in reader.events():
        lines.append(f"answer {it.processor} {it.index} {it.reply}" if is_answer else f"issue {it.processor} {it.asked}")
    return lines


def log(reader: port_signals.Reader) -> List[str]:
    """The lines of the log."""
    for _ in reader.events():
        pass
    lines, placed, left_out = ["log 1", f"words {reader.names.numbers['words']}"], [], 0
    for its in reader.made:
        kept = [it for it in its if it.answered is not None or it.kind != "load"]
        left_out += len(its) - len(kept)
        for at, it in enumerate(kept):
            if it.answered is None:
                raise command.Refusal(f"{reader.dump.path}, time {it.issued}: {it.asked} by processor {it.processor} is never "
                                      "answered, so a log can't say whether it took effect")
            lines += [f"made {it.processor} {it.asked}", f"replied {it.processor} {at} {it.reply}"]
            if it.place >= 0:
                placed.append((it.address, it.place, f"{'served' if it.kind == 'load' else 'wrote'} {it.processor} {at}"))
    if left_out:
        command.say(TOOL, f"left out, since never answered: {left_out} load{'s' if left_out > 1 else ''}")
    return lines + [text for _, _, text in sorted(placed, key=lambda it: it[:2])]


def work() -> str:
    """What the tool prints."""
    given = words().parse_args()
    command.refuse_twice(given.dump, given.signals)
    names = port_signals.read(given.signals)
    reader = port_signals.Reader(waveform.read(given.dump), names)
    lines = log(reader) if given.log else trace(reader)
    if not any(reader.made):
        raise command.Refusal(f"{given.dump}: no operation is issued")
    return "".join(f"{it}\n" for it in lines)
