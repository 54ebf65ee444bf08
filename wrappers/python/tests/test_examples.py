"""The package over the texts of examples/, whose reports the program printed."""

from __future__ import annotations

import copy
import doctest
import gc
import importlib.util
import os
import pickle
import re
import threading
import unittest
import warnings

import torusmem
from torusmem import Answer, Answered, BadReport, Channel, Choice, Closed, Cycle, Entry, EventFault, Fill, Issued, Kind
from torusmem import Linearizable, Link, Machine, NoPair, NoRoute, NotLinearizable, Operation, Rising, Spin, TextFault
from torusmem import Init, LogFault, Made, Model, Read, Replied, Served, Steps, TooMany, Undecided, Watch, WrongReply, Wrote
from torusmem import Unwritten, linearize, linearize_answer, model, model_values, network, network_answer
from torusmem import Outcomes, Reached, Unsearched, outcomes, outcomes_run, reach

ROOT = os.path.dirname(os.path.dirname(os.path.dirname(os.path.dirname(os.path.realpath(__file__)))))
EXAMPLES = os.path.join(ROOT, "examples")
SMALL = "radix 2\ndims 1\ndepth 4\ntags 4\nwords 8\n"


def read(name):
    with open(os.path.join(EXAMPLES, name), encoding="ascii") as file:
        return file.read()


def path(name):
    return os.path.join(EXAMPLES, name)


def first():
    return Machine(read("machine.txt"), read("script.txt"))


def in_threads(works, at_once=True):
    """Runs functions in threads of their own, at once or one after the other; what one raises is raised here."""
    failed = []

    def guarded(work):
        try:
            work()
        except BaseException as why:
            failed.append(why)

    threads = [threading.Thread(target=guarded, args=(work,)) for work in works]
    for thread in threads:
        thread.start()
        if not at_once:
            thread.join()
    for thread in threads:
        thread.join()
    for why in failed:
        raise why


def steps(name):
    """The steps of a steps text."""
    of_router = {"take": Choice.TAKE_FROM, "put": Choice.PUT, "credit": Choice.CREDIT_OF}
    for line in read(name).splitlines():
        agent, choice, *number = line.split()
        if number:
            yield int(agent), of_router[choice], int(number[0])
        else:
            yield int(agent), Choice[choice.upper()]


class Runs(unittest.TestCase):
    def test_the_first_run_in_rounds(self):
        with first() as machine:
            self.assertFalse(machine.finished)
            self.assertEqual(machine.finish(), 12)
            self.assertTrue(machine.finished)
            self.assertEqual(machine.report(), read("report.txt"))
            self.assertEqual(machine.finish(), 0)

    def test_the_first_run_in_clocked_rounds(self):
        turn = 0
        with first() as machine, first() as by_one:
            self.assertEqual(machine.finish_clocked(), 34)
            while not by_one.finished:
                by_one.clocked_round(turn)
                turn += 1
            self.assertEqual(turn, 34)
            self.assertEqual(machine.report(), by_one.report())

    def test_rounds_one_by_one(self):
        machine, rounds = first(), 0
        while not machine.finished:
            machine.round()
            rounds += 1
        self.assertEqual((rounds, machine.report()), (12, read("report.txt")))

    def test_the_first_run_by_its_steps(self):
        machine = first()
        left = machine.moves_left
        for step in steps("steps.txt"):
            self.assertTrue(machine.enabled(*step))
            self.assertTrue(machine.step(*step))
            self.assertLess(machine.moves_left, left)
            left = machine.moves_left
        self.assertEqual(machine.report(), read("report.txt"))

    def test_the_flag_by_a_list_of_steps(self):
        made = list(steps("flag/steps.txt"))
        with Machine.read(path("flag/machine.txt"), path("flag/script.txt")) as machine:
            moves = machine.run(made[:425])
            self.assertEqual(machine.report(), read("flag/unfinished.txt"))
            moves += machine.run(it for it in made[425:])
            self.assertEqual(machine.report(), read("flag/report.txt"))
        with Machine.read(path("flag/machine.txt"), path("flag/script.txt")) as machine:
            self.assertEqual(moves, sum(machine.step(*it) for it in made))
            self.assertEqual(machine.run([]), 0)

    def test_answers_and_entries_are_the_lines_of_the_report(self):
        with first() as machine:
            self.assertEqual((machine.answers(0), machine.entries(1)), ([], []))
            machine.finish()
            store, load = Operation.STORE, Operation.LOAD
            self.assertEqual(machine.answers(0), [Answer(0, store, (17,), 1, 0, None), Answer(1, load, (), 1, 1, 17)])
            self.assertEqual(machine.entries(1), [Entry(0, 0, 5, store, (17,), None), Entry(0, 0, 5, load, (), 17)])
            self.assertEqual((machine.answers(1), machine.entries(0)), ([], []))
            self.assertEqual((machine.words(), machine.word(5)), ([0, 0, 0, 0, 0, 17, 0, 0], 17))

    def test_every_operation_comes_back_as_it_was_asked(self):
        asked = "store 5, swap 9, cas 9 6, add 1, and 5, or 8, xor 1, max 20, min 4, load".split(", ")
        olds = [None, 5, 9, 6, 7, 5, 13, 12, 20, 4]
        lines = "1 fence\n".join(f"1 {name} 3 {' '.join(values)}\n" for name, *values in (it.split() for it in asked))
        with Machine(SMALL, lines) as machine:
            machine.finish()
            for found in (machine.answers(1), machine.entries(1)):
                said = [" ".join([it.operation.name.lower(), *map(str, it.values)]) for it in found]
                self.assertEqual((said, [it.old for it in found]), (asked, olds))
            self.assertEqual({(it.source, it.tag, it.address) for it in machine.entries(1)}, {(1, 0, 3)})
            places = [(it.index, it.bank, it.place) for it in machine.answers(1)]
            self.assertEqual(places, [(it, 1, it) for it in range(10)])

    def test_large_words(self):
        with Machine(SMALL + f"init 0 {2**64 - 1}\n", f"0 add 0 2\n1 store 1 {2**63 + 1}\n") as machine:
            machine.finish()
            self.assertEqual(machine.words()[:2], [1, 2**63 + 1])
            self.assertEqual(machine.answers(0)[0].old, 2**64 - 1)


class Looks(unittest.TestCase):
    def test_a_flit_on_its_way(self):
        machine = first()
        self.assertEqual((machine.tiles, len(machine.row()), len(machine.channels())), (2, 24 * 4 + 8 + 1, 24))
        self.assertTrue(machine.step(0, Choice.SEND))
        # The request injection of tile 0 is channel 8. The first flit is a store's head: tile 1, word 2.
        head = 0xA408000000000002
        self.assertEqual([(at, it) for at, it in enumerate(machine.row()) if it], [(32, head)])
        self.assertEqual(machine.channels()[8], (0, 8, (head, 0, 0, 0)))
        self.assertTrue(machine.step(1, Choice.TAKE_FROM, 8))
        self.assertFalse(machine.step(1, Choice.TAKE_FROM, 8))
        self.assertTrue(machine.step(1, Choice.PUT, 8))
        self.assertEqual([it for it in machine.channels() if any(it.words)], [(0, 0, (head, 0, 0, 0))])

    def test_channels_of_every_dimension(self):
        for name, tiles, each, depth in (("dateline", 8, 12, None), ("torus", 16, 20, None), ("cube", 24, 28, None)):
            machine = Machine(read(f"{name}.txt"))
            found = machine.channels()
            depth, shape = int(re.findall(r"(?m)^depth (\d+)", read(f"{name}.txt"))[0]), machine.shape
            self.assertEqual((shape.depth, shape.tiles, shape.ports, 4 + 8 * len(shape.radices)), (depth, tiles, each - 2, each))
            wanted = [(tile, place, (0,) * depth) for tile in range(tiles) for place in range(each)]
            self.assertEqual(found, wanted, name)

    def test_a_route_over_the_dateline(self):
        ring = Machine(read("dateline.txt"))
        inject, hop, eject = Kind.INJECTION, Kind.HOP, Kind.EJECTION
        there = [(inject, 1, 0, False, 0, 0), (hop, 1, 0, False, 0, 7), (hop, 2, 0, False, 1, 9)]
        there += [(hop, 3, 0, False, 1, 10), (eject, 4, 0, False, 0, 17)]
        back = [(inject, 4, 0, False, 0, 18), (hop, 4, 0, True, 0, 25), (hop, 3, 0, True, 1, 27)]
        back += [(hop, 2, 0, True, 1, 28), (eject, 1, 0, False, 0, 35)]
        self.assertEqual((ring.route(1, 4), ring.route(4, 1, reply=True)), (there, back))
        self.assertIsInstance(ring.route(1, 4)[0], Channel)
        hops = [(1, 8, 0), (2, 0, 1), (3, 1, 1), (4, 1, 8)]
        self.assertEqual([ring.next(at, port, 4) for at, port, _ in hops], [it for _, _, it in hops])

    def test_the_order(self):
        machine = first()
        self.assertEqual(list(machine.order()), [])
        machine.finish()
        rows = [tuple(vars(it).values()) for it in machine.order()]
        self.assertEqual(rows, [(1, 0, 0, 0, 1, 2, 3), (1, 1, 0, 1, 4, 5, 6)])
        self.assertEqual([it.served for it in machine.order(1)], [5])
        self.assertEqual(list(machine.order(2**32 - 1)), [])

    def test_the_events(self):
        machine = first()
        self.assertEqual(list(machine.events()), [])
        machine.finish()
        kinds = ["issue", "service", "answer"]
        seen = [(it.number, it.what, it.operation.index) for it in machine.events()]
        self.assertEqual(seen, [(1 + 3 * index + place, kinds[place], index) for index in range(2) for place in range(3)])
        self.assertEqual([it.number for it in machine.events(5)], [5, 6])

    def test_a_machine_of_numbers(self):
        made = Machine.of(torusmem.Shape((3, 4), (2, 0), 8, 16, 5, 0, 0), [1, 2**64 - 1])
        self.assertEqual(made.shape, torusmem.Shape((3, 4), (2, 0), 8, 16, 5, 12, 18))
        self.assertEqual(made.words(), [1, 2**64 - 1, 0, 0, 0])
        index = made.ask(11, torusmem.Operation.ADD, 1, 3)
        fresh = made.reopened()
        self.assertEqual((fresh.shape, fresh.words()), (made.shape, [1, 2, 0, 0, 0]))
        self.assertEqual(made.answer_of(11, index).old, 2**64 - 1)
        for shape, words, why in [
            (((), (), 4, 4, 8, 0, 0), [], "F2"), (((2,) * 4, (1,) * 4, 4, 4, 8, 0, 0), [], "F2"),
            (((9,), (1,), 4, 4, 8, 0, 0), [], "F1"), (((2, 2), (1,), 4, 4, 8, 0, 0), [], "F13"),
            (((2,), (2,), 4, 4, 8, 0, 0), [], "F14"), (((2,), (1,), 9, 4, 8, 0, 0), [], "F6"),
            (((2,), (1,), 4, 4, 1, 0, 0), [1, 2], "F7"),
        ]:
            with self.assertRaisesRegex(ValueError, f"\\({why}\\)"):
                Machine.of(torusmem.Shape(*shape), words)

    def test_machines_that_are_restored(self):
        machine = Machine.read(path("flag/machine.txt"), path("flag/script.txt"), recorded=True)
        machine.round()
        machine.ask(2, torusmem.Operation.ADD, 1, 3)
        machine.clocked_round(2**64 - 1)
        for again in (Machine.restored(machine.save()), machine.clone()):
            self.assertEqual((again.report(), again.row(), again.save()), (machine.report(), machine.row(), machine.save()))
            other = machine.clone()
            self.assertEqual(again.step(0, Choice.SEND), other.step(0, Choice.SEND))
            self.assertEqual((again.finish(), again.report()), (other.finish(), other.report()))
        first_version = machine.save()[:8] + b"\1" + machine.save()[9:-8]  # has no checksum
        for bytes_of_none, why in [
            (b"", "byte 0 "), (machine.save()[:-1], f"byte {len(machine.save()) - 9} "), (b"T" + first_version[1:], "byte 0 "),
            (machine.save().replace(b"radix", b"Radix"), f"byte {len(machine.save()) - 8} "),
            (first_version[:-4] + b"\x0f\0\0\0", "action 2 "), (first_version.replace(b"radix", b"Radix"), "line 1: .*F4"),
        ]:
            with self.assertRaisesRegex(ValueError, why):
                Machine.restored(bytes_of_none)
        numbered = Machine.of(machine.shape, [7], recorded=True)
        numbered.ask(1, torusmem.Operation.ADD, 0, 3)
        numbered.finish()
        for again in (Machine.restored(numbered.save()), numbered.clone()):
            self.assertEqual((again.shape, again.word(0), again.report()), (machine.shape, 10, numbered.report()))
            self.assertEqual(again.save(), numbered.save())
        self.assertRaisesRegex(ValueError, "recorded=True", Machine.of(machine.shape).save)
        self.assertRaisesRegex(ValueError, "recorded=True", first().save)
        self.assertRaisesRegex(ValueError, "recorded=True", first().clone)
        machine.close()
        self.assertRaises(torusmem.Closed, machine.save)
        self.assertRaises(torusmem.Closed, machine.clone)

    def test_what_is_not_there(self):
        machine = first()
        left = machine.moves_left
        for step in [(6, 0), (2**32 - 1, 1), (0, 6), (1, 0), (1, 2, 10), (1, 3, 2**32 - 1), (0, 9)]:
            self.assertRaises(IndexError, machine.enabled, *step)
            self.assertRaises(IndexError, machine.step, *step)
            self.assertRaisesRegex(IndexError, "number 1 of the list", machine.run, [(0, Choice.SEND), step])
        self.assertEqual(machine.moves_left, left)
        for asked in [
            lambda: machine.word(8),
            lambda: machine.word(2**32 - 1),
            lambda: machine.answers(2),
            lambda: machine.entries(2),
            lambda: machine.route(0, 2),
            lambda: machine.route(2, 0),
            lambda: machine.next(2, 0, 0),
            lambda: machine.next(0, 10, 0),
        ]:
            self.assertRaises(IndexError, asked)

    def test_numbers_are_not_cut_off(self):
        machine = first()
        for number in (-1, 2**32, 2**64):
            for asked in [
                lambda: machine.step(number, 0),
                lambda: machine.step(0, number),
                lambda: machine.step(1, 2, number),
                lambda: machine.enabled(number, 0),
                lambda: machine.word(number),
                lambda: machine.answers(number),
                lambda: machine.entries(number),
                lambda: machine.route(number, 0),
                lambda: machine.next(0, number, 0),
            ]:
                self.assertRaises(ValueError, asked)
        self.assertEqual(sum(machine.row()), 0)


class Refusals(unittest.TestCase):
    def fault(self, *texts):
        with self.assertRaises(TextFault) as caught:
            Machine(*texts)
        found = caught.exception
        self.assertEqual(str(found), f"{found.file}, line {found.line}: F{found.fault}: {found.reason}")
        return found.file, found.line, found.fault

    def test_faults_of_texts(self):
        one, two = "machine text", "scripts text"
        self.assertEqual(self.fault("radix 9\n", "0 load 8\n"), (one, 1, 1))
        self.assertEqual(self.fault(""), (one, 1, 5))
        self.assertEqual(self.fault(b"radix 2\n", b""), (one, 2, 5))
        self.assertEqual(self.fault(SMALL, "0 load 8\n"), (two, 1, 7))
        self.assertEqual(self.fault(SMALL, "\n0 jump 1\n"), (two, 2, 4))
        self.assertEqual(self.fault("\0\xff", ""), (one, 1, 4))
        self.assertEqual(self.fault(SMALL, "0 load 1\0\n"), (two, 1, 4))
        # The same fault at the same line of both.
        self.assertEqual(self.fault("jump\n", "jump\n"), (one, 1, 4))
        self.assertTrue(Machine(SMALL).finished)
        self.assertTrue(Machine(bytearray(SMALL.encode()), memoryview(b"")).finished)
        self.assertRaises(TypeError, Machine, None)
        self.assertRaises(TypeError, Machine, SMALL, 7)

    def test_faults_of_files(self):
        with self.assertRaises(TextFault) as caught:
            Machine.read(path("machine.txt"), path("machine.txt"))
        found = caught.exception
        self.assertEqual((found.file, found.line, found.fault), (path("machine.txt"), 1, 4))
        self.assertEqual((found.text, found.reason), ("scripts", "radix: a number belongs there"))
        self.assertEqual(found.sentence, f"{found.file}:1: radix: a number belongs there")
        self.assertRaises(FileNotFoundError, Machine.read, path("machine.txt"), path("none.txt"))

    def test_faults_are_explained(self):
        rows = [
            ("\nradix 9\n", "0 load 8\n", "machine", "machine text:2: radix 9: a radix is 2 to 8"),
            ("", "", "machine", "machine text:1: the text ends without radix"),
            (SMALL, "0 load 8\n", "scripts", "scripts text:1: address 8: the machine has the words 0 to 7"),
            (SMALL, "\n9 load 1\n", "scripts", "scripts text:2: processor 9: the machine has the processors 0 to 1"),
        ]
        for machine, scripts, text, sentence in rows:
            with self.assertRaises(TextFault) as caught:
                Machine(machine, scripts)
            found = pickle.loads(pickle.dumps(caught.exception))
            self.assertEqual((found.text, found.sentence), (text, sentence))
            self.assertEqual(found.sentence, f"{found.file}:{found.line}: {found.reason}")
            self.assertIn(found.reason, str(found))

    def test_reasons_are_those_of_the_formats(self):
        with open(os.path.join(ROOT, "docs/FORMATS.md"), encoding="utf-8") as file:
            rows = re.findall(r"(?m)^\| F(\d+) \| (.*?) \|", file.read())
        self.assertEqual(torusmem.REASONS, {int(number): when for number, when in rows})

    def test_reports_are_judged(self):
        for name in ("report.txt", "flag/report.txt", "flag/unfinished.txt", "trace.txt"):
            self.assertIsNone(torusmem.check(read(name)))
        for text, line in ((read("stale.txt"), 8), ("", 1), (read("report.txt") + "\n", 11), ("\u00e9", 1)):
            with self.assertRaises(BadReport) as caught:
                torusmem.check(text, "some.txt")
            self.assertEqual((caught.exception.file, caught.exception.line), ("some.txt", line))
            self.assertEqual(str(caught.exception), f"some.txt, line {line}: {caught.exception.reason}")
        self.assertIn("line 8", str(pickle.loads(pickle.dumps(BadReport("some.txt", 8)))))

    def test_a_closed_machine(self):
        machine = first()
        with machine:
            self.assertFalse(machine.closed)
            self.assertEqual(repr(machine), "<torusmem.Machine of 2 tiles>")
        self.assertTrue(machine.closed)
        machine.close()
        self.assertEqual(repr(machine), "<torusmem.Machine closed>")
        calls = [machine.round, machine.finish, machine.words, machine.row, machine.channels, machine.report]
        calls += [lambda: machine.step(0, 0), lambda: machine.enabled(0, 0), lambda: machine.finished]
        calls += [lambda: machine.moves_left, lambda: machine.tiles, lambda: machine.word(0)]
        calls += [lambda: machine.answers(0), lambda: machine.entries(0), lambda: machine.route(0, 1), lambda: machine.next(0, 0, 0)]
        calls += [lambda: machine.run([(0, 0)])]
        for call in calls:
            self.assertRaises(Closed, call)

    def test_no_copies(self):
        machine = first()
        for copied in (copy.copy, copy.deepcopy, pickle.dumps):
            self.assertRaises(TypeError, copied, machine)


class Networks(unittest.TestCase):
    PAIR = "channels 4\ninject 0\neject 1\neject 2\ninject 3\n"
    LINE = "channels 2\ninject 0\neject 1\njoin 0 1\nnext 0 1 1\n"
    RING = (
        "channels 6\ninject 0\ninject 1\neject 4\neject 5\njoin 0 5\njoin 1 4\nnext 0 5 2\nnext 2 5 3\nnext 3 5 5\n"
        "next 1 4 3\nnext 3 4 2\nnext 2 4 4\n"
    )

    def test_pairs_without_a_route(self):
        rows = [
            ("join 1 2\n", NoRoute(1, 2, "the first is no injection channel", None)),
            ("join 0 1\nnext 0 1 1\njoin 0 0\n", NoRoute(0, 0, "the second is no ejection channel", None)),
            ("join 0 2\n", NoRoute(0, 2, "no channel", 1)),
            ("join 3 2\nnext 3 2 1\n", NoRoute(3, 2, "another ejection channel", 1)),
            ("join 3 2\nnext 3 2 0\nnext 0 2 2\n", NoRoute(3, 2, "an injection channel", 1)),
        ]
        for lines, wanted in rows:
            self.assertEqual(network(self.PAIR + lines), wanted)
            self.assertIsInstance(network(self.PAIR + lines), NoRoute)
        text = "channels 4\ninject 0\neject 3\njoin 0 3\nnext 0 3 1\nnext 1 3 2\nnext 2 3 1\n"
        self.assertEqual(network(text), NoRoute(0, 3, "round for ever", None))
        self.assertIsInstance(network("channels 2\ninject 0\neject 1\n"), NoPair)

    def test_routers_that_choose(self):
        text = "channels 4\ninject 0\neject 3\njoin 0 3\nnext 0 3 1\nnext 0 3 2\nnext 1 3 3\nnext 2 3 3\n"
        rising, said = network_answer(text)
        self.assertTrue(rising and said.startswith("number 0 "))
        self.assertEqual(network_answer("channels 2\ninject 0\neject 1\n"), (False, "no pair\n"))
        self.assertRaises(TextFault, network_answer, "channels 2\ninject 2\n")
        self.assertRaises(TextFault, network, text)

    def test_what_is_said_of_a_trace(self):
        head = "trace 1\nwords 8\nissue 0 add 5 1\nissue 1 add 5 2\nissue 2 add 5 4\nanswer 0 0 "
        said = linearize_answer(head + "6\n")
        self.assertEqual((said.linearizable, said.line), (True, 0))
        self.assertEqual(said.text.splitlines()[-2:], ["order 0 0 add 5 1 6", "linearizable"])
        said = linearize_answer(head + "9\n")
        self.assertEqual((said.linearizable, said.line), (False, 6))
        self.assertTrue(said.text.startswith("not linearizable at line 6\ntrace:6: answer 0 0 9: "), said.text)
        self.assertRaises(TextFault, linearize_answer, "trace 1\nwords 8\nissue 0 load 8\n")
        self.assertRaises(ValueError, linearize_answer, head, -1)

    def test_models_by_replies_alone(self):
        made = "log 1\nwords 2\nmade 0 store 0 1\nmade 0 load 1\nmade 1 store 1 1\nmade 1 load 0\n"
        decided = model_values(made + "replied 0 1 0\nreplied 1 1 0\n", order=True)
        self.assertEqual((decided.obeyed, decided.broken), (Model(15), Model.SC))
        self.assertIn("\nsc no\nan order of tso:\n", decided.text)
        self.assertEqual(model_values(made + "replied 0 1 7\nreplied 1 1 0\n"), Unwritten(7))
        self.assertRaises(TextFault, model_values, made)
        self.assertRaises(ValueError, model_values, made, 2**64)

    def test_outcomes_of_scripts(self):
        texts = [read("machine.txt"), read("message/fenced.txt")]
        lines = ["outcome 0 : ok ok / 1 42 ; 0 1 1 42", "outcome 1 : ok ok / 0 0 ; 0 1 1 42", "outcome 2 : ok ok / 0 42 ; 0 1 1 42"]
        found = outcomes(*texts)
        self.assertEqual(found, Outcomes(True, 3, 35, "\n".join([*lines, "exact, 35 states", ""])))
        self.assertEqual(outcomes(*texts, 7)[:3], (False, 0, 7))
        run = outcomes_run(*texts, 1)
        self.assertTrue(run.endswith("# finished\n"), run)
        self.assertEqual(reach(*texts, "ok ok / 0 0"), Reached(True, run + "# reached\n"))
        self.assertRaises(IndexError, outcomes_run, *texts, 3)
        self.assertIsNone(outcomes_run(*texts, 3, 7))
        self.assertEqual(reach(*texts, "ok ok / 1 0"), Reached(False, "never, 35 states\n"))
        self.assertEqual(reach(*texts, "ok ok / 1 0", 7), Reached(None, "undecided, 7 states\n"))
        for answer in ("ok ok / 1 x", "ok ok / 1"):
            self.assertRaises(Unsearched, reach, *texts, answer)
        self.assertRaises(Unsearched, outcomes, texts[0], "0 load 1\n" * 257)
        for states in (0, 10_000_001, -1):
            self.assertRaises(ValueError, outcomes, *texts, states)
        with self.assertRaises(TextFault) as raised:
            outcomes(texts[0], "0 load 8\n")
        self.assertEqual((raised.exception.file, raised.exception.line, raised.exception.fault), ("scripts text", 1, 7))

    def test_cycles(self):
        there, back = Link(2, 5, None), Link(3, 4, None)
        one, two = Fill(0, 5, 1), Fill(1, 4, 1)
        self.assertIn(network(self.RING), [Cycle((there, back), (two, one)), Cycle((back, there), (one, two))])
        asked, answered = Link(0, 1, None), Link(1, None, 0)
        found = network(self.LINE + "reply 1 0\n")
        jam = (Fill(0, 1, 1), Fill(0, 1, 0))
        self.assertIn(found, [Cycle((asked, answered), jam), Cycle((answered, asked), jam)])
        self.assertIsInstance(found, Cycle)

    def test_numbers_that_rise(self):
        found = network(self.LINE.encode())
        self.assertIsInstance(found, Rising)
        self.assertEqual(len(found.numbers), 2)
        self.assertLess(*found.numbers)
        # A chain whose verdict doesn't fit at once.
        last = 16383
        hops = "".join(f"next {at} {last} {at + 1}\n" for at in range(last))
        found = network(f"channels {last + 1}\ninject 0\neject {last}\njoin 0 {last}\n{hops}")
        self.assertEqual(len(found.numbers), last + 1)
        self.assertTrue(all(one < other for one, other in zip(found.numbers, found.numbers[1:])))

    def test_faults(self):
        for text, line, fault in (("", 1, 5), ("lanes 2\n", 1, 4), ("channels 2\n\ninject 2\n", 3, 6)):
            with self.assertRaises(TextFault) as caught:
                network(text, "some.net")
            found = caught.exception
            self.assertEqual((found.text, found.file, found.line, found.fault), ("network", "some.net", line, fault))
            self.assertEqual(found.reason, torusmem.NETWORK_REASONS[fault])
        self.assertRaises(TypeError, network, None)


class Spins(unittest.TestCase):
    """Which spins ran out of loads: that of line 3 of the text does, and that of line 6 finds its number."""

    SCRIPTS = "# spins\n0 store 5 17\n1 spin 5 18 2\n\n0 fence\n0 spin 5 17 400\n1 load 5\n"

    def test_a_spin_runs_out_and_another_finds_its_number(self):
        with Machine(SMALL, self.SCRIPTS) as machine:
            while not machine.finished:
                out = machine.spins_out(SMALL, self.SCRIPTS)
                self.assertEqual(len(out), int(len(machine.answers(1)) >= 2))
                machine.round()
            self.assertEqual(machine.spins_out(SMALL, self.SCRIPTS.encode()), [Spin(1, 3, 5, 18, 2)])
            self.assertEqual(machine.spins_out(SMALL, "1 load 5\n"), [])

    def test_its_refusals(self):
        machine = Machine(SMALL, self.SCRIPTS)
        with self.assertRaises(TextFault) as caught:
            machine.spins_out(SMALL, "\n0 load 8\n")
        self.assertEqual((caught.exception.text, caught.exception.line, caught.exception.fault), ("scripts", 2, 7))
        machine.close()
        self.assertRaises(Closed, machine.spins_out, SMALL, self.SCRIPTS)


class Traces(unittest.TestCase):
    """Histories of one word (Herlihy and Wing, TOPLAS 12(3), 1990), and events that can't stand."""

    STORE, LOAD = Issued(0, Operation.STORE, 2**63, (1,)), Issued(1, Operation.LOAD, 2**63)

    def test_verdicts(self):
        store, load, done = self.STORE, self.LOAD, Answered(0, 0)
        sum_of = [Issued(it, Operation.ADD, 7, (1,)) for it in (0, 1)]
        rows = (
            ([], Linearizable(())),
            ([store, load, Answered(1, 0, 1), load, Answered(1, 1, 1), done], Linearizable((0, 1, 3))),
            ([store, load, Answered(1, 0, 0), load, Answered(1, 1, 1), done], Linearizable((1, 0, 3))),
            ([store, load, Answered(1, 0, 1), load, Answered(1, 1, 0), done], NotLinearizable(4)),
            ([store, done, load, Answered(1, 0, 0)], NotLinearizable(3)),
            ([store, load, Answered(1, 0, 1)], Linearizable((0, 1))),
            ([store, load, Answered(1, 0, 0)], Linearizable((1,))),
            ([*sum_of, Answered(0, 0, 0), Answered(1, 0, 0)], NotLinearizable(3)),
            ([*sum_of, Answered(0, 0, 1), Answered(1, 0, 0)], Linearizable((1, 0))),
        )
        for events, wanted in rows:
            self.assertEqual(linearize(events), wanted)
        swap = [Issued(0, Operation.CAS, 3, (5, 6)), Answered(0, 0, 5), Issued(0, Operation.LOAD, 4), Answered(0, 1, 9)]
        self.assertEqual(linearize(iter(swap), {3: 5, 4: 9, 8: 1}), Linearizable((0, 2)))
        self.assertEqual(linearize(swap, {3: 5}), NotLinearizable(3))

    def test_what_is_not_decided(self):
        many = [Issued(it, Operation.ADD, 1, (1,)) for it in range(150)]
        answers = [Answered(it, 0, it) for it in range(150)]
        self.assertEqual(linearize(many), Linearizable(()))
        self.assertEqual(linearize([*many, *answers]), Linearizable(tuple(range(150))))
        # The values of operations that turn one bit don't tell the order; with fewer than 1024 configurations none is guessed, and
        # more than 64 are open at once.
        flips = [*(Issued(it, Operation.XOR, 1, (1,)) for it in range(150)), *(Answered(it, 0, it % 2) for it in range(150))]
        self.assertEqual(linearize(flips), Linearizable(tuple(range(150))))
        self.assertEqual(linearize(flips, configurations=1000), Undecided(64, True))
        sums = [*many[:4], *(Answered(it, 0, old) for it, old in enumerate((1, 0, 2, 3)))]
        self.assertEqual(linearize(sums, configurations=1), Undecided(4, False))
        self.assertEqual(linearize(sums), Linearizable((1, 0, 2, 3)))

    def test_events_that_can_not_stand(self):
        rows = (
            (Issued(4096, Operation.LOAD, 0), 8),
            (Answered(4096, 0), 8),
            (Answered(0, 1), 6),
            (Answered(2, 0), 6),
            (Answered(0, 0, 1), 4),
            (Answered(1, 0), 4),
        )
        for event, fault in rows:
            with self.assertRaises(EventFault) as caught:
                linearize([self.STORE, self.LOAD, event])
            self.assertEqual((caught.exception.event, caught.exception.fault), (2, fault))
            self.assertEqual(caught.exception.reason, torusmem.EVENT_REASONS[fault])
        with self.assertRaises(EventFault) as caught:
            linearize([self.STORE, Answered(0, 0), Answered(0, 0)])
        self.assertEqual((caught.exception.event, caught.exception.fault), (2, 5))
        self.assertEqual(str(pickle.loads(pickle.dumps(caught.exception))), str(caught.exception))
        for bad in (Issued(0, Operation.STORE, 0), Issued(0, Operation.STORE, 0, (2**64,)), Answered(0, -1)):
            self.assertRaises(ValueError, linearize, [bad])
        self.assertRaises(ValueError, linearize, [self.LOAD], {2**63: -1})


class Models(unittest.TestCase):
    STORES = (Made(0, Operation.STORE, 0, (1,)), Made(1, Operation.STORE, 1, (1,)))
    LOADS = (Made(0, Operation.LOAD, 1), Made(1, Operation.LOAD, 0))
    FENCES = (Made(0, torusmem.FENCE), Made(1, torusmem.FENCE))

    def test_store_buffering(self):
        """Two processors store, then load the other word (Lamport, IEEE ToC 28(9), 1979): TSO allows what SC forbids."""
        sources = (Wrote(0, 0), Wrote(1, 0), Read(0, 1), Read(1, 1))
        obeyed = model([*self.STORES, *self.LOADS, *sources], words=2, order=True)
        self.assertEqual(obeyed.models, Model.COHERENT | Model.FENCED | Model.PSO | Model.TSO)
        self.assertTrue(obeyed.text.startswith("coherent yes\nfenced yes\npso yes\ntso yes\nsc no\nno order of sc:\n"))
        self.assertIn("\nan order of tso:\n", obeyed.text)
        sources = (Wrote(0, 0), Wrote(1, 0), Read(0, 2), Read(1, 2))
        obeyed = model(iter([*self.STORES, *self.FENCES, *self.LOADS, *sources]))
        self.assertEqual(obeyed.models, Model.COHERENT)
        sources = (Served(0, 1), Wrote(0, 0), Wrote(1, 0), Read(1, 1, (0, 0)), Replied(1, 1, 1), Replied(0, 0))
        obeyed = model([*self.STORES, *self.LOADS, *sources])
        self.assertEqual(obeyed.models, Model(31))
        self.assertEqual(obeyed.text, "coherent yes\nfenced yes\npso yes\ntso yes\nsc yes\n")
        self.assertEqual(model([]).models, Model(31))

    def test_long_texts(self):
        log = [Made(it, Operation.ADD, 2**32 - 1, (2**64 - 1,)) for it in range(400)]
        said = model([*log, *(Wrote(it, 0) for it in range(400))], order=True)
        self.assertEqual((said.models, said.text.count("add 4294967295 18446744073709551615")), (Model(31), 400))

    def test_replies_that_are_not_due(self):
        log = [Init(0, 7), Made(0, Operation.LOAD, 0), Made(1, Operation.CAS, 0, (7, 9)), Wrote(1, 0)]
        self.assertEqual(model([*log, Read(0, 0), Replied(0, 0, 8)]), WrongReply(6, 7, 0))
        self.assertEqual(model([*log, Read(0, 0, (1, 0)), Replied(1, 0, 7), Replied(0, 0, 7)]), WrongReply(7, 9, 3))
        self.assertEqual(model([*log, Read(0, 0, (1, 0)), Replied(1, 0, 7), Replied(0, 0, 9)]).models, Model(31))

    def test_entries_that_can_not_stand(self):
        rows = (
            (Wrote(0, 1), 6),
            (Wrote(2, 0), 6),
            (Wrote(0, 0), 5),
            (Wrote(1, 0), 4),
            (Wrote(4096, 0), 8),
            (Read(0, 0), 4),
            (Read(1, 0, (2, 0)), 6),
            (Made(4096, Operation.LOAD, 0), 8),
            (Made(0, Operation.LOAD, 2), 7),
            (Init(0, 1), 5),
            (Replied(0, 0, 1), 4),
            (Replied(1, 0), 4),
        )
        for entry, fault in rows:
            with self.assertRaises(LogFault) as caught:
                model([self.STORES[0], self.LOADS[1], Wrote(0, 0), entry], words=2)
            self.assertEqual((caught.exception.entry, caught.exception.fault), (4, fault), entry)
            self.assertEqual(caught.exception.reason, torusmem.LOG_REASONS[fault])
        with self.assertRaises(LogFault) as caught:
            model([self.STORES[0], self.LOADS[0], Wrote(0, 0)])
        self.assertEqual((caught.exception.entry, caught.exception.fault), (2, 5))
        self.assertEqual(str(pickle.loads(pickle.dumps(caught.exception))), str(caught.exception))
        for words in (0, 2**32 + 1):
            with self.assertRaises(LogFault) as caught:
                model([], words)
            self.assertEqual((caught.exception.entry, caught.exception.fault), (0, 6))
        for bad in (Made(0, Operation.STORE, 0), Made(0, 12), Made(0, Operation.LOAD, -1), Replied(0, 0, 2**64)):
            self.assertRaises(ValueError, model, [bad])


class Watches(unittest.TestCase):
    def test_traces_are_watched(self):
        watch = Watch([0, 5])
        self.assertRaises(IndexError, watch.issue, Operation.LOAD, 2)
        store, load = watch.issue(Operation.STORE, 0, 1), watch.issue(Operation.LOAD, 0)
        self.assertEqual((store, load), (0, 1))
        self.assertRaises(TooMany, watch.answer, load, 1, 1)
        self.assertRaises(IndexError, watch.answer, 2, 0)
        self.assertEqual([watch.answer(load, 2), watch.answer(load, 1)], [False, True])
        self.assertRaises(IndexError, watch.answer, load, 1)
        later = watch.issue(Operation.LOAD, 0)
        self.assertEqual([watch.answer(later, 0), watch.answer(store), watch.answer(later, 1)], [False, True, True])
        cas = watch.issue(Operation.CAS, 1, 5, 6)
        self.assertEqual([watch.answer(cas, 6), watch.answer(cas, 5)], [False, True])
        for bad in (lambda: watch.issue(Operation.STORE, 0), lambda: watch.answer(0, -1), lambda: Watch([2**64])):
            self.assertRaises(ValueError, bad)
        self.assertRaises(TypeError, pickle.dumps, watch)
        self.assertEqual((watch.closed, repr(watch)), (False, "<torusmem.Watch of 4 operations>"))
        watch.close()
        watch.close()
        self.assertTrue(watch.closed)
        self.assertRaises(torusmem.Closed, watch.issue, Operation.LOAD, 0)

    def test_watches_are_saved_and_cloned(self):
        with Watch([0, 5]) as watch:
            add, other = watch.issue(Operation.ADD, 1, 2), watch.issue(Operation.ADD, 1, 2)
            self.assertTrue(watch.answer(other, 7))
            saved = watch.save()
            with Watch.restored(saved) as again, watch.clone() as fork:
                self.assertEqual((again.save(), fork.save(), repr(again)), (saved, saved, repr(watch)))
                for it in (again, fork, watch):
                    self.assertEqual([it.answer(add, 6), it.answer(add, 5), it.issue(Operation.LOAD, 1)], [False, True, 2])
        for at in range(len(saved)):
            changed = saved[:at] + bytes([saved[at] ^ 1]) + saved[at + 1 :]
            self.assertRaisesRegex(ValueError, "the bytes are no watch: byte ", Watch.restored, changed)
        self.assertRaisesRegex(ValueError, "byte 9 is wrong", Watch.restored, saved[:9])
        with Machine("radix 2\ndims 1\ndepth 4\ntags 4\nwords 8\n", "", recorded=True) as machine:
            self.assertRaisesRegex(ValueError, "byte 48 is wrong", Watch.restored, machine.save())
        self.assertRaisesRegex(ValueError, "a text of the record, line 1", Machine.restored, saved)
        self.assertRaises(torusmem.Closed, watch.save)

    def test_every_operation_is_watched(self):
        rows = {
            "LOAD": ((), 6, 6),
            "STORE": ((9,), None, 9),
            "SWAP": ((5,), 9, 5),
            "CAS": ((5, 8), 5, 8),
            "ADD": ((4,), 8, 12),
            "AND": ((10,), 12, 8),
            "OR": ((3,), 8, 11),
            "XOR": ((1,), 11, 10),
            "MAX": ((20,), 10, 20),
            "MIN": ((2,), 20, 2),
        }
        with Watch([6]) as watch:
            for name, (values, old, left) in rows.items():
                self.assertTrue(watch.answer(watch.issue(Operation[name], 0, *values), old), name)
                self.assertTrue(watch.answer(watch.issue(Operation.LOAD, 0), left), name)

    def test_a_watch_goes_from_thread_to_thread(self):
        watch = Watch([0])

        def elsewhere():
            for _ in range(50):
                number = watch.issue(Operation.ADD, 0, 0)
                taken.append(watch.answer(number, 0))

        taken = []
        in_threads([elsewhere] * 4)
        self.assertEqual(taken, [True] * 200)
        in_threads([watch.close])
        self.assertTrue(watch.closed)

    def test_a_long_trace_takes_no_more_memory(self):
        with Watch([0]) as watch:
            for it in range(0, 20000, 2):
                one, other = watch.issue(Operation.ADD, 0, 1), watch.issue(Operation.ADD, 0, 1)
                self.assertTrue(watch.answer(other, it) and watch.answer(one, it + 1))
        with open("/proc/self/statm", encoding="ascii") as file:
            self.assertLess(int(file.read().split()[1]) * os.sysconf("SC_PAGESIZE"), 150_000_000)


class Threads(unittest.TestCase):
    def test_a_machine_goes_from_thread_to_thread(self):
        made, rounds = [], []
        in_threads([lambda: made.append(first())])
        in_threads([lambda: rounds.append(made[0].finish())])
        in_threads([lambda: self.assertEqual(made[0].report(), read("report.txt")), lambda: made[0].close()], False)
        self.assertEqual((rounds, made[0].closed), ([12], True))

    def test_a_machine_takes_one_call_at_a_time(self):
        def run():
            while not machine.finished:
                moved.append(machine.run([(0, Choice.LOOK)]))
                machine.round()
                report = machine.report()
                torusmem.check(report)
                self.assertEqual(len(machine.row_array()), len(machine.row()))

        moved = []
        with Machine.read(path("flag/machine.txt"), path("flag/script.txt")) as machine:
            in_threads([run] * 4)
            ended = machine.report()
        self.assertTrue(moved)
        with Machine.read(path("flag/machine.txt"), path("flag/script.txt")) as machine:
            machine.finish()
            self.assertEqual(ended.split("\norder")[0].count("answer"), machine.report().count("answer"))

    def test_machines_of_many_threads_share_nothing(self):
        reports = []

        def run():
            with first() as one, Machine.read(path("flag/machine.txt"), path("flag/script.txt")) as other:
                while not (one.finished and other.finished):
                    one.round()
                    other.round()
                reports.append((one.report(), other.report()))

        in_threads([run] * 4)
        self.assertEqual(len(reports), 4)
        self.assertEqual(len(set(reports)), 1)
        self.assertEqual(reports[0][0], read("report.txt"))
        torusmem.check(reports[0][1])

    def test_dropped_machines_give_their_memory_back(self):
        # Each takes more than half a megabyte.
        text = "radix 8 8\ndims 2\ndepth 8\ntags 16\nwords 65536\n"
        for _ in range(400):
            Machine(text)
        gc.collect()
        with open("/proc/self/statm", encoding="ascii") as file:
            self.assertLess(int(file.read().split()[1]) * os.sysconf("SC_PAGESIZE"), 150_000_000)


class Words(unittest.TestCase):
    def test_the_example_of_the_help(self):
        for module in (torusmem, torusmem._judges, torusmem._searches, torusmem._watch):
            found = doctest.testmod(module)
            self.assertEqual((found.failed, found.attempted > 0), (0, True), module)

    def test_everything_public_says_what_it_is(self):
        for name in torusmem.__all__:
            it = getattr(torusmem, name)
            names = ("EVENT_REASONS", "Event", "Judged", "LogEntry", "NETWORK_REASONS", "REASONS", "Verdict")
            self.assertTrue(name in names or it.__doc__, name)
        for name, it in {**vars(Machine), **vars(Watch)}.items():
            self.assertTrue(name.startswith("_") or (getattr(it, "__func__", it).__doc__), name)

    def test_the_numbers_are_those_of_the_header(self):
        with open(os.path.join(ROOT, "include", "torusmem.h"), encoding="ascii") as file:
            header = file.read()
        numbers = {name: int(number) for name, number in re.findall(r"TORUSMEM_([A-Z_]+) = (\d+)", header)}
        faults = {int(number) for name, number in numbers.items() if name.startswith("FAULT_")}
        numbers = {name: it for name, it in numbers.items() if not name.startswith("FAULT_") or name == "FAULT_MEMORY"}
        self.assertEqual(faults, set(torusmem.REASONS))
        for names in (Choice, Operation, Kind, Model):
            for it in names:
                self.assertEqual(numbers.pop(it.name), it, it.name)
        library = torusmem._library
        names = "OK FAULT_MEMORY BAD_REPORT EMPTY FULL NONE SHORT NO_ROUTE CYCLE".split()
        names += ["NO_TEXT", "MACHINE_TEXT", "SCRIPTS_TEXT", "ISSUE", "ANSWER"]
        names += ["NOT_LINEARIZABLE", "TOO_MANY", "TOO_OPEN", "BEHIND_SPIN", "NOT_YET"]
        names += ["NO_RECORD", "BAD_RECORD", "BAD_ACTION", "WRONG_REPLY", "NO_PAIR", "NOT_RISING", "UNWRITTEN", "LOST_UPDATE", "ISSUED", "SERVED", "ANSWERED"]
        names += ["UNDECIDED", "NEVER", "TOO_LONG", "NO_REPLY", "OTHER_COUNT"]
        names += ["LOG_INIT", "LOG_MADE", "LOG_WROTE", "LOG_READ", "LOG_READ_OPENING", "LOG_SERVED", "LOG_REPLIED"]
        names += ["FENCE", "SPIN", "FIRST_IS_LAST", "SECOND_IS_LAST"]
        codes = {name: getattr(library, name) for name in names}
        self.assertEqual(numbers, {**codes, "REQUEST": 0, "REPLY": 1})
        calls = set(re.findall(r"(?m)^(?:void|size_t|const char|torusmem_\w+) \*?torusmem_(\w+)\(", header))
        self.assertEqual(calls, set(library.CALLS))
        version = re.findall(r'TORUSMEM_VERSION "(.*)"', header)[0]
        self.assertEqual(version, torusmem.__version__)
        self.assertEqual(library.SONAME, "libtorusmem.so." + version.rpartition(".")[0])

    def test_what_faults_say_is_what_the_library_says(self):
        calls = torusmem._library.library()
        said = {code: calls.code_text(code).decode("ascii") for code in range(1, 15)}
        self.assertEqual(said, torusmem.REASONS)
        # A library that is compiled without proofs adds a word.
        self.assertEqual(calls.version().decode("ascii").partition("-")[0], torusmem.__version__)


class Arrays(unittest.TestCase):
    def test_words_and_answers_are_buffers(self):
        with Machine.read(path("flag/machine.txt"), path("flag/script.txt")) as machine:
            before = machine.words_array()
            machine.finish()
            row, words = machine.row_array(), machine.words_array()
            self.assertEqual((row.format, row.tolist(), words.tolist()), ("Q", machine.row(), machine.words()))
            self.assertNotEqual(before.tolist(), words.tolist())
            for tile in range(machine.tiles):
                answers, entries = machine.answers_array(tile), machine.entries_array(tile, 1)
                self.assertEqual([it.old if it.has_old else None for it in answers], [it.old for it in machine.answers(tile)])
                self.assertEqual([it.index for it in answers], [it.index for it in machine.answers(tile)])
                self.assertEqual([it.address for it in entries], [it.address for it in machine.entries(tile, 1)])
                self.assertEqual(memoryview(answers).itemsize, 48)
            self.assertEqual(len(machine.answers_array(0, 10**6)), 0)
            self.assertRaises(IndexError, machine.answers_array, 64)

    @unittest.skipUnless(importlib.util.find_spec("numpy"), "there is no numpy")
    def test_numpy_takes_them_without_copying(self):
        import numpy

        with Machine.read(path("flag/machine.txt"), path("flag/script.txt")) as machine:
            machine.finish()
            words, answers = machine.words_array(), machine.answers_array(0)
            of_words, of_answers = numpy.asarray(words), numpy.asarray(answers)
            self.assertEqual((of_words.dtype, of_words.tolist()), (numpy.uint64, machine.words()))
            words[0], answers[0].old = 77, 78
            self.assertEqual((int(of_words[0]), int(of_answers["old"][0])), (77, 78))

    def test_steps_are_pickled(self):
        made = Steps(steps("steps.txt"))
        for it in (pickle.loads(pickle.dumps(made)), copy.copy(made)):
            with first() as machine:
                self.assertEqual((len(it), machine.run(it)), (len(made), len(made)))
                self.assertEqual(machine.report(), read("report.txt"))
        self.assertEqual(len(pickle.loads(pickle.dumps(Steps([])))), 0)


if __name__ == "__main__":
    warnings.simplefilter("error")
    unittest.main()
