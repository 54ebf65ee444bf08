"""The library's machine and a model of it in plain Python (model.py), stepped beside each other by drawn steps."""

from __future__ import annotations

import random
import unittest

from model import Model
from torusmem import FENCE, SPIN, Closed, Machine, Operation

MACHINES = {
    "a ring of two": "radix 2\ndims 1\ndepth 1\ntags 1\nwords 3\ninit 1 7\n",
    "a ring with a dateline": "radix 5\ndims 1\ndateline 1\ndepth 2\ntags 3\nwords 7\n",
    "mixed radices": "radix 3 2\ndims 2\ndateline 0 1\ndepth 3\ntags 2\nwords 8\ninit 0 18446744073709551615\n",
    "three dimensions": "radix 2 3 2\ndims 3\ndepth 2\ntags 2\nwords 20\n",
}
NAMES = "load store swap cas add and or xor max min fence spin".split()


def drawn_script(draw: random.Random, tiles: int, words: int, lines: int) -> str:
    """Lines of every kind, of few addresses and small and large values."""
    made = []
    begun = set()
    for _ in range(lines):
        tile, name, address = draw.randrange(tiles), draw.choice(NAMES), draw.randrange(words)
        values = [draw.choice(["0", "1", "7", str(2**64 - 1), str(draw.randrange(2**64))]) for _ in range(2)]
        if tile in begun and draw.random() < 0.3:
            values[0] = "last"
        count = {"load": 0, "fence": 0, "cas": 2}.get(name, 1)
        words_of = [name] if name == "fence" else [name, str(address), *values[:count]]
        if name == "spin":
            words_of[2:] = [draw.choice("017"), str(draw.randrange(1, 4))]
        if name != "fence":
            begun.add(tile)
        made.append(" ".join([str(tile), *words_of]) + "\n")
    return "".join(made)


class Appended(unittest.TestCase):
    """Lines that come later."""

    def test_lines_that_come_later(self) -> None:
        with Machine("radix 2\ndims 1\ndepth 4\ntags 4\nwords 8\n", "0 store 5 17\n") as machine:
            machine.finish()
            machine.append(1, Operation.LOAD, 5)
            machine.append(1, FENCE)
            machine.append(1, Operation.CAS, 5, None, 2**64 - 1)
            machine.append(0, SPIN, 5, 2**64 - 1, 4000)
            machine.append(0, Operation.STORE, 6, None)
            machine.finish()
            self.assertEqual((machine.word(5), machine.word(6)), (2**64 - 1, 2**64 - 1))
            self.assertEqual([it.old for it in machine.answers(1)], [17, 17])
            for refused, why in (
                ((2, Operation.LOAD, 0), "processor 2: the machine has the processors 0 to 1 (F8)"),
                ((0, Operation.LOAD, 8), "address 8: the machine has the words 0 to 7 (F7)"),
                ((0, SPIN, 0, 0, 4097), "4097 loads: a spin makes 1 to 4096 (F6)"),
                ((1, SPIN, 0, 0, 4096), "4098 operations of processor 1: a script has at most 4096 (F9)"),
            ):
                with self.assertRaises(ValueError) as caught:
                    machine.append(*refused)
                self.assertEqual(str(caught.exception), f"torusmem: {why}")
            self.assertRaises(ValueError, machine.append, 0, Operation.STORE, 0, 2**64)
            self.assertRaises(IndexError, machine.append, 0, 12)
            self.assertTrue(machine.finished)


class Asked(unittest.TestCase):
    """Operations that are asked while the machine runs."""

    def test_operations_that_are_asked(self) -> None:
        with Machine("radix 2\ndims 1\ndepth 4\ntags 4\nwords 8\n", "0 spin 5 0 2\n") as machine:
            self.assertEqual(machine.ask(1, Operation.STORE, 5, 17), 0)
            machine.append(1, FENCE)
            self.assertEqual(machine.ask(1, Operation.CAS, 5, 17, 2**64 - 1), 1)
            self.assertIsNone(machine.answer_of(1, 1))
            while machine.answer_of(1, 1) is None:
                machine.round()
            self.assertEqual(machine.ask(1, Operation.ADD, 5, None), 2)
            machine.finish()
            found = [machine.answer_of(1, index) for index in range(3)]
            self.assertEqual([(it.index, it.old) for it in found], [(0, None), (1, 17), (2, 2**64 - 1)])
            self.assertEqual(machine.word(5), 16)
            for refused in ((0, Operation.LOAD, 5), (2, Operation.LOAD, 5), (1, Operation.LOAD, 8)):
                self.assertRaises(ValueError, machine.ask, *refused)
            with self.assertRaisesRegex(ValueError, "^torusmem: address 8: the machine has the words 0 to 7 .F7.$"):
                machine.ask(1, Operation.LOAD, 8)
            self.assertRaises(IndexError, machine.ask, 1, FENCE)
            self.assertRaises(IndexError, machine.answer_of, 1, 3)
            self.assertRaises(IndexError, machine.answer_of, 2, 0)
            self.assertTrue(machine.finished)
        self.assertRaises(Closed, machine.ask, 1, Operation.LOAD, 5)


class Beside(unittest.TestCase):
    def look(self, model: Model, machine: Machine) -> None:
        """Both show the same."""
        self.assertEqual(machine.row(), model.row())
        self.assertEqual(machine.finished, model.is_finished())
        for tile in range(model.shape.tiles):
            answers = [(it.index, it.operation.name.lower(), it.values, it.bank, it.place, it.old) for it in machine.answers(tile)]
            self.assertEqual(answers, model.answers(tile))
            entries = [(*it[:3], it[3].name.lower(), *it[4:]) for it in machine.entries(tile)]
            self.assertEqual(entries, model.entries(tile))

    def beside(self, text: str, seed: int) -> None:
        draw = random.Random(seed)
        said = dict(it.split(None, 1) for it in text.splitlines())
        tiles = Machine(text).tiles
        scripts = drawn_script(draw, tiles, int(said["words"]), 4 * tiles)
        model, moves = Model(text, scripts), 0
        with Machine(text, scripts) as machine:
            every = model.steps
            agents = draw.sample(range(3 * tiles), 3 * tiles - 1)  # the one that is missing is slow
            some = [it for it in every if it[0] in agents]
            for number in range(2000):
                step = draw.choice(some if number < 1000 else every)
                moved = model.step(*step)
                self.assertEqual(machine.step(*step), moved, (number, step))
                moves += moved
                if number % 200 == 0:
                    self.look(model, machine)
            while not model.is_finished():
                for step in every:
                    moved = machine.enabled(*step)
                    self.assertEqual((machine.step(*step), model.step(*step)), (moved, moved), step)
                    moves += moved
            self.look(model, machine)
            self.assertGreater(moves, 10)

    def test_drawn_steps(self) -> None:
        for name, text in MACHINES.items():
            for seed in range(3):
                with self.subTest(name, seed=seed):
                    self.beside(text, seed)

    def test_rounds(self) -> None:
        for name, text in MACHINES.items():
            with self.subTest(name):
                words = int(dict(it.split(None, 1) for it in text.splitlines())["words"])
                scripts = drawn_script(random.Random(name), Machine(text).tiles, words, 40)
                model, machine, rounds = Model(text, scripts), Machine(text, scripts), 0
                while not model.is_finished():
                    for step in model.steps:
                        model.step(*step)
                    rounds += 1
                self.assertEqual(machine.finish(), rounds)
                self.look(model, machine)


if __name__ == "__main__":
    unittest.main()
