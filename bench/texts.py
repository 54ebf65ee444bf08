#!/usr/bin/env python3
"""Writes the texts that the benchmark runs on into a folder: `texts.py FOLDER`.

    machine.txt  64 tiles (radix 8, 2 dimensions), 65,536 words, 16 tags
    script.txt   for each of the 64 processors 1,024 operations of all ten kinds
    steps.txt    196,608 steps of processors and banks, for the reader of steps alone: without the
                 routers' steps they don't bring an operation to its bank
    cas.txt      a script of 65,536 `cas` lines, each processor's 1,024 in turn

The same texts on every machine: the numbers come from the generator below, and from no library.
"""
import sys

TILES = 64
WORDS = 65536
EACH = 1024
TOGETHER = 4
# The operations and the opening words are of the first USED words.
USED = 17408
OPENING = 9800
SEED = 14
MASK = (1 << 64) - 1
# Two more machines of as many tiles: one whose first processor loads the farthest word, and that of the dense load.
DENSE_WORDS = 4096
SPARSE_MACHINE = "radix 8\ndims 2\ndepth 1\ntags 1\nwords 64\ninit 36 5\n"
SPARSE_LINE = "0 load 36\n"
DENSE_MACHINE = f"radix 8\ndims 2\ndepth 4\ntags 8\nwords {DENSE_WORDS}\n"
# How often each operation is asked for, in 20.
KINDS = ["load"] * 8 + ["store", "swap", "cas", "cas", "add", "add", "and", "or", "xor", "xor", "max", "min"]


class Numbers:
    """SplitMix64: Steele, Lea and Flood, Fast splittable pseudorandom number generators, 2014."""

    def __init__(self, seed):
        self.state = seed

    def next(self):
        self.state = (self.state + 0x9E3779B97F4A7C15) & MASK
        z = self.state
        z = ((z ^ (z >> 30)) * 0xBF58476D1CE4E5B9) & MASK
        z = ((z ^ (z >> 27)) * 0x94D049BB133111EB) & MASK
        return z ^ (z >> 31)

    def below(self, n):
        return self.next() % n


def machine(numbers):
    yield "radix 8"
    yield "dims 2"
    yield "depth 4"
    yield "tags 16"
    yield f"words {WORDS}"
    for at in range(OPENING):
        # (the stride is odd, so that no word is named twice)
        yield f"init {61 * at % USED} {numbers.next()}"


def operation(numbers, used=USED):
    """An operation's address, one of so many, and its words as a script spells them."""
    kind, address = KINDS[numbers.below(len(KINDS))], numbers.below(used)
    if kind == "load":
        return address, f"load {address}"
    if kind == "cas":
        # half of them expect a word that nothing was written to
        expected = 0 if numbers.below(2) else numbers.next()
        return address, f"cas {address} {expected} {numbers.next()}"
    return address, f"{kind} {address} {numbers.next()}"


def scripts(numbers):
    return [[operation(numbers) for _ in range(EACH)] for _ in range(TILES)]


def steps(asked):
    """For TOGETHER operations of each processor in turn a send, a serve and a take."""
    for first in range(0, EACH, TOGETHER):
        waiting = [0] * TILES
        for processor, script in enumerate(asked):
            for address, _ in script[first : first + TOGETHER]:
                waiting[address % TILES] += 1
                yield f"{3 * processor} send"
        for bank, count in enumerate(waiting):
            yield from [f"{3 * bank + 2} serve"] * count
        for processor in range(TILES):
            yield from [f"{3 * processor} take"] * TOGETHER


def cas_lines(numbers):
    for at in range(TILES * EACH):
        yield f"{at % TILES} cas {numbers.below(WORDS)} {numbers.next()} {numbers.next()}"


def dense_script(each):
    """The script of the dense load, as baseline/dense.rs has it, of so many operations of each processor."""
    lines = []
    for at in range(TILES * each):
        mixed = at * 2654435761 % 2**32
        kind = ("load", "store", "add", "swap", "cas")[mixed // 1048576 % 5]
        values = {"load": [], "cas": [0, mixed]}.get(kind, [mixed])
        lines.append(" ".join(map(str, [at // each, kind, mixed // 256 % DENSE_WORDS, *values])) + "\n")
    return "".join(lines)


def write(folder, name, lines):
    with open(f"{folder}/{name}", "w", encoding="ascii", newline="\n") as file:
        file.writelines(f"{line}\n" for line in lines)


def main(folder):
    numbers = Numbers(SEED)
    write(folder, "machine.txt", machine(numbers))
    asked = scripts(numbers)
    # (the lines of the processors are mixed, as they may be)
    write(folder, "script.txt", (f"{p} {asked[p][i][1]}" for i in range(EACH) for p in range(TILES)))
    write(folder, "steps.txt", steps(asked))
    write(folder, "cas.txt", cas_lines(numbers))


if __name__ == "__main__":
    if len(sys.argv) != 2:
        sys.exit("usage: texts.py FOLDER")
    main(sys.argv[1])
