#!/usr/bin/env python3
"""Drives a router in Verilog from Python, beside the library's: `cosim.py [MACHINE SCRIPTS] [--tile 1] [--seed 1]`.

All agents of a machine make drawn steps in the library. A step of one tile's router is made by the Verilog router
too, by its one operation on one word of a copy of the row: then both must have moved or not, and have left the same
row. `--mistake` plants a mistake in the Verilog router, and the first step that it makes otherwise is printed.

Verilator compiles examples/golden/cosim/router.v for the shape of the machine, as a shared library, which is called by
ctypes. Without texts the machine is that of examples/golden/cosim. It needs the package torusmem (wrappers/python) and
verilator, and is run in the repository.
"""

import argparse
import ctypes
import os
import random
import subprocess
import sys

from torusmem import Choice, Machine, TextFault

COSIM = os.path.join(os.path.dirname(os.path.realpath(__file__)), "..", "golden", "cosim")
OF_PROCESSOR = (Choice.SEND, Choice.TAKE, Choice.CREDIT, Choice.DONE, Choice.LOOK)
OF_ROUTER = (Choice.TAKE_FROM, Choice.PUT, Choice.CREDIT_OF)  # as router.v numbers them
OF_BANK = (Choice.TAKE, Choice.SERVE, Choice.SEND, Choice.CREDIT)


class VerilogRouter:
    """The router of a tile, in Verilog: `attempt` makes a step over a row of words, and tells whether it moved."""

    def __init__(self, path, tile, mistake=False):
        self._calls = ctypes.CDLL(path)
        self._calls.router_new.restype = ctypes.c_void_p
        self._calls.router_new.argtypes = [ctypes.c_uint32, ctypes.c_uint32]
        self._calls.router_attempt.restype = ctypes.c_uint32
        row = ctypes.POINTER(ctypes.c_uint64)
        self._calls.router_attempt.argtypes = [ctypes.c_void_p, ctypes.c_uint32, ctypes.c_uint32, row, ctypes.c_size_t]
        self._calls.router_free.restype = None
        self._calls.router_free.argtypes = [ctypes.c_void_p]
        self._at = self._calls.router_new(tile, mistake)

    def attempt(self, choice, number, row):
        """row: an array of c_uint64, in which the step changes at most one word."""
        return self._calls.router_attempt(self._at, OF_ROUTER.index(choice), number, row, len(row)) == 1

    def close(self):
        """Gives its memory back."""
        self._calls.router_free(self._at)
        self._at = None


def compiled(machine_file):
    """The Verilog router for the shape of a machine text, as a shared library: its path."""
    command = [os.path.join(COSIM, "verilated"), "shared", machine_file]
    ran = subprocess.run(command, stdout=subprocess.PIPE, universal_newlines=True, check=False)
    if ran.returncode:
        sys.exit(2)
    return ran.stdout.strip()


def drawn(rng, tiles, ports):
    """A step of any agent."""
    agent = rng.randrange(3 * tiles)
    if agent % 3 == 1:
        return agent, rng.choice(OF_ROUTER), rng.randrange(ports)
    return agent, rng.choice(OF_PROCESSOR if agent % 3 == 0 else OF_BANK), 0


def differences(library, verilog):
    """Lines that say where two rows differ."""
    both = enumerate(zip(library, verilog))
    return [f"  place {at}: library {one:016X}, Verilog {other:016X}" for at, (one, other) in both if one != other]


def run(machine, router, tile, rng):
    """Makes drawn steps till every script is finished: how many were the router's, how many of these moved, and lines
    that say what is wrong with the last one (none if nothing is)."""
    shape = machine.shape
    before, steps, moves = machine.row(), 0, 0
    while not machine.finished:
        agent, choice, number = drawn(rng, shape.tiles, shape.ports)
        moved = machine.step(agent, choice, number)
        after = machine.row() if moved else before
        if agent == 3 * tile + 1:
            row = (ctypes.c_uint64 * len(before))(*before)
            moved_too = router.attempt(choice, number, row)
            steps, moves = steps + 1, moves + moved
            if moved != moved_too or after != list(row):
                said = ["moves" if it else "idle" for it in (moved, moved_too)]
                what = f"{choice.name.lower()} {number}: library {said[0]}, Verilog {said[1]}"
                return steps, moves, [what, *differences(after, row)]
        before = after
    return steps, moves, []


def main():
    parser = argparse.ArgumentParser(description="Steps a router in Verilog beside the library's.")
    parser.add_argument("machine", nargs="?", default=os.path.join(COSIM, "machine.txt"))
    parser.add_argument("scripts", nargs="?")
    parser.add_argument("--tile", type=int, default=1)
    parser.add_argument("--seed", type=int, default=1)
    parser.add_argument("--mistake", action="store_true", help="plants a mistake in the Verilog router")
    given = parser.parse_args()
    if given.scripts is None and given.machine != parser.get_default("machine"):
        parser.error("a machine has its scripts beside it: give both, or none")
    try:
        machine = Machine.read(given.machine, given.scripts or os.path.join(COSIM, "script.txt"))
    except (TextFault, OSError) as why:
        sys.exit(f"cosim: {why}")
    with machine:
        if not 0 <= given.tile < machine.tiles:
            parser.error(f"there is no tile {given.tile}: the tiles are 0 to {machine.tiles - 1}")
        router = VerilogRouter(compiled(given.machine), given.tile, given.mistake)
        steps, moves, wrong = run(machine, router, given.tile, random.Random(given.seed))
        router.close()
    verdict = f"the last one differs, {wrong[0]}" if wrong else "no difference"
    print(f"tile {given.tile}: {steps} steps of its router, {moves} of them moves: {verdict}")
    for line in wrong[1:]:
        print(line)
    return 1 if wrong else 0


if __name__ == "__main__":
    sys.exit(main())
