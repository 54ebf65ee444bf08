#!/usr/bin/env python3
"""Lets a plain memory serve what a machine has served, in the machine's one legal order, after each round:

    scoreboard.py MACHINE SCRIPTS

Says how many operations both served, or the first one that they answer differently. It needs the package of wrappers/python.
"""
import sys

from torusmem import Machine, Operation

WORD = 2**64
NEW = {  # the word that an operation leaves, by the old word and its values
    Operation.LOAD: lambda old: old,
    Operation.STORE: lambda old, new: new,
    Operation.SWAP: lambda old, new: new,
    Operation.CAS: lambda old, expected, new: new if old == expected else old,
    Operation.ADD: lambda old, more: (old + more) % WORD,
    Operation.AND: lambda old, other: old & other,
    Operation.OR: lambda old, other: old | other,
    Operation.XOR: lambda old, other: old ^ other,
    Operation.MAX: max,
    Operation.MIN: min,
}


def main():
    machine = Machine.read(*sys.argv[1:3])
    memory, served = machine.words(), 0
    while not machine.finished:
        machine.fair_round()
        for row in machine.order(served):
            entry = machine.entries(row.bank, row.place)[0]
            old = memory[entry.address]
            if entry.old is not None and entry.old != old:
                sys.exit(f"scoreboard: service {row.place} of bank {row.bank}: {entry}, and a plain memory has {old}")
            memory[entry.address] = NEW[entry.operation](old, *entry.values)
            served += 1
    if memory != machine.words():
        sys.exit("scoreboard: the words differ")
    print(f"{served} operations, as a plain memory serves them")


if __name__ == "__main__":
    main()
