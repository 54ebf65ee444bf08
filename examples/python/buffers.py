#!/usr/bin/env python3
"""Simulates processors with a buffer of stores each over one memory, and has their log judged by five memory models:

    buffers.py [SEED [OPERATIONS]]

Such processors keep total store order, and mostly no more: then a cycle shows why. It needs the package of
wrappers/python.
"""
import random
import sys

from torusmem import Made, Operation, Read, Replied, Wrote, model

PROCESSORS, WORDS = 3, 2


def simulated(drawn, left):
    """The log of a drawn run: loads find the last store in their own buffer, else what stands in the memory."""
    log, made, buffers, memory = [], [0] * PROCESSORS, [[] for _ in range(PROCESSORS)], {}
    while left > 0 or any(buffers):
        p = drawn.randrange(PROCESSORS)
        if buffers[p] and (left == 0 or drawn.random() < 0.3):
            address, source, value = buffers[p].pop(0)
            memory[address] = source, value
            log.append(Wrote(*source))
        elif left > 0:
            address, source = drawn.randrange(WORDS), (p, made[p])
            if drawn.random() < 0.5:
                buffers[p].append((address, source, left))
                log.append(Made(p, Operation.STORE, address, (left,)))
            else:
                own = [(it, value) for at, it, value in buffers[p] if at == address]
                found, value = own[-1] if own else memory.get(address, (None, 0))
                log += [Made(p, Operation.LOAD, address), Read(*source, found), Replied(*source, value)]
            made[p], left = made[p] + 1, left - 1
    return log


def main():
    seed, operations = (int(it) for it in (sys.argv[1:] + ["1", "12"][len(sys.argv) - 1 :])[:2])
    print(model(simulated(random.Random(seed), operations)).text, end="")


if __name__ == "__main__":
    main()
