#!/usr/bin/env python3
"""Looks for a slow schedule: `slow_schedule.py MACHINE SCRIPTS [--tries 300] [--seed 1] [--steps OUT]`.

A schedule here is an order of the agents. In each round every agent makes its choices once, in that order, till every
script is finished: so no agent is ever left out, and still one order needs more rounds than another. The search begins
with a drawn order, moves one agent to another place, and keeps the order that this gives if it needs at least as many
rounds (hill climbing). With --steps the steps of the slowest run that moved are written as `torusmem steps` reads them.

It needs the package torusmem (wrappers/python).
"""

import argparse
import random

from torusmem import Choice, Machine, Steps, check

OF_ROUTER = {Choice.TAKE_FROM: "take", Choice.PUT: "put", Choice.CREDIT_OF: "credit"}


def turn(agent, ports):
    """The choices of an agent, in the order of a round."""
    if agent % 3 == 0:
        return [(agent, it) for it in (Choice.SEND, Choice.TAKE, Choice.CREDIT, Choice.DONE, Choice.LOOK)]
    if agent % 3 == 2:
        return [(agent, it) for it in (Choice.TAKE, Choice.SERVE, Choice.SEND, Choice.CREDIT)]
    return [(agent, choice, port) for choice in OF_ROUTER for port in range(ports)]


def rounds(texts, order, ports):
    """How many rounds of this order finish every script."""
    made = Steps(step for agent in order for step in turn(agent, ports))
    with Machine(*texts) as machine:
        count = 0
        while not machine.finished:
            machine.run(made)
            count += 1
        return count


def moves(texts, order, ports):
    """The steps of such a run that moved, and its report."""
    made = [step for agent in order for step in turn(agent, ports)]
    with Machine(*texts) as machine:
        found = []
        while not machine.finished:
            found += [step for step in made if machine.step(*step)]
        return found, machine.report()


def written(step):
    """A step as a line of a steps text."""
    if len(step) == 3:
        return f"{step[0]} {OF_ROUTER[step[1]]} {step[2]}\n"
    return f"{step[0]} {step[1].name.lower()}\n"


def search(texts, agents, ports, tries, rng):
    """The slowest order that is found, and its rounds."""
    order = rng.sample(range(agents), agents)
    slowest = rounds(texts, order, ports)
    for _ in range(tries):
        other = list(order)
        other.insert(rng.randrange(agents), other.pop(rng.randrange(agents)))
        count = rounds(texts, other, ports)
        if count >= slowest:
            order, slowest = other, count
    return order, slowest


def main():
    parser = argparse.ArgumentParser(description="Looks for an order of the agents that needs many rounds.")
    parser.add_argument("machine")
    parser.add_argument("scripts")
    parser.add_argument("--tries", type=int, default=300)
    parser.add_argument("--seed", type=int, default=1)
    parser.add_argument("--steps", help="where the steps of the slowest run go")
    given = parser.parse_args()
    texts = []
    for name in (given.machine, given.scripts):
        with open(name, "rb") as file:
            texts.append(file.read())
    with Machine(*texts) as machine:
        agents, most = 3 * machine.tiles, machine.moves_left
        ports = max(line.place for line in machine.channels()) - 1
    natural = rounds(texts, range(agents), ports)
    order, slowest = search(texts, agents, ports, given.tries, random.Random(given.seed))
    made, report = moves(texts, order, ports)
    check(report)
    print(f"the machine's own order: {natural} rounds")
    print(f"the slowest of {given.tries + 1} orders: {slowest} rounds, {len(made)} moves (no schedule makes more than {most})")
    if given.steps:
        with open(given.steps, "w", encoding="ascii") as file:
            file.writelines(map(written, made))


if __name__ == "__main__":
    main()
