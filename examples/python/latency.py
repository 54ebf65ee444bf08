#!/usr/bin/env python3
"""Draws how long an operation takes over how many are offered: `latency.py OUT.png [--radix 4 4] [--seed 1]`.

Loads of drawn addresses are offered to each processor: in each cycle one with a drawn chance, the offered load. Those
that it can't send yet wait in a queue before it. A cycle is a round in which each agent attempts each of its choices
once, but for a processor's `send` while nothing is offered to it. An operation's latency goes from the cycle in which
it was offered to that of its answer, so the queue counts; measured are those that were offered after a warm-up, and the
run goes on until the last of them is answered (Dally and Towles, Principles and Practices of Interconnection Networks,
chapters 23 and 24). Two patterns are drawn: addresses over all tiles, and a quarter of them at one tile.

It needs the package torusmem (wrappers/python) and, for the picture, matplotlib; the figures are printed anyway.
"""

import argparse
import random
import sys

from torusmem import Choice, Machine, Steps

WORDS, DEPTH, TAGS = 4096, 4, 8
WARM_UP, MEASURED, MOST_CYCLES = 300, 600, 4000
SATURATED = 100  # cycles: the queues grow as long as the run goes on, and the curve ends
LOADS = (0.01, 0.02, 0.04, 0.06, 0.08, 0.1, 0.12, 0.14, 0.16, 0.2)


def cycle(tile, ports):
    """The attempts of one tile in a cycle, but for its processor's `send`."""
    processor, router, bank = 3 * tile, 3 * tile + 1, 3 * tile + 2
    yield from ((processor, it) for it in (Choice.TAKE, Choice.CREDIT, Choice.DONE, Choice.LOOK))
    for choice in (Choice.TAKE_FROM, Choice.PUT, Choice.CREDIT_OF):
        yield from ((router, choice, port) for port in range(ports))
    yield from ((bank, it) for it in (Choice.TAKE, Choice.SERVE, Choice.SEND, Choice.CREDIT))


def offered(tiles, load, hot, rng):
    """Of each processor the cycles in which an operation is offered to it, and its script."""
    times, script = [], []
    for tile in range(tiles):
        drawn = [at for at in range(WARM_UP + MEASURED) if rng.random() < load]
        for _ in drawn:
            home = 0 if rng.random() < hot else rng.randrange(tiles)
            script.append(f"{tile} load {home + tiles * rng.randrange(WORDS // tiles)}\n")
        times.append(drawn)
    return times, "".join(script)


def measure(radix, load, hot, seed):
    """The mean latency at a load, in cycles, and None where not all that was measured was answered in time."""
    tiles = 1
    for it in radix:
        tiles *= it
    times, script = offered(tiles, load, hot, random.Random(seed))
    text = f"radix {' '.join(map(str, radix))}\ndims {len(radix)}\ndepth {DEPTH}\ntags {TAGS}\nwords {WORDS}\n"
    rest = Steps(it for tile in range(tiles) for it in cycle(tile, 8 * len(radix) + 2))
    sent, answered, latencies = [0] * tiles, [0] * tiles, []
    with Machine(text, script) as machine:
        for now in range(MOST_CYCLES):
            machine.run(rest)
            for tile, drawn in enumerate(times):
                if sent[tile] < len(drawn) and drawn[sent[tile]] <= now:
                    sent[tile] += machine.step(3 * tile, Choice.SEND)  # the request of a load is one flit
                for answer in machine.answers(tile, answered[tile]):
                    answered[tile] += 1
                    if drawn[answer.index] >= WARM_UP:
                        latencies.append(now - drawn[answer.index])
            if all(count == len(drawn) for count, drawn in zip(answered, times)):
                return sum(latencies) / len(latencies) if latencies else None
    return None


def draw(curves, out):
    """The picture, if matplotlib is there."""
    try:
        import matplotlib
    except ImportError:
        print("latency: no picture, since matplotlib is not installed", file=sys.stderr)
        return
    matplotlib.use("Agg")
    from matplotlib import pyplot

    figure, axes = pyplot.subplots(figsize=(7, 4.5))
    for name, points in curves.items():
        axes.plot([load for load, _ in points], [latency for _, latency in points], marker="o", label=name)
    axes.set_xlabel("offered load (operations for each processor and cycle)")
    axes.set_ylabel("mean latency (cycles)")
    axes.set_ylim(bottom=0)
    axes.grid(alpha=0.3)
    axes.legend()
    figure.tight_layout()
    figure.savefig(out, dpi=120)


def main():
    parser = argparse.ArgumentParser(description="Draws a latency curve over offered load.")
    parser.add_argument("out", help="the picture: a name that ends in .png or .svg")
    parser.add_argument("--radix", type=int, nargs="+", default=[4, 4])
    parser.add_argument("--seed", type=int, default=1)
    parser.add_argument("--loads", type=float, nargs="+", default=LOADS)
    given = parser.parse_args()
    curves = {}
    print("pattern   load  latency")
    for name, hot in (("uniform", 0), ("hot spot", 0.25)):
        curves[name] = []
        for load in given.loads:
            latency = measure(given.radix, load, hot, given.seed)
            if latency is None:
                print(f"{name:8} {load:5.3f}  nothing measured, or not answered in {MOST_CYCLES} cycles")
                break
            curves[name].append((load, latency))
            print(f"{name:8} {load:5.3f}  {latency:7.2f}")
            if latency > SATURATED:
                break
    draw(curves, given.out)


if __name__ == "__main__":
    main()
