"""Compares the wires of ../rtl/torus.v and ../rtl/torus_tile.v with the channels of the table: each end of a link is the
same wire as the other end, so that what one part puts is what the other gets, and the credits go back the same way."""

import json
import os

import table
from registers import NOT_SO, yosys


def cells(folder, name, tops, blackboxes, parameters):
    """The ports of a module and the connections of its cells, each bit by the number of its wire."""
    yosys(folder, name, [*(f"read_verilog -sv -lib {it}" for it in blackboxes), *(f"read_verilog -sv {it}" for it in tops),
                         f"hierarchy -top {name} {parameters}", "proc; opt_clean", f"write_json {folder}/{name}.json"])
    with open(os.path.join(folder, f"{name}.json"), encoding="utf-8") as file:
        modules = json.load(file)["modules"]
    found = next(it for key, it in modules.items() if it["attributes"].get("top"))
    return {it: port["bits"] for it, port in found["ports"].items()}, found["cells"]


def number(bits):
    """A parameter as a number."""
    return int(bits, 2)


def sliced(bits, at, width):
    """One of several values that stand side by side."""
    return bits[width * at:width * (at + 1)]


PARTS = {"request": 1, "operation": 4, "bank": 6, "word": 32, "first": 64, "second": 64, "accepted": 1, "tag": 4, "replied": 1,
         "reply_tag": 4, "reply_value": 64, "reply_bank": 6, "reply_place": 32}


def of_torus(folder, given, shape):
    """What is wrong with the links of torus.v."""
    sizes = {"DIMS": shape.dims, "DEPTH": 3, "TAGS": 5, "WORDS": 6}
    for at, (radix, line) in enumerate(zip(given.shape, given.datelines)):
        sizes.update({f"RADIX{at}": radix, f"DATELINE{at}": line})
    parameters = " ".join(f"-chparam {it} {value}" for it, value in sizes.items())
    ports, found = cells(folder, "torus", [given.torus], [given.tile_file], parameters)
    tiles, wrong = {}, []
    for cell in found.values():
        of = {it: number(value) for it, value in cell["parameters"].items()}
        tiles[of["TILE"]] = cell["connections"]
        wrong += [f"tile {of['TILE']}: {it}" for it, value in sizes.items() if of[it] != value]
    if sorted(tiles) != list(range(shape.tiles)):
        return wrong + ["not every tile is there once"]
    hops = 8 * shape.dims
    receivers = {shape.input(t, p): (t, p) for t in range(shape.tiles) for p in range(hops)}
    for t in range(shape.tiles):
        if tiles[t]["clock"] != ports["clock"] or tiles[t]["reset"] != ports["reset"]:
            wrong.append(f"tile {t}: clock or reset")
        wrong += [f"tile {t}: {it}" for it, width in PARTS.items() if tiles[t][it] != sliced(ports[it], t, width)]
        for p in range(hops):
            to, at = receivers[shape.output(t, p)]
            ends = [("hop_out_put", "hop_in_put", 1), ("hop_out_flit", "hop_in_flit", 64), ("hop_out_credit", "hop_in_credit", 1)]
            wrong += [f"output {p} of tile {t}: {one}" for one, other, width in ends
                      if sliced(tiles[t][one], p, width) != sliced(tiles[to][other], at, width)]
    return wrong


def of_tile(folder, given, shape):
    """What is wrong with the wires of torus_tile.v."""
    sizes = {"TILE": 1, "DIMS": shape.dims, "DEPTH": 3, "TAGS": 5, "WORDS": 6}
    for at, (radix, line) in enumerate(zip(given.shape, given.datelines)):
        sizes.update({f"RADIX{at}": radix, f"DATELINE{at}": line})
    parameters = " ".join(f"-chparam {it} {value}" for it, value in sizes.items())
    ports, found = cells(folder, "torus_tile", [given.tile_file], [given.router, given.processor, given.bank], parameters)
    wrong, of = [], {}
    for cell in found.values():
        of[cell["type"].replace("torus_", "")] = cell["connections"]
        values = {it: number(value) for it, value in cell["parameters"].items()}
        wrong += [f"{cell['type']}: {it}" for it, value in values.items() if it in sizes and value != sizes[it]]
    if sorted(of) != ["bank", "processor", "router"]:
        return wrong + ["not every part is there once"]
    router, processor, bank = of["router"], of["processor"], of["bank"]
    pairs = [("clock", 1), ("reset", 1)]
    wrong += [f"{part}: {it}" for part in of for it, _ in pairs if of[part][it] != ports[it]]
    wrong += [f"processor: {it}" for it in PARTS if processor[it] != ports[it]]
    # The channels of the table: requests from the processor to a bank, replies from a bank to the processor.
    for it in ("put", "flit", "credit"):
        into = ports[f"hop_in_{it}"] + processor[f"out_{it}"] + bank[f"out_{it}"]
        out = ports[f"hop_out_{it}"] + bank[f"in_{it}"] + processor[f"in_{it}"]
        wrong += [f"router: in_{it}"] * (router[f"in_{it}"] != into) + [f"router: out_{it}"] * (router[f"out_{it}"] != out)
    return wrong


def wrong(folder, given, goals):
    """The goals of the links that aren't so, each with these words; wrong wires are printed."""
    shape = table.Shape(given.shape, given.datelines)
    failed = {}
    for goal, compare in (("torus", of_torus), ("tile", of_tile)):
        if goal in goals:
            found = compare(folder, given, shape)
            for it in found[:3]:
                print(f"  links.{goal}: {it}")
            failed.update({goal: NOT_SO} if found else {})
    return failed
