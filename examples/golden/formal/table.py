#!/usr/bin/env python3
"""Makes Verilog of table.txt, the table of a router's choices.

    table.py verilog --shape 4 --datelines 3 --depth 2   # the module `table_router`, for a torus of this shape
    table.py verilog .. --tile 1                         # the same for one tile alone
    table.py verilog .. --wrapped                        # and a module `router` around it, for ../cosim/run --router
    table.py routes --shape 4 --datelines 3              # the output for each tile, input and destination
    table.py page                                        # compares the words of table.txt with docs/FLITS-AND-PORTS.md

The module has the ports and registers of ../cosim/router.v, so that the two can be stepped side by side, and compared
register by register. Its routes are a list, taken from the tools' model (tools/torusmem_tools/model/torus.py). Its
output `assumed` says whether its registers are ones that a machine can leave.
"""

import argparse
import math
import os
import sys

HERE = os.path.dirname(os.path.realpath(__file__))
ROOT = os.path.join(HERE, "..", "..", "..")
sys.path.insert(0, os.path.join(ROOT, "tools"))
from torusmem_tools.model.torus import Shape  # noqa: E402

OPERATIONS = {"swap": 1, "store": 2, "load": 3}  # as router.v numbers them
LINES = ("does", "idle", "word", "condition", "operation", "place", "stored", "moves")
BITS = {"head": "| 63 | head:", "tail": "| 62 | tail:", "flit": "| 61 | always 1"}
FIELDS = {"class": "| 57 | the class:", "destination": "| 56..51 | the destination tile |"}

HEAD = """module table_router (
    input wire clock, input wire [5:0] tile, input wire mistake, input wire [1:0] choice, input wire [4:0] number,
    input wire [63:0] found, output reg [1:0] operation, output reg [31:0] place, output reg [63:0] value,
    output reg moves, output reg assumed
);
  localparam DEPTH = {depth}, PORTS = {ports}, TILES = {tiles};
  reg        full     [0:31];
  reg [63:0] latch    [0:31];
  reg        owns     [0:31];
  reg [4:0]  owned    [0:31];
  reg [3:0]  next_take[0:31];
  reg [3:0]  next_put [0:31];
  reg [3:0]  credits  [0:31];
  integer k;
  initial for (k = 0; k < PORTS; k = k + 1) begin
    full[k] = 0; latch[k] = 0; owns[k] = 0; owned[k] = 0; next_take[k] = 0; next_put[k] = 0; credits[k] = DEPTH;
  end
"""

BODY = """
  wire [4:0]  i       = number;
  wire [63:0] flit    = latch[i];
  wire        is_head = flit[{head}] && flit[{flit}];
  wire        is_tail = flit[{tail}];
  wire [4:0]  to      = is_head ? route(tile, i, flit[{destination[0]}:{destination[1]}]) : owned[i];
  reg         is_owned;
  integer     j;
  always @* begin
    is_owned = 0;
    for (j = 0; j < PORTS; j = j + 1) if (owns[j] && owned[j] == to) is_owned = 1;
  end
  // What a machine keeps of each router: places and credits within the channel, an owned output that there is, a latch
  // that is full with a flit, and a head of the input's class for a tile that there is.
  always @* begin
    assumed = tile < TILES && !mistake;
    for (j = 0; j < PORTS; j = j + 1) begin
      if (next_take[j] >= DEPTH || next_put[j] >= DEPTH || credits[j] > DEPTH || owned[j] >= PORTS) assumed = 0;
      if (full[j] && !latch[j][{flit}]) assumed = 0;
      if (full[j] && latch[j][{head}] &&
          (latch[j][{destination[0]}:{destination[1]}] >= TILES || latch[j][{class[0]}] != class_of(j))) assumed = 0;
    end
  end
"""


# Around it, for the co-simulation: in a state that isn't assumed it never moves, which would be a difference.
WRAPPED = """
module router #(
    parameter DIMS = 0, RADIX0 = 0, RADIX1 = 0, RADIX2 = 0, DATELINE0 = 0, DATELINE1 = 0, DATELINE2 = 0, DEPTH = 0
) (
    input wire clock, input wire [5:0] tile, input wire mistake, input wire [1:0] choice, input wire [4:0] number,
    input wire [63:0] found, output wire [1:0] operation, output wire [31:0] place, output wire [63:0] value,
    output wire moves
);
  wire assumed, may_move;
  assign moves = may_move && assumed;
  table_router it (.clock(clock), .tile(tile), .mistake(mistake), .choice(choice), .number(number), .found(found),
                   .operation(operation), .place(place), .value(value), .moves(may_move), .assumed(assumed));
endmodule
"""


class Table:
    """The rows of table.txt: its bits, and a dictionary for each choice."""

    def __init__(self, path=os.path.join(HERE, "table.txt")):
        self.bits, self.choices = {}, []
        with open(path, encoding="ascii") as file:
            for number, line in enumerate(file, 1):
                if line.strip() and not line.startswith("#"):
                    self._add(*line.rstrip("\n").partition(": ")[::2], number)
        for choice in self.choices:
            if any(key not in choice for key in LINES):
                sys.exit(f"table.txt: {choice['choice']} has not all of its lines")

    def _add(self, key, words, number):
        if key == "bit":
            name, at = words.split()
            self.bits[name] = int(at)
        elif key == "bits":
            name, high, low = words.split()
            self.bits[name] = (int(high), int(low))
        elif key == "choice":
            self.choices.append({"choice": words, "then": []})
        elif key == "then" and self.choices:
            self.choices[-1]["then"].append(words)
        elif key in LINES and self.choices and key not in self.choices[-1]:
            self.choices[-1][key] = words
        else:
            sys.exit(f"table.txt:{number}: {key} is no line of the table")


def class_of(shape, port):
    """The class of the packets at a port: 0 for requests, 1 for replies."""
    return port // 2 % 2 if port < 8 * shape.dims else port - 8 * shape.dims


def may_own(shape, source, target):
    """Whether packets of an input may be on their way to an output: of one class, no dimension twice, and within one
    neither round nor back from bit 1 to bit 0."""
    hops = 8 * shape.dims
    if class_of(shape, source) != class_of(shape, target):
        return False
    if source >= hops or target >= hops or target // 8 > source // 8:
        return True
    return target // 4 == source // 4 and target % 2 >= source % 2


def routes(shape, tiles):
    """The output for each tile, input and destination."""
    for tile in tiles:
        for port in range(shape.ports):
            for destination in range(shape.tiles):
                yield tile, port, destination, shape.way(tile, port, destination, class_of(shape, port) == 1)


def function(width, name, arguments, selector, rows):
    """A function as a list: a row is the selector's number, and the function's."""
    listed = "\n".join(f"      {key}: {name} = {value};" for key, value in rows)
    return (f"  function [{width - 1}:0] {name}({arguments});\n    case ({selector})\n{listed}\n"
            f"      default: {name} = 0;\n    endcase\n  endfunction\n")


def lists(shape, tiles):
    """The functions of the shape: routes, channels and classes."""
    ports = [(tile, port) for tile in tiles for port in range(shape.ports)]
    of_tile = "input [5:0] t, input [4:0] p"
    way = [(f"17'd{t << 11 | p << 6 | d}", o) for t, p, d, o in routes(shape, tiles)]
    into = [(f"11'd{t << 5 | p}", shape.input(t, p)) for t, p in ports]
    out = [(f"11'd{t << 5 | p}", shape.output(t, p)) for t, p in ports]
    classes = [(f"5'd{p}", class_of(shape, p)) for p in range(shape.ports)]
    return (function(5, "route", of_tile + ", input [5:0] d", "{t, p, d}", way)
            + function(32, "channel_in", of_tile, "{t, p}", into)
            + function(32, "channel_out", of_tile, "{t, p}", out)
            + function(1, "class_of", "input [4:0] p", "p", classes))


def in_verilog(expression):
    """An expression of table.txt, with the tile in the calls of the shape's functions."""
    return expression.replace("input_channel(", "channel_in(tile, ").replace("output_channel(", "channel_out(tile, ")


def choices(table):
    """What each choice does, as statements."""
    tried, left = [], []
    for code, row in enumerate(table.choices):
        one = {key: in_verilog(row[key]) for key in LINES[3:]}
        tried.append(f"    if (i < PORTS && choice == {code} && ({one['condition']})) begin\n"
                     f"      operation = {OPERATIONS[one['operation']]}; place = {one['place']};\n"
                     f"      value = {one['stored']}; moves = {one['moves']};\n    end\n")
        changes = " ".join(in_verilog(it).replace(" = ", " <= ", 1) + ";" for it in row["then"])
        left.append(f"    if (moves && choice == {code}) begin {changes} end\n")
    return ("  always @* begin\n    operation = 0; place = 0; value = 0; moves = 0;\n" + "".join(tried) + "  end\n"
            "  always @(posedge clock) begin\n" + "".join(left) + "  end\nendmodule\n")


def verilog(table, shape, depth, tiles):
    """The module for these tiles of a torus."""
    return ("// Made by table.py of table.txt.\n// verilator lint_off WIDTH\n// verilator lint_off UNUSEDPARAM\n// verilator lint_off UNUSEDSIGNAL\n" + HEAD.format(depth=depth, ports=shape.ports, tiles=shape.tiles)
            + lists(shape, tiles) + BODY.format(**table.bits) + choices(table))


def page(table, path):
    """The lines of docs/FLITS-AND-PORTS.md that are missing: rows of the table, or of the bits of a flit."""
    with open(path, encoding="utf-8") as file:
        lines = file.read().split("\n")
    wanted = [f"| `{it['choice']}` | {it['does']} | {it['idle']} | {it['word']} |" for it in table.choices]
    missing = [it for it in wanted if it not in lines]
    return missing + [it for it in [*BITS.values(), *FIELDS.values()] if not any(line.startswith(it) for line in lines)]


def numbers(word):
    """Numbers that are joined by x."""
    return [int(it) for it in word.split("x")]


def add_shape(made):
    """The words that say which torus it is, and which of its tiles."""
    made.add_argument("--shape", type=numbers, default=[4], help="radices, as 4x2")
    made.add_argument("--datelines", type=numbers, help="a digit for each dimension; else each is the radix less 1")
    made.add_argument("--depth", type=int, default=2, help="of a channel, in flits, 1 to 8")
    made.add_argument("--tile", type=int, action="append", help="this tile alone; may be given more than once")


def shape_of(made, given):
    """The torus and the tiles that the words name; ends the program where there is no such torus."""
    given.datelines = given.datelines or [it - 1 for it in given.shape]
    if len(given.shape) > 3 or any(not 2 <= it <= 8 for it in given.shape) or math.prod(given.shape) > 64:
        made.error("a shape has one to three radices of 2 to 8, as 4x2, and at most 64 tiles")
    if len(given.datelines) != len(given.shape) or any(not 0 <= at < of for at, of in zip(given.datelines, given.shape)):
        made.error("there is a dateline for each dimension, below its radix")
    if not 1 <= given.depth <= 8:
        made.error("the depth of a channel is 1 to 8")
    shape = Shape(given.shape, given.datelines)
    for tile in given.tile or []:
        if not 0 <= tile < shape.tiles:
            made.error(f"there is no tile {tile}: the tiles are 0 to {shape.tiles - 1}")
    return shape, given.tile if given.tile is not None else range(shape.tiles)


def parser():
    """The words of the command line."""
    made = argparse.ArgumentParser(description="Makes Verilog of the table of a router's choices.")
    made.add_argument("what", choices=["verilog", "routes", "page"])
    add_shape(made)
    made.add_argument("--wrapped", action="store_true", help="with a module `router` around it")
    return made


def main():
    made = parser()
    given = made.parse_args()
    table = Table()
    if given.what == "page":
        missing = page(table, os.path.join(ROOT, "docs", "FLITS-AND-PORTS.md"))
        for line in missing:
            print(f"docs/FLITS-AND-PORTS.md has no line {line}")
        return 1 if missing else 0
    shape, tiles = shape_of(made, given)
    if given.what == "routes":
        for row in routes(shape, tiles):
            print(*row)
    else:
        sys.stdout.write(verilog(table, shape, given.depth, tiles) + (WRAPPED if given.wrapped else ""))
    return 0


if __name__ == "__main__":
    sys.exit(main())
