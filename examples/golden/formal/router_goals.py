"""Goals of ../rtl/torus_router.v that look at its registers, from every state: that it depends on them, that heads want the
output of their route, that what can move does, and what a reset leaves."""

import os

import table
from registers import NOT_SO, OPENED, Side, Wires, escaped, verdicts, yosys

GOALS = ("routes", "progress", "reset")


def opened(folder, given):
    """Compiles the router with its registers opened, and with the wires that the goals look at."""
    pairs = " ".join(f"-chparam RADIX{at} {radix} -chparam DATELINE{at} {line}"
                     for at, (radix, line) in enumerate(zip(given.shape, given.datelines)))
    parameters = f"-chparam TILE {given.tile} -chparam DIMS {len(given.shape)} -chparam DEPTH {given.depth} {pairs}"
    lines = OPENED.format(folder=folder).replace("dffunmap;", "expose w:takes w:inputs[*].wanted; dffunmap;")
    yosys(folder, "opened", [f"read_verilog -sv {given.router} {given.inbox}", f"hierarchy -top torus_router {parameters}",
                             f"rename -top part; {lines}", f"write_rtlil {folder}/router.il", f"write_json {folder}/part.json"])
    return Side(folder, "part")


class Top:
    """The module with the router and the goals in Verilog."""

    def __init__(self, side, depth):
        self.heading, self.body, ports = [], [], []
        self.wires = Wires(self.heading, {"full": 1, "held": 63, "owns": 1, "owned": 5, "used": depth, "next_take": 3,
                                          "next_put": 3, "inbox.credit": 1, "credits": 4, "wanted": 5})
        for at, (port, (direction, width)) in enumerate(sorted(side.ports.items())):
            self.wires[port] = f"wire_{at}"
            kind = "input" if direction == "input" else "wire"
            (self.heading if kind == "input" else self.body).append(f"{kind} [{width - 1}:0] wire_{at}")
            ports.append(f".{escaped(port)}(wire_{at})")
        self.body.append(f"part part_it ({', '.join(ports)})")

    def held(self, at, name):
        """A register of an input before the edge."""
        return self.wires[f"inputs[{at}].{name}.q"]

    def text(self, bad):
        """The module, with an output for each goal."""
        heading = ", ".join(self.heading + [f"output bad_{goal}" for goal in bad])
        lines = self.body + [f"assign bad_{goal} = {' || '.join(terms)}" for goal, terms in bad.items()]
        return f"module top ({heading});\n" + "".join(f"  {it};\n" for it in lines) + "endmodule\n"


def goals_of(top, given):
    """What isn't so, as terms of Verilog, by goal."""
    shape, out_put = table.Shape(given.shape, given.datelines), top.wires["out_put"]
    ports, bad = range(shape.ports), {it: [] for it in GOALS}
    own = {(i, o): f"({top.held(i, 'owns')} && {top.held(i, 'owned')} == {o})" for i in ports for o in ports
           if table.may_own(shape, i, o)}
    for i in ports:
        held, full = top.held(i, "held"), top.held(i, "full")
        destination = f"{held}[56:51]"
        for to in range(shape.tiles):
            output = shape.way(given.tile, i, to, table.class_of(shape, i) == 1)
            head = f"{full} && {held}[62] && {held}[57] == {table.class_of(shape, i)} && {destination} == {to}"
            if table.may_own(shape, i, output):
                bad["routes"].append(f"({head} && {top.wires[f'inputs[{i}].wanted']} != {output})")
                owners = [own[j, output] for j in ports if (j, output) in own]
                bad["progress"].append(f"({head} && {room(top, output)} && !({' || '.join(owners)}) && !{out_put}[{output}])")
        for o in ports:
            if (i, o) in own:
                bad["progress"].append(f"({full} && !{held}[62] && {own[i, o]} && {room(top, o)} && !{out_put}[{o}])")
        used, at = top.held(i, "inbox.used"), top.held(i, "inbox.next_take")
        bad["progress"].append(f"({at} < {given.depth} && ({used} >> {at} & 1) && !{full} && !{top.wires['takes']}[{i}])")
        names = ("full", "owns", "inbox.used", "inbox.next_take", "inbox.next_put", "inbox.credit")
        left = {f"inputs[{i}].{it}": 0 for it in names}
        left[f"outputs[{i}].credits"] = given.depth
        bad["reset"] += [f"{top.wires[it + '.d']} != {value}" for it, value in left.items()]
    return bad


def room(top, output):
    """Whether an output holds a credit."""
    return top.wires[f"outputs[{output}].credits.q"] + " != 0"


def wrong(folder, given, goals):
    """The goals that aren't proved, and what is known of each."""
    others = [it for it in goals if it != "depends"]
    top = Top(opened(folder, given), given.depth)
    bad = goals_of(top, given)
    with open(os.path.join(folder, "top.v"), "w", encoding="ascii") as file:
        file.write(top.text(bad))
    script = [f"read_rtlil {folder}/router.il", f"read_verilog -sv {folder}/top.v", "hierarchy -check -top top",
              "proc; flatten; opt -full; opt_clean -purge", "design -save base"]
    for goal in others:
        left_out = " ".join(f"top/bad_{it}" for it in GOALS if it != goal)
        script += ["design -load base", f"delete -output {left_out}", "opt_clean -purge; opt -full", f"log GOAL {goal}",
                   f"sat -prove bad_{goal} 0 -set {top.wires['reset']} {int(goal == 'reset')} -timeout {given.timeout} top"]
    said = verdicts(yosys(folder, "goals", script), others)
    if top.wires.gone and "depends" in goals:
        print(f"  router: nothing depends on its {', '.join(top.wires.gone[:3])}")
        said["depends"] = NOT_SO
    return said
