"""Has yosys open the registers of a module: each is an input, what it held, and an output, what it is left with. And reads
what its SAT solver says."""

import json
import os
import re
import subprocess
import sys

OPENED = """flatten; proc; opt -nodffe -nosdff; memory_nordff; memory_collect; memory_map; opt -nodffe -nosdff
dffunmap; opt -full -nodffe -nosdff; opt_clean
write_json {folder}/first.json
expose -dff -evert-dff; opt -full; opt_clean
"""


def yosys(folder, name, lines):
    """Runs a script of yosys: what it printed; ends the program with status 2 where yosys fails."""
    script, log = os.path.join(folder, name + ".ys"), os.path.join(folder, name + ".log")
    with open(script, "w", encoding="ascii") as file:
        file.write("\n".join(lines) + "\n")
    ran = subprocess.run(["yosys", "-q", "-l", log, script], stdout=subprocess.PIPE, stderr=subprocess.STDOUT, check=False)
    if ran.returncode:
        print(f"{os.path.basename(sys.argv[0])}: yosys: {ran.stdout.decode(errors='replace').strip()[-2000:]}", file=sys.stderr)
        sys.exit(2)
    with open(log, encoding="utf-8", errors="replace") as file:
        return file.read()


NOT_SO, UNDECIDED = "not so", "not decided"


def verdict(said):
    """What the SAT solver says of a goal, from its part of a log: None where it is proved. It isn't so where there is a state
    that breaks it, or where the induction has one; and it isn't decided where the time was over."""
    if "no model found: SUCCESS" in said or "Induction step proven: SUCCESS!" in said:
        return None
    return NOT_SO if re.search(r"model found(?: for base case)?: FAIL|proof failed", said) else UNDECIDED


def verdicts(log, goals):
    """Those of several goals, by their names: what the solver says of each that isn't proved."""
    parts = {it.split("\n", 1)[0]: it for it in re.split(r"(?m)^GOAL ", log)[1:]}
    found = {it: verdict(parts.get(it, "")) for it in goals}
    return {it: said for it, said in found.items() if said}


class Side:
    """A module whose registers are opened: each is an input, what it held, and an output, what it is left with."""

    def __init__(self, folder, name):
        with open(os.path.join(folder, name + ".json"), encoding="utf-8") as file:
            modules = json.load(file)["modules"]
        ports = modules[name]["ports"]
        self.name = name
        self.ports = {it: (port["direction"], len(port["bits"])) for it, port in ports.items()}

    def module_ports(self):
        """Name of each port without the instance's name in front, and the port's own."""
        return {re.sub(r"^i\.", "", it): it for it in self.ports}


class Wires(dict):
    """The wires of registers and outputs by their names. What nothing depends on, yosys leaves out: it may hold anything, so it
    becomes an input of the module around, with the width that `widths` tells by the end of its name. `gone` lists these."""

    def __init__(self, inputs, widths):
        super().__init__()
        self.inputs, self.widths, self.gone = inputs, widths, []

    def __missing__(self, name):
        width = next(width for end, width in self.widths.items() if re.sub(r"\[\d+\]$|\.[qd]$", "", name).endswith(end))
        self[name] = f"gone_{len(self.gone)}_{len(self.inputs)}"
        self.inputs.append(f"input [{width - 1}:0] {self[name]}")
        self.gone.append(name)
        return self[name]


def escaped(name):
    """A name as Verilog spells it."""
    return name if re.fullmatch(r"[A-Za-z_]\w*", name) else f"\\{name} "


def first_values(folder, name):
    """What each register holds at first, where the source says so."""
    with open(os.path.join(folder, "first.json"), encoding="utf-8") as file:
        nets = json.load(file)["modules"][name]["netnames"]
    return {re.sub(r"^i\.", "", it): net["attributes"]["init"] for it, net in nets.items() if "init" in net["attributes"]}
