"""Whether a changed file of ../rtl changes nothing: yosys-abc proves that the module has the outputs that it had, at every edge
of the clock, for all inputs and resets, from registers of 0 on. It is no goal, and looks at no table."""

import os
import subprocess
import tempfile

from registers import yosys

# What the modules are made of, so that each file of a module is read once, and the sizes that the goals are proved of.
PARTS = {
    "torus_inbox": (), "torus_processor": ("torus_inbox",), "torus_bank": ("torus_inbox",), "torus_router": ("torus_inbox",),
    "torus_tile": ("torus_inbox", "torus_processor", "torus_bank", "torus_router"),
    "torus": ("torus_inbox", "torus_processor", "torus_bank", "torus_router", "torus_tile"),
}
SIZES = {"torus_processor": "-chparam TAGS 16"}
SECONDS = 300
SIDE = """read_verilog -sv {sources}
hierarchy -top {module} {sizes}
proc; flatten; memory_nordff; memory_collect; memory_map; opt -full -nodffe -nosdff; dffunmap; rename -top {name}
design -stash {name}"""
# Both side by side, each register from 0 on but where the source says something else, as one graph of ands.
MITER = """design -copy-from old -as old old
design -copy-from new -as new new
miter -equiv -flatten old new miter
hierarchy -top miter
opt -nodffe -nosdff; techmap; opt -full -nodffe -nosdff; dffunmap; setundef -undriven -zero; zinit -all
dfflegalize -cell $_DFF_P_ 0; opt_clean; aigmap; opt_clean
write_aiger {folder}/miter.aig"""


def is_unchanged(rtl, path):
    """Whether the file of a path, in place of the one of its name in the folder `rtl`, is proved to change nothing."""
    module = os.path.basename(path)[:-2]
    others = [os.path.join(rtl, it + ".v") for it in PARTS[module]]
    with tempfile.TemporaryDirectory() as folder:
        sides = {"old": os.path.join(rtl, module + ".v"), "new": path}
        lines = [SIDE.format(sources=" ".join([*others, file]), module=module, sizes=SIZES.get(module, ""), name=name)
                 for name, file in sides.items()]
        yosys(folder, "miter", [*lines, MITER.format(folder=folder)])
        asked = f"read_aiger {folder}/miter.aig; scorr; pdr -T {SECONDS}"
        ran = subprocess.run(["yosys-abc", "-c", asked], cwd=folder, stdout=subprocess.PIPE, stderr=subprocess.STDOUT, check=False)
    return b"Property proved." in ran.stdout
