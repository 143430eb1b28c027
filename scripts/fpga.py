"""Cells of FPGAs, for `prepare`: tables here, all others by the Verilog models that yosys ships, of which it reads only those
that a netlist has."""
import os
import re
import shutil
import subprocess
import tempfile
from pathlib import Path

from cells import rows_of
from netlist import Cover, Fault, Instance, models_of, shown, text_of

# A table's cells by family: their parameter, inputs from the lowest place on, and output.
TABLES = {
    "ice40": {b"SB_LUT4": (b"LUT_INIT", b"I0 I1 I2 I3", b"O")},
    "ecp5": {b"LUT4": (b"INIT", b"A B C D", b"Z"), b"LUT2": (b"INIT", b"A B", b"Z")},
    "xilinx": {b"LUT%d" % n: (b"INIT", b" ".join(b"I%d" % k for k in range(n)), b"O") for n in range(1, 7)},
    "gowin": {b"LUT%d" % n: (b"INIT", b" ".join(b"I%d" % k for k in range(n)), b"F") for n in range(1, 5)},
}
# What makes BLIF of a cell; its memories become registers.
STEPS = "proc; flatten; memory -nordff; opt; techmap; opt; opt_clean -purge"


def cell_hint(name):
    """What may tell what a cell is that has no model."""
    if name[:1] == b"$":
        return "a cell of yosys, of which `techmap` before `write_blif` makes plain ones"
    families = [family for family, cells in TABLES.items() if name in cells]
    if families:
        return f"a cell of an FPGA, which --fpga {' or '.join(families)} knows"
    return "--fpga FAMILY, --liberty FILE or --genlib FILE tells what a library's cell is"


def shared_folder():
    """Where yosys has its files."""
    program = shutil.which("yosys")
    if program is None:
        raise Fault("--fpga wants yosys, whose models tell what the cells do; Debian's package is `yosys`")
    found = [Path(program).resolve().parent.parent / "share" / "yosys"]
    if shutil.which("yosys-config"):
        said = subprocess.run(["yosys-config", "--datdir"], stdout=subprocess.PIPE, text=True, check=False)
        found.append(Path(said.stdout.strip()))
    for folder in found:
        if folder.is_dir():
            return folder
    raise Fault(f"{found[0]} isn't there, where yosys has its models")


class Models:
    """The texts of the modules in Verilog files, and the directives outside of them."""

    MODULE = re.compile(rb"^[ \t]*module\s+(\\\S+|\w+).*?^[ \t]*endmodule", re.M | re.S)
    INCLUDE = re.compile(rb'^`include\s+"([^"]+)"', re.M)

    def __init__(self, path):
        self.texts, self.directives = {}, []
        todo = [path]
        while todo:
            path = todo.pop()
            text = text_of(path)
            todo += [path.parent / os.fsdecode(it) for it in self.INCLUDE.findall(text)]
            self.texts |= {it[1]: it[0] for it in self.MODULE.finditer(text)}
            rest = self.INCLUDE.sub(b"", self.MODULE.sub(b"", text))
            self.directives += re.findall(rb"^`(?!timescale).*$", rest, re.M)

    def needed(self, names):
        """The texts of modules and of those that they have instances of, behind the directives."""
        found, todo = {}, list(names)
        while todo:
            name = todo.pop()
            found[name] = self.texts[name]
            words = set(re.findall(rb"\w+", self.texts[name]))
            todo += [it for it in self.texts if it in words and it not in found and it not in todo]
        return b"\n".join([*self.directives, *found.values()]) + b"\n"


def constant(value):
    """A parameter's value for yosys: bits, and of a text those of its letters."""
    bits = "".join(f"{it:08b}" for it in value.strip(b'"')) if value[:1] == b'"' else shown(value)
    return f"{len(bits)}'b{bits}"


class Fpga:
    """The cells of a family. Each kind of a cell, with its parameters, becomes a model."""

    def __init__(self, family, reader_type):
        self.family, self.reader_type, self.kinds = family, reader_type, {}
        self.path = f"yosys's models of {family}"
        self.tables, self.found = TABLES[family], None

    @property
    def models(self):
        """yosys's models, which are read where a netlist has more than tables."""
        if self.found is None:
            self.found = Models(shared_folder() / self.family / "cells_sim.v")
        return self.found

    def has(self, name):
        return name in self.tables or name in self.models.texts

    def make_ready(self, cells):
        """Has yosys make a model of each kind of these cells that is no table."""
        wanted = {self.kind(it): it for it in cells if it.model not in self.tables}
        for number, kind in enumerate(wanted):
            # What yosys is told has to be one word.
            for name, value in zip(kind[1::2], kind[2::2]):
                if not re.fullmatch(rb"\w+", name) or not re.fullmatch(rb'"[^"]*"|[01xz]+', value):
                    told = f"the parameter {shown(name)} of {shown(kind[0])} is neither bits nor a text: {shown(value)}"
                    raise Fault(told, 3, wanted[kind].line)
            self.kinds[kind] = b"%s$%d" % (kind[0], number)
        return self.made(wanted) if wanted else []

    @staticmethod
    def kind(cell):
        return (cell.model, *(word for pair in sorted(cell.params.items()) for word in pair))

    def made(self, wanted):
        """The models of all kinds; an input that a kind doesn't need is none of its inputs."""
        with tempfile.TemporaryDirectory(prefix="cells-") as room:
            folder = Path(room)
            (folder / "cells.v").write_bytes(self.models.needed({it.model for it in wanted.values()}))
            (folder / "script").write_text("\n".join(self.commands(wanted)) + "\n")
            words = ["yosys", "-q", "-s", "script"]
            said = subprocess.run(words, cwd=folder, stdout=subprocess.PIPE, stderr=subprocess.STDOUT, text=True, check=False)
            if said.returncode:
                raise Fault(f"yosys doesn't take the models of {self.family}'s cells: {said.stdout.strip()}")
            return [self.model_of(folder / f"{number}.blif", kind) for number, kind in enumerate(wanted)]

    @staticmethod
    def commands(wanted):
        for number, kind in enumerate(wanted):
            values = zip(kind[1::2], kind[2::2])
            given = "".join(f" -chparam {shown(name)} {constant(value)}" for name, value in values)
            yield "design -reset"
            yield "read_verilog cells.v"
            yield f"hierarchy -top {shown(kind[0])}{given}"
            yield STEPS
            yield f"write_blif {number}.blif"

    def model_of(self, path, kind):
        try:
            model = models_of(text_of(path), self.reader_type(None, True))[0]
        except Fault as fault:
            raise Fault(f"the model of {shown(kind[0])}: {fault.said}", fault.code) from None
        model.name = self.kinds[kind]
        # Their lines are those of another text.
        for it in model.registers:
            it.line = 0
        used = {*model.outputs, *(name for it in model.covers for name in it.columns)}
        used |= {name for it in model.registers for name in it.needs()}
        model.inputs = [it for it in model.inputs if it in used]
        return model

    def put(self, design, cell, models):
        """Puts a cell into a design: a cover, or an instance of the model of its kind."""
        if cell.model in self.tables:
            return design.covers.append(self.table(cell))
        kind = self.kinds[self.kind(cell)]
        ports = {*models[kind].inputs, *models[kind].outputs}
        return design.instances.append(Instance(kind, [it for it in cell.pairs if it[0] in ports], cell.line))

    def table(self, cell):
        parameter, pins, output = self.tables[cell.model]
        pins, actuals = pins.split(), dict(cell.pairs)
        bits = cell.params.get(parameter, b"").replace(b"x", b"0")
        if not bits or bits.strip(b"01") or output not in actuals:
            told = f"{shown(cell.model)} without {shown(parameter)}; `write_blif -param` writes it"
            raise Fault(told, 3, cell.line)
        value = int(bits, 2) & ((1 << (1 << len(pins))) - 1)
        places = [(k, it) for k, it in enumerate(pins) if it in actuals]
        table = 0
        for at in range(1 << len(places)):
            # A pin without a pair is 0.
            full = sum(1 << k for place, (k, _) in enumerate(places) if at >> place & 1)
            table |= (value >> full & 1) << at
        return Cover([actuals[it] for _, it in places], actuals[output], cell.line, rows_of(table, len(places)))
