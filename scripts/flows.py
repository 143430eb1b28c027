"""Reads netlists as flows write them, for `prepare`: BLIF with registers, mapped cells, and lines that eqc refuses."""
from collections import Counter
from dataclasses import dataclass, field

from cells import RegisterCell
from netlist import BUFFER, SKIPPED, Cover, Fault, Instance, Model, Reader, shown

# Commands beside SKIPPED that say nothing on functions.
TOLD_NOTHING = SKIPPED | frozenset(b".param .clock .clock_event .latch_order".split())
KINDS = {b"re": "rising edge", b"fe": "falling edge", b"ah": "1", b"al": "0", b"as": "no edge"}
OPEN = "open"
VALUES = {b"0": "0", b"1": "1", b"2": OPEN, b"3": OPEN}


@dataclass(slots=True)
class Register:
    """`.latch`: what goes in, what it holds, the kind and name of its clock, its initial value; where it has asynchronous
    resets, these and the rows of its output over them and what is held; later all of its names, the one that its cut has,
    whether its clock is compared too, and the constant or the other register that takes its place."""

    data: bytes
    held: bytes
    kind: bytes
    clock: bytes
    initial: str
    line: int
    resets: list = field(default_factory=list)
    reset_rows: list = field(default_factory=list)
    names: list = field(default_factory=list)
    name: bytes = b""
    has_clock_output: bool = False
    constant: bytes = b""
    twin: bytes = b""

    def needs(self):
        """The signals that a register needs."""
        return [it for it in (self.data, self.clock, *self.resets) if it]

    def renamed(self, names):
        """The same register with other names of its signals."""
        return self.renamed_by(names.__getitem__)

    def renamed_by(self, of):
        """The same register, where a function tells the names of its signals."""
        data, held, clock = (of(it) if it else it for it in (self.data, self.held, self.clock))
        resets = [of(it) for it in self.resets]
        return Register(data, held, self.kind, clock, self.initial, self.line, resets, self.reset_rows)

    def clock_told(self):
        if not self.clock:
            return "none that is named"
        return f"{KINDS.get(self.kind) or shown(self.kind) or 'some edge'} of {shown(self.clock)}"


@dataclass(slots=True)
class Cell(Instance):
    """An instance that may be a library's cell: with parameters, and told by `.gate`."""

    params: dict = field(default_factory=dict)
    is_gate: bool = False


@dataclass(slots=True)
class Design(Model):
    """A model with registers; an instance may have a name, by its place. Comments are lines that are written with it."""

    registers: list = field(default_factory=list)
    cnames: dict = field(default_factory=dict)
    comments: list = field(default_factory=list)
    black_box: int = 0


class FlowReader(Reader):
    """Takes statements that flows write beside those that eqc reads, and counts what becomes something else."""

    model_type = Design

    def __init__(self, genlib, cuts, has_libraries=False):
        super().__init__()
        self.genlib, self.cuts, self.changed = genlib, cuts, Counter()
        self.has_libraries = has_libraries or genlib is not None
        self.behind_instance, self.cells = False, {}
        self.commands |= {
            b".latch": self.add_latch,
            b".mlatch": self.add_mapped_latch,
            b".gate": self.add_gate,
            b".conn": self.add_buffer,
            b".barbuf": self.add_buffer,
            b".short": self.add_buffer,
            b".blackbox": self.close_to_view,
        }

    def take(self, number, line):
        word = line.split(None, 1)[0]
        if word == b".param" and self.behind_instance and self.has_libraries:
            return self.add_parameter(line)
        if word in TOLD_NOTHING:
            self.changed[word] += 1
            # yosys writes `.cname` behind covers and latches too.
            if word == b".cname" and self.behind_instance:
                self.model.cnames[len(self.model.instances) - 1] = line.split()[-1]
            return None
        self.behind_instance = word in (b".subckt", b".gate")
        if word == b".exdc":
            raise Fault(".exdc: a part with don't-cares, which eqc doesn't compare", 3, number)
        if word == b".search":
            raise Fault(".search: put the models of that file into this one", 3, number)
        return super().take(number, line)

    def add_instance(self, number, words):
        if len(words) < 2 or not RegisterCell.ANY.fullmatch(words[1]):
            super().add_instance(number, words)
            it = self.model.instances[-1]
            self.model.instances[-1] = Cell(it.model, it.pairs, it.line)
            return None
        return self.add_register_cell(number, words)

    def add_parameter(self, line):
        words = line.split(None, 2)
        if len(words) == 3:
            self.model.instances[-1].params[words[1]] = words[2].strip()

    def add_register_cell(self, number, words):
        """A cell of yosys, as `$_DFFE_PP_`, becomes a register and the cover of what goes in."""
        name = words[1]
        if not self.cuts:
            raise Fault(f"a register {shown(name)}: --cut makes an input and an output of it", 4, number)
        self.behind_instance = False
        if name not in self.cells:
            self.cells[name] = RegisterCell(name, number)
        cell, (actuals, _) = self.cells[name], self.pairs(number, words)
        for pin in (*cell.next.pins, cell.clock, b"Q"):
            if pin not in actuals:
                raise Fault(f"{shown(name)} has no pair for {shown(pin)}", 25, number)
        held = actuals[b"Q"]
        data = b"%s$next$%d" % (held, number)
        register = Register(data, held, cell.kind, actuals[cell.clock], OPEN, number)
        if cell.has_reset:
            register.resets, register.reset_rows = [actuals[it] for it in cell.now.pins if it != b"H"], cell.now.rows
        self.model.covers.append(Cover([actuals[it] for it in cell.next.pins], data, number, cell.next.rows))
        self.model.registers.append(register)
        self.changed[name] += 1

    def add_buffer(self, number, words):
        if len(words) != 3:
            raise Fault(f"{shown(words[0])} takes two names", 3, number)
        self.changed[words[0]] += 1
        self.model.covers.append(Cover([words[1]], words[2], number, BUFFER))

    def close_to_view(self, number, _words):
        self.model.black_box = number

    def pairs(self, number, words):
        if len(words) < 2:
            raise Fault(f"{shown(words[0])} without a word", 10, number)
        actuals, rest = {}, []
        for word in words[2:]:
            formal, sign, actual = word.partition(b"=")
            if sign and not (formal and actual):
                raise Fault(f"the pair {shown(word)} has no name on one side", 9, number)
            if not sign:
                rest.append(word)
            elif formal in actuals:
                raise Fault(f"{shown(formal)} stands in two pairs", 24, number)
            else:
                actuals[formal] = actual
        return actuals, rest

    def want_genlib(self, number, words):
        if self.genlib is None:
            raise Fault(f"{shown(words[0])} {shown(words[1])}: --genlib FILE tells what the cell is", 3, number)

    def add_gate(self, number, words):
        if len(words) > 1 and RegisterCell.ANY.fullmatch(words[1]):
            return self.add_register_cell(number, words)
        actuals, rest = self.pairs(number, words)
        if rest:
            raise Fault(f"the pair {shown(rest[0])} has no name on one side", 9, number)
        if not self.has_libraries:
            raise Fault(f".gate {shown(words[1])}: --genlib FILE or --liberty FILE tells what the cell is", 3, number)
        self.changed[b".gate"] += 1
        self.model.instances.append(Cell(words[1], list(actuals.items()), number, is_gate=True))

    def add_latch(self, number, words):
        if not self.cuts:
            raise Fault("a latch: --cut makes an input and an output of it", 4, number)
        if not 3 <= len(words) <= 6:
            raise Fault(".latch takes two names, then a kind and a clock, then an initial value", 4, number)
        self.add_register(number, words[1], words[2], words[3:])

    def add_mapped_latch(self, number, words):
        if not self.cuts:
            raise Fault("an .mlatch: --cut makes an input and an output of it", 4, number)
        actuals, rest = self.pairs(number, words)
        self.want_genlib(number, words)
        for output, cover in list(self.genlib.covers(words[1], actuals, number)):
            held, cover.output = cover.output, b"%s$%s$%d" % (cover.output, words[1], number)
            self.model.covers.append(cover)
            self.changed[b".mlatch"] += 1
            self.add_register(number, cover.output, held, [b"", *rest] if len(rest) == 2 else rest)

    def add_register(self, number, data, held, rest):
        initial = rest.pop() if len(rest) in (1, 3) else b"3"
        kind, clock = rest or (b"", b"")
        # An `.mlatch` may name its clock alone.
        if initial not in VALUES:
            if rest:
                raise Fault(f"the initial value {shown(initial)} isn't 0, 1, 2 or 3", 4, number)
            clock, initial = initial, b"3"
        clock = b"" if clock == b"NIL" else clock
        self.model.registers.append(Register(data, held, kind, clock, VALUES[initial], number))


def put_cells(models, libraries):
    """Puts cells of libraries into models, where their text has no model of the name; how many of each name."""
    names = {it.name for it in models if not it.black_box}
    found, put = {it: [] for it in libraries}, Counter()
    for design in models:
        for cell in design.instances:
            library = next((it for it in libraries if it.has(cell.model)), None)
            if library and cell.model not in names:
                found[library].append(cell)
            elif cell.is_gate:
                paths = " and ".join(str(it.path) for it in libraries)
                raise Fault(f"{paths} has no cell {shown(cell.model)}", 3, cell.line)
    library_of = {id(cell): library for library, cells in found.items() for cell in cells}
    made = {it.name: it for library, cells in found.items() for it in library.make_ready(cells)}
    for design in models:
        before, cnames = design.instances, design.cnames
        design.instances, design.cnames = [], {}
        for place, cell in enumerate(before):
            if id(cell) not in library_of:
                design.instances.append(cell)
            else:
                library_of[id(cell)].put(design, cell, made)
                put[cell.model] += 0 if cell.is_gate else 1
            if place in cnames and design.instances:
                design.cnames[len(design.instances) - 1] = cnames[place]
    models += made.values()
    return +put
