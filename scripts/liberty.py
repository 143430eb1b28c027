"""Cells of a library in Liberty, for `prepare`: functions of outputs, and registers by `ff`, `latch` and `statetable` groups."""
import itertools
import re
from dataclasses import dataclass, field

from cells import Formula
from flows import OPEN, Register
from netlist import Cover, Fault, shown, text_of


class LibertyFormula(Formula):
    """A function of Liberty: an exclusive or binds before an and."""

    def differences(self):
        table = self.powers()
        while self.accept((b"*", b"&")) or (self.left and self.left[0] not in (b"+", b"|", b")")):
            table &= self.powers()
        return table

    def powers(self):
        table = self.factor()
        while self.accept((b"^",)):
            table ^= self.factor()
        return table


@dataclass(slots=True)
class Group:
    """A group of the text: its kind, its names, its attributes and the groups in it."""

    kind: bytes
    names: list
    line: int
    values: dict = field(default_factory=dict)
    groups: list = field(default_factory=list)

    def named(self, *kinds):
        return [it for it in self.groups if it.kind in kinds]


class Parser:
    """Reads a Liberty text; of what is in a pin or deeper only groups with a function matter."""

    TOKEN = re.compile(
        rb'(?P<blank>[ \t\r\f\v]+|/\*.*?\*/|//[^\n]*|\\[ \t\r]*\n)|(?P<line>\n)|(?P<text>"(?:[^"\\]|\\.)*")|(?P<sign>[{}();:,])'
        rb'|(?P<word>[^\s{}();:,"\\]+)|(?P<other>.)',
        re.S,
    )

    def __init__(self, path):
        self.path, text = path, text_of(path)
        self.tokens, line = [], 1
        for found in self.TOKEN.finditer(text):
            token = found[0]
            if found.lastgroup == "other":
                raise Fault(f"{path}: line {line}: {shown(token)} is out of place")
            if found.lastgroup != "blank":
                self.tokens.append((token, line))
            line += token.count(b"\n")
        self.at = 0

    def peek(self):
        return self.tokens[self.at][0] if self.at < len(self.tokens) else b""

    def take(self):
        if self.at >= len(self.tokens):
            raise Fault(f"{self.path}: the file ends inside a group")
        self.at += 1
        return self.tokens[self.at - 1]

    def skip_lines(self):
        while self.peek() in (b"\n", b";"):
            self.at += 1

    def arguments(self):
        """The words between brackets."""
        found = []
        while (token := self.take()[0]) != b")":
            if token not in (b",", b"\n"):
                found.append(token.strip(b'"'))
        return found

    def value(self):
        """The words up to the end of a statement."""
        found = []
        while self.peek() not in (b";", b"\n", b"}", b""):
            found.append(self.take()[0].strip(b'"'))
        return b" ".join(found)

    def library(self):
        """The library's group, without a call for each level of groups."""
        top = Group(b"", [], 0)
        open_groups = [top]
        while True:
            self.skip_lines()
            if self.at >= len(self.tokens):
                break
            word, line = self.take()
            if word == b"}":
                if len(open_groups) == 1:
                    raise Fault(f"{self.path}: line {line}: a `}}` that closes nothing")
                open_groups.pop()
                continue
            self.statement(open_groups, word, line)
        if len(open_groups) > 1:
            raise Fault(f"{self.path}: line {open_groups[-1].line}: a group that nothing closes")
        return top

    def statement(self, open_groups, word, line):
        inside, sign = open_groups[-1], self.take()[0]
        if sign == b":":
            inside.values[word] = self.value()
            return
        if sign != b"(":
            raise Fault(f"{self.path}: line {line}: `:` or `(` is wanted behind {shown(word)}")
        names, before = self.arguments(), self.at
        while self.peek() == b"\n":
            self.at += 1
        if self.peek() == b"{":
            self.at += 1
            group = Group(word, names, line)
            inside.groups.append(group)
            open_groups.append(group)
        else:
            self.at = before


# A table of more inputs isn't read.
MOST_INPUTS_OF_TABLE = 8
LEVELS = (b"L", b"H", b"-", b"L/H", b"H/L")


def rows_of_table(group):
    """The rows of a `statetable`: levels of inputs, and what the node is then, or `N` where it stays. `L/H` is for two rows."""
    text = group.values.get(b"table", b"").replace(b"\\", b" ")
    for row in filter(bytes.strip, text.split(b",")):
        levels, now, after, *rest = (it.split() for it in (*row.split(b":"), b"", b""))
        if any(rest) or now != [b"-"] or len(after) != 1 or any(it not in LEVELS for it in levels):
            raise ValueError("states or edges")
        for turn in (0, 1) if b"/" in b"".join([*levels, *after]) else (0,):
            chosen = [it.split(b"/")[turn] if b"/" in it else it for it in (*levels, *after)]
            if chosen[-1] not in (b"L", b"H", b"N"):
                raise ValueError("levels that are left open")
            yield chosen[:-1], chosen[-1]


def found_in_table(group, inputs):
    """What a `statetable` says of the node at all levels of its inputs: the first row that fits counts."""
    if len(inputs) > MOST_INPUTS_OF_TABLE:
        raise ValueError(f"over {MOST_INPUTS_OF_TABLE} inputs")
    rows = list(rows_of_table(group))
    if any(len(levels) != len(inputs) for levels, _ in rows):
        raise ValueError("a row of another length")
    for values in itertools.product((b"L", b"H"), repeat=len(inputs)):
        fitting = (after for levels, after in rows if all(it in (b"-", value) for it, value in zip(levels, values)))
        yield values, next(fitting, b"")


def sum_of(inputs, rows):
    """The function that is 1 at these levels of its inputs."""
    products = (b"*".join(it if value == b"H" else b"!" + it for it, value in zip(inputs, values)) or b"1" for values in rows)
    return b"+".join(products) or b"0"


def latch_of(group):
    """The `latch` that a `statetable` of levels is. Where one input decides whether its node follows others, that is enable."""
    inputs, nodes = (it.split() for it in (*group.names, b"", b"")[:2])
    if len(nodes) != 1:
        raise ValueError("several nodes")
    found = dict(found_in_table(group, inputs))
    if b"" in found.values():
        raise ValueError("levels that no row fits")
    follows = [values for values, after in found.items() if after != b"N"]
    enable, kept = sum_of(inputs, follows), range(len(inputs))
    for k, name in enumerate(inputs):
        for level in (b"L", b"H"):
            if follows == [values for values in found if values[k] == level]:
                enable, kept = name if level == b"H" else b"!" + name, [it for it in kept if it != k]
    ones = [[values[k] for k in kept] for values in follows if found[values] == b"H"]
    return Group(b"latch", nodes, group.line, {b"data_in": sum_of([inputs[k] for k in kept], ones), b"enable": enable})


def plain_pin(formula):
    """The pin that a formula is, and whether it is its inverse; none where it is something else."""
    if len(formula.pins) == 1 and formula.rows in ([b"11"], [b"00"], [b"01"], [b"10"]):
        return formula.pins[0], formula.rows in ([b"01"], [b"10"])
    return None, False


class Placed:
    """A cell in a design, whose names become signals there."""

    def __init__(self, library, group, design, cell):
        self.library, self.group, self.design, self.cell = library, group, design, cell
        self.signals = dict(cell.pairs)
        self.outputs = {}
        for pin in group.named(b"pin"):
            for name in pin.names:
                if pin.values.get(b"direction") != b"input" and name in self.signals:
                    self.outputs[name] = pin

    def fault(self, said, code=3):
        return Fault(f"{self.library.path}: the cell {shown(self.cell.model)} {said}", code, self.cell.line)

    def formula(self, text):
        try:
            return LibertyFormula(text)
        except ValueError as error:
            raise self.fault(f"has a function that isn't read: {error}") from None

    def fresh(self, what):
        return b"$%s$%d$%s" % (self.cell.model, self.cell.line, what)

    def columns(self, formula):
        lost = [it for it in formula.pins if it not in self.signals]
        if lost:
            raise self.fault(f"has no pair for {shown(lost[0])}", 25)
        return [self.signals[it] for it in formula.pins]

    def cover(self, formula, output):
        self.design.covers.append(Cover(self.columns(formula), output, self.cell.line, formula.rows))
        return output

    def signal_of(self, text, what):
        """The signal of a function: a pin's own, or a new one."""
        formula = self.formula(text)
        pin, is_inverse = plain_pin(formula)
        if pin and not is_inverse:
            return self.columns(formula)[0]
        return self.cover(formula, self.fresh(what))

    def put(self):
        """Adds the registers, then the outputs."""
        for it in self.group.named(b"ff_bank", b"latch_bank", b"bus", b"bundle"):
            raise self.fault(f"has a {shown(it.kind)}, which isn't read")
        registers = self.group.named(b"ff", b"latch") + [self.latch(it) for it in self.group.named(b"statetable")]
        for number, state in enumerate(registers):
            self.name_state(state, number)
        for number, state in enumerate(registers):
            self.add_register(state, number)
        for name, pin in self.outputs.items():
            self.add_output(name, pin)
        return bool(registers)

    def latch(self, table):
        try:
            return latch_of(table)
        except ValueError as error:
            raise self.fault(f"has a statetable that isn't read: {error}") from None

    def name_state(self, state, number):
        """A register holds what the first of its outputs is, if one is it unchanged."""
        variable = state.names[0]
        own = [self.signals[name] for name, pin in self.outputs.items() if self.function(pin).strip(b" ()") == variable]
        held = own[0] if own else self.fresh(b"state%d" % number)
        self.signals[variable] = held
        for pin in self.group.named(b"pin"):
            if pin.values.get(b"internal_node") == variable:
                self.signals.update((name, held) for name in pin.names if name not in self.outputs)
        if len(state.names) > 1:
            self.signals[state.names[1]] = self.fresh(b"inverse%d" % number)
            self.design.covers.append(Cover([held], self.signals[state.names[1]], self.cell.line, [b"01"]))

    @staticmethod
    def function(pin):
        """What an output is: a function of pins and of what is held."""
        texts = (pin.values.get(it, b"") for it in (b"function", b"state_function", b"internal_node"))
        return next(filter(None, texts), b"")

    def add_register(self, state, number):
        values, is_latch = state.values, state.kind == b"latch"
        if b"clocked_on_also" in values:
            raise self.fault("has two clocks")
        data, clock = values.get(b"data_in" if is_latch else b"next_state"), values.get(b"enable" if is_latch else b"clocked_on")
        if data is None or clock is None:
            raise self.fault(f"has a {shown(state.kind)} without a clock or without what goes into it")
        pin, is_inverse = plain_pin(self.formula(clock))
        kind = (b"al" if is_latch else b"fe") if pin and is_inverse else (b"ah" if is_latch else b"re")
        held = self.signals[state.names[0]]
        going_in = self.cover(self.formula(data), self.fresh(b"next%d" % number))
        named = self.signals[pin] if pin in self.signals else self.signal_of(clock, b"clock%d" % number)
        register = Register(going_in, held, kind, named, OPEN, self.cell.line)
        self.reset(state, register, number)
        self.design.registers.append(register)

    def reset(self, state, register, number):
        """Sets the function of the asynchronous inputs, over them and what is held, `H`."""
        clear, preset = (state.values.get(it) for it in (b"clear", b"preset"))
        both = state.values.get(b"clear_preset_var1", b"L").upper()
        if clear and preset and both not in (b"L", b"H"):
            raise self.fault(f"has a state that isn't read where clear and preset are active: {shown(both)}")
        signals = {b"C": clear and self.signal_of(clear, b"clear%d" % number)}
        signals[b"P"] = preset and self.signal_of(preset, b"preset%d" % number)
        text = {(True, False): b"!C*H", (False, True): b"P+H", (True, True): b"!C*(P+H)"}.get((bool(clear), bool(preset)))
        if clear and preset and both == b"H":
            text = b"P+!C*H"
        if text:
            formula = Formula(text)
            register.resets, register.reset_rows = [signals[it] for it in formula.pins if it != b"H"], formula.rows
            # After an edge too it holds what an active reset says, as yosys's cells do.
            going_in, register.data = register.data, self.fresh(b"after%d" % number)
            columns = [*register.resets, going_in]
            self.design.covers.append(Cover(columns, register.data, self.cell.line, formula.rows))

    def add_output(self, name, pin):
        function = self.function(pin)
        if not function:
            raise self.fault(f"has no function for its output {shown(name)}")
        if pin.values.get(b"three_state"):
            raise self.fault(f"has a three-state output {shown(name)}")
        # The register's own output has its driver.
        if self.signals.get(function.strip(b" ()")) != self.signals[name]:
            self.cover(self.formula(function), self.signals[name])


class Liberty:
    """The cells of a Liberty file."""

    def __init__(self, path):
        self.path = path
        libraries = Parser(path).library().named(b"library")
        self.cells = {it.names[0]: it for library in libraries for it in library.named(b"cell") if it.names}
        if not self.cells:
            raise Fault(f"{path}: the file has no library with a cell")

    def has(self, name):
        return name in self.cells

    def make_ready(self, _cells):
        return []

    def put(self, design, cell, _models):
        Placed(self, self.cells[cell.model], design, cell).put()
