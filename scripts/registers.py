"""Registers, for `prepare`: their names and partners, what contradicts, and the cut."""
import itertools
import re

from flows import OPEN
from netlist import BUFFER, REGISTER_LINE, SHOWN_NAMES, Cover, Fault, complain, counted, listed, shown
from spelling import met

# The kinds of clocks, each with that of the inverse.
OTHER_EDGES = {b"re": b"fe", b"fe": b"re", b"ah": b"al", b"al": b"ah"}
# A cover of which more columns aren't known isn't looked at value by value.
MOST_OPEN = 8
# The way into a cell of an FPGA library, at a register's end, and that into an instance without a name.
CELL_PART = re.compile(rb"\d+:[^/]*\$\d+/[^/]*\Z")
# How yosys and abc call what they put in: by cells and their ports, as `sum_SB_DFF_Q_D_SB_LUT4_O[2]`, or by a number.
MADE_NAME = re.compile(rb"_[A-Z][A-Z\d_]*_[A-Z]+\d*(?:\[\d+\])*\Z|\A\$abc\$")
NUMBERED_PART = re.compile(rb"(?:\A|[./])\d+:[^/]+/")


def ends_of_buffers(design):
    """For each signal that buffers and inverters make of another: the one at their beginning, and whether it is its inverse."""
    source = {}
    for it in design.covers:
        if it.rows in ([b"11"], [b"00"], [b"01"], [b"10"]):
            source[it.output] = it.columns[0], it.rows in ([b"01"], [b"10"])
    roots = {}
    for start in source:
        way, name = [], start
        while name in source and name not in roots and len(way) <= len(source):
            way.append(name)
            name = source[name][0]
        root, is_inverse = roots.get(name, (name, False))
        for it in reversed(way):
            is_inverse ^= source[it][1]
            roots[it] = root, is_inverse
    return roots


def name_registers(design):
    """Gives each register all its names: that of what it holds, and those that buffers join to it."""
    registers = {}
    for it in design.registers:
        if it.held in registers:
            raise Fault(f"{shown(it.held)} has two drivers", 26, it.line)
        registers[it.held] = it
        it.names = [it.held]
    roots = ends_of_buffers(design)
    for name, (root, is_inverse) in roots.items():
        if root in registers and not is_inverse:
            registers[root].names.append(name)
    for it in design.registers:
        it.clock, is_inverse = roots.get(it.clock, (it.clock, False))
        it.kind = OTHER_EDGES.get(it.kind, it.kind) if is_inverse else it.kind
        it.name = next((name for name in it.names if b"$" not in name), it.held)


def match_by_spelling(first, second, partner):
    """Adds partners whose names differ in spelling alone; no register gets two."""
    owners = [{name: it for it in side for name in it.names if b"$" not in name} for side in (first, second)]
    taken = set()
    for other, name in met(*owners).items():
        one, two = owners[0][name], owners[1][other]
        if one.held not in taken and two.held not in partner:
            taken.add(one.held)
            partner[two.held] = one
            one.name = two.name = name


def match_registers(first, second, by_spelling=False):
    """The pairs of registers that have a name in common, which get that name; the registers of each side without partner.
    By spelling also those whose names differ in spelling alone, which get that of the first."""
    by_name = {name: it for it in first for name in it.names}
    by_held = {it.held: it for it in first}
    partner, taken = {}, set()
    for register in second:
        found = by_held.get(register.held)
        if found is not None:
            partner[register.held] = found
            taken.add(found.held)
    for register in second:
        if register.held in partner:
            continue
        found = [by_name[it] for it in register.names if it in by_name and by_name[it].held not in taken]
        if found:
            partner[register.held] = found[0]
            taken.add(found[0].held)
    for register in second:
        found = partner.get(register.held)
        if found is not None:
            both = set(found.names) & set(register.names)
            names = sorted(both, key=lambda it: (b"$" in it, it != found.held, it != register.held, it))
            found.name = register.name = names[0]
    if by_spelling:
        match_by_spelling([it for it in first if it.held not in taken], [it for it in second if it.held not in partner], partner)
        taken.update(it.held for it in partner.values())
    pairs = [(partner[it.held], it) for it in second if it.held in partner]
    return pairs, [it for it in first if it.held not in taken], [it for it in second if it.held not in partner]


def contradictions(pairs, tell):
    """Tells where two registers have other clocks, resets or initial values; whether any contradict each other."""
    told = {}
    for first, second in pairs:
        values = first.initial, second.initial
        if values[0] != values[1]:
            told.setdefault(("initial value", *values, OPEN not in values), []).append(first.name)
        clocks = first.clock_told(), second.clock_told()
        if clocks[0] != clocks[1] and not (first.has_clock_output and first.kind == second.kind):
            is_other_kind = bool(first.kind and second.kind and first.kind != second.kind)
            is_wrong = bool(first.clock and second.clock) and (first.clock != second.clock or is_other_kind)
            told.setdefault(("clock", *clocks, is_wrong), []).append(first.name)
        resets = ["asynchronous" if it.resets else "not asynchronous" for it in (first, second)]
        if resets[0] != resets[1]:
            told.setdefault(("reset", *resets, True), []).append(first.name)
    for (what, one, two, is_wrong), names in told.items():
        note = ", a contradiction" if is_wrong else ""
        tell(f"{what} {one} in the first, {two} in the second{note}: {listed(names)}")
    return any(is_wrong for *_, is_wrong in told)


def register_line(register, source, suffix):
    """The comment by which `replay` knows a register: its name, the input that it became or `=0` or `=1`, the output of
    what goes into it, its clock, and what its own file calls it, of all names that of what holds the value."""
    clock = [register.kind or b"-", register.clock or b"-"]
    held = next((it for it in register.names if not CELL_PART.search(it)), register.name)
    return b" ".join([REGISTER_LINE, register.name, source, register.name + suffix, *clock, held])


def cut_registers(design, suffix):
    """Makes an input and an output of each register."""
    taken = {*design.inputs, *design.outputs, *(it.output for it in design.covers)}
    renamed = {}
    inputs, outputs, covers = [], [], []
    input_of = {it.held: it.name + b".held" * bool(it.resets) for it in design.registers}
    for it in design.registers:
        source = b"=" + it.constant if it.constant else input_of[it.twin or it.held]
        design.comments.append(register_line(it, source, suffix))
        if it.constant:
            covers.append(Cover([], it.held, it.line, [it.constant]))
        elif it.twin:
            covers.append(Cover([it.twin], it.held, it.line, BUFFER))
        elif it.resets:
            inputs.append(source)
            covers.append(Cover([*it.resets, source], it.held, it.line, it.reset_rows))
        else:
            inputs.append(source)
            if it.name != it.held:
                renamed[it.name] = it.held
                covers.append(Cover([it.name], it.held, it.line, BUFFER))
        cuts = [(suffix, it.data)] + ([(b".clock", it.clock)] if it.has_clock_output else [])
        for end, source in cuts:
            if it.name + end in taken:
                raise Fault(f"a signal has the name {shown(it.name + end)}; choose another --suffix", 12, it.line)
            outputs.append(it.name + end)
            covers.append(Cover([source], it.name + end, it.line, BUFFER))
    declared = set(design.inputs)
    for it in inputs:
        if it in declared:
            raise Fault(f"the input {shown(it)} is driven by a register", 26)
    # The cover of a name that becomes the input is turned: what is held gets its value from there.
    design.covers = [it for it in design.covers if it.output not in renamed] + covers
    design.inputs, design.outputs, design.registers = design.inputs + inputs, design.outputs + outputs, []


def twins_of(registers, others, pairs):
    """For registers without partner that are in the other file one with another one: their name, with the latter here and
    there. Both have the same clock and reset here. The pairs have the registers of the other file first."""
    owner = {name: it for it in others for name in it.names}
    partner = {there.held: here for there, here in pairs}
    for it in registers:
        shared = next((owner[name] for name in it.names if name in owner), None)
        twin = partner.get(shared.held) if shared else None
        if twin and all(getattr(it, at) == getattr(twin, at) for at in ("kind", "clock", "resets", "reset_rows")):
            yield it.name, twin, shared


# Registers of one side alone


def always_known(cover, columns):
    """A cover's value where its columns have these values, of which some aren't known (none); none where they decide."""
    open_places = [k for k, it in enumerate(columns) if it is None]
    if len(open_places) > MOST_OPEN:
        return None
    found = set()
    for values in itertools.product(b"01", repeat=len(open_places)):
        at = list(columns)
        for k, value in zip(open_places, values):
            at[k] = value
        found.add(cover.value(bytes(at)))
    return b"01"[found.pop()] if len(found) == 1 else None


def known_values(design, given, wanted):
    """The values that signals have whatever all others are, where some have given values."""
    drivers, values = {it.output: it for it in design.covers}, dict(given)
    for start in wanted:
        todo = [start]
        while todo:
            name = todo[-1]
            cover = drivers.get(name)
            columns = cover.columns if cover and name not in values else ()
            waiting = [it for it in columns if it not in values]
            if waiting and len(todo) <= len(drivers):
                todo += waiting
                continue
            todo.pop()
            if name not in values:
                values[name] = always_known(cover, [values.get(it) for it in columns]) if cover else None
    return values


def staying(design, registers, bit):
    """The registers that hold a bit for ever where all of them begin with it."""
    value, left = bit[0], {it.held: it for it in registers if it.initial in (OPEN, shown(bit))}
    while left:
        wanted = [name for it in left.values() for name in (it.data, *it.resets)]
        values = known_values(design, dict.fromkeys(left, value), wanted)

        def stays(it):
            after_reset = value
            if it.resets:
                after_reset = always_known(Cover([], b"", 0, it.reset_rows), [*(values[name] for name in it.resets), value])
            return values[it.data] == value == after_reset

        still = {held: it for held, it in left.items() if stays(it)}
        if len(still) == len(left):
            break
        left = still
    return list(left.values())


def constants_of(design, registers, other):
    """The registers of one side alone that are constant by the other file, or by a look at what goes into them: their bits."""
    roots = ends_of_buffers(other)
    bits = {it.output: b"1" if it.rows == [b"1"] else b"0" for it in other.covers if not it.columns}
    found = {}
    for it in registers:
        for name in it.names:
            root, is_inverse = roots.get(name, (name, False))
            if root in bits:
                found[it.name] = b"%d" % ((bits[root] == b"1") != is_inverse)
    for bit in (b"0", b"1"):
        for it in staying(design, registers, bit):
            found.setdefault(it.name, bit)
    return found


def cone(design, names):
    """All signals that covers make some signals of."""
    drivers = {it.output: it.columns for it in design.covers}
    found, todo = set(names), list(names)
    while todo:
        fresh = [it for it in drivers.get(todo.pop(), ()) if it not in found]
        found.update(fresh)
        todo += fresh
    return found


class ClockGates:
    """The registers of two files whose clock is gated in one of them; the latches of the gates."""

    def __init__(self, sides, pairs):
        self.names, self.signals = ([], []), (set(), set())
        self.clocks, self.cones = set(), {}
        for pair in pairs:
            for k, it in enumerate(pair):
                there, inputs = pair[1 - k], sides[k].main.inputs
                if it.clock and there.clock and it.clock != there.clock and it.clock not in inputs:
                    self.look(k, sides[k].main, it, there)
        self.latches = [self.latches_of(k, side.main) for k, side in enumerate(sides)]

    def look(self, k, design, register, there):
        if (k, register.clock) not in self.cones:
            self.cones[k, register.clock] = cone(design, [register.clock])
        if there.clock in self.cones[k, register.clock]:
            self.signals[k].add(register.clock)
            self.names[k].append(register.name)
            self.clocks.add(there.clock)

    def latches_of(self, k, design):
        signals = cone(design, self.signals[k])
        return {it.held for it in design.registers if it.held in signals and it.kind in (b"ah", b"al")}

    def tell(self, sides):
        """Says what is gated; whether anything is."""
        for k, side in enumerate(sides):
            if self.names[k]:
                told = f"{counted(len(self.names[k]), 'register')} with {listed(sorted(self.clocks))} behind "
                told += f"{counted(len(self.signals[k]), 'clock gate')}: {listed(self.names[k])}"
                complain(f"prepare: only {side.path} has {told}; what goes into them isn't alike then: compare before gating")
        return any(self.names)


def have_names_of_cells(registers, others):
    """Whether a tool named registers by cells that hold what the design calls by other registers' names."""
    bases = {base_of(it.name) for it in others}
    made = [it.name for it in registers if b"$" in it.name or re.search(rb"\.[A-Z]+\Z", it.name)]
    return bool(made) and all(any(name.startswith(base) for base in bases) for name in made[:SHOWN_NAMES])


def have_names_of_ports(registers):
    """Whether all registers have names that yosys makes of ports of cells beside them, as where the design's were taken away."""
    return all(MADE_NAME.search(it.name) and b"$" not in it.name for it in registers)


def have_numbers_of_instances(registers):
    """Whether registers have numbers of instances in the ways to them, which other files number otherwise or not at all."""
    return any(NUMBERED_PART.search(CELL_PART.sub(b"", name)) for it in registers for name in (it.name, it.held))


def hint(lost):
    """What may have become of registers that either file has alone, by their names; nothing where no name tells."""
    first, second = lost
    spelt = met([it.name for it in first], [it.name for it in second])
    for other, name in spelt.items():
        return f"other spellings of {counted(len(spelt), 'name')}, as {shown(other)} for {shown(name)}: try --names"
    if have_numbers_of_instances(first) or have_numbers_of_instances(second):
        return "numbers of instances in place of names: write with `write_blif -cname`, or flatten before"
    if have_names_of_cells(first, second) or have_names_of_cells(second, first):
        return "names of cells in place of the design's, as `opt_clean -purge` leaves them: write with plain `opt_clean`"
    both = {base_of(it.name) for it in first} & {base_of(it.name) for it in second}
    if both:
        return f"other bits of {listed(sorted(both))}: another code of states, as without `synth -nofsm`"
    if first and second:
        told = "moved or coded otherwise, as by retiming (`abc -dff`, `retime`): compare before that step"
        if have_names_of_ports(first) or have_names_of_ports(second):
            told += "; or without the design's names, as `opt_clean -purge` leaves them: write with plain `opt_clean`"
        return told
    alone = first or second
    if alone and all(MADE_NAME.search(it.name) for it in alone):
        return "put in by a tool that moves registers, as by retiming (`-retime`): compare before that step"
    return None


def base_of(name):
    """A vector's name of a bit's."""
    return re.sub(rb"(\[\d+\])+\Z", b"", name)


class Alone:
    """The registers of one file that have no partner in the other one."""

    def __init__(self, side, other, registers, ways):
        self.side, self.other, self.registers = side, other, registers
        self.twins = {name: found for name, *found in twins_of(registers, other.main.registers, ways)}
        self.constants = constants_of(side.main, registers, other.main) if registers else {}
        self.left = []

    def take(self, given):
        """Gives each a constant or a twin, where it is to have one; whether initial values fit."""
        has_fit = True
        for it in self.registers:
            it.constant = given.constants.pop(it.name, self.constants.get(it.name, b"") if given.all_constants else b"")
            twin, shared = self.twins.get(it.name, (None, None))
            if it.constant:
                self.other.added.append((it, shown(it.constant), Cover([], b"", 0, [it.constant])))
                initial = shown(it.constant)
            elif twin and given.merged:
                it.twin = twin.held
                self.other.added.append((it, shown(shared.name), Cover([shared.data], b"", 0, BUFFER)))
                initial = twin.initial
            else:
                self.left.append(it)
                continue
            if OPEN not in (it.initial, initial) and it.initial != initial:
                complain(f"prepare: {shown(it.name)} has the initial value {it.initial}, a contradiction to {initial}")
                has_fit = False
        return has_fit

    def tell(self):
        """Says what is left, a line for each way to go on; those for which there is none."""
        constant = [it for it in self.left if it.name in self.constants]
        merged = [it for it in self.left if it.name in self.twins and it.name not in self.constants]
        rest = [it for it in self.left if it.name not in self.constants and it.name not in self.twins]
        if constant:
            bit = shown(self.constants[constant[0].name])
            stays = f"which stays {bit}" if len(constant) == 1 else "each of which stays a constant"
            more = "" if len(constant) == 1 else ", or --constants for all"
            self.say(constant, f", {stays}: try --constant {shown(constant[0].name)}={bit}{more}")
        if merged:
            pairs = [f"{shown(it.name)} with {shown(self.twins[it.name][1].name)}" for it in merged[:SHOWN_NAMES]]
            more = f" and {len(merged) - SHOWN_NAMES} more" if len(merged) > SHOWN_NAMES else ""
            self.say(merged, f", one in {self.other.path} ({', '.join(pairs)}{more}): try --merged")
        if rest:
            self.say(rest, "")
        return rest

    def say(self, registers, told):
        one = f"the register {shown(registers[0].name)}"
        names = one if len(registers) == 1 else f"{len(registers)} registers: {listed(it.name for it in registers)}"
        complain(f"prepare: only {self.side.path} has {names}{told}")


def compare_registers(first, second, given):
    """Names the registers of both sides alike, and tells what has no partner, or takes others; whether all agree."""
    sides = first, second
    pairs, *lost = match_registers(first.main.registers, second.main.registers, given.names)
    for one, two in pairs:
        is_inner = one.has_clock_output or two.has_clock_output
        one.has_clock_output = two.has_clock_output = is_inner and bool(one.clock and two.clock)
    gates = ClockGates(sides, pairs)
    agree = not contradictions(pairs, lambda said: complain(f"prepare: {said}"))
    agree = not gates.tell(sides) and agree
    turned = [(two, one) for one, two in pairs]
    lost = [[it for it in side if it.held not in latches] for side, latches in zip(lost, gates.latches)]
    alone = Alone(first, second, lost[0], turned), Alone(second, first, lost[1], pairs)
    # Each side is taken before either is told of.
    agree = all([it.take(given) for it in alone]) and agree
    for name in given.constants:
        raise Fault(f"--constant {shown(name)}: no register of one side alone has that name")
    told = hint([it.tell() for it in alone])
    if told:
        complain(f"prepare: {told}")
    return agree and not any(it.left for it in alone)
