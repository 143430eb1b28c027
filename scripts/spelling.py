"""Names that tools spell in different ways, and short names with a table of what they stand for."""
import hashlib
import re

from netlist import BUFFER, TABLE_HEAD, Cover, names_in

# Each way of spelling takes the ones before it along; the last ones are tried for what is left.
BRACKETS = re.compile(rb"[<({](\d+)[>)}]")
UNDERSCORES = re.compile(rb"((?:_\d+_)+)(?=\.|\Z)")
UNDERSCORE = re.compile(rb"_(\d+)\Z")
SIGNS = re.compile(rb"[^0-9A-Za-z$]+")


def plain(name):
    """A name without a backslash, with bits and ways written as `a.b[3]`."""
    return BRACKETS.sub(rb"[\1]", name.lstrip(b"\\")).replace(b"/", b".").replace(b"|", b".")


def by_underscores(name):
    """The same, where a bit may be `a_3_`."""
    return UNDERSCORES.sub(lambda it: re.sub(rb"_(\d+)_", rb"[\1]", it[1]), plain(name))


def by_underscore(name):
    """The same, where a bit may be `a_3`."""
    return UNDERSCORE.sub(rb"[\1]", by_underscores(name))


def without_signs(name):
    """The same with `_` for whatever else stands between letters and digits, since tools flatten `u[1].a` to `u_1__a`."""
    return SIGNS.sub(b"_", by_underscore(name)).strip(b"_")


def without_case(name):
    return without_signs(name).lower()


SPELLINGS = (plain, by_underscores, by_underscore, without_signs, without_case)


def alone(names, spelling):
    """The names by their spelling, where only one has it."""
    found = {}
    for it in names:
        found.setdefault(spelling(it), []).append(it)
    return {key: names[0] for key, names in found.items() if len(names) == 1}


def met(names, others):
    """For the second netlist's names without partner those of the first netlist that differ in spelling alone."""
    left, left_others, pairs = dict.fromkeys(names), dict.fromkeys(others), {}
    for it in [it for it in left if it in left_others]:
        del left[it], left_others[it]
    for spelling in SPELLINGS:
        first, second = alone(left, spelling), alone(left_others, spelling)
        for key in [it for it in second if it in first]:
            pairs[second[key]] = first[key]
            del left[first[key]], left_others[second[key]]
    return pairs


def rename(design, new_names):
    """Renames signals of a model of a flow, ports too."""

    def of(name):
        return new_names.get(name, name)

    design.inputs, design.outputs = [of(it) for it in design.inputs], [of(it) for it in design.outputs]
    for it in design.covers:
        it.columns, it.output = [of(name) for name in it.columns], of(it.output)
    for it in design.instances:
        it.pairs = [(formal, of(actual)) for formal, actual in it.pairs]
    design.registers = [it.renamed_by(of) for it in design.registers]


def rename_ports(design, inputs, outputs):
    """Gives ports new names; inner signals that have one of these get another one."""
    signals = {old: inputs.get(old, old) for old in design.inputs}
    buffers = {}
    for place, old in enumerate(design.outputs):
        new = outputs.get(old, old)
        if signals.setdefault(old, new) != new:
            buffers[place] = old, new
    taken = {*signals.values(), *(new for _, new in buffers.values())}
    used = taken | set(names_in(design))
    for name in [it for it in names_in(design) if it not in signals and it in taken]:
        free = name + b"_inner"
        while free in used:
            free += b"_"
        used.add(free)
        signals[name] = free
    rename(design, {old: new for old, new in signals.items() if old != new})
    for place, (old, new) in buffers.items():
        design.outputs[place] = new
        design.covers.append(Cover([signals[old]], new, 0, BUFFER))


# Short names


def digits(number):
    """A number in 36 digits."""
    found = b""
    while True:
        number, digit = divmod(number, 36)
        found = b"0123456789abcdefghijklmnopqrstuvwxyz"[digit : digit + 1] + found
        if not number:
            return found


def shorten(models):
    """Gives inner signals of models short names, none twice; for each the name that it had."""
    used = {name for it in models for name in (*it.inputs, *it.outputs)}
    table, number = {}, 0
    for design in models:
        ports, new_names = {*design.inputs, *design.outputs}, {}
        for name in names_in(design):
            if name in ports:
                continue
            short = b"n" + digits(number)
            while short in used:
                number += 1
                short = b"n" + digits(number)
            number += 1
            new_names[name] = short
            table[short] = name
        rename(design, new_names)
    return table


def table_text(table, text):
    """A table of short names, a line each, behind what tells the text that has them."""
    head = TABLE_HEAD + hashlib.sha256(text).hexdigest().encode()
    return b"\n".join([head, *(short + b" " + name for short, name in table.items())]) + b"\n"
