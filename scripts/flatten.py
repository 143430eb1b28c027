"""Hierarchies and what hangs on nothing, for `prepare`: flattening, and signals that nothing drives or nobody needs."""
from collections import deque

from flows import Design
from netlist import BUFFER, MOST_SIGNALS, Cover, Fault, counted, listed, names_in, shown


def path_part(design, place):
    """What an instance puts before the names below it."""
    if place in design.cnames:
        return design.cnames[place] + b"."
    return b"%d:%s/" % (place + 1, design.instances[place].model)


class Flattening:
    """One model of a main model and all that it reaches. Signals below an instance get their path before their name."""

    def __init__(self, reached, main):
        self.reached = reached
        self.flat = Design(main.name, main.line, main.inputs, main.outputs)
        self.used = set()
        self.signals = 0
        todo = deque([(main, b"", {})])
        while todo:
            design, path, pairs = todo.popleft()
            todo.extend(self.add(design, path, pairs))

    def add(self, design, path, pairs):
        """Adds an instance of a model; its own instances with their paths and their pairs."""
        names, inputs = self.flat_names(design, path), set(design.inputs)
        for formal, actual in pairs.items():
            inside = names[formal]
            ends = ([actual], inside) if formal in inputs else ([inside], actual)
            self.flat.covers.append(Cover(*ends, design.line, BUFFER))
        for it in design.covers:
            self.flat.covers.append(Cover([names[name] for name in it.columns], names[it.output], it.line, it.rows))
        for it in design.registers:
            self.flat.registers.append(it.renamed(names))
        for place, it in enumerate(design.instances):
            actuals = {formal: names[actual] for formal, actual in it.pairs}
            yield self.reached[it.model], path + path_part(design, place), actuals

    def flat_names(self, design, path):
        """The flat name of each name of a model below a path."""
        names = names_in(design)
        self.signals += len(names)
        if self.signals > MOST_SIGNALS:
            raise Fault(f"over {MOST_SIGNALS} signals", 29)
        for name in names:
            flat = path + name
            while flat in self.used:
                flat += b"_"
            self.used.add(flat)
            names[name] = flat
        return names


def undriven(design, reached):
    """The signals of a model that nothing in it drives, in the order in which they are used."""
    driven = {*design.inputs, *(it.output for it in design.covers), *(it.held for it in design.registers)}
    used = [design.outputs, *(it.columns for it in design.covers)]
    used += [it.needs() for it in design.registers]
    for it in design.instances:
        inputs = set(reached[it.model].inputs)
        driven.update(actual for formal, actual in it.pairs if formal not in inputs)
        used.append([actual for formal, actual in it.pairs if formal in inputs])
    return list(dict.fromkeys(name for names in used for name in names if name not in driven))


def signals_below(reached, main):
    """How many signals and instances are below a main model."""
    counts, todo = {}, [main.name]
    while todo:
        design = reached[todo[-1]]
        waiting = [it.model for it in design.instances if it.model not in counts]
        if waiting:
            todo += waiting
            continue
        counts[todo.pop()] = len(names_in(design)) + sum(1 + counts[it.model] for it in design.instances)
    return counts[main.name]


# Signals that nobody needs


def needed_names(design):
    """All signals of a flat model that its outputs need, by registers too."""
    drivers = {it.output: it.columns for it in design.covers}
    for it in design.registers:
        drivers[it.held] = it.needs()
    needed = set(design.outputs)
    todo = list(needed)
    while todo:
        fresh = [it for it in drivers.get(todo.pop(), ()) if it not in needed]
        needed.update(fresh)
        todo += fresh
    return needed


def hanging(design, roots):
    """All signals of a flat model that covers make of some signals, these among them."""
    readers = {}
    for it in design.covers:
        for name in it.columns:
            readers.setdefault(name, []).append(it.output)
    found = set(roots)
    todo = list(roots)
    while todo:
        fresh = [it for it in readers.get(todo.pop(), ()) if it not in found]
        found.update(fresh)
        todo += fresh
    return found


def output_that_needs(design, name):
    ports = [(it, it) for it in design.outputs] + [(it.data, it.held) for it in design.registers]
    found = hanging(design, [name])
    return next(told for inside, told in ports if inside in found)


def without_unused(design, tell):
    """Takes registers away that no output needs, and signals that nothing drives, with what hangs on them."""
    needed = needed_names(design)
    lost = [it for it in design.registers if it.held not in needed]
    if lost:
        tell(f"{counted(len(lost), 'register')} that no output needs left out: {listed(it.held for it in lost)}")
        design.registers = [it for it in design.registers if it.held in needed]
    open_names = undriven(design, {})
    for name in open_names:
        if name in needed:
            said = f"nothing drives {shown(name)}, which {shown(output_that_needs(design, name))} needs"
            raise Fault(f"{said}; yosys's 'setundef -undriven -zero' before 'techmap' would make it 0", 27)
    own = {it.held for it in lost}
    told = [it for it in open_names if it not in own]
    gone = hanging(design, open_names)
    before = len(design.covers)
    design.covers = [it for it in design.covers if it.output not in gone]
    if told:
        told_names = f"{counted(len(told), 'signal')} that nothing drives left out: {listed(told)}"
        tell(f"{told_names}; with {counted(before - len(design.covers), 'cover')}")
