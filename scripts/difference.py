"""Reports of differences, and what the two netlists have under their assignments, for the scripts beside it that show them.

A report is what eqc prints where outputs differ. Of an output's cone the values of all signals are known, and which of them
are on sensitised paths: from the output back each of them, turned alone, turns the next one. Mostly a difference comes along
one of these.
"""
import re

from netlist import INPUT, Fault, shown

HEAD = b"differs at "
# With --locate and --explain eqc's lines on standard error begin so. No line of a report has a blank there.
TOLD = b"eqc: "
BIT = re.compile(rb"(.+)\[(\d+)\]", re.DOTALL)


def blocks(text):
    """The lines on each output that differs. A name has no blank, so no other line begins as a block does."""
    lines = [it for it in text.rstrip(b"\r\n").split(b"\n") if not it.startswith(TOLD)]
    if not lines or not lines[0].startswith(HEAD):
        raise Fault(f"no report of a difference: its first line is {shown(lines[0] if lines else b'')!r}")
    starts = [k for k, line in enumerate(lines) if line.startswith(HEAD)]
    return [lines[a:b] for a, b in zip(starts, [*starts[1:], len(lines)])]


class Report:
    """An output that differs, the values of the inputs by name, and the output's values."""

    def __init__(self, lines):
        if len(lines) < 3 or lines[-2][:-1] != b"first=" or lines[-1][:-1] != b"second=":
            raise Fault("the report is cut short: its last lines aren't `first=` and `second=`")
        self.output = lines[0][len(HEAD) :]
        self.inputs = {}
        for line in lines[1:-2]:
            if line[-2:] not in (b"=0", b"=1"):
                raise Fault(f"the report has a line that isn't INPUT=0 or INPUT=1: {shown(line)!r}")
            self.inputs[line[:-2]] = line[-1:]
        self.values = lines[-2][-1:], lines[-1][-1:]


class Cone:
    """The values of the signals that an output depends on."""

    def __init__(self, path, flat, report, output):
        self.path, self.flat = path, flat
        self.root = flat.source[flat.main.numbers[output]]
        self.depth = flat.depth
        self.signals = self.reached()
        self.value = values(flat, self.signals, report.inputs)

    def reached(self):
        """The signals, level by level from the output down."""
        seen, found = {self.root}, [self.root]
        for s in found:
            for it in self.flat.columns(s):
                if it not in seen:
                    seen.add(it)
                    found.append(it)
        return found

    def turning(self, s):
        """The columns of a signal that alone turn it, each once."""
        columns = dict.fromkeys(self.flat.columns(s))
        return [it for it in columns if made(self.flat, s, self.value, it) != self.value[s]]

    def sensitised(self):
        """For each signal on a sensitised path its columns that are on one too, level by level from the output down."""
        found, todo = {}, [self.root]
        for s in todo:
            if s not in found:
                found[s] = self.turning(s)
                todo += found[s]
        return found

    def output_value(self):
        return self.value[self.root]

    def named(self):
        """The main model's names of the cone's signals that aren't inputs."""
        flat = self.flat
        return {
            name: flat.source[s]
            for name, s in flat.main.numbers.items()
            if flat.source[s] in self.value and flat.driver[flat.source[s]] is not INPUT
        }


def same_inputs(path, flat, report):
    """Looks whether a netlist has the inputs and the output of a report."""
    names = flat.main.model.inputs
    if set(names) != set(report.inputs):
        name = sorted(set(names) ^ set(report.inputs))[0]
        raise Fault(f"{path}: the report and the netlist don't have the same inputs, as {shown(name)}")
    if report.output not in flat.main.model.outputs:
        raise Fault(f"{path}: the netlist has no output {shown(report.output)}")


def cones_of(flats, report):
    """The cones of a report's output in the two netlists."""
    for path, flat in flats:
        same_inputs(path, flat, report)
    return [Cone(path, flat, report, report.output) for path, flat in flats]


def opposite(value):
    return b"0" if value == b"1" else b"1"


def made(flat, s, value, turned=None):
    """What a signal's cover makes of its columns' values, of which one may be turned."""
    columns = b"".join(value[it] if it != turned else opposite(value[it]) for it in flat.columns(s))
    return b"1" if flat.driver[s][1].value(columns) else b"0"


def values(flat, signals, inputs):
    """The values of signals, with those that they are made of, under an assignment of the inputs by name."""
    found = {}
    for s in sorted(signals, key=flat.depth.__getitem__):
        found[s] = inputs[flat.name(s)] if flat.driver[s] is INPUT else made(flat, s, found)
    return found


def words(names):
    """Names, with the bits of a word as one: the word's name, and its bits' names from the highest down.

    A name that is no bit stands by itself, and so do bits of a word that lacks one between its highest and its lowest.
    """
    bits, found = {}, {}
    names = list(dict.fromkeys(names))
    for name in names:
        bit = BIT.fullmatch(name)
        if bit:
            bits.setdefault(bit[1], {}).setdefault(int(bit[2]), name)
    for name in names:
        bit = BIT.fullmatch(name)
        each = bits[bit[1]] if bit else {}
        high, low = max(each, default=0), min(each, default=0)
        if high > low and len(each) == high - low + 1 and name in each.values():
            found.setdefault(b"%s[%d:%d]" % (bit[1], high, low), [each[k] for k in range(high, low - 1, -1)])
        else:
            found[name] = [name]
    return found


def hexadecimal(bits):
    """The number of some bits, as many digits as they need."""
    return b"%0*x" % (-(-len(bits) // 4), int(b"".join(bits), 2))


def in_words(values):
    """Values by name, words in hexadecimal digits: `a[31:0]=40000000`."""
    return [shown(b"%s=%s" % (name, hexadecimal([values[it] for it in bits]))) for name, bits in words(values).items()]
