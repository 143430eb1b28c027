"""Plants faults in netlists, evaluates these without eqc, and runs programs, for the scripts beside it."""
import resource
import subprocess
import sys
from pathlib import Path

sys.dont_write_bytecode = True
sys.path.insert(0, str(Path(__file__).resolve().parent.parent))

from netlist import INPUT, Fault, reached_models, shown

SAMPLES = 200
# What stands in place of the status of a run that took too long.
LIMIT_STATUS = 124


def rows_behind(lines, number):
    """The rows of the cover whose `.names` is the line of a number, counted from 1, each as a line's place."""
    while lines[number - 1].rstrip(b" \t\r").endswith(b"\\"):
        number += 1
    found = []
    while number < len(lines) and lines[number][:1] in (b"0", b"1", b"-"):
        found.append(number)
        number += 1
    return found


def planted(choose, source):
    """A netlist's text with one byte of one row changed, and what was changed."""
    lines = source.text.split(b"\n")
    covers = [cover for it in reached_models(source.models, source.model()).values() for cover in it.covers]
    places = [place for it in covers if it.columns for place in rows_behind(lines, it.line)]
    if not places:
        raise Fault(f"{source.path}: no row to change")
    at = choose.choice(places)
    row = bytearray(lines[at])
    # The last of these bytes is the output's.
    k = choose.choice([k for k, it in enumerate(row) if it in b"01-"][:-1])
    row[k] = choose.choice([it for it in b"01-" if it != row[k]])
    told = f"line {at + 1}, '{shown(lines[at])}' to '{shown(bytes(row))}'"
    lines[at] = bytes(row)
    return b"\n".join(lines), told, at + 1


class Values:
    """The values of a netlist's outputs under many assignments at once, as the bits of numbers."""

    def __init__(self, flat):
        self.flat = flat
        depth = flat.depth
        order = (s for s, it in enumerate(flat.source) if it == s and flat.driver[s] is not INPUT)
        self.order = sorted(order, key=depth.__getitem__)

    def under(self, inputs, every):
        """The values of the outputs, by name; of each input, by name, its values are given."""
        flat = self.flat
        value = [0] * len(flat.driver)
        for s in flat.inputs:
            value[s] = inputs[flat.name(s)]
        for s in self.order:
            rows, found = flat.driver[s][1].rows, 0
            columns = [value[it] for it in flat.columns(s)]
            for row in rows:
                matched = every
                for column, wanted in zip(columns, row):
                    if wanted != 45:
                        matched &= column if wanted == 49 else every ^ column
                found |= matched
            value[s] = every ^ found if rows and rows[0][-1] == 48 else found
        return {name: value[flat.source[flat.main.numbers[name]]] for name in flat.main.model.outputs}


def columns_of(names, assignments):
    """For each input its bits in a list of assignments, which are lists of bits."""
    return {
        name: sum(assignment[k] << place for place, assignment in enumerate(assignments))
        for k, name in enumerate(names)
    }


def random_assignment(choose, count):
    return [choose.randrange(2) for _ in range(count)]


def smaller(choose, least):
    """Assignments that are less than one: with a one at 0, and random bits or the same behind it."""
    ones = [k for k, it in enumerate(least) if it]
    found = [least[:k] + [0] + least[k + 1 :] for k in ones]
    for _ in range(SAMPLES if ones else 0):
        k = choose.choice(ones)
        found.append(least[:k] + [0] + random_assignment(choose, len(least) - k - 1))
    return found


class Pair:
    def __init__(self, first, second):
        self.flats = [Values(it) for it in (first, second)]
        self.inputs = first.main.model.inputs
        self.outputs = first.main.model.outputs

    def apart(self, assignments):
        """For each output, in the first netlist's order, the assignments under which it differs, and its two values."""
        every = (1 << len(assignments)) - 1
        inputs = columns_of(self.inputs, assignments)
        first, second = (it.under(inputs, every) for it in self.flats)
        return [(name, first[name] ^ second[name], (first[name], second[name])) for name in self.outputs]


def wrong_in_difference(choose, pair, report):
    """What is wrong in a report on a difference, or nothing."""
    lines = report.rstrip(b"\n").split(b"\n")
    output = lines[0][len(b"differs at ") :]
    values = dict(line.rsplit(b"=", 1) for line in lines[1:-2])
    least = [int(values[name]) for name in pair.inputs]
    found = {name: both for name, _, both in pair.apart([least])}
    if [b"first=%d" % found[output][0], b"second=%d" % found[output][1]] != lines[-2:]:
        return f"{shown(output)} has the values {found[output]}"
    less = smaller(choose, least)
    others = [random_assignment(choose, len(least)) for _ in range(SAMPLES)]
    is_less = (1 << len(less)) - 1
    for name, bits, _ in pair.apart([*less, *others, least]):
        if name == output:
            return "a smaller assignment shows a difference" if bits & is_less else None
        if bits:
            return f"{shown(name)} comes before and differs"
    return f"{shown(output)} is no output"


def wrong(choose, pair, status, report):
    """What is wrong in an answer, or nothing."""
    if status == 1:
        return wrong_in_difference(choose, pair, report)
    if status == 0:
        others = [random_assignment(choose, len(pair.inputs)) for _ in range(SAMPLES)]
        differ = [shown(name) for name, bits, _ in pair.apart(others) if bits]
        return f"{differ[0]} differs" if differ else None
    return None if status in (3, LIMIT_STATUS) else f"status {status}"


def processor_time():
    """That of all runs so far."""
    used = resource.getrusage(resource.RUSAGE_CHILDREN)
    return used.ru_utime + used.ru_stime


def timed(words, limit):
    """The status of a run, its report, what it told on standard error, and the processor time that it took."""
    started = processor_time()
    try:
        end = subprocess.run(words, stdin=subprocess.DEVNULL, capture_output=True, timeout=limit, check=False)
        status, report, told = end.returncode, end.stdout, end.stderr
    except subprocess.TimeoutExpired:
        status, report, told = LIMIT_STATUS, b"no answer", b""
    return status, report, told, processor_time() - started
