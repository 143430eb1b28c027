"""Reads netlists as eqc reads them, for the scripts beside it: texts in BLIF, the models of a text, and the flat
signals below a main model. `run` starts a script and ends it with its status.

What a text means and which faults it can have is said in docs/blif.md and docs/hierarchy.md. A fault has the number that
eqc's report gives it, and here also the name that it is about. Names are bytes, as in eqc. Nothing recurses, so chains
and hierarchies may be as deep as eqc allows.
"""
import errno
import gc
import hashlib
import os
import signal
import sys
from contextlib import contextmanager
from dataclasses import dataclass, field

# As many bytes as `eqc --bytes` may allow, and as many as are allowed without it.
LONGEST_TEXT = 2_147_483_647
DEFAULT_BYTES = 16_777_216
MOST_SIGNALS = 1_048_576
# As many as `eqc --inputs` may allow, and as many as are allowed without it.
MOST_INPUTS = 65_535
DEFAULT_INPUTS = 2_048
SHOWN_NAMES = 10
# So many steps are shown at each end of a long way to an instance.
SHOWN_STEPS = 10
SKIPPED = frozenset(
    b".area .delay .wire .wire_load_slope .input_arrival .default_input_arrival .output_required"
    b" .default_output_required .input_drive .default_input_drive .max_input_load .default_max_input_load"
    b" .output_load .default_output_load .attr .cname".split()
)
# A table of short names begins so.
TABLE_HEAD = b"#names "
# The rows of a cover that is its column.
BUFFER = [b"11"]
# `prepare --cut` writes a comment for each register that it cut, by which `replay` knows it.
REGISTER_LINE = b"#register"
CONTROLS = bytes(it for it in range(32) if it not in (9, 10)) + b"\x7f"
INPUT = object()


class Fault(Exception):
    """What keeps a file from being read: a fault with eqc's number, or a file that can't be opened (no number)."""

    def __init__(self, said, code=None, line=0):
        super().__init__(said)
        self.said, self.code, self.line, self.path = said, code, line, None

    def __str__(self):
        place = f"{self.path}: " if self.path else ""
        place += f"line {self.line}: " if self.line else ""
        return place + self.said + (f" (eqc's number {self.code})" if self.code else "")


def shown(name):
    """A name for a message."""
    return name.decode("utf-8", "backslashreplace")


def listed(names):
    """Some names for a message, with how many more there are."""
    names = list(names)
    more = f" and {len(names) - SHOWN_NAMES} more" if len(names) > SHOWN_NAMES else ""
    return " ".join(shown(it) for it in names[:SHOWN_NAMES]) + more


def counted(count, what):
    return f"{count} {what}" if count == 1 else f"{count} {what}s"


@dataclass(slots=True)
class Cover:
    """`.names`: columns and output are names, rows are bytes with a character for each column and one for the output."""

    columns: list
    output: bytes
    line: int
    rows: list = field(default_factory=list)

    def value(self, values):
        """The cover's value where its columns have these values (each `0` or `1`, in bytes)."""
        on = self.rows[0][-1:] == b"1" if self.rows else True
        matched = any(all(a == 45 or a == b for a, b in zip(row, values)) for row in self.rows)
        return matched == on


@dataclass(slots=True)
class Instance:
    """`.subckt`: the model's name, and pairs of a formal and an actual."""

    model: bytes
    pairs: list
    line: int


@dataclass(slots=True)
class Model:
    name: bytes
    line: int
    inputs: list = field(default_factory=list)
    outputs: list = field(default_factory=list)
    covers: list = field(default_factory=list)
    instances: list = field(default_factory=list)


def names_in(design):
    """All names of a model's signals, its ports first; of one with registers those of them, too."""
    names = dict.fromkeys((*design.inputs, *design.outputs))
    for it in design.covers:
        names.update(dict.fromkeys((*it.columns, it.output)))
    for it in design.instances:
        names.update(dict.fromkeys(actual for _, actual in it.pairs))
    for it in getattr(design, "registers", ()):
        names.update(dict.fromkeys([it.held, *it.needs()]))
    return names


def logical_lines(text):
    """The logical lines of a text with their numbers, without those that are blank."""
    has_controls = len(text.translate(None, CONTROLS)) < len(text)
    parts, start = [], 0
    for number, line in enumerate(text.split(b"\n"), 1):
        if b"#" in line:
            line = line[: line.index(b"#")]
        line = line.rstrip(b" \t\r")
        if line[-1:] == b"\\":
            start = start or number
            parts.append(line[:-1] + b" ")
            continue
        if parts:
            line, number = b"".join(parts) + line, start
            parts, start = [], 0
        if has_controls and len(line.translate(None, CONTROLS)) < len(line):
            raise Fault("a control character", 1, number)
        if line and not line.isspace():
            yield number, line
    last = b"".join(parts)
    if last.strip():
        yield start, last


class Reader:
    """Takes a text's statements one by one."""

    model_type = Model

    def __init__(self):
        self.models, self.names = [], set()
        self.model = self.cover = None
        self.has_ended = False
        self.commands = {
            b".model": self.open_model,
            b".inputs": self.declare,
            b".outputs": self.declare,
            b".names": self.open_cover,
            b".subckt": self.add_instance,
            b".end": self.close_model,
        }

    def take(self, number, line):
        words = line.split()
        if words[0][:1] != b".":
            return self.add_row(number, words)
        if words[0] in SKIPPED:
            return None
        command = self.commands.get(words[0])
        if command is None and words[0] == b".latch":
            raise Fault("a latch: cut the registers on both sides first", 4, number)
        if command is None:
            raise Fault(f"unknown command {shown(words[0])}", 3, number)
        if words[0] != b".model":
            self.want_open_model(number)
        self.cover = None
        return command(number, words)

    def want_open_model(self, number):
        if self.has_ended:
            raise Fault("a line other than .model after .end", 5, number)
        if self.model is None:
            self.open_model(number, [b".model"])

    def open_model(self, number, words):
        name = words[1] if len(words) > 1 else b""
        if name in self.names:
            raise Fault(f"a second model {shown(name)}", 11, number)
        self.names.add(name)
        self.model, self.has_ended = self.model_type(name, number), False
        self.declared = {b".inputs": set(), b".outputs": set()}
        self.models.append(self.model)

    def declare(self, number, words):
        ports = self.model.inputs if words[0] == b".inputs" else self.model.outputs
        declared = self.declared[words[0]]
        for name in words[1:]:
            if name in declared:
                raise Fault(f"{shown(name)} is declared twice", 12, number)
            declared.add(name)
            ports.append(name)

    def open_cover(self, number, words):
        if len(words) < 2:
            raise Fault(".names without a word", 10, number)
        self.cover = Cover(words[1:-1], words[-1], number)
        self.model.covers.append(self.cover)

    def add_row(self, number, words):
        if self.has_ended:
            raise Fault("a row after .end", 5, number)
        if self.cover is None:
            raise Fault("a row that doesn't follow .names", 6, number)
        row = b"".join(words)
        if len(row) != len(self.cover.columns) + 1 or row.strip(b"01-") or row[-1:] == b"-":
            told = f"the row '{shown(b' '.join(words))}' doesn't fit {len(self.cover.columns)} columns"
            raise Fault(told, 7, number)
        if self.cover.rows and self.cover.rows[0][-1] != row[-1]:
            told = f"the row '{shown(b' '.join(words))}', whose output differs from that of the cover's first row"
            raise Fault(told, 8, number)
        self.cover.rows.append(row)

    def add_instance(self, number, words):
        pairs = [it.partition(b"=") for it in words[2:]]
        for formal, sign, actual in pairs:
            if not (formal and sign and actual):
                raise Fault(f"the pair {shown(formal + sign + actual)} has no name on one side", 9, number)
        if len(words) < 2:
            raise Fault(".subckt without a word", 10, number)
        self.model.instances.append(Instance(words[1], [(formal, actual) for formal, _, actual in pairs], number))

    def close_model(self, _number, _words):
        self.has_ended = True


def models_of(text, reader=None):
    """The models of a text, as eqc reads it or as another reader does, which has no limit."""
    if reader is None and len(text) > LONGEST_TEXT:
        raise Fault(f"a text of over {LONGEST_TEXT} bytes", 2)
    reader = reader or Reader()
    for number, line in logical_lines(text):
        reader.take(number, line)
    if not reader.models:
        raise Fault("no statement", 13)
    return reader.models


def text_of(path, name=None):
    """The bytes of the file at a path, or of the open file of a number, which needs a name for what a fault says."""
    try:
        with open(path, "rb") as source:
            return source.read()
    except OSError as error:
        raise Fault(f"{name or path}: {error.strerror}") from None


class Plan:
    """What all instances of a model share: its names by number, its covers and instances in these numbers."""

    def __init__(self, model):
        self.model, self.numbers = model, {}
        for name in (*model.inputs, *model.outputs):
            self.number(name)
        self.covers = [(self.number(it.output), [self.number(name) for name in it.columns], it) for it in model.covers]
        self.calls = [
            (it.model, [(formal, self.number(actual)) for formal, actual in it.pairs]) for it in model.instances
        ]
        self.names = list(self.numbers)

    def number(self, name):
        return self.numbers.setdefault(name, len(self.numbers))


def reached_models(models, main):
    """The models that a main model reaches, by name; faults 21 to 25."""
    by_name = {it.name: it for it in models}
    reached, todo = {main.name: main}, [main]
    while todo:
        for instance in todo.pop().instances:
            if instance.model not in by_name:
                raise Fault(f"no model {shown(instance.model)}", 21, instance.line)
            if instance.model not in reached:
                reached[instance.model] = by_name[instance.model]
                todo.append(by_name[instance.model])
    refuse_recursion(reached)
    for model in reached.values():
        for instance in model.instances:
            refuse_pairs(instance, reached[instance.model])
    return reached


def refuse_recursion(reached):
    """Fault 22, where a model reaches itself."""
    left = {name: len({it.model for it in model.instances}) for name, model in reached.items()}
    callers = {name: set() for name in reached}
    for name, model in reached.items():
        for instance in model.instances:
            callers[instance.model].add(name)
    leaves = [name for name, count in left.items() if count == 0]
    for name in leaves:
        for caller in callers[name]:
            left[caller] -= 1
            if left[caller] == 0:
                leaves.append(caller)
    if len(leaves) < len(reached):
        name = next(it for it in reached if left[it])
        raise Fault(f"the model {shown(name)} reaches a model that contains itself", 22)


def refuse_pairs(instance, model):
    ports, given = {*model.inputs, *model.outputs}, set()
    for formal, _ in instance.pairs:
        if formal not in ports:
            raise Fault(f"{shown(model.name)} has no input or output {shown(formal)}", 23, instance.line)
        if formal in given:
            raise Fault(f"{shown(formal)} stands in two pairs", 24, instance.line)
        given.add(formal)
    for name in model.inputs:
        if name not in given:
            raise Fault(f"the input {shown(name)} of {shown(model.name)} has no pair", 25, instance.line)


class Flat:
    """The flat signals below a main model.

    A signal is a number. `driver[s]` is INPUT, the number of the signal that it is joined to, or a pair of a list of
    columns and their cover; the columns are numbers in the instance, whose first signal is `base[instance[s]]`.
    `depth[s]` is the longest way of covers from it to an input or a constant.
    """

    def __init__(self, models, main):
        self.plans = {name: Plan(model) for name, model in reached_models(models, main).items()}
        self.main = self.plans[main.name]
        self.list_instances()
        self.driver = [None] * len(self.instance)
        for number in self.main.numbers.values():
            if number < len(main.inputs):
                self.driver[number] = INPUT
        for k, plan in enumerate(self.plan):
            self.drive(k, plan)
        self.join_ports()
        for s, driver in enumerate(self.driver):
            if driver is None:
                raise Fault(f"nothing drives {shown(self.name(s))}", 27)
        self.source = [s if type(it) is not int else self.end_of_ties(s) for s, it in enumerate(self.driver)]
        self.depth = self.depths()
        self.inputs = list(range(len(main.inputs)))
        self.outputs = [self.main.numbers[name] for name in main.outputs]

    def list_instances(self):
        self.plan, self.parent, self.base, self.instance = [self.main], [None], [], []
        for k, plan in enumerate(self.plan):
            self.base.append(len(self.instance))
            self.instance += [k] * len(plan.names)
            for position, (model, _) in enumerate(plan.calls):
                self.plan.append(self.plans[model])
                self.parent.append((k, position))
            if len(self.instance) + len(self.plan) - 1 > MOST_SIGNALS:
                raise Fault(f"over {MOST_SIGNALS} signals and instances", 29)
        if len(self.main.model.inputs) > MOST_INPUTS:
            raise Fault(f"over {MOST_INPUTS} inputs", 30)

    def drive(self, k, plan):
        base, driver = self.base[k], self.driver
        for output, columns, cover in plan.covers:
            if driver[base + output] is not None:
                raise Fault(f"{shown(self.name(base + output))} has two drivers", 26, cover.line)
            driver[base + output] = (columns, cover)

    def join_ports(self):
        driver = self.driver
        for k in range(1, len(self.plan)):
            above, position = self.parent[k]
            plan, base, base_above = self.plan[k], self.base[k], self.base[above]
            inputs = len(plan.model.inputs)
            for formal, actual in self.plan[above].calls[position][1]:
                inside, outside = base + plan.numbers[formal], base_above + actual
                if inside - base >= inputs:
                    inside, outside = outside, inside
                if driver[inside] is not None:
                    raise Fault(f"{shown(self.name(inside))} has two drivers", 26)
                driver[inside] = outside

    def end_of_ties(self, s):
        """The signal that a signal is joined to, by any number of pairs, and that a cover or an input drives."""
        end, steps = s, 0
        while type(self.driver[end]) is int:
            end, steps = self.driver[end], steps + 1
            if steps > len(self.driver):
                raise Fault(f"{shown(self.name(s))} depends on itself", 28)
        while s != end:
            self.driver[s], s = end, self.driver[s]
        return end

    def columns(self, s):
        """The signals that a signal's cover depends on, each at the end of its pairs; none for an input."""
        driver = self.driver[s]
        if driver is INPUT:
            return ()
        base, source = self.base[self.instance[s]], self.source
        return [source[base + it] for it in driver[0]]

    def depths(self):
        """The depth of each signal; fault 28 where a signal depends on itself."""
        depth, is_open = [None] * len(self.driver), [False] * len(self.driver)
        for start in self.source:
            todo = [start]
            while todo:
                s = todo[-1]
                columns = self.columns(s) if depth[s] is None else ()
                waiting = [it for it in columns if depth[it] is None]
                if waiting:
                    # A signal that is met again before its columns are done stands above itself.
                    if is_open[s]:
                        raise Fault(f"{shown(self.name(s))} depends on itself", 28)
                    is_open[s] = True
                    todo += waiting
                    continue
                todo.pop()
                if depth[s] is None:
                    depth[s] = 1 + max((depth[it] for it in columns), default=-1)
        return [depth[it] for it in self.source]

    def name(self, s):
        """A signal's name; in an instance behind the way to it, as `2:adder/sum` in the second instance, an `adder`.

        The way is written as eqc's --explain writes it: of more than 20 steps the first and the last ten are shown.
        """
        k, steps = self.instance[s], []
        name = self.plan[k].names[s - self.base[k]]
        while self.parent[k] is not None:
            above, position = self.parent[k]
            steps.append(b"%d:%s" % (position + 1, self.plan[k].model.name))
            k = above
        steps.reverse()
        if len(steps) > 2 * SHOWN_STEPS:
            steps[SHOWN_STEPS:-SHOWN_STEPS] = [b".."]
        return b"/".join([*steps, name])


def table_path(path):
    """Where `prepare --short` writes the table of a file's short names."""
    return f"{path}.names"


def table_of(path, text=None):
    """The names that short ones stand for in a file, by the table beside it; none where there is no table of this file."""
    if not os.path.isfile(table_path(path)):
        return {}
    lines = text_of(table_path(path)).split(b"\n")
    text = text_of(path) if text is None else text
    if lines[0] != TABLE_HEAD + hashlib.sha256(text).hexdigest().encode():
        return {}
    pairs = (line.partition(b" ") for line in lines[1:] if line)
    return {short: name for short, _, name in pairs}


def with_long_names(path, text, models):
    """Gives the signals of models the names that short ones stand for."""
    table = table_of(path, text)
    if table:
        for it in models:
            known = [name for name in (*it.inputs, *it.outputs) if name in table]
            if known:
                raise Fault(f"{table_path(path)} tells of the port {shown(known[0])}")
            for cover in it.covers:
                cover.columns = [table.get(name, name) for name in cover.columns]
                cover.output = table.get(cover.output, cover.output)
            for instance in it.instances:
                instance.pairs = [(formal, table.get(actual, actual)) for formal, actual in instance.pairs]


class Source:
    """A file with its text and its models, whose signals have the names of the source where a table tells these."""

    def __init__(self, path):
        self.path, self.text = path, text_of(path)
        with self.named():
            self.models = models_of(self.text)
            with_long_names(path, self.text, self.models)

    @contextmanager
    def named(self):
        """Faults that are found meanwhile get the file's name."""
        try:
            yield
        except Fault as fault:
            fault.path = self.path
            raise

    def model(self, name=None, place=0):
        """The model of this name or, without a name, the one at this place; fault 13 where there is none."""
        found = self.models[place:] if name is None else [it for it in self.models if it.name == name]
        with self.named():
            if not found:
                wanted = "second model" if name is None else f"model {shown(name)}"
                raise Fault(f"the file has no {wanted}", 13)
        return found[0]

    def flat(self, name=None, place=0):
        """The flat netlist below such a model."""
        main = self.model(name, place)
        with self.named():
            return Flat(self.models, main)


def add_model_options(parser, *sides):
    """Lets a command line choose models by their names, as eqc's does."""
    for side in sides:
        told = f"the model of this name of the {side} netlist's file"
        parser.add_argument(f"--{side}-model", metavar="NAME", type=os.fsencode, help=told)


def complain(said):
    """Writes a line to standard error. Where that can't be written, the status alone tells."""
    try:
        os.write(2, f"{said}\n".encode(errors="backslashreplace"))
    except OSError:
        pass


@contextmanager
def written_output():
    """Standard output, all of which is written at the end; an OSError where it isn't.

    It has a buffer whatever the environment says, since argparse passes over a help that can't be written at once. A
    letter that its encoding lacks is written as `\\xNN`, so that no name keeps the rest from being written.
    """
    if sys.stdout is None:
        raise OSError(errno.EBADF, os.strerror(errno.EBADF))
    with open(1, "w", encoding=sys.stdout.encoding, errors="backslashreplace") as sys.stdout:
        yield


def run(name, main):
    """Runs a script's main function and ends with the status that it returns, or with a message and status 2 after a
    fault or where standard output can't be written."""
    # A reader of the output that stops early, as `head`, ends the script without a word.
    signal.signal(signal.SIGPIPE, signal.SIG_DFL)
    # Looking for cycles among millions of objects would take half of the time.
    gc.disable()
    try:
        with written_output():
            status = main()
    except Fault as fault:
        complain(f"{name}: {fault}")
        status = 2
    except OSError as error:
        # A file that can't be read or written is a fault, so only standard output is left.
        complain(f"{name}: standard output: {error.strerror}")
        status = 2
    sys.exit(status)
