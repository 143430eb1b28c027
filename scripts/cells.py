"""Functions of cells, for `prepare`: those of a genlib, and yosys's register cells, whose names tell what they do."""
import re
from collections import deque

from netlist import Cover, Fault, shown, text_of


def rows_between(lower, upper, n):
    """Rows that cover a truth table and at most another one, without redundant rows, and the table that they cover."""
    if not lower:
        return [], 0
    if upper == (1 << (1 << n)) - 1:
        return [b"-" * n], upper
    half = 1 << (n - 1)
    mask = (1 << half) - 1
    low0, low1, up0, up1 = lower & mask, lower >> half, upper & mask, upper >> half
    rows0, table0 = rows_between(low0 & ~up1, up0, n - 1)
    rows1, table1 = rows_between(low1 & ~up0, up1, n - 1)
    both, table = rows_between(low0 & ~table0 | low1 & ~table1, up0 & up1, n - 1)
    rows = [it + b"0" for it in rows0] + [it + b"1" for it in rows1] + [it + b"-" for it in both]
    return rows, table0 | table | (table1 | table) << half


def rows_of(table, n):
    """Rows of a truth table of `n` columns, those of the value that wants fewer."""
    on, _ = rows_between(table, table, n)
    turned = ((1 << (1 << n)) - 1) & ~table
    off, _ = rows_between(turned, turned, n)
    # Without a row a cover is 0.
    if len(off) < len(on) and off:
        return [it + b"0" for it in off]
    return [it + b"1" for it in on]


class Formula:
    """A function of a genlib: `!` or `'` not, `*`, `&` or nothing and, `^` exclusive or, `+` or `|` or."""

    TOKEN = re.compile(rb"[!~'*&^+|()]|[^\s!~'*&^+|()]+")
    CONSTANTS = {b"CONST0": 0, b"CONST1": 1, b"0": 0, b"1": 1}

    def __init__(self, text):
        tokens = self.TOKEN.findall(text)
        names = [it for it in tokens if it not in self.CONSTANTS and not self.is_sign(it)]
        self.pins = list(dict.fromkeys(names))
        if len(self.pins) > 14:
            raise ValueError("a function of over 14 pins")
        self.size = 1 << len(self.pins)
        self.full = (1 << self.size) - 1
        self.tables = {name: self.table_of_pin(k) for k, name in enumerate(self.pins)}
        self.left = deque(tokens)
        table = self.alternatives()
        if self.left:
            raise ValueError(f"{shown(self.left[0])} is out of place")
        self.rows = rows_of(table, len(self.pins))

    @staticmethod
    def is_sign(token):
        return token in b"!~'*&^+|()"

    def table_of_pin(self, k):
        block, period = ((1 << (1 << k)) - 1) << (1 << k), 1 << (k + 1)
        return sum(block << at for at in range(0, self.size, period))

    def accept(self, signs):
        return self.left.popleft() if self.left and self.left[0] in signs else None

    def alternatives(self):
        table = self.differences()
        while self.accept((b"+", b"|")):
            table |= self.differences()
        return table

    def differences(self):
        table = self.factors()
        while self.accept((b"^",)):
            table ^= self.factors()
        return table

    def factors(self):
        table = self.factor()
        while self.accept((b"*", b"&")) or (self.left and self.left[0] not in (b"+", b"|", b"^", b")")):
            table &= self.factor()
        return table

    def factor(self):
        if self.accept((b"!", b"~")):
            return self.full & ~self.factor()
        if self.accept((b"(",)):
            table = self.alternatives()
            if not self.accept((b")",)):
                raise ValueError("a `)` is missing")
        elif not self.left or self.is_sign(self.left[0]):
            raise ValueError(f"a pin is missing {'before ' + shown(self.left[0]) if self.left else 'at the end'}")
        else:
            token = self.left.popleft()
            table = self.full * self.CONSTANTS[token] if token in self.CONSTANTS else self.tables[token]
        while self.accept((b"'",)):
            table = self.full & ~table
        return table


class Genlib:
    """The functions of cells: for each name a map from outputs to formulas."""

    HEAD = re.compile(rb"^[ \t]*(GATE|LATCH)\b", re.MULTILINE)
    CELL = re.compile(rb'(?:GATE|LATCH)\s+("[^"]*"|\S+)\s+\S+\s+("[^"]*"|[^\s=]+)\s*=\s*([^;]*);')

    def __init__(self, path):
        self.path, self.cells = path, {}
        text = re.sub(rb"#[^\n]*", b"", text_of(path))
        for head in self.HEAD.finditer(text):
            line = text.count(b"\n", 0, head.start(1)) + 1
            cell = self.CELL.match(text, head.start(1))
            if not cell:
                raise Fault(f"{path}: line {line}: no `{shown(head[1])} NAME AREA OUTPUT=FUNCTION;`")
            name, output, function = cell.groups()
            try:
                formula = Formula(function)
            except ValueError as error:
                raise Fault(f"{path}: line {line}: {shown(name)}: {error}") from None
            self.cells.setdefault(name.strip(b'"'), {})[output.strip(b'"')] = formula
        if not self.cells:
            raise Fault(f"{path}: the file has no GATE")

    def has(self, name):
        return name in self.cells

    def make_ready(self, _cells):
        return []

    def put(self, design, cell, _models):
        """Puts the covers of a cell into a design."""
        design.covers += (cover for _, cover in self.covers(cell.model, dict(cell.pairs), cell.line))

    def covers(self, name, actuals, line):
        """The covers of a cell whose formals have these actuals, one for each output."""
        if name not in self.cells:
            raise Fault(f"{self.path} has no cell {shown(name)}", 3, line)
        for output, formula in self.cells[name].items():
            if output in actuals:
                lost = [it for it in formula.pins if it not in actuals]
                if lost:
                    raise Fault(f"the cell {shown(name)} has no pair for {shown(lost[0])}", 25, line)
                yield output, Cover([actuals[it] for it in formula.pins], actuals[output], line, formula.rows)


class RegisterCell:
    """yosys's register cells, whose names tell edge or level, reset with its value, set, what is loaded without a clock, and
    enable: the formula of what goes in, and where any is asynchronous that of what comes out, what is held, `H`, behind pins."""

    ANY = re.compile(rb"\$_(?:S?DFF\w*|ALDFF\w*|DLATCH\w*|SR|FF)_(?:[NP01]+_)?")
    NAMES = (
        re.compile(
            rb"\$_(?P<sync>S?)DFF(?P<joined>C?)(?P<E>E?)_(?P<edge>[NP])(?:(?P<reset>[NP])(?P<value>[01]))?(?P<enable>[NP])?_"
        ),
        re.compile(rb"\$_DFFSR(?P<E>E?)_(?P<edge>[NP])(?P<set>[NP])(?P<reset>[NP])(?P<enable>[NP])?_"),
        re.compile(rb"\$_ALDFF(?P<E>E?)_(?P<edge>[NP])(?P<load>[NP])(?P<enable>[NP])?_"),
        re.compile(rb"\$_DLATCH_(?P<level>[NP])(?P<reset>[NP])(?P<value>[01])_"),
        re.compile(rb"\$_DLATCHSR_(?P<level>[NP])(?P<set>[NP])(?P<reset>[NP])_"),
    )
    KINDS = {(True, b"P"): b"re", (True, b"N"): b"fe", (False, b"P"): b"ah", (False, b"N"): b"al"}

    def __init__(self, name, line):
        found = next(filter(None, (it.fullmatch(name) for it in self.NAMES)), None)
        part = {key: value for key, value in found.groupdict().items() if value} if found else {}
        if not found or ("E" in part) != ("enable" in part) or ("sync" in part and "reset" not in part):
            said = f"the register cell {shown(name)}; yosys's 'dfflegalize -cell $_DFF_P_ x' may make a plain one of it"
            raise Fault(said, 21, line)
        self.clock = b"C" if "edge" in part else b"E"
        self.kind = self.KINDS["edge" in part, part.get("edge") or part["level"]]
        enables = [(b"E", part["enable"], b"Q", True)] if "enable" in part else []
        # What goes before the others comes last.
        resets = [("load", b"L", b"AD"), ("set", b"S", b"1"), ("reset", b"R", part.get("value", b"0"))]
        resets = [(pin, part[key], value, False) for key, pin, value in resets if key in part]
        # A reset goes before the enable, unless it needs the enable.
        self.next = self.chosen_by(b"D", resets + enables if "joined" in part else enables + resets)
        self.has_reset = bool(resets) and "sync" not in part
        self.now = self.chosen_by(b"H", resets) if self.has_reset else None

    @staticmethod
    def chosen_by(text, steps):
        """A formula, where none of some pins says something else, by its level at which it counts, or at which it doesn't."""
        for pin, active, other, has_active in steps:
            on, off = (pin, b"!" + pin) if (active == b"P") == has_active else (b"!" + pin, pin)
            text = b"(%s*%s+%s*%s)" % (off, other, on, text)
        return Formula(text)
