#!/usr/bin/env python3
"""Measures what workers and forks gain on netlists with a single output, where only forks can share the work.

usage: forks.py [--eqc PROGRAM] [--repeat N] [--nodes N] [--cells N] [--conflicts N] [--least SECONDS] [--pairs DIR]
                [WORKERS:FORKS ..]

It makes pairs of netlists: the middle output of multipliers, the hidden weighted bit, queens on a board. With `--pairs`
it takes each NAME.a.blif with NAME.b.blif of a folder (and NAME.order, where there is one) in their place. For each
pair it prints the wall time and the processor time of one worker without forks, and the two ratios to them of each
WORKERS:FORKS (1:16, 4:0, 4:2, 4:4, 4:8 and 4:16 where none is given): medians of REPEAT runs, 3 without the option,
which alternate. Pairs that take one worker less than `--least` seconds of processor time, 0.5 without the option, are
left out. The last lines have the median and the worst of each column. Without `--eqc` it takes the program that `./eqc`
has built.
"""
import argparse
import resource
import subprocess
import sys
import tempfile
import time
from pathlib import Path
from statistics import median

TOP = Path(__file__).resolve().parent.parent.parent
PROGRAM = TOP / "crates" / "eqc_prog" / "out" / "eqc_prog"
CHOICES = ["1:16", "4:0", "4:2", "4:4", "4:8", "4:16"]
XOR = ("10 1", "01 1")
AND = ("11 1",)
OR = ("1- 1", "-1 1")


class Netlist:
    """A model in BLIF that grows by a cover at a time."""

    def __init__(self, inputs):
        self.lines = [".model m", ".inputs " + " ".join(inputs), ".outputs z"]
        self.signals = 0

    def cover(self, columns, rows, output=None):
        if output is None:
            output = f"s{self.signals}"
            self.signals += 1
        self.lines += [" ".join([".names", *columns, output]), *rows]
        return output

    def text(self, output):
        self.cover([output], ["1 1"], "z")
        return "\n".join(self.lines) + "\n.end\n"

    def conjunction(self, signals):
        result = signals[0]
        for it in signals[1:]:
            result = self.cover([result, it], AND)
        return result

    def sum_of(self, a, b):
        """Half adder: the sum and the carry."""
        return self.cover([a, b], XOR), self.cover([a, b], AND)

    def sum_of_three(self, a, b, c):
        first, carry = self.sum_of(a, b)
        second, other = self.sum_of(first, c)
        return second, self.cover([carry, other], OR)


def partial(netlist, bits):
    """The partial products of a multiplier, by the weight of their sum."""
    columns = [[] for _ in range(bits)]
    for i in range(bits):
        for j in range(bits - i):
            columns[i + j].append(netlist.cover([f"a{i}", f"b{j}"], AND))
    return columns


def by_columns(netlist, bits):
    columns = partial(netlist, bits)
    for k in range(bits):
        column = columns[k]
        while len(column) > 1:
            three = column[:3]
            del column[:3]
            total, carry = (netlist.sum_of_three if len(three) == 3 else netlist.sum_of)(*three)
            column.append(total)
            if k + 1 < bits:
                columns[k + 1].append(carry)
    return columns[bits - 1][0]


def by_rows(netlist, bits):
    total = [netlist.cover(["a0", f"b{j}"], AND) for j in range(bits)]
    for i in range(1, bits):
        carry = None
        for k in range(i, bits):
            product = netlist.cover([f"a{i}", f"b{k - i}"], AND)
            if carry is None:
                total[k], carry = netlist.sum_of(total[k], product)
            else:
                total[k], carry = netlist.sum_of_three(total[k], product, carry)
    return total[bits - 1]


def multiplier(bits):
    inputs = [name for k in range(bits) for name in (f"a{k}", f"b{k}")]
    return inputs, lambda it: by_rows(it, bits), lambda it: by_columns(it, bits)


def weights_by_steps(netlist, inputs):
    """For each number of inputs whether just so many are 1, input by input."""
    exact = [netlist.cover([], ["1"])]
    for name in inputs:
        more = [netlist.cover([exact[0], name], ["10 1"])]
        for k in range(1, len(exact)):
            more.append(netlist.cover([exact[k], exact[k - 1], name], ["1-0 1", "-11 1"]))
        more.append(netlist.cover([exact[-1], name], AND))
        exact = more
    return exact


def weights_by_sum(netlist, inputs):
    columns = [list(inputs)]
    for column in columns:
        while len(column) > 1:
            three = column[:3]
            del column[:3]
            total, carry = (netlist.sum_of_three if len(three) == 3 else netlist.sum_of)(*three)
            column.append(total)
            if len(columns) == columns.index(column) + 1:
                columns.append([])
            columns[columns.index(column) + 1].append(carry)
    digits = [column[0] for column in columns if column]
    return [
        netlist.cover(digits, ["".join(str(weight >> k & 1) for k in range(len(digits))) + " 1"])
        for weight in range(len(inputs) + 1)
    ]


def hidden_weighted_bit(count):
    inputs = [f"x{k}" for k in range(1, count + 1)]

    def chosen(netlist, weights):
        result = None
        for weight, name in zip(weights[1:], inputs):
            taken = netlist.cover([weight, name], AND)
            result = taken if result is None else netlist.cover([result, taken], OR)
        return result

    return inputs, lambda it: chosen(it, weights_by_steps(it, inputs)), lambda it: chosen(it, weights_by_sum(it, inputs))


def queens(size):
    """Whether a board has a queen in each row, and no two that threaten each other."""
    squares = [(row, column) for row in range(size) for column in range(size)]

    def name(square):
        return f"q{square[0]}_{square[1]}"

    def threatened(square):
        return [
            it for it in squares
            if it != square and (it[0] == square[0] or it[1] == square[1] or abs(it[0] - square[0]) == abs(it[1] - square[1]))
        ]

    def lone(netlist, square):
        others = threatened(square)
        return netlist.cover([name(square), *map(name, others)], ["0" + "-" * len(others) + " 1", "1" + "0" * len(others) + " 1"])

    def board(netlist, order):
        one_each = ["-" * k + "1" + "-" * (size - k - 1) + " 1" for k in range(size)]
        rows = [netlist.cover([name((row, k)) for k in range(size)], one_each) for row in range(size)]
        return netlist.conjunction(rows + [lone(netlist, square) for square in order])

    def forward(netlist):
        return board(netlist, squares)

    def backward(netlist):
        return board(netlist, [(row, column) for column in range(size) for row in range(size)])

    return [name(it) for it in squares], forward, backward


MADE = {
    **{f"multiplier{bits}": (multiplier, bits) for bits in (10, 11, 12, 13)},
    **{f"weighted{count}": (hidden_weighted_bit, count) for count in (32, 34, 36)},
    **{f"queens{size}": (queens, size) for size in (7, 8)},
}


def make(folder):
    for title, (family, size) in MADE.items():
        inputs, first, second = family(size)
        for side, build in (("a", first), ("b", second)):
            netlist = Netlist(inputs)
            (folder / f"{title}.{side}.blif").write_text(netlist.text(build(netlist)))


def timed(pair, choice, options):
    """The wall time and the processor time of a comparison, and its report."""
    workers, forks = choice.split(":")
    words = [str(options.eqc), "--nodes", options.nodes, "--cells", options.cells, "--workers", workers, "--forks", forks]
    words += ["--conflicts", options.conflicts] if options.conflicts else []
    order = Path(f"{pair}.order")
    words += ["--order", str(order)] if order.exists() else []
    before, start = resource.getrusage(resource.RUSAGE_CHILDREN), time.perf_counter()
    done = subprocess.run([*words, f"{pair}.a.blif", f"{pair}.b.blif"], stdout=subprocess.PIPE, check=False)
    wall, after = time.perf_counter() - start, resource.getrusage(resource.RUSAGE_CHILDREN)
    return (wall, after.ru_utime + after.ru_stime - before.ru_utime - before.ru_stime), done.stdout


def medians(found):
    """Of wall times and of processor times."""
    return [median(it) for it in zip(*found)]


def shown(ratios):
    return "{:6.2f}{:6.2f}".format(*ratios)


def measure(folder, options):
    pairs = sorted(str(it)[: -len(".a.blif")] for it in folder.glob("*.a.blif"))
    ratios = {choice: [] for choice in options.choices}
    heads = [it for choice in options.choices for it in (choice.rjust(6), "cpu".rjust(5))]
    print("pair".ljust(24), "1:0".rjust(7), "cpu".rjust(6), *heads, flush=True)
    for pair in pairs:
        alone, said = timed(pair, "1:0", options)
        if alone[1] < options.least:
            continue
        times = {choice: [] for choice in ["1:0", *options.choices]}
        for _ in range(options.repeat):
            for choice, found in times.items():
                spent, report = timed(pair, choice, options)
                found.append(spent)
                if report != said:
                    print(f"{pair} with {choice}: {report} in place of {said}", file=sys.stderr)
        base = medians(times.pop("1:0"))
        for choice, found in times.items():
            ratios[choice].append([it / alone for it, alone in zip(medians(found), base)])
        figures = (shown(ratios[choice][-1]) for choice in options.choices)
        print(Path(pair).name.ljust(24), "{:7.2f}{:7.2f}".format(*base), *figures, said.decode().split("\n")[0], flush=True)
    for what, of in (("median", median), ("worst", max)):
        print(what.ljust(24), " " * 14, *(shown(map(of, zip(*found))) for found in ratios.values() if found))


def main():
    asked = argparse.ArgumentParser(description=__doc__, formatter_class=argparse.RawDescriptionHelpFormatter)
    asked.add_argument("--eqc", type=Path, default=PROGRAM)
    asked.add_argument("--repeat", type=int, default=3)
    asked.add_argument("--nodes", default="1048574")
    asked.add_argument("--cells", default="65536")
    asked.add_argument("--conflicts")
    asked.add_argument("--least", type=float, default=0.5)
    asked.add_argument("--pairs", type=Path)
    asked.add_argument("choices", nargs="*", default=CHOICES)
    options = asked.parse_args()
    if options.pairs:
        measure(options.pairs, options)
    else:
        with tempfile.TemporaryDirectory() as folder:
            make(Path(folder))
            measure(Path(folder), options)


if __name__ == "__main__":
    main()
