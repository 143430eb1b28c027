#!/usr/bin/env python3
"""Measures what a text's author can make a comparison cost: covers of many kinds of rows, instances of one, and least
assignments.

usage: costs.py [covers|instances|least] [PROGRAM ..]

`covers` compares two netlists with the same rows in opposite orders, since two with one structure need no diagram, and prints
for each kind of cover the processor time (the least of three runs), the time per byte of cover, and its ratio to that of
random covers of eight columns. Where all rows of a cover are alike no diagram is built. `instances` compares two netlists in
which a model with one cover has many instances, each over other inputs; it prints the processor time of one instance and of
all, and what a further one takes of the time of the first. `least` prints how many nodes the
least assignment needs where a constant 0 is compared with a conjunction of some of the inputs. Without a program it takes
the one that `./eqc` has built; with several, each has its column.
"""
import random
import resource
import subprocess
import sys
import tempfile
from pathlib import Path

BUILT = Path(__file__).resolve().parent.parent.parent / "crates" / "eqc_prog" / "out" / "eqc_prog"
MOST = 1_048_574


def run(program, text, nodes, *options):
    with tempfile.NamedTemporaryFile("w", suffix=".blif") as file:
        file.write(text)
        file.flush()
        before = resource.getrusage(resource.RUSAGE_CHILDREN)
        ran = subprocess.run([program, "--nodes", str(nodes), *options, file.name], capture_output=True, text=True)
        after = resource.getrusage(resource.RUSAGE_CHILDREN)
    spent = after.ru_utime - before.ru_utime + after.ru_stime - before.ru_stime
    return spent, ran.stdout.split("\n")[0]


def dashed(columns, rows, share, seed=1):
    chance = random.Random(seed)

    def place():
        return "-" if chance.random() < share else chance.choice("01")

    return ["".join(place() for _ in range(columns)) for _ in range(rows)]


def literals(columns, rows, count, seed=2):
    chance, made = random.Random(seed), []
    for _ in range(rows):
        row = ["-"] * columns
        for place in chance.sample(range(columns), count):
            row[place] = chance.choice("01")
        made.append("".join(row))
    return made


def repeated(columns, rows, kinds, seed=4):
    """Rows without dashes of which only so many differ."""
    chance = random.Random(seed)
    kept = chance.sample(minterms(columns), kinds)
    return [chance.choice(kept) for _ in range(rows)]


def minterms(columns, odd=False):
    return [format(k, f"0{columns}b") for k in range(2**columns) if not odd or bin(k).count("1") % 2]


def prefixed(columns, rows):
    """One literal in each column of the first half, all values of the second half."""
    half = columns // 2

    def first(k):
        return "".join("1" if place == k else "-" for place in range(half))

    return [first(k) + format(k % 2 ** (columns - half), f"0{columns - half}b") for k in range(rows)]


def covers():
    """The name, the columns, and the covers of one netlist, each a list of rows."""
    yield "random, 8 columns, 40 rows", 8, [dashed(8, 40, 0.33, seed) for seed in range(300)]
    yield "random, 8 columns, 200 rows", 8, [dashed(8, 200, 0.33, seed) for seed in range(60)]
    yield "random, 10 columns, 100 rows", 10, [dashed(10, 100, 0.33, seed) for seed in range(60)]
    for columns, rows in ((12, 1_000), (12, 10_000), (16, 300), (16, 4_096), (20, 200), (20, 4_096)):
        yield f"random, {columns} columns, {rows} rows", columns, [dashed(columns, rows, 0.33)]
    yield "no dashes, 20 columns, 4096 rows", 20, [dashed(20, 4_096, 0)]
    for count in (1, 2, 3, 5, 10):
        yield f"{count} literals of 20, 4096 rows", 20, [literals(20, 4_096, count)]
    yield "all dashes, 20 columns, 4096 rows", 20, [["-" * 20] * 4_096]
    yield "one row of 12 columns, 4096 times", 12, [["01-" * 4] * 4_096]
    yield "all minterms of 12 columns", 12, [minterms(12)]
    yield "all minterms of 16 columns", 16, [minterms(16)]
    yield "parity of 16 columns", 16, [minterms(16, odd=True)]
    yield "a literal each, then all values, 20", 20, [prefixed(20, 4_096)]


def model(name, columns, netlist):
    inputs = " ".join(f"i{k}" for k in range(columns))
    outputs = " ".join(f"z{k}" for k in range(len(netlist)))
    body = "".join(
        f".names {inputs} z{k}\n" + "".join(f"{row} 1\n" for row in rows) for k, rows in enumerate(netlist)
    )
    return f".model {name}\n.inputs {inputs}\n.outputs {outputs}\n{body}.end\n", len(body)


def measure_covers(programs):
    narrow = {}
    for name, columns, netlist in covers():
        # Rows in another order make another structure, so that diagrams are built for both netlists.
        turned = [rows[::-1] for rows in netlist]
        (first, size), (second, _) = model("f", columns, netlist), model("g", columns, turned)
        cells = []
        for program in programs:
            runs = [run(program, first + second, MOST) for _ in range(3)]
            spent = min(it[0] for it in runs)
            byte = spent / (2 * size)
            narrow.setdefault(program, byte)
            cells.append(f"{spent * 1e3:8.1f} ms {byte * 1e9:7.0f} ns {byte / narrow[program]:6.1f} {runs[0][1]}")
        print(f"{name:36}" + "   ".join(cells), flush=True)


def calling(name, called, columns, inputs, instances, seed=3):
    """A model with so many instances of another, each over some of the inputs in their order."""
    chance = random.Random(seed)
    names = " ".join(f"i{k}" for k in range(inputs))
    outputs = " ".join(f"z{k}" for k in range(instances))
    body = ""
    for k in range(instances):
        chosen = sorted(chance.sample(range(inputs), columns))
        actuals = " ".join(f"i{place}=i{actual}" for place, actual in enumerate(chosen))
        body += f".subckt {called} {actuals} z0=z{k}\n"
    return f".model {name}\n.inputs {names}\n.outputs {outputs}\n{body}.end\n"


def instances():
    """The name, the columns, the rows of the cover, and how many instances it has."""
    yield "no dashes, 20 columns, 5000 rows", 20, dashed(20, 5_000, 0), 40
    yield "no dashes, 20 columns, 5000 rows", 20, dashed(20, 5_000, 0), 400
    yield "random, 16 columns, 300 rows", 16, dashed(16, 300, 0.33), 40
    yield "random, 10 columns, 40 rows", 10, dashed(10, 40, 0.5), 4_000
    yield "no dashes, 8 columns, 200 rows", 8, dashed(8, 200, 0), 1_000
    yield "6 columns, 500 rows of 30 kinds", 6, repeated(6, 500, 30), 1_000
    yield "6 columns, 50000 rows of 30 kinds", 6, repeated(6, 50_000, 30), 1_000
    yield "6 columns, 500000 rows of 30 kinds", 6, repeated(6, 500_000, 30), 1_000
    yield "7 columns, 1000 rows of 60 kinds", 7, repeated(7, 1_000, 60), 1_000
    yield "7 columns, 100000 rows of 60 kinds", 7, repeated(7, 100_000, 60), 1_000
    yield "7 columns, 500000 rows of 60 kinds", 7, repeated(7, 500_000, 60), 1_000


def measure_instances(programs):
    for name, columns, rows, most in instances():
        parts = "".join(model(called, columns, [it])[0] for called, it in (("c", rows), ("d", rows[::-1])))
        cells = []
        for program in programs:
            spent = []
            for count in (1, most):
                mains = "".join(calling(main, called, columns, 60, count) for main, called in (("f", "c"), ("g", "d")))
                runs = [run(program, mains + parts, MOST, "--workers", "1", "--conflicts", "0") for _ in range(3)]
                spent.append(min(it[0] for it in runs))
            further = (spent[1] - spent[0]) / (most - 1) / spent[0]
            cells.append(f"{spent[0] * 1e3:8.1f} ms {spent[1] * 1e3:8.1f} ms {further:6.3f} {runs[0][1]}")
        print(f"{f'{most} instances: {name}':48}" + "   ".join(cells), flush=True)


def conjunction(inputs, ones):
    names = " ".join(f"i{k}" for k in range(inputs))
    row = "".join("1" if k in ones else "-" for k in range(inputs))
    return (
        f".model f\n.inputs {names}\n.outputs z\n.names z\n.end\n"
        f".model g\n.inputs {names}\n.outputs z\n.names {names} z\n{row} 1\n.end\n"
    )


def nodes_needed(program, text):
    if run(program, text, MOST)[1].startswith("stopped"):
        return f"more than {MOST}"
    low, high = 1, MOST
    while low < high:
        middle = (low + high) // 2
        if run(program, text, middle)[1].startswith("stopped"):
            low = middle + 1
        else:
            high = middle
    return str(low)


def measure_least(programs):
    chance = random.Random(1)
    for inputs in (512, 2_048):
        for name, ones in (
            ("the last", {inputs - 1}),
            ("one in the middle", {inputs // 2}),
            ("sixteen", set(range(5, inputs, inputs // 16))),
            ("half at random", {k for k in range(inputs) if chance.random() < 0.5}),
            ("every second", set(range(0, inputs, 2))),
        ):
            text = conjunction(inputs, ones)
            cells = "   ".join(nodes_needed(program, text) for program in programs)
            print(f"{inputs} inputs, {name:18} {cells}", flush=True)


def main():
    words = sys.argv[1:]
    measures = {"covers": measure_covers, "instances": measure_instances, "least": measure_least}
    wanted = [words.pop(0)] if words and words[0] in measures else list(measures)
    for name in wanted:
        measures[name](words or [str(BUILT)])


if __name__ == "__main__":
    main()
