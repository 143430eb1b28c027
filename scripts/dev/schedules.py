#!/usr/bin/env python3
"""Runs small pairs over and over with workers and forks drawn at random, each run under a time limit of its own.

usage: schedules.py [--eqc PROGRAM] [--runs N] [--limit SECONDS] [--seed N] [--pairs DIR] [--stops]

The pairs are adders, parities, a multiplier and a difference that it makes, or each NAME.a.blif with NAME.b.blif of a
folder. Workers are drawn from 2 to 64, forks from 0 to 16, cells from 1 to 65536. A run must write what one worker without
forks writes, or `stopped 71` where its nodes are drawn so that they may not do. It ends with the numbers of runs, of those
that stopped so, and of those that wrote something else or did not end; its status is 1 if there is any of the last two.
Without `--eqc` it takes the program that `./eqc` has built.

With `--stops` it looks at pairs that stop half-way: low halves of products by rows and by columns, with so few conflicts
that some outputs are found equal and others aren't. By 1, 2, 3, 4 and 16 workers, N runs each (100), all that a run writes
has to be the same, what it explains of outputs that are left too. So it is with the pairs of a folder that stop.
"""
import argparse
import random
import subprocess
import sys
import tempfile
from pathlib import Path

from forks import AND, OR, PROGRAM, XOR, Netlist, multiplier, partial

FULL = b"stopped 71\n"

# With so many conflicts the products stop half-way, where they do.
CONFLICTS = [60, 200, 600, 2000, 6000]

TEAMS = [1, 2, 3, 4, 16]


def text(inputs, outputs, build):
    netlist = Netlist(inputs)
    netlist.lines[2] = ".outputs " + " ".join(outputs)
    for name, signal in zip(outputs, build(netlist)):
        netlist.cover([signal], ["1 1"], name)
    return "\n".join(netlist.lines) + "\n.end\n"


def ripple(netlist, bits, wrong=False):
    carry = None
    for k in range(bits):
        if carry is None:
            total, carry = netlist.sum_of(f"a{k}", f"b{k}")
        else:
            total, carry = netlist.sum_of_three(f"a{k}", f"b{k}", carry)
        yield netlist.cover([total, f"a{k}"], OR) if wrong and k == bits - 2 else total


def by_prefix(netlist, bits):
    """Each carry from the covers of all lower places."""
    for k in range(bits):
        carry = netlist.cover([], [])
        for j in range(k):
            both, any_ = netlist.cover([f"a{j}", f"b{j}"], AND), netlist.cover([f"a{j}", f"b{j}"], OR)
            carry = netlist.cover([both, any_, carry], ["1-- 1", "-11 1"])
        yield netlist.cover([netlist.cover([f"a{k}", f"b{k}"], XOR), carry], XOR)


def parity(netlist, names):
    result = names[0]
    for name in names[1:]:
        result = netlist.cover([result, name], XOR)
    return [result]


def make(folder):
    inputs = [name for k in range(8) for name in (f"a{k}", f"b{k}")]
    sums = [f"s{k}_" for k in range(8)]
    bits = [f"x{k}" for k in range(24)]
    product, rows, columns = multiplier(6)
    pairs = {
        "adder": (text(inputs, sums, lambda it: ripple(it, 8)), text(inputs, sums, lambda it: by_prefix(it, 8))),
        "difference": (text(inputs, sums, lambda it: ripple(it, 8, True)), text(inputs, sums, lambda it: by_prefix(it, 8))),
        "parity": (text(bits, ["z"], lambda it: parity(it, bits)), text(bits, ["z"], lambda it: parity(it, bits[::-1]))),
        "multiplier": (text(product, ["z"], lambda it: [rows(it)]), text(product, ["z"], lambda it: [columns(it)])),
    }
    for name, sides in pairs.items():
        for side, said in zip("ab", sides):
            (folder / f"{name}.{side}.blif").write_text(said)


def ran(eqc, pair, options, limit):
    words = [str(eqc), *(str(it) for it in options), f"{pair}.a.blif", f"{pair}.b.blif"]
    try:
        return subprocess.run(words, stdout=subprocess.PIPE, timeout=limit, check=False).stdout
    except subprocess.TimeoutExpired:
        return None


def all_columns(netlist, bits):
    columns = partial(netlist, bits)
    for k, column in enumerate(columns):
        while len(column) > 1:
            three = column[:3]
            del column[:3]
            total, carry = (netlist.sum_of_three if len(three) == 3 else netlist.sum_of)(*three)
            column.append(total)
            if k + 1 < bits:
                columns[k + 1].append(carry)
    return [column[0] for column in columns]


def all_rows(netlist, bits):
    total = [netlist.cover(["a0", f"b{j}"], AND) for j in range(bits)]
    for i in range(1, bits):
        carry = None
        for k in range(i, bits):
            product = netlist.cover([f"a{i}", f"b{k - i}"], AND)
            added = [total[k], product] + ([] if carry is None else [carry])
            total[k], carry = (netlist.sum_of if carry is None else netlist.sum_of_three)(*added)
    return total


def make_products(folder):
    for bits in (8, 10):
        inputs = [name for k in range(bits) for name in (f"a{k}", f"b{k}")]
        # Names without a common word, so that the search for sums doesn't show them.
        outputs = [f"z{chr(97 + k)}" for k in range(bits)]
        for side, build in (("a", all_rows), ("b", all_columns)):
            said = text(inputs, outputs, lambda it, build=build, bits=bits: build(it, bits))
            (folder / f"product{bits}.{side}.blif").write_text(said)


def explained(eqc, pair, options, limit):
    words = [str(eqc), "--explain", *(str(it) for it in options), f"{pair}.a.blif", f"{pair}.b.blif"]
    try:
        done = subprocess.run(words, stdout=subprocess.PIPE, stderr=subprocess.PIPE, timeout=limit, check=False)
    except subprocess.TimeoutExpired:
        return None
    return done.returncode, done.stdout, done.stderr


def run_stops(folder, options):
    """Compares what runs that stop half-way write, by several numbers of workers."""
    pairs = sorted(str(it)[: -len(".a.blif")] for it in folder.glob("*.a.blif"))
    stops = other = 0
    for pair in pairs:
        for conflicts in CONFLICTS:
            words = ["--nodes", 1024, "--conflicts", conflicts]
            right = explained(options.eqc, pair, [*words, "--workers", 1], options.limit)
            if right is None or right[1] != FULL:
                continue
            stops += 1
            print(f"{Path(pair).name} --conflicts {conflicts}: {right[2].decode().strip()[:100]}", flush=True)
            for workers in TEAMS:
                for _ in range(options.runs):
                    if explained(options.eqc, pair, [*words, "--workers", workers], options.limit) != right:
                        other += 1
                        print(f"  by {workers} workers: another text", flush=True)
    print(f"{stops} stops, {options.runs} runs by each of {len(TEAMS)} numbers of workers, {other} that wrote something else")
    return other > 0 or stops == 0


def drawn(rng, small):
    nodes = rng.choice([small, rng.randint(1, 3000), 65536])
    cells = 1 << rng.randint(0, 16)
    return nodes, ["--nodes", nodes, "--cells", cells, "--workers", rng.randint(2, 64), "--forks", rng.randint(0, 16)]


def run_all(folder, options):
    rng = random.Random(options.seed)
    pairs = sorted(str(it)[: -len(".a.blif")] for it in folder.glob("*.a.blif"))
    right = {pair: ran(options.eqc, pair, ["--nodes", 1048574], 60) for pair in pairs}
    full = wrong = late = 0
    for _ in range(options.runs):
        pair = rng.choice(pairs)
        nodes, words = drawn(rng, 64)
        said = ran(options.eqc, pair, words, options.limit)
        if said == right[pair]:
            continue
        if said is None:
            late += 1
        elif said == FULL and nodes < 65536:
            full += 1
            continue
        else:
            wrong += 1
        print(f"{pair} {' '.join(map(str, words))}: {said}", flush=True)
    print(f"{options.runs} runs, {full} stopped for nodes, {wrong} wrong, {late} without an end in {options.limit} s")
    return wrong + late > 0


def main():
    asked = argparse.ArgumentParser(description=__doc__, formatter_class=argparse.RawDescriptionHelpFormatter)
    asked.add_argument("--eqc", type=Path, default=PROGRAM)
    asked.add_argument("--runs", type=int)
    asked.add_argument("--limit", type=float, default=20)
    asked.add_argument("--seed", type=int, default=1)
    asked.add_argument("--pairs", type=Path)
    asked.add_argument("--stops", action="store_true")
    options = asked.parse_args()
    fill, run = (make_products, run_stops) if options.stops else (make, run_all)
    if options.runs is None:
        options.runs = 100 if options.stops else 10000
    if options.pairs:
        return run(options.pairs, options)
    with tempfile.TemporaryDirectory() as folder:
        fill(Path(folder))
        return run(Path(folder), options)


if __name__ == "__main__":
    sys.exit(main())
