#!/usr/bin/env python3
"""Compares the verdicts of eqc with those of berkeley-abc's cec on pairs of random netlists.

usage: abc_pairs.py [PAIRS] [SEED]

Half of the pairs are a netlist and what abc's rewriting makes of it, half a netlist with one byte of one row changed.
Each pair is compared with the declared order of the inputs and with the reverse order as an order text.
"""
import itertools
import random
import subprocess
import sys
import tempfile
from pathlib import Path

EQC = Path(__file__).resolve().parent.parent.parent / "eqc"
REWRITINGS = [
    "balance; rewrite; refactor",
    "rewrite -z; balance; resub",
    "refactor -z; rewrite; balance; rewrite",
    "collapse; strash; dc2",
]


def matches(row, bits):
    return all(c == "-" or c == b for c, b in zip(row, bits))


def is_always_matched(rows, width):
    return all(any(matches(row, bits) for row in rows) for bits in itertools.product("01", repeat=width))


def random_rows(choose, width):
    """Rows that don't match everywhere, since abc stops at an assertion on those that do."""
    while True:
        count = choose.randint(1, 2 ** (width - 1))
        rows = ["".join(choose.choice("0011-") for _ in range(width)) for _ in range(count)]
        if not is_always_matched(rows, width):
            return rows


def cover(choose, signals, output):
    columns = choose.sample(signals, choose.randint(2, 4))
    value = choose.choice("01")
    return columns, output, [(row, value) for row in random_rows(choose, len(columns))]


def netlist(choose):
    inputs = [f"i{k}" for k in range(choose.randint(4, 12))]
    signals, covers = list(inputs), []
    for k in range(choose.randint(5, 40)):
        covers.append(cover(choose, signals[-10:], f"n{k}"))
        signals.append(f"n{k}")
    outputs = [f"n{k}" for k in range(len(covers)) if k >= len(covers) - choose.randint(1, 5)]
    return inputs, outputs, covers


def text(net):
    inputs, outputs, covers = net
    lines = [".model m", ".inputs " + " ".join(inputs), ".outputs " + " ".join(outputs)]
    for columns, output, rows in covers:
        lines.append(".names " + " ".join(columns) + " " + output)
        lines += [f"{row} {value}" for row, value in rows]
    return "\n".join(lines + [".end", ""])


def changed(choose, net):
    """The netlist with one byte of one row of its last covers changed."""
    inputs, outputs, covers = net
    columns, output, rows = choose.choice(covers[-5:])
    while True:
        k = choose.randrange(len(rows))
        row, value = rows[k]
        at = choose.randrange(len(row))
        row = row[:at] + choose.choice([c for c in "01-" if c != row[at]]) + row[at + 1:]
        others = rows[:k] + [(row, value)] + rows[k + 1:]
        if not is_always_matched([row for row, _ in others], len(columns)):
            return inputs, outputs, [(columns, output, others) if c[1] == output else c for c in covers]


def rewritten(choose, first, second):
    """Whether abc wrote the second netlist; some of its rewritings end in an abort."""
    command = f"read_blif {first}; strash; {choose.choice(REWRITINGS)}; write_blif {second}"
    return subprocess.run(["berkeley-abc", "-q", command], capture_output=True).returncode == 0


def abc_says(first, second):
    out = subprocess.run(["berkeley-abc", "-q", f"cec {first} {second}"], capture_output=True, text=True).stdout
    if "NOT EQUIVALENT" in out:
        return "differs"
    return "equivalent" if "are equivalent" in out else "unknown"


def eqc_says(first, second, order):
    words = [str(EQC), "--nodes", "1000000"] + (["--order", str(order)] if order else []) + [str(first), str(second)]
    run = subprocess.run(words, capture_output=True, text=True)
    return {0: "equivalent", 1: "differs"}.get(run.returncode, run.stdout.strip())


def main():
    pairs = int(sys.argv[1]) if len(sys.argv) > 1 else 40
    choose = random.Random(int(sys.argv[2]) if len(sys.argv) > 2 else 1)
    counts, wrong = {}, 0
    with tempfile.TemporaryDirectory() as folder:
        first, second, order = (Path(folder) / name for name in ("first.blif", "second.blif", "order.txt"))
        for k in range(pairs):
            made = False
            while not made:
                net = netlist(choose)
                first.write_text(text(net))
                if k % 2 == 0:
                    made = rewritten(choose, first, second)
                else:
                    made = second.write_text(text(changed(choose, net))) > 0
            order.write_text(" ".join(reversed(net[0])) + "\n")
            wanted = abc_says(first, second)
            answers = [eqc_says(first, second, None), eqc_says(first, second, order)]
            counts[wanted] = counts.get(wanted, 0) + 1
            if any(answer != wanted for answer in answers):
                wrong += 1
                print(f"pair {k}: abc says {wanted}, eqc {answers}")
    verdicts = ", ".join(f"{n} {verdict}" for verdict, n in sorted(counts.items()))
    print(f"{pairs} pairs: {verdicts}; {wrong} with another verdict")
    return 1 if wrong else 0


if __name__ == "__main__":
    sys.exit(main())
