#!/usr/bin/env python3
"""Measures reading and flattening against berkeley-abc's read_blif, on texts that it makes.

usage: speed.py [REPEAT] [CASE ..]

For each case it prints the processor time of eqc on the text (the least of REPEAT runs, 3 without a number), its peak
memory, the time of `berkeley-abc -q "read_blif TEXT"`, the ratio of the two, and the rate of eqc. The netlists have no
outputs, and the second model is small, so that almost all of the time goes into reading and flattening.
"""
import resource
import subprocess
import sys
import tempfile
from pathlib import Path

EQC = Path(__file__).resolve().parent.parent.parent / "eqc"
PROGRAM = EQC.parent / "crates" / "eqc_prog" / "out" / "eqc_prog"
BYTES = 16_777_216


def empty_lines():
    return "\n" * 8_000_000 + ".model m\n.end\n.model n\n.end\n"


def two(inputs, body, others=""):
    ports = ".inputs " + " ".join(inputs) + "\n"
    return f".model m\n{ports}{body}.end\n.model n\n{ports}.end\n{others}"


def flat_covers():
    covers = (f".names s{k // 2} s{k // 3} s{k}\n11 1\n" for k in range(1, 450_000))
    return two(["s0"], "".join(covers))


def chain():
    return two(["s0"], "".join(f".names s{k - 1} s{k}\n1 1\n" for k in range(1, 100_001)))


def most_signals():
    return two([], "".join(f".names s{k}\n" for k in range(1, 1_048_577)))[: BYTES]


def instances():
    lines = (f".subckt g a=s{k // 2} b=s{k // 3} z=s{k}\n" for k in range(1, 200_001))
    return two(["s0"], "".join(lines), ".model g\n.inputs a b\n.outputs z\n.names a b z\n11 1\n.end\n")


def deep():
    models = (f".model d{k}\n.subckt d{k + 1}\n" for k in range(100_000))
    return ".model m\n.subckt d0\n.end\n.model n\n.end\n" + "".join(models) + ".model d100000\n"


def wide_rows():
    columns = [f"i{k}" for k in range(2_000)]
    rows = "".join("01-"[k % 3] * 2_000 + " 1\n" for k in range(8_000))
    return two(columns, ".names " + " ".join(columns) + " z\n" + rows)


def narrow_rows():
    return two(["a"], ".names a z\n" + "1 1\n" * 4_000_000)


def one_name():
    # With a row, without which abc refuses the text.
    return two(["a"], ".names " + "a " * 1_000_000 + "z\n" + "1" * 1_000_000 + " 1\n")


CASES = [empty_lines, flat_covers, chain, most_signals, instances, deep, wide_rows, narrow_rows, one_name]


def timed(words, text):
    before = resource.getrusage(resource.RUSAGE_CHILDREN)
    with open(text, "rb") as source:
        subprocess.run(words, stdin=source, stdout=subprocess.DEVNULL, stderr=subprocess.DEVNULL, check=False)
    after = resource.getrusage(resource.RUSAGE_CHILDREN)
    return after.ru_utime + after.ru_stime - before.ru_utime - before.ru_stime


# What a process has at most counts from before its program starts, so one that is small has to start it.
STARTER = """
import resource, subprocess, sys
subprocess.run(sys.argv[1:], stdout=subprocess.DEVNULL)
print(resource.getrusage(resource.RUSAGE_CHILDREN).ru_maxrss)
"""


def peak(words, text):
    with open(text, "rb") as source:
        asked = subprocess.run([sys.executable, "-c", STARTER, *words], stdin=source, stdout=subprocess.PIPE, check=True)
    return int(asked.stdout)


def main():
    words = sys.argv[1:]
    repeat = int(words.pop(0)) if words and words[0].isdigit() else 3
    subprocess.run([str(EQC), "--help"], stdout=subprocess.DEVNULL, check=True)
    with tempfile.TemporaryDirectory() as folder:
        for case in CASES:
            if words and case.__name__ not in words:
                continue
            text = f"{folder}/{case.__name__}.blif"
            Path(text).write_text(case())
            size = Path(text).stat().st_size
            ours = min(timed([str(PROGRAM)], text) for _ in range(repeat))
            theirs = min(timed(["berkeley-abc", "-q", f"read_blif {text}"], text) for _ in range(repeat))
            memory = peak([str(PROGRAM)], text) / 1024
            figures = f"{ours:.2f} s, {memory:.0f} MB; abc {theirs:.2f} s; ratio {ours / theirs:.2f}"
            print(f"{case.__name__}: {figures}; {size / ours / 1e6:.0f} MB/s")


if __name__ == "__main__":
    main()
