#!/usr/bin/env python3
"""Measures comparisons of netlists with thousands of inputs, as designs have that are cut at their registers.

usage: wide.py [--eqc PROGRAM] [--folder FOLDER] [--workers N] [--limit SECONDS] [NAME ..]

Each pair is a design made in two ways: `fifo` a FIFO of 512 words of 8 bits that is cut at its registers, read by multiplexers
or by a decoder and disjunctions; `equality` of two words, as a chain or as a tree; `decoder` of groups of five bits, by one cover
or two for each output. NAME is one of these with a number of inputs, as `equality_20000`; without a name the FIFO, and the two
others with 20,000 and 65,535 inputs. Each is compared as it is, and with a difference that only the last input shows or the last
word holds; with an order in reverse, under an assumption on the first input and the last, and with `--all`. A line tells the
first word of the report, the seconds and processor seconds of the run, and its peak memory. With --folder the pairs are kept
there. Without --eqc the program is that which `./eqc` has built.
"""
import argparse
import subprocess
import sys
import tempfile
from pathlib import Path

BUILT = Path(__file__).resolve().parent.parent.parent / "crates" / "eqc_prog" / "out" / "eqc_prog"
MOST_INPUTS = 65_535
BITS = 8
GROUP = 5
# So many groups of the decoder have an output for each value; of the others one value has one.
WHOLE_GROUPS = 200
PAIRS = ("fifo_512", "equality_20000", f"equality_{MOST_INPUTS}", "decoder_20000", f"decoder_{MOST_INPUTS}")


def cover(columns, output, *rows):
    return "\n".join([" ".join([".names", *columns, output]), *rows])


def model(inputs, outputs, covers):
    return "\n".join([".model wide", ".inputs " + " ".join(inputs), ".outputs " + " ".join(outputs), *covers, ".end", ""])


def tree(name, terms, *rows):
    """Covers of two columns that join the terms level by level, and the last signal."""
    covers, level = [], 0
    while len(terms) > 1:
        joined = []
        for place in range(0, len(terms) - 1, 2):
            joined.append(f"{name}{level}_{place}")
            covers.append(cover(terms[place : place + 2], joined[-1], *rows))
        terms, level = joined + terms[len(terms) & ~1 :], level + 1
    return covers, terms[0]


def value(number, bits):
    return "".join(str(number >> place & 1) for place in range(bits))


def equality(inputs, second, faulty):
    """Of two words of half as many bits, and an input that enables it where the number is odd."""
    names = [f"{word}{place}" for place in range(inputs // 2) for word in "ab"] + ["enable"] * (inputs % 2)
    covers, terms = [], []
    for place in range(inputs // 2):
        terms.append(f"same{place}")
        rows = ["10 0", "01 0"] if second else ["11 1", "00 1"]
        if faulty and place == inputs // 2 - 1:
            rows = ["10 0"]
        covers.append(cover(names[2 * place : 2 * place + 2], terms[-1], *rows))
    terms += names[inputs & ~1 :]
    if second:
        joins, last = tree("join", terms, "11 1")
        covers += joins
    else:
        last = terms[0]
        for place, term in enumerate(terms[1:]):
            covers.append(cover([last, term], f"join{place}", "11 1"))
            last = f"join{place}"
    return model(names, ["equal"], [*covers, cover([last], "equal", "1 1")])


def decoder(inputs, second, faulty):
    """Of groups of five bits, and outputs that are the inputs left over, or an inverted one."""
    names = [f"x{place}" for place in range(inputs)]
    outputs, covers = [], []
    for group in range(inputs // GROUP):
        bits = names[group * GROUP : (group + 1) * GROUP]
        for number in range(2**GROUP if group < WHOLE_GROUPS else 1):
            outputs.append(f"o{group}_{number}")
            row = value(number, GROUP)
            if second:
                covers.append(cover(bits[:2], outputs[-1] + "_half", row[:2] + " 1"))
                covers.append(cover([outputs[-1] + "_half", *bits[2:]], outputs[-1], f"1{row[2:]} 1"))
            else:
                covers.append(cover(bits, outputs[-1], row + " 1"))
    outputs.append("last")
    covers.append(cover(names[-1:], "last", "0 1" if faulty else "1 1"))
    return model(names, outputs, covers)


def fifo(words, second, faulty):
    """Of so many words of eight bits. What is written where it is full is lost."""
    bits = words.bit_length() - 1
    write, read = ([f"{name}{place}" for place in range(bits + 1)] for name in ("write", "read"))
    data = [f"data{bit}" for bit in range(BITS)]
    held = [[f"word{word}_{bit}" for bit in range(BITS)] for word in range(words)]
    inputs = ["push", "pop", *write, *read, *data, *(name for names in held for name in names)]
    covers = [cover([write[-1], read[-1]], "around", "10 1", "01 1")]
    covers += [cover([write[place], read[place]], f"meet{place}", "11 1", "00 1") for place in range(bits)]
    covers.append(cover([*(f"meet{place}" for place in range(bits)), "around"], "full", "1" * (bits + 1) + " 1"))
    covers.append(cover(["push", "full"], "enters", "10 1"))
    outputs = []
    for word in range(words):
        covers += chosen(f"at{word}", write[:-1], value(word, bits), second)
        covers.append(cover([f"at{word}", "enters"], f"into{word}", "11 1"))
        for bit in range(BITS):
            outputs.append(f"next{word}_{bit}")
            rows = ["11- 1", "0-1 1"]
            if faulty and word == words - 1 and bit == BITS - 1:
                rows = ["1-- 1", "0-1 1"]
            columns = [f"into{word}", data[bit], held[word][bit]]
            if second:
                covers.append(cover(columns, outputs[-1], *rows))
            else:
                covers.append(cover(columns, outputs[-1] + "_not", "10- 1", "0-0 1"))
                covers.append(cover([outputs[-1] + "_not"], outputs[-1], "0 1"))
    for word in range(words if second else 0):
        covers += chosen(f"from{word}", read[:-1], value(word, bits), True)
    for bit in range(BITS):
        outputs.append(f"out{bit}")
        names = [held[word][bit] for word in range(words)]
        if second:
            terms = [f"part{word}_{bit}" for word in range(words)]
            covers += [cover([f"from{word}", names[word]], terms[word], "11 1") for word in range(words)]
            joins, last = tree(f"or{bit}_", terms, "1- 1", "-1 1")
            covers += joins
        else:
            for place in range(bits):
                joined = [f"mux{bit}_{place}_{pair}" for pair in range(len(names) // 2)]
                for pair, name in enumerate(joined):
                    covers.append(cover([read[place], *names[2 * pair : 2 * pair + 2]], name, "01- 1", "1-1 1"))
                names = joined
            last = names[0]
        covers.append(cover([last, "pop"], outputs[-1], "11 1"))
    return model(inputs, outputs, covers)


def chosen(name, columns, row, halved):
    """Covers of a signal that is 1 where the columns have these values."""
    if not halved:
        return [cover(columns, name, row + " 1")]
    half = len(columns) // 2
    return [
        cover(columns[:half], name + "_half", row[:half] + " 1"),
        cover([name + "_half", *columns[half:]], name, f"1{row[half:]} 1"),
    ]


KINDS = {"equality": equality, "decoder": decoder, "fifo": fifo}


def measured(program, limit, words):
    """The first words of a run's report, and what it took."""
    told = subprocess.run(
        ["/usr/bin/time", "-f", "%e %U %S %M", "timeout", str(limit), program, "--inputs", str(MOST_INPUTS), *words],
        capture_output=True,
        text=True,
    )
    wall, user, system, memory = told.stderr.split("\n")[-2].split()
    report = told.stdout.split("\n")[0] or f"no report in {limit} s"
    return f"{report[:30]:30} {float(wall):6.2f} s {float(user) + float(system):6.2f} s {int(memory) / 1000:6.0f} MB"


def compare(given, folder, name):
    kind, _, number = name.partition("_")
    make, number = KINDS[kind], int(number)
    paths = [folder / f"{name}.{end}.blif" for end in ("first", "second", "faulty")]
    for path, second, faulty in zip(paths, (False, True, True), (False, False, True)):
        path.write_text(make(number, second, faulty))
    inputs = paths[0].read_text().split("\n")[1].split()[1:]
    order, assumed = folder / f"{name}.order", folder / f"{name}.assume.blif"
    order.write_text(" ".join(reversed(inputs)) + "\n")
    ends = [inputs[0], inputs[-1]]
    lines = [".model some", ".inputs " + " ".join(ends), ".outputs any", cover(ends, "any", "00 0"), ".end", ""]
    assumed.write_text("\n".join(lines))
    print(f"{name}, {len(inputs)} inputs", flush=True)
    ways = (("as it is", []), ("--order", ["--order", order]), ("--assume", ["--assume", assumed]), ("--all", ["--all"]))
    for other in paths[1:]:
        for way, words in ways:
            told = measured(given.eqc, given.limit, ["--workers", str(given.workers), *words, paths[0], other])
            print(f"  {other.name.split('.')[1]:7} {way:9} {told}", flush=True)


def main():
    parser = argparse.ArgumentParser(usage=__doc__.split("usage: ")[1].split("\n")[0])
    parser.add_argument("--eqc", default=str(BUILT))
    parser.add_argument("--folder")
    parser.add_argument("--workers", type=int, default=1)
    parser.add_argument("--limit", type=int, default=120)
    parser.add_argument("names", nargs="*", metavar="NAME")
    given = parser.parse_args()
    for name in given.names:
        kind, _, number = name.partition("_")
        if kind not in KINDS or not number.isdigit():
            sys.exit(f"wide.py: no pair {name}")
    with tempfile.TemporaryDirectory() as made:
        for name in given.names or PAIRS:
            compare(given, Path(given.folder or made), name)


if __name__ == "__main__":
    main()
