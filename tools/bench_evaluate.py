#!/usr/bin/env python3
"""bench_evaluate.py [--oracle BINARY] [--library ARCHIVE] [--turns N] [--only WORDS] [--markdown] [--count]

Times whole evaluations through the static library, and the Rust beside them, in turns, outside of the gate.

BINARY   the Rust over the stand-in for Arrow's kernels (tools/rust_oracle, built); without it only the library is timed
ARCHIVE  crates/tembalku/out/libtembalku.a unless said, which tools/build_library.sh makes
N        how often each rule is timed, the library and the Rust in turn (default 3; a turn takes about 4 seconds with the Rust)
WORDS    only the rules whose names hold them

For each rule of bench_rules.py: the strategy; the whole call of the library and how much of it reading the rule, reading the table and
clearing the work buffer take ("fixed"); the Rust's `evaluate` and `into_array` on an expression and a batch that are there already; the
Rust's whole way from bytes to bytes (reading rule and table, nullability, evaluate, writing); and the library's call divided by either. A time
is the median of samples of about 50 microseconds, the lowest of the turns. Before, the answers of both are compared. At the end: in how many
rules the call is below either. --markdown prints the table for docs/ARCHITECTURE.md; --count adds instructions a call, by valgrind's callgrind.
"""
import argparse
import math
import os
import re
import subprocess
import sys
import tempfile

from bench_rules import measured
from stored_cases import HERE, answer

ARCHIVE = os.path.join(HERE, "crates", "tembalku", "out", "libtembalku.a")


def said(*words):
    return subprocess.run(words, capture_output=True, text=True, check=True).stdout


def build(folder, archive):
    """The program of bench_evaluate.c, with the static library."""
    program = os.path.join(folder, "bench")
    said("gcc", "-O2", "-Wall", "-Wextra", "-I", os.path.join(HERE, "include"), os.path.join(HERE, "tools", "bench_evaluate.c"), archive, "-o", program)
    return program


def put(folder, rule, table):
    """The files of a rule and a table."""
    paths = [os.path.join(folder, name) for name in ("rule.bin", "table.bin")]
    for path, data in zip(paths, (rule, table)):
        with open(path, "wb") as out:
            out.write(data)
    return paths


def compare_answers(program, oracle, name, files):
    """Ends the program where the Rust answers something else."""
    ours, lines = said(program, "answer", *files).strip(), said(oracle, *files).splitlines()
    theirs = answer(lines[0], lines[1:]).hex() if lines[0].startswith("rows") else lines[0]
    if ours != theirs:
        sys.exit(f"{name}: the Rust answers something else")


def rust_times(oracle, files):
    """The nanoseconds of evaluate with into_array and of the whole way from bytes to bytes."""
    text = said(oracle, "--bench", *files)
    return tuple(int(re.search(rf"(?m)^{name} (\d+)$", text).group(1)) for name in ("evaluate", "whole"))


def instructions(program, files):
    run = subprocess.run(["valgrind", "--tool=callgrind", "--toggle-collect=tembalku_evaluate", "--callgrind-out-file=/dev/null",
                          program, "once", *files], capture_output=True, text=True, check=True)
    return int(re.search(r"Collected : (\d+)", run.stderr).group(1))


def measure(program, oracle, files, turns):
    """The lowest times of the turns: strategy, whole call, fixed part, the Rust's evaluate, the Rust's whole."""
    ours, fixed, evaluates, wholes = [], [], [], []
    for _ in range(turns):
        strategy, whole, *parts = map(int, said(program, "time", *files).split())
        ours.append(whole)
        fixed.append(sum(parts))
        if oracle:
            evaluate, rust = rust_times(oracle, files)
            evaluates.append(evaluate)
            wholes.append(rust)
    return strategy, min(ours), min(fixed), min(evaluates, default=0), min(wholes, default=0)


HEADS = ["rule", "strategy", "whole call", "fixed", "the Rust's evaluate", "the Rust's whole", "call / evaluate", "call / whole"]


def cells(name, strategy, ours, fixed, evaluate, whole):
    micro = lambda ns: f"{ns / 1000:.1f} µs" if ns >= 1000 else f"{ns / 1000:.2f} µs"
    rust = [micro(evaluate), micro(whole), f"{ours / evaluate:.2f}", f"{ours / whole:.2f}"] if evaluate else []
    return [name, str(strategy), micro(ours), micro(fixed)] + rust


def line(words, markdown):
    if markdown:
        return "| " + " | ".join(words) + " |"
    return f"{words[0]:52}" + "".join(f"{w:>20}" for w in words[1:])


def summary(ratios):
    """Of call / evaluate and of call / whole: how many are below 1, and the geometric means."""
    words = []
    for name, column in zip(("evaluate", "whole"), zip(*ratios)):
        mean = math.exp(sum(map(math.log, column)) / len(column))
        words.append(f"below the Rust's {name} in {sum(r < 1 for r in column)} of {len(column)} rules (geometric mean {mean:.2f})")
    return "The call is " + " and ".join(words) + "."


def arguments():
    a = argparse.ArgumentParser(usage=__doc__)
    a.add_argument("--oracle")
    a.add_argument("--library", default=ARCHIVE)
    a.add_argument("--turns", type=int, default=3)
    a.add_argument("--only", default="")
    a.add_argument("--markdown", action="store_true")
    a.add_argument("--count", action="store_true")
    return a.parse_args()


def main():
    args = arguments()
    heads = HEADS[:None if args.oracle else 4] + ["instructions"] * args.count
    print(line(heads, args.markdown))
    if args.markdown:
        print("|" + "---|" * len(heads))
    ratios = []
    with tempfile.TemporaryDirectory() as folder:
        program = build(folder, args.library)
        for name, rule, table in measured():
            if args.only not in name:
                continue
            files = put(folder, rule, table)
            if args.oracle:
                compare_answers(program, args.oracle, name, files)
            times = measure(program, args.oracle, files, args.turns)
            row = cells(name, *times)
            if args.oracle:
                ratios.append((times[1] / times[3], times[1] / times[4]))
            if args.count:
                row.append(f"{instructions(program, files):,}")
            print(line(row, args.markdown), flush=True)
    if ratios:
        print("\n" + summary(ratios))


if __name__ == "__main__":
    main()
