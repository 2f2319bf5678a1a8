#!/usr/bin/env python3
"""compare_builder.py [--cases N] [--seed S] [--oracle BINARY]: the Rust's ResultBuilder and the port's on the same sequences of parts.

The port's builder isn't in the static library. It is run by builder_lines.rt.txt, a program over crates/builder, with `rt try` in a
scratch repository (rt takes no file named .rt outside of the listed crates): on the interpreter, as far as that goes, and compiled with
checks, which must agree and write what the Rust answered. Values are Int32 in the Rust; the port's value 0 stands for null. At most 2,000 sequences fit a run.
Prints how many agree and differ in each class; where the Rust has no such refusal (10, 18, 20) the port must give document 01's. Exit
status 1: the port wrote something else, which is printed.
"""
import argparse
import collections
import os
import random
import shutil
import subprocess
import sys
import tempfile

HERE = os.path.dirname(os.path.dirname(os.path.abspath(__file__)))
ORACLE = os.path.join(HERE, "tools", "rust_oracle", "target", "release", "rust-oracle")
BELOW = ("layout", "files", "builder")
CRATES = "layout:\nfiles: layout\nbuilder: layout\nbuilder_lines: layout files builder\n"
COMPARED = "built, or refused with 19 or 21"
CLASSES = {0: COMPARED, 19: COMPARED, 21: COMPARED, 20: "a row held twice (20)", 18: "a row beyond the count, or not rising (18)",
           10: "more than 512 rows (10)"}
MOST = 2000

# A sequence is (row count, [(rows, values)]).


def first_refusal(sequence):
    """The number that document 01 gives the first part that is refused, or 0 (01, Where a call stops)."""
    count, parts = sequence
    if count > 512:
        return 10
    held, part, whole = set(), False, False
    for rows, values in parts:
        if len(rows) != len(values):
            return 19
        if any(a >= b for a, b in zip(rows, rows[1:])) or any(r >= count for r in rows):
            return 18
        if whole or part and len(rows) == count:
            return 21
        if held & set(rows):
            return 20
        held |= set(rows)
        whole, part = len(rows) == count, part or len(rows) < count
    return 0


# ---- sequences ----

def values(rng, count):
    return [rng.choice((0, 1, 2, 7, 300, 65535)) for _ in range(count)]


def sequence(rng):
    """Rising lists of rows that no earlier list holds; then perhaps something wrong."""
    count = rng.choice((0, 1, 1, 2, 3, 3, 4, 5, 8, 9, 20)) if rng.random() < 0.985 else rng.choice((511, 512, 513))
    left, parts = list(range(count)), []
    for _ in range(rng.choice((0, 1, 2, 2, 3, 4, 6))):
        rows = sorted(rng.sample(left, rng.randint(0, len(left)))) if rng.random() < 0.85 else list(left)
        left = [r for r in left if r not in rows]
        parts.append((rows, values(rng, len(rows))))
    if parts and rng.random() < 0.3:
        spoil(rng, count, parts)
    return count, parts


def spoil(rng, count, parts):
    at = rng.randrange(len(parts))
    rows, given = parts[at]
    pick = rng.randrange(5)
    if pick == 0:
        given = values(rng, len(given) + rng.choice((1, 2)))
    elif pick == 1:
        rows = rows[::-1]
    elif pick == 2:
        rows, given = rows + [count + rng.choice((0, 1, 500))], given + [1]
    elif pick == 3:
        rows = list(range(count))
        given = values(rng, count)
    else:
        rows = sorted(rng.sample(range(count), rng.randint(0, count)))
        given = values(rng, len(rows))
    parts[at] = rows, given


# ---- both sides ----

def rust_lines(oracle, sequences):
    """The Rust's answers, a line each as builder_lines writes them."""
    text = ""
    for count, parts in sequences:
        shown = [" ".join(map(str, rows)) + " = " + " ".join(str(v) if v else "null" for v in given) for rows, given in parts]
        text += "\n".join([str(count)] + shown) + "\n\n"
    said = subprocess.run([oracle, "--builder"], input=text, capture_output=True, text=True, check=True).stdout
    lines = []
    for block in said.split(".\n")[:-1]:
        head, *entries = block.splitlines()
        words = [e.split()[1] for e in entries]
        lines.append("".join(("0" if w == "null" else w) + " " for w in words) if head.startswith("rows") else head)
    return lines


def two(n):
    return n.to_bytes(2, "little")


def sequence_bytes(sequence):
    count, parts = sequence
    out = two(count) + two(len(parts))
    for rows, given in parts:
        out += two(len(rows)) + two(len(given)) + b"".join(map(two, rows + given))
    return out


def try_port(sequences, lines):
    """Runs the port's builder, which must write the lines. Gives what it wrote instead and what rt said, or nothing."""
    with tempfile.TemporaryDirectory() as scratch:
        for name in BELOW:
            shutil.copytree(os.path.join(HERE, "crates", name), os.path.join(scratch, "crates", name), ignore=shutil.ignore_patterns("out"))
        program = os.path.join(scratch, "crates", "builder_lines")
        os.makedirs(os.path.join(program, "src"))
        shutil.copy(os.path.join(HERE, "tools", "builder_lines.rt.txt"), os.path.join(program, "src", "main.rt"))
        with open(os.path.join(scratch, "crates.txt"), "w", encoding="utf-8") as out:
            out.write(CRATES)
        run = subprocess.run(["rt", "try"], cwd=program, input=b"".join(map(sequence_bytes, sequences)), capture_output=True)
        wrote, said = run.stdout.decode(errors="replace"), run.stderr.decode(errors="replace")
        return None if run.returncode == 0 and wrote == "".join(line + "\n" for line in lines) else (wrote, said)


def place(wrote, sequences, expected):
    """The sequence at whose line the port's output differs."""
    lines = wrote.splitlines()
    for i, line in enumerate(expected):
        if i >= len(lines) or lines[i] != line:
            return f": {sequences[i]}, expected {line!r}"
    return ""


def compare(oracle, count, seed):
    """Compares, prints the counts and gives whether the port wrote what it should."""
    rng = random.Random(seed)
    sequences = [sequence(rng) for _ in range(min(count, MOST))]
    refusals, rust = list(map(first_refusal, sequences)), rust_lines(oracle, sequences)
    expected = [f"refused {n}" if n in (10, 18, 20) else line for n, line in zip(refusals, rust)]
    wrong = try_port(sequences, expected)
    tally = collections.defaultdict(lambda: [0, 0])
    for n, a, b in zip(refusals, rust, expected):
        tally[CLASSES[n]][a != b] += 1
    print(f"{'ResultBuilder':45} {'agree':>8} {'differ':>8}")
    for name in dict.fromkeys(CLASSES.values()):
        print(f"  {name:43} {tally[name][0]:8} {tally[name][1]:8}")
    if wrong:
        print("the port wrote something else" + place(wrong[0], sequences, expected) + "\n" + wrong[1])
    return not wrong


def main():
    parser = argparse.ArgumentParser(description=__doc__, formatter_class=argparse.RawDescriptionHelpFormatter)
    parser.add_argument("--cases", type=int, default=MOST)
    parser.add_argument("--seed", type=int, default=1)
    parser.add_argument("--oracle", default=ORACLE)
    args = parser.parse_args()
    return 0 if compare(args.oracle, args.cases, args.seed) else 1


if __name__ == "__main__":
    sys.exit(main())
