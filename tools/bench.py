#!/usr/bin/env python3
"""bench.py [--library ARCHIVE]... [--turns N] [--nulls] [--count]

Times the readings of rules and tables through the static library, or through several of them in turns in one run, outside of the gate.

ARCHIVE  crates/tembalku/out/libtembalku.a unless said, which tools/build_library.sh makes; a second one is compared with the first, and so on
N        how often each reading is timed, the libraries in turn (default 5)
--nulls  tables with null counts in their columns too, which libraries below 0.2 refuse
--count  instructions of a reading too, by valgrind's callgrind

Read are a flat rule of 32 branches, a deep rule, tables of 512 rows and 16 columns of each type (15 of the 8-byte types, which is as many as
65,536 bytes hold), and one whose columns aren't nullable, so that each of their 8,192 validity bits is read ("bitmaps"). Printed are the
nanoseconds of each library and those of each further one divided by the first's; the same of the instructions.
"""
import argparse
import os
import re
import subprocess
import tempfile

from bench_rules import case, column, int32
from stored_cases import HERE, field, number

ARCHIVE = os.path.join(HERE, "crates", "tembalku", "out", "libtembalku.a")


def flat():
    return case(None, [(field(24, column(0, 2) + int32(i)), int32(i)) for i in range(32)], int32(99))


def deep():
    """Three CASEs on a path, the rest of the depth NOTs; 24 branches each at the innermost level."""
    when = field(18, field(18, field(18, field(24, column(0, 2) + int32(7)))))
    inner = case(None, [(when, int32(i)) for i in range(24)], int32(0))
    middle = case(None, [(field(24, column(0, 2) + int32(1)), inner)] * 2, inner)
    return case(None, [(field(24, column(0, 2) + int32(2)), int32(5))], middle)


def table(kind, nullable=1, rows=512, counted=False):
    out = field(1, number(rows, 2))
    bits = bytes([0xff] * ((rows + 7) // 8))
    for _ in range(15 if kind in (3, 4) else 16):
        out += field(2, bytes([kind, nullable])) + (field(6, number(0, 2)) if counted else b"") + field(3, bits)
        if kind == 5:
            out += field(5, b"".join(number(2 * i, 4) for i in range(rows + 1))) + field(4, b"ab" * rows)
        elif kind == 1:
            out += field(4, bits)
        else:
            out += field(4, b"".join(number(i, 4 if kind == 2 else 8) for i in range(rows)))
    return out


def readings(nulls):
    """Which reading, a name and the bytes."""
    yield "rule", "flat rule", flat()
    yield "rule", "deep rule", deep()
    for kind in range(1, 6):
        yield "table", f"table of type {kind}", table(kind)
    yield "table", "bitmaps", table(1, nullable=0)
    for kind in range(1, 6) if nulls else ():
        yield "table", f"type {kind}, counted", table(kind, counted=True)


def said(*words):
    return subprocess.run(words, capture_output=True, text=True, check=True).stdout


def build(archive, program):
    said("gcc", "-O2", "-Wall", "-Wextra", "-I", os.path.join(HERE, "include"), os.path.join(HERE, "tools", "bench.c"), archive, "-o", program)
    return program


def times(programs, words, turns):
    """The least nanoseconds of each program, timed in turns; all must answer the same."""
    least = [float("inf")] * len(programs)
    answers = set()
    for _ in range(turns):
        for i, program in enumerate(programs):
            answer, took = said(program, "time", *words).split()
            answers.add(answer)
            least[i] = min(least[i], int(took))
    assert len(answers) == 1, f"{words}: the libraries answer {sorted(answers)}"
    return least


def instructions(program, words):
    run = subprocess.run(["valgrind", "--tool=callgrind", f"--toggle-collect=tembalku_{words[0]}_read", "--callgrind-out-file=/dev/null",
                          program, "once", *words], capture_output=True, text=True, check=True)
    return int(re.search(r"Collected : (\d+)", run.stderr).group(1))


def figures(values, unit):
    """Each library's figure, and the further ones divided by the first."""
    return "  ".join([f"{v:>9,} {unit}" for v in values] + [f"{v / values[0]:.4f}" for v in values[1:]])


def main():
    a = argparse.ArgumentParser(usage=__doc__)
    a.add_argument("--library", action="append")
    a.add_argument("--turns", type=int, default=5)
    a.add_argument("--nulls", action="store_true")
    a.add_argument("--count", action="store_true")
    args = a.parse_args()
    with tempfile.TemporaryDirectory() as folder:
        programs = [build(archive, os.path.join(folder, f"bench-{i}")) for i, archive in enumerate(args.library or [ARCHIVE])]
        for kind, name, data in readings(args.nulls):
            path = os.path.join(folder, "bytes")
            with open(path, "wb") as out:
                out.write(data)
            print(f"{name:16} {len(data):>6,} bytes  {figures(times(programs, (kind, path), args.turns), 'ns')}", flush=True)
            if args.count:
                print(f"{'':30}{figures([instructions(p, (kind, path)) for p in programs], 'instructions')}", flush=True)


if __name__ == "__main__":
    main()
