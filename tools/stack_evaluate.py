#!/usr/bin/env python3
"""stack_evaluate.py [ARCHIVE]: the stack that a process needs for one evaluation through the static library, outside of the gate.

Builds tools/bench_evaluate.c with ARCHIVE, crates/tembalku/out/libtembalku.a unless said (made by tools/build_library.sh), and prints for
rules that nest deep the least limit of the stack, in steps of 4 KB, at which one evaluation of 512 rows ends. The process's own start is
counted in.
"""
import resource
import subprocess
import sys
import tempfile

from bench_evaluate import ARCHIVE, build, put
from bench_rules import BOOLEAN, C0 as COLUMN, case, int32, less, literal, negated, numbers


def boolean(b):
    return literal(BOOLEAN, b)


def steps(count, when=None, then=None):
    """So many branches `WHEN col < literal THEN literal`, with another WHEN or another THEN in the last."""
    branches = [(less(COLUMN, int32(k)), int32(k)) for k in range(count)]
    branches[-1] = (when or branches[-1][0], then or branches[-1][1])
    return branches


def tests(count, when=None):
    """A CASE of Booleans, another WHEN in its last branch."""
    branches = [(less(COLUMN, int32(k)), boolean(k % 2)) for k in range(count)]
    if when:
        branches[-1] = (when, branches[-1][1])
    return case(None, branches, boolean(0))


def keys(base, count):
    return case(base, [(int32(k), int32(k + 1)) for k in range(count)], int32(-1))


def rules():
    deep = less(COLUMN, int32(7))
    deepest = negated(negated(negated(deep)))
    yield "three CASEs on a path, two branches each", case(None, steps(2, tests(2, tests(2, deepest))), int32(9))
    inner = case(None, steps(32), int32(3))
    yield "three CASEs of 32 branches in THENs", case(None, steps(32, None, case(None, steps(32, None, inner), int32(2))), int32(1))
    column_in = case(None, steps(32, None, COLUMN), int32(3))
    yield "the same, a column among the results", case(None, steps(32, None, case(None, steps(32, None, column_in), int32(2))), int32(1))
    yield "three CASEs on a path in THENs, NOTs below", case(None, [(deep, case(None, [(deep, case(None, [(deepest, COLUMN)], int32(1)))], int32(2)))], COLUMN)
    yield "tables of 32 keys in bases", keys(keys(keys(COLUMN, 32), 32), 32)
    yield "three CASEs of 32 branches in WHENs", case(None, steps(32, tests(32, tests(32))), int32(1))


def ends(program, files, kilobytes):
    limit = lambda: resource.setrlimit(resource.RLIMIT_STACK, (kilobytes * 1024, kilobytes * 1024))
    return subprocess.run([program, "once", *files], preexec_fn=limit, capture_output=True).returncode == 0


def main(archive):
    with tempfile.TemporaryDirectory() as folder:
        program = build(folder, archive)
        for name, rule in rules():
            files = put(folder, rule, numbers([k % 40 for k in range(512)]))
            least = next((k for k in range(8, 2048, 4) if ends(program, files, k)), None)
            print(f"{name:42} {len(rule):5} bytes {least} KB", flush=True)


if __name__ == "__main__":
    main(sys.argv[1] if len(sys.argv) > 1 else ARCHIVE)
