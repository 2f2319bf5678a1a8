#!/usr/bin/env python3
"""Tests of make_cases.py and make_run_cases.py: the programs' data is what they write from tools/cases, and the limits are met exactly."""
import collections
import contextlib
import io
import os
import shutil
import sys
import tempfile
import unittest

sys.dont_write_bytecode = True
sys.path.insert(0, os.path.dirname(os.path.abspath(__file__)))
import make_cases  # noqa: E402
import make_run_cases  # noqa: E402
from case_classes import FLOAT_CASTS, MAY_FAIL, cast_pairs, else_can_fail, kind_of, nodes  # noqa: E402
from casetext import read_rule  # noqa: E402
from nullability import nullable  # noqa: E402
from stored_cases import CRATES, FOLDERS, answer, field, fields_of, listed_runs, listings, number, rules, runs  # noqa: E402

# rules, listings and runs of each folder
STORED = [(400, 618, 250), (200, 358, 200), (200, 390, 200), (200, 390, 200), (0, 0, 248)]
PROGRAMS = ["caserun", "rule_cases", "run_cases", "table_cases"]
NOT_MADE = ("rule.bin", "batch.bin", "rust")


def made_files(folder):
    """The files of the programs that the tools make, by their path below the crates."""
    found = {}
    for program in PROGRAMS:
        for base, folders, names in os.walk(os.path.join(folder, program)):
            folders[:] = [f for f in folders if f != "out"]
            for name in names:
                path = os.path.join(base, name)
                data = os.path.basename(base) == "data" and not name.startswith(NOT_MADE)
                if data or name == "stdout" or (program, name) in (("rule_cases", "args"), ("table_cases", "args"), ("caserun", "args")):
                    with open(path, "rb") as source:
                        found[os.path.relpath(path, folder)] = source.read()
    return found


def printed(program):
    """The lines that a program must print."""
    with open(os.path.join(CRATES, program, "stdout"), encoding="utf-8") as source:
        return list(source)


def make_again(folder):
    """The made files, written anew in a copy of the crates."""
    for program in PROGRAMS:
        shutil.copytree(os.path.join(CRATES, program), os.path.join(folder, program), ignore=shutil.ignore_patterns("out"))
    for path in made_files(folder):
        os.remove(os.path.join(folder, path))
    for tool in (make_cases, make_run_cases):
        tool.CRATES = folder
        with contextlib.redirect_stdout(io.StringIO()):
            tool.main()
        tool.CRATES = CRATES
    return made_files(folder)


class Data(unittest.TestCase):
    def test_made_again(self):
        with tempfile.TemporaryDirectory() as folder:
            again = make_again(folder)
        committed = made_files(CRATES)
        self.assertEqual(sorted(again), sorted(committed))
        for path, data in committed.items():
            self.assertTrue(data == again[path], path)

    def test_stored(self):
        counts = [tuple(len(list(cases([folder]))) for cases in (rules, listings, runs)) for folder in FOLDERS]
        self.assertEqual(counts, STORED)

    def test_counts(self):
        """No case is left out of the programs' data."""
        every_rule, every_listing, every_run = map(sum, zip(*STORED))
        refused = [n for *_, (outcome, n) in listed_runs() if outcome == "refused"]
        with open(os.path.join(CRATES, "caserun", "args"), encoding="utf-8") as source:
            files = source.read().split()[2:]
        listed = 0
        for name in files:
            with open(os.path.join(CRATES, "caserun", "data", name), "rb") as source:
                listed += len(list(make_run_cases.records_in(source.read())))
        self.assertEqual(listed, every_listing)
        of_rules = [int(l.split()[1]) for l in printed("rule_cases") if l.startswith("rules")]
        self.assertEqual(sum(of_rules), every_rule + make_cases.BEHIND_ROOT + sum(n <= 8 for n in refused))
        of_runs = [int(l.split()[1]) for l in printed("run_cases")]
        self.assertEqual(of_runs[:2], [every_run, len(refused)])
        self.assertGreaterEqual(of_runs[3], 3000)

    def test_sizes(self):
        """What each program can hold of a file, and table_cases of its tables."""
        most = {"caserun": make_run_cases.MOST_FILE, "run_cases": make_run_cases.MOST_FILE, "rule_cases": make_cases.MOST, "table_cases": make_cases.MOST}
        for program, size in most.items():
            folder = os.path.join(CRATES, program, "data")
            for name in os.listdir(folder):
                self.assertLessEqual(os.path.getsize(os.path.join(folder, name)), size)
        self.assertLess(max(int(l.split()[1]) for l in printed("table_cases") if l.startswith("table ")), 400)

    def test_rust(self):
        """The Rust's answers hold each cast of change 2, in runs that fail and in runs that answer."""
        found = collections.Counter()
        with open(os.path.join(CRATES, "run_cases", "data", "rust.bin"), "rb") as source:
            for record in make_run_cases.records_in(source.read()):
                size = int.from_bytes(record[:4], "little")
                pairs = cast_pairs(read_rule(record[make_run_cases.HEAD:make_run_cases.HEAD + size]))
                found.update((pair, make_run_cases.wanted(record) == b"\x0f") for pair in pairs & FLOAT_CASTS)
        for pair in FLOAT_CASTS:
            for failed in (True, False):
                self.assertGreaterEqual(found[pair, failed], 50)

    def test_nullability(self):
        """Every stored nullability answer is what is worked out from the rule's tree; each try-cast of an ELSE that can fail decides some."""
        marks = [(rule, mark) for rule, _, mark, _ in rules()]
        marks += [(rule, want[4]) for source in (listed_runs(), runs()) for _, rule, _, _, _, (outcome, want) in source if outcome == "ok"]
        decided = collections.Counter()
        for data, mark in marks:
            rule = read_rule(data)
            self.assertEqual(mark, nullable(rule), data.hex())
            if mark and not nullable(rule, lambda e: False):
                decided.update((kind_of(e[3]), kind_of(e), e is rule) for e in nodes(rule) if else_can_fail(e))
        for source, target in MAY_FAIL:
            for root in (True, False):
                self.assertGreaterEqual(decided[source, target, root], 3, (source, target, root))

    def test_null_counts(self):
        """The programs' tables have null counts that are right and that are refused, and every answer has its own."""
        tables = printed("table_cases")
        self.assertGreaterEqual(tables.count("refused 25\n"), 30)
        self.assertGreaterEqual(sum(" nulls " in l and " nulls 0:" not in l for l in tables), 50)
        counted, nulls = 0, collections.Counter()
        for name in ("runs", "rust"):
            with open(os.path.join(CRATES, "run_cases", "data", name + ".bin"), "rb") as source:
                for record in make_run_cases.records_in(source.read()):
                    rule, table = (int.from_bytes(record[k:k + 4], "little") for k in (0, 4))
                    start, want = make_run_cases.HEAD + rule, make_run_cases.wanted(record)
                    if want[0] == 0:
                        nulls[count_of(record[start:start + table], want[1:])] += 1
                        counted += any(tag == 6 for tag, _ in fields_of(record[start:start + table]))
        self.assertGreaterEqual(counted, 500)
        self.assertGreater(len(nulls), 10)

    def test_counted(self):
        """The runs of the folder counted are runs of before, with an answer that is five bytes longer and an output of five bytes more."""
        old = {(rule, table, work, output) for _, rule, table, work, output, _ in runs(FOLDERS[:2])}
        for _, rule, table, work, output, (outcome, data) in runs(FOLDERS[-1:]):
            self.assertIn((rule, table, work, output - 5), old)
            self.assertEqual(outcome, "ok")
            self.assertGreaterEqual(output, len(data))
            self.assertLess(output - 5, len(data))


def count_of(table, data):
    """The null count of an answer, which must be there and be that of its bits."""
    rows, parts = int.from_bytes(table[3:5], "little"), list(fields_of(data))
    assert [tag for tag, _ in parts[:3]] == [2, 6, 3] and len(parts[1][1]) == 2
    nulls = sum(not make_cases.bit(parts[2][1], row) for row in range(rows)) if parts[2][1] else 0
    assert int.from_bytes(parts[1][1], "little") == nulls
    return nulls


class Limits(unittest.TestCase):
    def sizes(self, record):
        return [int.from_bytes(record[k:k + 4], "little") for k in (0, 4)]

    def test_rule(self):
        for size, want in ((4096, b"rows 34 type 5 nullable 0\n"), (4097, b"refused 1\n")):
            record = make_run_cases.long_rule_case(size)
            self.assertEqual(self.sizes(record)[0], size)
            self.assertTrue(make_run_cases.wanted(record).startswith(want))

    def test_table(self):
        for size, want in ((65536, b"rows 512 type 5 nullable 1\n"), (65537, b"refused 9\n")):
            record = make_run_cases.long_table_case(size)
            self.assertEqual(self.sizes(record)[1], size)
            self.assertTrue(make_run_cases.wanted(record).startswith(want))


class Types(unittest.TestCase):
    def test_each_node(self):
        flag, long = field(16, bytes([0, 1, 0])), field(17, bytes([3, 0]) + number(7, 8))
        whole = lambda base, *parts: field(25, bytes([base, 1]) + b"".join(parts))
        nodes = {flag: 1, long: 3, field(18, flag): 1, field(19, long): 3, field(20, long): 1, field(21, b"\2" + long): 2,
                 field(22, b"\1" + long): 1, field(23, long + long): 1, field(24, long + long): 1, whole(0, flag, long): 3, whole(1, long, long, flag): 1}
        for node, kind in nodes.items():
            self.assertEqual(make_cases.type_of(node), kind)

    def test_listing_to_answer(self):
        """The answer's bytes of document 01's listing."""
        lines = next(lines for *_, lines in listings() if not lines[0].startswith("refused"))
        self.assertEqual(answer(lines[0], lines[1:])[3], int(lines[0].split()[3]))
        self.assertEqual(answer("rows 2 type 2 nullable 1", ["0 -1", "1 null"]).hex(), "0202000201060200010003010001040800ffffffff00000000")


if __name__ == "__main__":
    unittest.main()
