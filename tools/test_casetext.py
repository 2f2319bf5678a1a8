#!/usr/bin/env python3
"""test_casetext.py: tests of casetext.py; runs those of test_casetext_check.py, test_casetext_casts.py, test_casetext_nulls.py and
test_casetext_run.py too.

Here: the bytes, each expression and type, round trips, what can't be read, and the example of examples/targets.
TEMBALKU_LIBRARY names the static library. Without it the tests that need it are not run, and a line says so.
"""
import contextlib
import io
import os
import sys
import tempfile
import unittest

sys.dont_write_bytecode = True
HERE = os.path.dirname(os.path.abspath(__file__))
sys.path.insert(0, HERE)
import casetext  # noqa: E402
from dealer import tree  # noqa: E402
from dealer.checking import check_bytes  # noqa: E402
from dealer.layout import rule_bytes, table_bytes  # noqa: E402
from dealer.reading import Refused, read_rule, read_table  # noqa: E402
from dealer.rows import at_row, row_of  # noqa: E402
from dealer.text import TextError, load_bytes, parse  # noqa: E402
from dealer.tree import type_of  # noqa: E402
from dealer.words import explanation, text_of  # noqa: E402

TARGETS = os.path.join(os.path.dirname(HERE), "examples", "targets")

# document 01, A listing
RULE = bytes.fromhex("19 1A 00 02 01 10 03 00 00 01 01 11 06 00 02 00 01 00 00 00 11 06 00 02 00 00 00 00 00")
TABLE = bytes.fromhex("01 02 00 04 00 02 02 00 01 01 03 01 00 0D 04 01 00 09")
# the same table with its null count (02, Change 3)
COUNTED = TABLE[:10] + bytes.fromhex("06 02 00 01 00") + TABLE[10:]
TEXT = """rows 4
column c0 boolean null true null false true
rule
(case
  (when (col c0) (then (int32 1)))
  (else (int32 0)))
"""
LISTING = ["0 1", "1 0", "2 0", "3 1"]


def shown(kind, v):
    """An entry as a listing has it."""
    if v is None:
        return "null"
    if kind == 1:
        return "true" if v else "false"
    return f"{v:016x}" if kind == 4 else "t" + v.hex() if kind == 5 else str(v)


def listed(rule, data):
    """The lines of a listing behind its head, from the bytes of a rule and a table."""
    try:
        check_bytes(rule, data)
    except Refused as refused:
        return [f"refused {refused.number}"]
    e, table = read_rule(rule), read_table(data)
    return [f"{i} {shown(type_of(e), at_row(e, row_of(table, i)))}" for i in range(table[0])]


def stored():
    """Rule, table, type and lines of each stored case."""
    with open(os.path.join(HERE, "testdata", "cases.txt"), encoding="ascii") as f:
        for block in f.read().split("\n\n"):
            lines = block.split("\n")
            if len(lines) > 3:
                head = lines[3].split()
                lines_after = lines[4:-1] if head[0] == "rows" else [lines[3]]
                yield lines[0], bytes.fromhex(lines[1][5:]), bytes.fromhex(lines[2][6:]), head, lines_after


def in_case(text):
    """The bytes of an expression as the THEN of a rule, over some columns."""
    e, _ = parse(f"rows 1\ncolumn a int32 5\ncolumn b int64 null null\nrule\n(case (when (boolean true) (then {text})))")
    return rule_bytes(e[2][0][1]).hex()


class Bytes(unittest.TestCase):
    def test_document(self):
        e, table = parse(TEXT)
        self.assertEqual(rule_bytes(e), RULE)
        self.assertEqual(table_bytes(table), COUNTED)
        for data in (TABLE, COUNTED):
            self.assertEqual(text_of(read_rule(RULE), read_table(data)), TEXT)
            self.assertEqual(listed(RULE, data), LISTING)

    def test_columns_and_literals(self):
        for text, want in [
                ("(col a)", "100300000200"), ("(col b)", "100300010301"), ("(col a int32 null)", "100300000201"), ("(col 9 utf8)", "100300090500"),
                ("(boolean true)", "110300010001"), ("(boolean false)", "110300010000"), ("(int32 -5)", "1106000200fbffffff"),
                ("(int64 5)", "110a0003000500000000000000"), ("(int64 -9223372036854775808)", "110a0003000000000000000080"),
                ("(float64 1.5)", "110a000400000000000000f83f"), ("(float64 -0.0)", "110a0004000000000000000080"),
                ("(float64 0x7ff8000000000001)", "110a000400010000000000f87f"), ('(utf8 "slow")', "1106000500736c6f77"),
                ('(utf8 "")', "1102000500"), ('(utf8 x"00ff")', "110400050000ff"), ('(utf8 "a\\"\\\\#")', "110600050061225c23")]:
            self.assertEqual(in_case(text), want, text)
        for number, word in tree.WORDS.items():
            self.assertEqual(in_case(f"(null {word})"), f"110200{number:02x}01")

    def test_operators(self):
        a, b = "100300000200", "100300010301"
        for text, want in [
                ("(not (boolean true))", "120600110300010001"), ("(neg (col a))", "130600" + a), ("(isnotnull (col b))", "140600" + b),
                ("(cast int32 (col b))", "15070002" + b), ("(trycast int64 (col a))", "16070003" + a),
                ("(equal (col a) (col a))", "170c00" + a + a), ("(less (col b) (col b))", "180c00" + b + b)]:
            self.assertEqual(in_case(text), want, text)

    def test_cases(self):
        t, one, two = "110300010001", "1106000200" + "01000000", "1106000200" + "02000000"
        for text, want in [
                ("(case (when (boolean true) (then (int32 1))))", "0001" + t + one),
                ("(case (base (int32 2)) (when (int32 1) (then (int32 2))))", "0101" + two + one + two),
                ("(case (when (boolean true) (then (int32 1))) (else (int32 2)))", "0201" + t + one + two),
                ("(case (base (int32 1)) (when (int32 1) (then (int32 1))) (when (int32 2) (then (int32 2))) (else (int32 1)))",
                 "0302" + one + one + one + two + two + one)]:
            self.assertEqual(in_case(text), "19" + f"{len(want) // 2:02x}00" + want, text)

    def test_tables(self):
        for text, want in [
                ("rows 0", "0102000000"),
                ("rows 0\ncolumn a utf8 null", "0102000000" "0202000501" "0602000000" "030000" "05040000000000" "040000"),
                ("rows 9\ncolumn a boolean true false true false true false true false true",
                 "0102000900" "0202000100" "0602000000" "030000" "0402005501"),
                ("rows 2\ncolumn a int32 null null -1", "0102000200" "0202000201" "0602000100" "03010002" "04080000000000ffffffff"),
                ("rows 1\ncolumn a int64 7", "0102000100" "0202000300" "0602000000" "030000" "0408000700000000000000"),
                ("rows 1\ncolumn a float64 null 1.5", "0102000100" "0202000401" "0602000000" "030000" "040800000000000000f83f"),
                ('rows 3\ncolumn a utf8 null "ab" null\n  x"ff"',
                 "0102000300" "0202000501" "0602000100" "03010005" "05100000000000020000000200000003000000" "0403006162ff")]:
            _, table = parse(text + "\nrule (case)")
            self.assertEqual(table_bytes(table).hex(), want, text)
            self.assertEqual(read_table(bytes.fromhex(want))[1], [("c0",) + c[1:] for c in table[1]])


class RoundTrips(unittest.TestCase):
    def test_stored(self):
        """A rule is its tree's bytes; a table's entries stay, and its bytes from then on."""
        count = 0
        for name, rule, data, _, _ in stored():
            with self.subTest(name):
                e, table = read_rule(rule), read_table(data)
                self.assertEqual(rule_bytes(e), rule)
                text = text_of(e, table)
                again, table_again = parse(text)
                self.assertEqual((again, table_again), (e, table))
                self.assertEqual(rule_bytes(again), rule)
                self.assertEqual(read_table(table_bytes(table_again)), table)
                self.assertEqual(text_of(again, table_again), text)
                count += 1
        self.assertEqual(count, 76)

    def test_one_row_agrees(self):
        """The row-by-row evaluator gives the stored entries."""
        for name, rule, data, head, lines in stored():
            with self.subTest(name):
                self.assertEqual(listed(rule, data), lines)
                if head[0] == "rows":
                    self.assertEqual(str(type_of(read_rule(rule))), head[3])

    def test_values(self):
        for kind, values in [(1, [True, False]), (2, [0, -1, -2 ** 31, 2 ** 31 - 1]), (3, [0, -2 ** 63, 2 ** 63 - 1]),
                             (4, [0, 1, 1 << 63, 0x3ff8000000000000, 0x7ff0000000000000, 0xfff0000000000000, 0x7ff8000000000001, 2 ** 64 - 1,
                                  0x7fefffffffffffff, 0x3fb999999999999a]),
                             (5, [b"", b"a b", b'"', b"\\", b'\\"', b"#", b"\n", b"\0", b"\xff", "bo\u00eete \u6f22".encode(), b"(case", b"null"])]:
            for v in values + [None]:
                e = ("case", None, [(("literal", 1, True), ("literal", kind, v))], None)
                table = (2, [("c0", kind, 1, [v, None])])
                self.assertEqual(parse(text_of(e, table)), (e, table))
                self.assertEqual(read_rule(rule_bytes(e)), e)
                self.assertEqual(read_table(table_bytes(table)), table)

    def test_explained(self):
        """The places and bytes of an explanation are the rule's."""
        for name, rule, _, _, _ in stored():
            with self.subTest(name):
                found = b""
                for line in explanation(read_rule(rule)).splitlines():
                    self.assertEqual(int(line[:4]), len(found))
                    found += bytes.fromhex(line[6:29])
                self.assertEqual(found, rule)

    def test_explained_words(self):
        """A column's mark, and words in the first line of a long value alone."""
        e, _ = parse('rows 0\ncolumn a int32\ncolumn b int32 null\nrule (case (when (equal (col a) (col b)) (then (utf8 "twelve bytes"))))')
        lines = explanation(e).splitlines()
        self.assertIn("  11  00 02 00                       column 0, Int32, never null", lines)
        self.assertIn("  17  01 02 01                       column 1, Int32, nullable", lines)
        self.assertEqual(lines[-2:], ['  25  74 77 65 6C 76 65 20 62      "twelve bytes"', "  33  79 74 65 73"])

    def test_commands(self):
        """make, show and make again give the same bytes."""
        with tempfile.TemporaryDirectory() as folder:
            path = os.path.join(folder, "a.txt")
            made = []
            text = text_of(*parse(targets("targets.txt").decode()))
            for _ in range(2):
                with open(path, "w", encoding="utf-8") as f:
                    f.write(text)
                self.assertEqual(run("make", path, folder), (0, "", ""))
                made.append(tuple(load_bytes(os.path.join(folder, name)) for name in ("rule.bin", "batch.bin")))
                code, text, _ = run("show", folder)
                self.assertEqual(code, 0)
            self.assertEqual(made[0], made[1])
            self.assertIn("column speed int32 null 124", text)


def run(*args):
    out, err = io.TextIOWrapper(io.BytesIO(), "utf-8"), io.StringIO()
    with contextlib.redirect_stdout(out), contextlib.redirect_stderr(err):
        code = casetext.main(list(args))
        out.flush()
    return code, out.buffer.getvalue().decode("utf-8"), err.getvalue()


def targets(name):
    with open(os.path.join(TARGETS, name), "rb") as f:
        return f.read()


class Order(unittest.TestCase):
    def test_floats(self):
        """The order of floats, by their bits: NaNs with the sign, numbers, NaNs without it; neighbours too."""
        rising = [2 ** 64 - 1, 0xfff0000000000001, 0xfff0000000000000, 0xbff0000000000001, 0xbff0000000000000, (1 << 63) + 1, 1 << 63, 0, 1,
                  0x3ff0000000000000, 0x3ff0000000000001, 0x7ff0000000000000, 0x7ff0000000000001, 2 ** 63 - 1]
        for i, a in enumerate(rising):
            for j, b in enumerate(rising):
                left, right = ("literal", 4, a), ("literal", 4, b)
                self.assertEqual((at_row(("less", left, right), []), at_row(("equal", left, right), [])), (i < j, i == j))


class Targets(unittest.TestCase):
    def setUp(self):
        self.rule, self.table = parse(targets("targets.txt").decode("utf-8"))

    def test_made(self):
        self.assertEqual(rule_bytes(self.rule), targets("rule.bin"))
        self.assertEqual(table_bytes(self.table), targets("batch.bin"))

    def test_readme(self):
        readme = targets("README.md").decode("utf-8")
        self.assertIn("```\n" + explanation(self.rule) + "```", readme)
        # no base, no THEN is nullable, and neither is ELSE
        self.assertTrue(all(e[0] == "literal" and e[2] is not None for e in [t for _, t in self.rule[2]] + [self.rule[3]]))
        lines = [f"rows {self.table[0]} type 5 nullable 0"] + listed(rule_bytes(self.rule), table_bytes(self.table))
        self.assertIn("```\n" + "\n".join(lines) + "\n```", readme)
        speeds, sizes = (["null" if v is None else str(v) for v in c[3]] for c in self.table[1][:2])
        for i, line in enumerate(lines[1:]):
            self.assertIn(f"| {i} | {speeds[i]} | {sizes[i]} | {bytes.fromhex(line.split(' t')[1]).decode()} |", readme)


class Errors(unittest.TestCase):
    def test_text(self):
        rule = "rule\n(case (when (boolean true) (then (int32 1))))"
        for text, line, words in [
                ("", 1, "there is nothing in it"),
                ("rows x\n" + rule, 1, "no row count"),
                ("rows 1\ncolum a int32 1\n" + rule, 2, "column or rule is expected"),
                ("rows 1\ncolumn 1 int32 1\n" + rule, 2, "no name"),
                ("rows 1\ncolumn a int16 1\n" + rule, 2, "no type"),
                ("rows 1\ncolumn a int32 1\n\ncolumn a int32 1\n" + rule, 4, "second column a"),
                ("rows 2\ncolumn a int32 1\n" + rule, 2, "1 value for 2 rows"),
                ("rows 1\ncolumn a int32 2147483648\n" + rule, 2, "outside of int32"),
                ("rows 1\ncolumn a int64 -9223372036854775809\n" + rule, 2, "outside of int64"),
                ("rows 1\ncolumn a int64 " + "9" * 5000 + "\n" + rule, 2, "outside of int64"),
                ("rows 1\ncolumn a float64 1e999\n" + rule, 2, "outside of float64"),
                ("rows 1\ncolumn a float64 nan\n" + rule, 2, "no float64"),
                ("rows 1\ncolumn a boolean 1\n" + rule, 2, "no boolean"),
                ("rows 1\ncolumn a utf8 boat\n" + rule, 2, "no utf8"),
                ('rows 1\ncolumn a utf8 "boat\n' + rule, 2, "can't read"),
                ('rows 1\ncolumn a utf8 "\\n"\n' + rule, 2, "no escape"),
                ('rows 1\ncolumn a utf8 x"0g"\n' + rule, 2, "not hex"),
                ("rows 1\nrulr", 2, "column or rule is expected"),
                ("rows 1\nrule", 2, "( is expected"),
                ("rows 1\nrule\n(int32 1)", 3, "a rule is a (case"),
                (rule.replace("rule", "rows 1\nrule") + "\n)", 4, "behind the rule"),
                ("rows 1\nrule\n(case\n (when (col a) (then (int32 1))))", 4, "no column a"),
                ("rows 1\nrule\n(case\n (when (col 3) (then (int32 1))))", 4, "type is needed"),
                ("rows 1\nrule\n(case\n (when (and) (then (int32 1))))", 4, "and is no expression"),
                ("rows 1\nrule\n(case\n (when (boolean true) (int32 1)))", 4, "then is expected"),
                ("rows 1\nrule\n(case\n (else (int32 1))\n (when (boolean true) (then (int32 1))))", 5, "when out of place"),
                ("rows 1\nrule\n(case\n (when (not (boolean true)", 4, "the text ends, but the bracket of line 4 isn't closed"),
                ("rows 1\nrule\n(case\n (when " + "(not " * 200, 4, "nested more than"),
                ("rows 1\nrule\n(case\n" + " (when (null boolean) (then (null int32)))\n" * 256 + ")", 3, "256 branches: at most 32, 6"),
                ('rows 1\nrule\n(case\n (when (boolean true) (then (utf8 "' + "a" * 65536 + '"))))', 4, "at most 4096 bytes, 1"),
                ('rows 1\ncolumn a utf8 "' + "a" * 65536 + '"\n' + rule, 2, "at most 65536 bytes, 9")]:
            with self.subTest(words + " " + text[:60]):
                with self.assertRaises(TextError) as caught:
                    parse(text)
                said = str(caught.exception)
                self.assertTrue(said.startswith(f"line {line}: "), said)
                self.assertIn(words, said)
                self.assertNotIn("\n", said)

    def test_cut(self):
        """No beginning of the two files is taken, but for a table cut behind its rows."""
        for n in range(len(RULE)):
            self.assertRaises(Refused, read_rule, RULE[:n])
        for data in (TABLE, COUNTED):
            for n in range(len(data)):
                if n == 5:
                    self.assertEqual(read_table(data[:n]), (4, []))
                else:
                    self.assertRaises(Refused, read_table, data[:n])

    def test_changed_rule(self):
        """Any byte changed to any other is read or refused, and what is read is written again as it was."""
        for changed in each_change(RULE):
            with contextlib.suppress(Refused):
                self.assertEqual(rule_bytes(read_rule(changed)), changed)

    def test_changed_table(self):
        """Of the table's bytes the row count, the mark, the validity and the values may change, and are read bit by bit."""
        taken = 0
        for changed in each_change(TABLE):
            try:
                got = read_table(changed)
            except Refused:
                continue
            taken += 1
            rows, nullable, valid, values = changed[3], changed[9], changed[13], changed[17]
            bits = [(valid >> i & 1, values >> i & 1) for i in range(rows)]
            self.assertEqual(got, (rows, [("c0", 1, nullable, [bool(value) if there else None for there, value in bits])]))
            rows_only = (1 << rows) - 1
            tag6 = bytes([6, 2, 0, sum(not there for there, _ in bits), 0])
            tag3 = bytes([3, 0, 0]) if valid & rows_only == rows_only else bytes([3, 1, 0, valid & rows_only])
            self.assertEqual(table_bytes(got), changed[:10] + tag6 + tag3 + bytes([4, 1, 0, values & valid & rows_only]))
        # 1 to 8 rows but 4, the other mark, the other bytes of validity and of values
        self.assertEqual(taken, 7 + 1 + 255 + 255)

    def test_commands(self):
        with tempfile.TemporaryDirectory() as folder:
            path = os.path.join(folder, "a.txt")
            with open(path, "w", encoding="utf-8") as f:
                f.write("rows 1\nbad\n")
            code, out, err = run("make", path, folder)
            self.assertEqual((code, out), (1, ""))
            self.assertEqual(err, f"{path}: line 2: bad where column or rule is expected\n")
            code, out, err = run("show", folder)
            self.assertEqual((code, out, err), (1, "", f"{os.path.join(folder, 'rule.bin')}: there is no such file\n"))
            with open(os.path.join(folder, "rule.bin"), "wb") as f:
                f.write(RULE[:-1])
            self.assertEqual(run("explain", folder), (1, "", "rule.bin: byte 0: the field runs past its end, 2\n"))
            self.assertEqual(run()[0], 2)


def each_change(data):
    """The bytes with each byte set to each other value."""
    for i in range(len(data)):
        for b in set(range(256)) - {data[i]}:
            yield data[:i] + bytes([b]) + data[i + 1:]


def run_all():
    """Runs the tests of the five files; those that need the library only if there is one."""
    names = ["__main__", "test_casetext_check", "test_casetext_casts", "test_casetext_nulls"]
    loader = unittest.defaultTestLoader
    with_library = loader.loadTestsFromName("test_casetext_run")
    suite = loader.loadTestsFromNames(names)
    if os.environ.get("TEMBALKU_LIBRARY"):
        suite.addTest(with_library)
    result = unittest.TextTestRunner().run(suite)
    if not os.environ.get("TEMBALKU_LIBRARY"):
        print(f"not run: {with_library.countTestCases()} tests of run and compare (TEMBALKU_LIBRARY doesn't name the static library)")
    return not result.wasSuccessful()


if __name__ == "__main__":
    sys.exit(run_all())
