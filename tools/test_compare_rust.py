#!/usr/bin/env python3
"""Tests of what compare_rust.py is made of, without the Rust and the library: the answer's layout, the stored records, what counts as
agreeing and as explained, the classes, the generator, shrinking and the builder's sequences."""
import os
import random
import sys
import unittest

sys.dont_write_bytecode = True
HERE = os.path.dirname(os.path.abspath(__file__))
sys.path.insert(0, HERE)
import case_classes as cc  # noqa: E402
import compare_builder  # noqa: E402
import compare_rust as cr  # noqa: E402
import nullability  # noqa: E402
import rule_generator as rg  # noqa: E402
from casetext import parse, read_rule, read_table, rule_bytes  # noqa: E402
from dealer.rows import Unfit, at_row  # noqa: E402
from shrinking import children, shrunk, with_children  # noqa: E402


def made(text):
    return rg.Case(*parse(text), 0)


def classes(text):
    c = made(text)
    return cc.classes(c.rule, c.table)


def said(entries, read=258, strategy=5, nullable="0", projection=()):
    return cr.Said(read, strategy, nullable, list(projection), entries)


def random_cases(count, seed=5):
    rng = random.Random(seed)
    return [rg.case(rng, theme, False) for theme in ("inside",) + rg.THEMES for _ in range(count)]


class Told:
    """Programs that say of each case what they are told to; `tried` with a try-cast above ELSE."""

    def __init__(self, port, rust, tried=None):
        self.port, self.said, self.tried = port, rust, tried or rust

    def both(self, cases):
        return [self.port] * len(cases), self.rust(cases)

    def rust(self, cases, *flags):
        return [self.tried if "--try-else" in flags else self.said] * len(cases)


class Layout(unittest.TestCase):
    """Listings as the answer's bytes, by hand from document 01."""

    def answer(self, text, nullable=1):
        return cr.answer(text.split("\n"), nullable).hex(" ")

    def test_numbers(self):
        self.assertEqual(self.answer("rows 2 type 2 nullable 0\n0 1\n1 -2", 0), "02 02 00 02 00 03 00 00 04 08 00 01 00 00 00 fe ff ff ff")
        self.assertEqual(self.answer("rows 1 type 3 nullable 0\n0 -9223372036854775808", 0),
                         "02 02 00 03 00 03 00 00 04 08 00 00 00 00 00 00 00 00 80")
        self.assertEqual(self.answer("rows 2 type 4 nullable 1\n0 8000000000000000\n1 null"),
                         "02 02 00 04 01 03 01 00 01 04 10 00 00 00 00 00 00 00 00 80 00 00 00 00 00 00 00 00")

    def test_booleans(self):
        lines = ["rows 9 type 1 nullable 1"] + [f"{i} {w}" for i, w in enumerate("true null false true true false false true true".split())]
        self.assertEqual(cr.answer(lines, 1).hex(" "), "02 02 00 01 01 03 02 00 fd 01 04 02 00 99 01")

    def test_text(self):
        self.assertEqual(self.answer("rows 3 type 5 nullable 1\n0 t6162\n1 null\n2 t"),
                         "02 02 00 05 01 03 01 00 05 05 10 00 00 00 00 00 02 00 00 00 02 00 00 00 02 00 00 00 04 02 00 61 62")
        self.assertEqual(self.answer("rows 0 type 5 nullable 0", 0), "02 02 00 05 00 03 00 00 05 04 00 00 00 00 00 04 00 00")

    def test_too_long(self):
        self.assertEqual(cr.answer(["rows 1 type 5 nullable 0", "0 t" + "61" * 65536], 0), cr.LONG)

    def test_records(self):
        c = made("rows 1\ncolumn a boolean true\ncolumn b int32 7\nrule\n(case (when (col a) (then (col b))))")
        rust = said(bytes.fromhex("0202000200030000040400") + b"\7\0\0\0", strategy=3, nullable="1", projection=[0, 1])
        rule, table = rule_bytes(c.rule), rg.table_bytes(c)
        lengths = [int.from_bytes(cr.run_record(c, rust)[i:i + 4], "little") for i in range(0, 20, 4)]
        self.assertEqual(lengths, [len(rule), len(table), 65536, 65536, 21])
        self.assertEqual(cr.run_record(c, rust)[20:], rule + table + bytes.fromhex("00 0202000201 0602000000 030000040400 07000000"))
        null = said(bytes.fromhex("020200020003010000040400") + bytes(4), nullable="1")
        self.assertEqual(cr.run_record(c, null)[20:], rule + table + bytes.fromhex("00 0202000201 0602000100 03010000 040400 00000000"))
        self.assertEqual(cr.run_record(c, said("failed"))[20:], rule + table + b"\x0f")
        self.assertEqual(cr.rule_record(c, rust), len(rule).to_bytes(2, "little") + rule + bytes([0, 3, 1, 2, 2, 0, 1]))


class Comparing(unittest.TestCase):
    def test_answers_are_read(self):
        rust = cr.rust_answers("strategy 5|nullable 1|projection 0 3|rows 1 type 2 nullable 1|0 5|.|strategy 3|nullable 0|projection|failed|.".split("|"))
        port = cr.port_answers(["258 261 257 258 0 3", "0202000201" "0602000000" "030000040400" "05000000", "65536 256 65536",
                                "259 259 256 256", "refused 15", "256 0"])
        self.assertEqual([r._replace(read=0) for r in rust[:1]], [p._replace(read=0, nulls=None) for p in port[:1]])
        self.assertEqual([p.nulls for p in port], [(bytes.fromhex("0602000000"), [65536, 256, 65536]), (b"", [256, 0])])
        self.assertTrue(cr.entries_agree(port[1], rust[1]) and cr.answers_agree(port[1], rust[1]))
        self.assertEqual((rust[1].strategy, rust[1].nullable, rust[1].projection), (3, "0", []))

    def test_answer_is_the_rules(self):
        """The answer's nullable byte and type are those that are read off the rule."""
        for about in ("258 261 256 256", "259 261 257 256"):
            with self.assertRaises(RuntimeError):
                cr.port_answers([about, "0202000201" "0602000000" "030000040400" "05000000", "256 65536"])

    def test_null_counts(self):
        """The counts of the columns and of the answer, held against the null entries; spare bits don't count."""
        c = made("rows 3\ncolumn a int32 null 1 null null\ncolumn b boolean true true true\nrule\n(case (when (col b) (then (col a))))")
        entries = bytes.fromhex("0202000200" "03010005" "040c00") + bytes(12)
        right = said(entries)._replace(nulls=(cr.count_field(1), [65538, 65536, 256, 65537]))
        self.assertTrue(cr.nulls_agree(c, right))
        refused = said("refused 15")._replace(nulls=(b"", [65538, 65536, 256, 0]))
        self.assertTrue(cr.nulls_agree(c, refused))
        for count, told in ((b"", [65538, 65536, 256, 65537]), (cr.count_field(6), [65538, 65536, 256, 65537]), (b"\6\1\0\1", [65538, 65536, 256, 65537]),
                            (cr.count_field(1), [65538, 65536, 256, 65538]), (cr.count_field(1), [65537, 65536, 256, 65537]),
                            (cr.count_field(1), [65538, 256, 65537]), (cr.count_field(1), [65538, 65536, 65537])):
            self.assertFalse(cr.nulls_agree(c, right._replace(nulls=(count, told))))
        self.assertFalse(cr.nulls_agree(c, refused._replace(nulls=(b"", [65538, 65536, 256, 65536]))))

    def test_count_is_cut(self):
        """An answer without its count, whatever stands there; one that has none stays."""
        head, rest = bytes.fromhex("0202000200"), bytes.fromhex("030000" "040000")
        for count in (b"", cr.count_field(0), cr.count_field(300), b"\6\0\0", b"\6\3\0abc"):
            self.assertEqual(cr.cut_count(head + count + rest), (count, head + rest))

    def test_failures(self):
        self.assertTrue(cr.entries_agree(said("refused 15"), said("failed")))
        for port, rust in (("refused 15", "panicked"), ("refused 16", "failed"), (b"", "failed"), ("refused 15", b""), (b"a", b"b")):
            self.assertFalse(cr.entries_agree(said(port), said(rust)))

    def test_explained(self):
        port, other, failed = said(b"aaaaa"), said(b"bbbbb"), said("failed")
        self.assertTrue(cr.explained([cc.UNCAST_ELSE], port, other, port))
        self.assertTrue(cr.explained([cc.NEGATED], port, failed, port))
        self.assertTrue(cr.explained([cc.NO_ROWS], port, failed, failed))
        self.assertTrue(cr.explained([cc.CONSTANT_CAST], said("refused 8"), other, other))
        # the Rust without the difference must agree with the port
        self.assertFalse(cr.explained([cc.UNCAST_ELSE], port, other, other))
        self.assertFalse(cr.explained([cc.NEGATED], said("refused 15"), port, port))
        for name in (cc.INSIDE, cc.OUTSIDE, cc.NOT_UTF8):
            self.assertFalse(cr.explained([name], port, other, port))
        self.assertFalse(cr.explained([cc.NO_ROWS], port, other, other))
        self.assertFalse(cr.explained([cc.CONSTANT_CAST], port, other, port))

    def test_tally(self):
        """What a run calls unexplained: entries, answers, nullability, a refusal that is missing, and what one side alone takes."""
        plain = made("rows 1\ncolumn a boolean true\nrule\n(case (when (col a) (then (col a))) (else (col a)))")
        eight = made("rows 1\nrule\n(case (when (boolean false) (then (cast int32 (int64 2147483648)))))")
        one, two = said(b"aaaaa", 257), said(b"bbbbb", 257)
        for c, port, rust, want in ((plain, one, one, []), (plain, two, one, ["entries"]), (plain, one._replace(strategy=3), one, ["answers"]),
                                    (plain, one._replace(projection=[1]), one, ["answers"]), (plain, one._replace(nullable="1"), one, ["nullable", "mark"]),
                                    (plain, one, one._replace(nullable="1"), ["nullable"]),
                                    (plain, said("refused 13"), one, ["reading"]), (plain, said("refused 7", 7), one, ["reading"]),
                                    (plain, said("refused 8", 8), one, ["reading"]), (plain, one, said("unreadable"), ["reading"]),
                                    (plain, one._replace(nulls=(b"", [])), one, ["nulls"]),
                                    (eight, said("refused 8", 8), one, []), (eight, one, one, ["entries"]),
                                    (eight, said("refused 15"), said("failed"), ["entries"])):
            tally = cr.Tally(Told(port, rust))
            tally.add([c])
            self.assertEqual([what for _, what in tally.unexplained], want)

    def test_marks(self):
        """Where an ELSE's try-cast can fail, the Rust with the try-cast written must say what the port says."""
        for named, port, tried, want in (([cc.ELSE_CAN_FAIL], "1", "1", True), ([cc.ELSE_CAN_FAIL], "1", "0", False), ([cc.ELSE_CAN_FAIL], "0", "1", False),
                                         ([cc.ELSE_CAN_FAIL, cc.CASE_IN_WHEN], "0", "1", True), ([cc.NEGATED_IN_WHEN], "0", "1", True),
                                         ([cc.COMPARED], "1", "1", False)):
            self.assertEqual(cr.mark_explained(named, said(b"", nullable=port), said(b"", nullable=tried)), want)
        c = made("rows 0\ncolumn a boolean\nrule\n(case (when (col a) (then (int32 1))) (else (int64 5)))")
        one, null = said(b"aaaaa"), said(b"aaaaa", nullable="1")
        for port, rust, tried, want in ((null, one, null, []), (null, one, one, ["nullable"]), (one, one, null, ["mark"]), (null, null, null, [])):
            tally = cr.Tally(Told(port, rust, tried))
            tally.add([c])
            self.assertEqual([what for _, what in tally.unexplained], want)

    def test_still_differs(self):
        """What shrinking goes by."""
        c = made("rows 1\ncolumn a boolean true\nrule\n(case (when (col a) (then (col a))) (else (col a)))")
        one = said(b"aaaaa", 257)
        for what, port, rust, want in (("entries", said(b"bbbbb", 257), one, True), ("entries", one, one, False), ("reading", said("refused 8", 8), one, True),
                                       ("reading", one, one, False), ("reading", said("refused 7", 7), said("unreadable"), False),
                                       ("entries", said("refused 7", 7), one, False), ("answers", one._replace(strategy=1), one, True),
                                       ("nulls", one._replace(nulls=(b"", [])), one, True), ("nulls", one, one, False),
                                       ("mark", one._replace(nullable="1"), one, True), ("mark", one, one, False)):
            self.assertEqual(cr.differs_so(Told(port, rust), what, "")([c]), [want])
        for rust, what, named, want in ((one, "nullable", cc.COMPARED, True), (one._replace(nullable="1"), "nullable", cc.COMPARED, False),
                                        (one, "nullable", cc.ELSE_CAN_FAIL, False), (one, "nullability: the Rust 0, the port 1", cc.COMPARED, False)):
            self.assertEqual(cr.differs_so(Told(one._replace(nullable="1"), rust), what, named)([c]), [want])


class Classes(unittest.TestCase):
    def test_uncast_else(self):
        rule = "rule\n(case (when (col a) (then (not (col a)))) (else (int32 5)))"
        self.assertEqual(classes("rows 2\ncolumn a boolean null false null\n" + rule), [cc.UNCAST_ELSE])
        self.assertEqual(classes("rows 2\ncolumn a boolean null false true\n" + rule), [cc.OUTSIDE])
        self.assertEqual(classes("rows 0\ncolumn a boolean\n" + rule), [cc.UNCAST_ELSE])
        # strategies 4 and 1 cast
        self.assertEqual(classes("rows 1\nrule\n(case (when (boolean false) (then (boolean true))) (else (int32 5)))"), [cc.OUTSIDE])

    def test_rows_that_reach(self):
        """Rows whose base is null reach the ELSE apart from the rows that no WHEN equals."""
        text = """rows 2
column a int32 null {0} 2
column b boolean {1} false
rule
(case (base (col a)) (when (int32 1) (then (boolean true)))
  (else (case (when (col b) (then (not (col b)))) (else (int32 5)))))"""
        self.assertEqual(classes(text.format("3", "true")), [cc.OUTSIDE])
        self.assertEqual(classes(text.format("null", "true")), [cc.UNCAST_ELSE])
        self.assertEqual(classes(text.format("1", "true")), [cc.UNCAST_ELSE])

    def test_no_rows(self):
        text = "rows {}\ncolumn a boolean{}\nrule\n(case (when (boolean true) (then (cast int32 (case (when (col a) (then (int64 {}))))))))"
        self.assertEqual(classes(text.format(0, "", 2 ** 31)), [cc.NO_ROWS])
        self.assertEqual(classes(text.format(0, "", 2 ** 31 - 1)), [cc.OUTSIDE])
        self.assertEqual(classes(text.format(1, " true", 2 ** 31)), [cc.OUTSIDE])

    def test_no_rows_floats(self):
        text = "rows 0\ncolumn a boolean\nrule\n(case (when (boolean true) (then (cast {} {}))))"
        case = "(case (when (col a) (then ({} {}))))"
        for target, kind, value, want in (("int32", "float64", "2147483648.0", cc.NO_ROWS), ("int32", "float64", "2147483647.9", cc.OUTSIDE),
                                          ("int64", "float64", "9223372036854775808.0", cc.NO_ROWS),
                                          ("int64", "float64", "-9223372036854775808.0", cc.OUTSIDE), ("float64", "int64", 2 ** 63 - 1, cc.OUTSIDE)):
            self.assertEqual(classes(text.format(target, case.format(kind, value))), [want])
        self.assertEqual(classes(text.format("int64", f"(cast float64 {case.format('int64', 2 ** 63 - 1)})")), [cc.NO_ROWS])

    def test_negated(self):
        text = "rows 1\ncolumn a int32 -2147483648\nrule\n(case (when (boolean true) (then {})))"
        self.assertEqual(classes(text.format("(neg (int32 -2147483648))")), [cc.NEGATED])
        self.assertEqual(classes(text.format("(neg (cast int32 (neg (int64 2147483648))))")), [cc.NEGATED])
        self.assertEqual(classes(text.format("(neg (case (when (boolean true) (then (int32 -2147483648)))))")), [cc.NEGATED])
        self.assertEqual(classes(text.format("(neg (int64 -2147483648))")), [cc.INSIDE])
        self.assertEqual(classes(text.format("(neg (cast int32 (float64 -2147483648.9)))")), [cc.NEGATED])
        self.assertEqual(classes(text.format("(neg (cast int64 (cast float64 (int64 -9223372036854775807))))")), [cc.NEGATED])
        self.assertEqual(classes(text.format("(neg (col a))")), [cc.INSIDE])

    def test_refused(self):
        text = "rows {}\nrule\n(case (when (boolean false) (then {})))"
        self.assertEqual(classes(text.format(1, "(cast int32 (int64 2147483648))")), [cc.CONSTANT_CAST])
        self.assertEqual(classes(text.format(1, "(trycast int32 (int64 2147483648))")), [cc.INSIDE])
        for value, want in (("2147483648.0", cc.CONSTANT_CAST), ("-2147483648.9", cc.INSIDE), ("0x7ff8000000000000", cc.CONSTANT_CAST)):
            self.assertEqual(classes(text.format(1, f"(cast int32 (float64 {value}))")), [want])
        long = "rows {}\nrule\n(case (when (boolean true) (then (utf8 \"%s\"))))" % ("z" * 257)
        self.assertEqual((classes(long.format(255)), classes(long.format(256))), ([cc.INSIDE], [cc.LONG_TEXT]))

    def test_text(self):
        text = "rows 1\ncolumn a utf8 {}\nrule\n(case (when (boolean true) (then (col a))))"
        self.assertEqual((classes(text.format('x"c3a9"')), classes(text.format('x"c3"'))), ([cc.INSIDE], [cc.NOT_UTF8]))

    def test_nullability(self):
        text = "rows 0\ncolumn a boolean\nrule\n(case (when {} (then (boolean true))) (else {}))"
        case = "(case (when (col a) (then (col a))))"
        for when, other, want in ((case, "(col a)", cc.CASE_IN_WHEN), ("(col a)", case, cc.COMPARED),
                                  ("(isnotnull (neg (int32 -2147483648)))", "(col a)", cc.NEGATED_IN_WHEN),
                                  ("(col a)", f"(case (when {case} (then (col a))))", cc.CASE_IN_WHEN)):
            self.assertEqual(cc.nullable_classes(made(text.format(when, other)).rule), [want])

    def test_else_can_fail(self):
        """By the types alone, wherever the CASE stands; what is left out of the comparison."""
        text = "rows 0\ncolumn a boolean\nrule\n{}"
        case = "(case (when (col a) (then ({}))) (else ({})))"
        nested = "(case (when (col a) (then (boolean true))) (else (isnotnull {})))"
        for then, other, want in (("int32 1", "int64 5", True), ("int32 1", "float64 2.0", True), ("int64 1", "float64 2.0", True),
                                  ("float64 2.0", "int64 5", False), ("int64 1", "int32 5", False), ("int32 1", "boolean true", False),
                                  ("boolean true", "int64 5", False), ("int32 1", "int32 5", False), ("int32 1", "null int64", False)):
            inner = case.format(then, other)
            for whole in (inner, nested.format(inner)):
                self.assertEqual(cc.nullable_classes(made(text.format(whole)).rule), [cc.ELSE_CAN_FAIL if want else cc.COMPARED])

    def test_casts(self):
        """Document 02's sentences on the casts between floats and integers."""
        low, high = float(-2 ** 63), float(2 ** 63)
        for f, int32, int64 in ((0.9, 0, 0), (-0.9, 0, 0), (-0.0, 0, 0), (5e-324, 0, 0), (2147483647.9, 2147483647, 2147483647),
                                (-2147483648.9, -2147483648, -2147483648), (2147483648.0, cc.FAILED, 2147483648),
                                (-2147483649.0, cc.FAILED, -2147483649), (low, cc.FAILED, -2 ** 63), (high, cc.FAILED, cc.FAILED),
                                (low - 2048, cc.FAILED, cc.FAILED), (high - 1024, cc.FAILED, 2 ** 63 - 1024), (float("nan"), cc.FAILED, cc.FAILED),
                                (float("inf"), cc.FAILED, cc.FAILED), (-float("inf"), cc.FAILED, cc.FAILED)):
            self.assertEqual([cc.converted(4, kind, cc.float_bits(f)) for kind in (2, 3)], [int32, int64])
        for n, bits in ((2 ** 53 + 1, 0x4340000000000000), (-2 ** 53 - 3, 0xc340000000000002), (2 ** 63 - 1, 0x43e0000000000000), (0, 0)):
            self.assertEqual(cc.converted(3, 4, n), bits)

    def test_cast_pairs(self):
        rule = made("rows 0\ncolumn a float64\nrule\n(case (when (boolean true) (then (trycast int32 (col a)))) (else (cast int64 (int32 1))))").rule
        self.assertEqual(cc.cast_pairs(rule), {(4, 2), (2, 3), (3, 2)})
        self.assertTrue(cc.casts_floats(rule))
        self.assertFalse(cc.casts_floats(rule[3]))

    def test_worked_out(self):
        """Nullability by the tree: document 01's sentences, and ELSE's try-cast (02, Change 5)."""
        text = "rows 0\ncolumn a boolean null\ncolumn n int32 null\nrule\n{}"
        turns, fits = "(case (when (col a) (then (int32 1))) (else (int64 5)))", "(case (when (col a) (then (int64 1))) (else (int32 5)))"
        for rule, want in ((turns, True), (fits, False), ("(case (when (col a) (then (float64 2.0))) (else (int64 5)))", False),
                           ("(case (when (col a) (then (int64 1))) (else (float64 2.0)))", True), ("(case (when (col a) (then (int32 1))))", True),
                           ("(case (base (col a)) (when (boolean true) (then (int32 1))) (else (int64 5)))", True),
                           (f"(case (when (col a) (then {turns})) (else (int32 1)))", True), (f"(case (when (col a) (then (int32 1))) (else {turns}))", True),
                           (f"(case (when (boolean false) (then {turns})) (else (int32 1)))", False),
                           (f"(case (when (isnotnull {turns}) (then (int32 1))) (else (int32 1)))", False),
                           ("(case (when (isnotnull (col n)) (then (neg (col n)))) (else (int32 1)))", False),
                           ("(case (when (isnotnull (col a)) (then (col n))) (else (int32 1)))", True),
                           ("(case (base (col a)) (when (boolean true) (then (col n))) (else (int32 1)))", True)):
            self.assertEqual(nullability.nullable(made(text.format(rule)).rule), want, rule)

    def test_meaning(self):
        """The same values as casetext.py's meaning of one row, which was written apart from it."""
        failed = 0
        for c in random_cases(150):
            rows, columns = c.table
            for i, v in enumerate(cc.Rows([col[3] for col in columns]).value(c.rule, list(range(rows)))):
                try:
                    want = at_row(c.rule, [col[3][i] for col in columns])
                except Unfit:
                    want, failed = cc.FAILED, failed + 1
                self.assertEqual((v, type(v)), (want, type(want)))
        self.assertGreater(failed, 20)


class Generator(unittest.TestCase):
    def depth(self, e):
        return 1 + max(map(self.depth, children(e)), default=0)

    def cases(self, e):
        return (e[0] == "case") + max(map(self.cases, children(e)), default=0)

    def test_limits(self):
        rng = random.Random(9)
        for c in random_cases(200) + [rg.limit(rng) for _ in range(100)]:
            self.assertLessEqual(self.depth(c.rule), 8)
            self.assertLessEqual(self.cases(c.rule), 3)
            self.assertLessEqual(len(rule_bytes(c.rule)), 4096)
            self.assertLessEqual(len(rg.table_bytes(c)), 65536)
            self.assertLessEqual(len(c.table[1]), 16)

    def test_casts(self):
        """The listed pairs and no others."""
        pairs = set().union(*(cc.cast_pairs(c.rule) for c in random_cases(300)))
        listed = {(k, k) for k in rg.KINDS} | {(a, b) for kinds in ((1, 2, 3), (2, 3, 4)) for a in kinds for b in kinds}
        self.assertEqual(pairs, listed)

    def test_float_ends(self):
        """Floats that fit each integer's type and ones that don't, whose casts fail in some cases and answer in others."""
        for kind in (2, 3):
            self.assertEqual({cc.converted(4, kind, b) is cc.FAILED for b in rg.ENDS}, {True, False})
        failed, answered = 0, 0
        for c in random_cases(100):
            if cc.casts_floats(c.rule) and c.table[0] > 0:
                values = cc.Rows([col[3] for col in c.table[1]]).value(c.rule, list(range(c.table[0])))
                failed, answered = failed + (cc.FAILED in values), answered + (cc.FAILED not in values)
        self.assertGreater(failed, 10)
        self.assertGreater(answered, 50)

    def test_ends(self):
        rng = random.Random(3)
        rules, tables, rows, deep = (set() for _ in range(4))
        for _ in range(150):
            c = rg.limit(rng)
            rules.add(len(rule_bytes(c.rule)))
            tables.add(len(rg.table_bytes(c)))
            rows.add((c.table[0], len(c.table[1])))
            deep.add((self.depth(c.rule), self.cases(c.rule)))
        self.assertTrue(4096 in rules and 65536 in tables and (512, 16) in rows and (8, 3) in deep)

    def test_inside(self):
        rng, seen = random.Random(4), set()
        for _ in range(1500):
            c = rg.case(rng, "inside", True)
            named = cc.classes(c.rule, c.table)
            self.assertIn(named, ([cc.INSIDE], [cc.CONSTANT_CAST]))
            seen.add((cc.strategy(c.rule), cc.kind_of(c.rule)))
        self.assertEqual(len(seen), 30)

    def test_no_table(self):
        """Keys beside an ELSE that is no literal, or one of another type."""
        found = set()
        for c in random_cases(400):
            for e in cc.nodes(c.rule):
                if e[0] == "case" and e[1] is not None and len(e[2]) > 1 and all(x[0] == "literal" for b in e[2] for x in b) and cc.else_of(e):
                    found.add((e[3][0] == "literal", cc.other_type(e), cc.strategy(e)))
        self.assertLessEqual({(True, True, 2), (False, False, 2), (True, False, 6)}, found)

    def compared(self, when):
        """The column that a WHEN compares with a literal, if it does."""
        columns = [x for x in children(when) if x[0] == "col"]
        words = sorted(x[0] for x in children(when))
        return columns[0] if when[0] in ("equal", "less") and words == ["col", "literal"] else None

    def test_ladders(self):
        """Several WHENs that compare one column with literals, less among them."""
        found = 0
        for c in random_cases(200):
            for e in cc.nodes(c.rule):
                if e[0] == "case" and e[1] is None and len(e[2]) > 1:
                    columns = {self.compared(w) for w, _ in e[2]}
                    found += len(columns) == 1 and None not in columns and any(w[0] == "less" for w, _ in e[2])
        self.assertGreater(found, 20)

    def test_junk(self):
        """Spare bits, and what stands under nulls, change the bytes and not the table."""
        changed = 0
        for c in random_cases(60):
            plain, junk = (rg.table_bytes(c._replace(junk=n)) for n in (0, 77))
            self.assertEqual(read_table(plain), read_table(junk))
            self.assertEqual(read_rule(rule_bytes(c.rule)), c.rule)
            changed += plain != junk
        self.assertGreater(changed, 100)


class Shrinking(unittest.TestCase):
    def test_children(self):
        for c in random_cases(50):
            for e in cc.nodes(c.rule):
                self.assertEqual(with_children(e, children(e)), e)

    def test_smallest(self):
        """A rule that negates a column at a row where it is 7."""
        def shows(c):
            found = [e for e in cc.nodes(c.rule) if e[0] == "neg" and e[1][0] == "col"]
            return any(7 in c.table[1][e[1][1]][3] for e in found)
        c = next(c for c in random_cases(400) if shows(c) and c.table[0] > 3 and len(c.table[1]) > 2)
        small = shrunk(c, lambda cases: [shows(d) for d in cases])
        self.assertTrue(shows(small))
        self.assertEqual((small.table[0], len(small.table[1]), len(small.rule[2]), small.rule[3]), (1, 1, 1, None))
        self.assertLess(len(rule_bytes(small.rule)), 25)


class Builder(unittest.TestCase):
    def test_refusals(self):
        for want, sequence in ((0, (3, [([0, 2], [1, 0]), ([], [])])), (19, (3, [([5, 2], [1])])), (18, (3, [([0, 3], [1, 1])])),
                               (18, (3, [([1, 1], [1, 1])])), (18, (2, [([1, 0], [1, 1])])), (21, (2, [([0], [1]), ([0, 1], [1, 1])])),
                               (21, (2, [([0, 1], [1, 1]), ([], [])])), (20, (3, [([0, 1], [1, 1]), ([1], [1])])), (10, (513, [])), (0, (512, []))):
            self.assertEqual(compare_builder.first_refusal(sequence), want)

    def test_sequences(self):
        rng = random.Random(2)
        found = {compare_builder.first_refusal(compare_builder.sequence(rng)) for _ in range(3000)}
        self.assertEqual(found, {0, 10, 18, 19, 20, 21})

    def test_bytes(self):
        self.assertEqual(compare_builder.sequence_bytes((3, [([0, 2], [7, 256])])).hex(" "), "03 00 01 00 02 00 02 00 00 00 02 00 07 00 00 01")


if __name__ == "__main__":
    unittest.main()
