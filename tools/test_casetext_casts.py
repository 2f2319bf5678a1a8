#!/usr/bin/env python3
"""test_casetext_casts.py: tests of casetext.py's casts: which pairs there are, and those between floats and integers at their edges: over a
column and a constant, in try-cast and in ELSE. Run by test_casetext.py; with the library too, through test_casetext_run.py."""
import os
import sys
import unittest

sys.dont_write_bytecode = True
sys.path.insert(0, os.path.dirname(os.path.abspath(__file__)))
from dealer.rows import at_row, row_of  # noqa: E402
from dealer.source import Source, SourceRefused  # noqa: E402
from dealer.text import parse  # noqa: E402
from dealer.tree import TYPES, type_of  # noqa: E402

# a float, what it is as int32 and as int64 (None: it doesn't fit)
FLOATS = [
    ("0.0", 0, 0), ("-0.0", 0, 0), ("5e-324", 0, 0), ("-5e-324", 0, 0), ("2.225073858507201e-308", 0, 0), ("-2.225073858507201e-308", 0, 0),
    ("0.9999999999999999", 0, 0), ("-0.9999999999999999", 0, 0), ("1.0", 1, 1), ("-1.0", -1, -1), ("1.9999999999999998", 1, 1),
    ("-1.9999999999999998", -1, -1), ("2.5", 2, 2), ("-3.5", -3, -3), ("12.4", 12, 12),
    ("2147483647.0", 2147483647, 2147483647), ("2147483647.9", 2147483647, 2147483647), ("2147483647.9999998", 2147483647, 2147483647),
    ("2147483648.0", None, 2147483648), ("2147483648.5", None, 2147483648), ("4294967296.0", None, 4294967296),
    ("-2147483648.0", -2147483648, -2147483648), ("-2147483648.9", -2147483648, -2147483648), ("-2147483648.9999995", -2147483648, -2147483648),
    ("-2147483649.0", None, -2147483649), ("-4294967296.0", None, -4294967296),
    ("4503599627370495.5", None, 4503599627370495), ("-4503599627370495.5", None, -4503599627370495), ("9007199254740994.0", None, 9007199254740994),
    ("9.223372036854775e+18", None, 2 ** 63 - 1024), ("-9.223372036854775e+18", None, -2 ** 63 + 1024), ("-9.223372036854776e+18", None, -2 ** 63),
    ("9.223372036854776e+18", None, None), ("-9.223372036854778e+18", None, None), ("1.8446744073709552e+19", None, None),
    ("1.7976931348623157e+308", None, None), ("-1.7976931348623157e+308", None, None), ("0x7ff0000000000000", None, None),
    ("0xfff0000000000000", None, None), ("0x7ff8000000000000", None, None), ("0xfff8000000000000", None, None),
    ("0x7ff0000000000001", None, None), ("0xffffffffffffffff", None, None)]

# an int64 and the bits of its float
NEAREST = [
    (0, 0), (1, 0x3ff0000000000000), (-1, 0xbff0000000000000), (2 ** 31, 0x41e0000000000000), (-2 ** 31 - 1, 0xc1e0000000200000),
    (2 ** 53 - 1, 0x433fffffffffffff), (2 ** 53, 0x4340000000000000), (2 ** 53 + 1, 0x4340000000000000), (2 ** 53 + 2, 0x4340000000000001),
    (2 ** 53 + 3, 0x4340000000000002), (-2 ** 53 - 1, 0xc340000000000000), (-2 ** 53 - 3, 0xc340000000000002),
    (2 ** 54 + 2, 0x4350000000000000), (2 ** 54 + 3, 0x4350000000000001), (2 ** 54 + 6, 0x4350000000000002), (-2 ** 54 - 6, 0xc350000000000002),
    (2 ** 63 - 1024, 0x43dfffffffffffff), (2 ** 63 - 513, 0x43dfffffffffffff), (2 ** 63 - 512, 0x43e0000000000000),
    (2 ** 63 - 1, 0x43e0000000000000), (-2 ** 63 + 513, 0xc3dfffffffffffff), (-2 ** 63 + 512, 0xc3e0000000000000), (-2 ** 63, 0xc3e0000000000000)]

# from, to, and each edge's value and what it is
EDGES = [("float64", "int32", [(value, small) for value, small, _ in FLOATS]), ("float64", "int64", [(value, large) for value, _, large in FLOATS]),
         ("int64", "float64", [(str(n), bits) for n, bits in NEAREST])]

LISTED = {"boolean": "boolean int32 int64", "int32": "boolean int32 int64 float64", "int64": "boolean int32 int64 float64",
          "float64": "int32 int64 float64", "utf8": "utf8"}
ONES = {"boolean": "(boolean true)", "int32": "(int32 1)", "int64": "(int64 1)", "float64": "(float64 1.0)", "utf8": '(utf8 "a")'}
NAN = "0x7ff8000000000000"


def named(value):
    """A float as a refusal says it."""
    names = {"0x7ff0000000000000": "infinity", "0xfff0000000000000": "-infinity"}
    return f"{value} ({names.get(value, 'NaN')})" if value.startswith("0x") else value


def over(kind, values, then):
    """A text whose rule, in line 3, gives an expression over a column a of some values."""
    return f"rows {len(values)}\ncolumn a {kind} null {' '.join(values)}\nrule (case (when (boolean true) (then {then})))"


def with_else(to, other):
    """A text's rules that take an ELSE under a THEN of a type: with one branch, with two, with a base, and in a CASE inside."""
    branch = f"(when (boolean false) (then {ONES[to]}))"
    based = f"(base (int32 3)) (when (int32 1) (then {ONES[to]})) (when (int32 2) (then {ONES[to]}))"
    return [f"rule (case {branches} (else {other}))" for branches in (branch, branch + branch, based)] + [
        f"rule (case {branch} (else (case (when (boolean true) (then {other})))))"]


class Casts(unittest.TestCase):
    """By the rows of this tool; test_casetext_run.py holds the same texts against the library."""

    def entries(self, source):
        source.check()
        return [at_row(source.rule, row_of(source.table, i)) for i in range(source.table[0])]

    def answer(self, text):
        """The type and entries of a text's answer, or the sentence with which it is refused."""
        source = Source("a", *parse(text))
        try:
            return type_of(source.rule), self.entries(source)
        except SourceRefused as refused:
            return str(refused)

    def gives(self, text, to, wants):
        self.assertEqual(self.answer(text), (TYPES[to], wants), text)

    def refuses(self, text, sentence):
        self.assertEqual(self.answer(text), "a: " + sentence, text)

    def test_column(self):
        """Those that fit, and a null; each other is refused with its row."""
        for kind, to, edges in EDGES:
            cast = f"(cast {to} (col a))"
            fit = [edge for edge in edges if edge[1] is not None] + [("null", None)]
            self.gives(over(kind, [value for value, _ in fit], cast), to, [want for _, want in fit])
            for value in [value for value, want in edges if want is None]:
                self.refuses(over(kind, ["null", "1.0", value, NAN], cast), f"line 3: row 2: {named(value)} doesn't fit {to}, 15 (CAST(a AS {to}))")

    def test_constant(self):
        """One that doesn't fit is refused, read or not, over no rows too."""
        for kind, to, edges in EDGES:
            for value, want in edges:
                cast = f"(cast {to} ({kind} {value}))"
                if want is not None:
                    self.gives(over("int32", ["1"], cast), to, [want])
                    continue
                sentence = f"{named(value)} doesn't fit {to}, 8 (CAST({value} AS {to}))"
                self.refuses(over("int32", [], cast), "line 3: " + sentence)
                self.refuses(over("int32", ["1"], f"(trycast boolean {cast})"), "line 3: " + sentence)
                self.refuses(f"rows 1\nrule (case (when (boolean true) (then (int32 1))) (else {cast}))", "line 2: " + sentence)

    def test_try_cast(self):
        """Null where the cast would fail."""
        for kind, to, edges in EDGES:
            self.gives(over(kind, [value for value, _ in edges] + ["null"], f"(trycast {to} (col a))"), to, [want for _, want in edges] + [None])
            for value, want in edges:
                self.gives(over("int32", ["1"], f"(trycast {to} ({kind} {value}))"), to, [want])

    def test_else(self):
        """An ELSE is try-cast to the THENs' type, a constant too."""
        for kind, to, edges in EDGES:
            table = over(kind, [value for value, _ in edges] + ["null"], "").split("rule")[0]
            for rule in with_else(to, "(col a)"):
                self.gives(table + rule, to, [want for _, want in edges] + [None])
            for value, want in edges:
                for rule in with_else(to, f"({kind} {value})"):
                    self.gives("rows 1\n" + rule, to, [want])

    def test_below(self):
        """A cast that fails below a try-cast or an ELSE still does."""
        sentence = f"line 3: row 1: {named(NAN)} doesn't fit int32, 15 (CAST(a AS int32))"
        for outer in ("trycast int64", "trycast float64", "trycast int32", "trycast boolean"):
            self.refuses(over("float64", ["1.5", NAN], f"({outer} (cast int32 (col a)))"), sentence)
        table = over("float64", ["1.5", NAN], "").split("rule")[0]
        for rule in with_else("int64", "(cast int32 (col a))"):
            self.refuses(table + rule, sentence)

    def test_path(self):
        """Only what a row reads can fail: in a base, a WHEN, a comparison and a THEN."""
        table = f"rows 2\ncolumn a float64 1.5 {NAN}\ncolumn b boolean true false\n"
        cast, sentence = "(cast int32 (col a))", f"line 4: row 1: {named(NAN)} doesn't fit int32, 15 (CAST(a AS int32))"
        for parts in (f"(base {cast}) (when (int32 1) (then (int32 5)))", f"(base (int32 1)) (when {cast} (then (int32 5)))",
                      f"(when (less {cast} (int32 2)) (then (int32 5)))", f"(when (boolean true) (then {cast}))"):
            self.refuses(f"{table}rule (case {parts})", sentence)
        self.gives(f"{table}rule (case (when (col b) (then {cast})) (else (int32 7)))", "int32", [1, 7])
        self.gives(f"{table}rule (case (when (not (col b)) (then (int32 7))) (when (less {cast} (int32 2)) (then (int32 5))))", "int32", [5, 7])

    def test_chain(self):
        """Casts one in another."""
        self.gives(over("float64", ["3000000000.5", "-0.5"], "(cast float64 (cast int64 (col a)))"), "float64", [0x41e65a0bc0000000, 0])
        self.gives(over("int64", [str(2 ** 53 + 1)], "(cast int64 (cast float64 (col a)))"), "int64", [2 ** 53])
        self.refuses(over("int64", ["5", str(2 ** 63 - 1)], "(cast int64 (cast float64 (col a)))"),
                     "line 3: row 1: 9.223372036854776e+18 doesn't fit int64, 15 (CAST(CAST(a AS float64) AS int64))")
        self.gives(over("float64", ["-0.5", "1.0"], "(cast boolean (cast int32 (col a)))"), "boolean", [False, True])

    def test_kept(self):
        """A float cast to its own type keeps its bits."""
        bits = [0x7ff0000000000001, 0xffffffffffffffff, 1 << 63, 1]
        for word in ("cast", "trycast"):
            self.gives(over("float64", [f"0x{n:016x}" for n in bits], f"({word} float64 (col a))"), "float64", bits)

    def test_pairs(self):
        """Every pair of types: listed, or 7; over a column and a constant, and under an ELSE."""
        for kind, to in [(kind, to) for kind in TYPES for to in TYPES]:
            listed = to in LISTED[kind].split()
            for child, said in (("(col a)", "a"), (ONES[kind], ONES[kind].split()[1].replace('"', "'").rstrip(")"))):
                for word, name in (("cast", "CAST"), ("trycast", "TRY_CAST")):
                    text = over(kind, [], f"({word} {to} {child})")
                    if listed:
                        self.gives(text, to, [])
                    else:
                        self.refuses(text, f"line 3: {name}({kind} AS {to}): types don't go together, 7 ({name}({said} AS {to}))")
                text = f"rows 0\ncolumn a {kind} null\nrule (case (when (boolean true) (then {ONES[to]})) (else {child}))"
                if listed:
                    self.gives(text, to, [])
                else:
                    self.refuses(text, f"line 3: ELSE is {kind}, THEN 1 is {to}: types don't go together, 7 ({said})")


if __name__ == "__main__":
    unittest.main()
