#!/usr/bin/env python3
"""test_casetext_run.py: tests of casetext.py's run and compare, and of its check against the library. Run by test_casetext.py, if
TEMBALKU_LIBRARY names the static library.

test_casetext_run.py N [SEED]    holds the check against the library on N texts and N mutated rules and tables, and prints how many
                                 were refused with which number
"""
import ctypes
import os
import random
import re
import sys
import unittest
from collections import Counter

sys.dont_write_bytecode = True
sys.path.insert(0, os.path.dirname(os.path.abspath(__file__)))
import test_casetext_casts  # noqa: E402
import test_casetext_nulls  # noqa: E402
from dealer.checking import check_bytes  # noqa: E402
from dealer.evaluation import Disagreement, evaluated  # noqa: E402
from dealer.library import Library  # noqa: E402
from dealer.reading import Refused, read_rule, read_table  # noqa: E402
from dealer.source import Source, SourceRefused  # noqa: E402
from dealer.text import TextError, parse  # noqa: E402
from dealer.words import sql, text_of  # noqa: E402
from test_casetext import TARGETS, run, shown, stored  # noqa: E402
from test_casetext_check import InFolder  # noqa: E402

LIBRARY = os.environ.get("TEMBALKU_LIBRARY")


# ---- texts with slips ----

VALUES = {1: [True, False], 2: [0, 1, -1, 5, 2 ** 31 - 1, -2 ** 31], 3: [0, 1, 5, 2 ** 31 - 1, 2 ** 31, -2 ** 31 - 1, -2 ** 63],
          4: [0, 1 << 63, 0x3ff0000000000000, 0xc00c000000000000, 0x41dfffffffffffff, 0x41e0000000000000, 0x7ff8000000000001,
              0xfff8000000000000, 0x7ff0000000000000],
          5: [b"", b"a", b"ab", "b\u00e9".encode(), b"boat", b"buoy"]}
# from which types a cast to a type is listed
SOURCES = {1: [1, 2, 3, 3], 2: [1, 2, 3, 3, 4, 4], 3: [1, 2, 3, 4, 4], 4: [2, 3, 3, 4], 5: [5]}


class Maker:
    """Makes rules and tables that mostly fit, with a slip now and then."""

    def __init__(self, rng, slips):
        self.rng, self.slips = rng, slips
        self.marks = [(rng.randint(1, 5), rng.randint(0, 1)) for _ in range(rng.choice([0, 2, 4, 6, 8]))]

    def slip(self, often=1.0):
        return self.rng.random() < self.slips * often

    def value(self, kind):
        return self.rng.choice(VALUES[kind])

    def kind(self, kind):
        return self.rng.randint(1, 5) if self.slip() else kind

    def literal(self, kind):
        if self.slip(0.1):
            return ("literal", 5, b"x" * self.rng.choice([200, 1500, 4090]))
        return ("literal", kind, None if self.rng.random() < 0.1 else self.value(kind))

    def column(self, kind):
        fitting = [i for i, mark in enumerate(self.marks) if mark[0] == kind]
        if self.slip(0.5):
            return ("col", self.rng.choice([0, 1, 2, 17, 255]), kind, self.rng.randint(0, 1))
        return ("col", (i := self.rng.choice(fitting))) + self.marks[i] if fitting else self.literal(kind)

    def boolean(self, depth):
        word = self.rng.choice(["not", "isnotnull", "equal", "less"])
        if word == "not":
            return ("not", self.expr(1, depth - 1))
        kind = self.rng.randint(1, 5)
        if word == "isnotnull":
            return ("isnotnull", self.expr(kind, depth - 1))
        return (word, self.expr(kind, depth - 1), self.expr(kind, depth - 1))

    def expr(self, kind, depth):
        kind = self.kind(kind)
        choice = self.rng.random()
        if depth <= 1 and not self.slip(0.2) or choice < 0.3:
            return self.column(kind) if self.rng.random() < 0.6 else self.literal(kind)
        if choice < 0.45:
            return self.case(kind, depth)
        if choice < 0.65 and kind != 5:
            return (self.rng.choice(["cast", "cast", "trycast"]), kind, self.expr(self.rng.choice(SOURCES[kind]), depth - 1))
        if choice < 0.8 and kind in (2, 3, 4):
            return ("neg", self.expr(kind, depth - 1))
        return self.boolean(depth) if kind == 1 else self.column(kind)

    def count(self):
        if self.slip(0.5):
            return self.rng.choice([0, 31, 32, 33, 100])
        return self.rng.choice([1, 1, 2, 3])

    def case(self, kind, depth):
        base_kind = self.rng.randint(1, 5) if self.rng.random() < 0.4 else None
        base = None if base_kind is None else self.expr(base_kind, depth - 1)
        count = self.count()
        below = depth - 1 if count < 5 else 1
        branches = [(self.expr(base_kind or 1, below), self.expr(kind, below)) for _ in range(count)]
        other = self.rng.choice(SOURCES[kind]) if self.rng.random() < 0.3 else kind
        return ("case", base, branches, self.expr(other, depth - 1) if self.rng.random() < 0.6 else None)

    def table(self):
        rows = self.rng.choice([0, 1, 2, 3, 5, 9]) if not self.slip(0.2) else self.rng.choice([511, 512, 513, 600])
        marks = list(self.marks)
        if self.slip(0.2):
            marks += [(self.rng.randint(1, 5), 1)] * self.rng.choice([1, 10, 15])
        columns = []
        for i, (kind, nullable) in enumerate(marks):
            kind = self.kind(kind) if self.slip(0.3) else kind
            share = 0.2 if nullable != self.slip(0.5) else 0
            values = [None if self.rng.random() < share else self.value(kind) for _ in range(rows)]
            columns.append((f"c{i}", kind, self.rng.randint(0, 1) if self.slip(0.3) else nullable, values))
        return rows, columns


WORD = re.compile(r"\b(boolean|int32|int64|float64|utf8|null|cast|trycast|equal|less|not|neg|isnotnull|c[0-9]+|rows [0-9]+)\b")
WORDS = ["boolean", "int32", "int64", "float64", "utf8", "null", "cast", "trycast", "equal", "less", "not", "isnotnull", "c0", "c1", "c2"]


def changed_text(rng, text):
    """The text with one of its words changed, as a slip of the hand would."""
    found = list(WORD.finditer(text))
    m = rng.choice(found)
    return text[:m.start()] + rng.choice(WORDS) + text[m.end():]


def texts(rng, count):
    """That many texts that can be written as bytes."""
    while count:
        maker = Maker(rng, rng.choice([0, 0.02, 0.1]))
        text = text_of(maker.case(rng.randint(1, 5), rng.choice([2, 3, 4, 7])), maker.table())
        for _ in range(rng.choice([0, 0, 1, 2])):
            text = changed_text(rng, text)
        try:
            yield text, Source("text", *parse(text))
        except TextError:
            continue
        count -= 1


def changed_bytes(rng, data):
    """Bytes cut, made longer, or with one changed."""
    choice, i = rng.random(), rng.randrange(len(data))
    if choice < 0.1:
        return data[:i]
    if choice < 0.2:
        return data + bytes([rng.randrange(256)])
    if choice < 0.3:
        return data[:i] + data[i + 1:]
    return data[:i] + bytes([rng.choice([0, 1, 2, 3, 5, 6, 16, 17, 18, 23, 25, data[i] ^ 1 << rng.randrange(8)])]) + data[i + 1:]


def some_counts_gone(rng, data):
    """A table's bytes with some of its null counts left out, or doubled, or one more or less."""
    out, at = b"", 0
    while at < len(data):
        stop = at + 3 + int.from_bytes(data[at + 1:at + 3], "little")
        part, choice = data[at:stop], rng.random()
        if part[0] == 6:
            part = b"" if choice < 0.5 else part * 2 if choice < 0.52 else part[:3] + bytes([part[3] ^ 1, part[4]]) if choice < 0.56 else part
        out, at = out + part, stop
    return out


def library_nulls(library, table, columns):
    """What tembalku_table_null_count says of the columns, and of one more."""
    asked = library.so.tembalku_table_null_count
    asked.restype, asked.argtypes = ctypes.c_size_t, [ctypes.c_char_p, ctypes.c_size_t, ctypes.c_size_t]
    return [asked(table, len(table), i) for i in range(columns + 1)]


def own_nulls(table):
    """The same, worked out here; the refusal's number for a table that is refused."""
    number = number_of(lambda: read_table(table, True))
    if number is not None:
        return [number]
    return [65536 + c[3].count(None) for c in read_table(table)[1]] + [256]


def number_of(call):
    """The number with which a call is refused, or None."""
    try:
        call()
    except (Refused, SourceRefused) as refused:
        return refused.number
    return None


def hold_texts(library, rng, count):
    """Holds check and the rows against the library on texts; gives how often each number came."""
    numbers = Counter()
    for text, source in texts(rng, count):
        try:
            numbers[number_of(lambda: evaluated(source, library))] += 1
        except Disagreement as e:
            raise AssertionError(f"{e}\n{text}") from None
    return numbers


def hold_bytes(library, rng, count):
    """Holds the readings and check against the library on mutated bytes; gives how often each number came."""
    numbers = Counter()
    for text, source in texts(rng, count):
        rule, table = source.rule_data, source.table_data
        which = rng.random()
        rule = changed_bytes(rng, rule) if which < 0.6 else rule
        table = changed_bytes(rng, table) if which > 0.4 else some_counts_gone(rng, table)
        said = [number_of(lambda: read_rule(rule, True)), number_of(lambda: read_table(table, True)), number_of(lambda: check_bytes(rule, table))]
        wanted = [library.rule_refusal(rule), library.table_refusal(table), library.evaluate(rule, table)[0]]
        if said != wanted:
            raise AssertionError(f"check says {said}, the library {wanted}: rule {rule.hex()} table {table.hex()}")
        nulls = own_nulls(table)
        if nulls != library_nulls(library, table, len(nulls) - 1):
            raise AssertionError(f"null counts {nulls}, the library's {library_nulls(library, table, len(nulls) - 1)}: table {table.hex()}")
        numbers[said[2]] += 1
    return numbers


# ---- tests ----

class Agreement(unittest.TestCase):
    def setUp(self):
        self.library = Library(LIBRARY)

    def test_texts(self):
        numbers = hold_texts(self.library, random.Random(1), 800)
        for number in (None, 4, 5, 6, 7, 8, 10, 12, 13, 15):
            self.assertGreater(numbers[number], 0, number)

    def test_bytes(self):
        numbers = hold_bytes(self.library, random.Random(2), 800)
        for number in (None, 1, 2, 3, 4, 7, 9, 11, 12, 13, 25):
            self.assertGreater(numbers[number], 0, number)

    def test_null_counts(self):
        """The tables of test_casetext_nulls.py through the library: their numbers, and the null count of each column."""
        for name, data, nulls in test_casetext_nulls.TAKEN:
            with self.subTest(name):
                table = bytes.fromhex(data)
                self.assertEqual(library_nulls(self.library, table, len(nulls)), [65536 + n for n in nulls] + [256])
                self.assertEqual(own_nulls(table), [65536 + n for n in nulls] + [256])
        for name, data, want, _ in test_casetext_nulls.TURNED_AWAY:
            with self.subTest(name):
                table = bytes.fromhex(data)
                self.assertEqual((self.library.table_refusal(table), library_nulls(self.library, table, 0)), (want, [want]))

    def test_ends_of_limits(self):
        """Both sides of each limit: 4,096 bytes of a rule, 65,536 of a table, 65,535 of text in all."""
        def rule(text):
            return f'rule (case (when (boolean true) (then (utf8 "{text}"))))'

        def table(rows, size):
            return f"rows {rows}\n" + (f'column a utf8 "{"a" * size}"' + ' ""' * (rows - 1) if rows else "") + "\n"
        for text, want in [
                ("rows 1\n" + rule("a" * 4080), None), ("rows 1\n" + rule("a" * 4081), 1),
                (table(1, 65536 - 32) + rule(""), None), (table(1, 65537 - 32) + rule(""), 9),
                ("rows 17\n" + rule("a" * 3855), None), ("rows 18\n" + rule("a" * 3641), 16),
                ("rows 512\n" + rule(""), None), ("rows 513\n" + rule(""), 10)]:
            source = Source("text", *parse(text))
            with self.subTest(want=want, size=(len(source.rule_data), len(source.table_data))):
                self.assertEqual(number_of(lambda: evaluated(source, self.library)), want)

    def test_disagreement(self):
        """An entry, a refusal or an answer that isn't the one worked out here is no evaluation."""
        source = Source("text", *parse(CHANGED.format("(less (col a) (int32 5))")))
        self.assertEqual(evaluated(source, self.library).entries, [1, 2])
        refused = Source("text", *parse(CHANGED.format("(less (col a) (int64 5))")))
        for source, entries in [(source, (None, (2, [1, 1]))), (source, (None, (3, [1, 2]))), (source, (7, None)), (refused, (None, (2, [1, 2]))),
                                (refused, (3, None))]:
            self.assertRaises(Disagreement, evaluated, source, Fixed(entries))
        self.assertRaises(SourceRefused, evaluated, refused, Fixed((7, None)))


class Casts(test_casetext_casts.Casts):
    """The same texts through the library; a Disagreement fails."""

    @classmethod
    def setUpClass(cls):
        cls.library = Library(LIBRARY)

    def entries(self, source):
        return evaluated(source, self.library).entries


CHANGED = "rows 2\ncolumn a int32 4 5\nrule (case (when {} (then (int32 1))) (else (int32 2)))"


class Fixed:
    """Stands for a library that says one thing."""

    def __init__(self, said):
        self.said = said

    def entries(self, _rule, _table):
        return self.said


class Run(InFolder):
    def ran(self, *args):
        code, out, err = run(*args, "--library", LIBRARY)
        self.assertEqual((code, err), (0, ""))
        return out

    def test_targets(self):
        """The example's README has what run and compare print; run prints the same from the bytes."""
        with open(os.path.join(TARGETS, "README.md"), encoding="utf-8") as f:
            readme = f.read()
        targets, other = (os.path.join(TARGETS, name) for name in ("targets.txt", "size_first.txt"))
        out = self.ran("run", targets)
        self.assertIn("```\n" + out + "```", readme)
        self.assertEqual(self.ran("run", TARGETS), out)
        self.assertIn("```\n" + self.ran("compare", targets, other, targets).replace(TARGETS, "examples/targets") + "```", readme)

    def test_knots(self):
        """The same README has the rule of knots.txt, what run prints, and the refusal of a cast in place of the try-cast."""
        path = os.path.join(TARGETS, "knots.txt")
        with open(os.path.join(TARGETS, "README.md"), encoding="utf-8") as f, open(path, encoding="utf-8") as g:
            readme, text = f.read(), g.read()
        self.assertIn("```\n" + sql(parse(text)[0], ["speed"]) + "\n```", readme)
        self.assertIn("```\n" + self.ran("run", path) + "```", readme)
        code, out, err = run("check", self.write("knots.txt", text.replace("trycast", "cast")))
        self.assertEqual((code, out), (1, ""))
        self.assertIn("```\n" + err.replace(self.path(""), "") + "```", readme)

    def test_readme(self):
        """README's text gives the table under it, and the refusal for the slip that it names."""
        with open(os.path.join(os.path.dirname(os.path.dirname(TARGETS)), "README.md"), encoding="utf-8") as f:
            readme = f.read()
        blocks = readme[readme.index("## For display makers and dealers"):].split("```\n")
        text, table, refusal = blocks[1], blocks[3], blocks[5]
        self.assertEqual(self.ran("run", self.write("harbour.txt", text)), table)
        slip = text.replace("(col length) (float64 3.0)", "(col speed) (float64 3.0)")
        self.assertEqual(run("check", self.write("harbour.txt", slip)), (1, "", self.path(refusal)))

    def test_branches(self):
        """A base, a nested CASE, a branch that decides nothing, and no ELSE."""
        path = self.write("a.txt", """rows 4
column kind utf8 null "boat" "buoy" null "it's"
column size float64 2.5 3.0 4.0 -0.0
rule
(case (base (col kind))
  (when (utf8 "boat") (then (int32 1)))
  (when (utf8 "gear") (then (int32 2)))
  (when (utf8 "buoy") (then (case (when (less (col size) (float64 3.0)) (then (int32 3))) (else (int32 4)))))
  (when (utf8 "it's") (then (null int32))))""")
        self.assertEqual(self.ran("run", path), """\
row  kind    size  class  decided by
---  ------  ----  -----  --------------------------------
  0  "boat"   2.5  1      WHEN 1: kind = 'boat'
  1  "buoy"   3.0  4      WHEN 3: kind = 'buoy', then ELSE
  2  null     4.0  null   no WHEN, no ELSE
  3  "it's"  -0.0  null   WHEN 4: kind = 'it''s'

targets  decided by
-------  ----------------------------------------------
      1  WHEN 1: kind = 'boat'
      0  WHEN 2: kind = 'gear'
      0  WHEN 3: kind = 'buoy', then WHEN 1: size < 3.0
      1  WHEN 3: kind = 'buoy', then ELSE
      1  WHEN 4: kind = 'it''s'
      1  no WHEN, no ELSE
      4  in all
""")

    def test_stored(self):
        """The classes are the stored entries."""
        library, count = Library(LIBRARY), 0
        for name, rule, data, head, lines in stored():
            source = Source(name, read_rule(rule), read_table(data), False, (rule, data))
            if head[0] == "refused":
                self.assertEqual(number_of(lambda: evaluated(source, library)), int(head[1]))
            else:
                evaluation = evaluated(source, library)
                self.assertEqual([f"{i} {shown(evaluation.kind, v)}" for i, v in enumerate(evaluation.entries)], lines)
            count += 1
        self.assertEqual(count, 76)

    def test_refused(self):
        path = self.write("a.txt", "rows 1\ncolumn a int64 3000000000\nrule\n(case (when (boolean true) (then (cast int32 (col a)))))")
        self.assertEqual(run("run", path, "--library", LIBRARY),
                         (1, "", f"{path}: line 4: row 0: 3000000000 doesn't fit int32, 15 (CAST(a AS int32))\n"))

    def test_svg(self):
        path, picture = os.path.join(TARGETS, "targets.txt"), self.path("a.svg")
        self.ran("run", path, "--svg", picture)
        with open(picture, "rb") as drawn, open(os.path.join(TARGETS, "targets.svg"), "rb") as kept:
            self.assertEqual(drawn.read(), kept.read())
        other = self.path("b.svg")
        self.assertEqual(run("run", path, "--library", LIBRARY, "--svg", other, "--bearing", "nowhere"),
                         (1, "", "there is no column nowhere to draw by: name the table's columns bearing and range, or say --bearing NAME\n"))
        self.assertFalse(os.path.exists(other))
        nowhere = self.path("no/such/folder.svg")
        self.assertEqual(run("run", path, "--library", LIBRARY, "--svg", nowhere)[0], 1)

    def test_compare(self):
        table = self.write("table.txt", "rows 4\ncolumn other boolean true true true true\ncolumn size int32 null 1 5 null 9")
        rule = 'rule\n(case (when (less (col size) (int32 {})) (then (utf8 "buoy")))\n (else (utf8 "{}")))'
        one, two = self.write("one.txt", rule.format(3, "boat")), self.write("two.txt", rule.format(6, "boat"))
        self.assertEqual(self.ran("compare", one, two, table), f"""\
before: {one}
after:  {two}

row  size  before  decided by  after  decided by
---  ----  ------  ----------  -----  ----------------
  1     5  boat    ELSE        buoy   WHEN 1: size < 6

targets  change
-------  -------------------
      1  boat -> buoy
      1  of 4 targets in all
""")
        self.assertEqual(self.ran("compare", one, one, table), f"before: {one}\nafter:  {one}\n\nnone of 4 targets changes class\n")
        with_table = self.write("own.txt", "rows 1\ncolumn size int32 null 7\n" + rule.format(6, "boat"))
        self.assertIn("\n  1     5  boat    ELSE        buoy   WHEN 1: size < 6\n", self.ran("compare", one, with_table, table))
        bad = self.write("bad.txt", rule.format("5) (int32 4", "boat"))
        self.assertEqual(run("compare", one, bad, table, "--library", LIBRARY),
                         (1, "", f"{bad}: line 2: ( where ) is expected: a bracket is missing before it, or it is one too many\n"))


def main(args):
    library, count, seed = Library(LIBRARY), int(args[0]), int(args[1]) if len(args) > 1 else 1
    for name, hold in (("texts", hold_texts), ("bytes", hold_bytes)):
        numbers = hold(library, random.Random(seed), count)
        listed = ", ".join(f"{n}: {numbers[n]}" for n in sorted(numbers, key=lambda n: n or 0) if n)
        print(f"{name}: {count} agree; answered {numbers[None]}; refused {listed}")


if __name__ == "__main__":
    main(sys.argv[1:])
