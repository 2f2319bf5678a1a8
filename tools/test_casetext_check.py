#!/usr/bin/env python3
"""test_casetext_check.py: tests of casetext.py's check, make and show without the library: the sentences of refusals, files that can't
be taken, SQL typed by mistake, names of columns, and the picture. Run by test_casetext.py."""
import os
import subprocess
import sys
import tempfile
import unittest
import xml.etree.ElementTree as ElementTree
from unittest import mock

sys.dont_write_bytecode = True
sys.path.insert(0, os.path.dirname(os.path.abspath(__file__)))
from dealer.evaluation import Evaluation, literal_classes  # noqa: E402
from dealer.layout import rule_bytes  # noqa: E402
from dealer.plan import drawn, point, ring_step  # noqa: E402
from dealer.reading import Refused, read_answer  # noqa: E402
from dealer.rows import at_row, row_of  # noqa: E402
from dealer.source import Source  # noqa: E402
from dealer.text import parse  # noqa: E402
from dealer.tree import type_of  # noqa: E402
from dealer.words import sql  # noqa: E402
from test_casetext import run  # noqa: E402

TOOL = os.path.join(os.path.dirname(os.path.abspath(__file__)), "casetext.py")
HEAD = "rows 3\ncolumn speed int32 null 4 null 9\ncolumn far int64 3000000000 5 6\nrule\n"
# CASE WHEN NOT 5 THEN 1 END, which is 7
UNTYPED = bytes.fromhex("191700" "0001" "120900" "110600020005000000" "110600020001000000")
OK = "(case (when (boolean true) (then (int32 1))))"


def when(words):
    """A rule whose WHEN stands in line 6."""
    return HEAD + f"(case\n  (when {words}\n    (then (int32 1))))"


def then(words):
    """A rule whose second THEN stands in line 7."""
    return HEAD + f"(case\n  (when (boolean true) (then (int32 1)))\n  (when (boolean true) (then {words})))"


def nested(n, inner="(boolean true)"):
    """A THEN in that many CASEs."""
    return OK if n == 1 else f"(case (when {inner} (then {nested(n - 1)})))"


class InFolder(unittest.TestCase):
    """Tests that write texts into a folder of their own."""

    def setUp(self):
        folder = tempfile.TemporaryDirectory()
        self.addCleanup(folder.cleanup)
        self.folder = folder.name

    def path(self, name):
        return os.path.join(self.folder, name)

    def write(self, name, content):
        with open(self.path(name), "wb") as f:
            f.write(content if isinstance(content, bytes) else content.encode("utf-8"))
        return self.path(name)

    def said(self, text, *command):
        """What check, or another command, says of a text, without the text's name."""
        path = self.write("a.txt", text)
        code, out, err = run(*(command or ("check",)), path)
        self.assertEqual((code, out), (1, ""))
        self.assertEqual(err.count("\n"), 1)
        self.assertTrue(err.startswith(path + ": "), err)
        return err[len(path) + 2:-1]


class Refusals(InFolder):
    def each(self, cases):
        for text, want in cases:
            with self.subTest(want):
                self.assertEqual(self.said(text), want)

    def test_types(self):
        self.each([
            (when("(less (col speed) (col far))"), "line 6: int32 < int64: types don't go together, 7 (speed < far)"),
            (when("(equal (utf8 \"a\") (int32 5))"), "line 6: utf8 = int32: types don't go together, 7 ('a' = 5)"),
            (when("(not (col speed))"), "line 6: NOT int32: types don't go together, 7 (NOT speed)"),
            (when("(isnotnull (neg (utf8 \"a\")))"), "line 6: - utf8: types don't go together, 7 (-'a')"),
            (when("(equal (cast int64 (utf8 \"a\")) (col far))"),
             "line 6: CAST(utf8 AS int64): types don't go together, 7 (CAST('a' AS int64))"),
            (when("(isnotnull (trycast utf8 (col far)))"),
             "line 6: TRY_CAST(int64 AS utf8): types don't go together, 7 (TRY_CAST(far AS utf8))"),
            (when("(col speed)"), "line 6: WHEN 1 is int32, a WHEN without a base is boolean: types don't go together, 7 (speed)"),
            (then("(utf8 \"b\")"), "line 7: THEN 2 is utf8, THEN 1 is int32: types don't go together, 7 ('b')"),
            (HEAD + "(case (base (col far))\n (when (int32 1) (then (int32 1))))",
             "line 6: WHEN 1 is int32, the base is int64: types don't go together, 7 (1)"),
            (HEAD + "(case (when (boolean true) (then (int32 1)))\n (else (utf8 \"b\")))",
             "line 6: ELSE is utf8, THEN 1 is int32: types don't go together, 7 ('b')"),
            (when("(less (col speed)\n (col speed int32))"), "line 7: int32 here, int32 null before: one column marked in two ways, 7 (speed)")])

    def test_limits(self):
        self.each([
            (HEAD + OK.replace("(int32 1)", f"(utf8 \"{'a' * 4100}\")"), "the rule has 4116 bytes: at most 4096, 1"),
            (HEAD + nested(4), "line 5: a CASE inside of 3 others: at most 3 in all, 4 (CASE WHEN true THEN 1 END)"),
            (when("(not " * 7 + "\n(boolean true)" + ")" * 7), "line 7: nested more than 8 deep, 4 (true)"),
            (HEAD + "(case\n (else (int32 1)))", "line 5: a CASE without a WHEN, 5 (CASE ELSE 1 END)"),
            (HEAD + "(case" + "\n (when (boolean true) (then (int32 1)))" * 33 + ")", "line 5: 33 branches: at most 32, 6"),
            ("rows 600\ncolumn a int32" + " 1" * 600 + "\nrule " + OK, "600 rows: at most 512, 10"),
            ("rows 70000\nrule " + OK, "70000 rows: at most 512, 10"),
            ("rows 65536\nrule " + OK, "65536 rows: at most 512, 10"),
            ("rows 0\n" + "".join(f"column c{i} int32\n" for i in range(257)) + "rule " + OK, "line 258: a 257th column: at most 16, 10"),
            ("rows 0\n" + "".join(f"column c{i} int32\n" for i in range(17)) + "rule " + OK, "line 18: column c16: a 17th column: at most 16, 10"),
            ("rows 600\n" + "".join(f"column c{i} int64" + " 1" * 600 + "\n" for i in range(14)) + "rule " + OK,
             "the table has 67429 bytes: at most 65536, 9")])

    def test_values(self):
        self.each([
            (when("(equal (col speed) (cast int32 (int64 3000000000)))"), "line 6: 3000000000 doesn't fit int32, 8 (CAST(3000000000 AS int32))"),
            ("rows 2\ncolumn a int32 1 null\nrule " + OK, "line 2: column a: row 1 is null, but the column isn't marked null, 12"),
            (when("(isnotnull (col 2 int32))"), "line 6: column 2, counted from 0, isn't there: the table has 2 columns, 13"),
            (when("(isnotnull (col speed float64))"), "line 6: column speed is float64 in the rule and int32 in the table, 13"),
            (when("(isnotnull (col speed int32))"), "line 6: column speed is int32 in the rule and int32 null in the table, 13"),
            (then("(cast int32 (col far))").replace("(when (boolean true) (then (int32 1)))", "(when (boolean false) (then (int32 1)))"),
             "line 7: row 0: 3000000000 doesn't fit int32, 15 (CAST(far AS int32))"),
            ("rows 17\nrule " + OK.replace("(int32 1)", f"(utf8 \"{'a' * 4000}\")"),
             "the classes' texts have 68000 bytes in all: at most 65535, 16")])

    def test_accepted(self):
        path = self.write("a.txt", when("(less (col speed) (int32 5))"))
        said = f"{path}: accepted: a rule of 32 bytes, whose classes are int32; a table of 3 rows and 2 columns\n"
        self.assertEqual(run("check", path), (0, said, ""))

    def test_one_part(self):
        """A rule or a table alone is checked too."""
        rule, table = self.write("rule.txt", "rule " + OK), self.write("table.txt", "rows 1\ncolumn a int32 1")
        self.assertEqual(run("check", rule), (0, f"{rule}: accepted: a rule of 20 bytes, whose classes are int32\n", ""))
        self.assertEqual(run("check", table), (0, f"{table}: accepted: a table of 1 row and 1 column\n", ""))
        self.assertEqual(self.said("rows 1\ncolumn a int32 null\n"),
                         "line 2: column a has 0 values for 1 row; the first null is the column's mark, not a value")
        self.assertEqual(self.said("rule (case (when (int32 1) (then (int32 1))))"),
                         "line 1: WHEN 1 is int32, a WHEN without a base is boolean: types don't go together, 7 (1)")

    def test_line_ends(self):
        """Lines may end as on other systems."""
        path = self.write("a.txt", when("(less (col speed) (int32 5))").replace("\n", "\r\n"))
        self.assertEqual(run("check", path)[0], 0)
        self.assertEqual(self.said(when("(col speed)").replace("\n", "\r\n"))[:8], "line 6: ")

    def test_two_texts(self):
        """A rule's names are those of the table's text; what is wrong names the text that it stands in."""
        rule = self.write("rule.txt", "rule\n(case\n (when (less (col speed) (int32 5)) (then (int32 1))))")
        table = self.write("table.txt", "rows 1\ncolumn other utf8 \"a\"\ncolumn speed int32 4")
        self.assertEqual(run("check", rule, table)[0], 0)
        self.assertEqual(run("check", rule), (1, "", f"{rule}: line 3: no column speed: there is no table before the rule\n"))
        self.write("table.txt", "rows 1\ncolumn speed int64 4")
        self.assertEqual(run("check", rule, table)[2], f"{rule}: line 3: int64 < int32: types don't go together, 7 (speed < 5)\n")
        self.write("table.txt", "rows 1\ncolumn speed int32 null")
        self.assertEqual(run("check", rule, table)[2],
                         f"{table}: line 2: column speed has 0 values for 1 row; the first null is the column's mark, not a value\n")
        self.write("table.txt", "rows 2\ncolumn speed int32 1 null")
        self.assertEqual(run("check", rule, table)[2], f"{table}: line 2: column speed: row 1 is null, but the column isn't marked null, 12\n")

    def test_folder(self):
        """Of bytes the place stands for the line, also where they have no tree."""
        self.write("batch.bin", bytes.fromhex("0102000000"))
        self.write("rule.bin", UNTYPED + b"\0")
        self.assertEqual(run("check", self.folder),
                         (1, "", f"{self.folder}: rule.bin: byte 5: NOT int32: types don't go together, 7\n"))
        self.write("rule.bin", UNTYPED)
        self.assertEqual(run("check", self.folder),
                         (1, "", f"{self.folder}: rule.bin: byte 5: NOT int32: types don't go together, 7 (NOT 5)\n"))
        self.write("rule.bin", b"")
        self.assertEqual(run("check", self.folder), (1, "", f"{self.folder}: rule.bin: the rule is empty, 1\n"))
        self.write("rule.bin", rule_bytes(parse("rule " + OK)[0]))
        for table, said in (("", "the table is empty, 9"), ("010300000000", "byte 3: a row count has 2 bytes, 9"),
                            ("0102000000" "020300010000" "030000" "040000", "byte 8: a column's head has 2 bytes, 9")):
            self.write("batch.bin", bytes.fromhex(table))
            self.assertEqual(run("check", self.folder), (1, "", f"{self.folder}: batch.bin: {said}\n"))
        self.write("rule.bin", UNTYPED[:-1])
        self.assertEqual(run("check", self.folder), (1, "", f"{self.folder}: rule.bin: byte 0: the field runs past its end, 2\n"))

    def test_make(self):
        """make refuses what check does, and writes nothing."""
        path = self.write("a.txt", when("(less (col speed) (col far))"))
        out = self.path("out")
        self.assertEqual(run("make", path, out), (1, "", f"{path}: line 6: int32 < int64: types don't go together, 7 (speed < far)\n"))
        self.assertFalse(os.path.exists(out))


class Files(InFolder):
    def test_marks(self):
        self.assertEqual(self.said(b"\xef\xbb\xbf" + when("(boolean true)").encode()),
                         "begins with a byte order mark, which some editors add: save it as UTF-8 without one (without BOM)")
        for mark, code in ((b"\xff\xfe", "utf-16-le"), (b"\xfe\xff", "utf-16-be")):
            self.assertEqual(self.said(mark + OK.encode(code)), "is UTF-16 (it begins with a byte order mark): save it as UTF-8 without one")

    def test_missing(self):
        path = self.path("nowhere.txt")
        for args in (("check", path), ("run", path), ("make", path, self.folder), ("compare", path, path, path)):
            self.assertEqual(run(*args), (1, "", f"{path}: there is no such file\n"))
        self.assertEqual(run("make", self.folder, self.folder), (1, "", f"{self.folder}: is a folder: name the text in it\n"))

    def test_no_text(self):
        self.assertEqual(self.said(b"\x19\x1a\x00\x02"),
                         "holds bytes, not text: `casetext.py show FOLDER` prints rule.bin and batch.bin of a folder as text")
        self.assertEqual(self.said(b"rows 1\ncolumn a utf8 \"bo\xeete\"\n"), "line 2: not UTF-8: save the file as UTF-8")

    def test_no_library(self):
        path = self.write("a.txt", when("(boolean true)"))
        missing = self.path("lib.a")
        code, out, err = run("run", path, "--library", missing)
        self.assertEqual((code, out), (1, ""))
        self.assertEqual(err, f"{missing}: there is no such library: tools/build_library.sh writes crates/tembalku/out/libtembalku.a\n")
        self.write("lib.a", "no archive")
        code, out, err = run("run", path, "--library", missing)
        self.assertEqual((code, out), (1, ""))
        self.assertIn("can't be linked", err)
        for source, said in (("int nothing;", "isn't this library: it has no function tembalku_rule_read"),
                             ("int missing(void); int tembalku_rule_read(void) { return missing(); }", "can't be loaded: undefined symbol: missing")):
            self.assertEqual(run("run", path, "--library", archive(self.folder, source)), (1, "", f"{missing}: {said}\n"))

    def test_not_built(self):
        """Without --library the one that is built in the repository."""
        path = self.write("a.txt", when("(boolean true)"))
        with mock.patch("dealer.library.ROOT", self.folder):
            self.assertEqual(run("run", path), (1, "", "the library isn't built: tools/build_library.sh writes crates/tembalku/out/libtembalku.a; "
                                                "or name one with --library ARCHIVE\n"))
            os.makedirs(self.path("crates/tembalku/out"))
            built = self.write("crates/tembalku/out/libtembalku.a", "no archive")
            self.assertTrue(run("run", path)[2].startswith(f"{built}: can't be linked: "))

    def test_odd_name(self):
        """A name that is no UTF-8 is printed somehow."""
        path = self.write(os.fsdecode(b"a\xff.txt"), when("(boolean true)"))
        code, out, _ = run("check", path)
        self.assertEqual(code, 0)
        self.assertIn("a\\udcff.txt: accepted", out)

    def test_not_printed(self):
        path = self.write("a.txt", when("(boolean true)"))
        with open("/dev/full", "wb") as full:
            done = subprocess.run([sys.executable, TOOL, "check", path], stdout=full, stderr=subprocess.PIPE, text=True, check=False)
        self.assertEqual((done.returncode, done.stderr), (1, "can't be printed: No space left on device\n"))

    def test_parts_missing(self):
        rule = self.write("rule.txt", "rule " + OK)
        table = self.write("table.txt", "rows 1\ncolumn a int32 1")
        self.assertEqual(run("run", rule)[2],
                         f"{rule}: there is no table in it: name a text with one too, casetext.py run RULE.txt TABLE.txt\n")
        self.assertEqual(run("run", table)[2], f"{table}: there is no rule in it, and run needs one\n")
        self.assertEqual(run("check", rule, rule)[2], f"{rule}: there is no table in it\n")


def archive(folder, source):
    """A static library of a source in C."""
    names = [os.path.join(folder, "lib" + end) for end in (".c", ".o", ".a")]
    with open(names[0], "w", encoding="ascii") as f:
        f.write(source)
    if os.path.exists(names[2]):
        os.remove(names[2])
    subprocess.run(["gcc", "-fPIC", "-c", names[0], "-o", names[1]], check=True)
    subprocess.run(["ar", "rcs", names[2], names[1]], check=True)
    return names[2]


# a library whose evaluation writes sevens and says a number, and whose tables have so many rows
SEVENS = """#include <string.h>
unsigned tembalku_rule_read(const char *rule, size_t len) {{ return rule && len ? 258 : 1; }}
unsigned tembalku_table_read(const char *table, size_t len) {{ return table && len ? {rows} : 9; }}
size_t tembalku_evaluate(const char *r, size_t rl, const char *t, size_t tl, char *w, size_t wl, char *o, size_t ol) {{
    memset(o, 7, ol);
    return r && t && w && rl + tl + wl ? {said} : 1;
}}
"""


class Disagreeing(InFolder):
    def test_loud(self):
        """A library that says something else than the rule read row by row: exit status 3, both answers, and no table of classes."""
        path = self.write("a.txt", when("(less (col speed) (int32 5))"))
        for said, words in [((None, (2, [1, None, 1])), "row 2: the library says 1, the rule read row by row says null"),
                            ((None, (5, [b"a", None, None])), "the library's answer has type 5, the rule's result 2"),
                            ((None, (2, [1, None])), "the library's answer has 2 entries for 3 rows"),
                            ((15, None), "the library refuses with 15, but the check finds nothing to refuse")]:
            code, out, err = self.with_library(said, "run", path)
            self.assertEqual((code, out), (3, ""))
            self.assertEqual(err.splitlines(), [LOUD, words])
        path = self.write("b.txt", when("(less (col speed) (col far))"))
        code, out, err = self.with_library((None, (2, [1, 1, 1])), "run", path)
        self.assertEqual((code, out), (3, ""))
        self.assertIn("the library answers, but the check says: ", err)
        self.assertEqual(self.with_library((7, None), "run", path)[0], 1)

    def test_no_answer(self):
        """A library that gives bytes that are no answer, or numbers that mean nothing."""
        path = self.write("a.txt", when("(less (col speed) (int32 5))"))
        for rows, said, words in [(65539, 65546, "the field runs past its end"), (65539, 65536, "a field is missing or cut"),
                                  (65539, 300, "a field is missing or cut"), (9, 65546, "the field runs past its end"),
                                  (65539, 200000, "tag 7 where 2 is expected")]:
            code, out, err = run("run", path, "--library", archive(self.folder, SEVENS.format(rows=rows, said=said)))
            self.assertEqual((code, out, err.splitlines()), (3, "", [LOUD, f"what the library gives is no answer: byte 0: {words}"]))

    def test_answer_and_more(self):
        """An answer is one column and nothing else."""
        answer = bytes.fromhex("0202000200" "0602000000" "030000" "04040005000000")
        self.assertEqual(read_answer(answer, 1), (2, [5]))
        self.assertRaises(Refused, read_answer, answer + b"\0", 1)

    def with_library(self, said, *args):
        """Runs a command with a library that says one thing."""
        library = mock.Mock(**{"entries.return_value": said})
        with mock.patch("casetext.Library", return_value=library), mock.patch("casetext.archive_path"):
            return run(*args)


LOUD = "DISAGREEMENT: the library and this tool don't say the same. Don't trust the classes, and report this."


class Mistakes(InFolder):
    def test_sql(self):
        for text, line in [("CASE WHEN speed < 5 THEN 'slow' END", 1), ("-- my rule\nSELECT 1", 1), ("case when speed < 5 then 1 end", 1),
                           (HEAD + "CASE WHEN speed < 5\n THEN 'slow' ELSE 'fast' END", 5), (HEAD + "\nselect speed", 6)]:
            with self.subTest(text):
                said = self.said(text)
                self.assertTrue(said.startswith(f"line {line}: this is SQL, but a rule is written in brackets here: (case (when "), said)

    def test_example_of_sentence(self):
        """The rule in the sentence about SQL is one, and is the SQL beside it."""
        said = self.said("CASE")
        text, words = said[said.index("(case"):].split(" is CASE ")
        e, _ = parse("rows 0\ncolumn speed int32\nrule\n" + text)
        self.assertEqual(sql(e, ["speed"]), "CASE " + words)

    def test_hints(self):
        for words, want in [
                ("(speed < 5)", "line 6: speed is no expression: a column is (col speed)"),
                ("(< (col speed) (int32 5))", "line 6: < is no expression: A < B is (less A B)"),
                ("(less (col speed) 5)", "line 6: 5 where ( is expected: a number has its type, (int32 5), int64 or float64"),
                ("(less (col speed) -5.5)", "line 6: -5.5 where ( is expected: a number has its type, (float64 -5.5)"),
                ("(less (col speed) 5m)", "line 6: 5m where ( is expected"),
                ("(less (col speed) (int32 5)", "line 7: ( where ) is expected: a bracket is missing before it, or it is one too many"),
                ("(less (col speed))", "line 6: ) where ( is expected: a part is missing before it, or it is one too many"),
                ("((col speed))", "line 6: ( is no expression: a bracket is missing before it, or it is one too many"),
                ("(less speed (int32 5))", "line 6: speed where ( is expected: a column is (col speed)"),
                ("(and (boolean true) (boolean true))",
                 "line 6: and is no expression: there is no AND; A AND B is (case (when A (then B)) (else (boolean false)))"),
                ("(CASE (when (boolean true) (then (boolean true))))",
                 "line 6: CASE is no expression: a CASE has brackets, (case ..), in small letters"),
                ("(equal (utf8 'boat') (utf8 \"boat\"))", "line 6: 'boat' is no utf8: text stands in double quotes, \"boat\""),
                ("(less (int32 1.5) (col speed))", "line 6: 1.5 is no int32: a number with a point is float64"),
                ("(less (col size) (int32 5))", "line 6: no column size: there are speed, far"),
                ("true", "line 6: true where ( is expected: it is (boolean true)")]:
            with self.subTest(words):
                self.assertEqual(self.said(when(words)), want)

    def test_text_hints(self):
        for text, want in [
                ("", "line 1: there is nothing in it: a table begins with the number of its targets, `rows 8`, a rule with `rule`"),
                ("speed;size\n12;3", "line 1: speed;size where rows or rule is expected: a table begins with the number of its targets, "
                 "`rows 8`, a rule with `rule`"),
                ("rows 1\ncolumn a int32 5\n(case)", "line 3: ( is no int32: is the line `rule` missing before it?"),
                ('rows 1\ncolumn a utf8 "boat\n"', "line 2: can't read '\"boat': a text has a quote at both ends, in one line"),
                ("rows 1\ncolumn a\u00a0int32 5", "line 2: can't read '\\xa0int32 5': put a plain blank for the first character"),
                ("rows 1\n\fcolumn a int32 5", "line 2: can't read '\\x0ccolumn a ': put a plain blank for the first character"),
                ("rule " + OK + "\nrows 0", "line 2: rows behind the rule: the table stands before the rule"),
                ("rule " + OK + "\n(int32 1)", "line 2: ( behind the rule: its last bracket stands before it"),
                ("rows 1\ncolumn a float64 5,5", "line 2: 5,5 is no float64: a number has a point, not a comma, and is float64 then"),
                ("rows 3\ncolumn a int32 null 5", "line 2: column a has 1 value for 3 rows"),
                ("rows 2\ncolumn a int32 5", "line 2: column a has 1 value for 2 rows"),
                (HEAD + OK[:-1] + "\n(else (int32 1))\n(else (int32 2)))", "line 7: else out of place in a case: WHENs stand before the ELSE, of which there is one"),
                (HEAD + "(case\n(else (int32 1))\n(when (boolean true) (then (int32 1))))",
                 "line 7: when out of place in a case: WHENs stand before the ELSE, of which there is one"),
                (HEAD + "(case\n(wenn (boolean true) (then (int32 1))))", "line 6: wenn out of place in a case"),
                (HEAD + "(case (base (int32 1))\n(base (int32 1)))", "line 6: base out of place in a case: a base stands first in its case, once"),
                (HEAD + "(case (when (boolean true) (then (col 256 int32))))", "line 5: no column 256: there are speed, far"),
                (HEAD + "(case (when (boolean true)\n(int32 1)))",
                 "line 6: int32 where then is expected: a result stands in brackets of its own, (then E)"),
                (HEAD + "(case\n(when (boolean true) (then (int32 1)))\n", "line 7: the text ends, but the bracket of line 5 isn't closed")]:
            with self.subTest(text):
                self.assertEqual(self.said(text), want)

    def test_and_or(self):
        """The hints for AND and OR say true exactly where SQL does."""
        values = {"true": True, "false": False, "null": None}
        for a, x in values.items():
            for b, y in values.items():
                left, right = (f"(boolean {v})" if v != "null" else "(null boolean)" for v in (a, b))
                both = parse(f"rule (case (when {left} (then {right})) (else (boolean false)))")[0]
                either = parse(f"rule (case (when {left} (then (boolean true))) (else {right}))")[0]
                self.assertEqual(at_row(both, []) is True, x is True and y is True)
                self.assertEqual(at_row(either, []) is True, x is True or y is True)


class Names(InFolder):
    def test_show(self):
        path = self.write("a.txt", when("(less (col speed) (int32 5))"))
        self.assertEqual(run("make", path, self.folder), (0, "", ""))
        self.assertIn("column speed int32 null 4 null 9\ncolumn far int64", run("show", self.folder)[1])
        self.assertIn("(less (col speed) (int32 5))", run("show", self.folder)[1])
        self.assertIn("column a int32 null 4 null 9\ncolumn b int64", run("show", self.folder, "--names", "a,b")[1])
        self.assertEqual(run("show", self.folder, "--names", "a"), (1, "", "--names: 1 name for 2 columns\n"))
        os.remove(self.path("names.txt"))
        self.assertIn("column c0 int32 null 4 null 9\ncolumn c1 int64", run("show", self.folder)[1])

    def test_bad_names(self):
        """Names that a text can't have are not shown."""
        self.assertEqual(run("make", self.write("a.txt", when("(boolean true)")), self.folder)[0], 0)
        for names in ("a,a", "a,b c", "a,1b", "a,"):
            code, out, err = run("show", self.folder, "--names", names)
            self.assertEqual((code, out, err.count("\n")), (1, "", 1), names)

    def test_refused_is_shown(self):
        """A rule that the library refuses is still shown, if its bytes have a tree."""
        self.write("rule.bin", UNTYPED)
        self.write("batch.bin", bytes.fromhex("0102000000"))
        self.assertEqual(run("check", self.folder)[0], 1)
        self.assertEqual(run("show", self.folder), (0, "rows 0\nrule\n(case\n  (when (not (int32 5)) (then (int32 1))))\n", ""))


def evaluation(text):
    """As the library would give it, from the evaluator of rows."""
    rule, table = parse(text)
    return Evaluation(Source("a", rule, table), type_of(rule), [at_row(rule, row_of(table, i)) for i in range(table[0])])


class Picture(unittest.TestCase):
    TEXT = """rows 5
column bearing float64 null 0.0 90.0 225.0 null 360.0
column range int32 null 10 40 20 5 -1
column kind utf8 "a<b" "c" "a<b" "c" "c"
rule (case (when (equal (col kind) (utf8 "c")) (then (utf8 "c & d"))) (else (utf8 "a<b")))"""
    NAME = "{http://www.w3.org/2000/svg}"

    def marks(self, root):
        """Title and middle of each target's mark."""
        out = {}
        for mark in root:
            title = mark.find(self.NAME + "title")
            if title is not None and title.text.startswith("row "):
                if mark.tag == self.NAME + "circle":
                    out[title.text] = (float(mark.get("cx")), float(mark.get("cy")))
                else:
                    corners = [tuple(map(float, p.split(","))) for p in mark.get("points").split()]
                    out[title.text] = tuple((min(c[i] for c in corners) + max(c[i] for c in corners)) / 2 for i in (0, 1))
        return out

    def test_places(self):
        """Targets stand by bearing and range, north up; one without either, or of a range below 0, isn't drawn."""
        root = ElementTree.fromstring(drawn(evaluation(self.TEXT), "bearing", "range"))
        marks = self.marks(root)
        self.assertEqual(set(marks), {"row 0: a<b, ELSE", "row 1: c & d, WHEN 1: kind = 'c'", "row 2: a<b, ELSE"})
        (x, y), (east, level) = marks["row 0: a<b, ELSE"], marks["row 1: c & d, WHEN 1: kind = 'c'"]
        self.assertEqual((x, y), (360.0, 285.0))
        self.assertEqual((east, level), (660.0, 360.0))
        x, y = marks["row 2: a<b, ELSE"]
        self.assertTrue(x < 360 < y)
        self.assertAlmostEqual(360 - x, y - 360)
        words = [t.text for t in root.iter(self.NAME + "text")]
        for word in ("N", "E", "S", "W", "10", "20", "30", "40", "c & d: 3", "a<b: 2", "not drawn: 2"):
            self.assertIn(word, words)
        self.assertNotIn("50", words)

    def test_colours(self):
        """A class keeps its colour, whichever classes a table has."""
        def colours(text):
            root = ElementTree.fromstring(drawn(evaluation(text), "bearing", "range"))
            found = [(m.find(self.NAME + "title"), m.get("fill")) for m in root]
            return {t.text.split(": ")[1].split(",")[0]: fill for t, fill in found if t is not None and t.text.startswith("row ")}
        both = colours(self.TEXT)
        self.assertEqual(len(set(both.values())), 2)
        self.assertEqual(colours(self.TEXT.replace('"c" "a<b" "c" "c"', '"a<b" "a<b" "a<b" "a<b"'))["a<b"], both["a<b"])

    def test_else_class(self):
        """A literal under an ELSE is a class of the THENs' type; one that doesn't fit is none."""
        for then, other, want in [("(int32 1)", "(float64 2.9)", ["1", "2"]), ("(int32 1)", "(float64 0x7ff8000000000000)", ["1"]),
                                  ("(float64 1.5)", "(int64 2)", ["1.5", "2.0"]), ("(boolean true)", "(int32 5)", ["true"]),
                                  ("(int32 1)", "(case (when (boolean true) (then (float64 2.9))) (else (int64 7)))", ["1", "2", "7"])]:
            e, _ = parse(f"rule (case (when (boolean true) (then {then})) (else {other}))")
            self.assertEqual(literal_classes(e), want)

    def test_rings(self):
        for most, want in [(0, 1), (1, 0.2), (1.3, 0.5), (9, 2), (10, 2), (12, 2), (13, 5), (40, 10), (99, 20), (1e9, 2e8), (0.003, 0.0005),
                           (5e-324, 0)]:
            self.assertAlmostEqual(ring_step(most), want)
        self.assertEqual(tuple(round(v, 6) for v in point(-90, 1)), (60, 360))

    def test_odd_places(self):
        """Floats that are no place are not drawn; far bearings and ranges are."""
        for bits in ("0x7ff8000000000000", "0x7ff0000000000000", "0xfff0000000000000", "null"):
            text = f"rows 1\ncolumn bearing int32 5\ncolumn range float64 null {bits}\nrule " + OK
            self.assertEqual(self.marks(ElementTree.fromstring(drawn(evaluation(text), "bearing", "range"))), {}, bits)
        for bearing, far in (("-1e200", "1e299"), ("720.0", "5e-324"), ("0.0", "0.0")):
            text = f"rows 1\ncolumn bearing float64 {bearing}\ncolumn range float64 {far}\nrule " + OK
            (x, y), = self.marks(ElementTree.fromstring(drawn(evaluation(text), "bearing", "range"))).values()
            self.assertTrue(60 <= x <= 660 and 60 <= y <= 660)

    def test_no_targets(self):
        text = "rows 0\ncolumn bearing int32\ncolumn range int32\nrule " + OK
        self.assertEqual(self.marks(ElementTree.fromstring(drawn(evaluation(text), "bearing", "range"))), {})


if __name__ == "__main__":
    unittest.main()
