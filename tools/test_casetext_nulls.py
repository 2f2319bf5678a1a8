#!/usr/bin/env python3
"""test_casetext_nulls.py: tests of casetext.py on null counts (tag 6): written in every column, read where they stand, and refused where
they are cut, doubled, misplaced or wrong. Run by test_casetext.py; test_casetext_run.py holds the same tables against the library."""
import os
import sys
import unittest

sys.dont_write_bytecode = True
sys.path.insert(0, os.path.dirname(os.path.abspath(__file__)))
from dealer.layout import field, number, rule_bytes, table_bytes  # noqa: E402
from dealer.reading import Refused, read_answer, read_table  # noqa: E402
from dealer.text import parse  # noqa: E402
from test_casetext import run  # noqa: E402
from test_casetext_check import InFolder, OK  # noqa: E402

# fields of a column of four Booleans, true null false true: its spare bits are 0
HEAD, NEVER = "0202000101", "0202000100"
VALID, VALUES = "0301000d", "04010009"
ROWS, NO_ROWS = "0102000400", "0102000000"
EMPTY = "030000"


def count(n, width=2):
    return field(6, number(n, width)).hex()


# tables that are taken: what they are, the bytes, the null count of each column
TAKEN = [
    ("a count", ROWS + HEAD + count(1) + VALID + VALUES, [1]),
    ("no count", ROWS + HEAD + VALID + VALUES, [1]),
    ("one with and one without", ROWS + HEAD + count(1) + VALID + VALUES + HEAD + VALID + VALUES, [1, 1]),
    ("spare bits of 1", ROWS + HEAD + count(1) + "030100fd" + VALUES, [1]),
    ("spare bits of 0, no row null", ROWS + HEAD + count(0) + "0301000f" + VALUES, [0]),
    ("every row null", ROWS + HEAD + count(4) + "03010000" + VALUES, [4]),
    ("no validity", ROWS + HEAD + count(0) + EMPTY + VALUES, [0]),
    ("never null", ROWS + NEVER + count(0) + EMPTY + VALUES, [0]),
    ("no rows", NO_ROWS + HEAD + count(0) + EMPTY + "040000", [0]),
    ("two bytes are needed", "0102002c01" + HEAD + count(299) + "032600" + "01" + "00" * 37 + "042600" + "00" * 38, [299]),
    ("text", "0102000200" + "0202000501" + count(1) + "03010001" + "050c00000000000100000001000000" + "04010061", [1]),
]
# tables that are refused: what they are, the bytes, the number, the sentence
TURNED_AWAY = [
    ("cut in its header", ROWS + HEAD + "0602", 9, "byte 10: a field is missing or cut, 9"),
    ("cut behind its tag", ROWS + HEAD + "06", 9, "byte 10: a field is missing or cut, 9"),
    ("past the end", ROWS + HEAD + "060900" + "0100" + VALID + "0400", 9, "byte 10: the field runs past its end, 9"),
    ("doubled", ROWS + HEAD + count(1) * 2 + VALID + VALUES, 9, "byte 15: tag 6 where 3 is expected, 9"),
    ("behind tag 3", ROWS + HEAD + VALID + count(1) + VALUES, 9, "byte 14: tag 6 where 4 is expected, 9"),
    ("behind tag 4", ROWS + HEAD + VALID + VALUES + count(1), 9, "byte 18: tag 6 where 2 is expected, 9"),
    ("before tag 2", ROWS + count(1) + HEAD + VALID + VALUES, 9, "byte 5: tag 6 where 2 is expected, 9"),
    ("before tag 1", count(0) + ROWS, 9, "byte 0: tag 6 where 1 is expected, 9"),
    ("between tags 5 and 4", "0102000000" + "0202000501" + EMPTY + "05040000000000" + count(0) + "040000", 9, "byte 20: tag 6 where 4 is expected, 9"),
    ("no byte", ROWS + HEAD + count(0, 0) + VALID + VALUES, 25, "byte 10: a null count of 0 bytes: it has 2, 25"),
    ("one byte", ROWS + HEAD + count(1, 1) + VALID + VALUES, 25, "byte 10: a null count of 1 byte: it has 2, 25"),
    ("three bytes", ROWS + HEAD + count(1, 3) + VALID + VALUES, 25, "byte 10: a null count of 3 bytes: it has 2, 25"),
    ("too few", ROWS + HEAD + count(0) + VALID + VALUES, 25, "byte 10: the null count says 0, but 1 row is null, 25"),
    ("too many", ROWS + HEAD + count(2) + VALID + VALUES, 25, "byte 10: the null count says 2, but 1 row is null, 25"),
    ("values counted", ROWS + HEAD + count(3) + VALID + VALUES, 25, "byte 10: the null count says 3, but 1 row is null, 25"),
    ("spare bits counted", ROWS + HEAD + count(5) + VALID + VALUES, 25, "byte 10: the null count says 5, but 1 row is null, 25"),
    ("a byte order", ROWS + HEAD + count(256) + VALID + VALUES, 25, "byte 10: the null count says 256, but 1 row is null, 25"),
    ("the high byte", ROWS + HEAD + count(257) + VALID + VALUES, 25, "byte 10: the null count says 257, but 1 row is null, 25"),
    ("no validity", ROWS + HEAD + count(1) + EMPTY + VALUES, 25, "byte 10: the null count says 1, but 0 rows are null, 25"),
    ("no rows", NO_ROWS + HEAD + count(65535) + EMPTY + "040000", 25, "byte 10: the null count says 65535, but 0 rows are null, 25"),
    ("12 before 25", ROWS + NEVER + count(0) + VALID + VALUES, 12, "byte 5: row 1 is null, but the column isn't marked null, 12"),
    ("12 before a length", ROWS + NEVER + count(0, 0) + VALID + VALUES, 12, "byte 5: row 1 is null, but the column isn't marked null, 12"),
    ("11 of the type before a cut", ROWS + "0202000601" + "0602", 11, "byte 8: 6 is no type, 11"),
    ("11 of tag 3 before 25", ROWS + HEAD + count(0) + "0302000d00" + VALUES, 11, "byte 18: 2 bytes of validity for 4 rows, 11"),
    ("9 of tag 4 before 25", ROWS + HEAD + count(0) + VALID, 9, "byte 19: a field is missing or cut, 9"),
    ("25 before the next column's 9", ROWS + HEAD + count(0) + VALID + VALUES + "02", 25, "byte 10: the null count says 0, but 1 row is null, 25"),
    ("25 before the next column's 11", ROWS + HEAD + count(0) + VALID + VALUES + "0202000701", 25, "byte 10: the null count says 0, but 1 row is null, 25"),
    ("12 of the first before 25 of the second", ROWS + NEVER + VALID + VALUES + HEAD + count(0) + VALID + VALUES, 12,
     "byte 5: row 1 is null, but the column isn't marked null, 12"),
    ("25 of the second", ROWS + HEAD + count(1) + VALID + VALUES + HEAD + count(0) + VALID + VALUES, 25,
     "byte 28: the null count says 0, but 1 row is null, 25"),
    ("a 17th column before its count", NO_ROWS + (HEAD + count(0) + EMPTY + "040000") * 16 + HEAD + "06", 10, "byte 261: a 17th column: at most 16, 10"),
]


class Written(unittest.TestCase):
    def test_every_column(self):
        """Each column that is made says its nulls, also 0."""
        _, table = parse("rows 3\ncolumn a int32 null 1 null null\ncolumn b boolean true true false\nrule " + OK)
        self.assertEqual(table_bytes(table).hex(), "0102000300" "0202000201" "0602000200" "03010001" "040c00010000000000000000000000"
                         "0202000100" "0602000000" "030000" "04010003")

    def test_both_forms(self):
        """A table without counts is read as it is with them, and written with them."""
        for name, data, nulls in TAKEN:
            with self.subTest(name):
                rows, columns = read_table(bytes.fromhex(data), True)
                self.assertEqual([c[3].count(None) for c in columns], nulls)
                again = table_bytes((rows, columns))
                self.assertEqual(read_table(again, True), (rows, columns))
                self.assertEqual(again.hex().count("060200"), len(columns))


class Read(InFolder):
    def test_refused(self):
        """check says the number and the place."""
        self.write("rule.bin", rule_bytes(parse("rule " + OK)[0]))
        for name, data, want, words in TURNED_AWAY:
            with self.subTest(name):
                self.write("batch.bin", bytes.fromhex(data))
                self.assertEqual(run("check", self.folder), (1, "", f"{self.folder}: batch.bin: {words}\n"))
                with self.assertRaises(Refused) as caught:
                    read_table(bytes.fromhex(data), True)
                self.assertEqual(caught.exception.number, want)

    def test_shown(self):
        """A table whose count is wrong is still shown."""
        self.write("rule.bin", rule_bytes(parse("rule " + OK)[0]))
        self.write("batch.bin", bytes.fromhex(ROWS + HEAD + count(2) + VALID + VALUES))
        code, out, err = run("show", self.folder)
        self.assertEqual((code, err), (0, ""))
        self.assertIn("column c0 boolean null true null false true\n", out)

    def test_taken(self):
        self.write("rule.bin", rule_bytes(parse("rule " + OK)[0]))
        for name, data, nulls in TAKEN:
            with self.subTest(name):
                self.write("batch.bin", bytes.fromhex(data))
                self.assertEqual(run("check", self.folder)[0::2], (0, ""))
                self.assertEqual(run("show", self.folder)[1].count("column"), len(nulls))


class Answers(unittest.TestCase):
    def test_demanded(self):
        """An answer has its count, and the right one."""
        head, rest = "0202000200", "03010001" "0408000500000000000000"
        self.assertEqual(read_answer(bytes.fromhex(head + count(1) + rest), 2), (2, [5, None]))
        for name, between in (("none", ""), ("wrong", count(0)), ("of one byte", count(1, 1)), ("doubled", count(1) * 2)):
            with self.subTest(name):
                self.assertRaises(Refused, read_answer, bytes.fromhex(head + between + rest), 2)


if __name__ == "__main__":
    unittest.main()
