"""Reads the bytes of a rule and of a table, with the library's refusals in the library's order (docs/REFUSALS.md).

Strictly, everything that the library refuses is refused. Else only bytes that have no tree or table are (2, 3, 9, 11), so that a
refused rule can be shown.
"""
import struct

from dealer.rows import constant_unfit
from dealer.tree import (BOOLEAN, BRANCHES_MOST, CASE, CASES_MOST, CASTS, COLUMN, COLUMNS_MOST, DEPTH_MOST, LITERAL, NAMES, NESTED_MOST,
                         ROWS_MOST, RULE_MOST, TABLE_MOST, TAGS, UTF8, WIDTHS, WORDS, FLOAT64, Node, counted)
from dealer.typecheck import misfit

SHAPELESS = {2, 3, 9, 11}


class Refused(Exception):
    """A refusal: its number, what is wrong, and where: the file and the place of the byte, the node, the index of the column."""

    def __init__(self, number, words, file=None, at=None, tree=None, column=None):
        super().__init__(f"{words}, {number}")
        self.number, self.words, self.file, self.at, self.tree, self.column = number, words, file, at, tree, column


class Fields:
    """Walks the fields of a file; `cut` is the number of a field that is missing or cut."""

    file = cut = None

    def __init__(self, data, strict):
        self.data, self.strict = data, strict

    def refuse(self, number, words, at=None, **where):
        if self.strict or number in SHAPELESS:
            raise Refused(number, words, self.file, at, **where)

    def header(self, at, end):
        """Tag, start and end of the content."""
        if at + 3 > end:
            self.refuse(self.cut, "a field is missing or cut", at)
        stop = at + 3 + int.from_bytes(self.data[at + 1:at + 3], "little")
        if stop > end:
            self.refuse(self.cut, "the field runs past its end", at)
        return self.data[at], at + 3, stop

    def kind(self, at, number):
        if self.data[at] not in WORDS:
            self.refuse(number, f"{self.data[at]} is no type", at)
        return self.data[at]

    def flag(self, at, number):
        if self.data[at] > 1:
            self.refuse(number, f"{self.data[at]} is neither 0 nor 1", at)
        return self.data[at]


def decoded(kind, raw):
    if kind == UTF8:
        return raw
    if kind == BOOLEAN:
        return raw[0] == 1
    return int.from_bytes(raw, "little", signed=kind != FLOAT64)


class RuleReader(Fields):
    file, cut = "rule.bin", 2

    def __init__(self, data, strict):
        super().__init__(data, strict)
        self.seen = {}

    def rule(self):
        size = len(self.data)
        if not 0 < size <= RULE_MOST:
            self.refuse(1, f"the rule has {size} bytes: at most {RULE_MOST}" if size else "the rule is empty")
        e, stop = self.expr(0, size, 1, 0)
        if stop != size:
            self.refuse(3, "bytes left over behind the rule", stop)
        unfit = constant_unfit(e) if self.strict else None
        if unfit:
            self.refuse(8, unfit.words(), unfit.tree.at, tree=unfit.tree)
        return e

    def expr(self, at, end, depth, cases):
        """The node of the field there, and where the field ends. `cases` are the CASEs above."""
        tag, start, stop = self.header(at, end)
        if tag not in NAMES:
            self.refuse(3, f"{tag} is no tag", at)
        if depth == 1 and tag != CASE:
            self.refuse(3, "a rule is a CASE", at)
        cases += tag == CASE
        self.depth(at, depth, cases)
        if tag == COLUMN:
            return self.column(at, start, stop), stop
        if tag == LITERAL:
            return self.literal(at, start, stop), stop
        parts, place = (self.case if tag == CASE else self.plain)(tag, start, stop, depth, cases)
        e = Node(parts, at=at)
        if place != stop:
            self.refuse(3, "bytes left over", place)
        wrong = misfit(e) if self.strict else None
        if wrong:
            self.refuse(7, f"{wrong[1]}: types don't go together", wrong[0].at, tree=wrong[0])
        return e, stop

    def depth(self, at, depth, cases):
        if depth > DEPTH_MOST:
            self.refuse(4, f"nested more than {DEPTH_MOST} deep", at)
        if cases > CASES_MOST:
            self.refuse(4, f"a CASE inside of {CASES_MOST} others: at most {CASES_MOST} in all", at)
        if depth > NESTED_MOST:
            raise Refused(4, f"nested more than {NESTED_MOST} deep", self.file, at)

    def column(self, at, start, stop):
        if stop - start != 3:
            self.refuse(3, "a column has 3 bytes", start)
        index, kind, nullable = self.data[start], self.kind(start + 1, 3), self.flag(start + 2, 3)
        e = Node(("col", index, kind, nullable), at=at)
        before = self.seen.setdefault(index, (kind, nullable))
        if before != (kind, nullable):
            self.refuse(7, f"{marks(kind, nullable)} here, {marks(*before)} before: one column marked in two ways", at, tree=e)
        return e

    def literal(self, at, start, stop):
        if stop - start < 2:
            self.refuse(3, "a literal without type and null mark", start)
        kind, raw = self.kind(start, 3), self.data[start + 2:stop]
        if self.flag(start + 1, 3):
            if raw:
                self.refuse(3, "a value behind a null mark", start + 2)
            return Node(("literal", kind, None), at=at)
        if kind != UTF8 and len(raw) != (1 if kind == BOOLEAN else WIDTHS[kind]):
            self.refuse(3, f"{len(raw)} bytes are no {WORDS[kind]}", start + 2)
        if kind == BOOLEAN:
            self.flag(start + 2, 3)
        return Node(("literal", kind, decoded(kind, raw)), at=at)

    def in_turn(self, count, place, stop, depth, cases):
        """That many children from a place on, and where they end."""
        out = []
        for _ in range(count):
            e, place = self.expr(place, stop, depth + 1, cases)
            out.append(e)
        return out, place

    def plain(self, tag, start, stop, depth, cases):
        word, count = TAGS[tag]
        head = ()
        if word in CASTS:
            if start == stop:
                self.refuse(3, "a cast without type", start)
            head = (self.kind(start, 3),)
        below, place = self.in_turn(count, start + len(head), stop, depth, cases)
        return (word,) + head + tuple(below), place

    def case(self, _, start, stop, depth, cases):
        if stop - start < 2:
            self.refuse(3, "a CASE without flags and count", start)
        flags, count = self.data[start], self.data[start + 1]
        if flags > 3:
            self.refuse(3, f"{flags} are no flags", start)
        if count == 0:
            self.refuse(5, "a CASE without a WHEN", start - 3)
        if count > BRANCHES_MOST:
            self.refuse(6, f"{count} branches: at most {BRANCHES_MOST}", start - 3)
        has_base, has_else = flags & 1, flags >> 1
        below, place = self.in_turn(has_base + 2 * count + has_else, start + 2, stop, depth, cases)
        base = below.pop(0) if has_base else None
        other = below.pop() if has_else else None
        return ("case", base, list(zip(below[::2], below[1::2])), other), place


def marks(kind, nullable):
    return WORDS[kind] + (" null" if nullable else "")


class TableReader(Fields):
    file, cut = "batch.bin", 9

    def expect(self, tag, at):
        """Start and end of the content of the field there, which must have the tag."""
        found, start, stop = self.header(at, len(self.data))
        if found != tag:
            self.refuse(9, f"tag {found} where {tag} is expected", at)
        return start, stop

    def table(self):
        size = len(self.data)
        if not 0 < size <= TABLE_MOST:
            self.refuse(9, f"the table has {size} bytes: at most {TABLE_MOST}" if size else "the table is empty")
        start, at = self.expect(1, 0)
        if at - start != 2:
            self.refuse(9, "a row count has 2 bytes", start)
        rows, columns = int.from_bytes(self.data[start:at], "little"), []
        if rows > ROWS_MOST:
            self.refuse(10, f"{rows} rows: at most {ROWS_MOST}")
        while at < size:
            (kind, nullable, values), at = self.column(at, rows, len(columns))
            columns.append((f"c{len(columns)}", kind, nullable, values))
        return rows, columns

    def column(self, at, rows, index=None):
        """Type, mark and values of the column there, and where it ends. An answer has no index: it always has tag 6, and no 12."""
        start, stop = self.expect(2, at)
        if stop - start != 2:
            self.refuse(9, "a column's head has 2 bytes", start)
        if index == COLUMNS_MOST:
            self.refuse(10, f"a {COLUMNS_MOST + 1}th column: at most {COLUMNS_MOST}", at, column=index)
        kind, nullable = self.kind(start, 11), self.flag(start + 1, 11)
        count, stop = self.null_count(stop, index is None)
        room = (rows + 7) // 8
        start, stop = self.expect(3, stop)
        valid = self.data[start:stop]
        if len(valid) not in (0, room):
            self.refuse(11, f"{len(valid)} bytes of validity for {rows} rows", start)
        ends, stop = self.offsets(stop, rows) if kind == UTF8 else (None, stop)
        start, stop = self.expect(4, stop)
        raw = self.data[start:stop]
        if len(raw) != (room if kind == BOOLEAN else ends[-1] if kind == UTF8 else rows * WIDTHS[kind]):
            self.refuse(11, f"{len(raw)} bytes of values for {rows} rows", start)
        values = [entry(kind, valid, ends, raw, i) for i in range(rows)]
        if not nullable and None in values and index is not None:
            self.refuse(12, f"row {values.index(None)} is null, but the column isn't marked null", at, column=index)
        self.check_count(count, values.count(None), at + 5, index)
        return (kind, nullable, values), stop

    def null_count(self, at, demanded):
        """The content of tag 6 there, and where it ends; None where another tag stands and none is demanded."""
        if not demanded and self.data[at:at + 1] != b"\6":
            return None, at
        start, stop = self.expect(6, at)
        return self.data[start:stop], stop

    def check_count(self, count, nulls, at, index):
        if count is not None and len(count) != 2:
            self.refuse(25, f"a null count of {counted(len(count), 'byte')}: it has 2", at, column=index)
        elif count is not None and int.from_bytes(count, "little") != nulls:
            said = f"the null count says {int.from_bytes(count, 'little')}, but {counted(nulls, 'row')} {'is' if nulls == 1 else 'are'} null"
            self.refuse(25, said, at, column=index)

    def offsets(self, at, rows):
        start, stop = self.expect(5, at)
        if stop - start != 4 * rows + 4:
            self.refuse(11, f"{stop - start} bytes of offsets for {rows} rows", start)
        ends = struct.unpack(f"<{rows + 1}I", self.data[start:stop])
        if ends[0] != 0 or any(a > b for a, b in zip(ends, ends[1:])):
            self.refuse(11, "offsets start at 0 and never fall", start)
        return ends, stop


def entry(kind, valid, ends, raw, i):
    if valid and not valid[i // 8] >> i % 8 & 1:
        return None
    if kind == BOOLEAN:
        return bool(raw[i // 8] >> i % 8 & 1)
    if kind == UTF8:
        return raw[ends[i]:ends[i + 1]]
    return decoded(kind, raw[i * WIDTHS[kind]:(i + 1) * WIDTHS[kind]])


def read_rule(data, strict=False):
    return RuleReader(data, strict).rule()


def read_table(data, strict=False):
    return TableReader(data, strict).table()


def read_answer(data, rows):
    """Type and entries of an answer, one column. Its mark may say never null although it holds a null."""
    (kind, _, values), stop = TableReader(data, True).column(0, rows)
    if stop != len(data):
        raise Refused(9, "bytes left over", at=stop)
    return kind, values
