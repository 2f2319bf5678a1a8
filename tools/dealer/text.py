"""Reads a text into a tree and a table, and says in a dealer's words what can't be read.

A text has a table (rows, columns), a rule, or both. Line numbers stay with the nodes and columns.
"""
import re

from dealer.floats import bits_of
from dealer.layout import column_bytes, rule_bytes
from dealer.mistakes import hint, sql_sentence
from dealer.tree import (BOOLEAN, BRANCHES_MOST, CASTS, COLUMNS_MOST, FLOAT64, INT32, INT64, NESTED_MOST, PLAIN, ROWS_MOST, RULE_MOST, TABLE_MOST,
                         TYPES, UTF8, WORDS, Node, counted)

TOKEN = re.compile(r'[ \t\r]+|#[^\n]*|(?P<end>\n)|(?P<mark>[()])|(?P<text>x?"(?:[^"\\\n]|\\.)*")|(?P<word>[^\s()"#]+)')
NAME = re.compile(r"[A-Za-z_][A-Za-z0-9_]*\Z")
COUNT = re.compile(r"[0-9]{1,5}\Z")
DECIMAL = re.compile(r"[+-]?[0-9]+\Z")
FLOAT = re.compile(r"[+-]?([0-9]+\.?[0-9]*|\.[0-9]+)([eE][+-]?[0-9]+)?\Z")
COMMA = re.compile(r"[+-]?[0-9]+,[0-9]+\Z")
BITS = re.compile(r"0x[0-9a-fA-F]{16}\Z")


class TextError(Exception):
    """What is wrong in a text, and in which line (None: in no particular one)."""

    def __init__(self, line, message):
        super().__init__(message if line is None else f"line {line}: {message}")


class FileError(Exception):
    """A file that can't be taken, in a sentence."""


MARKS = ((b"\xef\xbb\xbf", "begins with a byte order mark, which some editors add: save it as UTF-8 without one (without BOM)"),
         (b"\xff\xfe", "is UTF-16 (it begins with a byte order mark): save it as UTF-8 without one"),
         (b"\xfe\xff", "is UTF-16 (it begins with a byte order mark): save it as UTF-8 without one"))


def load_bytes(path):
    try:
        with open(path, "rb") as f:
            return f.read()
    except FileNotFoundError:
        raise FileError(f"{path}: there is no such file") from None
    except IsADirectoryError:
        raise FileError(f"{path}: is a folder: name the text in it") from None
    except OSError as e:
        raise FileError(f"{path}: can't be read: {e.strerror}") from None


def load_text(path):
    data = load_bytes(path)
    for mark, sentence in MARKS:
        if data.startswith(mark):
            raise FileError(f"{path}: {sentence}")
    if b"\0" in data:
        raise FileError(f"{path}: holds bytes, not text: `casetext.py show FOLDER` prints rule.bin and batch.bin of a folder as text")
    try:
        return data.decode("utf-8")
    except UnicodeDecodeError as e:
        line = data[:e.start].count(b"\n") + 1
        raise FileError(f"{path}: line {line}: not UTF-8: save the file as UTF-8") from None


def unreadable(rest):
    """Only a quote that isn't closed and a blank that isn't plain begin no token."""
    quote = rest.startswith('"')
    return f"can't read {rest!r}: " + ("a text has a quote at both ends, in one line" if quote else "put a plain blank for the first character")


def tokens(text):
    """Pairs of a token and its line; the last is the empty token."""
    out, at, line = [], 0, 1
    while at < len(text):
        m = TOKEN.match(text, at)
        if not m:
            raise TextError(line, unreadable(text[at:at + 10].split("\n")[0]))
        if m.group("end"):
            line += 1
        elif m.lastgroup:
            out.append((m.group(), line))
        at = m.end()
    return out + [("", line)]


def text_value(token, line):
    if token.startswith("x"):
        try:
            return bytes.fromhex(token[2:-1])
        except ValueError:
            raise TextError(line, f"{token} is not hex") from None
    body = token[1:-1]
    bad = re.search(r'\\[^"\\]', re.sub(r'\\[\\"]', "", body))
    if bad:
        raise TextError(line, f"{bad.group()} is no escape")
    return re.sub(r'\\(["\\])', r"\1", body).encode("utf-8")


def float_bits(token, line):
    f = float(token)
    if f in (float("inf"), float("-inf")):
        raise TextError(line, f"{token} is outside of float64")
    return bits_of(f)


def value_of(kind, token, line):
    """The value of a token, by its type."""
    if kind == UTF8 and token.endswith('"'):
        return text_value(token, line)
    if kind == BOOLEAN and token in ("true", "false"):
        return token == "true"
    if kind in (INT32, INT64) and DECIMAL.match(token):
        most = 1 << (31 if kind == INT32 else 63)
        n = int(token) if len(token) < 40 else most
        if not -most <= n < most:
            raise TextError(line, f"{token} is outside of {WORDS[kind]}")
        return n
    if kind == FLOAT64 and BITS.match(token):
        return int(token, 16)
    if kind == FLOAT64 and FLOAT.match(token):
        return float_bits(token, line)
    raise TextError(line, f"{token or 'the end'} is no {WORDS[kind]}{value_hint(kind, token)}")


def value_hint(kind, token):
    """What to write in place of a token that is no value of the type, or nothing."""
    if token == "(":
        return ": is the line `rule` missing before it?"
    if kind == UTF8 and token:
        return ': text stands in double quotes, "boat"'
    if kind in (INT32, INT64) and FLOAT.match(token):
        return ": a number with a point is float64"
    if COMMA.match(token):
        return ": a number has a point, not a comma, and is float64 then"
    return ""


class Parser:
    """Reads a text. Columns that are given stand for the text's own in its rule."""

    def __init__(self, text, columns=None):
        self.tokens, self.at = tokens(text), 0
        self.given = columns
        self.rows, self.columns = None, []

    def peek(self):
        return self.tokens[self.at][0]

    def line(self):
        return self.tokens[self.at][1]

    def take(self):
        token = self.tokens[self.at]
        self.at = min(self.at + 1, len(self.tokens) - 1)
        return token

    def expect(self, *words):
        token, line = self.take()
        if token not in words:
            said = ": a result stands in brackets of its own, (then E)" if "then" in words else hint(token, [c[0] for c in self.known()])
            raise TextError(line, f"{token or 'the end'} where {' or '.join(words)} is expected{said}")
        return token

    def close(self, opened):
        """The bracket that closes the one of a line."""
        if not self.peek():
            raise TextError(self.line(), f"the text ends, but the bracket of line {opened} isn't closed")
        self.expect(")")

    def kind(self):
        token, line = self.take()
        if token not in TYPES:
            raise TextError(line, f"{token or 'the end'} is no type: the types are {', '.join(TYPES)}")
        return TYPES[token]

    def mark(self):
        if self.peek() == "null":
            self.take()
            return 1
        return 0

    def known(self):
        """The columns that a rule can name."""
        return self.columns if self.given is None else self.given

    def parse(self):
        """The tree, or None, and the table, or None."""
        sql = sql_sentence([token for token, _ in self.tokens])
        if sql:
            raise TextError(self.line(), sql)
        if self.peek() not in ("rows", "rule"):
            said = self.peek() + " where rows or rule is expected" if self.peek() else "there is nothing in it"
            raise TextError(self.line(), f"{said}: a table begins with the number of its targets, `rows 8`, a rule with `rule`")
        if self.peek() == "rows":
            self.table()
        e = self.rule() if self.peek() == "rule" else None
        token, line = self.take()
        if token and e is None:
            raise TextError(line, f"{token} where column or rule is expected{hint(token)}")
        if token:
            why = "the table stands before the rule" if token in ("rows", "column") else "its last bracket stands before it"
            raise TextError(line, f"{token} behind the rule: {why}")
        return e, None if self.rows is None else (self.rows, self.columns)

    def table(self):
        self.take()
        token, line = self.take()
        if not token.isascii() or not token.isdigit():
            raise TextError(line, f"{token or 'the end'} is no row count")
        if not COUNT.match(token) or int(token) > 65535:
            raise TextError(None, f"{token} rows: at most {ROWS_MOST}, 10")
        self.rows = int(token)
        while self.peek() == "column":
            self.take()
            self.column()

    def column(self):
        name, line = self.take()
        if not NAME.match(name):
            raise TextError(line, f"{name or 'the end'} is no name: letters, digits and _")
        if any(c[0] == name for c in self.columns):
            raise TextError(line, f"a second column {name}")
        if len(self.columns) == 256:
            raise TextError(line, f"a 257th column: at most {COLUMNS_MOST}, 10")
        kind, nullable, values = self.kind(), self.mark(), []
        while self.peek() not in ("column", "rule", ""):
            token, at = self.take()
            values.append(None if token == "null" else value_of(kind, token, at))
        if len(values) != self.rows:
            first = "; the first null is the column's mark, not a value" if nullable and len(values) + 1 == self.rows else ""
            raise TextError(line, f"column {name} has {counted(len(values), 'value')} for {counted(self.rows, 'row')}{first}")
        try:
            column_bytes(kind, nullable, values)
        except OverflowError:
            raise TextError(line, f"column {name} is too long: a table has at most {TABLE_MOST} bytes, 9") from None
        self.columns.append(Node((name, kind, nullable, values), line))

    def rule(self):
        self.take()
        line = self.line()
        sql = sql_sentence([token for token, _ in self.tokens[self.at:]])
        if sql:
            raise TextError(line, sql)
        e = self.expr()
        if e[0] != "case":
            raise TextError(line, "a rule is a (case ..)")
        return e

    def expr(self, depth=1):
        line = self.line()
        if depth > NESTED_MOST:
            raise TextError(line, f"nested more than {NESTED_MOST} deep, 4")
        self.expect("(")
        word, at = self.take()
        if word == "case":
            parts = self.case(depth, line)
        elif word == "col":
            parts = self.col()
        elif word == "null":
            parts = ("literal", self.kind(), None)
        elif word in TYPES:
            parts = ("literal", TYPES[word], value_of(TYPES[word], *self.take()))
        elif word in CASTS:
            parts = (word, self.kind(), self.expr(depth + 1))
        elif word in PLAIN:
            parts = (word,) + tuple(self.expr(depth + 1) for _ in range(PLAIN[word][1]))
        else:
            raise TextError(at, f"{word or 'the end'} is no expression{hint(word, [c[0] for c in self.known()])}")
        self.close(line)
        return self.sized(Node(parts, line))

    @staticmethod
    def sized(e):
        try:
            rule_bytes(e)
        except OverflowError:
            raise TextError(e.line, f"too long: a rule has at most {RULE_MOST} bytes, 1") from None
        return e

    def col(self):
        name, line = self.take()
        columns = self.known()
        index = next((i for i, c in enumerate(columns) if c[0] == name), None)
        if index is None and COUNT.match(name) and int(name) < 256:
            index = int(name)
        if index is None:
            there = ", ".join(c[0] for c in columns)
            raise TextError(line, f"no column {name or 'before the end'}" + (f": there are {there}" if there else ": there is no table before the rule"))
        if self.peek() != ")":
            return ("col", index, self.kind(), self.mark())
        if index >= len(columns):
            raise TextError(line, f"column {name} isn't in the table: its type is needed")
        return ("col", index) + tuple(columns[index][1:3])

    def case(self, depth, line):
        base, branches, other = None, [], None
        while self.peek() == "(":
            opened = self.line()
            self.take()
            word, at = self.take()
            if word == "base" and base is None and not branches and other is None:
                base = self.expr(depth + 1)
            elif word == "when" and other is None:
                when = self.expr(depth + 1)
                self.expect("(")
                self.expect("then")
                branches.append((when, self.expr(depth + 1)))
                self.close(opened)
            elif word == "else" and other is None:
                other = self.expr(depth + 1)
            else:
                order = ": WHENs stand before the ELSE, of which there is one" if word in ("when", "else") else hint(word)
                raise TextError(at, f"{word or 'the end'} out of place in a case{order}")
            self.close(opened)
        if len(branches) > 255:
            raise TextError(line, f"{len(branches)} branches: at most {BRANCHES_MOST}, 6")
        return ("case", base, branches, other)


def parse(text, columns=None):
    """The tree and the table of a text; either may be None. A rule's names are those of the columns that are given, or the text's own."""
    return Parser(text, columns).parse()
