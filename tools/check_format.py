#!/usr/bin/env python3
"""check_format.py LIBRARY: compares the worked example of docs/FORMAT.md with the bytes that are made and given.

check_format.py LIBRARY --print    prints the three blocks instead

The rule and the table are made from examples/targets/targets.txt as `casetext.py make` does; the answer is that of the static library.
Every line of the three blocks is compared: the place of its first byte, the bytes, and what they say; the table's entries; and what the
functions say of the example. The bytes of the page's short examples are compared with what is made of their text, and what its casts of
constants give with what the library says. Its texts are compared with the library's test of a text and with Python's strict decoder. Prints
each difference, and fails where there is one.
"""
import ctypes
import os
import re
import sys
import tempfile

sys.dont_write_bytecode = True
HERE = os.path.dirname(os.path.abspath(__file__))
ROOT = os.path.dirname(HERE)
sys.path.insert(0, HERE)
import casetext  # noqa: E402
from dealer.layout import rule_bytes, table_bytes  # noqa: E402
from dealer.library import Library  # noqa: E402
from dealer.reading import read_answer, read_rule, read_table  # noqa: E402
from dealer.text import FileError, load_bytes, parse  # noqa: E402
from dealer.tree import TITLES, UTF8, counted  # noqa: E402
from dealer.words import explanation, value_text  # noqa: E402

TARGETS = os.path.join(ROOT, "examples", "targets")


def made(folder):
    """The bytes of the example's rule and table, and its columns' names."""
    casetext.main(["make", os.path.join(TARGETS, "targets.txt"), folder])
    names = load_bytes(os.path.join(folder, "names.txt")).decode().split()
    return load_bytes(os.path.join(folder, "rule.bin")), load_bytes(os.path.join(folder, "batch.bin")), names


class Lines:
    """Bytes taken from the front, each part with words on it: eight bytes a line at most."""

    def __init__(self, data):
        self.data, self.at, self.lines = data, 0, []

    def take(self, count, words):
        self.lines.append(f"{self.at:4}  {self.data[self.at:self.at + count].hex(' ').upper():<23}  {words}")
        self.at += count

    def head(self, words, indent=2):
        """The header of a field; gives the length of its content."""
        size = int.from_bytes(self.data[self.at + 1:self.at + 3], "little")
        self.take(3, " " * indent + f"{words}, {size} byte{'' if size == 1 else 's'}")
        return size

    def column(self, title, kind, nullable, values):
        """A column's fields; values are its entries."""
        self.head(f"{title}type and null mark", 0)
        self.take(2, f"    {TITLES[kind]}, {'nullable' if nullable else 'never null'}")
        self.head("null count")
        self.take(2, f"    {counted(values.count(None), 'null')}")
        size = self.head("validity" if None in values else "validity, no null")
        if size:
            nulls = [str(i) for i, v in enumerate(values) if v is None]
            self.take(size, f"    null at row{'' if len(nulls) == 1 else 's'} {', '.join(nulls)}; a value at the others")
        if kind == UTF8:
            self.offsets(values)
        self.values(self.head("values"), kind, values)

    def offsets(self, values):
        left = self.head("offsets") // 4
        while left:
            row, here = len(values) + 1 - left, min(left, 2)
            places = [f"row {i} from" if i < len(values) else "end at" for i in range(row, row + here)]
            words = [f"{p} {int.from_bytes(self.data[self.at + 4 * i:self.at + 4 * i + 4], 'little')}" for i, p in enumerate(places)]
            self.take(4 * here, "    " + ", ".join(words))
            left -= here

    def values(self, size, kind, values):
        """Texts a line each; numbers as many as eight bytes hold."""
        if kind == UTF8:
            for row, value in enumerate(values):
                self.take(len(value or b""), f"    row {row}: {value_text(kind, value)}")
            return
        width = size // len(values)
        for row in range(0, len(values), 8 // width):
            group = values[row:row + 8 // width]
            words = ", ".join("0 under a null" if v is None else value_text(kind, v) for v in group)
            self.take(width * len(group), f"    row{'' if len(group) == 1 else 's'} {' and '.join(str(row + i) for i in range(len(group)))}: {words}")

    def text(self):
        assert self.at == len(self.data), "bytes are left over"
        return "".join(line.rstrip() + "\n" for line in self.lines)


def table_block(data, names):
    rows, columns = read_table(data)
    out = Lines(data)
    out.head("row count", 0)
    out.take(2, f"    {rows}")
    for i, (name, (_, kind, nullable, values)) in enumerate(zip(names, columns)):
        out.column(f"column {i}, {name}: ", kind, nullable, values)
    return out.text()


def table_rows(data, names):
    """The table's entries, a line for each row."""
    rows, columns = read_table(data)
    lines = [["row"] + names, ["---"] * (len(names) + 1)]
    lines += [[str(i)] + [value_text(kind, values[i]) for _, kind, _, values in columns] for i in range(rows)]
    return "".join("| " + " | ".join(line) + " |\n" for line in lines).replace(" --- ", "---")


def answer_block(data, rows):
    kind, values = read_answer(data, rows)
    out = Lines(data)
    out.column("", kind, data[4] == 1, values)
    return out.text()


def blocks(library):
    """What the page's three blocks have to be, by their headings."""
    with tempfile.TemporaryDirectory() as folder:
        rule, table, names = made(folder)
    number, answer = library.evaluate(rule, table)
    if number is not None:
        sys.exit(f"the library refuses the example: {number}")
    for name, data in (("rule.bin", rule), ("batch.bin", table)):
        if load_bytes(os.path.join(TARGETS, name)) != data:
            sys.exit(f"examples/targets/{name} isn't what casetext.py makes")
    return {"The rule": fenced(explanation(read_rule(rule))), "The table": table_rows(table, names) + "\n" + fenced(table_block(table, names)),
            "The answer": said(library.so, rule, table, answer) + "\n\n" + fenced(answer_block(answer, read_table(table)[0]))}


def fenced(block):
    return f"```\n{block}```\n"


def said(so, rule, table, answer):
    """What the functions say of the example, in the page's words."""
    columns = ctypes.create_string_buffer(256)
    count = so.tembalku_rule_projection(rule, ctypes.c_size_t(len(rule)), columns, ctypes.c_size_t(256)) - 256
    kind, strategy, nullable = (getattr(so, f"tembalku_rule_{name}")(rule, ctypes.c_size_t(len(rule))) - 256 for name in ("read", "strategy", "nullable"))
    rows = so.tembalku_table_read(table, ctypes.c_size_t(len(table))) - 65536
    so.tembalku_table_null_count.restype = so.tembalku_answer_null_count.restype = ctypes.c_size_t
    nulls = [so.tembalku_table_null_count(table, ctypes.c_size_t(len(table)), ctypes.c_size_t(i)) - 65536 for i in range(len(read_table(table)[1]))]
    of_answer = so.tembalku_answer_null_count(answer, ctypes.c_size_t(len(answer)), ctypes.c_size_t(rows)) - 65536
    return (f"{len(answer)} bytes, so that `tembalku_evaluate` gives {65536 + len(answer):,}. Of the rule the functions say: type 256 + {kind}, "
            f"strategy 256 + {strategy}, nullability 256 + {nullable}, projection 256 + {count} "
            f"(columns {' and '.join(str(i) for i in columns.raw[:count])}). Of the table `tembalku_table_read` says 65,536 + {rows}, "
            f"`tembalku_table_null_count` of its columns 65,536 + {', + '.join(map(str, nulls[:-1]))} and + {nulls[-1]}. "
            f"Of the answer `tembalku_answer_null_count` says 65,536 + {of_answer}.")


def section(page, heading):
    """The page from a heading to the next."""
    return re.split(r"^###? ", page.partition(f"\n### {heading}\n")[2], maxsplit=1, flags=re.M)[0]


def short_examples(page):
    """Expressions of the page as `text`: bytes in hex; yields the text, the page's bytes and those that are made."""
    for text, given in re.findall(r"^\| `(\(.*\))` \| `([0-9A-F ]+)` \|$", page, re.M):
        tree, _ = parse(f"rows 0\ncolumn c0 int32 null\ncolumn c1 utf8\nrule\n(case (when (null boolean) (then {text})))\n")
        yield text, given, rule_bytes(tree[2][0][1]).hex(" ").upper()


def constant_casts(page, library):
    """Casts of the page as `text`: what it gives; yields the text, what the page says and what the library does."""
    for text, given in re.findall(r"^\| `(\(cast .*\))`.* \| (\S+) \|$", page, re.M):
        tree, _ = parse(f"rule (case (when (boolean true) (then {text})))")
        number, answer = library.entries(rule_bytes(tree), table_bytes((1, [])))
        yield text, given, "fails" if number == 8 else f"refused {number}" if number else value_text(answer[0], answer[1][0])


def ill_formed(text):
    """The place of the first byte at which no character stands, or the length, by Python's strict decoder."""
    try:
        text.decode()
    except UnicodeDecodeError as e:
        return e.start
    return len(text)


def texts(page, library):
    """Texts of the page as bytes: the place that the test gives; yields the bytes, what the page says and what the library does."""
    test = library.so.tembalku_text_validate
    test.restype, test.argtypes = ctypes.c_size_t, [ctypes.c_char_p, ctypes.c_size_t]
    for given, place, whole in re.findall(r"^\| `([0-9A-F ]+)` \| (\d+)(, the length)? \| [^|]*\|$", page, re.M):
        text = bytes.fromhex(given)
        own = test(text, len(text))
        said = f"{own}{', the length' if own == len(text) else ''}"
        yield given, place + whole, said if own == ill_formed(text) else f"{said}, and {ill_formed(text)} by the decoder"


def differences(page, library, wanted):
    """What was compared, in words, and a line for each difference."""
    wrong = [f"{heading}: its lines aren't those of check_format.py --print" for heading, block in wanted.items() if block not in section(page, heading)]
    said = [f"{len(wanted)} blocks"]
    for name, found in (("short examples", list(short_examples(page))), ("casts", list(constant_casts(page, library))),
                        ("texts", list(texts(page, library)))):
        wrong += [f"{text}: {given}, but {own}" for text, given, own in found if given != own]
        wrong += [] if found else [f"no {name} were found"]
        said.append(f"{len(found)} {name}")
    return ", ".join(said), wrong


def main(args):
    library = Library(args[0])
    wanted = blocks(library)
    if args[1:] == ["--print"]:
        print("\n".join(f"### {heading}\n\n{block}" for heading, block in wanted.items()), end="")
        return 0
    with open(os.path.join(ROOT, "docs", "FORMAT.md"), encoding="utf-8") as f:
        page = f.read()
    compared, wrong = differences(page, library, wanted)
    print("\n".join(f"docs/FORMAT.md: {line}" for line in wrong + [f"{compared} compared, {len(wrong)} differ"]))
    return 1 if wrong else 0


if __name__ == "__main__":
    if len(sys.argv) < 2 or sys.argv[2:] not in ([], ["--print"]):
        sys.exit("usage: check_format.py LIBRARY [--print]")
    try:
        sys.exit(main(sys.argv[1:]))
    except FileError as e:
        sys.exit(str(e))
