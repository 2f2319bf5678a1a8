"""Where a rule and a table come from: a text, two texts, or a folder with rule.bin and batch.bin."""
import os

from dealer.checking import check_bytes, sentence
from dealer.layout import rule_bytes, table_bytes
from dealer.reading import Refused, read_rule, read_table
from dealer.tree import counted
from dealer.text import NAME, FileError, TextError, load_bytes, load_text, parse

NAMES_FILE = "names.txt"


class SourceRefused(Exception):
    """A source that the library would refuse: its number, or None if there are no bytes to refuse, and a sentence."""

    def __init__(self, number, message):
        super().__init__(message)
        self.number = number


class Source:
    """A rule and a table, as trees and as bytes; either may be None."""

    def __init__(self, name, rule, table, from_text=True, data=None, table_name=None):
        self.name, self.rule, self.table, self.from_text = name, rule, table, from_text
        self.table_name = table_name or name
        self.rule_data, self.table_data = data or (rule and rule_bytes(rule), table and table_bytes(table))

    def names(self):
        return [c[0] for c in self.table[1]] if self.table else []

    def needs(self, command):
        """Both a rule and a table."""
        if self.rule is None:
            raise FileError(f"{self.name}: there is no rule in it, and {command} needs one")
        if self.table is None:
            raise FileError(f"{self.name}: there is no table in it: name a text with one too, casetext.py {command} RULE.txt TABLE.txt")
        return self

    def check(self):
        """Refuses what the library would, in a sentence."""
        try:
            check_bytes(self.rule_data, self.table_data, self.names())
        except Refused as refused:
            name = self.table_name if refused.file == "batch.bin" else self.name
            raise SourceRefused(refused.number, f"{name}: {sentence(refused, self)}") from None
        return self


def parsed(path, columns=None):
    try:
        return parse(load_text(path), columns)
    except TextError as e:
        raise SourceRefused(None, f"{path}: {e}") from None


def from_texts(path, table_path=None):
    """The rule of one text and the table of another, or both of one."""
    if table_path is None:
        return Source(path, *parsed(path))
    _, table = parsed(table_path)
    if table is None:
        raise FileError(f"{table_path}: there is no table in it")
    rule, _ = parsed(path, table[1])
    return Source(path, rule, table, table_name=table_path)


def names_of(folder, given, count):
    """The names of the columns: those that are given, or those that make left in the folder, or c0, c1 .."""
    path = os.path.join(folder, NAMES_FILE)
    if given is not None:
        names, whence = given.split(","), "--names"
    elif os.path.exists(path):
        names, whence = load_text(path).split(), path
    else:
        return [f"c{i}" for i in range(count)]
    if len(names) != count:
        raise FileError(f"{whence}: {counted(len(names), 'name')} for {counted(count, 'column')}")
    for i, name in enumerate(names):
        if not NAME.match(name) or name in names[:i]:
            raise FileError(f"{whence}: {name!r} is no name, or there twice: letters, digits and _")
    return names


def refused_bytes(folder, data):
    """What the library would say of bytes that have no tree or table."""
    try:
        check_bytes(*data)
    except Refused as refused:
        where = f"{refused.file}: " + (f"byte {refused.at}: " if refused.at is not None else "")
        return SourceRefused(refused.number, f"{folder}: {where}{refused}")
    raise AssertionError("bytes without a tree were not refused")


def from_folder(folder, names=None):
    """The two files of a folder, as far as their bytes have a tree and a table."""
    data = tuple(load_bytes(os.path.join(folder, name)) for name in ("rule.bin", "batch.bin"))
    try:
        rule, (rows, columns) = read_rule(data[0]), read_table(data[1])
    except Refused:
        raise refused_bytes(folder, data) from None
    named = zip(names_of(folder, names, len(columns)), columns)
    return Source(folder, rule, (rows, [(name,) + c[1:] for name, c in named]), False, data)


def load(path, table_path=None):
    """The source that one or two paths name."""
    if os.path.isdir(path) and table_path is None:
        return from_folder(path)
    return from_texts(path, table_path)
