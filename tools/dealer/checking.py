"""What the library would refuse, worked out without it: the number, and a sentence with the line and the expression."""
from dealer.layout import places
from dealer.reading import Refused, marks, read_rule, read_table
from dealer.rows import Unfit, at_row, row_of
from dealer.tree import TEXT_MOST, UTF8, WORDS, columns_of, counted, type_of
from dealer.words import sql


# refused before there is a tree of the bytes; the text has one
SHOWN = {4, 5}


def check_fit(rule, table, names):
    """13: a column that the rule names is missing, of another type, or nullable where the rule says not."""
    columns = table[1]
    for e in columns_of(rule):
        _, index, kind, nullable = e
        if index >= len(columns):
            said = f"column {index}, counted from 0, isn't there: the table has {counted(len(columns), 'column')}"
        elif columns[index][1] != kind:
            said = f"column {names[index]} is {WORDS[kind]} in the rule and {WORDS[columns[index][1]]} in the table"
        elif columns[index][2] > nullable:
            said = f"column {names[index]} is {marks(kind, 0)} in the rule and {marks(kind, 1)} in the table"
        else:
            continue
        raise Refused(13, said, "rule.bin", e.at)


def check_rows(rule, table):
    """15: a cast on a row's path fails; 16: the text is too long. Gives the entries."""
    entries = []
    for i in range(table[0]):
        try:
            entries.append(at_row(rule, row_of(table, i)))
        except Unfit as unfit:
            raise Refused(15, f"row {i}: {unfit.words()}", "rule.bin", unfit.tree.at, unfit.tree) from None
    if type_of(rule) == UTF8:
        size = sum(len(v) for v in entries if v is not None)
        if size > TEXT_MOST:
            raise Refused(16, f"the classes' texts have {size} bytes in all: at most {TEXT_MOST}")
    return entries


def check_bytes(rule_data, table_data, names=None):
    """Raises the first Refused in the library's order, given full buffers. Either part may be None: it is left out."""
    rule = None if rule_data is None else read_rule(rule_data, strict=True)
    table = None if table_data is None else read_table(table_data, strict=True)
    if rule is not None and table is not None:
        check_fit(rule, table, names or [c[0] for c in table[1]])
        check_rows(rule, table)


def sentence(refused, source):
    """`line 4: int32 < int64: types don't go together, 7 (speed < 5)`; of bytes the place stands for the line."""
    names = source.names()
    if not source.from_text:
        where = f"{refused.file}: byte {refused.at}: " if refused.at is not None else ""
        return where + str(refused) + (f" ({sql(refused.tree, names)})" if refused.tree else "")
    if refused.file == "batch.bin" and refused.column is not None:
        column = source.table[1][refused.column]
        return f"line {column.line}: column {column[0]}: {refused}"
    if refused.at is None:
        return str(refused)
    node = dict(places(source.rule))[refused.at]
    return f"line {node.line}: {refused}" + (f" ({sql(node, names)})" if refused.tree or refused.number in SHOWN else "")
