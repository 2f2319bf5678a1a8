#!/usr/bin/env python3
"""make_cases.py: writes the data of the programs rule_cases and table_cases, from the stored cases of tools/cases.

crates/rule_cases/data/rulesK.bin    records of: rule's length (2 bytes), rule, refusal number or 0, strategy, nullable, type, number of
                                     columns, columns (all 0 but the first for a refused rule); all of rules.txt, ten rules with a byte
                                     behind the root CASE, and every rule of listing.txt that is refused as a rule
crates/rule_cases/args, stdout       its files, rulesK.bin and the rustK.bin that are there (the same records, not made here), and how many
                                     rules each has
crates/table_cases/data/tablesK.bin  records of: table's length (4 bytes), table; all refused tables of listing.txt, and 20 accepted of each
                                     folder, those above 4,096 bytes left out
crates/table_cases/args, stdout      its files, and for each table its number in the file, and the refusal, or its rows and each column's nulls
                                     and entries

rules.txt has no types: a rule's type is worked out from its bytes, and compared with that of the rule's answers in listing.txt and runs.txt.
Numbers are little-endian. No file is longer than 65,536 bytes.
"""
import os

from stored_cases import CRATES, FOLDERS, fields_of, listed_runs, number, rules, runs

MOST = 65536
BEHIND_ROOT = 10
ACCEPTED_TABLES = 20
TABLE_REFUSALS = (9, 10, 11, 12, 25)


def path(crate, *names):
    return os.path.join(CRATES, crate, *names)


def parts(records):
    """Records in parts of at most MOST bytes."""
    found = [[]]
    for r in records:
        if sum(map(len, found[-1])) + len(r) > MOST:
            found.append([])
        found[-1].append(r)
    return found


def write(crate, name, records):
    """Writes records to the numbered files of a name; the files of that name that were there go. Gives how many each file has."""
    folder = path(crate, "data")
    for old in os.listdir(folder):
        if old.startswith(name):
            os.remove(os.path.join(folder, old))
    for k, part in enumerate(parts(records)):
        with open(os.path.join(folder, f"{name}{k}.bin"), "wb") as out:
            out.write(b"".join(part))
    return list(map(len, parts(records)))


def say(crate, names, lines):
    """A program's arguments, and what it must print."""
    for end, text in (("args", "".join(n + "\n" for n in names)), ("stdout", lines)):
        with open(path(crate, end), "w", encoding="utf-8") as out:
            out.write(text)


def type_of(expression):
    """The type of an expression's field; a CASE's is that of its first THEN."""
    tag, content = expression[0], expression[3:]
    if tag == 16:
        return content[1]
    if tag in (17, 21, 22):
        return content[0]
    if tag == 19:
        return type_of(content)
    if tag == 25:
        parts = [bytes([t]) + number(len(c), 2) + c for t, c in fields_of(content[2:])]
        return type_of(parts[content[0] % 2 + 1])
    return 1


def answered_types():
    """The type of each rule that a listing or a run answers."""
    types = {}
    for source in (listed_runs(), runs()):
        for _, rule, _, _, _, (outcome, answer) in source:
            if outcome == "ok":
                assert types.setdefault(rule, answer[3]) == answer[3]
    return types


def rule_record(rule, refused, strategy=0, nullable=0, kind=0, columns=()):
    return number(len(rule), 2) + rule + bytes([refused, strategy, nullable, kind, len(columns), *columns])


def stored_rules():
    types = answered_types()
    for rule, strategy, nullable, columns in rules():
        kind = type_of(rule)
        assert types.get(rule, kind) == kind
        yield rule_record(rule, 0, strategy, nullable, kind, columns)
    # bytes behind the root CASE are 3
    for rule, *_ in list(rules())[:BEHIND_ROOT]:
        yield rule_record(rule + b"\0", 3)
    for _, rule, _, _, _, (outcome, n) in listed_runs():
        if outcome == "refused" and n <= 8:
            yield rule_record(rule, n)


def rules_in(data):
    """How many records a file of rules has."""
    at, count = 0, 0
    while at < len(data):
        facts = at + 2 + int.from_bytes(data[at:at + 2], "little")
        at = facts + 5 + data[facts + 4]
        count += 1
    assert at == len(data)
    return count


def make_rules():
    files = write("rule_cases", "rules", list(stored_rules()))
    names = [f"rules{k}.bin" for k in range(len(files))]
    names += sorted((n for n in os.listdir(path("rule_cases", "data")) if n.startswith("rust")), key=lambda n: (len(n), n))
    lines = ""
    for name in names:
        with open(path("rule_cases", "data", name), "rb") as source:
            lines += f"{name}: {rules_in(source.read())} rules agree\n"
    say("rule_cases", names, lines)
    print(lines, end="")


def bit(bits, i):
    return bits[i // 8] >> (i % 8) & 1


def entry(kind, offsets, values, i):
    if kind == 1:
        return "true" if bit(values, i) else "false"
    if kind == 5:
        a, b = (int.from_bytes(offsets[4 * j:4 * j + 4], "little") for j in (i, i + 1))
        return "t" + values[a:b].hex()
    width = 4 if kind == 2 else 8
    n = values[width * i:width * i + width]
    return n[::-1].hex() if kind == 4 else str(int.from_bytes(n, "little", signed=True))


def columns_of(table):
    """The fields of each column of an accepted table, by their tags."""
    columns = []
    for tag, content in list(fields_of(table))[1:]:
        if tag == 2:
            columns.append({})
        columns[-1][tag] = content
    return columns


def listed(table):
    """The rows and columns of an accepted table, a line each."""
    rows = int.from_bytes(table[3:5], "little")
    lines = [f"rows {rows}"]
    for i, column in enumerate(columns_of(table)):
        kind, nullable = column[2]
        valid = [not column[3] or bit(column[3], row) for row in range(rows)]
        entries = [entry(kind, column.get(5), column[4], row) if valid[row] else "null" for row in range(rows)]
        lines.append(" ".join([f"column {i} type {kind} nullable {nullable} nulls {entries.count('null')}:"] + entries))
    return lines


def stored_tables():
    seen = set()
    for folder in FOLDERS:
        accepted = 0
        for _, _, table, _, _, want in listed_runs([folder]):
            refused = want[1] if want[0] == "refused" else 0
            if table in seen or len(table) > 4096 or 0 < refused <= 8:
                continue
            if refused not in TABLE_REFUSALS:
                if accepted == ACCEPTED_TABLES:
                    continue
                accepted, refused = accepted + 1, 0
            seen.add(table)
            yield number(len(table), 4) + table, [f"refused {refused}"] if refused else listed(table)


def make_tables():
    both = list(stored_tables())
    files = write("table_cases", "tables", [record for record, _ in both])
    names, text, left = [f"tables{k}.bin" for k in range(len(files))], "", iter(both)
    for name, count in zip(names, files):
        text += name + "\n"
        for i in range(count):
            text += f"table {i}\n" + "".join(l + "\n" for l in next(left)[1])
    say("table_cases", names, text)
    print(f"{len(both)} tables in {len(files)} file{'' if len(files) == 1 else 's'}")


def main():
    make_rules()
    make_tables()


if __name__ == "__main__":
    main()
