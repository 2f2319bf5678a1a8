#!/usr/bin/env python3
"""make_run_cases.py: writes the data of the programs caserun and run_cases, from the stored cases of tools/cases.

crates/caserun/data/listingsK.bin   all of listing.txt, in as many files as it takes; caserun/args names them
crates/caserun/stdout               the listing of caserun's rule.bin and batch.bin, which is P1's, and those of listing.txt behind it
crates/run_cases/data/runs.bin      all of runs.txt
crates/run_cases/data/refusals.bin  the refused cases of listing.txt as runs, since runs.txt has no 1 to 8 and 16: what they leave in memory
crates/run_cases/data/limits.bin    listings at both ends of limits: no rows, 512 and 513 rows, 32 and 33 branches, which document 01 says are run
                                    only; rules of 4,096 and 4,097 bytes, tables of 65,536 and 65,537 bytes
crates/run_cases/stdout             how many of each of its files there are; rust.bin, the Rust's answers, is made by compare_rust.py and counted here

A file is records of: the lengths of the rule, the table, the work buffer, the output and what is wanted (4 bytes each, little-endian),
the rule, the table, what is wanted. Of a listing that is its text, of a run its refusal number, or 0 and the answer's bytes.
"""
import os

from stored_cases import CRATES, FULL, bitmap, field, listed_runs, listings, number, offsets, runs

# what the programs hold of a file and of buffers
MOST_FILE, MOST_WORK, MOST_OUTPUT = 524287, 70000, 65536
HEAD = 20


def record(rule, table, work, output, want):
    assert work <= MOST_WORK and output <= MOST_OUTPUT
    return b"".join(number(n, 4) for n in (len(rule), len(table), work, output, len(want))) + rule + table + want


def listed(rule, table, lines):
    return record(rule, table, FULL, FULL, "".join(l + "\n" for l in lines).encode())


def stored_listings():
    return [listed(*case) for _, *case in listings()]


def as_run(rule, table, work, output, want):
    return record(rule, table, work, output, bytes([want[1]]) if want[0] == "refused" else b"\0" + want[1])


def stored_runs():
    return [as_run(*run) for _, *run in runs()]


def refusals():
    return [as_run(*run) for _, *run in listed_runs() if run[-1][0] == "refused"]


# Values of a type, by a number: the bytes, and how a listing shows them.
def value(kind, i):
    if kind == 1:
        return bytes([i % 2]), ("false", "true")[i % 2]
    if kind == 5:
        text = bytes(range(i % 4))
        return text, "t" + text.hex()
    width = 4 if kind == 2 else 8
    signed = i * 1000003 * (-1) ** i
    data = signed.to_bytes(width, "little", signed=True)
    return data, data[::-1].hex() if kind == 4 else str(signed)


def column(kind, values, valid=None, counted=False):
    """A column of the table; nullable where it has validity bits; with its null count or without."""
    data = bitmap([v[0] for v in values]) if kind == 1 else b"".join(values)
    places = offsets(values) if kind == 5 else b""
    nulls = field(6, number((valid or []).count(False), 2)) if counted else b""
    return field(2, bytes([kind, int(valid is not None)])) + nulls + field(3, bitmap(valid or [])) + places + field(4, data)


def named(index, kind, nullable=0):
    return field(16, bytes([index, kind, nullable]))


def literal(kind, data):
    return field(17, bytes([kind, 0]) + data)


def case(base, branches, els=b""):
    flags = bool(base) + 2 * bool(els)
    return field(25, bytes([flags, len(branches)]) + base + b"".join(w + t for w, t in branches) + els)


def table(rows, *columns):
    return field(1, number(rows, 2)) + b"".join(columns)


def answered(rule, data, kind, nullable, entries):
    """The case of a rule and a table whose answer has these entries."""
    lines = [f"rows {len(entries)} type {kind} nullable {nullable}"]
    return listed(rule, data, lines + [f"{i} {e}" for i, e in enumerate(entries)])


def rows_case(kind, rows):
    """CASE WHEN column 0 THEN column 1 ELSE a literal."""
    rule = case(b"", [(named(0, 1), named(1, kind))], literal(kind, value(kind, 7)[0]))
    taken = [i % 3 == 0 for i in range(rows)]
    data = table(rows, column(1, [bytes([t]) for t in taken]), column(kind, [value(kind, i)[0] for i in range(rows)], counted=True))
    if rows > 512:
        return listed(rule, data, ["refused 10"])
    return answered(rule, data, kind, 0, [value(kind, i if t else 7)[1] for i, t in enumerate(taken)])


def branches_case(base, count):
    """CASE column 0 WHEN i THEN i + 100 .. END over 0 to 33, or the same by comparisons."""
    head, keys = named(0, 2), range(count)
    whens = [literal(2, number(i, 4)) for i in keys]
    thens = [literal(3, number(i + 100, 8)) for i in keys]
    if not base:
        whens = [field(23, head + w) for w in whens]
    rule = case(head if base else b"", list(zip(whens, thens)))
    data = table(34, column(2, [number(i, 4) for i in range(34)]))
    if count > 32:
        return listed(rule, data, ["refused 6"])
    return answered(rule, data, 3, 1, [str(i + 100) if i < count else "null" for i in range(34)])


RULE_MOST, TABLE_MOST = 4096, 65536


def long_rule_case(size):
    """CASE WHEN column 0 = i THEN a text .. ELSE a text END of so many bytes: the ELSE is as long as it takes."""
    texts = [b"%02d " % i * 35 for i in range(31)]
    branches = [(field(23, named(0, 2) + literal(2, number(i, 4))), literal(5, t)) for i, t in enumerate(texts)]
    els = b"x" * (size - len(case(b"", branches, literal(5, b""))))
    rule = case(b"", branches, literal(5, els))
    assert len(rule) == size
    data = table(34, column(2, [number(i, 4) for i in range(34)]))
    if size > RULE_MOST:
        return listed(rule, data, ["refused 1"])
    return answered(rule, data, 5, 0, ["t" + (texts + [els] * 3)[i].hex() for i in range(34)])


def long_table_case(size):
    """CASE WHEN column 0 < 0 THEN column 15 ELSE '' END over a table of so many bytes: 512 rows, 15 columns of Int64 with nulls and one of
    text, whose last is as long as it takes; all with their null counts."""
    valid = [i % 5 != 0 for i in range(512)]
    numbers = [value(3, i) for i in range(512)]
    front = [column(3, [n for n, _ in numbers], valid, True)] * 15
    texts = [b"%d" % (i % 7) for i in range(511)]
    last = b"x" * (size - len(table(512, *front, column(5, texts + [b""], valid, True))))
    data = table(512, *front, column(5, texts + [last], valid, True))
    assert len(data) == size
    rule = case(b"", [(field(24, named(0, 3, 1) + literal(3, number(0, 8))), named(15, 5, 1))], literal(5, b""))
    if size > TABLE_MOST:
        return listed(rule, data, ["refused 9"])
    negative = [v and int(shown) < 0 for v, (_, shown) in zip(valid, numbers)]
    return answered(rule, data, 5, 1, ["t" + (t if n else b"").hex() for n, t in zip(negative, texts + [last])])


def limits():
    out = [rows_case(kind, rows) for rows in (0, 512, 513) for kind in range(1, 6)]
    out += [branches_case(base, count) for count in (32, 33) for base in (True, False)]
    out += [long_rule_case(size) for size in (RULE_MOST, RULE_MOST + 1)]
    return out + [long_table_case(size) for size in (TABLE_MOST, TABLE_MOST + 1)]


# P1 of document 01, the run of caserun's own files.
P1 = b"rows 4 type 2 nullable 0\n0 1\n1 0\n2 0\n3 1\n"


def records_in(data):
    """The records of a file."""
    at = 0
    while at < len(data):
        sizes = [int.from_bytes(data[at + k:at + k + 4], "little") for k in (0, 4, 16)]
        yield data[at:at + HEAD + sum(sizes)]
        at += HEAD + sum(sizes)
    assert at == len(data)


def wanted(record):
    return record[len(record) - int.from_bytes(record[16:20], "little"):]


def path(crate, *names):
    return os.path.join(CRATES, crate, *names)


def store(crate, name, records):
    data = b"".join(records)
    assert len(data) <= MOST_FILE
    with open(path(crate, "data", name + ".bin"), "wb") as out:
        out.write(data)


def store_listings(records):
    """The records in files of at most MOST_FILE bytes, and their names behind caserun's own two files."""
    files = [[]]
    for record in records:
        if sum(map(len, files[-1])) + len(record) > MOST_FILE:
            files.append([])
        files[-1].append(record)
    for k, part in enumerate(files):
        store("caserun", f"listings{k}", part)
    with open(path("caserun", "args"), "w", encoding="utf-8") as out:
        out.write("rule.bin\nbatch.bin\n" + "".join(f"listings{k}.bin\n" for k in range(len(files))))


def say(crate, text):
    with open(path(crate, "stdout"), "wb") as out:
        out.write(text)


def main():
    records = stored_listings()
    store_listings(records)
    say("caserun", P1 + b"".join(map(wanted, records)))
    print(f"listings: {len(records)}")
    for name, records in (("runs", stored_runs()), ("refusals", refusals()), ("limits", limits())):
        store("run_cases", name, records)
    lines = ""
    for name in ("runs", "refusals", "limits", "rust"):
        with open(path("run_cases", "data", name + ".bin"), "rb") as source:
            count = len(list(records_in(source.read())))
        lines += f"{name}: {count} of {count} agree\n"
    say("run_cases", lines.encode())
    print(lines, end="")


if __name__ == "__main__":
    main()
