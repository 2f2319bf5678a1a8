"""Reads the stored cases of tools/cases (its README.md says what they are), for check_definitions.py, make_cases.py and make_run_cases.py.

A case to run is a label, the rule, the table, the lengths of the work buffer and the output, and what is wanted: ("refused", number) or
("ok", the answer's bytes). Numbers, fields and bitmaps are written as document 01 says.
"""
import os

HERE = os.path.dirname(os.path.dirname(os.path.abspath(__file__)))
CASES = os.path.join(HERE, "tools", "cases")
FOLDERS = [CASES] + [os.path.join(CASES, name) for name in ("change-2", "change-3", "change-5", "counted")]
CRATES = os.path.join(HERE, "crates")
FULL = 65536


def number(n, k):
    return n.to_bytes(k, "little")


def field(tag, content):
    return bytes([tag]) + number(len(content), 2) + content


def fields_of(data):
    """The tags and contents of the fields that some bytes are."""
    at = 0
    while at < len(data):
        size = int.from_bytes(data[at + 1:at + 3], "little")
        yield data[at], data[at + 3:at + 3 + size]
        at += 3 + size


def bitmap(bits):
    return bytes(sum(b << i for i, b in enumerate(bits[j:j + 8])) for j in range(0, len(bits), 8))


def offsets(texts):
    """Tag 5 of a text column."""
    at, out = 0, number(0, 4)
    for t in texts:
        at += len(t)
        out += number(at, 4)
    return field(5, out)


def blocks(folder, name):
    """Paragraphs of `key value` lines."""
    with open(os.path.join(folder, name), encoding="utf-8") as source:
        for text in source.read().split("\n\n"):
            lines = [l for l in text.splitlines() if l.strip()]
            if lines:
                yield lines


def keyed(lines):
    return dict((l.split(" ", 1) + [""])[:2] for l in lines)


def numbered(folders, name):
    """The paragraphs of a file of each folder that has it, with the folder's and the file's name, and numbers from 1."""
    for folder in folders:
        if not os.path.exists(os.path.join(folder, name + ".txt")):
            continue
        for i, lines in enumerate(blocks(folder, name + ".txt")):
            yield f"{os.path.basename(folder)}/{name}", i + 1, lines


def rules(folders=FOLDERS):
    """Each rule of rules.txt with its strategy, whether it is nullable (0 or 1), and the columns that it names."""
    for _, _, lines in numbered(folders, "rules"):
        f = keyed(lines)
        columns = [] if f["projection"] == "none" else [int(c) for c in f["projection"].split()]
        yield bytes.fromhex(f["rule"]), int(f["strategy"]), int(f["nullable"]), columns


def answer(head, rows):
    """The answer's bytes, from document 01's listing; tag 6 always stands in it (02, Change 3)."""
    _, count, _, kind, _, nullable = head.split()
    kind, entries = int(kind), [r.split(" ", 1)[1] for r in rows]
    assert int(count) == len(entries)
    valid = [e != "null" for e in entries]
    out = field(2, bytes([kind, int(nullable)])) + field(6, number(valid.count(False), 2)) + field(3, b"" if all(valid) else bitmap(valid))
    if kind == 1:
        values = bitmap([e == "true" for e in entries])
    elif kind == 5:
        texts = [bytes.fromhex(e[1:]) if v else b"" for e, v in zip(entries, valid)]
        out += offsets(texts)
        values = b"".join(texts)
    else:
        width = 4 if kind == 2 else 8
        base = 16 if kind == 4 else 10
        values = b"".join(number((int(e, base) if v else 0) % 256 ** width, width) for e, v in zip(entries, valid))
    return out + field(4, values)


def listings(folders=FOLDERS):
    """A label, the rule and the table of each case of listing.txt, with the lines of their listing."""
    for name, i, lines in numbered(folders, "listing"):
        f = keyed(lines[:3])
        assert int(f["case"]) == i and lines[-1] == "end"
        yield f"{name} {i}", bytes.fromhex(f["rule"]), bytes.fromhex(f["table"]), lines[3:-1]


def listed_runs(folders=FOLDERS):
    """The listings as cases to run, with full buffers."""
    for label, rule, table, lines in listings(folders):
        head = lines[0]
        want = ("refused", int(head.split()[1])) if head.startswith("refused") else ("ok", answer(head, lines[1:]))
        yield label, rule, table, FULL, FULL, want


def runs(folders=FOLDERS):
    """The cases of runs.txt."""
    for name, i, lines in numbered(folders, "runs"):
        f = keyed(lines)
        want = ("refused", int(f["refused"])) if "refused" in f else ("ok", bytes.fromhex(f["answer"]))
        yield f"{name} {i}", bytes.fromhex(f["rule"]), bytes.fromhex(f["table"]), int(f["work"]), int(f["output"]), want
