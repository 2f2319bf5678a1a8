#!/usr/bin/env python3
"""compare_rust.py [--cases N] [--seed S] [--library ARCHIVE] [--oracle BINARY] [--smallest | --document FILE | --store]: the Rust and the
port on the same cases.

Makes N random rules with tables (rule_generator.py), runs the static library (tools/build_library.sh, through stream_library.c) and the
Rust (rust_oracle/README.md) on each, and compares entries and failures, strategy, projection and nullability. The Rust writes no null
counts: the port's, of the answer and of the table's columns, are compared with the numbers of null entries. The port's nullability is
also compared with what is worked out from the tree (nullability.py). Prints how many agree and differ in each class (case_classes.py). A
difference is explained when a named class holds of its input and, where the Rust can be run without the difference, that run agrees with
the port; every other difference, and a case that one side alone takes, is shrunk and printed, and the exit status is 1. Then it compares
ResultBuilder (compare_builder.py) if rt is on the path.

--smallest  prints the smallest input that was found of each kind of explained difference
--document  runs the cases that a document shows as --smallest does, and tells whether both sides still say what stands there
--store     compares nothing; writes the Rust's answers, and none of the port's, for the programs run_cases and rule_cases, whose args
            and stdout make_cases.py and make_run_cases.py write then:
            crates/run_cases/data/rust.bin     records as make_run_cases.py describes; wanted is byte 15, or 0 and the answer's bytes
            crates/rule_cases/data/rustK.bin   records of: rule's length (2 bytes), rule, 0, strategy, nullable, result's type, number of
                                               columns, columns
"""
import argparse
import collections
import os
import random
import re
import shutil
import subprocess
import sys
import tempfile
import time

import case_classes
import compare_builder
import rule_generator
from case_classes import COMPARED, CONSTANT_CAST, ELSE_CAN_FAIL, INSIDE, LONG_TEXT, NEGATED, NO_ROWS, UNCAST_ELSE, nodes
from casetext import WORDS, column_bytes, field, number, read_rule, read_table, rule_bytes, text_of, value_text
from make_cases import write
from make_run_cases import MOST_FILE, record, store
from nullability import nullable
from shrinking import shrunk

HERE = os.path.dirname(os.path.dirname(os.path.abspath(__file__)))
CHUNK = 10000
SHRUNK_MOST = 100
RECORD_MOST = 200
LONG = "more than 65535 bytes of text"
# the classes in which the port must refuse
REFUSED = {CONSTANT_CAST: "refused 8", LONG_TEXT: "refused 16"}

# What one side said. `entries`: "failed", "panicked", "unreadable", "refused N", LONG, or the answer's bytes without tag 6 and with 0 for the
# nullable byte. `nulls`, of the port: the answer's tag 6, or nothing, and what the functions say of the columns' and the answer's nulls.
Said = collections.namedtuple("Said", "read strategy nullable projection entries nulls", defaults=(None,))


# ---- running ----

def frames(cases):
    out = []
    for c in cases:
        for part in (rule_bytes(c.rule), rule_generator.table_bytes(c)):
            out += [number(len(part), 4), part]
    return b"".join(out)


class Programs:
    """Both sides, a process each for many cases."""

    def __init__(self, oracle):
        self.scratch = tempfile.TemporaryDirectory()
        self.oracle, self.library = oracle, os.path.join(self.scratch.name, "stream_library")

    def link(self, archive):
        """Builds the program that calls the static library."""
        source, headers = os.path.join(HERE, "tools", "stream_library.c"), os.path.join(HERE, "include")
        subprocess.run(["gcc", "-O2", "-I", headers, source, archive, "-o", self.library], check=True)

    def start(self, command, data):
        """A process that reads the data and writes to a file; both are files, so that no pipe fills."""
        given, said = tempfile.TemporaryFile(), tempfile.TemporaryFile()
        given.write(data)
        given.seek(0)
        return subprocess.Popen(command, stdin=given, stdout=said), said

    def end(self, started):
        process, said = started
        if process.wait() != 0:
            raise RuntimeError(f"{process.args[0]} ended with {process.returncode}")
        said.seek(0)
        return said.read().decode("ascii").splitlines()

    def both(self, cases):
        """What the port and the Rust say of each case."""
        data = frames(cases)
        library, oracle = self.start([self.library], data), self.start([self.oracle, "--stream"], data)
        return port_answers(self.end(library)), rust_answers(self.end(oracle))

    def rust(self, cases, *flags):
        return rust_answers(self.end(self.start([self.oracle, *flags, "--stream"], frames(cases))))


def port_answers(lines):
    out = []
    for about, entries, nulls in zip(lines[::3], lines[1::3], lines[2::3], strict=True):
        read, strategy, nullable, _, *projection = map(int, about.split())
        count = b""
        if not entries.startswith("refused"):
            data = bytearray.fromhex(entries)
            if (data[3], data[4]) != (read - 256, nullable - 256):
                raise RuntimeError("the answer's type or nullable byte is not what is read off the rule")
            data[4] = 0
            count, entries = cut_count(bytes(data))
        out.append(Said(read, strategy - 256, str(nullable - 256), projection, entries, (count, list(map(int, nulls.split())))))
    return out


def rust_answers(lines):
    out, block = [], []
    for line in lines:
        if line != ".":
            block.append(line)
            continue
        if block[0] == "unreadable":
            out.append(Said(0, 0, "", [], "unreadable"))
        else:
            strategy, nullable, projection = (l.split()[1:] for l in block[:3])
            entries = block[3] if len(block) == 4 and not block[3].startswith("rows") else answer(block[3:], 0)
            out.append(Said(256, int(strategy[0]), nullable[0], list(map(int, projection)), entries))
        block = []
    return out


# ---- the answer's layout ----

def entry(kind, word):
    """The value that a listing's word stands for."""
    if word == "null":
        return None
    if kind == 1:
        return {"true": True, "false": False}[word]
    if kind == 4:
        return int(word, 16)
    return bytes.fromhex(word[1:]) if kind == 5 else int(word)


def answer(listing, nullable):
    """A listing as the answer's bytes without tag 6 (01, Bytes of a table); LONG if its text doesn't fit a field."""
    head = listing[0].split()
    kind = int(head[3])
    values = [entry(kind, line.split()[1]) for line in listing[1:]]
    try:
        return cut_count(column_bytes(kind, nullable, values))[1]
    except OverflowError:
        return LONG


def cut_count(data):
    """The field of tag 6 behind tag 2 of an answer, and the answer without it. What stands there is cut off as it is."""
    size = 3 + int.from_bytes(data[6:8], "little") if data[5:6] == b"\6" else 0
    return data[5:5 + size], data[:5] + data[5 + size:]


def null_entries(entries, rows):
    """How many of so many entries are null, by the bits of an answer without tag 6 (02, Change 3)."""
    valid = entries[8:8 + int.from_bytes(entries[6:8], "little")]
    return sum(not valid[i // 8] >> i % 8 & 1 for i in range(rows)) if valid else 0


def count_field(nulls):
    return field(6, number(nulls, 2))


# ---- comparing ----

def entries_agree(port, rust):
    if rust.entries == "failed":
        return port.entries == "refused 15"
    return port.entries == rust.entries


def answers_agree(port, rust):
    return port.strategy == rust.strategy and port.projection == rust.projection


def nulls_agree(c, port):
    """Whether the port's null counts are the numbers of null entries: of each column, behind which there is none, and of the answer."""
    if port.nulls is None:
        return True
    (rows, columns), (count, said) = c.table, port.nulls
    wanted = [65536 + col[3].count(None) for col in columns] + [256]
    if isinstance(port.entries, str):
        return (count, said) == (b"", wanted + [0])
    nulls = null_entries(port.entries, rows)
    return (count, said) == (count_field(nulls), wanted + [65536 + nulls])


def kind_of_difference(port, rust):
    if isinstance(rust.entries, str):
        return f"the Rust {rust.entries}, the port " + (port.entries if isinstance(port.entries, str) else "answers")
    if isinstance(port.entries, str):
        return f"the Rust answers, the port {port.entries}"
    return "another type" if rust.entries[3] != port.entries[3] else "other entries"


def explained(named, port, plain, without):
    """Whether the classes of a case account for a difference of entries. `without` is the Rust's answer with ELSE cast and negation wrapped."""
    if named[0] in REFUSED:
        return port.entries == REFUSED[named[0]]
    if (UNCAST_ELSE in named or NEGATED in named) and entries_agree(port, without):
        return True
    return NO_ROWS in named and isinstance(port.entries, bytes) and "failed" in (plain.entries, without.entries)


def unexplained(named, port, rust, without):
    """Whether entries differ, or the port doesn't refuse what it must, and the classes don't account for it."""
    return (named[0] in REFUSED or not entries_agree(port, rust)) and not explained(named, port, rust, without)


def worked_out(rule):
    return str(int(nullable(rule)))


def mark_explained(named, port, tried):
    """Whether the classes of a rule account for a difference of nullability. `tried` is the Rust's answer with a try-cast written above each
    ELSE whose cast can fail to fit."""
    return port.nullable == tried.nullable if named == [ELSE_CAN_FAIL] else named != [COMPARED]


class Tally:
    """Counts by class, and the differences."""

    def __init__(self, programs):
        self.programs = programs
        self.entries, self.nullable = collections.defaultdict(lambda: [0, 0]), collections.defaultdict(lambda: [0, 0])
        self.answers, self.nulls, self.marks, self.spread = [0, 0], [0, 0], [0, 0], collections.Counter()
        self.unexplained, self.kinds = [], {}

    def add(self, cases):
        said = list(zip(cases, *self.programs.both(cases), strict=True))
        without = self.again([c for c, port, rust in said if not entries_agree(port, rust)], "--cast-else", "--wrap-negation")
        tried = self.again([c for c, port, rust in said if port.nullable != rust.nullable], "--try-else")
        for c, port, rust in said:
            self.compare(c, port, rust, without.get(id(c)), tried.get(id(c)))

    def again(self, cases, *flags):
        """What the Rust says of cases with differences switched off."""
        return {id(c): said for c, said in zip(cases, self.programs.rust(cases, *flags), strict=True)}

    def compare(self, c, port, rust, without, tried):
        named = case_classes.classes(c.rule, c.table)
        if not accepted(port, rust) and CONSTANT_CAST not in named:
            self.unexplained.append((c, "reading"))
            return
        self.entries[named[0]][without is not None] += 1
        if unexplained(named, port, rust, without):
            self.unexplained.append((c, "entries"))
        elif without is not None and len(named) == 1:
            self.keep((named[0], kind_of_difference(port, rust)), c)
        self.nulls[not nulls_agree(c, port)] += 1
        if not nulls_agree(c, port):
            self.unexplained.append((c, "nulls"))
        if CONSTANT_CAST in named:
            return
        about = answers_agree(port, rust)
        self.answers[not about] += 1
        if not about:
            self.unexplained.append((c, "answers"))
        self.compare_nullable(c, port, rust, tried)
        self.count(c, port)

    def compare_nullable(self, c, port, rust, tried):
        named, same = case_classes.nullable_classes(c.rule), port.nullable == rust.nullable
        self.nullable[named[0]][not same] += 1
        if not same and not mark_explained(named, port, tried):
            self.unexplained.append((c, "nullable"))
        elif not same and len(named) == 1:
            self.keep((named[0], f"nullability: the Rust {rust.nullable}, the port {port.nullable}"), c)
        self.marks[port.nullable != worked_out(c.rule)] += 1
        if port.nullable != worked_out(c.rule):
            self.unexplained.append((c, "mark"))

    def keep(self, kind, c):
        """Keeps the shortest case of a kind of difference, one with rows if there is any."""
        rank = (c.table[0] == 0, len(frames([c])))
        if kind not in self.kinds or rank < (self.kinds[kind].table[0] == 0, len(frames([self.kinds[kind]]))):
            self.kinds[kind] = c

    def count(self, c, port):
        words = [f"strategy {port.strategy}", f"type {WORDS.get(port.read - 256)}", f"nested {min(3, sum(x[0] == 'case' for x in nodes(c.rule)) - 1)}"]
        words.append("failed" if port.entries == "refused 15" else "no rows" if c.table[0] == 0 else "answered")
        words += count_words(c)
        self.spread.update(words + float_words(c.rule, port.entries == "refused 15"))


def float_words(rule, failed):
    """What is counted of a rule with a cast between Float64 and an integer (02, Change 2)."""
    return ["float cast"] + ["float cast failed"] * failed if case_classes.casts_floats(rule) else []


def count_words(c):
    """What is counted of a table with null counts (02, Change 3)."""
    return ["null counts in the table"] * rule_generator.has_counts(c)


# ---- shrinking ----

def differs_so(programs, what, named):
    """A test of many cases: whether each still differs in that way, and its classes are the same. An explained difference of entries is
    shown with a row, unless it is one of no rows."""
    def test(cases):
        port, rust = programs.both(cases)
        without, tried = programs.rust(cases, "--cast-else", "--wrap-negation"), programs.rust(cases, "--try-else")
        return [told(*said) == (what, named) for said in zip(cases, port, rust, without, tried, strict=True)]

    def told(c, p, r, w, t):
        if what == "reading":
            return what if taken_alone(c, p, r) else None, named
        about = what in ("answers", "mark") or what.startswith("nullab")
        if r.entries == "unreadable" or not takes(p) and (about or p.read != 8):
            return None, None
        if what == "nulls":
            return what if not nulls_agree(c, p) else None, named
        if what == "answers":
            return what if not answers_agree(p, r) else None, named
        if what == "mark":
            return what if p.nullable != worked_out(c.rule) else None, named
        if what.startswith("nullab"):
            return mark_told(case_classes.nullable_classes(c.rule), p, r, t)
        classes = case_classes.classes(c.rule, c.table)
        if what == "entries":
            return what if unexplained(classes, p, r, w) else None, named
        if entries_agree(p, r) or c.table[0] == 0 and NO_ROWS not in classes:
            return None, None
        return kind_of_difference(p, r), ", ".join(classes)

    def mark_told(classes, p, r, t):
        said = f"nullability: the Rust {r.nullable}, the port {p.nullable}" if mark_explained(classes, p, t) else "nullable"
        return None if p.nullable == r.nullable else said, ", ".join(classes)
    return test


def takes(port):
    """Whether the port takes the rule and the table."""
    return port.read > 256 and port.entries not in [f"refused {n}" for n in (9, 10, 11, 12, 13, 25)]


def accepted(port, rust):
    return takes(port) and rust.entries != "unreadable"


def taken_alone(c, port, rust):
    """Whether one side alone takes a case, and not for number 8."""
    if rust.entries == "unreadable":
        return takes(port)
    return not takes(port) and CONSTANT_CAST not in case_classes.classes(c.rule, c.table)


def said_text(rows, said):
    """What a side says of a case, in a line."""
    if said.read < 256 or said.entries == "unreadable":
        return said.entries
    words = [said.entries]
    if isinstance(said.entries, bytes):
        data = bytearray(said.entries)
        data[4] = 1
        _, ((_, kind, _, values),) = read_table(field(1, number(rows, 2)) + bytes(data))
        words = [WORDS[kind]] + [value_text(kind, v) for v in values]
    return f"nullable {said.nullable}, " + " ".join(words)


def shown(c, programs):
    """A case as text and bytes, and what both sides say of it, as docs/DIFFERENCES.md has it."""
    (port,), (rust,) = programs.both([c])
    rows = c.table[0]
    return (f"{text_of(c.rule, c.table)}rule {rule_bytes(c.rule).hex()}\ntable {rule_generator.table_bytes(c).hex()}\n"
            f"Rust: {said_text(rows, rust)}\nport: {said_text(rows, port)}\n")


def check_document(args, programs):
    """Whether each case of a document, made again from its bytes, is shown as it stands there."""
    programs.link(args.library)
    with open(args.document, encoding="utf-8") as f:
        blocks = [b for b in re.findall(r"^```\n(.*?)^```$", f.read(), re.M | re.S) if re.search("^rule [0-9a-f]+$", b, re.M)]
    wrong = 0
    for block in blocks:
        rule, table = (bytes.fromhex(re.search(f"^{word} ([0-9a-f]+)$", block, re.M).group(1)) for word in ("rule", "table"))
        now = shown(rule_generator.Case(read_rule(rule), read_table(table), 0), programs)
        if now != block:
            wrong += 1
            print(f"stands there:\n{block}is:\n{now}")
    print(f"{len(blocks)} cases, {wrong} of them otherwise")
    return 1 if wrong or not blocks else 0


# ---- the run ----

def made_cases(rng, count):
    for _ in range(count):
        if rng.random() < 0.005:
            yield rule_generator.limit(rng)
        else:
            yield rule_generator.case(rng, rng.choice(("inside",) * 7 + rule_generator.THEMES), False)


def report(tally, count, seconds):
    print(f"{count} cases in {seconds:.0f} seconds")
    print(f"{'entries and failures':45} {'agree':>8} {'differ':>8}")
    order = [v for k, v in vars(case_classes).items() if k.isupper() and isinstance(v, str)]
    for table in (tally.entries, tally.nullable):
        for name in sorted(table, key=order.index):
            print(f"  {name:43} {table[name][0]:8} {table[name][1]:8}")
        if table is tally.entries:
            print(f"{'strategy and projection':45} {tally.answers[0]:8} {tally.answers[1]:8}")
            print(f"{'null counts':45} {tally.nulls[0]:8} {tally.nulls[1]:8}")
            print(f"{'nullability worked out from the tree':45} {tally.marks[0]:8} {tally.marks[1]:8}\nnullability")
    print("spread: " + ", ".join(f"{k} {tally.spread[k]}" for k in sorted(tally.spread)))
    more = f", the first {SHRUNK_MOST} below" if len(tally.unexplained) > SHRUNK_MOST else ""
    print(f"unexplained differences: {len(tally.unexplained)}{more}")


def compare(args, programs):
    programs.link(args.library)
    rng, tally, begun = random.Random(args.seed), Tally(programs), time.time()
    left = args.cases
    while left > 0:
        tally.add(list(made_cases(rng, min(left, CHUNK))))
        left -= CHUNK
    report(tally, args.cases, time.time() - begun)
    if shutil.which("rt"):
        built = compare_builder.compare(args.oracle, compare_builder.MOST, args.seed)
    else:
        built = True
        print("ResultBuilder: not compared, rt is not on the path")
    for c, what in tally.unexplained[:SHRUNK_MOST]:
        print(f"\nunexplained: {what}")
        named = ", ".join(case_classes.nullable_classes(c.rule) if what == "nullable" else case_classes.classes(c.rule, c.table))
        print(shown(shrunk(c, differs_so(programs, what, named)), programs), flush=True)
    for (named, kind), c in sorted(tally.kinds.items()) if args.smallest else []:
        print(f"\n{named}: {kind}")
        print(shown(shrunk(c, differs_so(programs, kind, named)), programs), flush=True)
    return 0 if built and not tally.unexplained else 1


# ---- stored answers ----

def storable(c, rust):
    return case_classes.classes(c.rule, c.table) == [INSIDE] and case_classes.nullable_classes(c.rule) == [COMPARED] and rust.nullable in "01"


def run_record(c, rust):
    """The Rust's answer as a run: 15, or 0 and the answer's bytes with the Rust's nullability and the number of its null entries."""
    want = b"\x0f"
    if rust.entries != "failed":
        head, rest = rust.entries[:4] + bytes([int(rust.nullable)]), rust.entries[5:]
        want = b"\0" + head + count_field(null_entries(rust.entries, c.table[0])) + rest
    return record(rule_bytes(c.rule), rule_generator.table_bytes(c), 65536, 65536, want)


def rule_record(c, rust):
    rule, columns = rule_bytes(c.rule), bytes(rust.projection)
    return number(len(rule), 2) + rule + bytes([0, rust.strategy, int(rust.nullable), rust.entries[3], len(columns)]) + columns


def wanted_cells():
    """How many cases of each strategy, result's type and way to end. Where only the WHEN could hold a CASE, its nullability isn't compared."""
    for strategy in range(1, 7):
        for kind in range(1, 6):
            flat = strategy in (3, 4)
            yield from (((strategy, kind, ends), n) for ends, n in (("failed", 14), ("no rows", 4), ("one CASE", 88 if flat else 43)))
            if not flat:
                yield (strategy, kind, "nested"), 45


def cell_of(c, rust):
    nested = any(x[0] == "case" for x in list(nodes(c.rule))[1:])
    ends = "failed" if rust.entries == "failed" else "no rows" if c.table[0] == 0 else "nested" if nested else "one CASE"
    return rust.strategy, case_classes.kind_of(c.rule), ends


def chosen(programs, seed):
    """Short cases inside of the domain, until every cell is full."""
    rng, left, seen = random.Random(seed), dict(wanted_cells()), set()
    while any(left.values()):
        cases = [rule_generator.case(rng, "inside", True) for _ in range(CHUNK)]
        for c, rust in zip(cases, programs.rust(cases)):
            cell, key = cell_of(c, rust), frames([c])
            if left.get(cell) and key not in seen and storable(c, rust) and len(run_record(c, rust)) < RECORD_MOST:
                seen.add(key)
                left[cell] -= 1
                yield c, rust


def store_answers(args, programs):
    both = list(chosen(programs, args.seed))
    runs = [run_record(c, rust) for c, rust in both]
    store("run_cases", "rust", runs)
    rules = list(dict.fromkeys(rule_record(c, rust) for c, rust in both if rust.entries != "failed"))
    print(f"{len(runs)} runs of the Rust in {sum(map(len, runs))} bytes (at most {MOST_FILE}), {len(rules)} rules in {len(write('rule_cases', 'rust', rules))} files")
    spread = collections.Counter()
    for c, rust in both:
        failed = rust.entries == "failed"
        spread.update([f"strategy {rust.strategy}", f"type {case_classes.kind_of(c.rule)}", "failed" if failed else "answered"])
        spread.update(float_words(c.rule, failed) + count_words(c))
    print(", ".join(f"{k} {spread[k]}" for k in sorted(spread)))
    return 0


def main():
    parser = argparse.ArgumentParser(description=__doc__, formatter_class=argparse.RawDescriptionHelpFormatter)
    parser.add_argument("--cases", type=int, default=100000)
    parser.add_argument("--seed", type=int, default=1)
    parser.add_argument("--library", default=os.path.join(HERE, "crates", "tembalku", "out", "libtembalku.a"))
    parser.add_argument("--oracle", default=os.path.join(HERE, "tools", "rust_oracle", "target", "release", "rust-oracle"))
    parser.add_argument("--smallest", action="store_true")
    parser.add_argument("--document")
    parser.add_argument("--store", action="store_true")
    args = parser.parse_args()
    for path in [args.oracle] + ([] if args.store else [args.library]):
        if not os.path.exists(path):
            parser.error(f"{path} isn't there: tools/rust_oracle/README.md says how the Rust is built, tools/build_library.sh builds the library")
    return (store_answers if args.store else check_document if args.document else compare)(args, Programs(args.oracle))


if __name__ == "__main__":
    sys.exit(main())
