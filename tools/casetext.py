#!/usr/bin/env python3
"""casetext.py: a rule and a table as readable text: checked, run, compared, drawn, and as bytes.

casetext.py check TEXT [TABLE]             says whether the library takes the rule and the table, or what it refuses and why
casetext.py run TEXT [TABLE]               evaluates through the library: each target's class and the branch that decided it
casetext.py compare RULE1 RULE2 TABLE      which targets change class from one rule to the other, and by which branches
casetext.py make TEXT FOLDER               checks, then writes FOLDER/rule.bin and FOLDER/batch.bin (and names.txt, the columns' names)
casetext.py show FOLDER                    prints the text of the two files, with the names of names.txt or of --names
casetext.py explain FOLDER                 prints the bytes of FOLDER/rule.bin, field by field

TEXT has a rule and a table; or TEXT has a rule and TABLE a table, whose columns the rule then names. check and run also take a
FOLDER with rule.bin and batch.bin.

--library ARCHIVE     run, compare: the static library; else crates/tembalku/out/libtembalku.a, which tools/build_library.sh writes
--svg FILE            run: draws the targets, north up; their bearing (degrees) and range are the columns named bearing and range
--bearing NAME, --range NAME    other columns for that
--names A,B,..        show: the names of the columns

Exit status: 0 done; 1 refused, or a file that can't be taken; 2 called wrongly; 3 the library and this tool disagree.

The text:

    rows 4
    column speed int32 null 12 0 null 7          # name, type, `null` if nullable, a value for each row
    column kind utf8 "boat" "buoy" "gear" "boat"
    rule
    (case
      (when (less (col speed) (int32 5)) (then (utf8 "slow")))
      (else (utf8 "fast")))

Types: boolean int32 int64 float64 utf8. Values: true and false; decimals; floats as decimals or 0x and the 16 hex digits of their
bits; text as "text" (with \\" and \\\\) or x"00ff"; null. Expressions:

    (case [(base E)] (when E (then E)) .. [(else E)])
    (not E) (neg E) (isnotnull E) (cast TYPE E) (trycast TYPE E) (equal E E) (less E E)
    (boolean true) (int32 -5) (int64 5) (float64 1.5) (utf8 "text") (null TYPE)
    (col NAME)                 the column as the table has it
    (col NAME TYPE [null])     with a type and a mark of the rule's own; a number may stand for the name

Rows and unnamed columns are counted from 0. Tables are written with their columns' null counts; bytes are read with them and without. The
numbers of refusals are explained in docs/REFUSALS.md, the bytes in docs/FORMAT.md.
"""
import argparse
import os
import sys

sys.dont_write_bytecode = True
from dealer.evaluation import Disagreement, evaluated  # noqa: E402
from dealer.library import Library, archive_path  # noqa: E402
from dealer.plan import drawn  # noqa: E402
from dealer.reading import Refused, read_rule  # noqa: E402
from dealer.report import compare_report, run_report  # noqa: E402
from dealer.source import NAMES_FILE, SourceRefused, from_folder, from_texts, load  # noqa: E402
from dealer.text import FileError, load_bytes  # noqa: E402
from dealer.tree import WORDS, counted, type_of  # noqa: E402
from dealer.words import explanation, text_of  # noqa: E402
# not used here: other tools take the layout from casetext
from dealer.layout import bitmap, column_bytes, field, number, rule_bytes, table_bytes  # noqa: E402, F401
from dealer.reading import read_table  # noqa: E402, F401
from dealer.text import parse  # noqa: E402, F401
from dealer.tree import CASTS, PLAIN, TYPES, WIDTHS  # noqa: E402, F401
from dealer.words import value_text  # noqa: E402, F401


def printed(words):
    """Prints. A reader that ends early, as head does, is no mistake."""
    try:
        sys.stdout.write(words)
        sys.stdout.flush()
    except OSError as e:
        os.dup2(os.open(os.devnull, os.O_WRONLY), sys.stdout.fileno())
        if not isinstance(e, BrokenPipeError):
            raise FileError(f"can't be printed: {e.strerror}") from None


def write(path, data):
    try:
        with open(path, "wb") as f:
            f.write(data)
    except OSError as e:
        raise FileError(f"{path}: can't be written: {e.strerror}") from None


def check(options):
    source = load(options.text, options.table).check()
    said = []
    if source.rule is not None:
        said.append(f"a rule of {counted(len(source.rule_data), 'byte')}, whose classes are {WORDS[type_of(source.rule)]}")
    if source.table is not None:
        said.append(f"a table of {counted(source.table[0], 'row')} and {counted(len(source.table[1]), 'column')}")
    return f"{source.name}: accepted: {'; '.join(said)}\n"


def run(options):
    source = load(options.text, options.table).needs("run")
    evaluation = evaluated(source, Library(archive_path(options.library)))
    if options.svg:
        write(options.svg, drawn(evaluation, options.bearing, options.range).encode())
    return run_report(evaluation)


def compare(options):
    sources = [from_texts(rule, options.table).needs("compare") for rule in (options.rule1, options.rule2)]
    library = Library(archive_path(options.library))
    return compare_report(*[evaluated(source, library) for source in sources])


def make(options):
    source = from_texts(options.text).needs("make").check()
    try:
        os.makedirs(options.folder, exist_ok=True)
    except OSError as e:
        raise FileError(f"{options.folder}: can't be made: {e.strerror}") from None
    for name, data in (("rule.bin", source.rule_data), ("batch.bin", source.table_data),
                       (NAMES_FILE, "".join(n + "\n" for n in source.names()).encode())):
        write(os.path.join(options.folder, name), data)
    return ""


def show(options):
    source = from_folder(options.folder, options.names)
    return text_of(source.rule, source.table)


def explain(options):
    data = load_bytes(os.path.join(options.folder, "rule.bin"))
    try:
        return explanation(read_rule(data))
    except Refused as refused:
        raise FileError(f"rule.bin: byte {refused.at}: {refused}") from None


def parser():
    out = argparse.ArgumentParser(prog="casetext.py", description=__doc__, formatter_class=argparse.RawDescriptionHelpFormatter,
                                  usage="casetext.py check|run|compare|make|show|explain .. (casetext.py --help)")
    commands = out.add_subparsers(dest="command", required=True, metavar="COMMAND", prog="casetext.py")
    places = {check: ["text", "table?"], run: ["text", "table?"], compare: ["rule1", "rule2", "table"], make: ["text", "folder"],
              show: ["folder"], explain: ["folder"]}
    made = {}
    for command, names in places.items():
        made[command] = commands.add_parser(command.__name__)
        made[command].set_defaults(call=command)
        for name in names:
            made[command].add_argument(name.rstrip("?"), metavar=name.rstrip("?").upper(), nargs="?" if name.endswith("?") else None)
    for command in (run, compare):
        made[command].add_argument("--library", metavar="ARCHIVE")
    made[run].add_argument("--svg", metavar="FILE")
    made[run].add_argument("--bearing", metavar="NAME", default="bearing")
    made[run].add_argument("--range", metavar="NAME", default="range")
    made[show].add_argument("--names", metavar="A,B,..")
    return out


def main(args):
    sys.stdout.reconfigure(encoding="utf-8", errors="backslashreplace", newline="\n")
    try:
        options = parser().parse_args(args)
        printed(options.call(options))
    except SystemExit as e:
        return e.code
    except (FileError, SourceRefused) as e:
        sys.stderr.write(f"{e}\n")
        return 1
    except Disagreement as e:
        sys.stderr.write(f"DISAGREEMENT: the library and this tool don't say the same. Don't trust the classes, and report this.\n{e}\n")
        return 3
    return 0


if __name__ == "__main__":
    sys.exit(main(sys.argv[1:]))
