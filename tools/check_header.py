#!/usr/bin/env python3
"""check_header.py [ROOT]: compares include/tembalku.h and docs/REFUSALS.md with the specifications and the code.

Compared: the refusals' numbers and sentences and the limits that these name, the limits and which refusal stands beyond each, the types,
the strategies, what answers count from, the functions and their arguments, the buffers' states, the version, and the numbers that
docs/FORMAT.md and the example in Rust repeat. Prints each difference, and how much was compared; fails where there is a difference, or
where something to compare isn't found.
"""
import os
import re
import sys

ROOT = sys.argv[1] if len(sys.argv) > 1 else os.path.dirname(os.path.dirname(os.path.abspath(__file__)))


def text(path):
    with open(os.path.join(ROOT, path), encoding="utf-8") as f:
        return f.read()


def found(pattern, path):
    """The one place of a pattern in a file: its groups, or its only group."""
    places = re.findall(pattern, text(path), re.M)
    if len(places) != 1:
        sys.exit(f"{path}: {len(places)} places instead of one: {pattern}")
    return places[0]


def number(word):
    return int(word.replace(",", ""))


def numbers_in(words):
    return [number(n) for n in re.findall(r"\d[\d,]*", words)]


def spans(words):
    """The numbers of words as `1 to 3, 25` or `1 to 3 and 25`."""
    pairs = re.findall(r"(\d+)(?: to (\d+))?", words)
    return [n for low, high in pairs for n in range(int(low), int(high or low) + 1)]


def spec_number(path, name):
    """The number of a definition `name = number`."""
    return int(found(rf"^{name} = (\d+)$", f"crates/{path}"))


def spec_list(path, name):
    """The numbers of a definition `name = 1 ∷ 2 ∷ []`."""
    return [int(n) for n in re.findall(r"(\d+) ∷", found(rf"^{name} = ((?:\d+ ∷ )+)\[\]$", f"crates/{path}"))]


def numbered(function, path):
    """The equations `function Name = number` of a definition."""
    return {name: int(n) for name, n in re.findall(rf"^{function} (\w+) = (\d+)$", text(path), re.M)}


def upper(name):
    """NoExpression: NO_EXPRESSION; Utf8: UTF8."""
    return re.sub(r"(?<=[a-z])(?=[A-Z])", "_", name).upper()


# the tests of numbers that specs write
LESS, MOST = "(?:ltb|nat_lt)", "(?:leb|nat_le)"

# ---- the header ----

HEADER = "include/tembalku.h"
CODES = "crates/tembalku/specs/Codes.antt"


def macro(name):
    return int(found(rf"^#define TEMBALKU_{name} (\d+)u?$", HEADER))


def enum(name):
    """The constants of an enum, without their prefix."""
    body = found(rf"^enum tembalku_{name} \{{\n((?:.*\n)*?)\}};$", HEADER)
    return {constant: int(n) for constant, n in re.findall(r"TEMBALKU_(\w+) = (\d+)", body)}


def header_sentences():
    """The sentence of each refusal, by its number."""
    numbers = enum("refusal")
    cases = re.findall(r'case TEMBALKU_(\w+):\n\s+return "(.*)";$', text(HEADER), re.M)
    return {numbers.get(name, name): sentence for name, sentence in cases}


def header_functions():
    """Name, result and arguments of each function that isn't inline."""
    declared = re.findall(r"^(uint32_t|size_t) (tembalku_\w+)\(([^;{]*)\);$", text(HEADER), re.M)
    return {name: (result, re.sub(r"\s+", " ", arguments)) for result, name, arguments in declared}


def header_refusals():
    """The refusals `refusal (1 to 8)` that a function's comment names; none of a function that refuses nothing."""
    commented = re.findall(r"/\*((?:(?!\*/)[\s\S])*)\*/\n(?:uint32_t|size_t) (tembalku_\w+)\(", text(HEADER))
    return {name: [spans(said) for said in re.findall(r"refusal \(([\d to,]+)\)", comment)] for comment, name in commented}


def refusing_functions():
    """All but the test of a text, which gives a place and refuses nothing."""
    return [name for name in header_functions() if "text" not in name]


# ---- the code ----

RESULTS = {"u32": "uint32_t", "usize": "size_t"}
ARGUMENTS = {"&[u8]": "const uint8_t *{0}, size_t {0}_len", "&mut [u8]": "uint8_t *{0}, size_t {0}_len", "usize": "size_t {0}"}


def code_functions():
    """The same of the library's exported functions, in C's words."""
    exported = re.findall(r'^pub extern "C" fn (\w+)\(([^)]*)\) -> (\w+)', text("crates/tembalku/src/lib.rt"), re.M)
    out = {}
    for name, arguments, result in exported:
        pairs = re.findall(r"(\w+): (&(?:mut )?\[u8\]|usize)", arguments)
        out[name] = (RESULTS[result], ", ".join(ARGUMENTS[kind].format(argument) for argument, kind in pairs))
    return out


# ---- what is compared: (what it is, in the header, elsewhere) ----

def paper_rows():
    """Number, what it is about, condition and sentence of each refusal in docs/REFUSALS.md."""
    return re.findall(r"^\| (\d+) \| (.*?) \| (.*?) \| (.*?) \|$", text("docs/REFUSALS.md"), re.M)


def refusals():
    rows = paper_rows()
    paper = {int(n): sentence for n, _, _, sentence in rows}
    path = "layout/specs/Refusals.antt"
    of_rule, of_table, of_run = (spec_list(path, name + "_refusals") for name in ("rule", "table", "evaluation"))
    of_builder = spec_list(path, "builder_refusals")
    numbers = of_rule + of_table + of_run + [n for n in of_builder if n not in of_table]
    yield "the refusals' numbers", sorted(enum("refusal").values()), sorted(numbers)
    yield "the numbers of docs/REFUSALS.md", sorted(enum("refusal").values()), [int(n) for n, _, _, _ in rows]
    for n in sorted(set(paper) | set(header_sentences()), key=str):
        yield f"the sentence of refusal {n}", header_sentences().get(n), paper.get(n)
    for about, specified in (("rule", of_rule), ("table", of_table), ("builder", of_builder[1:])):
        yield f"docs/REFUSALS.md: about the {about}", [int(n) for n, a, _, _ in rows if a == about], specified
    # a column by itself isn't tested for 12
    alone = [n for n in of_table if n != 12]
    for name in header_functions():
        which = of_table if "table" in name else of_rule if "rule" in name else alone if "answer" in name else of_rule + of_table + of_run
        yield f"{name}: its refusals", header_refusals().get(name), [sorted(which)] if name in refusing_functions() else []


def limits():
    """The limits by the specifications."""
    rows, texts = spec_number("table/specs/Reading.antt", "rows_most"), spec_number("writer/specs/Written.antt", "text_most")
    longest = (3 + 2) + (3 + 2) + (3 + (rows + 7) // 8) + (3 + 4 * (rows + 1)) + (3 + texts)
    return {
        "RULE_MOST": int(found(rf"require \({LESS} 0 \(length bytes\) && {MOST} \(length bytes\) (\d+)\) 1$", "crates/rule/specs/Reading.antt")),
        "TABLE_MOST": spec_number("table/specs/Reading.antt", "bytes_most"),
        "ROWS_MOST": rows,
        "COLUMNS_MOST": spec_number("table/specs/Reading.antt", "columns_most"),
        "BRANCHES_MOST": int(found(rf"require \({MOST} count (\d+)\) 6$", "crates/rule/specs/Reading.antt")),
        "WORK_BYTES": spec_number("case/specs/Run.antt", "work_least"),
        "OUTPUT_MOST": longest,
        "PROJECTION_MOST": int(found(r"^Bytes l = .* < (\d+)$", "crates/layout/specs/Bytes.antt")),
    }


def beyond():
    """The refusals beyond the limits, by the specifications."""
    rule, table, run = "crates/rule/specs/Reading.antt", "crates/table/specs/Reading.antt", "crates/case/specs/Run.antt"
    return {name: int(found(pattern, path)) for name, path, pattern in [
        ("RULE_MOST", rule, rf"{MOST} \(length bytes\) \d+\) (\d+)$"),
        ("TABLE_MOST", table, r"bytes_most\) (\d+)$"),
        ("ROWS_MOST", table, rf"require \({MOST} \(number .* rows_most\) (\d+)$"),
        ("COLUMNS_MOST", table, r"^read_columns rows zero \(.*refused (\d+)$"),
        ("BRANCHES_MOST", rule, rf"require \({MOST} count \d+\) (\d+)$"),
        ("WORK_BYTES", run, rf"require \({MOST} work_least work\) (\d+)$"),
        ("OUTPUT_BYTES", "crates/writer/specs/Written.antt", rf"require \({MOST} \(length bytes\) output\) (\d+)$")]}


def in_words():
    """The limits that the words of a refusal name, by its number; the others name none."""
    most, reading = limits(), "rule/specs/Reading.antt"
    return {1: [most["RULE_MOST"]], 4: [spec_number(reading, "depth_most"), spec_number(reading, "cases_most")], 6: [most["BRANCHES_MOST"]],
            10: [most["ROWS_MOST"], most["COLUMNS_MOST"]], 14: [most["WORK_BYTES"]], 16: [spec_number("writer/specs/Written.antt", "text_most")]}


def words():
    """The numbers in the words of refusals and in the header's comments."""
    most, past, named = limits(), beyond(), in_words()
    # the condition of 9 also names tags 1 and 2
    conditions = {**named, 9: [most["TABLE_MOST"], 1, 2]}
    for n, _, condition, sentence in paper_rows():
        yield f"the numbers in the condition of refusal {n}", numbers_in(condition), conditions.get(int(n), [])
        yield f"the numbers in the sentence of refusal {n}", numbers_in(sentence), named.get(int(n), [])
    listed = ("RULE_MOST", "TABLE_MOST", "ROWS_MOST", "COLUMNS_MOST", "BRANCHES_MOST")
    yield "the refusals beyond limits", numbers_in(found(r"^/\* Limits: more is refused \((.*)\)\. \*/$", HEADER)), [past[name] for name in listed]
    yield "the refusal of a work buffer", int(found(r"^/\* Bytes of a full work buffer.* \((\d+)\)\. \*/$", HEADER)), past["WORK_BYTES"]
    yield "the refusal of an output", int(found(r"^/\* Bytes of output .* \((\d+)\)\. \*/$", HEADER)), past["OUTPUT_BYTES"]
    yield "the longest answer's words", numbers_in(found(r"^/\* Bytes of the longest answer: (.*?)\. ", HEADER)), [most["ROWS_MOST"]] + named[16]
    yield "where refusals end, in words", int(found(r"below TEMBALKU_RULE_ACCEPTED \((\d+)\) it is a refusal", HEADER)), macro("RULE_ACCEPTED")
    yield "the most columns of a projection, in words", int(found(r"number, at most (\d+)\. They are", HEADER)), most["PROJECTION_MOST"]
    counted = {name: macro(accepted(name)) for name in refusing_functions()}
    said = re.findall(r"refusal \([^)]*\)[^,;]*, or\s+(?:\* )?([\d,]+) and[\s\S]*?\n(?:uint32_t|size_t) (tembalku_\w+)\(", text(HEADER))
    yield "what answers count from, in words", {name: number(n) for n, name in said}, counted
    said = re.findall(r"^\| `(tembalku_\w+)` \| .* \| ([\d,]+) \+ ", text("docs/FORMAT.md"), re.M)
    yield "what answers count from, in docs/FORMAT.md", {name: number(n) for name, n in said}, counted


def accepted(function):
    """The name of what a function's answers count from."""
    return "TABLE_ACCEPTED" if "table" in function else "RULE_ACCEPTED" if "rule" in function else "ANSWERED"


def states():
    """At which refusals the work buffer is untouched and at which it is zero, wherever that is said."""
    path = "layout/specs/Refusals.antt"
    run = sorted(n for name in ("rule", "table", "evaluation") for n in spec_list(path, name + "_refusals"))
    name = found(r"^work_after \(refused n\) work = cond \(among (\w+) n\) \(zeros work\) work$", "crates/case/specs/Run.antt")
    zero = spec_list(path, name)
    untouched = [n for n in run if n not in zero]
    for file in (HEADER, "docs/FORMAT.md"):
        said = found(r"at an answer and at (\d+ to \d+), and untouched at (\d+ to \d+ and \d+)\.", file)
        yield f"{file}: the work buffer's states", [spans(s) for s in said], [zero, untouched]
    said = re.findall(r"^\| ([\d to,]+) \| (untouched|zero) \| untouched \|$", text("docs/REFUSALS.md"), re.M)
    yield "docs/REFUSALS.md: the work buffer's states", [(spans(s), state) for s, state in said], [(untouched, "untouched"), (zero, "zero")]
    said = found(r"^/\* Refusals\. The library's functions give (.*); (.*) are the result builder's\.", HEADER)
    yield "the refusals of functions and builder, in words", [spans(s) for s in said], [run, spec_list(path, "builder_refusals")[1:]]


def numbers():
    for name, limit in limits().items():
        yield f"TEMBALKU_{name}", macro(name), limit
    yield "TEMBALKU_OUTPUT_BYTES", macro("OUTPUT_BYTES"), int(found(r"^given c = run .* (\d+)$", "crates/case/specs/Cases.antt"))
    for name, codes in (("RULE_ACCEPTED", ("rule", "strategy", "nullable", "projection")), ("TABLE_ACCEPTED", ("table", "null_count")),
                        ("ANSWERED", ("run", "answer_count"))):
        for code in codes:
            yield f"TEMBALKU_{name}, {code}_code", macro(name), int(found(rf"^{code}_code (?:rows )?\((?:ok \w+|Ok \(Some \w+\))\) = (\d+) \+", CODES))
    yield "TEMBALKU_NO_COLUMN", macro("NO_COLUMN"), int(found(r"^null_count_code \(Ok None\) = (\d+)$", CODES))
    yield "a missing column, in words", int(found(r"their number; or (\d+)\n \* \(TEMBALKU_NO_COLUMN\), which is no refusal", HEADER)), macro("NO_COLUMN")
    yield "the types", enum("type"), {upper(name): n for name, n in numbered("type_number", "crates/scalar/specs/Types.antt").items()}
    yield "the strategies", enum("strategy"), {upper(name): n for name, n in numbered("strategy_number", "crates/rule/specs/Strategy.antt").items()}
    yield "the functions", header_functions(), code_functions()
    version = ".".join(str(macro(f"VERSION_{part}")) for part in ("MAJOR", "MINOR", "PATCH"))
    yield "the version", found(r'^#define TEMBALKU_VERSION "(.*)"$', HEADER), version


def elsewhere():
    """The numbers that other files repeat."""
    for name in ("WORK_BYTES", "OUTPUT_MOST"):
        yield f"examples/rust: {name}", macro(name), int(found(rf"^const {name}: usize = (\d+);$", "examples/rust/example.rs"))
    page = text("docs/FORMAT.md")
    rows = {name: number(n) for n, name in re.findall(r"^\| .* \| ([\d,]+) \| .* \| `TEMBALKU_(\w+)` \|$", page, re.M)}
    yield "the limits of docs/FORMAT.md", {name: macro(name) for name in limits()}, rows
    yield "docs/FORMAT.md: what caserun lends", macro("OUTPUT_BYTES"), number(found(r"It lends ([\d,]+) bytes for the output", "docs/FORMAT.md"))
    past = {name: int(n) for n, name in re.findall(r"^\| .* \| [\d,]+ \| (?:\d, )?(\d+) \| `TEMBALKU_(\w+)` \|$", page, re.M)}
    yield "the refusals beyond the limits of docs/FORMAT.md", past, {name: n for name, n in beyond().items() if name != "OUTPUT_BYTES"}
    nameless = [(number(n), int(past)) for n, past in re.findall(r"^\| .* \| ([\d,]+) \| (\d+) \| \|$", page, re.M)]
    yield "the other limits of docs/FORMAT.md", nameless, [(n, past) for past in (4, 16) for n in in_words()[past]]
    types = {upper(name): int(n) for n, name in re.findall(r"^\| (\d) \| ([A-Z]\w+) \|", page, re.M)}
    yield "the types of docs/FORMAT.md", enum("type"), types
    strategies = {upper(name): int(n) for n, name in re.findall(r"^\| (\d) \| `(\w+)` \|", page, re.M)}
    yield "the strategies of docs/FORMAT.md", enum("strategy"), strategies
    tags = [int(n) for n in re.findall(r"^\| (1[6-9]|2\d) \| ", page, re.M)]
    yield "the tags of docs/FORMAT.md", list(numbered("tag_of", "crates/rule/specs/Reading.antt").values()), tags
    said = {name: [spans(n)] for name, n in re.findall(r"^\| `(tembalku_\w+)` \| ([\d to,]+) \|", page, re.M)}
    yield "the functions' refusals in docs/FORMAT.md", {name: header_refusals()[name] for name in refusing_functions()}, said
    said = re.findall(r"^\| `(tembalku_\w+)` \| none \|", page, re.M)
    yield "the functions without refusals in docs/FORMAT.md", [name for name in header_functions() if name not in refusing_functions()], said


def main():
    compared = [*refusals(), *words(), *states(), *numbers(), *elsewhere()]
    differ = [f"{what}: {ours}, but {theirs}" for what, ours, theirs in compared if ours != theirs]
    print("\n".join(differ + [f"{len(compared)} things of the header compared, {len(differ)} differ"]))
    return 1 if differ else 0


if __name__ == "__main__":
    sys.exit(main())
