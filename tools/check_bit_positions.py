#!/usr/bin/env python3
"""check_bit_positions.py: no division and no remainder by 8 is in the crates' code and in the header, and none at all where a bit is reached.

Byte and bit position of a row come from a shift and a mask (document 02, change 4). The library's functions that divide count too.
Comments are not looked at; the definitions in specs/ say quotient and remainder. Prints each place and ends with status 1 where there is one.
"""
import pathlib
import re
import sys

HERE = pathlib.Path(__file__).resolve().parent.parent
# the library's functions that divide
NAMES = r"(?:(?:[a-z]+_)?(?:div|rem)(?:_ceil|_floor|_euclid)?|(?:is_|next_)?multiple_of)\s*\("
EIGHT = r"\s*\(*\s*(?:8|0[xX]0*8|0[bB]0*1000|0[oO]0*10)(?:_?[ui](?:8|16|32|64|128|size))?\b"
BY_EIGHT = re.compile(rf"(?:[/%]=?|\.\s*{NAMES}|::\s*{NAMES}[^;]*,){EIGHT}")
ANY = re.compile(rf"[/%]|(?:\.|::)\s*{NAMES}")
# where bits are reached, read and written nothing is divided
OF_BITS = {"crates/layout/src/bits.rt", "crates/writer/src/bitmap.rt"}
FOUND = ["row / 8", "row % 8", "n /= 8;", "n %= 8;", "row /\n        8", "/* the byte */ row / 8", "a / 8usize", "a % 8_u8", "a / 0x8", "a % (8)",
         "rows.div_ceil(8)", "rows.rem_euclid( 0x8 )", "rows.checked_div(8)", "rows.is_multiple_of(8)", "usize::div_ceil(rows, 8)"]
PASSED = ["n / 80", "n % 8_000", "n / 0x80", "row >> 3", "row & 7", "// rows / 8, rounded up\n", "/* rows / 8,\nrounded up */", "n / 18", "8 / n", "n.div_ceil(80)", "usize::div_ceil(n, 10)"]


def without_comments(text):
    """The code, with as many lines as before."""
    return re.sub(r"//[^\n]*|/\*.*?\*/", lambda m: "\n" * m.group().count("\n"), text, flags=re.S)


def places(text, pattern):
    """The lines of the code where the pattern stands."""
    code = without_comments(text)
    return [code.count("\n", 0, m.start()) + 1 for m in pattern.finditer(code)]


def main():
    unseen = [s for s in FOUND if not places(s, BY_EIGHT)] + [s for s in PASSED if places(s, BY_EIGHT)]
    if unseen:
        sys.exit(f"check_bit_positions.py: its own examples are judged wrongly: {unseen}")
    files = sorted([*HERE.glob("crates/*/src/**/*.rt"), *HERE.glob("include/*.h")])
    missing = OF_BITS - {str(f.relative_to(HERE)) for f in files}
    if missing:
        sys.exit(f"check_bit_positions.py: not there: {sorted(missing)}")
    wrong = []
    for f in files:
        name = str(f.relative_to(HERE))
        wrong += [f"{name}:{line}" for line in places(f.read_text(), ANY if name in OF_BITS else BY_EIGHT)]
    for place in wrong:
        print(f"{place}: divided where a shift or a mask is wanted")
    if wrong:
        sys.exit(1)
    print(f"{len(files)} files: no division or remainder by 8")


if __name__ == "__main__":
    main()
