#!/usr/bin/env python3
"""compare_utf8.py [--library ARCHIVE] [--four]: the library's test of a text, `tembalku_text_validate`, against two others, outside of the gate.

Python's strict decoder, whose UnicodeDecodeError has the place: the encoding of every code point, surrogates included, and of every number
from 110000 to 1FFFFF (hex) by the bits that four bytes have; all of these cut by a byte, between letters, and in each number of bytes that is
too long for them. Rust's `std::str::from_utf8` (utf8_rust.rs; needs rustc): all strings of up to three bytes, those of four bytes by their
classes, long texts from each of sixteen places on with a wrong byte at each place, and random ones.

--library  the static library; crates/tembalku/out/libtembalku.a unless said
--four     all strings of four bytes, 4,294,967,296 of them: minutes

Prints how many texts of each kind were compared and how many differ; the exit status is 1 where one does.
"""
import argparse
import ctypes
import os
import shutil
import subprocess
import sys
import tempfile

sys.dont_write_bytecode = True
from dealer.library import archive_path, linked  # noqa: E402
from dealer.text import FileError  # noqa: E402
from dealer.utf8 import ill_formed  # noqa: E402

HERE = os.path.dirname(os.path.abspath(__file__))
# the first byte's own bits, for sequences of two, three and four bytes
FIRST = {2: 0xC0, 3: 0xE0, 4: 0xF0}


def by_bits(code, size):
    """A number in so many bytes, six bits in each behind the first, whether or not UTF-8 has it so."""
    if size == 1:
        return bytes([code])
    behind = [0x80 | code >> 6 * i & 0x3F for i in reversed(range(size - 1))]
    return bytes([FIRST[size] | code >> 6 * (size - 1)] + behind)


def least_size(code):
    return 1 if code < 0x80 else 2 if code < 0x800 else 3 if code < 0x10000 else 4


def encodings():
    """The encoding of each code point, and what four bytes' bits have beyond the last."""
    for code in range(0x110000):
        yield chr(code).encode("utf-8", "surrogatepass")
    for code in range(0x110000, 0x200000):
        yield by_bits(code, 4)


def overlong():
    """Each code point in more bytes than it needs."""
    for code in range(0x10000):
        for size in range(least_size(code) + 1, 5):
            yield by_bits(code, size)


def kinds():
    """The texts that are compared with Python's decoder, by what they are."""
    yield "the encoding of each code point and of each number up to 1FFFFF", encodings()
    yield "the same, cut by a byte", (text[:-1] for text in encodings())
    yield "the same, between letters", (b"ab" + text + b"c" for text in encodings())
    yield "overlong forms", overlong()


def compared(test, texts):
    """How many texts, how many differ, and the first that does."""
    count, differ, first = 0, 0, ""
    for text in texts:
        bad = ill_formed(text)
        said, wanted = test(text, len(text)), len(text) if bad is None else bad
        count += 1
        if said != wanted:
            differ += 1
            first = first or f": {text.hex(' ')}, {said} where the decoder says {wanted}"
    return count, differ, first


def with_python(archive):
    test = linked(archive).tembalku_text_validate
    test.restype, test.argtypes = ctypes.c_size_t, [ctypes.c_char_p, ctypes.c_size_t]
    wrong = 0
    for name, texts in kinds():
        count, differ, first = compared(test, texts)
        print(f"Python: {name}: {count} compared, {differ} differ{first}", flush=True)
        wrong += differ
    return wrong


def built(archive, folder):
    """The Rust program, with the library linked in."""
    path = os.environ.get("PATH", "") + os.pathsep + os.path.join(os.path.expanduser("~"), ".cargo", "bin")
    rustc, program = shutil.which("rustc", path=path), os.path.join(folder, "utf8_rust")
    if rustc is None:
        raise FileError("rustc isn't there: it is needed for Rust's from_utf8")
    command = [rustc, "--edition", "2021", "-O", "-D", "warnings", os.path.join(HERE, "utf8_rust.rs"), "-C", f"link-arg={os.path.abspath(archive)}", "-o", program]
    done = subprocess.run(command, capture_output=True, text=True, check=False)
    if done.returncode != 0:
        raise FileError(f"utf8_rust.rs can't be built: {done.stderr.strip()}")
    return program


def with_rust(archive, every):
    with tempfile.TemporaryDirectory() as folder:
        command = [built(archive, folder), "compare"] + ["four"] * every
        lines = subprocess.run(command, capture_output=True, text=True, check=True).stdout.splitlines()
    for line in lines:
        print(f"Rust: {line}")
    return sum(" 0 differ" not in line for line in lines)


def main():
    parser = argparse.ArgumentParser(description=__doc__, formatter_class=argparse.RawDescriptionHelpFormatter)
    parser.add_argument("--library")
    parser.add_argument("--four", action="store_true")
    args = parser.parse_args()
    try:
        archive = archive_path(args.library)
        return 1 if with_python(archive) + with_rust(archive, args.four) else 0
    except FileError as e:
        sys.exit(str(e))


if __name__ == "__main__":
    sys.exit(main())
