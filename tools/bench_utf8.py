#!/usr/bin/env python3
"""bench_utf8.py [--library ARCHIVE]...: nanoseconds of the library's test of a text and of Rust's `std::str::from_utf8` on the same texts,
outside of the gate.

ARCHIVE  crates/tembalku/out/libtembalku.a unless said; several are timed one after the other
The texts are names in letters, Norwegian, Greek, Cyrillic, Chinese and of characters of four bytes: one name, and names up to 64 and 4,096
bytes. Printed are the least of 40 rounds, both in turns in one process, and the library's divided by Rust's. Needs rustc (utf8_rust.rs).
"""
import argparse
import subprocess
import sys
import tempfile

sys.dont_write_bytecode = True
from compare_utf8 import built  # noqa: E402
from dealer.library import archive_path  # noqa: E402
from dealer.text import FileError  # noqa: E402


def timed(archive):
    with tempfile.TemporaryDirectory() as folder:
        lines = subprocess.run([built(archive, folder), "bench"], capture_output=True, text=True, check=True).stdout.splitlines()
    print(f"{archive}\n{'text':12} {'bytes':>6} {'library':>11} {'Rust':>11} {'divided':>8}")
    for line in lines:
        size, ours, theirs, name = line.split("\t")
        print(f"{name:12} {size:>6} {ours:>8} ns {theirs:>8} ns {float(ours) / float(theirs):8.2f}")


def main():
    parser = argparse.ArgumentParser(description=__doc__, formatter_class=argparse.RawDescriptionHelpFormatter)
    parser.add_argument("--library", action="append")
    args = parser.parse_args()
    try:
        for archive in args.library or [None]:
            timed(archive_path(archive))
    except FileError as e:
        sys.exit(str(e))


if __name__ == "__main__":
    main()
