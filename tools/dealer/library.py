"""Calls the static library: links it into a shared object in a temporary folder and loads that."""
import ctypes
import os
import subprocess
import tempfile

from dealer.reading import read_answer
from dealer.text import FileError

ROOT = os.path.dirname(os.path.dirname(os.path.dirname(os.path.abspath(__file__))))
ARCHIVE = os.path.join("crates", "tembalku", "out", "libtembalku.a")
WORK_BYTES, OUTPUT_MOST = 65536, 67670
RULE_ACCEPTED, TABLE_ACCEPTED, ANSWERED = 256, 65536, 65536


def archive_path(given=None):
    """The archive that is given, or the one that is built in the repository."""
    if given is not None:
        if not os.path.isfile(given):
            raise FileError(f"{given}: there is no such library: tools/build_library.sh writes {ARCHIVE}")
        return given
    built = os.path.join(ROOT, ARCHIVE)
    if not os.path.isfile(built):
        raise FileError(f"the library isn't built: tools/build_library.sh writes {ARCHIVE}; or name one with --library ARCHIVE")
    return built


def linked(archive):
    """The archive as a loaded shared object."""
    with tempfile.TemporaryDirectory() as folder:
        shared = os.path.join(folder, "libtembalku.so")
        command = ["gcc", "-shared", "-o", shared, "-Wl,--whole-archive", archive, "-Wl,--no-whole-archive"]
        try:
            done = subprocess.run(command, capture_output=True, text=True, check=False)
        except FileNotFoundError:
            raise FileError("gcc isn't there: it is needed to link the library") from None
        if done.returncode != 0:
            raise FileError(f"{archive}: can't be linked: {(done.stderr.strip().splitlines() or ['gcc failed'])[0]}")
        try:
            return ctypes.CDLL(shared)
        except OSError as e:
            raise FileError(f"{archive}: can't be loaded: {str(e).removeprefix(shared + ': ')}") from None


class Library:
    """The functions of include/tembalku.h that are needed here."""

    def __init__(self, archive):
        self.so = linked(archive)
        bytes_in = [ctypes.c_char_p, ctypes.c_size_t]
        for name, kind, count in (("rule_read", ctypes.c_uint32, 1), ("table_read", ctypes.c_uint32, 1), ("evaluate", ctypes.c_size_t, 4)):
            function = getattr(self.so, "tembalku_" + name, None)
            if function is None:
                raise FileError(f"{archive}: isn't this library: it has no function tembalku_{name}")
            function.restype, function.argtypes = kind, bytes_in * count
        self.work, self.output = ctypes.create_string_buffer(WORK_BYTES), ctypes.create_string_buffer(OUTPUT_MOST)

    def rule_refusal(self, rule):
        """1 to 8, or None."""
        said = self.so.tembalku_rule_read(rule, len(rule))
        return said if said < RULE_ACCEPTED else None

    def table_refusal(self, table):
        """9 to 12 or 25, or None."""
        said = self.so.tembalku_table_read(table, len(table))
        return said if said < RULE_ACCEPTED else None

    def evaluate(self, rule, table):
        """The refusal's number, or None; and the answer's bytes, or None. A number that means nothing gives no bytes."""
        said = self.so.tembalku_evaluate(rule, len(rule), table, len(table), self.work, WORK_BYTES, self.output, OUTPUT_MOST)
        if said < RULE_ACCEPTED:
            return said, None
        return None, self.output.raw[:max(0, said - ANSWERED)]

    def entries(self, rule, table):
        """The refusal's number, or None; and the type and entries of the answer, or None. Refused if the bytes are no answer."""
        number, answer = self.evaluate(rule, table)
        if number is not None:
            return number, None
        rows = self.so.tembalku_table_read(table, len(table)) - TABLE_ACCEPTED
        return None, read_answer(answer, max(0, rows))
