"""The tables of small files, with the line that the program says of each (tests/test_cases.py), and of claims."""

import functools
import importlib
import typing

from tests.recordings import bytes_of, claim_of

# In place of a line: the one that the second reading of the rules gives.
BY_RULES = "the line that the second reading gives"

TABLES = [
    "fields", "ends", "first_faults", "conforming", "head_differences", "verdict_lines", "rows", "differences", "channels",
    "labels", "headers", "samples", "shifts", "annotations", "note_texts", "cuts", "parts", "single_bytes", "every_byte",
]

# A call that is made when a row runs: its files have no bytes before.
later = functools.partial


class Row(typing.NamedTuple):
    """A row: its name, the command, the files that are its words, in their order, and the line that it gives.

    A file is its bytes, a recording, the parts of a claim, or a call that gives one of these later. The line is that of
    `conform`, `check` or `check-parts`, or of `show` the fault that it names; where it shows the header its second line,
    the start, or none."""
    name: str
    command: str
    files: tuple
    line: str | None

    def made(self):
        """The bytes of its files."""
        return [made(file) for file in self.files]

    def wanted(self):
        """The line in bytes, or none."""
        return None if self.line is None else self.line.encode()


def made(file):
    """The bytes of a file."""
    if callable(file):
        file = file()
    if isinstance(file, dict):
        file = bytes_of(file)
    if isinstance(file, tuple):
        file = claim_of(*file)
    return file.encode() if isinstance(file, str) else bytes(file)


def check(name, original, export, claim, line):
    """The row of a check of one export."""
    return Row(name, "check", (original, export, claim), line)


def check_parts(name, original, claim, exports, line):
    """The row of a check of several exports."""
    return Row(name, "check-parts", (original, claim, *exports), line)


def rows_of(table):
    """The rows of a table, by the table's name."""
    return list(importlib.import_module(f"tests.cases.{table}").rows())


def all_rows():
    """Each row of all tables, with the name of its table before its own."""
    for table in TABLES:
        for row in rows_of(table):
            yield row._replace(name=f"{table}_{row.name}")
