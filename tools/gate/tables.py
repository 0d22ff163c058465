#!/usr/bin/env python3
"""Writes the tables of docs/tables into the pages, the manual page, the completions and the module for Python.

usage: tools/gate/tables.py                     writes what stands between the marks of each table
       tools/gate/tables.py --check [PROGRAM]   says where something else stands there, and where a table says other
                                                than the definitions and, if there is one, than PROGRAM

A mark is a comment with the name of a table and `by tools/gate/tables.py`; the table ends at the comment `end of NAME`.
The tables are read by tables_read.py; what is written stands in tables_written.py, and what is compared with the
definitions in tables_agree.py. The last line of the output counts what passed and failed.
"""

import pathlib
import re
import sys

sys.dont_write_bytecode = True
sys.path.insert(0, str(pathlib.Path(__file__).resolve().parent))

import tables_agree  # noqa: E402
import tables_read  # noqa: E402
import tables_written  # noqa: E402

TOP = pathlib.Path(__file__).resolve().parent.parent.parent
# How a comment begins and ends, by the end of a file's name.
COMMENTS = {
    ".md": ("<!-- ", " -->"), ".1": (".\\\" ", ""), ".py": ("# ", ""), ".bash-completion": ("# ", ""),
    ".antt": ("-- ", ""), ".rt": ("// ", ""),
}
BY = ": by tools/gate/tables.py"


class Missing(Exception):
    """A page without the marks of a table."""


def mark(path, words):
    """A comment of a file with these words."""
    begin, end = COMMENTS[path.suffix]
    return begin + words + end


def place(path, lines, name):
    """The places of the first line of a table and of the one behind its last, between its marks."""
    first = [at for at, line in enumerate(lines) if line == mark(path, name + BY)]
    last = [at for at, line in enumerate(lines) if line == mark(path, f"end of {name}")]
    if len(first) != 1 or len(last) != 1 or not first[0] < last[0]:
        raise Missing(f"{path.relative_to(TOP)}: the table {name} has to stand once between the lines\n"
                      f"{mark(path, name + BY)}\n{mark(path, f'end of {name}')}")
    return first[0] + 1, last[0]


def with_tables(path, text, written):
    """The text of a file with its tables, each by its name, as they are to be written."""
    if tables_written.WHOLE in written:
        return "\n".join(written[tables_written.WHOLE]) + "\n"
    lines = text.split("\n")
    for name, table in written.items():
        begin, end = place(path, lines, name)
        lines[begin:end] = table
    return "\n".join(lines)


def each_page():
    """Each file that has tables: its path, its text, and the text that it should have."""
    for name, written in tables_written.pages().items():
        path = TOP / name
        text = path.read_text(encoding="utf-8")
        yield path, text, with_tables(path, text, written)


def of_marks():
    """The marks of tables that nothing writes there, in the pages and in the files that have tables."""
    written = {TOP / name: set(tables) for name, tables in tables_written.pages().items()}
    for path in sorted({*written, *TOP.glob("*.md"), *TOP.glob("docs/*.*"), *TOP.glob("extras/*.*")}):
        found = re.findall(rf"([\w-]+){BY}", path.read_text(encoding="utf-8"))
        yield from (f"{path.relative_to(TOP)}: no table {name} is written here"
                    for name in found if name not in written.get(path, ()))


def write():
    """Writes each file anew whose tables are other ones."""
    for path, text, wanted in each_page():
        if text != wanted:
            path.write_text(wanted, encoding="utf-8")
            print(f"{path.relative_to(TOP)}: written")


def check(program):
    """Says what isn't as it should be, and counts."""
    failed = [f"{path.relative_to(TOP)}: tools/gate/tables.py would write another table"
              for path, text, wanted in each_page() if text != wanted]
    passed = len(tables_written.pages()) - len(failed)
    for name, faults in [("marks", list(of_marks())), *tables_agree.comparisons(program)]:
        failed += [f"{name}: {fault}" for fault in faults]
        passed += not faults
    for line in failed:
        print(line)
    print(f"{passed} passed, {len(failed)} failed")
    return 1 if failed else 0


def main(words):
    if not words:
        write()
        return 0
    if words[0] == "--check" and len(words) <= 2:
        return check(words[1] if len(words) == 2 else None)
    sys.exit("usage: tools/gate/tables.py [--check [PROGRAM]]")


if __name__ == "__main__":
    try:
        sys.exit(main(sys.argv[1:]))
    except (tables_read.BadTable, Missing) as fault:
        sys.exit(str(fault))
