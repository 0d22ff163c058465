#!/usr/bin/env python3
"""Writes the table of wrong bodies, docs/tables/wrong-bodies.tsv: what each must-fail edit turns, by crate.

usage: tools/gate/wrong_bodies.py            writes the table
       tools/gate/wrong_bodies.py --check    says whether it is the one that stands there, and writes nothing

Each edit begins with a line `# promise: TEXT`. An edit has one, and no two edits of a crate have the same.
The last line of the output counts the edits that passed and failed.
"""

import pathlib
import sys

sys.dont_write_bytecode = True
TOP = pathlib.Path(__file__).resolve().parent.parent.parent
TABLE = TOP / "docs" / "tables" / "wrong-bodies.tsv"
WORD = "# promise: "


def crates():
    """The crates that have edits, in the order of crates.txt from the bottom up."""
    below = {}
    for line in (TOP / "crates.txt").read_text(encoding="utf-8").splitlines():
        name, colon, libraries = line.partition(":")
        if colon:
            below[name.split()[0]] = libraries.split()

    def depth(name):
        return 1 + max([depth(it) for it in below[name] if it in below], default=0)

    found = [name for name in below if list((TOP / "crates" / name / "must-fail").glob("*.edit"))]
    return sorted(found, key=lambda name: (depth(name), name))


def promise(edit):
    """What the edit turns, or none where it doesn't say it as it should."""
    lines = edit.read_text(encoding="utf-8").splitlines()
    said = [line[len(WORD):] for line in lines if line.startswith(WORD)]
    if len(said) == 1 and lines[0].startswith(WORD) and said[0].strip() and "\t" not in said[0]:
        return said[0]
    return None


def rows(crate, faults):
    """The rows of a crate: each edit with what it turns. What is wrong with an edit is put to the faults."""
    found = {}
    for edit in sorted((TOP / "crates" / crate / "must-fail").glob("*.edit")):
        said = promise(edit)
        if said is None:
            faults.append(f"{crate}, {edit.stem}: its first line doesn't say what it turns, or another one does, too")
        elif said in found.values():
            faults.append(f"{crate}, {edit.stem}: another edit of the crate turns the same")
        found[edit.stem] = said or ""
    return [f"{crate}\t{name}\t{said}\n" for name, said in found.items()]


def main():
    faults = []
    found = [row for crate in crates() for row in rows(crate, faults)]
    table = "crate\tedit\tpromise\n" + "".join(found)
    if sys.argv[1:] == ["--check"]:
        if not TABLE.exists() or TABLE.read_text(encoding="utf-8") != table:
            faults.append("docs/tables/wrong-bodies.tsv isn't the table that is written: run tools/gate/wrong_bodies.py")
    elif sys.argv[1:]:
        sys.exit("usage: tools/gate/wrong_bodies.py [--check]")
    else:
        TABLE.write_text(table, encoding="utf-8")
    for fault in faults:
        print(fault)
    print(f"{len(found)} passed, {len(faults)} failed")
    return 1 if faults else 0


sys.exit(main())
