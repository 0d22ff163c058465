"""The tables of docs/tables beside the program: each line that a table says can be seen is seen where it says so, and the
worked rows have the lines that the tables of tests/cases have for the same files."""

import collections
import re
import sys

from tests import faults, night
from tests.cases import rows_of
from tests.harness import TOP, Case, ProgramCase, each, slug

sys.path.insert(0, str(TOP / "tools" / "gate"))

import tables_read  # noqa: E402

# A word of a line that stands for what differs from line to line, and what a line goes on with.
STANDS_FOR = re.compile(r"\b(?:[A-Z]|NAME|FAULT|HEX)\b|\\\.\\\.")


def spans(cell):
    """What stands as code in a cell."""
    return re.findall(r"`([^`]*)`", cell.replace("\\|", "|"))


def shape(text):
    """A pattern of the lines that a table has as this text."""
    return STANDS_FOR.sub(lambda found: ".*" if found[0].startswith("\\") else ".+", re.escape(text))


def fits(cell, line):
    """Whether a line is one of those that a cell has: whole ones, or the end of the first in another word."""
    first, *others = spans(cell)
    begin = first.split(" ")[:2]
    whole = [text for text in [first, *others] if text.split(" ")[:1] == begin[:1]]
    if any(re.fullmatch(shape(text), line) for text in whole):
        return True
    ends = [text for text in others if text not in whole]
    return line.split(" ")[:2] == begin and any(line.endswith(f" {text}") for text in ends)


def numbers(piece):
    """The worked rows that a piece of a cell names: numbers, and numbers from one to another."""
    for first, last in re.findall(r"(\d+)(?: to (\d+))?", re.sub(r"`[^`]*`", "", piece)):
        yield from range(int(first), int(last or first) + 1)


def commands(piece):
    """The words behind `edfclaim` of each command that a piece of a cell names, in the folder of the example night."""
    named = spans(piece)
    if " with " in piece:
        return [["check", "original.edf", *named]]
    found = []
    for text in named:
        if text.startswith("edfclaim"):
            found.append(text.split()[1:])
        elif text.endswith(".edf"):
            found.append(["check", "original.edf", text, "cut.toml"])
        else:
            found.append(["conform", f"{text}.edf"])
    return found


def pieces(row):
    """The pieces of the cell that says where a line is seen; what isn't a place by itself is left out."""
    told = re.split(r";\s*", row.get("seen", ""))
    return [piece for piece in told if piece and not re.search(r"^the |>/|\$\(", piece)]


def lines_of_checks():
    """Each row of a check's line that says where it is seen."""
    said = tables_read.lines()
    both = [row for no in [said["yes"], *said["no"]] for kind in ("check", "parts") for row in no.get(kind, [])]
    return both + said["conform"]


def named(table, column):
    """The rows of a table that are seen somewhere, each with a name."""
    seen = [row for row in table if pieces(row)]
    return [(f"{number}_{slug(row[column])[:60]}", row) for number, row in enumerate(seen)]


class Seen(ProgramCase):
    """What is seen where a table says so."""

    @classmethod
    def setUpClass(cls):
        super().setUpClass()
        cls.night = cls.copy_of_night()
        whole = night.files()["cut.edf"]
        for name, _, change in faults.FAULTS:
            (cls.night / f"{name}.edf").write_bytes(change(whole))
        cls.lines = {int(row["row"]): row["line"] for row in tables_read.rows("rows")}

    def seen(self, row):
        """The lines that are seen where a row says so."""
        for piece in pieces(row):
            rows, typed = list(numbers(piece)), commands(piece)
            self.assertTrue(rows or typed, f"{piece!r} is no place where a line is seen")
            self.assertLessEqual(set(rows), set(self.lines), f"{piece!r}: there is no such row")
            yield from (self.lines[number] for number in rows)
            for words in typed:
                ran = self.run_program(*words, cwd=self.night)
                yield (ran.out or ran.err).decode().splitlines()[0]

    def assert_seen(self, cell, lines):
        lines = list(lines)
        self.assertTrue(lines, f"{cell}: nothing is seen")
        for line in lines:
            self.assertTrue(fits(cell, line), f"{cell}: {line!r} isn't such a line")

    @each(named(lines_of_checks(), "line"))
    def line(self, row):
        self.assert_seen(row["line"], self.seen(row))

    @each(named(tables_read.rows("causes"), "fault"))
    def fault(self, row):
        self.assert_seen(row["fault"], (re.sub("^.*?(?:FAULT |fault: )", "", line) for line in self.seen(row)))

    @each(named(tables_read.rows("refusals"), "line"))
    def refusal(self, row):
        for line in self.seen(row):
            front = spans(row["line"])[0].split("claim")
            self.assertTrue(line.startswith(front[0]), f"{row['line']}: {line!r} isn't such a line")


class WorkedRows(Case):
    """The worked rows."""

    def test_their_lines(self):
        """The table of the worked rows and those of tests/cases have the same lines, each as often."""
        stored = collections.Counter((row["of"], row["line"]) for row in tables_read.rows("rows"))
        tried = collections.Counter(("several" if row.command == "check-parts" else "one", row.line.rstrip("\n"))
                                    for row in rows_of("rows"))
        self.assertEqual(list((stored - tried).elements()), [], "these stand in docs/tables/rows.tsv alone")
        self.assertEqual(list((tried - stored).elements()), [], "these stand in tests/cases/rows.py alone")
