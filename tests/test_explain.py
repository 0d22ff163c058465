"""Each explanation beside its check, and what explanations say of mistakes and don't say of near ones.

`explain` has the status of `check`, and its first line: on standard output behind an answer, on standard error behind a
refusal, and nothing on the other of the two. Sentences stand behind the line. This is tried on the checks of the example
night, on the broken copies as original and as export, on all claims, and on checks of the tables in tests/cases, as many of
each as stand below.

The rows of tests/explain have words that have to stand in the sentences, and words that may not. Each sentence has to be
said of one check of tests/explain/sentences.py, and not of another.
"""

import dataclasses
import os
import random
import sys

from tests import faults, night
from tests.cases import claim_texts, rows_of
from tests.cases.small_night import BOTH
from tests.explain import mistakes, rows, sentences, tries
from tests.harness import ANSWERS, NIGHT, TOP, ProgramCase, each, run, slug
from tests.long_nights import Night, other_values, remarks, write
from tests.recordings import claim_of

# How many checks of a table are tried.
MOST_OF_A_TABLE = 120

TABLES = [
    "head_differences", "verdict_lines", "rows", "differences", "channels", "labels", "headers", "samples", "shifts",
    "annotations", "note_texts", "cuts", "single_bytes", "every_byte",
]
ALL_OF_IT = claim_of(BOTH, "", mistakes.ALL)


def some_checks():
    """Checks of the tables, the same ones each time."""
    choose = random.Random(1)
    for table in TABLES:
        found = [row for row in rows_of(table) if row.command == "check"]
        for number in sorted(choose.sample(range(len(found)), min(len(found), MOST_OF_A_TABLE))):
            yield f"{table}_{found[number].name}", found[number]


def named(table):
    """The rows of a table, with names of tests."""
    for name, *row in table:
        yield slug(name), *row


class ExplainCase(ProgramCase):
    """Tests of explanations."""

    def paths(self, original, export, claim):
        return self.file("original.edf", original), self.file("export.edf", export), self.file("claim.toml", claim)

    def assert_explained(self, paths, status=None, words=(), absent=()):
        """Looks at the explanation of a check of these files: its words, and those that it mustn't have."""
        check, given = self.run_program("check", *paths), self.run_program("explain", *paths)
        if status is not None:
            self.assertEqual(check.status, status, f"{check}\nwanted: status {status}")
        # the stream with the line, and the other one
        line, said, other = (check.err, given.err, given.out) if check.status == 2 else (check.out, given.out, given.err)
        self.assertTrue(
            given.status == check.status and said.startswith(line) and not other,
            f"{given}\nand the check: {check}",
        )
        text = said.removeprefix(line).decode(errors="replace")
        self.assertTrue(
            line.count(b"\n") == 1 and text.strip() and text.endswith("\n"),
            f"no sentences behind the line: {given}",
        )
        self.assertEqual([word for word in words if word not in text], [], f"words that lack: {text}")
        self.assertEqual([word for word in absent if word in text], [], f"words that are said: {text}")


class Mistakes(ExplainCase):
    """Mistakes that are easily made."""

    @each((slug(name), name, *row) for name, *row in mistakes.mistakes())
    def mistake(self, name, status, *files):
        self.assert_explained(self.paths(*files), status, mistakes.WORDS[name])

    @each([("original", 0), ("export", 1), ("claim", 2)])
    def no_file_for(self, place):
        paths = list(self.paths(mistakes.WHOLE, mistakes.WHOLE, ALL_OF_IT))
        role, ending = (("original", "edf"), ("export", "edf"), ("claim", "toml"))[place]
        paths[place] = self.room / f"no-such-{role}.{ending}"
        self.assert_explained(paths, 2, mistakes.WORDS[f"no {role}"])

    def test_folder_for_the_export(self):
        original, _, claim = self.paths(mistakes.WHOLE, mistakes.WHOLE, ALL_OF_IT)
        folder = self.room / "a-folder"
        folder.mkdir()
        self.assert_explained((original, folder, claim), 2, mistakes.WORDS["a folder for the export"])


class Rows(ExplainCase):
    """The rows of tests/explain: the words that stand there, and those that don't."""

    @each(named(rows.rows()))
    def row(self, status, original, export, claim, there, absent):
        self.assert_explained(self.paths(original, export, claim), status, there, absent)

    @each(named(tries.rows()))
    def other_shift(self, status, original, export, claim, there, absent):
        self.assert_explained(self.paths(original, export, claim), status, there, absent)


class Pipes(ExplainCase):
    """Both files are read once, so what comes through a pipe is explained, too; but nothing can be tried of it."""

    def explained(self, status, content, *words):
        ran = self.run_program("explain", *words, input=content)
        self.assertTrue(ran.status == status and not ran.err, str(ran))
        return ran.out.decode()

    def test_export(self):
        original, export, claim = self.paths(mistakes.WHOLE, mistakes.WHOLE, ALL_OF_IT)
        said = self.explained(0, mistakes.WHOLE, original, "/dev/stdin", claim)
        self.assertEqual(said, self.run_program("explain", original, export, claim).out.decode())

    def test_original(self):
        original, export, claim = self.paths(mistakes.WHOLE, mistakes.WHOLE, ALL_OF_IT)
        said = self.explained(0, mistakes.WHOLE, "/dev/stdin", export, claim)
        self.assertEqual(said, self.run_program("explain", original, export, claim).out.decode())

    def test_export_behind_a_broken_original(self):
        """The original breaks off in its header, so nothing of the export was read before: it is judged, too."""
        original, _, claim = self.paths(mistakes.WHOLE[:300], b"", ALL_OF_IT)
        for content, is_said in ((mistakes.WHOLE, False), (mistakes.WHOLE[:-1], True)):
            said = self.explained(1, content, original, "/dev/stdin", claim)
            self.assertIn("The original can't be judged", said)
            self.assertEqual("The export can't be judged" in said, is_said, said)

    def test_no_shift_is_tried(self):
        """An export that starts elsewhere than claimed: other shifts are tried of files, and not of a pipe."""
        tried = "Other shifts were tried"
        shifted = claim_of(BOTH, "shift = 30", mistakes.ALL)
        original, export, claim = self.paths(mistakes.WHOLE, mistakes.WHOLE, shifted)
        words = "With shift = 0 the answer would be YES"
        self.assertIn(words, self.run_program("explain", original, export, claim).out.decode())
        said = self.explained(1, mistakes.WHOLE, original, "/dev/stdin", claim)
        self.assertNotIn(words, said)
        self.assertNotIn(tried, said)


class Sentences(ExplainCase):
    """Each sentence: of a check of which it is said, and of a near one of which it isn't."""

    KNOWN = sentences.sentences()

    def said_of(self, files):
        """What is said of a check of these files, behind its line."""
        ran = self.run_program("explain", *self.paths(*files))
        return (ran.err if ran.status == 2 else ran.out).partition(b"\n")[2].decode(errors="replace")

    @each(named(sentences.rows()))
    def said(self, name, files, pieces, near):
        self.assertIn(name, self.KNOWN, "there is no such sentence")
        self.assertIn(sentences.filled(self.KNOWN[name], pieces), self.said_of(files))

    @each(named(sentences.rows()))
    def not_said_of_a_near_mistake(self, name, files, pieces, near):
        self.assertIn(name, self.KNOWN, "there is no such sentence")
        self.assertNotRegex(self.said_of(near), sentences.pattern(self.KNOWN[name]))

    @each((slug(name), name) for name in sorted(sentences.PARTS))
    def part(self, name):
        self.assertIsNone(sentences.fault_of_part(self.KNOWN.get(name, "")))

    @each((slug(name), name, *words) for name, words in sentences.OF_ROWS.items())
    def in_a_row(self, name, there, absent):
        self.assertIsNone(sentences.fault_of_rows(self.KNOWN.get(name, ""), there, absent))

    def test_each_has_a_row(self):
        with_row = {name for _, name, *_ in sentences.rows()} | sentences.NO_ROW | sentences.PARTS | set(sentences.OF_ROWS)
        self.assertEqual(sorted(self.KNOWN.keys() - with_row), [], "sentences without a row")


class Checks(ExplainCase):
    """Explanations beside their checks, whatever they say."""

    @classmethod
    def setUpClass(cls):
        super().setUpClass()
        cls.export = night.files()["cut.edf"]

    @each((slug(words), status, words) for status, words, _ in ANSWERS if words.startswith("check "))
    def night(self, status, words):
        self.assert_explained([NIGHT / name for name in words.split()[1:]], status)

    @each((slug(name), change) for name, _, change in faults.FAULTS)
    def fault_of_the_export(self, change):
        self.assert_explained((NIGHT / "original.edf", self.file("broken.edf", change(self.export)), NIGHT / "cut.toml"), 1)

    @each((slug(name), change) for name, _, change in faults.FAULTS)
    def fault_of_the_original(self, change):
        self.assert_explained((self.file("broken.edf", change(self.export)), NIGHT / "cut.edf", NIGHT / "cut.toml"), 1)

    @each(claim_texts.rows())
    def claim(self, text, want):
        paths = NIGHT / "original.edf", NIGHT / "cut.edf", self.file("claim.toml", text)
        self.assert_explained(paths, None if want == "taken" else 2)

    @each(some_checks())
    def check(self, row):
        self.assert_explained(self.paths(*row.made()))


class Memory(ProgramCase):
    """How much memory an explanation holds, beside a check of the same night that compares all annotations: that of a copy, since a
    check lets them go behind a sample that differs."""

    # How much more it may be, in units of 1024 bytes: what is counted of 22 channels, what stands in front of each file, and the
    # sentences. Of several exports it is noted, too, when each annotation begins: so many bytes for each at the most.
    MORE, MORE_OF_EACH = 1024, 32
    # The nights have so many annotations a second that a check holds more than what begins it (tests/held.py).
    NOTES_A_SECOND = 40
    LENGTHS = 3000, 6000

    @classmethod
    def setUpClass(cls):
        super().setUpClass()
        cls.claims = {}
        for seconds in cls.LENGTHS:
            night = cls.noted(seconds)
            files = {"original": night, "half": dataclasses.replace(night, rate=5), "twice": dataclasses.replace(night, rate=20)}
            for name, made in files.items():
                write(cls.room / f"{name}-{seconds}.edf", made)
            other_values(cls.room / f"original-{seconds}.edf", cls.room / f"changed-{seconds}.edf", night)
            cls.claims[seconds] = cls.claim_of_all(night)

    @classmethod
    def noted(cls, seconds, **how):
        """A night with many annotations."""
        notes = remarks(["Apnea"] * (cls.NOTES_A_SECOND * seconds), seconds)
        return Night(seconds, rate=10, lane=1024, notes=notes, **how)

    @classmethod
    def claim_of_all(cls, night):
        """A claim that keeps all of a night."""
        labels = ", ".join(f'"{label}"' for label in night.labels())
        keep = f'keep = [{{ from = "0", to = "{night.seconds}" }}]'
        return cls.file(f"{night.seconds}.toml", f"format = 1\nchannels = [{labels}]\n{keep}\n")

    def held(self, status, command, *files):
        """How much memory a command holds at the most, which ends with this status."""
        here = {**os.environ, "PYTHONPATH": str(TOP)}
        ran = run(sys.executable, "-B", "-m", "tests.held", self.room / "held", self.program, command, *files, cwd=NIGHT, env=here)
        self.assertEqual(ran.status, status, f"{ran}\nwanted: status {status}")
        return int((self.room / "held").read_text(encoding="utf-8"))

    @each((f"{name}_in_{seconds}_s", name, seconds) for name in ("changed", "half", "twice") for seconds in (3000, 6000))
    def beside_the_check(self, name, seconds):
        original, claim = self.room / f"original-{seconds}.edf", self.claims[seconds]
        check = self.held(0, "check", original, original, claim)
        explanation = self.held(1, "explain", original, self.room / f"{name}-{seconds}.edf", claim)
        self.assertLess(explanation, check + self.MORE, f"so many KB are held, and {check} by the check")

    def test_two_halves_beside_the_check(self):
        """All values of the second half are other ones."""
        first, second = self.noted(1500), self.noted(1500, first=1500)
        halves = [self.room / "first-half.edf", self.room / "second-half.edf"]
        write(halves[0], first)
        write(self.room / "same-half.edf", second)
        other_values(self.room / "same-half.edf", halves[1], second)
        night = self.room / "original-3000.edf", self.claims[3000]
        check = self.held(0, "check-parts", *night, halves[0], self.room / "same-half.edf")
        explanation = self.held(1, "explain-parts", *night, *halves)
        most = check + self.MORE + self.MORE_OF_EACH * self.NOTES_A_SECOND * 3000 // 1024
        self.assertLess(explanation, most, f"so many KB are held, and {check} by the check")
