"""The program on the example night: the commands of its answers, the texts that are stored there, and a broken copy of an
export for each fault; and whether its files are those that tests/night.py writes.

The line of a status 2 is wanted on standard error and any other on standard output, and on the other of the two nothing.
"""

from tests import faults, night
from tests.harness import ANSWERS, NIGHT, ProgramCase, each, slug

FILES = night.files()

# What is stored, and the words that print it.
STORED = [
    ("draft.toml", "draft original.edf cut.edf"),
    ("receipt.txt", "receipt original.edf cut.edf cut.toml"),
    ("receipt-parts.txt", "receipt-parts original.edf cut.toml cut-part-1.edf cut-part-2.edf"),
]


class Night(ProgramCase):
    """The files as they stand."""

    def test_twelve_answers(self):
        self.assertEqual(len(ANSWERS), 12, "so many answers of the night stand in its file")

    @each((slug(words), status, words, line) for status, words, line in ANSWERS)
    def answer(self, status, words, line):
        streams = ("", f"{line}\n") if status == 2 else (f"{line}\n", "")
        self.assert_ran(self.run_program(*words.split()), status, *streams)

    @each((slug(words), words, line) for _, words, line in ANSWERS)
    def answer_in_the_table(self, words, line):
        self.assertIn(f"| `{words}` | `{line}`", (NIGHT / "README.md").read_text(encoding="utf-8"))

    @each((slug(name), name, words) for name, words in STORED)
    def stored(self, name, words):
        self.assert_ran(self.run_program(*words.split()), 0, (NIGHT / name).read_bytes())

    @each((slug(name), name) for name in FILES)
    def written(self, name):
        self.assertEqual((NIGHT / name).read_bytes(), FILES[name], f"{name}: stored, and as tests/night.py writes it")


class BrokenCopies(ProgramCase):
    """A copy of the night's export for each cause of a fault at each kind of place."""

    @each((slug(name), *row) for name, *row in faults.FAULTS)
    def fault(self, line, change):
        copy = self.file("broken.edf", change(FILES["cut.edf"]))
        self.assert_ran(self.run_program("conform", copy), 1, f"FAULT {line}\n")
