"""What command lines are completed to in bash, by extras/edfclaim.bash-completion, and by what tools/gate/tables.py writes
of one more command."""

import subprocess
import sys

from tests.harness import TOP, Case, each

sys.path.insert(0, str(TOP / "tools" / "gate"))

import tables  # noqa: E402
import tables_read  # noqa: E402
import tables_written  # noqa: E402

STORED = TOP / "extras" / "edfclaim.bash-completion"

# What a line is completed to at its last word, by a file of completions.
COMPLETE = """
source "$1"
shift
COMP_WORDS=(edfclaim "$@")
COMP_CWORD=$#
_edfclaim
printf '%s\\n' "${COMPREPLY[@]}"
"""

# A line's words, and what it is completed to.
LINES = [
    ("command", ["check-"], ["check-parts"]),
    ("option", ["--v"], ["--version"]),
    ("original_of_check", ["check", ""], ["a night.edf", "folder", "part.EDF"]),
    ("export_of_check_behind_a", ["check", "x", "a"], ["a night.edf"]),
    ("claim_of_check", ["check", "x", "x", ""], ["claim.toml", "folder"]),
    ("one_word_too_much", ["check", "x", "x", "x", ""], []),
    ("option_of_check", ["check", "--"], ["--help"]),
    ("claim_of_check_parts", ["check-parts", "x", ""], ["claim.toml", "folder"]),
    ("later_export_of_check_parts", ["check-parts", "x", "x", "x", "x", "p"], ["part.EDF"]),
    ("original_of_draft_parts", ["draft-parts", "p"], ["part.EDF"]),
    ("later_export_of_draft_parts", ["draft-parts", "x", "x", "x", "a"], ["a night.edf"]),
    ("help", ["help", "rec"], ["receipt", "receipt-parts"]),
    ("claim_of_claim", ["claim", ""], ["claim.toml", "folder"]),
    ("file_of_read", ["read", ""], ["a night.edf", "folder", "part.EDF"]),
    ("file_of_layout", ["layout", ""], ["a night.edf", "folder", "part.EDF"]),
    ("vectors", ["vectors", ""], []),
    ("no_command", ["other", ""], []),
]

class CompletionCase(Case):
    """Lines that are completed in a folder with some files."""

    @classmethod
    def setUpClass(cls):
        super().setUpClass()
        cls.here = cls.room / "here"
        (cls.here / "folder").mkdir(parents=True)
        for name in ("a night.edf", "part.EDF", "claim.toml", "receipt.txt"):
            (cls.here / name).touch()

    def assert_completed(self, completions, words, wanted):
        how = {"capture_output": True, "text": True, "check": True, "stdin": subprocess.DEVNULL}
        ended = subprocess.run(["bash", "-c", COMPLETE, "bash", completions, *words], cwd=self.here, **how)
        self.assertEqual(sorted(line for line in ended.stdout.splitlines() if line), wanted, f"{words}; {ended.stderr}")


class Stored(CompletionCase):
    """The file that is handed out."""

    def test_bash_reads_it(self):
        ended = subprocess.run(["bash", "-n", STORED], capture_output=True, text=True, check=False)
        self.assertEqual((ended.returncode, ended.stderr), (0, ""))

    @each(LINES)
    def line(self, words, wanted):
        self.assert_completed(STORED, words, wanted)


class OneMoreCommand(CompletionCase):
    """What is written where the table of commands has one more."""

    @classmethod
    def setUpClass(cls):
        super().setUpClass()
        commands = [*tables_read.rows("commands"), {"name": "added", "words": "ORIGINAL CLAIM"}]
        text = tables.with_tables(STORED, STORED.read_text(encoding="utf-8"), tables_written.completions(commands))
        cls.completions = cls.file("more.bash", text)

    @each([("command", ["add"], ["added"]), ("second_word", ["added", "x", ""], ["claim.toml", "folder"])])
    def line(self, words, wanted):
        self.assert_completed(self.completions, words, wanted)
