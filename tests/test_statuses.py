"""Command lines and files that the program refuses: its status, and what it says.

A refusal has status 2, one line on standard error and nothing on standard output; behind the line `explain` says more.
What `clap` says of a line that it doesn't take has the same status and more than one line. The files are those of the
example night.
"""

import os
import pathlib
import shutil
import sys
import unittest

from tests import edf, faults, night
from tests.harness import NIGHT, TOP, ProgramCase, Ran, each, run, slug

YES = "YES channels 3 samples 13590 annotations 5"
CONFORMS = "CONFORMS records 150 channels 5 samples 52650 annotations 10"
CHECK = ["check", "original.edf", "cut.edf", "cut.toml"]
PARTS = ["original.edf", "cut.toml", "cut-part-1.edf"]

# Words that `clap` takes, and that are no command.
NO_COMMAND = {
    "no_words": [],
    "dashes_before_a_name_with_a_dash": ["show", "--", "-night.edf"],
    "name_not_utf8": ["conform", b"night\xff"],
    "dashes_before_the_last_part": ["check-parts", *PARTS, "--", "cut-part-2.edf"],
    "dashes_before_all_parts": ["check-parts", "original.edf", "cut.toml", "--", "cut-part-1.edf", "cut-part-2.edf"],
    "dashes_before_the_files_of_check_parts": ["check-parts", "--", "original.edf", "cut.toml", "cut.edf"],
    "dashes_before_the_claim_of_a_receipt": ["receipt", "original.edf", "cut.edf", "--", "cut.toml"],
    "dashes_before_the_files_of_a_receipt": ["receipt", "--", "original.edf", "cut.edf", "cut.toml"],
    "dashes_before_the_last_part_of_a_receipt": ["receipt-parts", *PARTS, "--", "cut-part-2.edf"],
    "dashes_before_all_parts_of_a_receipt": [
        "receipt-parts", "original.edf", "cut.toml", "--", "cut-part-1.edf", "cut-part-2.edf"],
    "dashes_before_the_files_of_receipt_parts": ["receipt-parts", "--", "original.edf", "cut.toml", "cut.edf"],
    "dashes_before_the_last_part_of_an_explanation": ["explain-parts", *PARTS, "--", "cut-part-2.edf"],
    "dashes_before_the_files_of_explain_parts": ["explain-parts", "--", "original.edf", "cut.toml", "cut.edf"],
    "dashes_before_the_export_of_a_draft": ["draft", "original.edf", "--", "cut.edf"],
    "dashes_before_the_files_of_a_draft": ["draft", "--", "original.edf", "cut.edf"],
    "dashes_before_the_last_export_of_draft_parts": ["draft-parts", "original.edf", "cut-part-1.edf", "--", "cut-part-2.edf"],
    "dashes_before_the_exports_of_draft_parts": ["draft-parts", "original.edf", "--", "cut-part-1.edf", "cut-part-2.edf"],
    "dashes_before_the_files_of_draft_parts": ["draft-parts", "--", "original.edf", "cut.edf"],
    "dashes_before_the_claim_of_explain": ["explain", "original.edf", "cut.edf", "--", "cut.toml"],
    "dashes_before_the_files_of_explain": ["explain", "--", "original.edf", "cut.edf", "cut.toml"],
    "dashes_before_a_claim": ["claim", "--", "cut.toml"],
    "dashes_before_the_file_of_read": ["read", "--", "cut.edf"],
    "dashes_before_the_file_of_layout": ["layout", "--", "cut.edf"],
}

# Words that `clap` doesn't take.
FAULTS = {
    "empty_word": [""],
    "capital_letter": ["Vectors"],
    "word_behind_vectors": ["vectors", "x"],
    "empty_word_behind_vectors": ["vectors", ""],
    "explain_of_one_file": ["explain", "original.edf"],
    "conform_of_no_file": ["conform"],
    "conform_of_two_files": ["conform", "original.edf", "cut.edf"],
    "check_of_two_files": ["check", "original.edf", "cut.edf"],
    "check_of_four_files": [*CHECK, "cut.toml"],
    "option_before_a_command": ["--quiet", "vectors"],
    "no_such_command": ["check-all"],
    "check_parts_of_one_file": ["check-parts", "original.edf"],
    "check_parts_of_no_export": ["check-parts", "original.edf", "cut.toml"],
    "check_parts_of_a_name_with_a_dash": ["check-parts", "original.edf", "cut.toml", "cut.edf", "-cut.edf"],
    "draft_parts_of_no_export": ["draft-parts", "original.edf"],
    "draft_parts_of_a_name_with_a_dash": ["draft-parts", "original.edf", "cut.edf", "-cut.edf"],
    "receipt_of_no_file": ["receipt"],
    "receipt_of_two_files": ["receipt", "original.edf", "cut.edf"],
    "receipt_of_four_files": ["receipt", "original.edf", "cut.edf", "cut.toml", "cut.toml"],
    "receipts": ["receipts"],
    "receipt_of_a_name_with_a_dash": ["receipt", "original.edf", "-cut.edf", "cut.toml"],
    "receipt_parts_of_no_file": ["receipt-parts"],
    "receipt_parts_of_one_file": ["receipt-parts", "original.edf"],
    "receipt_parts_of_no_export": ["receipt-parts", "original.edf", "cut.toml"],
    "receipt_parts_of_a_name_with_a_dash": ["receipt-parts", "original.edf", "cut.toml", "cut.edf", "-cut.edf"],
    "draft_of_no_file": ["draft"],
    "draft_of_one_file": ["draft", "original.edf"],
    "draft_of_three_files": ["draft", "original.edf", "cut.edf", "cut.toml"],
    "drafts": ["drafts"],
    "draft_of_a_name_with_a_dash": ["draft", "original.edf", "-cut.edf"],
    "explain_of_no_file": ["explain"],
    "explain_of_two_files": ["explain", "original.edf", "cut.edf"],
    "explain_of_four_files": ["explain", "original.edf", "cut.edf", "cut.toml", "cut.toml"],
    "explains": ["explains"],
    "explain_of_a_name_with_a_dash": ["explain", "original.edf", "-cut.edf", "cut.toml"],
    "claim_of_no_file": ["claim"],
    "claim_of_two_files": ["claim", "cut.toml", "cut.toml"],
    "claims": ["claims"],
    "claim_of_a_name_with_a_dash": ["claim", "-cut.toml"],
    "read_of_no_file": ["read"],
    "read_of_two_files": ["read", "original.edf", "cut.edf"],
    "read_of_a_name_with_a_dash": ["read", "-night.edf"],
    "layout_of_no_file": ["layout"],
    "layout_of_two_files": ["layout", "original.edf", "cut.edf"],
    "layouts": ["layouts"],
    "layout_of_a_name_with_a_dash": ["layout", "-night.edf"],
    "dashes_before_a_command": ["--", "vectors"],
    "show_of_a_name_with_a_dash": ["show", "-night.edf"],
    "show_of_two_files": ["show", "original.edf", "cut.edf"],
}

HELPS = [
    "--help", "-h", "help", "help check", "check --help", "check-parts --help", "receipt --help", "receipt-parts --help",
    "draft --help", "explain --help", "claim --help", "read --help", "layout --help", "--version", "-V",
]

# What can't be opened or read, and the words. The claim comes first, then the original, then the export, and all of them
# before the claim is judged. A folder can be opened and not read.
FILES = [
    ("cannot open claim", "check none.edf none.edf none.toml"),
    ("cannot open original", "check none.edf none.edf cut.toml"),
    ("cannot open export", "check original.edf none.edf cut.toml"),
    ("cannot open original", "check none.edf none.edf refused.toml"),
    ("cannot open export", "check original.edf none.edf refused.toml"),
    ("cannot open claim", "check-parts none.edf none.toml none.edf"),
    ("cannot open original", "check-parts none.edf refused.toml none.edf"),
    ("cannot open export", "check-parts original.edf refused.toml none.edf cut.edf"),
    ("cannot open export", "check-parts original.edf cut.toml cut.edf none.edf"),
    ("cannot open claim", "receipt none.edf none.edf none.toml"),
    ("cannot open original", "receipt none.edf none.edf refused.toml"),
    ("cannot open export", "receipt original.edf none.edf refused.toml"),
    ("cannot open claim", "receipt-parts none.edf none.toml none.edf"),
    ("cannot open original", "receipt-parts none.edf refused.toml none.edf"),
    ("cannot open export", "receipt-parts original.edf refused.toml none.edf cut.edf"),
    ("cannot open export", "receipt-parts original.edf cut.toml cut.edf none.edf"),
    ("cannot open original", "draft none.edf none.edf"),
    ("cannot open export", "draft original.edf none.edf"),
    ("cannot open claim", "explain none.edf none.edf none.toml"),
    ("cannot open original", "explain none.edf none.edf refused.toml"),
    ("cannot open export", "explain original.edf none.edf refused.toml"),
    ("cannot open file", "conform none.edf"),
    ("cannot open file", "show none.edf"),
    ("cannot open file", "notes none.edf"),
    ("cannot open file", "read none.edf"),
    ("cannot open file", "layout none.edf"),
    ("cannot open claim", "claim none.toml"),
    ("reading claim failed", "check original.edf cut.edf ."),
    ("reading original failed", "check . cut.edf cut.toml"),
    ("reading export failed", "check original.edf . cut.toml"),
    ("claim refused: BadKeep", "check . . refused.toml"),
    ("cannot open original", "draft-parts none.edf none.edf cut.edf"),
    ("cannot open export", "draft-parts original.edf cut-part-1.edf none.edf"),
    ("reading original failed", "draft-parts . cut.edf"),
    ("reading export failed", "draft-parts original.edf cut-part-1.edf ."),
    ("reading claim failed", "check-parts original.edf . cut.edf"),
    ("reading original failed", "check-parts . cut.toml cut.edf"),
    ("reading export failed", "check-parts original.edf cut.toml . cut.edf"),
    ("reading export failed", "check-parts original.edf cut.toml cut-part-1.edf ."),
    ("claim refused: BadKeep", "check-parts . refused.toml . ."),
    ("reading claim failed", "receipt original.edf cut.edf ."),
    ("reading original failed", "receipt . cut.edf cut.toml"),
    ("reading export failed", "receipt original.edf . cut.toml"),
    ("claim refused: BadKeep", "receipt . . refused.toml"),
    ("reading claim failed", "receipt-parts original.edf . cut.edf"),
    ("reading original failed", "receipt-parts . cut.toml cut.edf"),
    ("reading export failed", "receipt-parts original.edf cut.toml cut-part-1.edf ."),
    ("claim refused: BadKeep", "receipt-parts . refused.toml . ."),
    ("reading original failed", "draft . cut.edf"),
    ("reading export failed", "draft original.edf ."),
    ("reading claim failed", "explain original.edf cut.edf ."),
    ("reading original failed", "explain . cut.edf cut.toml"),
    ("reading export failed", "explain original.edf . cut.toml"),
    ("claim refused: BadKeep", "explain . . refused.toml"),
    ("reading file failed", "conform ."),
    ("reading file failed", "show ."),
    ("reading file failed", "notes ."),
    ("reading file failed", "read ."),
    ("reading file failed", "layout ."),
    ("reading claim failed", "claim ."),
    ("claim refused: BadKeep", "claim refused.toml"),
]

# The same where a file may not be read, which is called CLOSED here.
CLOSED = [
    ("claim", "check original.edf cut.edf CLOSED"),
    ("original", "check CLOSED cut.edf cut.toml"),
    ("export", "check original.edf CLOSED cut.toml"),
    ("export", "check-parts original.edf cut.toml cut.edf CLOSED"),
    ("original", "receipt CLOSED cut.edf cut.toml"),
    ("export", "receipt-parts original.edf cut.toml cut.edf CLOSED"),
    ("export", "draft original.edf CLOSED"),
    ("claim", "explain original.edf cut.edf CLOSED"),
    ("file", "conform CLOSED"),
    ("file", "show CLOSED"),
    ("file", "notes CLOSED"),
    ("file", "read CLOSED"),
    ("file", "layout CLOSED"),
    ("claim", "claim CLOSED"),
]

COMMANDS = [
    "check original.edf cut.edf cut.toml", "check-parts original.edf cut.toml cut.edf",
    "receipt original.edf cut.edf cut.toml", "receipt-parts original.edf cut.toml cut.edf", "draft original.edf cut.edf", "explain original.edf cut.edf cut.toml",
    "conform cut.edf", "show cut.edf", "notes cut.edf", "read cut.edf", "layout cut.edf", "claim cut.toml", "vectors",
]


class CommandLines(ProgramCase):
    """Words that are no command, that aren't taken, and that ask for help."""

    @each((name, words) for name, words in NO_COMMAND.items())
    def no_command(self, words):
        self.assert_refused(self.run_program(*words), "edfclaim: not a command")

    @each((name, words) for name, words in FAULTS.items())
    def not_taken(self, words):
        ran = self.run_program(*words)
        right = ran.status == 2 and ran.err.startswith(b"error:") and not ran.out
        self.assertTrue(right, f"{ran}\nwanted: status 2 with a line `error: ..` on standard error alone")

    @each((slug(words.replace("--", "option ").replace("-", "short ")), words) for words in HELPS)
    def help_by(self, words):
        ran = self.run_program(*words.split())
        self.assertTrue(
            ran.status == 0 and ran.out and not ran.err,
            f"{ran}\nwanted: status 0 with a text on standard output",
        )


class Files(ProgramCase):
    """Files that aren't there, that can't be read, and more exports than are checked together."""

    @each((slug(words.replace(" .", " folder")), line, words) for line, words in FILES)
    def refused(self, line, words):
        self.assert_refused(self.run_program(*words.split()), f"edfclaim: {line}")

    def test_sixty_four_exports(self):
        ran = self.run_program("check-parts", "original.edf", "cut.toml", *["cut.edf"] * 64)
        self.assert_ran(ran, 1, "NO 12 part 1 starts early\n")

    @each((slug(command), command) for command in ("check-parts", "receipt-parts"))
    def sixty_five_exports_before_a_file_is_opened(self, command):
        ran = self.run_program(command, "none.edf", "none.toml", *["cut.edf"] * 65)
        self.assert_refused(ran, "edfclaim: too many exports")

    def test_sixty_five_exports_of_a_draft(self):
        self.assert_refused(self.run_program("draft-parts", "none.edf", *["cut.edf"] * 65), "edfclaim: too many exports")

    def test_pipe(self):
        ran = self.run_program("conform", "/dev/stdin", input=(NIGHT / "original.edf").read_bytes())
        self.assert_ran(ran, 0, f"{CONFORMS}\n")


class ClosedFiles(ProgramCase):
    """Files that may not be read. A superuser may read every file, and runs these as another user."""

    @classmethod
    def setUpClass(cls):
        super().setUpClass()
        cls.room.chmod(0o755)
        cls.copy_of_night()
        cls.closed = cls.file("closed", (NIGHT / "original.edf").read_bytes())
        cls.closed.chmod(0)
        cls.front = []
        if os.access(cls.closed, os.R_OK):
            cls.program = shutil.copy(cls.program, cls.room / "edfclaim")
            cls.front = ["setpriv", "--reuid", "65534", "--regid", "65534", "--clear-groups"]
            if not shutil.which("setpriv") or run(*cls.front, cls.program, "conform", cls.room / "night" / "cut.edf").status:
                raise unittest.SkipTest("this user may read every file, and can't run the program as another one")

    @each((slug(words), role, words) for role, words in CLOSED)
    def refused(self, role, words):
        words = [self.closed if word == "CLOSED" else word for word in words.split()]
        ran = run(*self.front, self.program, *words, cwd=self.room / "night")
        ran = Ran((self.program, *words), ran.status, ran.out, ran.err)
        self.assert_refused(ran, f"edfclaim: cannot open {role}")


class Claims(ProgramCase):
    """Claims that are refused, too long or deep."""

    def refused(self, cause, claim, command="check"):
        self.assert_refused(self.run_program(command, "original.edf", "cut.edf", claim), f"edfclaim: claim refused: {cause}")

    # a claim, and why it is refused
    REFUSED = {
        "empty": ("BadFormat", b""),
        "backwards": ("BadKeep", b'format = 1\nchannels = ["ECG"]\n[[keep]]\nfrom = "0"\nto = "0"\n'),
        "recording": ("NotToml", (NIGHT / "cut.edf").read_bytes()),
    }

    @each((f"{name}_by_{command}", command, *row) for name, row in REFUSED.items() for command in ("check", "explain"))
    def claim(self, command, cause, text):
        self.refused(cause, self.file("claim.toml", text), command)

    def long_claim(self, size=None):
        """The claim with a comment behind it, cut to so many bytes."""
        text = (NIGHT / "cut.toml").read_bytes() + b"\n#" + b"-" * 65536
        return self.file("long.toml", text[:size])

    def test_as_long_as_may_be(self):
        self.assert_ran(self.run_program("check", "original.edf", "cut.edf", self.long_claim(65536)), 0, f"{YES}\n")

    def test_a_byte_too_long(self):
        self.refused("TooLong", self.long_claim(65537))

    def test_a_byte_too_long_by_explain(self):
        self.refused("TooLong", self.long_claim(65537), "explain")

    def test_too_long(self):
        self.refused("TooLong", self.long_claim())

    @unittest.skipUnless(pathlib.Path("/dev/zero").is_char_device(), "no /dev/zero")
    def test_without_an_end(self):
        self.refused("TooLong", "/dev/zero")

    def test_deepest_with_half_of_the_stack(self):
        key = ".".join("a" * 80)
        deep = self.file("deep.toml", f"[{key}]\n" + f"{key}={{" * 80 + f"{key}=1" + "}" * 80 + "\n")
        words = ["check", "original.edf", "cut.edf", deep]
        ran = run("sh", "-c", 'ulimit -s 4096 && exec "$@"', "sh", self.program, *words, cwd=NIGHT)
        self.assert_refused(ran, "edfclaim: claim refused: BadFormat")


def many_annotations():
    """An export with 3,000,000 annotations in one data record."""
    change = faults.both(faults.fixed("records", "1"), faults.field(3, "samples", "7500000"))
    file = change(night.files()["cut.edf"])
    return file[:faults.HEADER] + bytes(faults.SAMPLES) + b"+0\x14\x14\0" * 3_000_000


def twice_as_many_as_fit():
    """An export with the samples of the original, with 1,000,000 annotations in its first data record, and as many in its
    second one: these aren't kept."""
    change = faults.both(faults.fixed("records", "2"), faults.field(3, "samples", "2500003"))
    whole, begin = night.files()["cut.edf"], faults.HEADER
    lanes = [edf.tal(f"+{at}", "") + b"+0\x14\x14\0" * 1_000_000 + b"\0" for at in (0, 5)]
    records = [whole[at:at + faults.SAMPLES] + lane for at, lane in zip((begin, begin + faults.RECORD), lanes)]
    return change(whole)[:begin] + b"".join(records)


def temperatures(seconds, notes, lane):
    """A night of one channel with these annotations, in data records of 1 s."""
    nobody = ["X", "X", "X", "X"]
    values = {"Temp rectal": [0] * seconds}
    return night.file(values, notes, ["Temp rectal"], [(0, seconds)], 1, lane, 0, nobody, lambda _: nobody, seconds)


class Memory(ProgramCase):
    """How much memory annotations take that don't fit, or whose texts go."""

    @classmethod
    def setUpClass(cls):
        super().setUpClass()
        # 3,400 small data records with 900 annotations each, and an original without any that has the same samples; and a
        # copy with a fault behind the annotations of data record 582, within which their list grows from 42 MB to 84 MB
        notes = [(1000 * at, -1, "\x14" * 99) for at in range(3400) for _ in range(9)]
        small = temperatures(3400, notes, 1200)
        cls.bare = cls.file("bare.edf", temperatures(3400, [], 64))
        cls.small = cls.file("small.edf", small)
        # a data record has a sample of two bytes, and its lane
        end = edf.header_size(2) + 583 * (2 + 1200)
        cls.bad = cls.file("bad.edf", faults.put(small, end - 1, b"+"))
        cls.claim = cls.file("small.toml", 'format = 1\nchannels = ["Temp rectal"]\n[[keep]]\nfrom = "0"\nto = "3400"\n')

    def run_in(self, memory, *words):
        """Runs the program with so many KB of memory and no more."""
        return run("sh", "-c", f'ulimit -v {memory} && exec "$@"', "sh", self.program, *words, cwd=NIGHT)

    def assert_below(self, memory, line, *words):
        """Looks whether a run ends with this No, and held less than so many KB at once."""
        here = {**os.environ, "PYTHONPATH": str(TOP)}
        ran = run(sys.executable, "-B", "-m", "tests.held", self.room / "held", self.program, *words, cwd=NIGHT, env=here)
        self.assert_ran(ran, 1, f"{line}\n")
        held = int((self.room / "held").read_text(encoding="utf-8"))
        self.assertLess(held, memory, f"{ran}\nso many KB were held at once, and are to be at the most")

    def test_three_million_annotations_in_60_mb(self):
        ran = self.run_in(60000, "check", "original.edf", self.file("many.edf", many_annotations()), "cut.toml")
        self.assert_ran(ran, 1, "NO 2 export fault: TooManyAnnotations at record 0\n")

    def test_two_million_annotations_of_which_half_fit(self):
        twice = self.file("twice.edf", twice_as_many_as_fit())
        line = "NO 2 export fault: TooManyAnnotations at record 1"
        self.assert_below(130000, line, "check", "original.edf", twice, "cut.toml")

    def test_three_million_annotations_in_small_records(self):
        """Those of the first 1,111 data records are kept, and of the next one no more than fit."""
        line = "NO 2 export fault: TooManyAnnotations at record 1111"
        self.assert_below(130000, line, "check", self.bare, self.small, self.claim)

    def test_list_that_cannot_grow(self):
        ran = self.run_in(80000, "check", self.bare, self.small, self.claim)
        self.assert_refused(ran, "edfclaim: out of memory")

    def test_list_that_cannot_grow_before_a_fault(self):
        ran = self.run_in(80000, "check", self.bare, self.bad, self.claim)
        self.assert_ran(ran, 1, "NO 2 export fault: BadTal(NotZeroFilled) at record 582\n")

    def test_fifty_thousand_blanked_texts_in_40_mb(self):
        """No text of 600 bytes takes memory where X stands in its place."""
        text = "Remark " + "x" * 593
        worded, blank = (self.file(f"{name}.edf", temperatures(150, [(3 * at, -1, said) for at in range(50000)], 210000))
                         for name, said in (("worded", text), ("blank", "X")))
        claim = self.file("blank.toml", f'format = 2\nchannels = ["Temp rectal"]\nblank = ["{text}"]\n'
                          '[[keep]]\nfrom = "0"\nto = "150"\n')
        ran = self.run_in(40000, "check", worded, blank, claim)
        self.assert_ran(ran, 0, "YES channels 1 samples 150 annotations 50000\n")


class Streams(ProgramCase):
    """A standard output or a standard error that takes nothing."""

    def run_into(self, redirection, words):
        """Runs the program with a redirection of the shell."""
        ran = run("sh", "-c", f'exec "$@" {redirection}', "sh", self.program, *words.split(), cwd=NIGHT)
        return Ran((self.program, *words.split()), ran.status, ran.out, ran.err)

    @each((slug(words), words) for words in COMMANDS)
    def closed_output(self, words):
        self.assert_refused(self.run_into(">&-", words), "edfclaim: writing failed")

    @each((slug(words), words) for words in COMMANDS)
    @unittest.skipUnless(pathlib.Path("/dev/full").is_char_device(), "no /dev/full")
    def full_output(self, words):
        self.assert_refused(self.run_into(">/dev/full", words), "edfclaim: writing failed")

    def test_closed_errors(self):
        """The status says it alone."""
        self.assert_ran(self.run_into("2>&-", "conform none.edf"), 2)
