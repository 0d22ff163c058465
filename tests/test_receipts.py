"""Each receipt beside what `check` or `check-parts` says of the same files, and beside what sha256sum and wc say of each.

A check has the status that is expected of it. Its receipt has the same status, the line of the check at the end and nothing
on standard error. Where the check is refused, the receipt is refused with the same line, and has nothing on standard
output. A row's words are those of the check; a file whose name has no ending is made by the test, in its room, and the
others are those of the example night.
"""

import functools
import os
import pathlib
import shutil

from tests.harness import ANSWERS, NIGHT, ProgramCase, each, run, slug
from tests.long_nights import Night, write

# Lengths at or beside the end of a block of 64 bytes or of a buffer.
SIZES = [
    1, 54, 55, 56, 57, 63, 64, 65, 119, 120, 127, 128, 129, 16383, 16384, 16385, 30188, 30189, 32767, 32768, 32769,
    65535, 65536, 65537,
]
LARGE = 219_000_000
RECEIPTS = {"check": "receipt", "check-parts": "receipt-parts"}

# Files of random bytes, and empty ones: the status, and the words.
RANDOM = [
    (1, "check random cut.edf cut.toml"), (1, "check original.edf random cut.toml"), (1, "check random random cut.toml"),
    (2, "check original.edf cut.edf random"), (1, "check-parts random cut.toml cut-part-1.edf cut-part-2.edf"),
    (1, "check-parts original.edf cut.toml cut-part-1.edf random"),
    (1, "check-parts original.edf cut.toml random random"),
]
EMPTY = [
    (1, "check empty cut.edf cut.toml"), (1, "check original.edf empty cut.toml"), (1, "check empty empty cut.toml"),
    (2, "check original.edf cut.edf empty"), (1, "check-parts empty cut.toml cut.edf"),
    (1, "check-parts original.edf cut.toml empty cut.edf"),
    (1, "check-parts original.edf cut.toml cut-part-1.edf cut-part-2.edf empty"),
    (2, "check-parts original.edf empty cut.edf"),
]

# Large files of which the check reads the front alone: where the file has a fault, and where another one has.
FRONTS_READ = [
    "check large cut.edf cut.toml", "check original.edf large cut.toml", "check cut.toml large cut.toml",
    "check-parts original.edf cut.toml empty large",
]

# Nights in data records that a buffer holds, and in ones that are read past it.
RECORDS = [
    "check small great all", "check great small all", "check-parts small all first-half second-half",
]

# Folders, and files that aren't there, each in the place of `bad`.
BAD = [
    "check bad cut.edf cut.toml", "check original.edf bad cut.toml", "check original.edf cut.edf bad",
    "check bad bad refused.toml", "check-parts bad cut.toml cut.edf", "check-parts original.edf cut.toml cut-part-1.edf bad",
    "check-parts original.edf bad cut.edf", "check-parts bad refused.toml bad cut.edf",
]

# A file that a check doesn't read, as another has a fault, is read for its digest.
UNREAD = [
    "receipt empty . cut.toml",
    "receipt-parts empty cut.toml cut.edf .",
    "receipt-parts original.edf cut.toml empty .",
]


@functools.lru_cache
def sum_of_file(path, _):
    """What sha256sum and wc say of a file; with the time at which it was written, as it may be written again."""
    with open(path, "rb") as file:
        digest = run("sha256sum", stdin=file).out.split()[0].decode()
    with open(path, "rb") as file:
        size = run("wc", "-c", stdin=file).out.split()[0].decode()
    return f"sha256 {digest} bytes {size}"


def sum_of(path):
    path = NIGHT / path
    return sum_of_file(path, os.stat(path).st_mtime_ns)


class ReceiptCase(ProgramCase):
    """Tests of receipts. The files that are made once are those that `make` writes."""

    @classmethod
    def setUpClass(cls):
        super().setUpClass()
        cls.version = run(cls.program, "--version").out
        cls.make()

    @classmethod
    def make(cls):
        """Writes the files that the rows name."""

    def words_of(self, line):
        """The words of a row, with the path of each file."""
        command, *names = line.split()
        return command, *(name if name == "." or "." in name else str(self.room / name) for name in names)

    def lines_of_files(self, command, *files):
        """The lines of a receipt that are about files."""
        if command == "check":
            roles = zip(("original", "export", "claim"), files)
        else:
            original, claim, *exports = files
            parts = ((f"part {number}", path) for number, path in enumerate(exports))
            roles = [("original", original), *parts, ("claim", claim)]
        return "".join(f"{role} {sum_of(path)}\n" for role, path in roles)

    def compare(self, status, words):
        """Looks at a check and at its receipt. Gives the last line of the receipt, or of its refusal."""
        check = self.run_program(*words)
        self.assertEqual(check.status, status, f"{check}\nwanted: status {status}")
        receipt = self.run_program(RECEIPTS[words[0]], *words[1:])
        wanted = b"" if status == 2 else self.version + self.lines_of_files(*words).encode() + check.out
        self.assert_ran(receipt, status, wanted, check.err)
        return (receipt.err if status == 2 else receipt.out).splitlines()[-1].decode()


class ExampleNight(ReceiptCase):
    """The checks of the example night, and the two receipts that are stored there."""

    @classmethod
    def make(cls):
        shutil.copy(NIGHT / "original.edf", cls.room / "another night.edf")
        shutil.copy(NIGHT / "cut.edf", cls.room / "-cut.edf")
        shutil.copy(NIGHT / "cut.toml", cls.room / "claim")

    CHECKS = [(slug(words), status, words, line) for status, words, line in ANSWERS if words.startswith("check")]

    def test_eleven_answers(self):
        self.assertEqual(len(self.CHECKS), 11, "the answers of the night have so many checks")

    @each(CHECKS)
    def answer(self, status, words, line):
        self.assertEqual(self.compare(status, words.split()), line, "the receipt's last line, and the one of the answers")

    # The words of the two receipts that are stored, and the same files by other names, from another folder.
    STORED = [
        ("receipt", ["original.edf", "cut.edf", "cut.toml"]),
        ("receipt-parts", ["original.edf", "cut.toml", "cut-part-1.edf", "cut-part-2.edf"]),
    ]
    RENAMED = {
        "original.edf": "another night.edf", "cut.edf": "./-cut.edf", "cut.toml": "claim",
        "cut-part-1.edf": NIGHT / "cut-part-1.edf", "cut-part-2.edf": NIGHT / "cut-part-2.edf",
    }

    @each((f"{slug(command)}_{time}_time", command, files) for command, files in STORED for time in ("first", "second"))
    def stored(self, command, files):
        self.assert_ran(self.run_program(command, *files), 0, (NIGHT / f"{command}.txt").read_bytes())

    @each((f"{slug(command)}_{time}_time", command, files) for command, files in STORED for time in ("first", "second"))
    def under_other_names(self, command, files):
        ran = self.run_program(command, *(self.RENAMED[name] for name in files), cwd=self.room)
        self.assert_ran(ran, 0, (NIGHT / f"{command}.txt").read_bytes())

    def test_pipe(self):
        """It gives a file in pieces, and once."""
        ran = self.run_program("receipt", "/dev/stdin", "cut.edf", "cut.toml", input=(NIGHT / "original.edf").read_bytes())
        self.assert_ran(ran, 0, (NIGHT / "receipt.txt").read_bytes())


class OtherFiles(ReceiptCase):
    """Files of random bytes, empty, large and missing ones, folders, and many of them."""

    @classmethod
    def make(cls):
        cls.file("random", os.urandom(10_000_000))
        cls.file("empty", b"")
        cls.file("large", b"")
        os.truncate(cls.room / "large", LARGE)

    @each((slug(words), status, words) for status, words in RANDOM)
    def random_bytes(self, status, words):
        self.compare(status, self.words_of(words))

    @each((slug(words), status, words) for status, words in EMPTY)
    def empty_file(self, status, words):
        self.compare(status, self.words_of(words))

    @each((slug(words), words) for words in FRONTS_READ)
    def front_alone(self, words):
        self.compare(1, self.words_of(words))

    @each((f"{slug(words)}_as_{kind}", words, bad) for kind, bad in (("folder", "."), ("none", "none.edf")) for words in BAD)
    def unreadable(self, words, bad):
        self.compare(2, [bad if word == "bad" else word for word in words.split()])

    @each((slug(words.replace(" .", " folder")), words) for words in UNREAD)
    def not_looked_into(self, words):
        ran = self.run_program(*self.words_of(words))
        self.assert_refused(ran, "edfclaim: reading export failed")

    @each([("sixty_four", 1, 64), ("sixty_five", 2, 65)])
    def exports(self, status, count):
        self.compare(status, ["check-parts", "original.edf", "cut.toml", *["cut.edf"] * count])


class Ends(ReceiptCase):
    """Files that end where a block of 64 bytes or a buffer does, or beside it: fronts of an original and of an export, an
    export with more behind its end, and a claim with a comment of each length."""

    @classmethod
    def make(cls):
        cls.original = (NIGHT / "original.edf").read_bytes()
        cls.export = (NIGHT / "cut.edf").read_bytes()
        cls.longer = cls.export + os.urandom(100_000)
        cls.comment = (NIGHT / "cut.toml").read_bytes() + b"\n#" + b"-" * 65536

    @each((f"{size}_bytes", size) for size in SIZES)
    def original_ends_behind(self, size):
        self.compare(1, ["check", self.file("front", self.original[:size]), "cut.edf", "cut.toml"])

    @each((f"{size}_bytes", size) for size in SIZES)
    def export_ends_behind(self, size):
        # only the front that is all of the export has no fault
        status = 0 if size == len(self.export) else 1
        self.compare(status, ["check", "original.edf", self.file("front", self.longer[:size]), "cut.toml"])

    @each((f"{size}_bytes", size) for size in SIZES)
    def second_part_ends_behind(self, size):
        part = self.file("front", self.longer[:size])
        self.compare(1, ["check-parts", "original.edf", "cut.toml", "cut-part-1.edf", part])

    @each((f"{size}_bytes", size) for size in [*range(900, 964), 65535, 65536, 65537])
    def claim_ends_behind(self, size):
        status = 0 if size <= 65536 else 2
        self.compare(status, ["check", "original.edf", "cut.edf", self.file("claim", self.comment[:size])])

    @each((f"{size}_bytes", size) for size in (65535, 65536, 65537))
    def claim_of_parts_ends_behind(self, size):
        claim, status = self.file("claim", self.comment[:size]), 0 if size <= 65536 else 2
        self.compare(status, ["check-parts", "original.edf", claim, "cut-part-1.edf", "cut-part-2.edf"])


class DataRecords(ReceiptCase):
    """Nights in small and in large data records."""

    @classmethod
    def make(cls):
        small, great = Night(300), Night(300, tenths=100, lane=256)
        write(cls.room / "small", small)
        write(cls.room / "great", great)
        for name, part in zip(("first-half", "second-half"), great.parts(2)):
            write(cls.room / name, part)
        labels = ", ".join(f'"{label}"' for label in small.labels())
        pathlib.Path(cls.room / "all").write_text(
            f'format = 1\nchannels = [{labels}]\n[[keep]]\nfrom = "0"\nto = "300"\n', encoding="utf-8")

    @each((slug(words), words) for words in RECORDS)
    def night(self, words):
        self.compare(0, self.words_of(words))
