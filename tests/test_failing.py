"""Each command with each growth of memory refused in turn, each read failing and each write failing, of all that a run of it
has; and with reads and writes of single bytes, of which some fail. A listing of a file with a fault runs with ever more
memory, too.

The worked rows are those that are stored; the other commands run on the example night. tests/failing.c is put before the
program. A run that was stopped has status 2, a front of the text on standard output (of a check, a receipt and a draft
nothing, but where a write failed) and the line that says why on standard error: that memory ran out, of which file a read
failed, or that writing failed. Behind this line `explain` may say more. A run that succeeded has its status, the whole text
and nothing on standard error: the last one, in which nothing failed, and any before it whose refused growth was the C
library's, or was made good. A draft that a failed read kept from being tried says so in its first line, and has the rest of
its text. A test is many runs: it says of how many, and names those that ended otherwise.
"""

import os
import re
import shlex
import shutil
import typing
import unittest

from tests import edf, faults, night
from tests.harness import NIGHT, TOP, ProgramCase, each, run

COMPILER = shlex.split(os.environ.get("CC") or "cc")
COUNTS = re.compile(rb"^growths (\d+) reads (\d+) writes (\d+) .* held (\d+)$", re.M)
MOST = 1_000_000

# Which reads and which writes of single bytes fail, beside the last one and that in the middle.
SINGLE_READS = [1, 2, 5, 50, 256, 257, 1000, 2000]
SINGLE_WRITES = [1, 2, 3]

# The line on standard error, by what fails; that on a read names the file.
LINES = {"FAIL_AT": "edfclaim: out of memory", "MOST": "edfclaim: out of memory", "WRITE_AT": "edfclaim: writing failed"}


class Command(typing.NamedTuple):
    """A command: its status where nothing fails, how many bytes a run that is stopped may have written, its words, of which
    a ROOM is that of the tests, and what it writes; what isn't said here is that of a run."""
    status: int
    limit: int
    words: str
    text: str | None = None


YES = "YES channels 3 samples 13590 annotations 5\n"
COMMANDS = {
    "vectors": Command(0, MOST, "vectors", (TOP / "crates" / "edfclaim" / "stdout").read_text(encoding="utf-8")),
    "check": Command(0, 0, "check original.edf cut.edf cut.toml", YES),
    "check_no": Command(1, 0, "check original.edf name-left.edf cut.toml", "NO 8 subfield name not X\n"),
    "check_parts": Command(
        0, 0, "check-parts original.edf cut.toml cut-part-1.edf cut-part-2.edf",
        "YES parts 2 channels 3 samples 13590 annotations 5\n"),
    "check_parts_no": Command(
        1, 0, "check-parts original.edf cut.toml cut-part-1.edf overlapping-part-2.edf", "NO 12 part 1 starts early\n"),
    "receipt": Command(
        0, 0, "receipt original.edf cut.edf cut.toml", (NIGHT / "receipt.txt").read_text(encoding="utf-8")),
    "receipt_parts": Command(
        0, 0, "receipt-parts original.edf cut.toml cut-part-1.edf cut-part-2.edf",
        (NIGHT / "receipt-parts.txt").read_text(encoding="utf-8")),
    # behind a fault of the original the export is read for its digest: here one that the check doesn't read
    "receipt_of_an_empty_original": Command(1, 0, "receipt ROOM/original.edf cut.edf cut.toml"),
    "draft": Command(0, 0, "draft original.edf cut.edf", (NIGHT / "draft.toml").read_text(encoding="utf-8")),
    "draft_parts": Command(
        0, 0, "draft-parts original.edf cut-part-1.edf cut-part-2.edf",
        (NIGHT / "draft.toml").read_text(encoding="utf-8").replace("YES ", "YES parts 2 ", 1)),
    # its line is written before its sentences are made: where these fail, it stands there
    "explain": Command(0, MOST, "explain original.edf cut.edf cut.toml"),
    # with a shift that is tried
    "explain_of_another_shift": Command(1, MOST, "explain original.edf cut.edf ROOM/unmoved.toml"),
    "explain_parts": Command(0, MOST, "explain-parts original.edf cut.toml cut-part-1.edf cut-part-2.edf"),
    "conform": Command(0, 0, "conform original.edf", "CONFORMS records 150 channels 5 samples 52650 annotations 10\n"),
    "show": Command(0, 0, "show original.edf"),
    "notes": Command(0, MOST, "notes original.edf"),
    "read": Command(0, 0, "read original.edf"),
    "layout": Command(0, 0, "layout original.edf"),
    "claim": Command(0, 0, "claim cut.toml"),
    # a data record with forty long texts and then a bad TAL, and one without the texts
    "check_of_a_bad_tal": Command(
        1, 0, "check original.edf ROOM/bad.edf cut.toml", "NO 2 export fault: BadTal(NoEnd) at record 0\n"),
    "notes_of_a_bad_tal_alone": Command(1, 0, "notes ROOM/bare.edf", "FAULT BadTal(NoEnd) at record 0\n"),
    "read_of_a_bad_tal": Command(1, 0, "read ROOM/bad.edf", "FAULT BadTal(NoEnd) at record 0\n"),
    "layout_of_a_bad_tal": Command(1, 0, "layout ROOM/bad.edf", "FAULT BadTal(NoEnd) at record 0\n"),
    "notes_of_a_bad_tal": Command(1, 0, "notes ROOM/bad.edf", "FAULT BadTal(NoEnd) at record 0\n"),
}


ROWS = list(COMMANDS.items())


def role_of(command, name):
    """The role of a file by its name, for a command."""
    if command in ("conform", "show", "notes", "read", "layout"):
        return "file"
    if name.endswith(".toml") and command not in ("draft", "draft-parts"):
        return "claim"
    return "original" if name == "original.edf" else "export"


def is_untried(out, text):
    """Whether a draft couldn't be tried: its first line says so, and the rest is as it has to be."""
    return out.startswith(b"# NOT TRIED: ") and out.partition(b"\n")[2] == text.partition(b"\n")[2]


@unittest.skipUnless(shutil.which(COMPILER[0]), "no C compiler")
class Failing(ProgramCase):
    """The commands, each with all its runs."""

    @classmethod
    def setUpClass(cls):
        super().setUpClass()
        cls.shim = cls.room / "failing.so"
        flags = ["-O1", "-Wall", "-Wextra", "-shared", "-fPIC", "-o", cls.shim, TOP / "tests" / "failing.c", "-ldl"]
        ran = run(*COMPILER, *flags)
        assert ran.status == 0, str(ran)
        cls.file("original.edf", b"")
        claim = (NIGHT / "cut.toml").read_text(encoding="utf-8")
        cls.file("unmoved.toml", re.sub("^shift = .*", "shift = 0", claim, flags=re.M))
        change = faults.both(faults.fixed("records", "1"), faults.field(3, "samples", "1500"))
        front = change(night.files()["cut.edf"])[:faults.HEADER] + bytes(faults.SAMPLES)
        for name, count in (("bad", 40), ("bare", 0)):
            texts = b"".join(b"+0\x14" + b"a" * 60 + b"\x14\0" for _ in range(count))
            cls.file(f"{name}.edf", front + edf.lane(3000, b"+0\x14\x14\0" + texts + b"+"))
        cls.texts, cls.counts, cls.stops = {}, {}, {}

    def words_of(self, command):
        return command.words.replace("ROOM", str(self.room)).split()

    def text_of(self, command):
        """What a command writes where nothing fails."""
        if command.words not in self.texts:
            words = self.words_of(command)
            if command.text:
                self.texts[command.words] = command.text.encode()
            elif words[0] == "receipt":
                self.texts[command.words] = self.receipt_of(words[1:])
            else:
                self.texts[command.words] = self.run_program(*words).out
        return self.texts[command.words]

    def receipt_of(self, names):
        """The receipt of an original with a fault at its begin."""
        lines = [(NIGHT / "receipt.txt").read_text(encoding="utf-8").partition("\n")[0]]
        for role, name in zip(("original", "export", "claim"), names):
            path = NIGHT / name
            digest = run("sha256sum", path).out.split()[0].decode()
            lines.append(f"{role} sha256 {digest} bytes {path.stat().st_size}")
        return "\n".join([*lines, "NO 1 original fault: Truncated at header field version", ""]).encode()

    def run_with(self, words, **said):
        here = {**os.environ, "LD_PRELOAD": str(self.shim), **{name: str(value) for name, value in said.items()}}
        return self.run_program(*words, env=here)

    def counts_of(self, words, single):
        """How many growths, reads and writes a run has, where reads and writes are of one byte or not; and how many bytes
        it holds behind its first read of a file at the most, more than at that read."""
        key = *words, single
        if key not in self.counts:
            found = COUNTS.search(self.run_with(words, COUNTS=1, ONE_BYTE=single).err)
            self.assertTrue(found, f"{words}: nothing could be counted")
            self.counts[key] = [int(number) for number in found.groups()]
        return self.counts[key]

    def ended(self, command, what, at, single=0):
        """How a run ends in which something fails: `whole`, `untried`, `stopped`, or what is wrong with it."""
        words, told, text = self.words_of(command), self.room / "told", self.text_of(command)
        told.write_bytes(b"")
        ran = self.run_with(words, **{what: at, "TOLD": told, "ONE_BYTE": single})
        line = LINES.get(what) or f"edfclaim: reading {role_of(words[0], told.read_text(encoding='utf-8'))} failed"
        err = ran.err.partition(b"\n")[0] + b"\n" if words[0] in ("explain", "explain-parts") and ran.err else ran.err
        limit = MOST if what == "WRITE_AT" else command.limit
        if ran.status == command.status and ran.out == text and not err:
            return "whole"
        if ran.status == command.status and not err and is_untried(ran.out, text):
            return "untried"
        if ran.status == 2 and len(ran.out) <= limit and text.startswith(ran.out) and err == f"{line}\n".encode():
            return "stopped"
        return str(ran)

    def assert_ends(self, ends, allowed):
        """Looks at how runs ended, by their names."""
        self.assertTrue(ends, "no run")
        wrong = [f"{name}: {end}" for name, end in ends.items() if end not in allowed]
        self.assertEqual(wrong[:5], [], f"{len(wrong)} of {len(ends)} runs ended otherwise than {' or '.join(allowed)}")

    def stopped_by_growths(self, command):
        """How many growths there are, and how many of them stop a run where they are refused."""
        if command.words not in self.stops:
            growths = self.counts_of(self.words_of(command), 0)[0]
            ends = {f"growth {number}": self.ended(command, "FAIL_AT", number) for number in range(1, growths + 1)}
            self.assert_ends(ends, ["whole", "stopped"])
            self.stops[command.words] = growths, list(ends.values()).count("stopped")
        return self.stops[command.words]

    @each(ROWS)
    def growths(self, command):
        _, stopped = self.stopped_by_growths(command)
        self.assertGreater(stopped, 0, "runs that a refusal stopped")

    @each(ROWS)
    def reads(self, command):
        reads = self.counts_of(self.words_of(command), 0)[1]
        ends = {f"read {number}": self.ended(command, "READ_AT", number) for number in range(1, reads + 1)}
        if reads or command.words != "vectors":
            self.assert_ends(ends, ["stopped", "untried"])

    @each(ROWS)
    def writes(self, command):
        writes = self.counts_of(self.words_of(command), 0)[2]
        ends = {f"write {number}": self.ended(command, "WRITE_AT", number) for number in range(1, writes + 1)}
        self.assert_ends(ends, ["stopped", "untried"])

    @each(ROWS)
    def nothing(self, command):
        self.assert_ends({"nothing failed": self.ended(command, "FAIL_AT", 0)}, ["whole"])
        self.assert_ends({"single bytes": self.ended(command, "FAIL_AT", 0, single=1)}, ["whole"])

    @each(ROWS)
    def single_bytes(self, command):
        _, reads, writes, _ = self.counts_of(self.words_of(command), 1)
        ends = {}
        for what, count, some in (("READ_AT", reads, SINGLE_READS), ("WRITE_AT", writes, SINGLE_WRITES)):
            for number in sorted({*some, count // 2, count}):
                if 0 < number <= count:
                    ends[f"{what}={number}"] = self.ended(command, what, number, single=1)
        self.assert_ends(ends, ["stopped", "untried"])

    def test_growths_of_texts_before_a_bad_tal_do_not_stop_a_check(self):
        growths, stopped = self.stopped_by_growths(COMMANDS["check_of_a_bad_tal"])
        self.assertGreaterEqual(growths - stopped, 40, "growths that didn't stop the check")

    def test_growths_of_texts_before_a_bad_tal_do_not_stop_a_listing(self):
        alone, behind = (self.stopped_by_growths(COMMANDS[f"notes_of_a_bad_tal{end}"])[1] for end in ("_alone", ""))
        self.assertEqual(behind, alone, "growths that stopped the listing, and that of a bad TAL alone")

    def test_listing_with_little_memory(self):
        """Of two files with one fault the first takes less memory. With 16 bytes less than that its run is stopped; with as
        much, and with ever more, the second one gives the fault."""
        bare, bad = COMMANDS["notes_of_a_bad_tal_alone"], COMMANDS["notes_of_a_bad_tal"]
        least, held = (self.counts_of(self.words_of(command), 0)[3] for command in (bare, bad))
        self.assert_ends({f"{least - 16} bytes": self.ended(bare, "MOST", least - 16)}, ["stopped"])
        self.assert_ends({f"{size} bytes": self.ended(bad, "MOST", size) for size in range(least, held + 1, 16)}, ["whole"])
