"""200 small nights, checked as examples/many-nights does, by xargs and, where it is installed, by Snakemake.

Processes of a run are killed at random, also the whole run: after each run every answer that stands there is whole and is
that of its night, and in the end each night has its answer once. The nights are those of examples/night, by links: answers
with Yes and with No, and two nights of which there is none until their claim is mended. The program is called through a
script that writes a receipt in two pieces, with a pause between, and keeps count. SEED is the seed of what is random, where
it is set.
"""

import collections
import os
import pathlib
import random
import re
import shutil
import signal
import subprocess
import time
import unittest

from tests.harness import MOST_SECONDS, TOP, Case, ProgramCase, each, run

EXAMPLE = TOP / "examples" / "many-nights"
SCRIPT = EXAMPLE / "nights.sh"
HEAD = "night\toriginal\texport\tclaim\n"
NIGHTS = 200
# The export of each kind of night, and its claim.
KINDS = [
    ("cut", "cut"), ("two-intervals", "two-intervals"), ("blanked", "blanked"), ("name-left", "cut"), (
        "changed-value",
        "cut",
    ),
]
SLOW = """#!/bin/sh
# a receipt in two pieces
echo "$4" >>"$COUNT"
status=0
said=$("$PROGRAM" "$@") || status=$?
rest=${said#????????????????????????????????????????}
if [ -n "$said" ]; then
    printf '%s' "${said%"$rest"}"
    sleep 0.01
    printf '%s\\n' "$rest"
fi
exit "$status"
"""
NEEDED = ["awk", "paste", "pgrep", "xargs"]


class Tables(Case):
    """Tables that are in order, and ones that aren't."""

    def rows(self, table):
        return run(SCRIPT, "rows", self.file("table", table), cwd=self.room)

    # Tables that are refused.
    REFUSED = [
        ("no_column_of_claims", "night\toriginal\texport\n"), ("night_twice", HEAD + "a\tb\tc\td\na\tb\tc\te\n"),
        ("slash_in_a_name", HEAD + "a/b\tb\tc\td\n"), ("dot_before_a_name", HEAD + ".a\tb\tc\td\n"),
        ("no_claim", HEAD + "a\tb\tc\n"), ("empty_claim", HEAD + "a\tb\tc\t\n"), ("five_columns", HEAD + "a\tb\tc\td\te\n"),
        ("dash_before_a_name", HEAD + "-a\tb\tc\td\n"),
    ]

    @each(REFUSED)
    def refused(self, table):
        ran = self.rows(table)
        self.assertEqual((ran.status, ran.out), (2, b""), str(ran))

    # As other systems and programs write a table: a byte order mark, CR LF at the end of all lines, of the first, of none.
    READ = [
        ("of_one_night", HEAD + "a\tb b\tc\td\n"), ("with_a_mark", "\ufeff" + HEAD + "a\tb b\tc\td\n"),
        ("with_cr_lf", HEAD.replace("\n", "\r\n") + "a\tb b\tc\td\r\n"),
        ("with_a_mark_and_cr_lf", "\ufeff" + HEAD.replace("\n", "\r\n") + "a\tb b\tc\td\r\n"),
        ("with_cr_lf_in_the_first_line", HEAD.replace("\n", "\r\n") + "a\tb b\tc\td\n"),
        ("with_cr_lf_and_no_last_end", HEAD.replace("\n", "\r\n") + "a\tb b\tc\td"),
    ]

    @each(READ)
    def read(self, table):
        ran = self.rows(table)
        self.assertEqual((ran.status, ran.out), (0, b"a\0b b\0c\0d\0"), str(ran))

    # What is said of a table whose lines end in a way that isn't read, and of one in UTF-16 or with commas.
    SAID = [
        (
            "cr_lf_behind_lf",
            HEAD.encode() + b"a\tb\tc\td\ne\tb\tc\td\r\n",
            "3: it ends by CR LF, and the first line by LF alone",
        ),
        (
            "cr_alone",
            b"night\toriginal\texport\tclaim\ra\tb\tc\td\r",
            "1: its lines end by CR alone: save it with LF or CR LF",
        ),
        ("utf_16_of_little_end", b"\xff\xfen\0i\0g\0h\0t\0", "1: a table in UTF-16: save it as UTF-8"),
        ("utf_16_of_big_end", b"\xfe\xff\0n\0i\0g\0h\0t", "1: a table in UTF-16: save it as UTF-8"),
        (
            "commas",
            b"night,original,export,claim\r\n",
            "1: not the words night, original, export, claim, with tabs between them",
        ),
    ]

    @each(SAID)
    def said(self, table, line):
        self.file("table", table)
        ran = run(SCRIPT, "rows", "table", cwd=self.room)
        self.assertEqual((ran.status, (ran.out + ran.err).decode()), (2, f"table, line {line}\n"))


class NightsCase(ProgramCase):
    """Tests in the folder of the nights, with the answers that they should have in the end in the folder `wanted`."""

    @classmethod
    def setUpClass(cls):
        missing = [name for name in NEEDED if not shutil.which(name)]
        if missing:
            raise unittest.SkipTest(f"missing on this machine: {' '.join(missing)}")
        super().setUpClass()
        cls.nights = cls.room / "nights"
        shutil.copytree(EXAMPLE, cls.nights)
        shutil.copytree(TOP / "examples" / "night", cls.nights / "night")
        cls.slow = cls.file("slow", SLOW)
        cls.slow.chmod(0o755)
        cls.here = {**os.environ, "PROGRAM": cls.program, "EDFCLAIM": str(cls.slow), "COUNT": str(cls.room / "count")}
        night = cls.nights / "night"
        cls.receipts = [
            run(cls.program, "receipt", night / "original.edf", night / f"{export}.edf", night / f"{claim}.toml").out
            for export, claim in KINDS
        ]

    @classmethod
    def make_nights(cls):
        """Makes the table and the files of all nights."""
        rows = [f"n{at}\tnight/original {at}.edf\tnight/export-{at}.edf\tnight/claim-{at}.toml\n" for at in range(NIGHTS)]
        (cls.nights / "nights.tsv").write_text(HEAD + "".join(rows), encoding="utf-8")
        (cls.nights / "wanted").mkdir()
        for at, row in enumerate(rows):
            export, claim = KINDS[at % len(KINDS)]
            (cls.nights / "night" / f"original {at}.edf").symlink_to("original.edf")
            cls.link(f"export-{at}.edf", f"{export}.edf")
            cls.link(f"claim-{at}.toml", f"{claim}.toml")
            (cls.nights / "wanted" / f"n{at}.txt").write_bytes(row.encode() + cls.receipts[at % len(KINDS)])
        # of the last two one has a claim that is refused, and one has no export
        cls.link(f"claim-{NIGHTS - 1}.toml", "refused.toml")
        (cls.nights / "night" / f"export-{NIGHTS - 2}.edf").unlink()

    @classmethod
    def link(cls, name, target):
        path = cls.nights / "night" / name
        path.unlink(missing_ok=True)
        path.symlink_to(target)

    @classmethod
    def script(cls, *words):
        return run("./nights.sh", *words, cwd=cls.nights, env=cls.here)


class Programs(NightsCase):
    """Programs that say what edfclaim doesn't, or are ended: no answer."""

    STRANGE = [
        ("receipt_with_status_2", "cat {0}; exit 2"), ("receipt_of_a_yes_with_status_1", "cat {0}; exit 1"),
        ("receipt_of_a_no_with_status_0", "cat {3}"), ("receipt_of_a_program_that_is_ended", "cat {0}; kill -9 $$"),
        ("nothing_with_status_0", "exit 0"), ("nothing_with_status_1", "exit 1"),
    ]

    def refusal_of(self, script):
        """What is kept of a program that does this."""
        for number, receipt in enumerate(self.receipts):
            self.file(f"receipt-{number}", receipt)
        body = script.format(*(f"'{self.room}/receipt-{number}'" for number in range(len(KINDS))))
        stand_in = self.file("stand-in", f"#!/bin/sh\n{body}\n")
        stand_in.chmod(0o755)
        shutil.rmtree(self.nights / "other", ignore_errors=True)
        words = ["check", "other", "n0", "a", "b", "c"]
        ran = run("./nights.sh", *words, cwd=self.nights, env={**self.here, "EDFCLAIM": str(stand_in)})
        self.assertEqual(ran.status, 1, str(ran))
        self.assertEqual(os.listdir(self.nights / "other"), ["n0.refused"])
        return (self.nights / "other" / "n0.refused").read_text(encoding="utf-8")

    @each(STRANGE)
    def no_answer(self, script):
        self.refusal_of(script)

    def test_what_is_kept_of_a_program_that_is_ended(self):
        refusal = self.refusal_of(dict(self.STRANGE)["receipt_of_a_program_that_is_ended"])
        self.assertEqual(refusal, "status 137, and nothing was said\n")


class Page(ProgramCase):
    """The table of the example, as its page has it."""

    @classmethod
    def setUpClass(cls):
        super().setUpClass()
        shutil.copytree(TOP / "examples", cls.room / "examples")
        cls.nights = cls.room / "examples" / "many-nights"
        cls.here = {**os.environ, "EDFCLAIM": cls.program}
        line = "./nights.sh rows nights.tsv | xargs -0 -n 4 -P 4 ./nights.sh check answers"
        cls.ran = run("bash", "-o", "pipefail", "-c", line, cwd=cls.nights, env=cls.here)
        # the same table as Windows saves it
        table = (cls.nights / "nights.tsv").read_bytes()
        (cls.nights / "windows.tsv").write_bytes("\ufeff".encode() + table.replace(b"\n", b"\r\n"))

    def said(self, *words):
        return run("./nights.sh", *words, cwd=self.nights, env=self.here).out

    def test_refusal(self):
        said = (self.ran.out + self.ran.err).decode()
        self.assertEqual((self.ran.status, said), (123, "refused: edfclaim: claim refused: BadKeep\n"))

    def test_answers(self):
        page = (self.nights / "README.md").read_text(encoding="utf-8")
        shown = re.search(r"^\$ cut -f 1-3 answers.tsv\n(.*?)^```", page, re.M | re.S)[1]
        table = self.said("table", "nights.tsv", "answers").decode()
        self.assertEqual("".join("\t".join(line.split("\t")[:3]) + "\n" for line in table.splitlines()), shown)

    def test_receipt(self):
        answer = (self.nights / "answers" / "as-claimed.txt").read_bytes()
        self.assertEqual(answer.partition(b"\n")[2], (TOP / "examples" / "night" / "receipt.txt").read_bytes())

    def test_rows_by_windows(self):
        self.assertEqual(self.said("rows", "windows.tsv"), self.said("rows", "nights.tsv"))

    def test_answers_by_windows(self):
        tables = [self.said("table", name, "answers") for name in ("windows.tsv", "nights.tsv")]
        self.assertEqual(tables[0], tables[1])


class Killed:
    """A way to check all nights, with runs that are killed at random. What stands there after each step is kept, and the
    tests look at it. The cases say which line runs it, and how many runs are killed."""

    @classmethod
    def setUpClass(cls):
        super().setUpClass()
        cls.make_nights()
        cls.choose = random.Random(os.environ.get("SEED"))
        cls.killed, cls.kills = [], 0
        for _ in range(cls.RUNS):
            cls.run_and_kill(cls.choose.randrange(10, 50))
            cls.killed.append(cls.answers())
        cls.first = cls.whole_run()
        cls.mend()
        cls.second = cls.whole_run()

    @classmethod
    def count(cls):
        folder = cls.nights / "answers"
        return len([path for path in folder.iterdir() if path.suffix == ".txt"]) if folder.is_dir() else 0

    @classmethod
    def members(cls, group, *pattern):
        """The processes of a group that was begun here."""
        return [int(number) for number in run("pgrep", "-g", str(group), *pattern).out.split()]

    @classmethod
    def run_and_kill(cls, more):
        """Runs in a group of its own. Once there are so many answers more, it kills jobs of it at random, and then all that
        is left."""
        wanted, until = cls.count() + more, time.monotonic() + MOST_SECONDS
        how = {"stdin": subprocess.DEVNULL, "stdout": subprocess.DEVNULL, "stderr": subprocess.DEVNULL, "process_group": 0}
        process = subprocess.Popen(["bash", "-c", cls.LINE], cwd=cls.nights, env=cls.here, **how)
        try:
            while cls.count() < wanted and process.poll() is None and time.monotonic() < until:
                time.sleep(0.05)
            for _ in range(3):
                found = cls.members(process.pid, "-f", f"{cls.slow}|nights.sh check")
                if found:
                    cls.kill(cls.choose.choice(found))
                    time.sleep(cls.choose.randrange(10) / 100)
            cls.kills += len(cls.members(process.pid))
        finally:
            # what still runs of this run, which has a group of its own
            if process.poll() is None or cls.members(process.pid):
                os.killpg(process.pid, signal.SIGKILL)
            process.wait()

    @classmethod
    def kill(cls, number):
        try:
            os.kill(number, signal.SIGKILL)
            cls.kills += 1
        except ProcessLookupError:
            pass

    @classmethod
    def answers(cls):
        """How many answers stand there, and the names of those that aren't as wanted."""
        folder, wanted = cls.nights / "answers", cls.nights / "wanted"
        found = sorted(path.name for path in folder.iterdir() if path.suffix == ".txt") if folder.is_dir() else []
        other = [name for name in found
                 if not (wanted / name).exists() or (wanted / name).read_bytes() != (folder / name).read_bytes()]
        return len(found), other

    @classmethod
    def whole_run(cls):
        """Runs to the end: what stands there then, by names."""
        count = pathlib.Path(cls.here["COUNT"])
        count.write_bytes(b"")
        ran = run("bash", "-o", "pipefail", "-c", cls.LINE, cwd=cls.nights, env=cls.here, timeout=10 * MOST_SECONDS)
        table = cls.script("table", "nights.tsv", "answers").out.decode()
        statuses = collections.Counter(line.split("\t")[1] for line in table.splitlines()[1:])
        return {
            "status": 1 if ran.status == 123 else ran.status, "checks": len(count.read_bytes().splitlines()),
            "answers": cls.answers(), "statuses": [statuses[status] for status in "012"],
            "refusals": sorted(path.name for path in (cls.nights / "answers").glob("*.refused")), "table": table,
        }

    @classmethod
    def mend(cls):
        """Mends what had no answer, makes an export anew, and gives a night other files: nothing else is tried again."""
        cls.link(f"claim-{NIGHTS - 1}.toml", f"{KINDS[4][1]}.toml")
        cls.link(f"export-{NIGHTS - 2}.edf", f"{KINDS[3][0]}.edf")
        shutil.copyfile(cls.nights / "night" / "name-left.edf", cls.nights / "night" / "anew.edf")
        cls.link("export-0.edf", "anew.edf")
        table = cls.nights / "nights.tsv"
        text = table.read_text(encoding="utf-8").replace("export-2.edf", "export-7.edf")
        table.write_text(text, encoding="utf-8")
        rows = text.splitlines(keepends=True)
        (cls.nights / "wanted" / "n0.txt").write_bytes(rows[1].encode() + cls.receipts[3])
        (cls.nights / "wanted" / "n2.txt").write_bytes(rows[3].encode() + cls.receipts[2])

    def test_killed_runs(self):
        for count, other in self.killed:
            self.assertEqual(other, [], f"answers of {count} that aren't as wanted, after {self.kills} kills")

    def test_status(self):
        self.assertEqual(self.first["status"], 1, "while two nights have no answer")

    def test_answers(self):
        self.assertEqual(self.first["answers"], (198, []))

    def test_statuses(self):
        self.assertEqual(self.first["statuses"], [120, 78, 2], "nights of status 0, 1 and 2")

    def test_refusals(self):
        self.assertEqual(self.first["refusals"], ["n198.refused", "n199.refused"])

    def test_mended_status_and_checks(self):
        self.assertEqual((self.second["status"], self.second["checks"]), (0, 4))

    def test_mended_answers(self):
        self.assertEqual(self.second["answers"], (200, []))

    def test_mended_statuses(self):
        self.assertEqual(self.second["statuses"], [119, 81, 0], "nights of status 0, 1 and 2")

    def test_mended_refusals(self):
        self.assertEqual(self.second["refusals"], [])


class ByXargs(Killed, NightsCase):
    """By xargs, as the page has it."""

    RUNS = 4
    LINE = "./nights.sh rows nights.tsv | xargs -0 -n 4 -P 4 ./nights.sh check answers"


class BySnakemake(Killed, NightsCase):
    """By Snakemake. A run that was killed leaves its lock."""

    RUNS = 2
    LINE = """
if [ -n "$(find .snakemake/locks -type f 2>/dev/null)" ]; then
    snakemake --quiet all --unlock
fi
snakemake --quiet all --cores 4 --keep-going --rerun-incomplete --scheduler greedy
"""

    @classmethod
    def setUpClass(cls):
        if not shutil.which("snakemake"):
            raise unittest.SkipTest("no snakemake")
        super().setUpClass()

    @classmethod
    def whole_run(cls):
        return {**super().whole_run(), "written": (cls.nights / "answers.tsv").read_text(encoding="utf-8")}

    def test_table(self):
        self.assertEqual((self.first["written"], len(self.first["table"].splitlines())), (self.first["table"], 201))

    def test_mended_table(self):
        self.assertEqual((self.second["written"], len(self.second["table"].splitlines())), (self.second["table"], 201))
