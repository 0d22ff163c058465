"""The blocks of the pages, run as they stand: lines that are typed, with what is shown behind them; claims; and scripts,
with what the block behind each says that it prints.

The pages are README.md and those of docs. What is typed stands behind `$ `, or begins with edfclaim and a command. A block
is typed where one of its lines calls edfclaim; of docs/START.md all are, which is the path of an officer. The lines of a page
are typed one after the other in one shell, in a copy of the example night. A status has to be 0, or 1 where the page shows
a NO or a FAULT. Where the page shows nothing behind a line, what it prints isn't compared. A claim has to be one, and where
the page checks with it further down, the check has the line that is shown there. A block that can't be run has a comment in
front of it, `<!-- not run: WHY -->`.
"""

import os
import re
import shutil
import subprocess
import sys
import typing
import unittest

from tests.harness import NIGHT, TOP, Case, ProgramCase, each, run, shown, slug

PAGES = ["README.md", *sorted(f"docs/{path.name}" for path in (TOP / "docs").glob("*.md"))]
WHOLE = ["docs/START.md"]
BLOCK = re.compile(r"^(?P<comment><!-- not run: .*? -->\n+)?```(?P<language>\w*)\n(?P<text>.*?)^```$", re.M | re.S)
CALL = re.compile(r"(^|[\s(|;])edfclaim ")
LINE = re.compile(r"^(?:\$ |(?=edfclaim [a-z-]))", re.M)

# Lines that aren't typed: only root installs a package, the shell is in the folder of the night already, and a key is
# needed to sign.
NOT_TYPED = ("sudo ", "cd /usr/share/doc/edfclaim/", "gpg ")

# How the blocks of a language are run.
LANGUAGES = {"sh": ["sh"], "python": [sys.executable], "r": ["Rscript", "--vanilla"]}


class Block(typing.NamedTuple):
    """A block: its page, its language, its text, and where it begins and ends on the page."""
    page: str
    language: str
    text: str
    begin: int
    end: int


class Typed(typing.NamedTuple):
    """A line that is typed, the lines that are shown behind it, and the status that is wanted."""
    name: str
    line: str
    shown: str

    def status(self):
        return 1 if re.match("(NO|FAULT) ", self.shown) else 0


def name_of(page):
    """The page in the names of tests."""
    return slug(page.removeprefix("docs/").removesuffix(".md"))


def text_of(page):
    return (TOP / page).read_text(encoding="utf-8")


def blocks(page):
    """The blocks of a page that are to be run."""
    for found in BLOCK.finditer(text_of(page)):
        if not found["comment"]:
            yield Block(page, found["language"], found["text"], found.start(), found.end())


def typed_in(block):
    """The lines that are typed in a block, each with what is shown behind it."""
    for part in LINE.split(block.text)[1:]:
        line, _, shown_behind = part.partition("\n")
        yield line, shown_behind


def typed_on(page):
    """The lines that are typed on a page, each with a name."""
    found, names = [], []
    for block in blocks(page):
        lines = [] if block.language else list(typed_in(block))
        if page in WHOLE or any(CALL.search(line) for line, _ in lines):
            for line, shown_behind in lines:
                if not line.startswith(NOT_TYPED):
                    name = slug(f"{name_of(page)} {line}")
                    names.append(name)
                    again = f"_{names.count(name)}" if names.count(name) > 1 else ""
                    found.append(Typed(name + again, line, shown_behind))
    return found


TYPED = {page: typed_on(page) for page in PAGES}

# One shell types all lines of a page: what one of them changes stays for the next ones.
TYPE = """
for typed in "$LINES_TYPED"/*.typed; do
    eval "$(cat "$typed")" >"${typed%.typed}.said" 2>&1 </dev/null
    echo "$?" >"${typed%.typed}.status"
done
"""


class Lines(ProgramCase):
    """The lines that are typed. A page is typed once, before the first of its lines is looked at."""

    @classmethod
    def setUpClass(cls):
        super().setUpClass()
        cls.said = {}
        (cls.room / "bin").mkdir()
        (cls.room / "bin" / "edfclaim").symlink_to(cls.program)

    def type_page(self, page):
        """Types a page: of each line its status, and what it printed."""
        room = self.room / name_of(page)
        night = shutil.copytree(NIGHT, room / "night")
        for number, typed in enumerate(TYPED[page]):
            (room / f"{number:03}.typed").write_text(typed.line, encoding="utf-8")
        here = {**os.environ, "PATH": f"{self.room / 'bin'}:{os.environ['PATH']}", "LINES_TYPED": str(room), "LC_ALL": "C"}
        ran = run("bash", "-c", TYPE, cwd=night, env=here)
        self.assertFalse(ran.out or ran.err, str(ran))
        for number, typed in enumerate(TYPED[page]):
            status, said = room / f"{number:03}.status", room / f"{number:03}.said"
            if status.exists():
                self.said[typed.name] = int(status.read_text(encoding="utf-8")), said.read_bytes()

    @each((typed.name, page, typed) for page, lines in TYPED.items() for typed in lines)
    def typed(self, page, typed):
        if typed.name not in self.said:
            self.type_page(page)
        status, said = self.said.get(typed.name, (None, b""))
        wanted = typed.shown.encode()
        if status != typed.status() or wanted and said != wanted:
            self.fail(f"{page}: $ {typed.line}\nstatus {status} with {shown(said)}\n"
                      f"wanted: status {typed.status()} with {shown(wanted)}")


def claims():
    """The claims of the pages: a name, the block, and the words and the line of the check that is shown behind it in its
    section, if there is one."""
    for page in PAGES:
        found = [one for one in blocks(page) if re.search("^format = ", one.text, re.M) and "$ " not in one.text]
        for number, block in enumerate(found):
            section = text_of(page)[block.end:].partition("\n## ")[0]
            section = re.split("^format = ", section, maxsplit=1, flags=re.M)[0]
            check = re.search(r"^\$ edfclaim check (\S+) (\S+) \S+\n((?:YES|NO) .*\n)", section, re.M)
            yield f"{name_of(page)}_{number + 1}", block, check


class Claims(ProgramCase):
    """The claims."""

    @each(claims())
    def claim(self, block, check):
        claim = self.file("claim.toml", block.text)
        original, export, line = check.groups() if check else ("original.edf", "cut.edf", None)
        ran = self.run_program("check", original, export, claim)
        right = ran.status in (0, 1) and ran.out.count(b"\n") == 1 and not ran.err and line in (None, ran.out.decode())
        self.assertTrue(right, f"{block.page}: {ran}\nwanted: {line or 'a claim that is taken'}")


def scripts():
    """The scripts of the pages: a name, the block, and what the block behind it says that it prints."""
    for page in PAGES:
        found = list(blocks(page))
        counts = dict.fromkeys(LANGUAGES, 0)
        for block, behind in zip(found, [*found[1:], None]):
            if block.language in LANGUAGES:
                counts[block.language] += 1
                is_shown = behind and not behind.language and behind.begin == block.end + 2
                yield f"{name_of(page)}_{block.language}_{counts[block.language]}", block, behind.text if is_shown else ""


class Scripts(ProgramCase):
    """The scripts, with the program as `edfclaim` on the path, in a copy of the night for each page."""

    @classmethod
    def setUpClass(cls):
        super().setUpClass()
        (cls.room / "bin").mkdir()
        (cls.room / "bin" / "edfclaim").symlink_to(cls.program)

    @each(scripts())
    def script(self, block, wanted):
        words, night = LANGUAGES[block.language], self.room / name_of(block.page)
        if not shutil.which(words[0]):
            raise unittest.SkipTest(f"no {words[0]}")
        if not night.exists():
            shutil.copytree(NIGHT, night)
        here = {**os.environ, "PATH": f"{self.room / 'bin'}:{os.environ['PATH']}", "PYTHONPATH": str(TOP / "extras")}
        here |= {"LC_ALL": "C.UTF-8", "PYTHONDONTWRITEBYTECODE": "1"}
        ran = run(*words, self.file("block", block.text), cwd=night, env=here)
        self.assertEqual((ran.status, ran.out.decode()), (0, wanted), f"what the block prints, and what is shown; {ran}")


class Stored(Case):
    """The texts that are stored beside the night, and those that docs/START.md shows."""

    @each((slug(name), name) for name in ("draft.toml", "receipt.txt", "receipt-parts.txt"))
    def start_shows(self, name):
        shown_there = [typed.shown for typed in TYPED["docs/START.md"] if typed.line == f"cat {name}"]
        self.assertEqual(shown_there, [(NIGHT / name).read_text(encoding="utf-8")], f"docs/START.md behind `cat {name}`")


class Officer(ProgramCase):
    """The script that types the same lines in roots which have no Python (tools/release/clean_root.sh)."""

    def test_officer(self):
        script = TOP / "tools" / "release" / "officer.sh"
        ended = subprocess.run([script, self.program], capture_output=True, text=True, check=False, stdin=subprocess.DEVNULL)
        said = ended.stdout + ended.stderr
        count = len(TYPED["docs/START.md"])
        self.assertTrue(ended.returncode == 0 and said.endswith(f"{count} passed, 0 failed\n"), f"{count} lines; {said}")
