"""What the scripts of tools/gate and tools/release find in the sources: each is run as it is, and has to find no fault."""

import importlib.util
import pathlib
import re
import shutil
import tempfile

from tests.harness import TOP, Case, ProgramCase, each, run

# What is looked at, and by which script.
SCRIPTS = [
    ("wrong_bodies", ["tools/gate/wrong_bodies.py", "--check"]),
    ("imports", ["tools/gate/imports.sh"]),
    ("headline", ["tools/gate/headline.py", "--check"]),
    ("third_party", ["tools/release/third_party.py", "--check"]),
    ("links", ["tools/gate/links.py"]),
]


class Sources(Case):
    """The sources alone."""

    @each(SCRIPTS)
    def whole(self, words):
        ran = run(TOP / words[0], *words[1:], cwd=TOP)
        self.assertEqual(ran.status, 0, str(ran))


# Faults in what a Yes stands on: the file of definitions, a text in it, what stands there instead, and what is said of it.
FAULTS = [
    ("misspelt", "edf_check/specs/Headline.antt", "export_says : HasNotes", "export_says : HasNotez", "is defined nowhere"),
    ("renamed", "edf_claim/specs/Keeps.antt", "abbrev pub kept_text", "abbrev pub kept_txt", "`kept_text` isn't in "),
    ("unneeded", "edf_pace/specs/Kept.antt", "", "\n-- a word more\nabbrev pub odd : ℕ\nodd = 1\n", "`odd` isn't needed"),
]


class Headline(Case):
    """The document of what a Yes means isn't written of definitions that don't fit."""

    def document_of(self, name, old, new):
        """What is said where one text of a file of definitions is another one."""
        with tempfile.TemporaryDirectory() as room:
            top = pathlib.Path(room)
            for crate in (TOP / "crates").iterdir():
                for part in ("src", "specs"):
                    if (crate / part).is_dir():
                        shutil.copytree(crate / part, top / "crates" / crate.name / part)
            (top / "tools" / "gate").mkdir(parents=True)
            shutil.copy(TOP / "tools" / "gate" / "headline.py", top / "tools" / "gate")
            file = top / "crates" / name
            text = file.read_text(encoding="utf-8")
            file.write_text(text.replace(old, new, 1) if old else text + new, encoding="utf-8")
            return run(top / "tools" / "gate" / "headline.py", "--check", cwd=top)

    @each(FAULTS)
    def finds(self, name, old, new, said):
        ran = self.document_of(name, old, new)
        self.assertEqual(ran.status, 1, str(ran))
        self.assertIn(said, str(ran))

    def test_whole(self):
        ran = self.document_of("edf_check/specs/Headline.antt", "", "")
        self.assertEqual(ran.status, 0, str(ran))


class Program(ProgramCase):
    """The tables of docs/tables, beside the pages that have them, the definitions and the program."""

    def test_tables(self):
        ran = run(TOP / "tools" / "gate" / "tables.py", "--check", self.program, cwd=TOP)
        self.assertEqual(ran.status, 0, str(ran))

    def test_examples(self):
        """The header and the lane that the document of a Yes spells are those of a file that conforms and says that."""
        place = importlib.util.spec_from_file_location("headline", TOP / "tools" / "gate" / "headline.py")
        headline = importlib.util.module_from_spec(place)
        place.loader.exec_module(headline)
        texts = [re.findall("`([^`]*)`", example) for example in headline.EXAMPLES]
        widths = (8, 80, 80, 8, 8, 8, 44, 8, 8, 4)
        front = "".join(text.rstrip("·").ljust(width) for text, width in zip(texts[0][1:11], widths, strict=True))
        columns = "".join(text.rstrip("·").ljust(16) for text in texts[0][12:14]) + " " * 160 + "uV".ljust(16)
        columns += "".join(text.ljust(8) for text in "-100 -1 100 1 -2048 -32768 2047 32767".split()) + " " * 160
        columns += "2".ljust(8) + "20".ljust(8) + " " * 64
        lane = re.sub("⟨([0-9]+)⟩", lambda byte: chr(int(byte[1])), texts[1][0])
        records = ["\1\0\2\0" + one.ljust(40, "\0") for one in ("+0\x14\x14\0", lane)]
        with tempfile.TemporaryDirectory() as room:
            path = pathlib.Path(room) / "spelled.edf"
            path.write_bytes((front + columns + "".join(records)).encode())
            said = run(self.program, "conform", str(path)), run(self.program, "notes", str(path))
        self.assertEqual(said[0].out, b"CONFORMS records 2 channels 1 samples 4 annotations 1\n")
        self.assertEqual(said[1].out, b'1500000000000 ps duration 30000000000000 ps text "Apnea"\n')
