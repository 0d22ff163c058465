"""The one harness of the tests: where the program is, how it is run, and how rows become tests.

The program is the one that the environment variable EDFCLAIM names, or else crates/edfclaim/out/edfclaim. A method that
has `each` in front is no test by itself: each row of its table is one, and has the row's name behind the method's, so
that `python3 -m unittest tests.test_receipts -k ends` picks rows by their names.
"""

import dataclasses
import os
import pathlib
import re
import shutil
import subprocess
import tempfile
import unittest

TOP = pathlib.Path(__file__).resolve().parent.parent
NIGHT = TOP / "examples" / "night"
SHARED = "/dev/shm" if os.access("/dev/shm", os.W_OK) else None

# The answers of the example night: the status, the words and the line.
ANSWERS = [
    (int(status), words, line)
    for status, words, line in (row.split("\t") for row in (NIGHT / "answers").read_text(encoding="utf-8").splitlines())
]

# After so many seconds a run is ended and its test fails.
MOST_SECONDS = 120

# How much of what was printed a message shows.
MOST_SHOWN = 2000


def program():
    """The path of the program."""
    said = os.environ.get("EDFCLAIM")
    path = pathlib.Path(said) if said else TOP / "crates" / "edfclaim" / "out" / "edfclaim"
    if path.is_file() and os.access(path, os.X_OK):
        return str(path.resolve())
    raise FileNotFoundError(f"no program at {path}: `make build` leaves one there, or EDFCLAIM names another")


def slug(text):
    """The words of a text, with underscores between them: the name of a row."""
    return re.sub("[^a-z0-9]+", "_", text.lower()).strip("_")


def each(table):
    """Makes a test of each row of a table, by the method behind this. A row is a name and what the method takes."""
    def mark(method):
        method.table = list(table)
        return method

    return mark


def from_row(method, row):
    def test(self):
        method(self, *row)

    return test


@dataclasses.dataclass
class Ran:
    """A run: its words, its status, and what it wrote to standard output and to standard error."""
    words: tuple
    status: int
    out: bytes
    err: bytes

    def __str__(self):
        words = " ".join(str(word) for word in self.words)
        return f"{words[:MOST_SHOWN]}: status {self.status} with {shown(self.out)} and on standard error {shown(self.err)}"


def shown(data):
    """What was printed, cut short; several lines stand below one another."""
    more = f" and {len(data) - MOST_SHOWN} bytes more" if len(data) > MOST_SHOWN else ""
    if data.count(b"\n") > 1:
        return f"these lines{more}:\n{data[:MOST_SHOWN].decode(errors='backslashreplace')}"
    return f"{data[:MOST_SHOWN]!r}{more}"


def run(*words, **how):
    """Runs a command to its end, but for no longer than MOST_SECONDS."""
    # (without close_fds a process is begun in a tenth of the time)
    given = {"stdout": subprocess.PIPE, "stderr": subprocess.PIPE, "close_fds": False, "timeout": MOST_SECONDS, **how}
    if "input" not in given:
        given.setdefault("stdin", subprocess.DEVNULL)
    try:
        ended = subprocess.run(words, check=False, **given)
    except subprocess.TimeoutExpired:
        raise AssertionError(f"{' '.join(map(str, words))[:MOST_SHOWN]}: no end within {MOST_SECONDS} seconds") from None
    return Ran(words, ended.returncode, ended.stdout or b"", ended.stderr or b"")


class Case(unittest.TestCase):
    """Tests with a folder of their own, the room, which is removed behind the last of them."""

    maxDiff = None

    def __init_subclass__(cls, **more):
        super().__init_subclass__(**more)
        # of a class that is no case by itself, each case that stands on it has the tests
        for base in [cls, *(base for base in cls.__bases__ if not issubclass(base, unittest.TestCase))]:
            for front, method in list(vars(base).items()):
                for name, *row in getattr(method, "table", ()):
                    cls.add(f"test_{front}_{name}", method, row)

    @classmethod
    def add(cls, name, method, row):
        """Adds the test of a row."""
        if not re.fullmatch("[a-z0-9_]+", name) or name in vars(cls):
            raise ValueError(f"{cls.__module__}.{cls.__name__}: no name of a row, or that of two: {name}")
        test = from_row(method, row)
        test.__name__, test.__qualname__ = name, f"{cls.__qualname__}.{name}"
        setattr(cls, name, test)

    @classmethod
    def setUpClass(cls):
        cls.room = pathlib.Path(tempfile.mkdtemp(prefix="edfclaim-", dir=SHARED))
        cls.addClassCleanup(shutil.rmtree, cls.room, ignore_errors=True)
        cls.kept = {}

    @classmethod
    def file(cls, name, content):
        """A file of this name in the room; one that stands there with this content isn't written again."""
        path = cls.room / name
        content = content.encode() if isinstance(content, str) else content
        if cls.kept.get(name) != content:
            path.write_bytes(content)
            cls.kept[name] = content if len(content) < 10**6 else None
        return path

    @classmethod
    def copy_of_night(cls):
        """A copy of the example night in the room."""
        return pathlib.Path(shutil.copytree(NIGHT, cls.room / "night"))


class ProgramCase(Case):
    """Tests of the program."""

    @classmethod
    def setUpClass(cls):
        super().setUpClass()
        cls.program = program()

    def run_program(self, *words, **how):
        """Runs the program on these words, in the folder of the example night where nothing else is said."""
        return run(self.program, *words, **{"cwd": NIGHT, **how})

    def assert_ran(self, ran, status, out=b"", err=b""):
        """Looks whether a run ended so."""
        out, err = (text.encode() if isinstance(text, str) else text for text in (out, err))
        if (ran.status, ran.out, ran.err) != (status, out, err):
            self.fail(f"{ran}\nwanted: status {status} with {shown(out)} and on standard error {shown(err)}")

    def assert_refused(self, ran, line):
        """Looks whether a run was refused with this line. Behind it `explain` says more."""
        if "explain" in ran.words[1:2]:
            ran = dataclasses.replace(ran, err=ran.err.partition(b"\n")[0] + b"\n")
        self.assert_ran(ran, 2, err=f"{line}\n")
