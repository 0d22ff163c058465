"""The signs of life: the line that says on a terminal how much of the files is read.

A night goes through a pipe in pieces, so that the program works for longer than a second, and standard error is a
pseudo-terminal or a pipe. On a terminal such lines come and are wiped before the answer or the refusal; before a second
has gone by none comes, nor of `show` and `notes`. Where standard error is no terminal nothing of it is printed.
"""

import dataclasses
import os
import re
import subprocess
import threading
import time

from tests.harness import MOST_SECONDS, ProgramCase, Ran, each
from tests.long_nights import Night, write

NIGHT = Night(600, channels=4, rate=500)
CONFORMS = b"CONFORMS records 600 channels 4 samples 1200000 annotations 20\n"
YES = b"YES channels 4 samples 1200000 annotations 20\n"
CLAIM = b'format = 1\nchannels = ["EEG 0", "EEG 1", "EEG 2", "EEG 3"]\nkeep = [{ from = "0", to = "999999999" }]\n'
LINE = re.compile(rb"\redfclaim: (\d+)(?: of (\d+))? MB read\x1b\[K")
WIPE = b"\r\x1b[K"
# the night goes through the pipe in so many pieces, one each so many seconds
PIECES, PAUSE = 20, 0.08
CHECK = ["check", "/dev/stdin", "night.edf", "claim.toml"]


def feed(pipe, content, is_slow):
    """Writes the night into a pipe, in pieces."""
    size = len(content) // PIECES + 1
    with os.fdopen(pipe, "wb", buffering=0) as file:
        for start in range(0, len(content), size):
            try:
                file.write(content[start:start + size])
            except BrokenPipeError:
                return
            time.sleep(PAUSE if is_slow else 0)


def drained(end):
    """All that comes out of a pipe or a pseudo-terminal. The latter fails where its other side is closed."""
    found = b""
    while True:
        try:
            piece = os.read(end, 65536)
        except OSError:
            return found
        if not piece:
            return found
        found += piece


class Signs(ProgramCase):
    """The program on a terminal, and without one."""

    @classmethod
    def setUpClass(cls):
        super().setUpClass()
        write(cls.room / "night.edf", NIGHT)
        cls.night = (cls.room / "night.edf").read_bytes()
        cls.file("claim.toml", CLAIM)
        (cls.room / "folder").mkdir()

    def run_on(self, words, is_terminal, is_slow=True, together=False):
        """Runs the program with a terminal or a pipe as standard error; the original comes through a pipe. Where both
        outputs go to one terminal, all of it is standard error."""
        source, sink = os.pipe()
        end, other = os.openpty() if is_terminal else os.pipe()
        how = {"stdin": source, "stderr": other, "cwd": self.room, "stdout": other if together else subprocess.PIPE}
        process = subprocess.Popen([self.program, *words], **how)
        ender = threading.Timer(MOST_SECONDS, process.kill)
        ender.start()
        os.close(source)
        os.close(other)
        feeder = threading.Thread(target=feed, args=(sink, self.night, is_slow))
        feeder.start()
        said = []
        reader = threading.Thread(target=lambda: said.append(drained(end)))
        reader.start()
        output = b"" if together else process.stdout.read()
        status = process.wait()
        for thread in (reader, feeder):
            thread.join()
        ender.cancel()
        os.close(end)
        if process.stdout:
            process.stdout.close()
        return Ran((self.program, *words), status, output, said[0])

    # A command that shows lines, its status, its output, and what it says behind them.
    SHOWN = [
        ("conform", ["conform", "/dev/stdin"], 0, CONFORMS, b""),
        ("check", CHECK, 0, YES, b""),
        ("refusal", ["draft", "/dev/stdin", "folder"], 2, b"", b"edfclaim: reading export failed\r\n"),
    ]

    @each(SHOWN)
    def shown(self, words, status, output, refusal):
        """The numbers of the lines rise and are no more than there is, and the lines are wiped."""
        ran = self.run_on(words, True)
        lines = [int(line[1]) for line in LINE.finditer(ran.err)]
        self.assertEqual((ran.status, ran.out), (status, output), str(ran))
        self.assertTrue(
            lines and lines == sorted(lines) and lines[-1] <= 2 * len(self.night) // 10**6 + 1,
            f"{lines}; {ran}",
        )
        self.assertEqual(LINE.sub(b"", ran.err), WIPE + refusal, "what stands beside the lines")

    # Other commands that show lines; what they print is what they print of the file itself.
    SHOWN_BESIDE = [
        ("read", ["read", "/dev/stdin"]),
        ("layout", ["layout", "/dev/stdin"]),
        ("explain_parts", ["explain-parts", "/dev/stdin", "claim.toml", "night.edf"]),
    ]

    @each(SHOWN_BESIDE)
    def shown_beside(self, words):
        files = [self.room / ("night.edf" if word == "/dev/stdin" else word) for word in words[1:]]
        wanted, ran = self.run_program(words[0], *files), self.run_on(words, True)
        self.assertTrue(LINE.search(ran.err), str(ran))
        self.assert_ran(dataclasses.replace(ran, err=LINE.sub(b"", ran.err)), wanted.status, wanted.out, WIPE)

    def test_wiped_before_the_answer(self):
        ran = self.run_on(["conform", "/dev/stdin"], True, together=True)
        self.assertEqual((ran.status, LINE.split(ran.err)[-1]), (0, WIPE + CONFORMS.replace(b"\n", b"\r\n")), str(ran))

    def test_before_a_second(self):
        self.assert_ran(self.run_on(["conform", "/dev/stdin"], True, is_slow=False), 0, CONFORMS)

    def test_no_terminal(self):
        self.assert_ran(self.run_on(CHECK, False), 0, YES)

    @each([("show", "show"), ("notes", "notes")])
    def silent(self, command):
        wanted = self.run_program(command, self.room / "night.edf")
        self.assert_ran(self.run_on([command, "/dev/stdin"], True), 0, wanted.out)
