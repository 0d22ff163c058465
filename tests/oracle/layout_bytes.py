"""Looks whether each changed byte of a file that leaves its meaning as it was changes the lines of its layout, by the second
reading of their definitions (layout.py).

usage: python3 -m tests.oracle.layout_bytes [COUNT [SEED]]

It makes COUNT random files of 6,000 bytes at most, as layouts.py makes them, half of them rearranged (2,000 where none is
said; SEED is a number, 1 if none is said, and the same number makes the same files), and of each of them files in which one
byte has another value: a byte is tried with six others at most, one of a sample with one. Files with a fault, and those that
mean something else, are left aside. The last line counts the others that passed and failed. 2,000 files take an hour of
one processor.
"""

import collections
import concurrent.futures
import random
import sys

from tests.oracle import layouts
from tests.oracle.layout import meaning, printed, texts_of
from tests.reading import rules

FAULT = b"FAULT"
MOST = 6000


def others(choose, byte):
    """Other values of a byte: near ones, a space, a digit, a zero, and any."""
    return sorted({byte ^ 1, (byte + 1) % 256, ord(" "), ord("0"), 0, choose.randrange(256)} - {byte})


def replaced(file, place, byte):
    return file[:place] + bytes([byte]) + file[place + 1:]


class Parts:
    """A file that conforms, and which of its bytes say what."""

    def __init__(self, file):
        self.file = file
        said = rules.fixed_part(file)
        self.signals = rules.signals(file, said["signals"])
        self.head, self.size = 256 * (said["signals"] + 1), 2 * sum(one["samples"] for one in self.signals)
        self.texts = self.texts_in(file)
        # of each byte of a data record whether it stands in an annotation lane
        self.keeps = [one["label"] == rules.ANNOTATIONS for one in self.signals for _ in range(2 * one["samples"])]

    @staticmethod
    def texts_in(file):
        """What the header says but for its numbers: part of the meaning."""
        said = rules.fixed_part(file)
        signals = rules.signals(file, said["signals"])
        fixed = [said[name] for name in ("patient", "recording", "startdate", "starttime")] + [rules.text(said["reserved"][5:])]
        return fixed, sorted(map(texts_of, signals))

    def notes_in(self, file, record):
        """Where a data record starts, and its annotations: part of the meaning, as each data record has samples."""
        at, lanes = self.head + record * self.size, []
        for one in self.signals:
            if one["label"] == rules.ANNOTATIONS:
                lanes.append(file[at:at + 2 * one["samples"]])
            at += 2 * one["samples"]
        start, notes = rules.annotations(lanes, f"record {record}")
        return start, collections.Counter(notes)

    def may_mean_the_same(self, place, other):
        """Whether a file with another byte at this place may mean the same, by the part in which it stands alone."""
        try:
            if place < self.head:
                return self.texts_in(other) == self.texts
            record = (place - self.head) // self.size
            return self.notes_in(other, record) == self.notes_in(self.file, record)
        except rules.Refused:
            return False

    def changed(self, choose):
        """The file with each of its bytes changed in each of these ways, and where."""
        for place, byte in enumerate(self.file):
            is_sample = place >= self.head and not self.keeps[(place - self.head) % self.size]
            for other in [byte ^ 1] if is_sample else others(choose, byte):
                yield place, is_sample, replaced(self.file, place, other)


def tries(file, choose):
    """Of each changed file that means the same: where it was changed, and whether it has other lines."""
    lines, means, parts = printed(file)[1], meaning(file), Parts(file)
    for place, is_sample, other in parts.changed(choose):
        if not is_sample and not parts.may_mean_the_same(place, other):
            continue
        said = printed(other)[1]
        if not said.startswith(FAULT) and meaning(other) == means:
            yield place, said != lines


def made(number):
    """A file that conforms, by the number that makes it, and what other choices are made of."""
    layouts.choose.seed(number)
    while True:
        first = layouts.first_of_family()[0]
        # half of them are as a family begins, and half are rearranged
        file = (layouts.rearranged(first, layouts.WAYS) if number % 2 else first).bytes()
        if len(file) <= MOST and not printed(file)[1].startswith(FAULT):
            return file, random.Random(number)


def seen(number):
    """What was seen of the file of this number: how many passed, and what is said of those that failed."""
    file, choose = made(number)
    found = list(tries(file, choose))
    return sum(is_other for _, is_other in found), [f"byte {place} of {file.hex()}" for place, is_other in found if not is_other]


def main():
    count = int(sys.argv[1]) if len(sys.argv) > 1 else 2000
    seed = int(sys.argv[2]) if len(sys.argv) > 2 else 1
    passed = failed = 0
    with concurrent.futures.ProcessPoolExecutor() as workers:
        for more, wrong in workers.map(seen, range(seed * 10**6, seed * 10**6 + count), chunksize=4):
            passed, failed = passed + more, failed + len(wrong)
            for line in wrong:
                print(line)
    print(f"{passed} passed, {failed} failed")
    return 1 if failed or not passed else 0


if __name__ == "__main__":
    sys.exit(main())
