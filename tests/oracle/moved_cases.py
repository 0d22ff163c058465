"""Nights with honest exports that were moved by any number of seconds, for the draft of a claim.

usage: python3 -m tests.oracle.moved_cases SEED COUNT

Prints a case a line: the original, the export and the text of the claim, in hexadecimal (draft_rules.py). `honest` gives
an original, an export that is just what a claim of format 1 or 2 says, and that claim: of channels of which some stand
still, of one or more intervals that begin and end anywhere, of a shift by any number of seconds, of hidden subfields, and of
texts that are removed, by how they begin, too, and blanked.

What two files can't tell is made as well, and isn't drafted: where all samples of the export stand still, each part of the
night with the same values fits; where an annotation stands between the claim's end of an interval and the end of the data
record there, and its text is kept elsewhere, the data records don't say that it was left out; and of two texts at one time
of which one was blanked and one removed, either may have been, also where one of them is `X` itself.
"""

import datetime
import sys

from tests.oracle import verdict_cases
from tests.oracle.verdict_cases import Night, PREFIXES, TEXTS, document, often, one_of
from tests.reading.rules import SUBFIELDS

# how long a step of a night is, in units of 10^-7 s
STEPS = [10_000_000, 10_000_000, 300_000_000, 70_000_000, 20_000_000, 5_000_000, 3_333_333, 1_234_567]

# the latest day on which an export may begin, and the last year in which a startdate needs no date beside it
LATEST, LAST_YEAR = datetime.datetime(2300, 1, 1), 2084


class MovedNight(Night):
    """A night of which some channels stand still, all the time or at first, or go up and down."""

    def __init__(self):
        super().__init__((2, 4, 6, 12, 12, 24))
        self.step = one_of(*STEPS)
        kinds = ["line"] + [one_of("line", "flat", "late", "wave") for _ in self.labels]
        self.kinds = dict(zip(self.labels, kinds))
        same = {time: self.time() for time, *_ in self.notes}
        self.notes = [(same[time], *said) for time, *said in self.notes]

    def time(self):
        """A time of the night, or beside it: any, or one at which samples stand, or a picosecond behind one."""
        end = self.instant(self.steps)
        step = self.instant(verdict_cases.choose.randrange(self.steps + 1))
        return one_of(verdict_cases.choose.randrange(end + 1), step, step, step + 1, end + 10**12, -1)

    def value(self, label, number):
        kind = self.kinds[label]
        if kind == "flat" or kind == "late" and number < self.rates[label]:
            return 5
        return number * 37 % 11 if kind == "wave" else super().value(label, number)


def shift_of(night):
    """A number of seconds."""
    choose = verdict_cases.choose
    shift = one_of(0, 86_400 * choose.randint(-3_000, 3_000), *[choose.randint(-5 * 10**8, 2 * 10**9)] * 2,
                   choose.randint(-100, 100), choose.randint(-100_000, 100_000))
    moved = night.begin + datetime.timedelta(seconds=shift)
    return shift if datetime.datetime(1985, 1, 2) <= moved < LATEST else -3_600


def cuts(night):
    """One to three stretches of steps, in order."""
    count = min(one_of(1, 1, 2, 3), (night.steps + 1) // 2)
    ends = sorted(verdict_cases.choose.sample(range(night.steps + 1), 2 * count))
    return list(zip(ends[::2], ends[1::2]))


def kept_times(night, parts, labels):
    """The intervals of a claim that keeps these stretches: each begins behind the last sample before it, and ends behind its
    own last sample."""
    choose, keep = verdict_cases.choose, []
    gap = night.step * 100_000 // max(night.rates[label] for label in labels)
    for first, last in parts:
        low, high = night.instant(first), night.instant(last)
        least = max(keep[-1][1] if keep else 0, low - gap + 1 if first else 0)
        low = choose.randint(least, low) if often(0.3) else low
        high = high - choose.randrange(gap) if often(0.3) else high
        keep.append((low, high))
    if parts[-1][1] == night.steps and often(0.3):
        keep[-1] = keep[-1][0], night.instant(night.steps) + one_of(1, 2, 10**12, 10**12 + 1, 10**15)
    return keep


def texts_of(form):
    """The texts that a claim removes, those by which it removes some, and those that it blanks."""
    choose = verdict_cases.choose
    remove = choose.sample(TEXTS, one_of(0, 0, 1, 2))
    if form == 1:
        return remove, [], []
    return remove, choose.sample(PREFIXES, one_of(0, 0, 1, 2)), choose.sample(TEXTS, one_of(0, 1, 3))


def kept_notes(notes, keep, texts):
    """The annotations of the export."""
    remove, prefixes, blank = texts
    return [
        (time, span, b"X" if part in blank else part) for time, span, part in notes
        if any(low <= time < high for low, high in keep) and part not in remove and not part.startswith(tuple(prefixes))
    ]


def honest():
    """The bytes of the original and of the export, and the text of the claim."""
    choose, night = verdict_cases.choose, MovedNight()
    shift = shift_of(night)
    if max(night.begin.year, (night.begin + datetime.timedelta(seconds=shift)).year) >= LAST_YEAR:
        night.said["date"] = b"day"
    original = night.cut([(0, night.steps)], night.labels, night.said, night.notes, odd=0)
    claimed = [night.labels[0], *choose.sample(night.labels[1:], choose.randint(0, len(night.labels) - 1))]
    choose.shuffle(claimed)
    parts = cuts(night)
    keep = kept_times(night, parts, claimed)
    form = one_of(1, 2)
    anonymous = [name for name in SUBFIELDS if name != "date" and often(0.3)]
    texts = texts_of(form)
    said = {}
    for name, value in night.said.items():
        hidden = [b"X" for _ in value] if isinstance(value, list) else b"X"
        said[name] = hidden if name in anonymous else value
    export = night.cut(parts, claimed, said, kept_notes(night.notes, keep, texts), shift, odd=0)
    return original, export, document(form, claimed, keep, anonymous, shift, texts)


def main(seed, count):
    verdict_cases.choose.seed(int(seed))
    for _ in range(int(count)):
        print(*(part.hex() for part in honest()))


if __name__ == "__main__":
    main(*sys.argv[1:])
