"""Recordings that are made from what is said of them: whole seconds of channels, in data records of 1 s.

Times are whole seconds and picoseconds after the second at which the original starts, also those of an export, which is
made later or earlier by its shift. What an explanation has to say is recounted from here
(tests/explain/tries.py, tests/oracle/honesty.py).
"""

import collections
import copy
import datetime

from tests import edf
from tests.edf import field, lane, seconds, signal, values
from tests.recordings import COLUMNS, bytes_of, claim_of, recording

START = datetime.datetime(2002, 3, 2, 22, 0, 0)
PS = 10**12

# the channels by their labels: the number of each in the columns of tests/recordings.py, and its samples a second
KINDS = {"EEG Fpz-Cz": (0, 4), "ECG": (1, 2), "Temp": (3, 1)}
LANE = 300


class Made:
    """A recording: which seconds it has, in stretches, the values of its channels from the original's start on, its
    annotations (onset, duration or none, text), by how many seconds it is moved, the part of a second at which it starts,
    the texts of header fields, those of channels by their label and column, and the free text of the header."""

    def __init__(self, stretches, channels, notes=(), shift=0, fraction=0, edits=()):
        self.stretches, self.channels, self.notes = list(stretches), dict(channels), sorted(notes, key=str)
        self.shift, self.fraction, self.edits = shift, fraction, list(edits)
        self.texts, self.free = {}, ""

    def but(self, **said):
        """The same, but for what is said."""
        other = copy.deepcopy(self)
        for name, value in said.items():
            assert hasattr(other, name)
            setattr(other, name, value)
        return other

    def cut(self, first, last, shift=0):
        """An honest cut of one interval."""
        kept = [note for note in self.notes if first * PS <= note[0] < last * PS]
        return self.but(stretches=[(first, last)], notes=kept, shift=shift)

    def changed(self, label, place, value):
        """The same with another value of one sample, by its place from the original's start on."""
        other = copy.deepcopy(self)
        other.channels[label][place] = value
        return other

    def begin(self):
        """The second at which the file starts, after the start of the original."""
        return self.stretches[0][0]

    def start(self):
        """When it starts, by its own clock."""
        return START + datetime.timedelta(seconds=self.begin() + self.shift)

    def text(self, label, column):
        """A text of a channel."""
        return self.texts.get((label, column), COLUMNS[column][KINDS[label][0]])

    def samples(self, label):
        """The values by their instants, in picoseconds after the start of the original, and not moved."""
        rate, found = KINDS[label][1], {}
        for first, last in self.stretches:
            for place in range(first * rate, last * rate):
                found[place * PS // rate + self.fraction] = self.channels[label][place]
        return found

    def record(self, ps):
        """The number of the data record in which a time lies that isn't moved, or none."""
        number = 0
        for first, last in self.stretches:
            for second in range(first, last):
                if second * PS + self.fraction <= ps < (second + 1) * PS + self.fraction:
                    return number
                number += 1
        return None

    def records(self):
        """How many data records it has."""
        return sum(last - first for first, last in self.stretches)

    def record_size(self):
        """How many bytes a data record has."""
        return 2 * sum(KINDS[label][1] for label in self.channels) + LANE

    def bytes(self):
        """The file."""
        labels = list(self.channels)
        day = self.start()
        places = [second for first, last in self.stretches for second in range(first, last)]
        edits = [
            (field("recording"), f"Startdate {edf.dashed(day)} PSG-1234/2002 NN Telemetry03"),
            (field("startdate"), edf.startdate(day)), (field("starttime"), edf.starttime(day)),
            (field("records"), str(len(places))),
            (field("reserved"), ("EDF+C" if len(self.stretches) == 1 else "EDF+D") + self.free),
            (signal(len(labels), "samples"), str(LANE // 2)),
        ]
        edits += [(signal(number, "samples"), str(KINDS[label][1])) for number, label in enumerate(labels)]
        edits += [(signal(labels.index(label), column), text) for (label, column), text in self.texts.items() if label in labels]
        left, parts = sorted(self.notes, key=lambda note: note[0]), []
        for number, second in enumerate(places):
            for label in labels:
                rate = KINDS[label][1]
                parts.append(values(self.channels[label][second * rate:(second + 1) * rate]))
            text = edf.tal(edf.onset((second - self.begin()) * PS + self.fraction), "")
            # what the data records have no time for stands in the last one
            while left and (left[0][0] < (second + 1) * PS or number == len(places) - 1):
                onset, duration, said = left.pop(0)
                span = None if duration is None else seconds(duration)
                text += edf.tal(edf.onset(onset - self.begin() * PS), said, duration=span)
            assert len(text) <= LANE, text
            parts.append(lane(LANE, text))
        kinds = [KINDS[label][0] for label in labels] + [2]
        return bytes_of(recording(signals=kinds, edits=edits + self.edits, parts=parts))


class Claimed:
    """A claim: its labels, its intervals in seconds, its shift, and the texts that it removes."""

    def __init__(self, labels, keep, shift=0, remove=(), anonymous=()):
        self.labels, self.keep, self.shift = list(labels), list(keep), shift
        self.remove, self.anonymous = list(remove), list(anonymous)

    def keeps(self, ps):
        return any(first * PS <= ps < last * PS for first, last in self.keep)

    def text(self, shift=None, labels=None, end=None):
        """Its text, maybe with another shift, other labels, or an interval that ends a picosecond after this time."""
        def array(texts):
            return "[" + ", ".join(f'"{text}"' for text in texts) + "]"

        keys = f"shift = {self.shift if shift is None else shift}\nremove = {array(self.remove)}"
        keys += f"\nanonymous = {array(self.anonymous)}"
        keep = [(first, seconds(end + 1) if last * PS == end else last) for first, last in self.keep]
        return claim_of(array(self.labels if labels is None else labels), keys, keep)


def apart(original, export, claim, label, shift):
    """The samples of a channel that are missing, too many and changed, reckoned with a shift: each a list of the time, the
    values of the original and the export, and the numbers of the data records of both in which it lies."""
    moved = (export.shift - shift) * PS
    kept = {at: value for at, value in original.samples(label).items() if claim.keeps(at)}
    exported = {at + moved: value for at, value in export.samples(label).items()}

    def spot(at):
        return at, kept.get(at), exported.get(at), original.record(at), export.record(at - moved)

    return {
        "missing": [spot(at) for at in sorted(kept.keys() - exported.keys())],
        "extra": [spot(at) for at in sorted(exported.keys() - kept.keys())],
        "changed": [spot(at) for at in sorted(kept.keys() & exported.keys()) if kept[at] != exported[at]],
    }


def notes_apart(original, export, claim, shift):
    """The annotations that the export lacks, and those that it has and the claim doesn't keep."""
    moved = (export.shift - shift) * PS
    kept = collections.Counter(note for note in original.notes if claim.keeps(note[0]) and note[2] not in claim.remove)
    exported = collections.Counter((onset + moved, *rest) for onset, *rest in export.notes)
    return kept - exported, exported - kept
