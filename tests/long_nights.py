"""Writes nights for measurements: contiguous EDF+ files.

usage: python3 -m tests.long_nights FILE SECONDS SAMPLES

The night has 22 channels of SAMPLES samples a second, in data records of 1 s, and a scored stage every 30 s.
Nights of the same samples and annotations may have data records of other lengths, and may be handed out in parts.
"""

import dataclasses
import datetime
import sys

from tests import edf


def short(number):
    """A name of three letters and digits, another one for each number below 46,656."""
    digits = "0123456789abcdefghijklmnopqrstuvwxyz"
    return digits[number // 1296] + digits[number // 36 % 36] + digits[number % 36]


def stages(seconds):
    """A scored stage every 30 s: the tenth of a second at which each begins, and its TAL."""
    return [(10 * s, edf.tal(f"+{s}", "Sleep stage N2", duration=30)) for s in range(0, seconds, 30)]


def remarks(texts, seconds):
    """Annotations with these texts, evenly spread."""
    starts = [10 * seconds * k // len(texts) for k in range(len(texts))]
    return [(t, edf.tal(edf.onset(t, 10), text)) for t, text in zip(starts, texts)]


@dataclasses.dataclass
class Night:
    """What a night holds. Its length is a multiple of that of its data records."""
    seconds: int
    channels: int = 22
    rate: int = 170  # samples of a channel in a second
    tenths: int = 10  # the length of a data record, in tenths of a second
    lane: int = 128  # bytes of the annotation lane of a data record
    notes: list | None = None  # in the order of their onsets; none: the stages
    first: int = 0  # how many seconds after the night's begin it begins, where it is a part of one

    def labels(self):
        """Those of many channels are short, since a claim that names them all has at most 65,536 bytes."""
        return [f"EEG {c}" if self.channels < 100 else short(c) for c in range(self.channels)]

    def parts(self, count):
        """The night in so many parts of one length, a multiple of 30 s, each a file that begins where the one before
        ends. Its annotations are the stages."""
        length = self.seconds // count
        assert self.notes is None and length % 30 == 0 and length * count == self.seconds
        return [dataclasses.replace(self, seconds=length, first=length * part) for part in range(count)]

    def begin(self):
        """When it begins."""
        return datetime.datetime(2002, 3, 2, 22) + datetime.timedelta(seconds=self.first)


def header(night):
    fixed = {
        "patient": "X X X X", "recording": "Startdate X X X X", "startdate": edf.startdate(night.begin()),
        "starttime": edf.starttime(night.begin()), "reserved": "EDF+C", "records": str(10 * night.seconds // night.tenths),
        "duration": f"{night.tenths / 10:g}",
    }
    same = {"transducer": "", "physical-minimum": "-100", "physical-maximum": "100", "prefilter": "", "reserved": ""}
    channel = {**same, "dimension": "uV", "digital-minimum": "-2048", "digital-maximum": "2047"}
    channel["samples"] = str(night.rate * night.tenths // 10)
    notes = {**same, "label": edf.ANNOTATIONS, "dimension": "", "digital-minimum": "-32768", "digital-maximum": "32767"}
    notes["samples"] = str(night.lane // 2)
    return edf.header(fixed, [*({**channel, "label": label} for label in night.labels()), notes])


def write(path, night):
    """Writes the night."""
    size = 2 * (night.rate * night.tenths // 10)
    values = bytes(range(256)) * (size // 256 + 2)
    notes = iter(night.notes if night.notes is not None else stages(night.seconds))
    note = next(notes, None)
    with open(path, "wb") as file:
        file.write(header(night))
        for start in range(0, 10 * night.seconds, night.tenths):
            text = edf.tal(edf.onset(start, 10), "")
            while note and note[0] < start + night.tenths:
                text += note[1]
                note = next(notes, None)
            # where in the values the samples of each channel begin
            before = night.rate * (10 * night.first + start) // 10
            places = [(2 * before + 38 * c) % 256 for c in range(night.channels)]
            file.write(b"".join([values[at:at + size] for at in places]) + edf.lane(night.lane, text))


def other_values(path, other, night):
    """Writes a copy of a night in which each sample has another value."""
    turned = bytes(range(256)).translate(bytes((b + 1) % 256 for b in range(256)))
    samples = 2 * night.channels * (night.rate * night.tenths // 10)
    with open(path, "rb") as one, open(other, "wb") as two:
        two.write(one.read(edf.header_size(night.channels + 1)))
        while record := one.read(samples + night.lane):
            two.write(record[:samples].translate(turned) + record[samples:])


if __name__ == "__main__":
    write(sys.argv[1], Night(int(sys.argv[2]), rate=int(sys.argv[3])))
