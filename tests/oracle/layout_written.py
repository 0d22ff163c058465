"""Writes a file of what it means and the lines of its layout (layout.py): there is no more in it."""

import re

from tests import edf
from tests.oracle.layout import Tal, plain_lanes, plain_time, rank
from tests.reading import rules

NUMBERS = ["samples", "physical-minimum", "physical-maximum", "digital-minimum", "digital-maximum"]
TEXTS = ["label", "transducer", "dimension", "prefilter", "reserved"]
SIGNAL = re.compile(rb'signal [0-9]+ samples (\S+) physical (\S+) (\S+) digital (\S+) (\S+) label "(.*)"')
LANE = re.compile(rb"data record ([0-9]+) annotation signal ([0-9]+)")
TAL = re.compile(rb"  onset (\S+) duration (\S*) (time lasting|no text at|annotations)(.*)")


def words_behind(lines, front):
    """What stands behind these first words, in the line that begins with them."""
    return next(line[len(front):] for line in lines if line.startswith(front))


def time_or_none(words):
    """`none`, or a number of picoseconds."""
    return None if words == b"none" else int(words.removesuffix(b" ps"))


class Written:
    """A file, by what it means and the lines of its layout."""

    def __init__(self, means, lines):
        (self.patient, self.recording, self.day, self.clock, self.free), channels, self.keepers, self.samples, notes = means
        self.lines = lines
        self.texts = {texts[0]: texts for texts in channels}
        self.ordered = sorted(notes.elements(), key=rank)
        self.signals = [self.signal(found) for found in map(SIGNAL.fullmatch, lines) if found]
        for number, one in enumerate(one for one in self.signals if one["label"] == rules.ANNOTATIONS):
            one.update(zip(TEXTS, self.keepers[number]))
        self.begin = rules.begin_of({"startdate": self.day, "starttime": self.clock})

    def signal(self, found):
        """The texts of a signal, by its line."""
        *numbers, quoted = found.groups()
        label = re.sub(rb"\\x(..)", lambda code: bytes.fromhex(code[1].decode()), quoted)
        return {**dict(zip(NUMBERS, numbers)), **dict(zip(TEXTS, self.texts.get(label, (label,))))}

    def spaced(self, name, parts):
        """Subfields with as many spaces behind each as the line says."""
        spaces = map(int, words_behind(self.lines, b"%s spaces" % name).split())
        return parts[0] + b"".join(b" " * many + part for many, part in zip(spaces, parts[1:], strict=True))

    def header(self):
        year, month, day = self.day
        hours, rest = divmod(self.clock, 3600)
        said = {
            "patient": self.spaced(b"patient", self.patient),
            "recording": self.spaced(b"recording", [b"Startdate", *self.recording]),
            "startdate": f"{day:02}.{month:02}." + ("yy" if year > 2084 else f"{year % 100:02}"),
            "starttime": f"{hours:02}.{rest // 60:02}.{rest % 60:02}",
            "reserved": words_behind(self.lines, b"kind ") + self.free,
            "header-bytes": words_behind(self.lines, b"size "),
        }
        said |= {name: words_behind(self.lines, name.encode() + b" ") for name in ("duration", "records", "signals")}
        return edf.header(said, self.signals)

    def sizes(self):
        return [2 * rules.header_whole(one["samples"]) for one in self.signals if one["label"] == rules.ANNOTATIONS]

    def instants(self, label):
        """When the samples of a channel are, in order."""
        return sorted(instant for other, instant in self.samples if other == label)

    def starts(self):
        """Where the data records start, by the samples of a channel."""
        one = next(one for one in self.signals if one["label"] != rules.ANNOTATIONS)
        return [int(instant) - self.begin for instant in self.instants(one["label"])[::rules.header_whole(one["samples"])]]

    def tal(self, line, start):
        """A TAL by its line, in a data record with this start."""
        onset, duration, kind, rest = TAL.fullmatch(line).groups()
        if kind == b"no text at":
            at, lasts = rest.split(b" duration ")
            times, texts = (int(at.removesuffix(b" ps")), time_or_none(lasts)), ()
        else:
            lasts, _, places = rest[1:].rpartition(b" annotations") if kind == b"time lasting" else (None, None, rest)
            notes = [self.ordered[int(place)] for place in places.split()]
            times = notes[0][:2] if lasts is None else (start, time_or_none(lasts))
            texts = (*([] if lasts is None else [b""]), *(note[2] for note in notes))
        sign = b"-" if times[0] < 0 else b"+"
        spelled = sign + plain_time(abs(times[0])) if onset == b"plain" else onset
        lasting = None if times[1] is None else plain_time(times[1]) if duration == b"plain" else duration
        return Tal(spelled, lasting, texts)

    def lanes(self):
        """The annotation lanes of each data record."""
        order = next(line for line in self.lines if line.startswith(b"annotations "))
        starts = self.starts()
        found, at = plain_lanes(order, self.ordered, self.sizes(), starts)[0], None
        for line in self.lines:
            if lane := LANE.fullmatch(line):
                at = int(lane[1]), int(lane[2])
                found[at[0]][at[1]] = []
            elif TAL.fullmatch(line):
                found[at[0]][at[1]].append(self.tal(line, starts[at[0]]))
        return found

    def bytes(self):
        channels = {one["label"]: self.instants(one["label"]) for one in self.signals if one["label"] != rules.ANNOTATIONS}
        file = self.header()
        for number, lanes in enumerate(self.lanes()):
            left = iter(zip(self.sizes(), lanes, strict=True))
            for one in self.signals:
                label, many = one["label"], rules.header_whole(one["samples"])
                if label == rules.ANNOTATIONS:
                    size, tals = next(left)
                    file += edf.lane(size, b"".join(tal.bytes() for tal in tals))
                else:
                    instants = channels[label][number * many:(number + 1) * many]
                    file += edf.values([self.samples[label, instant] for instant in instants])
        return file


def written(means, text):
    """The file that means this and has these lines."""
    return Written(means, text.splitlines()).bytes()
