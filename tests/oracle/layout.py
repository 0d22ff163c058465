"""The lines of a file's layout, and what a file means, from its bytes: a second reading of the definitions of edf_layout.

usage: python3 -m tests.oracle.layout FILE

Prints what `edfclaim layout FILE` has to print. Times are picoseconds.
"""

import collections
import re
import sys
import typing

from tests.reading import rules

# the orders, by their lines
ONE_BY_ONE = b"annotations one in each data record"
BY_TIME = b"annotations by time"

PLAIN_TIME = re.compile(rb"(?:0|[1-9][0-9]*)(?:\.[0-9]*[1-9])?")


def is_plain_number(text):
    """Whether a number of a header is spelled plainly."""
    return text != b"-0" and bool(PLAIN_TIME.fullmatch(text.removeprefix(b"-")))


def is_plain_onset(text):
    """Whether an onset is spelled plainly, with its sign."""
    return text != b"-0" and bool(PLAIN_TIME.fullmatch(text[1:]))


def plain_time(number):
    """So many picoseconds in seconds, spelled plainly."""
    whole, rest = divmod(number, 10**12)
    return b"%d.%s" % (whole, (b"%012d" % rest).rstrip(b"0")) if rest else b"%d" % whole


# ---- a header


def fixed_text(file, name):
    """The text of a field of the fixed part."""
    at, width = next((at, width) for other, at, width in rules.FIXED if other == name)
    return rules.text(file[at:at + width])


def signal_text(file, count, number, name):
    """The text of a field of a signal, of so many."""
    before, width = next((before, width) for other, before, width in rules.COLUMNS if other == name)
    at = 256 + before * count + width * number
    return rules.text(file[at:at + width])


def spaces_of(text):
    """How many spaces stand behind each subfield but the last one."""
    return [len(stretch) for stretch in re.findall(b" +", text)]


def quoted(label):
    return b'"' + re.sub(rb'["\\]', lambda found: b"\\x%02x" % found[0][0], label) + b'"'


def head_lines(file, count):
    """The lines of a header, but for its places that aren't plain."""
    yield b"kind " + file[192:197]
    for word, name in [("duration", "duration"), ("records", "records"), ("size", "header-bytes"), ("signals", "signals")]:
        yield word.encode() + b" " + fixed_text(file, name)
    for name, least in (("patient", 4), ("recording", 5)):
        spaces = spaces_of(fixed_text(file, name))
        yield b"%s added %d" % (name.encode(), len(spaces) + 1 - least)
        yield b"%s spaces" % name.encode() + b"".join(b" %d" % one for one in spaces)
    for number in range(count):
        texts = [signal_text(file, count, number, name) for name in (
            "samples", "physical-minimum", "physical-maximum", "digital-minimum", "digital-maximum", "label")]
        yield b"signal %d samples %s physical %s %s digital %s %s label %s" % (number, *texts[:5], quoted(texts[5]))


def odd_places(file, count):
    """What isn't plain in a header, a line each."""
    for name, least in (("patient", 4), ("recording", 5)):
        text = fixed_text(file, name)
        for number, spaces in enumerate(spaces_of(text), 1):
            if spaces > 1:
                yield b"header field %s has %d spaces behind subfield %d" % (name.encode(), spaces, number)
        if text.split()[least:].count(b"X") > 1:
            yield b"header field %s has more than one additional subfield X" % name.encode()
    for name in ("header-bytes", "records", "duration", "signals"):
        text = fixed_text(file, name)
        if not is_plain_number(text):
            yield b"header field %s spells %s" % (name.encode(), text)
    for number in range(count):
        for name in ("physical-minimum", "physical-maximum", "digital-minimum", "digital-maximum", "samples"):
            text = signal_text(file, count, number, name)
            if not is_plain_number(text):
                yield b"signal %d field %s spells %s" % (number, name.encode(), text)


# ---- data records


class Tal(typing.NamedTuple):
    """A TAL: the texts that spell its onset and its duration, or no duration; its texts."""

    onset: bytes
    duration: bytes | None
    texts: tuple

    def bytes(self):
        span = b"" if self.duration is None else b"\x15" + self.duration
        return self.onset + span + b"\x14" + b"".join(text + b"\x14" for text in self.texts) + b"\0"

    def times(self):
        """Its onset, and its duration or None."""
        return rules.onset(self.onset), None if self.duration is None else rules.span(self.duration)


def tals_of(lane):
    """The TALs of a lane that conforms."""
    found = []
    for piece in lane.rstrip(b"\0").split(b"\0") if lane.strip(b"\0") else []:
        head, *texts = piece[:-1].split(b"\x14")
        onset, has_duration, duration = head.partition(b"\x15")
        found.append(Tal(onset, duration if has_duration else None, tuple(texts)))
    return found


def notes_of(tal, keeps_time):
    """The annotations of a TAL."""
    return [(*tal.times(), text) for text in tal.texts[keeps_time:]]


def rank(note):
    """What annotations are put in order by: the onset, the duration, where none comes first, and the text."""
    onset, duration, text = note
    return onset, -1 if duration is None else duration, text


def plain_tal(onset, duration, text):
    """The TAL of one annotation, spelled plainly."""
    sign = b"-" if onset < 0 else b"+"
    return Tal(sign + plain_time(abs(onset)), None if duration is None else plain_time(duration), (text,))


def records_of(file, signals, count):
    """Of each data record the TALs of each annotation lane."""
    at, found = 256 * (len(signals) + 1), []
    for _ in range(count):
        lanes = []
        for one in signals:
            if one["label"] == rules.ANNOTATIONS:
                lanes.append(tals_of(file[at:at + 2 * one["samples"]]))
            at += 2 * one["samples"]
        found.append(lanes)
    return found


def all_notes(records):
    """The annotations of all data records."""
    return [note for lanes in records for j, lane in enumerate(lanes) for k, tal in enumerate(lane)
            for note in notes_of(tal, j == k == 0)]


# ---- plain orders


def record_for(order, number, onset, starts):
    """The data record for annotation so and so in order."""
    if order == ONE_BY_ONE:
        return number % len(starts)
    return max(sum(start <= onset for start in starts) - 1, 0)


def plain_lanes(order, notes, sizes, starts):
    """The TALs of the lanes of each data record in this order, of the annotations in order; and those without room."""
    lanes = [[] for _ in starts for _ in sizes]
    free = [size for _ in starts for size in sizes]
    left = []

    def put(at, tal):
        lanes[at].append(tal)
        free[at] -= len(tal.bytes())

    for number, start in enumerate(starts):
        put(number * len(sizes), plain_tal(start, None, b""))
    for number, note in enumerate(notes):
        tal, first = plain_tal(*note), record_for(order, number, note[0], starts) * len(sizes)
        places = [*range(first, len(lanes)), *range(first)]
        at = next((at for at in places if len(tal.bytes()) <= free[at]), None)
        if at is None:
            left.append(note)
        else:
            put(at, tal)
    width = len(sizes)
    return [lanes[number * width:(number + 1) * width] for number in range(len(starts))], left


class Lanes:
    """The annotation lanes of a file."""

    def __init__(self, file, said, signals):
        self.starts = [start for start, _ in rules.records(file, said, signals)]
        self.sizes = [2 * one["samples"] for one in signals if one["label"] == rules.ANNOTATIONS]
        self.records = records_of(file, signals, len(self.starts))
        self.ordered = sorted(all_notes(self.records), key=rank)
        self.places = {}
        for place, note in enumerate(self.ordered):
            self.places.setdefault(note, place)

    def content(self, tal, keeps_time):
        """What a TAL says."""
        onset, duration = tal.times()
        lasting = b"none" if duration is None else b"%d ps" % duration
        places = b"".join(b" %d" % self.places[note] for note in notes_of(tal, keeps_time))
        if keeps_time:
            return b"time lasting " + lasting + b" annotations" + places
        return b"annotations" + places if tal.texts else b"no text at %d ps duration %s" % (onset, lasting)

    def lines(self, lane, is_first):
        """The lines of the TALs of a lane, which is the first one of its data record or isn't."""
        found = []
        for number, tal in enumerate(lane):
            onset = b"plain" if is_plain_onset(tal.onset) else tal.onset
            is_plain = tal.duration is None or PLAIN_TIME.fullmatch(tal.duration)
            duration = b"plain" if is_plain else tal.duration
            said = self.content(tal, is_first and number == 0)
            found.append(b"  onset %s duration %s %s" % (onset, duration, said))
        return found

    def odd(self, order):
        """The lines of each lane that this order has otherwise."""
        plain, found = plain_lanes(order, self.ordered, self.sizes, self.starts)[0], []
        for k, lanes in enumerate(self.records):
            for j, lane in enumerate(lanes):
                lines = self.lines(lane, j == 0)
                if lines != self.lines(plain[k][j], j == 0):
                    found.append([b"data record %d annotation signal %d" % (k, j), *lines])
        return found


def layout(file):
    """The status and the lines of a file."""
    try:
        said = rules.fixed_part(file)
        signals = rules.signals(file, said["signals"])
        lanes = Lanes(file, said, signals)
    except rules.Refused as fault:
        return 1, [b"FAULT " + str(fault).encode()]
    order, odd = ONE_BY_ONE, lanes.odd(ONE_BY_ONE)
    others = lanes.odd(BY_TIME)
    if len(others) < len(odd):
        order, odd = BY_TIME, others
    places = [b"not plain: " + place for place in odd_places(file, len(signals))]
    count = len(odd) + len(places)
    last = b"NOT PLAIN %d" % count if count else b"PLAIN"
    lines = [*head_lines(file, len(signals)), order, *(line for lane in odd for line in lane), *places, last]
    return int(count > 0), lines


def printed(file):
    """The status of `layout`, and what it prints."""
    status, lines = layout(file)
    return status, b"".join(line + b"\n" for line in lines)


# ---- what a file means


def texts_of(one):
    return tuple(one[name] for name in ("label", "transducer", "dimension", "prefilter", "reserved"))


def meaning(file):
    """What a file that conforms says in its header; its samples, each with its channel, its instant as a fraction and its
    value; and its annotations."""
    said = rules.fixed_part(file)
    signals = rules.signals(file, said["signals"])
    channels, keepers = set(), []
    for one in signals:
        if one["label"] == rules.ANNOTATIONS:
            keepers.append(texts_of(one))
        else:
            channels.add(texts_of(one))
    head = [said[name] for name in ("patient", "recording", "startdate", "starttime")] + [rules.text(said["reserved"][5:])]
    samples, notes = {}, collections.Counter()
    for number, (start, found) in enumerate(rules.records(file, said, signals)):
        notes.update(found)
        for one, instant, value in rules.values(file, said, signals, number, start):
            samples[one["label"], rules.fractions.Fraction(instant, one["samples"])] = value
    return head, channels, keepers, samples, notes


if __name__ == "__main__":
    with open(sys.argv[1], "rb") as given:
        ended, text = printed(given.read())
    sys.stdout.buffer.write(text)
    sys.exit(ended)
