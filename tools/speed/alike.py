#!/usr/bin/env python3
"""Compares what two built programs answer on random files, byte for byte.

usage: tools/speed/alike.py OLD NEW [COUNT [SEED]]

It makes COUNT files (20,000 if nothing is said), two by two: an original and an export, with a claim of format 1. Each
of the two programs runs `conform`, `show` and `notes` on each file and `check` on each pair, and of each run the
standard output, the standard error and the status are compared. The nights and the claims are those of
tests/oracle/verdict_cases.py; how TALs are laid into annotation lanes, and the faults, are made here. No startdate is
after 2084. SEED is a number, 1 if nothing is said; the same number makes the same files.

A shape is what the files of a pair are like (SHAPES): most stand on both sides of a border, such as annotation lanes
of 65,536 bytes in a data record, or 1,024 bytes 20 in them. In half of the pairs a fault is planted in one of the files
or in both; of the others most exports are what the claim says, and some have one difference.

Where the answers differ it prints the command lines and what they answer from a little before the first byte that
differs, and keeps the files in a folder that it names. It does so for ten pairs at the most, and goes on counting. Then
it prints what NEW answered: how many files of each shape conform and how many pairs are a Yes, how many files have a
fault of each cause, how many pairs each kind of line, and how many runs ended with each status. The last line is 'N runs
alike, M differ', and the status 1 where there is any that differs.
"""

import collections
import concurrent.futures
import dataclasses
import datetime
import functools
import itertools
import os
import pathlib
import subprocess
import sys
import tempfile

sys.dont_write_bytecode = True
sys.path.insert(0, str(pathlib.Path(__file__).resolve().parent.parent.parent))

from tests import edf  # noqa: E402
from tests.cases import first_faults  # noqa: E402
from tests.edf import field, put, signal  # noqa: E402
from tests.oracle import verdict_cases  # noqa: E402
from tests.oracle.draft_cases import only_claimed  # noqa: E402
from tests.oracle.verdict_cases import as_claimed, choose, duration_field, often, one_of, stretches  # noqa: E402
from tests.reading.rules import ANNOTATIONS, SUBFIELDS  # noqa: E402

WORKERS = 3
MOST_SHOWN = 10
PS = 10**12

# The bytes of samples, of which each channel takes its own.
VALUES = edf.values([n * 7919 % 60_000 - 30_000 for n in range(70_000)])

# Short texts, texts with bytes that aren't printed as they stand, and texts around the 32 bytes that are looked at together.
TEXTS = verdict_cases.TEXTS + [
    b'"', b'""""""""', b'a"', b'"a', b"\\", b"\t", b"\r\n", b"a\nb", b"\x7f", b" ", b"Sleep stage W", b"x" * 31, b"x" * 32,
    b"x" * 33, b"x" * 31 + b'"', b"y" * 63 + b"\\", b"z" * 64 + b"\t", "\u6f22\u5b57".encode(), "\U0001f600".encode(),
    "\u2028".encode(), "\u0080".encode(), ("\u00e9" * 16).encode(), b"z" * 300, b'q"' * 40,
]

# What isn't an onset, a duration or a text.
BAD_ONSETS = [
    b"", b"+", b"-", b"0", b"1.5", b"+1.", b"+.5", b"++1", b"+1e3", b"+ 1", b"+1,5", b"+1234567890", b"+0.1234567890123",
    b"+1.5.5", b"+1-", b"+\xd9\xa1", b"+00000000000000000000x", b"x", b"\xff",
]
BAD_DURATIONS = [b"", b"+1", b"-1", b".5", b"1.", b"1 ", b"1e3", b"1\x152", b"\x15", b"1234567890", b"0.1234567890123", b"x"]
BAD_TEXTS = [
    b"\x01", b"a\x02b", b"\x1f", b"a\x15", b"\x151\x15", b"\x0b", b"x" * 40 + b"\x0c", b"\xff", b"\xc3", b"a\xe2\x82",
    b"\xed\xa0\x80", b"\xc0\xaf", b"\xf4\x90\x80\x80", b"\x80", b"\xff\x01", b"x" * 40 + b"\xe9",
]

# Texts of header fields that are faults, or other texts of the same meaning, or another file's.
HEAD_TEXTS = [
    (None, "patient", "X f X X"), (None, "patient", "X F 1951 X"), (None, "patient", "X F 29-FEB-1951 X"),
    (None, "patient", "X F X"), (None, "patient", "X  F X X"), (None, "recording", "Startdate 2018 X X X"),
    (None, "recording", "Started X X X X"), (None, "recording", "Startdate X X"),
    (None, "recording", "Startdate X X X X X X"), (None, "recording", "Startdate 29-FEB-2002 X X X"),
    (None, "startdate", "29.02.02"), (None, "starttime", "24.00.00"), (None, "header-bytes", "+768"),
    (None, "reserved", "EDF+C a"), (None, "reserved", "EDF+D"), (None, "reserved", "EDF+C"), (None, "reserved", "EDF"),
    (None, "records", "0"), (None, "records", "-1"), (None, "records", "2"), (None, "records", "1"),
    (None, "duration", "1.0"), (None, "duration", "0.5"), (None, "duration", "1e0"), (None, "signals", "3"),
    (0, "label", "EDF Annotations"), (0, "label", "EDF Annotation"), (1, "label", "Flow"), (0, "transducer", "a"),
    (1, "dimension", "mV"), (0, "physical-minimum", "+1"), (1, "physical-maximum", "1.0"), (0, "physical-maximum", "2"),
    (0, "digital-minimum", "-32769"), (1, "digital-maximum", "0"), (0, "prefilter", "a"), (1, "prefilter", "a"),
    (0, "samples", "1"), (1, "samples", "2"), (0, "samples", "+4"), (1, "samples", "99999999"), (0, "reserved", "a"),
]

# The faults of headers that tests/cases has, but for those of a startdate without a year.
HEAD_FAULTS = [edits for edits, _, _ in first_faults.faults() if not any("y" in text for _, text in edits)]


@dataclasses.dataclass
class Shape:
    """What the files of a pair are like: how often there is one, by weight; how many steps a night has, and how many
    annotation signals a file, each number as often as it stands; between which numbers a night's annotations are; how many
    bytes a lane has at the least. Then what is aimed at, each by its middle and the two ends: how many bytes the lanes of a
    data record have together, how many the data record has, how many bytes 20 are in these lanes. Last how many samples
    the first channel has in a step."""
    name: str
    weight: int
    steps: tuple = (1, 2, 4, 6, 12)
    signals: tuple = (1, 1, 1, 2, 3)
    notes: tuple = ((0, 0), (0, 3), (0, 12))
    least: tuple = tuple(range(8, 42, 2))
    lanes: tuple | None = None
    record: tuple | None = None
    marks: tuple | None = None
    rate: int | None = None


SHAPES = [
    Shape("small data records", 40),
    Shape("many data records", 8, steps=(50, 100, 200, 400), notes=((0, 0), (0, 30)), least=(8, 16, 24, 30, 34, 40)),
    Shape("lanes around 1,024 bytes", 8, steps=(1, 2, 3), notes=((0, 0), (0, 12), (0, 70)), lanes=(1_024, 990, 1_060)),
    Shape("data records around 1,024 bytes", 5, steps=(1, 2, 3), rate=460, record=(1_024, 990, 1_060)),
    Shape("some hundred bytes 20", 10, steps=(1, 2, 3), notes=((40, 130), (80, 280)), marks=(256, 100, 300)),
    Shape("1,024 bytes 20", 10, steps=(1, 1, 2), notes=((440, 505), (900, 1_010), (500, 1_000)), marks=(1_024, 900, 1_200)),
    Shape("lanes around 65,536 bytes", 8, steps=(1, 1, 2), lanes=(65_536, 60_000, 70_000),
          notes=((0, 0), (0, 9), (100, 500), (900, 1_200), (2_000, 4_000), (10_000, 20_000))),
    Shape("data records around 65,536 bytes", 6, steps=(1, 1, 2), rate=32_600, record=(65_536, 65_300, 66_500)),
    Shape("up to 200 annotation signals", 5, steps=(1, 2, 3), signals=(10, 64, 100, 199, 200), least=(2, 8, 8, 10, 12, 16),
          notes=((0, 0), (0, 20), (150, 250))),
]


def around(aim):
    """An even number: near the middle of what is aimed at, or between its ends."""
    middle, low, high = aim
    number = choose.randint(middle - 6, middle + 7) if often(0.6) else choose.randint(low, high)
    return number - number % 2


# ---- TALs


def spelled(number):
    """A number with zeros that don't count, maybe."""
    if often(0.05):
        number += b"000" if b"." in number else one_of(b".0", b".000000000000000")
    return b"0" * one_of(1, 2, 9, 20) + number if often(0.05) else number


def tal(time, span, texts):
    """A TAL with these texts."""
    text = edf.onset(time).encode()
    begin = text[:1] + spelled(text[1:])
    duration = None if span is None else spelled(edf.seconds(span).encode()).decode()
    return edf.tal(begin.decode(), *texts, duration=duration)


def tals_of(notes, joins):
    """TALs with these annotations; those of one time and duration that stand together are in one TAL, so often."""
    found = []
    for (time, span), group in itertools.groupby(notes, key=lambda note: note[:2]):
        texts = [text for _, _, text in group]
        count = one_of(2, 3, len(texts), len(texts)) if often(joins) else 1
        found += [tal(time, span, texts[at:at + count]) for at in range(0, len(texts), count)]
    return found


def record_tals(time, notes, joins):
    """The TALs of a data record that starts at this time: the one that keeps the time, maybe with a duration or with
    some of the annotations, then the others."""
    span, texts = one_of(None, None, None, 0), [b""]
    at_start = [note for note in notes if note[0] == time] if often(0.4) else []
    if at_start:
        span = at_start[0][1]
        texts += [text for _, other, text in at_start if other == span]
        notes = [note for note in notes if note[:2] != (time, span)]
    return [tal(time, span, texts)] + tals_of(notes, joins)


def fill(tals, aim):
    """Puts TALs without texts among the others, till they have as many bytes 20 as is aimed at."""
    wanted, _, _ = aim
    count = choose.randint(wanted - 2, wanted + 3) if often(0.7) else choose.randint(*aim[1:])
    for _ in range(count - sum(one.count(b"\x14") for one in tals)):
        tals.insert(choose.randint(1, len(tals)), one_of(b"+0\x14\0", b"-1\x152\x14\0"))


def in_lanes(tals, count):
    """The TALs of a data record in so many lanes."""
    lanes = [[] for _ in range(count)]
    lanes[0].append(tals[0])
    place = one_of([0], [count - 1], range(count))
    for one in tals[1:]:
        lanes[choose.choice(place)].append(one)
    return lanes


def lane_sizes(shape, records, samples):
    """How many bytes each lane has, where its data record has so many bytes of samples: in each the TALs fit, and there
    are as many together as the shape aims at, where the TALs leave that free."""
    sizes = []
    for lanes in zip(*records):
        needed = max(sum(map(len, tals)) for tals in lanes)
        sizes.append(max(needed + needed % 2, one_of(*shape.least)) + one_of(0, 0, 0, 2, 32))
    room = 0
    if shape.lanes:
        room = around(shape.lanes) - sum(sizes)
    elif shape.record:
        room = around(shape.record) - sum(sizes) - samples
    if room > 0:
        sizes[choose.randrange(len(sizes))] += room
    return sizes


# ---- files


@dataclasses.dataclass
class Laid:
    """A file before its bytes are put together: its header; of each signal, in their order, whether it is an annotation
    signal; for each data record the samples of each channel, and the TALs in each annotation lane; and how many bytes
    these lanes have."""
    head: bytearray
    are_lanes: list
    samples: list
    tals: list
    sizes: list

    def whole(self):
        """The bytes of the file."""
        parts = [bytes(self.head)]
        for samples, lanes in zip(self.samples, self.tals):
            channels, filled = iter(samples), zip(lanes, self.sizes)
            for is_lane in self.are_lanes:
                if is_lane:
                    tals, size = next(filled)
                    parts.append(edf.lane(size, b"".join(tals)[:size]))
                else:
                    parts.append(next(channels))
        return b"".join(parts)


class Night(verdict_cases.Night):
    """A night of a shape."""

    def __init__(self, shape):
        super().__init__(shape.steps)
        self.shape = shape
        self.begin = verdict_cases.STARTS[0]
        if shape.rate:
            self.rates[self.labels[0]] = shape.rate
        self.notes = self.some_notes(choose.randint(*one_of(*shape.notes)))
        self.joins = one_of(0, 0.5, 1)

    def some_notes(self, count):
        """So many annotations, maybe with several in a row at one time."""
        ends = [self.instant(step) for step in range(self.steps + 1)]
        times = [*ends, *ends, ends[-1] // 2, 1, ends[-1] + 1, -PS // 2, 30 * PS + 1]
        spans, texts = [None, None, 0, PS, 30 * PS, 1], one_of(TEXTS, TEXTS, [b""], [b"Apnea", b""], [b"12345"])
        run = one_of(1, 1, 5, 20, count + 1)
        found = []
        while len(found) < count:
            time, span = choose.choice(times), choose.choice(spans)
            found += [(time, span, choose.choice(texts)) for _ in range(min(run, count - len(found)))]
        return found

    def length_of(self, parts):
        """How many steps a data record has that fits into all these parts."""
        lengths = [length for length in range(1, 13) if all((last - first) % length == 0 for first, last in parts)]
        lengths = [length for length in lengths if duration_field(length * self.step)]
        return lengths[0] if often(0.5) else choose.choice(lengths)

    def bytes_of_samples(self, label, first, last):
        """The bytes of a channel's samples from a step on up to another."""
        at, rate = 100 * verdict_cases.LABELS.index(label), self.rates[label]
        return VALUES[2 * (at + rate * first):2 * (at + rate * last)]

    def tals_in(self, places, second, notes, count):
        """For each data record, by the step at which it begins, the TALs in each of so many lanes. All annotations are
        in one of the data records, or anywhere."""
        homes = one_of([choose.randrange(len(places))], range(len(places)))
        by_record = [[] for _ in places]
        for time, span, text in notes:
            by_record[choose.choice(homes)].append((time - second * PS, span, text))
        records = [record_tals(self.instant(at) - second * PS, own, self.joins) for at, own in zip(places, by_record)]
        if self.shape.marks:
            fill(records[homes[0]], self.shape.marks)
        return [in_lanes(tals, count) for tals in records]

    def laid(self, parts, labels, said, notes, shift=0):
        """The file of these channels for these parts, with other lanes and other data records each time."""
        length = self.length_of(parts)
        places = [at for first, last in parts for at in range(first, last, length)]
        second = self.instant(places[0]) // PS
        records = self.tals_in(places, second, notes, one_of(*self.shape.signals))
        sizes = lane_sizes(self.shape, records, 2 * length * sum(self.rates[label] for label in labels))
        order = [*labels, *(None for _ in sizes)]
        choose.shuffle(order)
        left = iter(sizes)
        signals = [(ANNOTATIONS, next(left) // 2) if label is None else (label, self.rates[label] * length) for label in order]
        day = self.begin + datetime.timedelta(seconds=second + shift)
        kind = b"EDF+C" if len(parts) == 1 and often(0.8) else b"EDF+D"
        head = verdict_cases.header(signals, len(places), duration_field(length * self.step), said, day, kind, 0)
        channels = [label for label in order if label is not None]
        samples = [[self.bytes_of_samples(label, at, at + length) for label in channels] for at in places]
        return Laid(bytearray(head), [label is None for label in order], samples, records, sizes)


# ---- faults and differences


def replace_tal(file, change):
    """Puts another TAL in the place of one of them, often of the last one in its lane."""
    lanes = [lane for record in file.tals for lane in record if lane]
    if lanes:
        lane = choose.choice(lanes)
        at = choose.choice([choose.randrange(len(lane)), -1])
        lane[at] = change(lane[at])


def bad_onset(file):
    replace_tal(file, lambda tal: one_of(*BAD_ONSETS) + tal[tal.find(b"\x14"):])


def bad_duration(file):
    def change(tal):
        head, mark, rest = tal.partition(b"\x14")
        return head.partition(b"\x15")[0] + b"\x15" + one_of(*BAD_DURATIONS) + mark + rest

    replace_tal(file, change)


def bad_text(file):
    def change(tal):
        texts = tal[:-1].split(b"\x14")
        texts.insert(choose.randrange(1, len(texts)), one_of(*BAD_TEXTS))
        return b"\x14".join(texts) + b"\0"

    replace_tal(file, change)


def no_end(file):
    """A TAL that doesn't end with the bytes 20 and 0."""
    replace_tal(file, lambda tal: one_of(
        tal[:-2] + b"\0", tal[:-2] + b"x\0", tal[:-1] + b"x\0", tal.replace(b"\x14", b""), b"+0\0", tal[:-1] + b"x" * 70_000,
    ))


def not_filled(file):
    """Zeros before a TAL, or a byte behind the zeros of a lane."""
    record = choose.choice(file.tals)
    number = choose.randrange(len(file.sizes))
    room = file.sizes[number] - sum(map(len, record[number]))
    if record[number] and (room < 2 or often(0.5)):
        record[number].insert(choose.randrange(len(record[number])), b"\0" * one_of(1, 2, 31, 32, 33))
    else:
        record[number].append(b"\0" * choose.randrange(max(room, 1)) + one_of(b"\x01", b"\x14", b"+", b"\xff"))


def no_time(file):
    """A data record whose first TAL doesn't keep the time."""
    lane = choose.choice(file.tals)[0]
    if lane:
        head = lane[0].partition(b"\x14")[0]
        lane[:1] = one_of([], [head + b"\x14\0"], [head + b"\x14x\x14\0"], [head + b"\x14x\x14\x14\0"], [b"+0\x14\0", lane[0]])


def no_lane(file):
    choose.choice(file.tals)[0].clear()


def other_start(file):
    """A data record that starts somewhere else."""
    lane = choose.choice(file.tals)[0]
    if lane:
        heads = [b"+0", b"-0", b"+1", b"-0.000000000001", b"+0.999999999999", b"+0.000000000001", b"+999999999", b"+3"]
        lane[0] = choose.choice(heads) + lane[0][lane[0].find(b"\x14"):]


def too_many(file):
    """About 1,000,000 annotations, in a file of few data records."""
    if len(file.tals) > 2:
        return
    number = [at for at, is_lane in enumerate(file.are_lanes) if is_lane][-1]
    file.tals[-1][-1].append(b"+0" + b"\x14" * choose.randint(999_985, 1_000_005) + b"\0")
    file.sizes[-1] = 1_100_000
    put(file.head, len(file.are_lanes), signal(number, "samples"), "550000")


def bad_byte(file):
    """A byte of the header that isn't printed."""
    file.head[choose.randrange(len(file.head))] = one_of(0, 9, 10, 20, 31, 127, 128, 181, 255)


def other_field(file):
    """Another text in a field of the header, or several."""
    number, name, text = choose.choice(HEAD_TEXTS)
    edits = [((number, name), text)] if often(0.5) else choose.choice(HEAD_FAULTS)
    signals = len(file.are_lanes)
    for (number, name), text in edits:
        put(file.head, signals, field(name) if number is None else signal(number % signals, name), text)


LANE_FAULTS = [bad_onset, bad_duration, bad_text, bad_text, no_end, not_filled, no_time, no_lane, other_start, other_start]


def with_fault(file):
    """The bytes of a file with a fault, or with two, or with a difference that is none."""
    change = choose.randrange(20)
    if change < 11:
        choose.choice(LANE_FAULTS)(file)
    if change in (10, 11, 12, 13):
        other_field(file)
    if change == 14:
        bad_byte(file)
    if change == 15 and often(0.1):
        too_many(file)
    whole = file.whole()
    if change == 16:
        return whole[:choose.choice([choose.randrange(len(whole)), len(whole) - 1, len(file.head)])]
    if change == 17:
        return whole + one_of(b"\0", b"\0\0", bytes(40_000))
    return verdict_cases.broken(whole) if change > 17 else whole


def with_difference(notes):
    """One annotation fewer, more, or other."""
    notes = list(notes)
    at = choose.randrange(len(notes) + 1)
    if notes and often(0.7):
        time, span, text = notes.pop(at - 1)
        notes[at - 1:at - 1] = one_of(
            [], [(time + 1, span, text)], [(time, 0 if span is None else None, text)], [(time, span, text + b"x")],
            [(time, span, text)] * 2,
        )
    else:
        notes.insert(at, (one_of(0, PS), one_of(None, 0), one_of(*TEXTS)))
    return notes


# ---- pairs


@dataclasses.dataclass
class Pair:
    """An original, an export and a claim, of a shape."""
    shape: str
    original: bytes
    export: bytes
    claim: bytes


def exported(night, is_honest):
    """An export of a night, before its bytes are put together, and the text of its claim."""
    claimed = choose.sample(night.labels, choose.randint(1, len(night.labels)))
    parts = stretches(night.steps)
    keep = [(night.instant(first), night.instant(last)) for first, last in parts]
    anonymous = [name for name in SUBFIELDS if often(0.3)]
    shift = one_of(0, 0, 0, 86_400, -86_400, 1)
    remove = choose.sample(verdict_cases.TEXTS, one_of(0, 0, 1, 2))
    said = dict(night.said)
    for name in anonymous:
        said[name] = [b"X" for _ in said[name]] if isinstance(said[name], list) else b"X"
    notes = only_claimed(night.notes, keep, remove)
    labels, moved = claimed, shift
    if not is_honest:
        what = choose.randrange(5)
        labels = choose.sample(night.labels, choose.randint(1, len(night.labels))) if what == 0 else claimed
        said = as_claimed(night.said, anonymous) if what == 1 else said
        moved = shift + 1 if what == 2 else shift
        notes = with_difference(notes) if what > 2 else notes
    document = verdict_cases.document(1, claimed, keep, anonymous, shift, (remove, [], []))
    return night.laid(parts, labels, said, notes, moved), document


def changed_sample(export):
    """The export with a sample that has another value."""
    samples = choose.choice(export.samples)
    at = choose.randrange(len(samples))
    place = choose.randrange(len(samples[at]))
    samples[at] = samples[at][:place] + bytes([samples[at][place] ^ 1]) + samples[at][place + 1:]


def pair():
    """A pair of files and its claim."""
    shape = choose.choices(SHAPES, [shape.weight for shape in SHAPES])[0]
    night = Night(shape)
    original = night.laid([(0, night.steps)], night.labels, night.said, night.notes)
    has_faults = often(0.5)
    export, document = exported(night, has_faults or often(0.6))
    if not has_faults and often(0.1):
        changed_sample(export)
    where = one_of("original", "export", "export", "both") if has_faults else ""
    first = with_fault(original) if where in ("original", "both") else original.whole()
    second = with_fault(export) if where in ("export", "both") else export.whole()
    if often(0.15):
        # a file with itself
        second = first
        keep = [(0, 999_999_999 * PS)]
        document = verdict_cases.document(1, night.labels, keep, [], 0, ([], [], []))
    if often(0.01):
        document = document.replace(b"format = 1", one_of(b"format = 3", b"format = 1\nnote = 1", b"format = "))
    return Pair(shape.name, first, second, document)


# ---- runs


@dataclasses.dataclass
class Result:
    """What came of a pair: its shape; of each run the command, NEW's status and the line that it answered first; the
    runs that differ, with their words and both answers; and the pair, where there is one."""
    shape: str
    runs: list
    differ: list
    pair: Pair | None


def answer(program, words):
    """The status, the standard output and the standard error of a run."""
    # without close_fds a process is begun in a tenth of the time
    how = {"stdin": subprocess.DEVNULL, "stdout": subprocess.PIPE, "stderr": subprocess.PIPE, "close_fds": False}
    ran = subprocess.run([program, *words], **how)
    return ran.returncode, ran.stdout, ran.stderr


def write(folder, made):
    """Writes the files of a pair to a folder."""
    for name, content in (("original.edf", made.original), ("export.edf", made.export), ("claim.toml", made.claim)):
        pathlib.Path(folder, name).write_bytes(content)


def run_pair(programs, work, seed, number):
    """Makes a pair by its number, and runs both programs on it."""
    choose.seed(f"{seed} {number}")
    made = pair()
    runs, differ = [], []
    with tempfile.TemporaryDirectory(dir=work) as folder:
        write(folder, made)
        files = [os.path.join(folder, name) for name in ("original.edf", "export.edf", "claim.toml")]
        commands = [(command, path) for path in files[:2] for command in ("conform", "show", "notes")]
        for words in [*commands, ("check", *files)]:
            old, new = (answer(program, words) for program in programs)
            runs.append((words[0], new[0], new[1][:new[1].find(b"\n") + 1].decode("latin1")))
            if old != new:
                differ.append(([words[0], *map(os.path.basename, words[1:])], old, new))
    return Result(made.shape, runs, differ, made if differ else None)


def around_difference(old, new):
    """Two texts from a little before the first byte that differs."""
    at = max(0, len(os.path.commonprefix([old, new])) - 100)
    return [f"{'.. ' if at else ''}{text[at:at + 400]!r}{' ..' if len(text) > at + 400 else ''}" for text in (old, new)]


def show(programs, result, folder):
    """Keeps the files of a pair that differs, and prints the runs that do."""
    write(folder, result.pair)
    print(f"{folder}: {result.shape}")
    for words, old, new in result.differ:
        texts = list(zip(*(around_difference(old[at], new[at]) for at in (1, 2))))
        for program, status, (out, err) in zip(programs, (old[0], new[0]), texts):
            print(f"  {program} {' '.join(words)}: status {status}, {out}, on standard error {err}")
    print(flush=True)


# ---- what NEW answered


def table(counts):
    """Counts by name, the largest first."""
    return ", ".join(f"{name} {count:,}" for name, count in counts.most_common()) or "none"


class Tally:
    """What NEW answered, counted."""

    def __init__(self):
        self.shapes = collections.defaultdict(collections.Counter)
        self.causes, self.lines, self.statuses = collections.Counter(), collections.Counter(), collections.Counter()

    def add(self, result):
        """Counts the runs of a pair."""
        for command, status, line in result.runs:
            self.statuses[f"status {status}:"] += 1
            words = line.split()
            if command == "conform":
                self.shapes[result.shape]["conform" if words[:1] == ["CONFORMS"] else "faults"] += 1
                self.causes.update(words[1:2] if words[:1] == ["FAULT"] else [])
            if command == "check":
                kind = " ".join(words[:2]) if words[:1] == ["NO"] else words[0] if words else "refused"
                self.lines[f"{kind}:"] += 1
                self.shapes[result.shape]["YES" if kind == "YES" else "not YES"] += 1

    def print(self):
        """Prints all counts."""
        print("| shape | files that conform | others | pairs that are a Yes | others |")
        print("|---|---|---|---|---|")
        for shape in SHAPES:
            counts = self.shapes[shape.name]
            print(f"| {shape.name} | " + " | ".join(f"{counts[key]:,}" for key in ("conform", "faults", "YES", "not YES")) + " |")
        total = sum(self.shapes.values(), collections.Counter())
        print(f"\n{total['conform']:,} files conform, and {total['faults']:,} don't; {total['YES']:,} pairs are a Yes.")
        print(f"Faults by cause: {table(self.causes)}.")
        print(f"Checks by line: {table(self.lines)}.")
        print(f"Runs: {table(self.statuses)}.")


def compare(programs, count, seed):
    """Compares the programs on so many files; how many runs are alike and how many differ."""
    tally, alike, differ, shown = Tally(), 0, 0, 0
    shared = "/dev/shm" if os.access("/dev/shm", os.W_OK) else None
    with tempfile.TemporaryDirectory(dir=shared) as work, concurrent.futures.ProcessPoolExecutor(WORKERS) as pool:
        run = functools.partial(run_pair, programs, work, seed)
        for number, result in enumerate(pool.map(run, range((count + 1) // 2), chunksize=8)):
            tally.add(result)
            alike += len(result.runs) - len(result.differ)
            differ += len(result.differ)
            if result.differ and shown < MOST_SHOWN:
                shown += 1
                show(programs, result, tempfile.mkdtemp(prefix=f"alike-{seed}-{number}-"))
    tally.print()
    return alike, differ


def main(words):
    are_numbers = all(word.isdigit() for word in words[2:])
    if not 2 <= len(words) <= 4 or not are_numbers or not all(os.access(word, os.X_OK) for word in words[:2]):
        print(__doc__, file=sys.stderr)
        return 2
    programs = [os.path.abspath(word) for word in words[:2]]
    count, seed = [int(word) for word in words[2:]] + [20_000, 1][len(words) - 2:]
    alike, differ = compare(programs, count, seed)
    print(f"{alike:,} runs alike, {differ:,} differ")
    return 1 if differ else 0


if __name__ == "__main__":
    sys.exit(main(sys.argv[1:]))
