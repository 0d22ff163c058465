"""Looks whether what `explain` says of random wrong exports is so: numbers, and remedies.

usage: python3 -m tests.oracle.honesty PROGRAM [COUNT [SEED]]

It makes COUNT nights with a claim and an export that is wrong in one to three ways (2,000 where none is said; SEED is a
number, 1 if none is said, and the same number makes the same files): moved by another time, cut elsewhere, with other values,
with channels that stand still, that are lost, or that the claim misspells or leaves out, with annotations that are lost, added,
moved, said otherwise, or that begin at the end of an interval, with other texts and extremes of channels, with a name that is shown,
changed or hidden, and with free text; of some, a file is broken off. PROGRAM runs `check` and `explain` on each. Then what the
sentences state is recounted from how the files were made (made.py): which rules of the headers are broken, with the texts and
numbers of both files, and whether it is said that samples and annotations were compared all the same; by how much the export starts
elsewhere, where it starts and is claimed to; of each channel how many samples are missing, too many and changed, the first and the
last of them, when they stand by both clocks, in which data records, and their values; how many of how many are changed where nearly
all are; which annotations are missing and too many, and how many aren't listed; in which data record a file breaks off. And each
shift, list of channels and end of an interval that a sentence names is put into the claim, `check` is run again, and its line is
compared with what was said: one that is said to be better has to be, and one that isn't has not to be. Which ones are tried follows
from how the files were made, too: one that helps has to be named.

What disagrees is said, of twenty exports at the most. The last line counts the exports that passed and failed.
"""

import collections
import datetime
import os
import random
import re
import subprocess
import sys
import tempfile

from tests.edf import field, seconds
from tests.explain.sentences import filled, sentences
from tests.made import KINDS, PS, START, Claimed, Made, apart, notes_apart

choose = random.Random()
TEXTS = ["Apnea", "Lights off", "Arousal", "Position left", "Movement"]

DAY = 86_400
AT = r"at (\S+) s \((\S+ \S+) in the original, (\S+ \S+) in the export\)"
SPOT = re.compile(rf"^  (It|The first|The last) is {AT}(?:, data record (\d+) of the original)?"
                  r"(?:, data record (\d+) of the export)?(?:: (-?\d+) in the original, (-?\d+) in the export)?\.$")
COUNTS = {
    "missing": re.compile(r'^Channel "(.*)": (\d+) samples? that the claim keeps (?:is|are) missing in the export\.$'),
    "extra": re.compile(r'^Channel "(.*)": (\d+) samples? of the export (?:is one|are ones) that the claim doesn\'t keep'),
    "changed": re.compile(r'^Channel "(.*)": (\d+) samples? (?:has|have) another value in the export\.$'),
}
STARTS = re.compile(r"^The export starts (.*) (earlier|later) than claimed: its first samples are at (\S+ \S+), "
                    r"and by the claim they should be at (\S+ \S+)\.$")
WITH = re.compile(r"^With shift = (-?\d+) (?:the answer would be (YES .*)\. Export again|the first difference would be (NO .*)\.$)")
CHANNELS = re.compile(r'^With channels = \["(.*)"\] (?:the answer would be (YES .*)\. Export again|the first difference would be (NO .*)\.$)')
END = re.compile(r'^With to = "(\d+)\.0{11}1" in place of "(\d+)" (?:the answer would be (YES .*)\. Export again'
                 r"|the first difference would be (NO .*)\.$)")
TRIED = re.compile(r"^Other shifts were tried, and with none of them the first samples are as claimed: ([-0-9, ]*)\.")
CHANGES = "With shift", "With channels", "With to", "Other shifts"
TRIES = WITH, CHANNELS, END, TRIED
RECKONED = re.compile(r"What follows is worked out with shift = (-?\d+)")
NOTES = {
    "lacks": re.compile(r"^The export lacks (\d+) annotations? that the claim keeps:$"),
    "has": re.compile(r"^The export has (\d+) annotations? that the claim doesn't keep:$"),
}
ONE_WAY = re.compile(r"^All (\d+) annotations that differ (?:are only moved: the export has each of them with its text and its duration, "
                     r"(.*) (later|earlier) than the claim keeps it|(only lack their durations))")
LISTED = re.compile(rf'^  {AT}, (?:no duration|duration (\S+) s), text "(.*)"$')
MORE = re.compile(r"^  and (\d+) more$")
MOST_LISTED = 20
NEARLY_ALL = re.compile(r"^Nearly all samples have other values in each of the channels, (\d+) of the (\d+) that both files have at the same time: ")
LENGTH = re.compile(r"(\d+(?:\.\d+)?) (days?|hours?|minutes?|s)\b")

# The sentences on headers, and those on what is compared behind them.
SENTENCES = sentences()
OF_HEADS = [
    "UNKNOWN_CHANNEL", "MISSING_CHANNEL", "CHANNEL_NOWHERE", "EXTRA_CHANNEL", "TRANSDUCER", "PREFILTER", "CALIBRATION",
    "CALIBRATION_ORIGINAL", "CALIBRATION_EXPORT", "CALIBRATION_DIMENSION", "CALIBRATION_SCALE", "FREE_TEXT_OF_CHANNEL",
    "FREE_TEXT_OF_HEADER", "SUBFIELD_NOT_X", "SUBFIELD_CHANGED", "SUBFIELD_HIDDEN", "ALL_COMPARED", "NOTES_COMPARED",
    "THEY_ARE_AS_CLAIMED",
]
IS_OF_HEADS = re.compile("|".join(".*".join(re.escape(part) for part in re.split(r"\{\d\}", SENTENCES[name])) for name in OF_HEADS))
OF_CHANNELS = re.compile(r"^NO [345] ")
MOST_TRIES = 3
FAULT = re.compile(r"^The (original|export) can't be judged\. Its first fault is: (.*)\.$")
UNITS = {"day": DAY * PS, "hour": 3600 * PS, "minute": 60 * PS}


def clock(ps, moved=0):
    """A time after the start of the original as a sentence says it, moved by so many seconds."""
    whole, rest = divmod(ps, PS)
    day = START + datetime.timedelta(seconds=whole + moved)
    return f"{day:%Y-%m-%d %H:%M:%S}" + (seconds(rest)[1:] if rest else "")


def length(said):
    """A length of time in picoseconds, by its words."""
    return sum(round(float(number) * PS) if unit == "s" else int(number) * UNITS[unit.rstrip("s")]
               for number, unit in LENGTH.findall(said))


def in_order(notes):
    """Annotations in the order in which they are listed."""
    return sorted(notes, key=lambda note: (note[0], note[1] is not None, note[1] or 0, note[2].encode()))


def begins_behind(line, first):
    """Whether the first difference is behind the first sample that is kept, if it is one of samples."""
    return not line.startswith("NO 10 ") or rank(line)[1] > first


def rank(line):
    """How far a check came, by its line: a Yes is the farthest, then the number, and under the same number the instant."""
    if line.startswith("YES "):
        return 99, 0
    number = int(line.split()[1])
    at = re.search(r" at (-?\d+) ps", line)
    return number, int(at[1]) if at else 0


def tried_shifts(claim, later):
    """The shifts that are tried of an export that starts so much later than claimed: the one with which it would start as claimed, one
    that is whole days from the claimed one, none, and the claimed one turned."""
    days = (abs(later) + DAY * PS // 2) // (DAY * PS) * (1 if later > 0 else -1)
    fitting, found = [claim.shift + later // PS] if later % PS == 0 else [], []
    for number in [*fitting, claim.shift + days * DAY, 0, -claim.shift]:
        if number != claim.shift and number not in found and later:
            found.append(number)
    return found[:MOST_TRIES]


# ---- how the files are made


def night():
    """A night of some channels and annotations; some of its channels stand still for a while."""
    length = choose.randint(12, 60)
    labels = choose.sample(sorted(KINDS), choose.randint(1, len(KINDS)))
    channels = {}
    for label in labels:
        count = length * KINDS[label][1]
        channel = [choose.randint(-2000, 2000) for _ in range(count)]
        if choose.random() < 0.4:
            still = choose.randint(1, count)
            channel[:still] = [channel[0]] * still
        channels[label] = channel
    most = length // 2 if choose.random() < 0.1 else 5
    notes = [(choose.randrange(length * 4) * PS // 4, choose.choice([None, PS, 30 * PS]), choose.choice(TEXTS))
             for _ in range(choose.randint(0, most))]
    return Made([(0, length)], channels, notes, 0, choose.choice([0, 0, 0, PS // 2])), length


def intervals(length):
    ends = sorted(choose.sample(range(length + 1), choose.choice([2, 2, 4])))
    return list(zip(ends[::2], ends[1::2]))


def shift():
    return choose.choice([0, -DAY, -100 * DAY, DAY, 3600, -choose.randint(1, 10**6), 7 * DAY])


def honest(original, keep, moved):
    """What a claim keeps, moved; where the night starts inside a second, the intervals are of its data records."""
    kept = [note for note in original.notes if any(first * PS <= note[0] < last * PS for first, last in keep)]
    return original.but(stretches=keep, notes=kept, shift=moved)


def moved_otherwise(export, claim):
    other = [0, -claim.shift, claim.shift + choose.choice([-1, 1, 20, -20, 3600, -3600, DAY, -DAY, 7 * DAY])]
    export.shift = choose.choice(other)


def cut_otherwise(export, claim, length):
    number = choose.randrange(len(export.stretches))
    first, last = export.stretches[number]
    least = export.stretches[number - 1][1] + 1 if number else 0
    most = export.stretches[number + 1][0] - 1 if number + 1 < len(export.stretches) else length
    first = min(max(first + choose.choice([-3, -1, 0, 1, 2]), least), most - 1)
    last = max(min(last + choose.choice([-3, -1, 0, 1, 2]), most), first + 1)
    export.stretches[number] = first, last


def values_otherwise(export):
    label = choose.choice(sorted(export.channels))
    channel = export.channels[label]
    for _ in range(choose.choice([1, 1, 3, len(channel)])):
        channel[choose.randrange(len(channel))] = choose.randint(-2000, 2000)


def notes_otherwise(export):
    notes = list(export.notes)
    way = choose.randrange(5)
    if way == 4:
        notes = []
    elif way == 0 or not notes:
        notes.append((export.begin() * PS + choose.randrange(12) * PS // 4, None, choose.choice(TEXTS)))
    elif way == 1:
        notes.pop(choose.randrange(len(notes)))
    else:
        number = choose.randrange(len(notes))
        onset, duration, text = notes[number]
        notes[number] = (onset, duration, text + "s") if way == 2 else (onset + PS // 4, duration, text)
    export.notes = notes


def channels_otherwise(export, claim):
    way = choose.randrange(3)
    if way == 0 and len(export.channels) > 1:
        del export.channels[choose.choice(sorted(export.channels))]
    elif way == 1 and len(claim.labels) > 1:
        claim.labels.remove(choose.choice(claim.labels))
    else:
        number = choose.randrange(len(claim.labels))
        claim.labels[number] = claim.labels[number][:-1] + "q"


def texts_otherwise(export):
    """Another text or extreme of a channel, or free text of one."""
    label = choose.choice(sorted(export.channels))
    column, text = choose.choice([("transducer", "Cup"), ("prefilter", "None"), ("physical-maximum", "123.5"), ("dimension", "nV"),
                                  ("reserved", "Haagse")])
    export.texts[label, column] = text


def named_otherwise(export, name):
    """Another name of the patient."""
    export.edits.append((field("patient"), f"MCH-0234567 F 02-MAY-1951 {name}"))


def name_otherwise(export, claim):
    """A name that is another one, that is hidden where the claim doesn't hide it, or shown where it does."""
    way = choose.randrange(3)
    if way == 2:
        claim.anonymous = ["name"]
    else:
        named_otherwise(export, ["Haagse_Mary", "X"][way])


def words_in_header(export):
    export.free = " Haagse"


def lost_from(made):
    """How many bytes a file loses at its end that is broken off behind its header."""
    return choose.randint(1, made.records() * made.record_size())


def lost_bytes(made):
    """How many bytes a file loses at its end, mostly none."""
    return 0 if choose.random() < 0.97 else lost_from(made)


def note_at_end(original, export, claim):
    note = choose.choice(claim.keep)[1] * PS, None, choose.choice(TEXTS)
    for made in (original, export):
        made.notes = [*made.notes, note]


def case(counts=(1, 1, 2, 3)):
    """An original, an export that is wrong in so many ways as one of these numbers says, and the claim."""
    original, length = night()
    keep, moved = intervals(length), shift()
    claim = Claimed(sorted(original.channels), keep, moved, choose.sample(TEXTS, choose.choice([0, 0, 1])))
    if original.fraction:
        # data records begin inside a second, and the intervals, too, end there by whole seconds: all or a front is kept
        keep = [(0, length)]
        claim.keep = [(0, length + 1)]
    export = honest(original, keep, moved)
    export.notes = [note for note in export.notes if note[2] not in claim.remove]
    ways = [lambda: moved_otherwise(export, claim), lambda: cut_otherwise(export, claim, length), lambda: values_otherwise(export),
            lambda: notes_otherwise(export), lambda: channels_otherwise(export, claim), lambda: note_at_end(original, export, claim),
            lambda: texts_otherwise(export), lambda: name_otherwise(export, claim), lambda: words_in_header(export)]
    for way in choose.sample(ways, choose.choice(counts)):
        way()
    return original, export, claim


# ---- what is said, and what is so


class Said:
    """The sentences of an explanation, taken apart."""

    def __init__(self, text):
        self.lines = text.splitlines()
        self.counts, self.notes, self.named, self.starts, self.tried, self.reckoned = {}, {}, [], None, [], None
        self.channels, self.ends, self.one_way, self.is_one_way = [], [], None, False
        self.listed, self.nearly_all, self.faults = {}, None, {}
        # what is said in no known form, or twice
        self.odd = [line for line in self.lines if line.startswith(CHANGES) and not any(pattern.match(line) for pattern in TRIES)]
        self.heads = collections.Counter(line for line in self.lines if IS_OF_HEADS.fullmatch(line))
        for number, line in enumerate(self.lines):
            for kind, pattern in COUNTS.items():
                if found := pattern.match(line):
                    spots = [SPOT.match(spot) for spot in self.lines[number + 1:number + 3]]
                    self.odd += [line] if (found[1], kind) in self.counts else []
                    self.counts[found[1], kind] = int(found[2]), [spot for spot in spots if spot]
            for kind, pattern in NOTES.items():
                if found := pattern.match(line):
                    self.notes[kind] = int(found[1])
                    self.listed[kind] = self.listed_behind(number)
            if found := NEARLY_ALL.match(line):
                self.nearly_all = int(found[1]), int(found[2])
            if found := FAULT.match(line):
                self.faults[found[1]] = found[2]
            if found := ONE_WAY.match(line):
                self.notes, self.is_one_way = {"lacks": int(found[1]), "has": int(found[1])}, True
                self.one_way = length(found[2]) * (-1 if found[3] == "earlier" else 1) if found[2] else None
            if found := STARTS.match(line):
                self.starts = length(found[1]), found[2], found[3], found[4]
            if found := WITH.match(line):
                self.named.append((int(found[1]), found[2] or found[3]))
            if found := CHANNELS.match(line):
                self.channels.append((found[1].split('", "'), found[2] or found[3]))
            if found := END.match(line):
                self.ends.append((int(found[1]), int(found[2]), found[3] or found[4]))
            if found := TRIED.match(line):
                self.tried = [int(part) for part in found[1].split(", ")]
            if found := RECKONED.search(line):
                self.reckoned = int(found[1])

    def listed_behind(self, number):
        """The annotations that are listed behind a line, and how many aren't."""
        notes = []
        for line in self.lines[number + 1:]:
            if found := MORE.match(line):
                return notes, int(found[1])
            if found := LISTED.match(line):
                notes.append(found.groups())
            elif not line.startswith("    "):
                break
        return notes, 0

    def has_yes(self):
        return any(line.startswith("YES ") for _, line in self.named)


def common(original, export, claim):
    """The claimed labels that both files have."""
    return [label for label in claim.labels if label in original.channels and label in export.channels]


def begins_at(export, claim):
    """When the first data record of an export begins by the claim, in picoseconds after the second at which the original starts."""
    return (export.begin() + export.shift - claim.shift) * PS + export.fraction


def wrong_starts(said, original, export, claim):
    """What is wrong with where the export starts."""
    kept = [at for label in common(original, export, claim) for at in original.samples(label) if claim.keeps(at)]
    if not kept:
        return None
    claimed = clock(min(kept), claim.shift)
    exported = clock(export.begin() * PS + export.fraction, export.shift)
    later = begins_at(export, claim) - min(kept)
    want = (abs(later), "earlier" if later < 0 else "later", exported, claimed) if later else None
    return None if said.starts == want else f"it starts {want}; said: {said.starts}"


def wrong_spot(spot, which, want, shift):
    """What is wrong with a sample that is named: the first or the last one."""
    at, old, new, old_record, new_record = want
    numbers = [None if part is None else str(part) for part in (old_record, new_record)]
    shown = [None, None] if old is None or new is None else [str(old), str(new)]
    have = [which, seconds(at), clock(at), clock(at, shift), *numbers, *shown]
    return None if spot and list(spot.groups()) == have else f"it is {have}; said: {spot and spot.groups()}"


def wrong_nearly_all(said, counts):
    """What is wrong with how many samples are changed, of how many that both files have, by what these are of each channel."""
    changed, compared = (sum(column) for column in zip(*counts)) if counts else (0, 0)
    are = all(both and both * 99 <= other * 100 for other, both in counts) and compared > 20
    want = (changed, compared) if are else None
    return None if said.nearly_all == want else f"of samples that both files have {counts} are changed; said: {said.nearly_all}"


def wrong_head_lines(said, want):
    """What is wrong with the sentences on headers, of which these have to stand there, as often as here."""
    want = collections.Counter(want)
    return None if said.heads == want else f"of headers it lacks {want - said.heads}, and says {said.heads - want}"


def channel_lines(original, export, label):
    """What has to be said of a claimed channel that both files have."""
    def both(column):
        return original.text(label, column), export.text(label, column)

    for column, name in (("transducer", "TRANSDUCER"), ("prefilter", "PREFILTER")):
        old, new = both(column)
        if old != new:
            yield name, [f'"{label}"', f'"{old}"', f'"{new}"']
    (_, most), units = both("physical-maximum"), both("dimension")
    if most != original.text(label, "physical-maximum") or units[0] != units[1]:
        yield "CALIBRATION", [f'"{label}"']
        for made, name in ((original, "CALIBRATION_ORIGINAL"), (export, "CALIBRATION_EXPORT")):
            low, high, unit, least, highest = (made.text(label, column) for column in (
                "physical-minimum", "physical-maximum", "dimension", "digital-minimum", "digital-maximum"))
            yield name, [low, high, f'"{unit}"', least, highest]
        yield ("CALIBRATION_SCALE" if units[0] == units[1] else "CALIBRATION_DIMENSION"), []


def head_lines(original, export, claim):
    """What has to be said of the headers."""
    for label in claim.labels:
        if label not in original.channels:
            yield ("UNKNOWN_CHANNEL" if label in export.channels else "CHANNEL_NOWHERE"), [f'"{label}"']
        elif label not in export.channels:
            yield "MISSING_CHANNEL", [f'"{label}"']
        else:
            yield from channel_lines(original, export, label)
        if label in export.channels and (text := export.text(label, "reserved")):
            yield "FREE_TEXT_OF_CHANNEL", [f'"{label}"', f'"{text}"']
    for label in export.channels:
        if label not in claim.labels:
            yield "EXTRA_CHANNEL", [f'"{label}"']
    if export.free:
        yield "FREE_TEXT_OF_HEADER", []
    name = ["name", "the patient's name"]
    said = export.edits[-1][1].split()[-1] if export.edits else "Haagse_Harry"
    if "name" in claim.anonymous and said != "X":
        yield "SUBFIELD_NOT_X", name
    elif "name" not in claim.anonymous and said != "Haagse_Harry":
        yield ("SUBFIELD_HIDDEN" if said == "X" else "SUBFIELD_CHANGED"), name


def lines_of(named):
    """Sentences with what stands in their open places."""
    return [filled(SENTENCES[name], pieces) for name, pieces in named]


def wrong_heads(said, original, export, claim):
    """What is wrong with what is said of the headers, and of what was compared all the same."""
    want = list(head_lines(original, export, claim))
    if want:
        want.append(("ALL_COMPARED" if common(original, export, claim) else "NOTES_COMPARED", []))
        if not said.counts and not said.notes:
            want.append(("THEY_ARE_AS_CLAIMED", []))
    return wrong_head_lines(said, lines_of(want))


def wrong_samples(said, original, export, claim, shift):
    """What is wrong with the samples that are counted, and the first and the last of them."""
    counts = []
    for label in common(original, export, claim):
        found_apart = apart(original, export, claim, label, shift)
        kept = [at for at in original.samples(label) if claim.keeps(at)]
        counts.append((len(found_apart["changed"]), len(kept) - len(found_apart["missing"])))
        for kind, found in found_apart.items():
            count, spots = said.counts.pop((label, kind), (0, []))
            if count != len(found):
                return f"{len(found)} samples of {label} are {kind}; said: {count}"
            names = ["It"] if count == 1 else ["The first", "The last"] if count else []
            for name, spot, want in zip(names, spots + [None, None], [found[0], found[-1]] if found else []):
                if wrong := wrong_spot(spot, name, want, shift):
                    return f"{kind} sample of {label}: {wrong}"
    if said.counts:
        return f"said of samples that aren't: {said.counts}"
    return wrong_nearly_all(said, counts)


def wrong_listed(said, kind, found, shift):
    """What is wrong with the annotations that are listed, and how many aren't."""
    notes = in_order(found.elements())
    listed = [(seconds(onset), clock(onset), clock(onset, shift), None if duration is None else seconds(duration), text)
              for onset, duration, text in notes[:MOST_LISTED]]
    want = listed, max(len(notes) - MOST_LISTED, 0)
    given = said.listed.get(kind, ([], 0))
    return None if given == want else f"of annotations it {kind} {want}; said: {given}"


def wrong_notes(said, original, export, claim, shift):
    """What is wrong with the annotations that are missing and too many."""
    missing, extra = notes_apart(original, export, claim, shift)
    want = {kind: found.total() for kind, found in (("lacks", missing), ("has", extra)) if found}
    if not said.is_one_way:
        for kind, found in (("lacks", missing), ("has", extra)):
            if wrong := wrong_listed(said, kind, found, shift):
                return wrong
    if said.one_way is not None:
        later = collections.Counter((onset + said.one_way, *rest) for onset, *rest in missing.elements())
        if later != extra:
            return f"the annotations aren't moved by {said.one_way}: {missing} {extra}"
    return None if said.notes == want else f"of annotations it {want}; said: {said.notes}"


def truncated(made, lost):
    """The fault of a file that has lost so many bytes of its data records."""
    size = made.record_size()
    return f"Truncated at record {(made.records() * size - lost) // size}"


class Honesty:
    """The program in a folder of its own, and how many explanations passed and failed."""

    def __init__(self, program, work):
        self.program, self.work, self.seen = program, work, collections.Counter()

    def path(self, name, content):
        path = os.path.join(self.work, name)
        with open(path, "wb") as file:
            file.write(content)
        return path

    def run(self, command, *files):
        how = {"stdin": subprocess.DEVNULL, "stdout": subprocess.PIPE, "stderr": subprocess.STDOUT, "close_fds": False}
        ran = subprocess.run([self.program, command, *files], **how)
        return ran.returncode, ran.stdout.decode(errors="replace")

    def wrong_remedies(self, said, claim, files, line, first):
        """What is wrong with the changes of the claim that are named, each tried by a check. A shift with which the first sample
        that is kept isn't as claimed is no better one."""
        tries = [(f"shift = {number}", claim.text(number), want) for number, want in said.named]
        tries += [(f"shift = {number}", claim.text(number), None) for number in said.tried]
        tries += [(f"channels = {labels}", claim.text(labels=labels), want) for labels, want in said.channels]
        for later, end, want in said.ends:
            if later != end or end not in [last for _, last in claim.keep]:
                return f"no interval ends at {end}; said: {later}"
            tries.append((f"an end a picosecond after {end}", claim.text(end=end * PS), want))
        for name, text, want in tries:
            _, given = self.run("check", *files, self.path("tried.toml", text.encode()))
            given = given.rstrip("\n")
            if want is not None and given != want:
                return f"with {name} the answer is {given}; said: {want}"
            is_better = rank(given) > rank(line) and (not name.startswith("shift") or begins_behind(given, first))
            if is_better != (want is not None):
                return f"with {name} the answer is {given}, and {line} without; is it said to be better: {want is not None}"
        return None

    def answer(self, files, text):
        """The line of a check under a claim that was changed."""
        return self.run("check", *files, self.path("tried.toml", text.encode()))[1].rstrip("\n")

    def wrong_shifts(self, said, claim, files, line, starts):
        """What is wrong with which other shifts are tried, which of them is named, and with which one all else is worked out: `starts` is
        by how much the export starts later than claimed, and when the first sample is taken that is kept."""
        tried, best = tried_shifts(claim, starts[0]) if re.match("NO 1[01] ", line) else [], None
        for number in tried:
            given = self.answer(files, claim.text(number))
            if rank(given) > rank(best[1] if best else line) and begins_behind(given, starts[1]):
                best = number, given
            if given.startswith("YES "):
                break
        reckoned = claim.shift if tried else said.reckoned
        if best and not best[1].startswith("NO 10 "):
            reckoned = best[0] if best[1].startswith("NO 11 ") else None
        want = ([best], [], reckoned) if best else ([], tried, reckoned)
        have = said.named, said.tried, said.reckoned
        return None if have == want else f"of shifts, and of the one that is reckoned with, it is {want}; said: {have}"

    def wrong_channels(self, said, claim, files, line, both):
        """What is wrong with which other channels are named: those that the original and the first export have, where they help."""
        given = self.answer(files, claim.text(labels=sorted(both))) if both and OF_CHANNELS.match(line) else line
        want = [both] if rank(given) > rank(line) and not OF_CHANNELS.match(given) else []
        named = [set(labels) for labels, _ in said.channels]
        return None if named == want else f"of channels it is {want}, with {given}; said: {said.channels}"

    def wrong_ends(self, said, claim, files, line, extra):
        """What is wrong with which other end of an interval is named: the first at which an annotation begins that is too many, where
        it helps, and no shift was tried."""
        is_tried = line.startswith("NO 11 ") and not said.named and not said.tried
        ends = [last for onset, *_ in in_order(extra.elements()) for _, last in claim.keep if is_tried and onset == last * PS]
        given = self.answer(files, claim.text(end=ends[0] * PS)) if ends else line
        want = [(ends[0], ends[0], given)] if rank(given) > rank(line) else []
        return None if said.ends == want else f"of ends it is {want}; said: {said.ends}"

    def wrong_tries(self, said, claim, files, line, made):
        """What is wrong with what is tried of an original, the first export and all annotations: `made` has these, and where the first one
        starts."""
        original, first, exported, starts = made
        both = original.channels.keys() & first.channels.keys()
        extra = notes_apart(original, exported, claim, claim.shift)[1]
        return (self.wrong_shifts(said, claim, files, line, starts) or self.wrong_channels(said, claim, files, line, both)
                or self.wrong_ends(said, claim, files, line, extra))

    def wrong_fault(self, files, lost, said):
        """What is wrong with the faults that are said of files that break off, and that nothing else is said."""
        want = {side: truncated(made, count) for side, made, count in zip(("original", "export"), files, lost) if count}
        if said.faults != want:
            return f"the faults are {want}; said: {said.faults}"
        is_more = (said.counts or said.notes or said.heads or said.starts or said.named or said.channels or said.ends or said.tried
                   or said.nearly_all or said.is_one_way or said.odd)
        return f"more than faults is said: {said.lines}" if is_more else None

    def wrong(self, original, export, claim, lost=(0, 0)):
        """What is wrong with an explanation, or none; the files have lost so many bytes at their ends."""
        whole = [made.bytes() for made in (original, export)]
        files = [self.path(name, content[:len(content) - count])
                 for name, content, count in zip(("original.edf", "export.edf"), whole, lost)]
        text = self.path("claim.toml", claim.text().encode())
        status, line = self.run("check", *files, text)
        if status not in (0, 1):
            return f"the check has status {status}: {line}"
        ended, whole = self.run("explain", *files, text)
        if ended != status or not whole.startswith(line) or whole == line:
            return f"the explanation has status {ended}; the check: {line}"
        said, line = Said(whole[len(line):]), line.rstrip("\n")
        self.seen[line.split()[0] + line.split()[1] * (status == 1)] += 1
        if any(lost):
            return self.wrong_fault((original, export), lost, said)
        if said.odd:
            return f"said in no known form, or twice: {said.odd}"
        self.seen["a shift that makes a Yes"] += said.has_yes()
        self.seen["a shift that is better"] += bool(said.named) and not said.has_yes()
        self.seen["shifts that aren't better"] += bool(said.tried)
        self.seen["other channels"] += bool(said.channels)
        self.seen["another end"] += bool(said.ends)
        self.seen["nearly all values changed"] += said.nearly_all is not None
        self.seen["more annotations than are listed"] += any(more for _, more in said.listed.values())
        self.seen["reckoned with another shift"] += said.reckoned not in (None, claim.shift)
        if status == 1 and (wrong := wrong_starts(said, original, export, claim)):
            return wrong
        kept = [at for label in common(original, export, claim) for at in original.samples(label) if claim.keeps(at)]
        first = min(kept, default=0)
        starts = begins_at(export, claim) - first if kept else 0, first
        if wrong := (self.wrong_remedies(said, claim, files, line, first)
                     or self.wrong_tries(said, claim, files, line, (original, export, export, starts))):
            return wrong
        if said.has_yes():
            return f"samples or annotations are listed: {said.counts} {said.notes}" if said.counts or said.notes else None
        shift = claim.shift if said.reckoned is None else said.reckoned
        return (wrong_heads(said, original, export, claim) or wrong_samples(said, original, export, claim, shift)
                or wrong_notes(said, original, export, claim, shift))


def main():
    if len(sys.argv) not in (2, 3, 4) or not os.access(sys.argv[1], os.X_OK):
        print("usage: python3 -m tests.oracle.honesty PROGRAM [COUNT [SEED]]", file=sys.stderr)
        return 2
    count = int(sys.argv[2]) if len(sys.argv) > 2 else 2000
    choose.seed(int(sys.argv[3]) if len(sys.argv) > 3 else 1)
    failed = 0
    shared = "/dev/shm" if os.access("/dev/shm", os.W_OK) else None
    with tempfile.TemporaryDirectory(dir=shared) as work:
        honesty = Honesty(os.path.abspath(sys.argv[1]), work)
        for number in range(count):
            made = case()
            wrong = honesty.wrong(*made, (lost_bytes(made[0]), lost_bytes(made[1])))
            if wrong:
                failed += 1
                if failed <= 20:
                    print(f"export {number}: {wrong}")
    for name, times in sorted(honesty.seen.items()):
        print(f"{times} with {name}")
    print(f"{count - failed} passed, {failed} failed")
    return 1 if failed or not count else 0


if __name__ == "__main__":
    sys.exit(main())
