"""Cases for a run over several exports: a night cut into one to eight of them, which are right, nearly right or broken,
and a claim.

usage: python3 -m tests.oracle.parts_cases SEED COUNT

Prints a case a line: the original, the text of the claim and the exports, in hexadecimal (parts_rules.py).
"""

import dataclasses
import datetime
import sys

from tests import edf
from tests.oracle.verdict_cases import (
    STARTS, Night, as_claimed, broken, changed_notes, choose, claimed_texts, document, kept_notes, often, one_of,
)
from tests.reading.rules import ANNOTATIONS, SUBFIELDS

# other texts in fields of a header: the column, or none for the reserved field of the fixed part, and the text
FIELDS = [
    ("transducer", b"a"), ("prefilter", b"b"), ("dimension", b"mV"), ("physical-maximum", b"2"), ("reserved", b"c"),
    (None, b"d"), ("physical-maximum", b"1.0"),
]


@dataclasses.dataclass
class Part:
    """An export of some steps of a night."""
    steps: list
    labels: list
    said: dict
    notes: list
    shift: int
    changed: tuple | None = None  # a label and the number of its sample that has another value
    nudge: int = 0  # how many picoseconds later its data records begin than they should
    fields: tuple = ()  # other texts in its header
    is_broken: bool = False

    def file(self, night):
        begin = night.start
        night.start += self.nudge
        file = night.cut(runs(self.steps), self.labels, self.said, self.notes, self.shift, self.changed, odd=0.002)
        night.start = begin
        for name, text in self.fields:
            file = with_text(file, name, text)
        return broken(file) if self.is_broken else bytes(file)


def runs(steps):
    """The stretches that the steps are, in order."""
    found = []
    for step in steps:
        if found and found[-1][1] == step:
            found[-1] = (found[-1][0], step + 1)
        else:
            found.append((step, step + 1))
    return found


def with_text(file, name, text):
    """The file with another text in a column of one of its channels, or behind EDF+C or EDF+D."""
    at, width = edf.extent(edf.field("signals"), 0)
    file, count = bytearray(file), int(file[at:at + width])
    if name is None:
        at, _ = edf.extent(edf.field("reserved"), count)
        edf.put(file, count, edf.field("reserved"), bytes(file[at:at + len("EDF+C")]) + text)
        return file
    extents = [edf.extent(edf.signal(number, "label"), count) for number in range(count)]
    labels = [bytes(file[at:at + width]).rstrip() for at, width in extents]
    number = choose.choice([number for number in range(count) if labels[number] != ANNOTATIONS])
    edf.put(file, count, edf.signal(number, name), text)
    return file


def recorded(steps):
    """The steps of a night that are recorded: all of them, or all but a gap."""
    if often(0.75):
        return list(range(steps))
    low, high = sorted(choose.sample(range(1, steps + 1), 2))
    return [step for step in range(steps) if not low <= step < high]


def kept(steps):
    """One to three stretches of steps, in order, which may touch."""
    if often(0.5):
        return [(0, steps)]
    count = one_of(1, 2, 2, 3)
    ends = sorted(choose.sample(range(steps + 1), min(2 * count, steps // 2 * 2)))
    if often(0.3):
        ends = [ends[0], *(end for end in ends[1:-1] for _ in (0, 1)), ends[-1]]
    return list(zip(ends[::2], ends[1::2]))


def cut_up(steps):
    """The steps in one to eight stretches, one after the other."""
    count = min(len(steps), choose.randint(1, 8))
    ends = [0, *sorted(choose.sample(range(1, len(steps)), count - 1)), len(steps)]
    return [steps[low:high] for low, high in zip(ends, ends[1:])]


def handed_out(night, parts, notes):
    """The annotations of each part: one stands in the part of its time, or in any, or seldom in two."""
    held = [[] for _ in parts]
    for note in notes:
        own = [at for at, steps in enumerate(parts) if night.instant(steps[0]) <= note[0]]
        at = own[-1] if own and often(0.8) else choose.randrange(len(parts))
        held[at].append(note)
        if often(0.04):
            choose.choice(held).append(note)
    return held


def missing(night, parts):
    if len(parts) > 1:
        parts.pop(choose.randrange(len(parts)))


def twice(night, parts):
    at = choose.randrange(len(parts))
    again = dataclasses.replace(parts[at], notes=one_of([], parts[at].notes))
    parts.insert(one_of(at, choose.randrange(len(parts) + 1)), again)


def in_other_order(night, parts):
    at, other = choose.randrange(len(parts)), choose.randrange(len(parts))
    parts[at], parts[other] = parts[other], parts[at]


def overlapping(night, parts):
    at = choose.randrange(len(parts))
    if at:
        before, part = parts[at - 1], parts[at]
        if often(0.5):
            part.steps = [before.steps[-1], *part.steps] if before.steps[-1] < part.steps[0] else part.steps
        else:
            before.steps = [*before.steps, part.steps[0]] if before.steps[-1] < part.steps[0] else before.steps


def another_value(night, parts):
    part = choose.choice(parts)
    label = choose.choice(part.labels)
    part.changed = label, night.rates[label] * choose.choice(part.steps) + choose.randrange(night.rates[label])


def without_a_step(night, parts):
    part = choose.choice(parts)
    gone = choose.choice(part.steps)
    part.steps = [step for step in part.steps if step != gone] or part.steps


def with_a_step_more(night, parts):
    part = choose.choice(parts)
    part.steps = sorted({*part.steps, choose.randrange(night.steps)})


def later(night, parts):
    choose.choice(parts).nudge = one_of(-1, -1, 1, 100_000, -100_000)


def moved(night, parts):
    choose.choice(parts).shift += one_of(-1, 1, 86_400)


def other_fields(night, parts):
    for part in choose.sample(parts, min(len(parts), one_of(1, 2, 2, 3))):
        part.fields = (*part.fields, one_of(*FIELDS))


def other_subfields(night, parts):
    for part in choose.sample(parts, min(len(parts), one_of(1, 1, 2))):
        name = one_of("code", "sex", "birthdate", "name", "technician", "equipment", "date")
        others = {"sex": [b"M", b"X"], "birthdate": [b"X"], "date": [b"X"]}
        part.said = {**part.said, name: one_of(*others.get(name, [b"X", b"Z"]))}


def other_channels(night, parts):
    for part in choose.sample(parts, min(len(parts), one_of(1, 1, 2))):
        part.labels = choose.sample(night.labels, choose.randint(1, len(night.labels)))


def two_headers(night, parts):
    """The headers of two parts differ, each in its own way."""
    for lie in choose.sample([other_fields, other_subfields, other_channels], 2):
        lie(night, [choose.choice(parts)])


def other_notes(night, parts):
    for part in parts:
        part.notes = changed_notes(part.notes)


def note_in_two(night, parts):
    """An annotation of a part once more in a part, or in another part alone."""
    part, other = choose.choice(parts), choose.choice(parts)
    if part.notes:
        note = choose.choice(part.notes)
        if often(0.2):
            part.notes = [one for one in part.notes if one is not note]
        other.notes = [*other.notes, note]


def fault(night, parts):
    for part in choose.sample(parts, min(len(parts), one_of(1, 1, 2))):
        part.is_broken = True


def fault_behind(night, parts):
    """A fault in the last part, and another difference in the first one."""
    parts[-1].is_broken = True
    one_of(another_value, other_fields, other_subfields)(night, parts[:1])


LIES = [
    missing, twice, in_other_order, overlapping, another_value, without_a_step, with_a_step_more, later, moved,
    other_fields, other_subfields, other_channels, two_headers, other_notes, other_notes, note_in_two, note_in_two, fault,
    fault_behind,
]


def moved_bounds(keep):
    """One of the intervals with another begin or end."""
    keep = list(keep)
    low, high = keep[-1]
    keep[-1] = one_of((low + 1, high), (low, high - 1), (low, high + 1), (low, high + 10**12))
    return keep if keep[-1][0] < keep[-1][1] else [(low, high + 1)]


def case():
    night = Night((2, 6, 12, 12, 24))
    other = int((choose.choice(STARTS) - night.begin).total_seconds())
    shift = one_of(0, 0, 0, 0, 86_400, -86_400, 1, -31_536_000, other, other, 10**10)
    last = night.begin + datetime.timedelta(seconds=night.instant(night.steps) // 10**12)
    is_late = any(day.year >= 2085 for day in (night.begin, last, last + datetime.timedelta(seconds=shift)))
    if is_late and often(0.97):
        # from 2085 on there is no startdate without a recording date
        night.said["date"] = b"day"
    steps, stretches = recorded(night.steps), kept(night.steps)
    shown = [step for step in steps if any(low <= step < high for low, high in stretches)] or steps[:1]
    claimed = choose.sample(night.labels, choose.randint(1, len(night.labels)))
    keep = [(night.instant(low), night.instant(high)) for low, high in stretches]
    anonymous = [name for name in SUBFIELDS if often(0.02 if name == "date" and is_late else 0.2)]
    form = one_of(1, 2, 2)
    texts = claimed_texts(form)
    said, pieces = as_claimed(night.said, anonymous), cut_up(shown)
    held = handed_out(night, pieces, kept_notes(night.notes, keep, texts))
    parts = [Part(piece, list(claimed), said, notes, shift) for piece, notes in zip(pieces, held)]
    for lie in choose.sample(LIES, one_of(0, 0, 0, 0, 1, 1, 1, 2, 2, 3)):
        lie(night, parts)
    original = night.cut(runs(steps), night.labels, night.said, night.notes, odd=0.002)
    files = [part.file(night) for part in parts[:8]]
    if often(0.03):
        original = broken(original)
    if often(0.03):
        claimed = [*claimed, b"zz"]
    text = document(form, claimed, moved_bounds(keep) if often(0.08) else keep, anonymous, shift, texts)
    return original.hex(), text.hex(), *(file.hex() for file in files)


def main(seed, count):
    choose.seed(int(seed))
    for _ in range(int(count)):
        print(*case())


if __name__ == "__main__":
    main(*sys.argv[1:])
