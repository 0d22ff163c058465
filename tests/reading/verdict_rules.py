"""The rules of a run, read a second time and apart from the crates.

usage: python3 -m tests.reading.verdict_rules CASES GIVEN

CASES holds a case a line: the original, the export and the text of the claim, in hexadecimal. GIVEN holds
what the runs wrote, or why they stopped (verdicts.rt.in). Each case that the rules answer otherwise is
printed; the last line is 'N passed, M failed'.
"""

import collections
import sys
from fractions import Fraction

from tests.reading.rules import (
    ANNOTATIONS, Refused, begin_of, blanks, claim, compare, fixed_part, head_difference, records, removes, signals, values,
)

SECOND = 10**12


class Night:
    """What a whole file says: its header, its samples by label and instant, and its annotations."""

    def __init__(self, file):
        self.said = fixed_part(file)
        self.signals = signals(file, self.said["signals"])
        self.samples = {one["label"]: {} for one in self.signals if one["label"] != ANNOTATIONS}
        self.notes = []
        for number, (start, notes) in enumerate(records(file, self.said, self.signals)):
            for one, instant, value in values(file, self.said, self.signals, number, start):
                self.samples[one["label"]][Fraction(instant, one["samples"])] = value
            self.notes += [(begin_of(self.said) + onset, duration, part) for onset, duration, part in notes]


def quoted(part):
    """A text between quotes, as the byte 0 to 255 each, which the program prints as characters."""
    marks = [f"\\x{byte:02x}" if byte < 32 or byte in (34, 92, 127) else chr(byte) for byte in part]
    return f'"{"".join(marks)}"'


def head_line(found):
    number, word, label = found
    if number == 8:
        name, mismatch = word
        return f"NO 8 subfield {name} {'not X' if mismatch == 'NotX' else 'changed'}"
    if number == 9:
        return f"NO 9 not clean {'header' if label is None else quoted(label)}"
    if number == 6:
        return f"NO 6 channel text {quoted(label)} {word}"
    return f"NO {number} {word}{' channel' if number < 6 else ''} {quoted(label)}"


def sample_line(original, export, labels, keep, begin, shift):
    """The earliest instant at which a claimed channel differs, then the least label; or None."""
    differences = []
    for label in labels:
        old = {instant - begin: value for instant, value in original.samples[label].items()}
        new = {instant - begin - shift: value for instant, value in export.samples[label].items()}
        kept = {at: value for at, value in old.items() if any(low <= at < high for low, high in keep)}
        for at in set(kept) | set(new):
            left, right = kept.get(at), new.get(at)
            if left != right:
                what = "missing" if right is None else "extra" if left is None else f"original {left} export {right}"
                differences.append((at, label, what))
    if not differences:
        return None
    at, label, what = min(differences)
    return f"NO 10 sample {quoted(label)} at {at.__floor__()} ps {what}"


def rank(note):
    """No duration comes before every duration."""
    onset, duration, part = note
    return onset, -1 if duration is None else duration, part


def kept_notes(notes, claimed):
    """Those in the kept stretches whose texts aren't removed, each with X for a text that is blanked."""
    found = []
    for onset, duration, part in notes:
        if any(low <= onset < high for low, high in claimed.keep) and not removes(claimed, part):
            found.append((onset, duration, b"X" if blanks(claimed, part) else part))
    return found


def note_line(original, export, claimed, begin, shift):
    """The least annotation whose counts differ; or None."""
    old = [(onset - begin, duration, part) for onset, duration, part in original.notes]
    new = [(onset - begin - shift, duration, part) for onset, duration, part in export.notes]
    want, have = collections.Counter(kept_notes(old, claimed)), collections.Counter(new)
    differing = [note for note in set(want) | set(have) if want[note] != have[note]]
    if not differing:
        return None
    note = min(differing, key=rank)
    what = "missing" if want[note] > have[note] else "extra"
    span = "none" if note[1] is None else f"{note[1]} ps"
    return f"NO 11 annotation {what} at {note[0]} ps duration {span} text {quoted(note[2])}"


def line(original_file, export_file, document):
    try:
        claimed = claim(document)
    except Refused as cause:
        return f"refused {cause}"
    nights = []
    for number, side, file in ((1, "original", original_file), (2, "export", export_file)):
        try:
            nights.append(Night(file))
        except Refused as fault:
            return f"NO {number} {side} fault: {fault}"
    original, export = nights
    labels = [label.encode() for label in claimed.labels]
    found = head_difference(original.said, original.signals, export.said, export.signals, labels, claimed.anonymous)
    if found:
        return head_line(found)
    begin, moved = begin_of(original.said), claimed.shift * SECOND
    samples = sum(len(channel) for channel in export.samples.values())
    yes = f"YES channels {len(export.samples)} samples {samples} annotations {len(export.notes)}"
    return sample_line(original, export, labels, claimed.keep, begin, moved) \
        or note_line(original, export, claimed, begin, moved) or yes


def answer(case):
    return line(*(bytes.fromhex(part) for part in case.split(" ")))


if __name__ == "__main__":
    sys.exit(compare(answer, *sys.argv[1:]))
