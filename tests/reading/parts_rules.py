"""The rules of a run over several exports of one original, read a second time and apart from the crates.

usage: python3 -m tests.reading.parts_rules CASES GIVEN

CASES holds a case a line: the original, the text of the claim and the exports, in hexadecimal. GIVEN holds what the
runs wrote, or why they stopped (parts.rt.in). Each case that the rules answer otherwise is printed; the last line is
'N passed, M failed'.
"""

import sys

from tests.reading.rules import Refused, begin_of, claim, compare, fixed_part, head_difference, records, signals
from tests.reading.verdict_rules import SECOND, Night, head_line, note_line, sample_line


class Together:
    """What several files hold together: their samples by label and instant, and their annotations."""

    def __init__(self, nights):
        self.samples, self.notes = {}, []
        for night in nights:
            for label, found in night.samples.items():
                self.samples.setdefault(label, {}).update(found)
            self.notes += night.notes


def extent(file):
    """The picoseconds, from 1970 on, at which the first data record of a file begins and its last one ends."""
    said = fixed_part(file)
    starts = [start for start, _ in records(file, said, signals(file, said["signals"]))]
    return begin_of(said) + starts[0], begin_of(said) + starts[-1] + said["duration"] * 100_000


def of_part(line, part):
    """The line of a difference, with the part that it is said of behind its number."""
    no, number, rest = line.split(" ", 2)
    return f"{no} {number} part {part} {rest}"


def faults_line(original_file, files):
    """The first fault: that of the original, or else that of the first part that has one; or None."""
    for part, file in ((None, original_file), *enumerate(files)):
        try:
            Night(file)
        except Refused as fault:
            return f"NO 1 original fault: {fault}" if part is None else f"NO 2 part {part} export fault: {fault}"
    return None


def heads_line(original, nights, labels, anonymous):
    """The first difference of a header: the least number, and then the first part; or None."""
    found = []
    for part, night in enumerate(nights):
        difference = head_difference(original.said, original.signals, night.said, night.signals, labels, anonymous)
        if difference:
            found.append((difference[0], part, difference))
    if not found:
        return None
    number, part, difference = min(found, key=lambda one: one[:2])
    # a channel that the original doesn't have is missing beside every part
    return head_line(difference) if number == 3 else of_part(head_line(difference), part)


def order_line(files):
    """The first part that begins before the one before it ends; or None."""
    ends = [extent(file) for file in files]
    for part in range(1, len(ends)):
        if ends[part][0] < ends[part - 1][1]:
            return f"NO 12 part {part} starts early"
    return None


def line(original_file, document, files):
    try:
        claimed = claim(document)
    except Refused as cause:
        return f"refused {cause}"
    fault = faults_line(original_file, files)
    if fault:
        return fault
    original, nights = Night(original_file), [Night(file) for file in files]
    labels = [label.encode() for label in claimed.labels]
    found = heads_line(original, nights, labels, claimed.anonymous) or order_line(files)
    if found:
        return found
    both, begin, moved = Together(nights), begin_of(original.said), claimed.shift * SECOND
    samples = sum(len(channel) for night in nights for channel in night.samples.values())
    yes = f"YES parts {len(files)} channels {len(labels)} samples {samples} annotations {len(both.notes)}"
    return sample_line(original, both, labels, claimed.keep, begin, moved) \
        or note_line(original, both, claimed, begin, moved) or yes


def answer(case):
    original, document, *files = (bytes.fromhex(part) for part in case.split(" "))
    return line(original, document, files)


if __name__ == "__main__":
    sys.exit(compare(answer, *sys.argv[1:]))
