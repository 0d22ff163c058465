"""Nights with honest exports of them, for the draft of a claim.

usage: python3 -m tests.oracle.draft_cases SEED COUNT

Prints a case a line: the original, the export and the text of the claim, in hexadecimal (draft_rules.py). `honest` gives
an original, an export that is just what a claim of format 1 says, and that claim: of channels, of one or more intervals that may reach beyond the night, of a shift by whole days, of hidden subfields and removed texts.
"""

import sys

from tests.oracle import verdict_cases
from tests.reading.rules import SUBFIELDS
from tests.oracle.verdict_cases import Night, document, often, one_of


def only_claimed(notes, keep, remove):
    """The annotations that a claim keeps, and no others."""
    return [
        (time, span, part) for time, span, part in notes
        if part not in remove and any(low <= time < high for low, high in keep)
    ]


def widened(keep, night):
    """The intervals, of which the first may begin earlier and the last end later, where the night has no sample."""
    low, high = keep[0][0], keep[-1][1]
    if low == night.start and often(0.3):
        low = 0
    if high == night.instant(night.steps) and often(0.5):
        high += one_of(1, 2, 10**12, 10**12 + 1, 10**15)
    if len(keep) == 1:
        return [(low, high)]
    return [(low, keep[0][1]), *keep[1:-1], (keep[-1][0], high)]


def honest():
    """The bytes of the original and of the export, and the text of the claim."""
    night = Night()
    if night.begin.year >= 2084:
        # from 2085 on there is no startdate without a recording date
        night.said["date"] = b"day"
    shift = 86_400 * one_of(0, 0, 1, -1, -100, 365, -3_650)
    original = night.cut([(0, night.steps)], night.labels, night.said, night.notes, odd=0)
    claimed = verdict_cases.choose.sample(night.labels, verdict_cases.choose.randint(1, len(night.labels)))
    parts = verdict_cases.stretches(night.steps)
    keep = widened([(night.instant(first), night.instant(last)) for first, last in parts], night)
    anonymous = [name for name in SUBFIELDS if name != "date" and often(0.3)]
    remove = verdict_cases.choose.sample(verdict_cases.TEXTS, one_of(0, 0, 1, 2))
    said = {}
    for name, value in night.said.items():
        hidden = [b"X" for _ in value] if isinstance(value, list) else b"X"
        said[name] = hidden if name in anonymous else value
    export = night.cut(parts, claimed, said, only_claimed(night.notes, keep, remove), shift, odd=0)
    text = document(1, claimed, keep, anonymous, shift, (remove, [], []))
    return original, export, text


def main(seed, count):
    verdict_cases.choose.seed(int(seed))
    for _ in range(int(count)):
        print(*(part.hex() for part in honest()))


if __name__ == "__main__":
    main(*sys.argv[1:])
