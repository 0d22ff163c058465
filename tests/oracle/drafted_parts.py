"""Nights with honest exports in several parts, for the draft of a claim; and how many of these drafts are a Yes.

usage: python3 -m tests.oracle.drafted_parts PROGRAM [COUNT [SEED]]

`honest` gives an original, two to four exports that are together just what a claim of format 1 says, and that claim: of
channels, of one or more intervals, of a shift by whole days, of hidden subfields and removed texts (draft_cases.py). The
parts have one step of the night at least, and an annotation stands in the part of its time.

PROGRAM drafts the claim of COUNT such nights (1,000 where none is said; SEED is a number, 1 if none is said). Said is each
draft whose first line isn't the line of the check under the claim itself, at most twenty; the last line counts those that
are so, and the others.
"""

import os
import subprocess
import sys
import tempfile

from tests.oracle import verdict_cases
from tests.oracle.draft_cases import only_claimed
from tests.oracle.parts_cases import cut_up, runs
from tests.oracle.verdict_cases import Night, document, often, one_of
from tests.reading.rules import SUBFIELDS

YES = b"# With this draft the check answers: "


def in_parts(steps):
    """The steps in two to four stretches, one after the other."""
    while not 2 <= len(pieces := cut_up(steps)) <= 4:
        pass
    return pieces


def honest():
    """The bytes of the original and of each export, and the text of the claim."""
    choose = verdict_cases.choose
    night = Night((4, 6, 12, 24))
    if night.begin.year >= 2084:
        # from 2085 on there is no startdate without a recording date
        night.said["date"] = b"day"
    shift = 86_400 * one_of(0, 0, 1, -1, -100, 365, -3_650)
    original = night.cut([(0, night.steps)], night.labels, night.said, night.notes, odd=0)
    claimed = choose.sample(night.labels, choose.randint(1, len(night.labels)))
    stretches = verdict_cases.stretches(night.steps)
    steps = [step for first, last in stretches for step in range(first, last)]
    if len(steps) < 2:
        stretches, steps = [(0, night.steps)], list(range(night.steps))
    keep = [(night.instant(first), night.instant(last)) for first, last in stretches]
    anonymous = [name for name in SUBFIELDS if name != "date" and often(0.3)]
    remove = choose.sample(verdict_cases.TEXTS, one_of(0, 0, 1, 2))
    said = {}
    for name, value in night.said.items():
        hidden = [b"X" for _ in value] if isinstance(value, list) else b"X"
        said[name] = hidden if name in anonymous else value
    pieces = in_parts(steps)
    held = [[] for _ in pieces]
    for note in only_claimed(night.notes, keep, remove):
        begun = [number for number, piece in enumerate(pieces) if night.instant(piece[0]) <= note[0]]
        held[begun[-1] if begun else 0].append(note)
    exports = [night.cut(runs(piece), claimed, said, notes, shift, odd=0) for piece, notes in zip(pieces, held)]
    text = document(1, claimed, keep, anonymous, shift, (remove, [], []))
    return bytes(original), [bytes(export) for export in exports], text


def first_lines(program, work, original, exports, claim):
    """The status of the draft and its first line, and the line of the check under the claim itself."""
    paths = []
    for number, content in enumerate([original, *exports, claim]):
        paths.append(os.path.join(work, str(number)))
        with open(paths[-1], "wb") as file:
            file.write(content)
    original, *exports, claim = paths
    how = {"stdin": subprocess.DEVNULL, "capture_output": True, "close_fds": False}
    draft = subprocess.run([program, "draft-parts", original, *exports], **how)
    check = subprocess.run([program, "check-parts", original, claim, *exports], **how)
    return draft.returncode, draft.stdout.partition(b"\n")[0], check.stdout.rstrip(b"\n")


def main():
    if len(sys.argv) not in (2, 3, 4) or not os.access(sys.argv[1], os.X_OK):
        print("usage: python3 -m tests.oracle.drafted_parts PROGRAM [COUNT [SEED]]", file=sys.stderr)
        return 2
    count = int(sys.argv[2]) if len(sys.argv) > 2 else 1_000
    verdict_cases.choose.seed(int(sys.argv[3]) if len(sys.argv) > 3 else 1)
    others = []
    shared = "/dev/shm" if os.access("/dev/shm", os.W_OK) else None
    with tempfile.TemporaryDirectory(dir=shared) as work:
        for number in range(count):
            made = honest()
            status, first, want = first_lines(os.path.abspath(sys.argv[1]), work, *made)
            if status != 0 or first != YES + want or not want.startswith(b"YES "):
                others.append(f"night {number}: status {status} with {first!r}; the claim itself: {want!r}; {made[2]!r}")
    for line in others[:20]:
        print(line)
    print(f"{count - len(others)} passed, {len(others)} failed")
    return 1 if others else 0


if __name__ == "__main__":
    sys.exit(main())
