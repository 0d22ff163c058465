"""Counts the drafts of random honest exports that are a Yes.

usage: python3 -m tests.oracle.moved_drafts PROGRAM [COUNT [SEED]]

It makes COUNT nights, each with an export that was moved by any number of seconds (moved_cases.py; 10,000 where none is
said; SEED is a number, 1 if none is said, and the same number makes the same files), and PROGRAM drafts the claim of each. A
draft is told where its first line is that of a Yes with the counts of the claim itself, and the second reading of the rules
gives that line under the draft, too. A few can't be told (moved_cases.py): they are counted, and have to be fewer than one
in 100. What fails is a draft whose first line isn't the second reading's: a Yes, or that it is no Yes, with the line under this
draft; and one of another status than 0.

What isn't as it should be is said, at most twenty times. The last line counts the exports that passed and failed.
"""

import os
import subprocess
import sys
import tempfile

from tests.oracle import moved_cases, verdict_cases
from tests.reading import verdict_rules

YES = b"# With this draft the check answers: "
NO = b"# NOT A YES: with this draft the check answers: "


class Drafts:
    """The program in a folder of its own, how many drafts are told, and what is wrong with others."""

    def __init__(self, program, work):
        self.program, self.work, self.told, self.untold, self.by_samples = program, work, 0, [], 0

    def draft(self, original, export):
        """The status of a draft, and its text."""
        paths = []
        for name, content in (("original.edf", original), ("export.edf", export)):
            paths.append(os.path.join(self.work, name))
            with open(paths[-1], "wb") as file:
                file.write(content)
        ran = subprocess.run([self.program, "draft", *paths], stdin=subprocess.DEVNULL, stdout=subprocess.PIPE,
                             stderr=subprocess.STDOUT, close_fds=False)
        return ran.returncode, ran.stdout

    def wrong(self, original, export, claim):
        """What is wrong with the draft of an export, or none; it is counted."""
        want = verdict_rules.line(original, export, claim)
        if not want.startswith("YES "):
            return f"the claim itself has {want}: {claim!r}"
        status, draft = self.draft(original, export)
        if status != 0:
            return f"status {status}: {draft[:300]!r}"
        line = verdict_rules.line(original, export, draft)
        # a text in the line has a letter for each of its bytes
        said = line.encode("latin-1")
        if not draft.startswith((YES + said + b"\n",) if line.startswith("YES ") else (NO + said + b".\n", NO + said + b". If ")):
            return f"the second reading has {line} under the draft: {draft!r}"
        if not draft.startswith(YES):
            self.untold.append(f"{line}; the claim: {claim.decode()!r}; the draft: {draft.decode()!r}")
        elif line != want:
            return f"wanted {want}, and the second reading has {line}: {draft!r}"
        else:
            self.told += 1
            self.by_samples += b"\n# TOLD BY THE SAMPLES: " in draft
        return None


def main():
    if len(sys.argv) not in (2, 3, 4) or not os.access(sys.argv[1], os.X_OK):
        print("usage: python3 -m tests.oracle.moved_drafts PROGRAM [COUNT [SEED]]", file=sys.stderr)
        return 2
    count = int(sys.argv[2]) if len(sys.argv) > 2 else 10_000
    verdict_cases.choose.seed(int(sys.argv[3]) if len(sys.argv) > 3 else 1)
    faults = []
    shared = "/dev/shm" if os.access("/dev/shm", os.W_OK) else None
    with tempfile.TemporaryDirectory(dir=shared) as work:
        drafts = Drafts(os.path.abspath(sys.argv[1]), work)
        for number in range(count):
            wrong = drafts.wrong(*moved_cases.honest())
            if wrong:
                faults.append(f"export {number}: {wrong}")
    few = len(drafts.untold) * 100 < count
    for line in [*faults, *([] if few else drafts.untold)][:20]:
        print(line)
    failed = len(faults) + (0 if few else len(drafts.untold))
    print(f"{drafts.told} drafts of {count} are a Yes, {drafts.by_samples} of them by the samples; "
          f"{len(drafts.untold)} can't be told")
    print(f"{count - failed} passed, {failed} failed")
    return 1 if failed or not count else 0


if __name__ == "__main__":
    sys.exit(main())
