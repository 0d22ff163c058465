"""Judges drafts of claims: under each, the second reading of the rules says Yes, with the counts that it has under the claim,
and so does the first line of the draft.

usage: python3 -m tests.reading.draft_rules CASES GIVEN

A case is a line of draft_cases.py, and what was given for it is the draft: the signs of its bytes, with one of value 1 for
each end of a line. What isn't as it should be is
said, at most twenty times. The last line of the output counts the drafts that passed and failed.
"""

import sys

from tests.reading import verdict_rules


def fault(case, given):
    """What is wrong with the draft of a case, or none."""
    original, export, claim = (bytes.fromhex(part) for part in case.split(" "))
    want = verdict_rules.line(original, export, claim)
    if not want.startswith("YES "):
        return f"the claim itself has {want}"
    draft = given.encode("latin1").replace(b"\1", b"\n")
    line = verdict_rules.line(original, export, draft)
    if not draft.startswith(b"# With this draft the check answers: " + want.encode() + b"\n"):
        return f"the first line of the draft isn't that of a draft with {want}: {draft[:300]!r}"
    return None if line == want else f"{line}; wanted: {want}; the claim: {claim!r}; the draft: {draft!r}"


def main(cases, given):
    passed, failed = 0, 0
    with open(cases) as asked, open(given, encoding="utf-8", newline="\n") as answered:
        for number, (case, answer) in enumerate(zip(asked, answered, strict=True)):
            wrong = fault(case.rstrip("\n"), answer.rstrip("\n"))
            passed, failed = passed + (wrong is None), failed + (wrong is not None)
            if wrong and failed <= 20:
                print(f"case {number}: {wrong}")
    print(f"{passed} passed, {failed} failed")
    return 1 if failed else 0


if __name__ == "__main__":
    sys.exit(main(*sys.argv[1:]))
