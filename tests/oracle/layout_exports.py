"""Looks whether two exports of one original under one claim, of which both are a Yes, have other lines of their layout wherever
they are other files, by the second readings of the rules (tests/reading) and of the layout (layout.py).

usage: python3 -m tests.oracle.layout_exports [COUNT [SEED]]

It makes COUNT honest exports of 4,000 bytes at most (draft_cases.py; 40 where none is said; SEED is a number, 1 if none is said,
and the same number makes the same files), and of each of them others in which one byte has another value, as layout_bytes.py
does. Those that aren't a Yes under the claim are left aside. The last line counts the others that passed and failed. An export
takes some five seconds.
"""

import concurrent.futures
import random
import sys

from tests.oracle import verdict_cases
from tests.oracle.draft_cases import honest
from tests.oracle.layout import printed
from tests.oracle.layout_bytes import FAULT, others, replaced
from tests.reading.parts_rules import line

MOST = 4000


def made(number):
    """An honest export with its original and its claim, by the number that makes it."""
    verdict_cases.choose.seed(number)
    while True:
        original, export, text = honest()
        text = text if isinstance(text, bytes) else text.encode()
        if len(export) <= MOST and line(original, text, [export]).startswith("YES"):
            return original, export, text


def seen(number):
    """What was seen of the export of this number: how many passed, and what is said of those that failed."""
    original, export, text = made(number)
    choose, lines = random.Random(number), printed(export)[1]
    passed, wrong = 0, []
    for place, byte in enumerate(export):
        for other in others(choose, byte):
            file = replaced(export, place, other)
            said = printed(file)[1]
            if said.startswith(FAULT) or not line(original, text, [file]).startswith("YES"):
                continue
            passed += said != lines
            if said == lines:
                wrong.append(f"byte {place} of {export.hex()} under {text!r}")
    return passed, wrong


def main():
    count = int(sys.argv[1]) if len(sys.argv) > 1 else 40
    seed = int(sys.argv[2]) if len(sys.argv) > 2 else 1
    passed = failed = 0
    with concurrent.futures.ProcessPoolExecutor() as workers:
        for more, wrong in workers.map(seen, range(seed * 10**6, seed * 10**6 + count)):
            passed, failed = passed + more, failed + len(wrong)
            for words in wrong:
                print(words)
    print(f"{passed} passed, {failed} failed")
    return 1 if failed or not passed else 0


if __name__ == "__main__":
    sys.exit(main())
