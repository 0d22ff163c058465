#!/usr/bin/env python3
"""How long a layout takes beside the test of the same file.

usage: laid_out.py PROGRAM FOLDER [TURNS]

It writes to FOLDER nights of 8 hours with 22 channels and with two, and one with an annotation in each second; one whose
annotations stand one in each data record, from the first one on while they last; and nights whose data records are small: 300,000
of 80 bytes, with no annotation and with a scored stage in every 30 s, and 2,000,000 of 20 bytes. Last comes the night of two
channels with a needless zero in the time of each data record, for each of which lines are written. PROGRAM tests each by `conform`
and lays it out by turns, nine times where no TURNS are said. A line for each says the least of the processor's time, how many times
that of the test the layout takes, and the same of the medians.
"""

import pathlib
import sys

sys.dont_write_bytecode = True
sys.path.insert(0, str(pathlib.Path(__file__).resolve().parent.parent.parent))

from tests import edf  # noqa: E402
from tests.long_nights import Night, remarks, write  # noqa: E402
from tools.speed.explained import EIGHT_HOURS, by_turns, places_of  # noqa: E402

SMALL = 300_000
SMALLEST = 2_000_000


def in_each(count):
    """Annotations that stand one in each data record of a second, from the first one on, each with an onset of its own."""
    return [(10 * k, edf.tal(f"+{30 * k}", "Sleep stage N2", duration=30)) for k in range(count)]


def nights():
    """The nights, by what is told of them."""
    return {
        "22 channels": Night(EIGHT_HOURS),
        "22 channels, annotations one in each data record": Night(EIGHT_HOURS, notes=in_each(EIGHT_HOURS // 30)),
        "22 channels, an annotation a second": Night(EIGHT_HOURS, notes=remarks(["Event"] * EIGHT_HOURS, EIGHT_HOURS)),
        "two channels": Night(EIGHT_HOURS, channels=2),
        "data records of 80 bytes, no annotation": Night(SMALL, channels=1, rate=8, lane=64, notes=[]),
        "data records of 80 bytes, scored": Night(SMALL, channels=1, rate=8, lane=64),
        "data records of 20 bytes, no annotation": Night(SMALLEST, channels=1, rate=1, lane=18, notes=[]),
    }


def spell_otherwise(path, size):
    """Puts a needless zero into the time of each data record, whose lane has so many bytes."""
    content = bytearray(path.read_bytes())
    first, record = places_of(content)
    for end in range(first + record, len(content) + 1, record):
        lane = content[end - size:end]
        at = lane.index(20)
        content[end - size:end] = lane[:at] + b".0" + lane[at:-2]
    path.write_bytes(content)


def main():
    program, folder = sys.argv[1], pathlib.Path(sys.argv[2])
    turns = int(sys.argv[3]) if len(sys.argv) > 3 else 9
    path = folder / "laid-out.edf"
    odd = "two channels, a needless zero in each time"
    for name, night in {**nights(), odd: Night(EIGHT_HOURS, channels=2)}.items():
        write(path, night)
        if name == odd:
            spell_otherwise(path, night.lane)
        conform, layout, times, middle = by_turns(turns, (program, "conform", str(path)), (program, "layout", str(path)))
        print(f"{name}: conform {conform:.3f} s, layout {layout:.3f} s, {times:.2f} times, by medians {middle:.2f}", flush=True)


if __name__ == "__main__":
    main()
