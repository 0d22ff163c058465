#!/usr/bin/env python3
"""How long an explanation takes beside the check of the same files.

usage: explained.py PROGRAM FOLDER [SECONDS [TURNS]]

It writes to FOLDER a night of 22 channels, of 8 hours where no SECONDS are said, a multiple of 60, and exports of it: a copy; one
with another value in its middle; one in which all channels have half as many samples, one twice as many, and one that has 128 for
170; one in which each value is another one; and one in two halves, the second with another value in its middle. PROGRAM checks and
explains each by turns, nine times where no TURNS are said. A line for each says the least of the processor's time, how many times
that of the check the explanation takes, and the same of the medians: whatever else the machine does only adds to a time, so the
least is the nearest to what the program takes. Each claim keeps all, so no shift and no interval is tried. The last line is the
largest of these numbers.
"""

import dataclasses
import os
import pathlib
import resource
import statistics
import subprocess
import sys

sys.dont_write_bytecode = True
sys.path.insert(0, str(pathlib.Path(__file__).resolve().parent.parent.parent))

from tests.long_nights import Night, other_values, write  # noqa: E402

EIGHT_HOURS = 28800
# beside the 170 samples a second of a night: both have a sample at the same instant twice a second
OTHER_RATE = 128


def places_of(content):
    """Where the data records of a file begin, and how many bytes each has."""
    header = 256 * int(content[252:256]) + 256
    return header, (len(content) - header) // int(content[236:244])


def one_other(path, other):
    """A copy of a night with another value in its middle."""
    content = bytearray(pathlib.Path(path).read_bytes())
    header, record = places_of(content)
    content[header + record * ((len(content) - header) // record // 2)] ^= 1
    pathlib.Path(other).write_bytes(content)


def work(*words):
    """The processor's time of a command."""
    before = resource.getrusage(resource.RUSAGE_CHILDREN)
    subprocess.run(words, stdout=subprocess.DEVNULL, stderr=subprocess.DEVNULL, check=False)
    after = resource.getrusage(resource.RUSAGE_CHILDREN)
    return after.ru_utime - before.ru_utime + after.ru_stime - before.ru_stime


def by_turns(turns, one, other):
    """The least of the processor's time of two commands that are run by turns, how many times the first the second takes by these,
    and by the medians."""
    columns = list(zip(*[(work(*one), work(*other)) for _ in range(turns)]))
    first, second = map(min, columns)
    middle_first, middle_second = map(statistics.median, columns)
    return first, second, second / first, middle_second / middle_first


def write_all(folder, night):
    """Writes a night, and answers its exports in one file by their names, the night being the first, and its halves."""
    exports = {"a copy": folder / "night.edf"}
    write(exports["a copy"], night)
    rates = {"half as many samples": night.rate // 2, "twice as many samples": night.rate * 2, "samples at another rate": OTHER_RATE}
    for name, rate in rates.items():
        exports[name] = folder / f"rate-{rate}.edf"
        write(exports[name], dataclasses.replace(night, rate=rate))
    exports["one other value"], exports["all other values"] = folder / "one-other.edf", folder / "all-other.edf"
    one_other(exports["a copy"], exports["one other value"])
    other_values(exports["a copy"], exports["all other values"], night)
    halves = [folder / "half-0.edf", folder / "half-1.edf"]
    for path, half in zip(halves, night.parts(2)):
        write(path, half)
    one_other(halves[1], halves[1])
    return exports, halves


def main():
    program, folder = sys.argv[1], pathlib.Path(sys.argv[2])
    seconds = int(sys.argv[3]) if len(sys.argv) > 3 else EIGHT_HOURS
    turns = int(sys.argv[4]) if len(sys.argv) > 4 else 9
    night = Night(seconds)
    exports, halves = write_all(folder, night)
    path, claim = exports["a copy"], folder / "claim.toml"
    labels = ", ".join(f'"{label}"' for label in night.labels())
    claim.write_text(f'format = 1\nchannels = [{labels}]\n[[keep]]\nfrom = "0"\nto = "999999999"\n', encoding="utf-8")
    os.sync()
    runs = [(name, "check", "explain", [path, export, claim]) for name, export in exports.items()]
    runs.append(("two halves, one other value", "check-parts", "explain-parts", [path, claim, *halves]))
    largest = 0.0
    for name, first, second, files in runs:
        check, explain, times, middle = by_turns(turns, (program, first, *files), (program, second, *files))
        largest = max(largest, times)
        print(f"{name}: {first} {check:.3f} s, {second} {explain:.3f} s, {times:.2f} times, by medians {middle:.2f}", flush=True)
    print(f"{largest:.2f}")


if __name__ == "__main__":
    main()
