#!/usr/bin/env python3
"""Measures two built programs on inputs on which a call may be dearer than it was.

usage: tools/speed/dearer.py [--times] OLD NEW [WORD]

It counts instructions by `valgrind --tool=callgrind` and prints a table: the input, the call, the millions of
instructions of OLD and of NEW, and the second by the first. With --times both run by turns instead, nine times each, and
the table has the medians of the processor's milliseconds; some inputs are larger then. With WORD only those inputs are
measured in whose names it stands. The inputs are the same in each run. They are written to a temporary folder, one at a
time: TMPDIR says where, and the largest takes 40 MB.

A check is that of the file with a copy of it, where nothing else is said, under a claim that keeps all. A lane is that of
an annotation signal in a data record; where nothing else is said the TAL that keeps the time stands alone in it, and
zeros behind it. Where the two programs answer something else, a line below the table says so, and the status is 1.
"""

import concurrent.futures
import dataclasses
import functools
import json
import os
import pathlib
import shutil
import statistics
import sys
import tempfile
import typing

sys.dont_write_bytecode = True
sys.path.insert(0, str(pathlib.Path(__file__).resolve().parent.parent.parent))

from tests.edf import field, lane, signal, values  # noqa: E402
from tests.long_nights import Night, remarks, short, write  # noqa: E402
from tests.recordings import claim_of, header  # noqa: E402

TURNS = 9
WHOLE = [("0", "999999999")]
ALL = ("conform", "check", "notes")

# The TAL that keeps the time of a data record at 0 s, and one that is none.
START = b"+0\x14\x14\0"
BAD = b"+"


@dataclasses.dataclass
class Input:
    """A file: its name, the commands that are measured on it, its channels, what writes it to a path, and where it is
    checked with another file than its copy what writes that one, which is the export."""
    name: str
    commands: tuple
    labels: list
    write: typing.Callable
    write_export: typing.Callable | None = None


# ---- files


def night_input(name, night):
    """A night that is checked with its copy."""
    return Input(name, ("check",), night.labels(), lambda path: write(path, night))


def head(records, samples, lanes):
    """The header of so many data records, of so many samples of each channel, and of so many bytes of each lane."""
    counts = [*samples, *(size // 2 for size in lanes)]
    edits = [(field("records"), str(records))]
    edits += [(signal(number, "label"), label) for number, label in enumerate(labels_of(samples))]
    edits += [(signal(number, "samples"), str(count)) for number, count in enumerate(counts)]
    return bytes(header([3] * len(samples) + [4] * len(lanes), edits))


def labels_of(samples):
    return [f"EEG {number}" for number in range(len(samples))]


def laid_input(name, commands, records, samples, lanes, texts_at):
    """A file with so many samples of each channel in a data record, and lanes of so many bytes. `texts_at` gives what
    stands in the lanes of a data record."""
    def lay(path):
        parts = [values([7 * number for number in range(count)]) for count in samples]
        with open(path, "wb") as file:
            file.write(head(records, samples, lanes))
            for record in range(records):
                filled = [lane(size, text) for size, text in zip(lanes, texts_at(record))]
                file.write(b"".join(parts + filled))

    return Input(name, commands, labels_of(samples), lay)


def lone_input(name, commands, text):
    """A file with one data record, of one sample and one lane with this text, which is made when the file is written."""
    def lay(path):
        made = text()
        size = len(made) + len(made) % 2
        pathlib.Path(path).write_bytes(head(1, [1], [size]) + values([7]) + lane(size, made))

    return Input(name, commands, labels_of([1]), lay)


def time_alone(record):
    return b"+%d\x14\x14" % record


# ---- inputs


def small_records():
    """Data records in which little stands but the time."""
    for size in (16, 24, 30, 34, 40, 64):
        yield night_input(f"40,000 data records of one sample, a lane of {size} bytes",
                          Night(40_000, channels=1, rate=1, lane=size, notes=[]))
    yield night_input("20,000 data records of one sample of two channels, a lane of 30 bytes",
                      Night(20_000, channels=2, rate=1, lane=30, notes=[]))
    for tenths, length in ((10, ""), (20, " of 2 s")):
        yield night_input(f"20,000 data records{length} of an ECG of 100 samples a second, a lane of 30 bytes",
                          Night(2_000 * tenths, channels=1, rate=100, tenths=tenths, lane=30, notes=[]))


def large_records(count):
    """Data records of more than 64 KB: so many with very many lanes, and two of nearly 16 MB."""
    def one_note(record):
        return [time_alone(record), *[b""] * 4_000, b"+%d\x14a\x14" % record, *[b""] * 4_998]

    yield laid_input(f"{count} data records of 9,000 lanes of 8 bytes, zeros behind the first lane", ("check", "notes"), count,
                     [1], [8] * 9_000, lambda record: [time_alone(record), *[b""] * 8_999])
    yield laid_input(f"{count} data records of 9,000 lanes of 8 bytes, an annotation in one lane", ("check", "notes"), count,
                     [1], [8] * 9_000, one_note)
    yield lone_input("a lane of 16,000,000 bytes of TALs without texts", ("check", "notes"),
                     lambda: (START + b"+0\x14\0" * 4_000_000)[:16_000_001])
    yield lone_input("an onset of 16,000,000 digits", ALL, lambda: b"+" + b"0" * 16_000_000 + START[2:])


def faulty_records():
    """Files that are refused in their one data record, of no more than 64 KB: the largest lane has 65,402 bytes, and with
    fewer texts it is smaller by as much. Beside them a file that conforms, and in which there is nothing else."""
    def faulty(count):
        text = START + b"+0" + b"\x14" * (count + 1) + b"\0" + BAD
        return lane(count * 65_402 // 64_000, text)

    # what it takes to begin and to read the headers
    yield lone_input("one data record of one sample", ALL, lambda: START)
    for count in (64_000, 2_000, 1_000, 500, 100):
        yield lone_input(f"{count:,} empty texts in a TAL and then a bad one", ("check", "notes"), functools.partial(faulty, count))


def many_lanes(records, few):
    """Data records with several annotation signals: 4,000 with 200 of them, so many with two, and fewer with two behind 22
    channels."""
    yield laid_input("4,000 data records of 200 lanes of an empty text each", ALL, 4_000, [1], [8] * 200,
                     lambda record: [time_alone(record)] * 200)
    yield laid_input(f"{records:,} data records of one sample and two lanes of an empty text each", ALL, records, [1],
                     [10] * 2, lambda record: [time_alone(record)] * 2)
    yield laid_input(f"{records:,} data records of one sample and two lanes, the second of zeros", ALL, records, [1],
                     [10] * 2, lambda record: [time_alone(record), b""])
    yield laid_input(f"{few:,} data records of 22 channels of 100 samples and two lanes of an empty text each", ALL, few,
                     [100] * 22, [10] * 2, lambda record: [time_alone(record)] * 2)


def many_annotations():
    """Data records with very many annotations."""
    def noted():
        return START + b"".join(tal for _, tal in remarks([short(number % 40_000) for number in range(400_000)], 40_000))

    whole = lone_input("400,000 annotations in a data record", ("check", "notes"), noted)
    faulty = lone_input("400,000 annotations in a data record and then a bad TAL", ("check", "notes"), lambda: noted() + BAD)
    yield whole
    yield faulty
    yield dataclasses.replace(whole, name=f"{whole.name}, and an export with a bad TAL behind them", commands=("check",),
                              write_export=faulty.write)
    yield lone_input("1,000,000 TALs of 8 quotation marks and then a bad TAL", ("notes",),
                     lambda: START + b"+0\x14\"\"\"\"\"\"\"\"\x14\0" * 1_000_000 + BAD)
    yield lone_input("999,998 TALs of a text of 5 bytes", ("conform", "notes"), lambda: START + b"+0\x14Spike\x14\0" * 999_998)


def inputs(are_timed):
    """All inputs; some are smaller where instructions are counted, which is slow."""
    yield from small_records()
    yield from large_records(500 if are_timed else 100)
    yield from faulty_records()
    yield from many_lanes(*((300_000, 20_000) if are_timed else (30_000, 2_000)))
    yield from many_annotations()


# ---- runs


def run(words, room):
    """Runs a command with its outputs to files in a folder: the processor's seconds, and what it answered."""
    outputs = [room / "out", room / "err"]
    taking = [(os.POSIX_SPAWN_OPEN, 0, os.devnull, os.O_RDONLY, 0)]
    for number, path in enumerate(outputs, 1):
        taking.append((os.POSIX_SPAWN_OPEN, number, str(path), os.O_WRONLY | os.O_CREAT | os.O_TRUNC, 0o600))
    process = os.posix_spawnp(words[0], words, os.environ, file_actions=taking)
    _, status, used = os.wait4(process, 0)
    answer = os.waitstatus_to_exitcode(status), *(path.read_bytes() for path in outputs)
    return used.ru_utime + used.ru_stime, answer


def counted(words, room):
    """Runs a command under callgrind: the millions of its instructions, and what it answered."""
    found = room / "callgrind"
    _, answer = run(["valgrind", "--tool=callgrind", f"--callgrind-out-file={found}", f"--log-file={room / 'log'}", *words], room)
    totals = [line for line in found.read_text().splitlines() if line.startswith(("summary:", "totals:"))]
    return int(totals[0].split()[1]) / 1e6, answer


def count_both(words, rooms):
    """The millions of instructions of both programs, which run side by side, and whether they answer the same."""
    with concurrent.futures.ThreadPoolExecutor(2) as pool:
        (old, first), (new, second) = pool.map(counted, words, rooms)
    return old, new, first == second


def time_both(words, rooms):
    """The medians of the milliseconds of both programs, which run by turns, and whether they answer the same."""
    times, answers = ([], []), set()
    for turn in range(TURNS):
        for which in (0, 1) if turn % 2 == 0 else (1, 0):
            seconds, answer = run(words[which], rooms[which])
            times[which].append(seconds)
            answers.add(answer)
    return *(1000 * statistics.median(seconds) for seconds in times), len(answers) == 1


def measure(programs, folder, given, both):
    """Writes an input to a folder, and prints the rows of its calls; the calls that differ."""
    paths = [str(folder / name) for name in ("file", "copy", "claim")]
    rooms = [folder / "old", folder / "new"]
    for room in rooms:
        room.mkdir()
    given.write(paths[0])
    if given.write_export:
        given.write_export(paths[1])
    else:
        shutil.copyfile(paths[0], paths[1])
    pathlib.Path(paths[2]).write_text(claim_of(json.dumps(given.labels), "", WHOLE), encoding="utf-8")
    # what was written goes to the disk now, and not while it is measured
    os.sync()
    differ = []
    for command in given.commands:
        words = [command, *(paths if command == "check" else paths[:1])]
        old, new, are_alike = both([[program, *words] for program in programs], rooms)
        print(f"| {given.name} | `{command}` | {old:,.3f} | {new:,.3f} | {new / old:.3f} |", flush=True)
        if not are_alike:
            differ.append(f"`{command}` of {given.name}")
    return differ


def main(words):
    are_timed = "--times" in words
    words = [word for word in words if word != "--times"]
    if len(words) not in (2, 3) or not all(os.access(word, os.X_OK) for word in words[:2]):
        print(__doc__, file=sys.stderr)
        return 2
    programs = [os.path.abspath(word) for word in words[:2]]
    what = "milliseconds" if are_timed else "millions of instructions"
    print(f"| input | call | {what}, old | {what}, new | new over old |")
    print("|---|---|---|---|---|")
    differ = []
    for given in inputs(are_timed):
        if words[2:] and words[2] not in given.name:
            continue
        with tempfile.TemporaryDirectory() as folder:
            differ += measure(programs, pathlib.Path(folder), given, time_both if are_timed else count_both)
    for name in differ:
        print(f"The two programs answer something else: {name}.")
    return 1 if differ else 0


if __name__ == "__main__":
    sys.exit(main(sys.argv[1:]))
