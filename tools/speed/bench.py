"""Measures a program on nights, beside tools of the system.

usage: bench.py PROGRAM FOLDER SECONDS..

Of each length in SECONDS it writes to FOLDER a night of 22 channels, a copy of it, and exports that have all
samples in data records of other lengths. It also writes a night of 8 hours that is handed out in 8 files, and nights
that are large in one respect: in how many data records they have, channels, intervals that the claim keeps,
annotations, texts and begins of texts that it removes. It prints tables: of each command the processor's time, the
time by the clock and the most memory that it held, as medians of five runs; and the processor's time as a multiple of
that of `cmp` on the night and its copy. Of the first night in SECONDS it measures a receipt, too, beside the check and
`sha256sum` of both files, as medians of three runs, and a draft and an explanation beside the check. Of the night in 8
files it prints how many times the check of them takes the times of the check of one file. The nights that are large in
one respect have a line each.
"""

import functools
import os
import pathlib
import resource
import shutil
import statistics
import sys
import time

sys.dont_write_bytecode = True
sys.path.insert(0, str(pathlib.Path(__file__).resolve().parent.parent.parent))

from tests.long_nights import Night, remarks, short, stages, write  # noqa: E402

RUNS = 5
# of a table of receipts, as a digest takes long
RECEIPT_RUNS = 3
WHOLE = [("0", "999999999")]
EIGHT_HOURS = 28800
PARTS = 8

# how many times the processor's time of the check of one file that of the same in parts is to take at most
PARTS_BOUND = 1.1

# Some systems' sha256sum has its digests from libcrypto (`ldd` tells), which takes the processor's own instructions for
# SHA where there are any. This clears the bit that says so, 29 of EBX in leaf 7 of CPUID, so that libcrypto digests by
# other instructions, those for vectors among them. A sha256sum without libcrypto is plain C, and doesn't look at it.
WITHOUT_SHA = "OPENSSL_ia32cap=:~0x20000000"


def memory_of(process):
    """The most memory that a running process has held so far, in units of 1024 bytes; 0 where it has ended."""
    try:
        status = pathlib.Path(f"/proc/{process}/status").read_text()
    except OSError:
        return 0
    return next((int(line.split()[1]) for line in status.splitlines() if line.startswith("VmHWM:")), 0)


def run(words, front):
    """Runs a command, whose standard output has to begin with a text: its two times and its memory."""
    reading, writing = os.pipe()
    taking = [(os.POSIX_SPAWN_DUP2, writing, 1), (os.POSIX_SPAWN_CLOSE, writing), (os.POSIX_SPAWN_CLOSE, reading)]
    if not front:
        taking = [(os.POSIX_SPAWN_OPEN, 1, os.devnull, os.O_WRONLY, 0)]
    begin = time.perf_counter()
    process = os.posix_spawnp(words[0], words, os.environ, file_actions=taking)
    seen, ended = 0, 0
    while not ended:
        seen = memory_of(process) or seen
        time.sleep(0.0005)
        ended, status, used = os.wait4(process, os.WNOHANG)
    clock = time.perf_counter() - begin
    os.close(writing)
    with os.fdopen(reading, "rb") as output:
        said = output.read()
    if status != 0 or not said.startswith(front.encode()):
        sys.exit(f"{' '.join(words)}: status {os.waitstatus_to_exitcode(status)}, {said.decode(errors='replace')}")
    # what the system says of a process that has ended counts the memory of this one, too, from which it was made
    own = resource.getrusage(resource.RUSAGE_SELF).ru_maxrss
    return used.ru_utime + used.ru_stime, clock, used.ru_maxrss if used.ru_maxrss > own else seen


def median(words, front="", runs=RUNS):
    return [statistics.median(column) for column in zip(*(run(words, front) for _ in range(runs)))]


def memory_text(units):
    return f"{units / 1e6 * 1.024:.1f} GB" if units > 10**6 else f"{units / 1e3 * 1.024:.1f} MB"


def print_table(title, commands, runs=RUNS):
    """A table of commands: name, words, and what the output begins with. The first one is `cmp`. It gives the two times
    of each."""
    print(f"| {title} | processor | clock | memory | by `cmp` |")
    print("|---|---|---|---|---|")
    times = []
    for name, words, front in commands:
        work, clock, memory = median(words, front, runs)
        times.append((work, clock))
        print(f"| {name} | {work:.3f} s | {clock:.3f} s | {memory_text(memory)} | {work / times[0][0]:.2f} |",
              flush=True)
    print()
    return times


def print_row(title, commands):
    """A line of a table for a night, of `cmp`, `conform` and `check` on it, with the memory of the last."""
    (base, *_), (conform, *_), (check, _, memory) = [median(words, front) for _, words, front in commands]
    print(f"| {title} | {base:.3f} s | {conform:.3f} s | {check:.3f} s | {check / base:.2f} | {memory_text(memory)} |",
          flush=True)


def print_receipts(program, title, night, copy, document):
    """A table of a receipt beside the check and the digests of the same two files, and the one by the others."""
    _, check, sums, plain_sums, receipt = print_table(f"a receipt of {title}", [
        ("`cmp`, with the copy", ["cmp", night, copy], ""),
        ("`edfclaim check`, with the copy", [program, "check", night, copy, document], "YES "),
        ("`sha256sum`, of the night and the copy", ["sha256sum", night, copy], ""),
        ("the same without the instructions for SHA", ["env", WITHOUT_SHA, "sha256sum", night, copy], ""),
        ("`edfclaim receipt`, with the copy", [program, "receipt", night, copy, document], "edfclaim "),
    ], RECEIPT_RUNS)
    print(f"The receipt takes {receipt[0] / check[0]:.2f} times the processor's time of the check, "
          f"{receipt[0] / sums[0]:.2f} times that of `sha256sum`, {receipt[0] / plain_sums[0]:.2f} times that of "
          "`sha256sum` without the instructions for SHA, and "
          f"{receipt[0] / (check[0] + plain_sums[0]):.2f} times that of the check and of the latter together; by the "
          f"clock {receipt[1] / check[1]:.2f}, {receipt[1] / sums[1]:.2f}, {receipt[1] / plain_sums[1]:.2f} and "
          f"{receipt[1] / (check[1] + plain_sums[1]):.2f} times.\n", flush=True)


def print_helpers(program, title, night, exports, document):
    """A table of the draft of a claim and of a check that explains itself, with each export, which has a name: also the
    processor's time by that of the check of the same two files."""
    print(f"| drafts and explanations of {title} | processor | clock | memory | by `check` |")
    print("|---|---|---|---|---|")
    for name, export in exports:
        base = None
        for command, words, front in (
            ("check", [document], "YES "), ("draft", [], "# With this draft"), ("explain", [document], "YES "),
        ):
            work, clock, memory = median([program, command, night, export, *words], front)
            base = base or work
            print(f"| `edfclaim {command}`, with {name} | {work:.3f} s | {clock:.3f} s | {memory_text(memory)} "
                  f"| {work / base:.2f} |", flush=True)
    print()


def claim(night, keep, remove, prefixes):
    """The text of a claim: all channels, these intervals, these texts, these begins of texts."""
    def listed(texts):
        return "[" + ",".join(f'"{text}"' for text in texts) + "]"

    removed = f"remove = {listed(remove)}\n" if remove else ""
    if prefixes:
        removed += f"remove-prefix = {listed(prefixes)}\n"
    kept = "".join(f'[[keep]]\nfrom = "{begin}"\nto = "{end}"\n' for begin, end in keep)
    return f"format = {2 if prefixes else 1}\nchannels = {listed(night.labels())}\n{removed}{kept}"


def written(folder, night, exports, document):
    """Writes a night, a copy of it, its exports, each with a name, and a claim: their paths, and those of the exports
    with their names. What is written goes to the disk before it is measured."""
    paths = {name: str(folder / name) for name in ("night", "copy", "claim")}
    write(paths["night"], night)
    shutil.copyfile(paths["night"], paths["copy"])
    pathlib.Path(paths["claim"]).write_text(document, encoding="utf-8")
    named = []
    for number, (name, export) in enumerate(exports):
        path = paths["copy"]
        if export is not night:
            path = str(folder / f"export{number}")
            write(path, export)
        named.append((name, path))
    os.sync()
    return paths, named


def commands_of(program, paths, named, others=()):
    """What is measured on a night, as `print_table` takes it."""
    yield "`cmp`, with a copy", ["cmp", paths["night"], paths["copy"]], ""
    for words in others:
        yield f"`{' '.join(words)}`", [*words, paths["night"]], ""
    yield "`edfclaim conform`", [program, "conform", paths["night"]], "CONFORMS "
    for name, path in named:
        yield f"`edfclaim check`, with {name}", [program, "check", paths["night"], path, paths["claim"]], "YES "


def size_text(path):
    return f"{os.path.getsize(path) / 1e6:.1f} MB"


def clear(folder):
    for path in folder.iterdir():
        path.unlink()


def measure_shape(program, folder, title, night, export=None, keep=WHOLE, remove=(), prefixes=()):
    """Prints the line of a night that is large in one respect: checked with an export, or where there is none with its
    copy."""
    paths, named = written(folder, night, [("it", export or night)], claim(night, keep, remove, prefixes))
    print_row(f"{title}; {size_text(paths['night'])}", commands_of(program, paths, named))
    clear(folder)


def by_turns(commands):
    """Of each command, which are run by turns, the processor's time and the time by the clock."""
    turns = [[run(words, front) for words, front in commands] for _ in range(2 * RUNS - 1)]
    return [[statistics.median(column) for column in zip(*runs)][:2] for runs in zip(*turns)]


def measure_parts(program, folder, seconds):
    """Writes a night, the same once more and in parts, and prints a table of the check of the one and of the others,
    and the first by the second. All are written in one way: a system may read the pages of a copied file faster."""
    night = Night(seconds)
    original, copy, document = (str(folder / name) for name in ("night", "copy", "claim"))
    parts = [str(folder / f"part{number}") for number in range(PARTS)]
    write(original, night)
    write(copy, night)
    for path, part in zip(parts, night.parts(PARTS)):
        write(path, part)
    pathlib.Path(document).write_text(claim(night, WHOLE, (), ()), encoding="utf-8")
    whole = [program, "check", original, copy, document], "YES "
    cut = [program, "check-parts", original, document, *parts], f"YES parts {PARTS} "
    os.sync()
    print_table(f"a night of {seconds} s in {PARTS} files, {os.path.getsize(original) / 1e6:.1f} MB", [
        ("`cmp`, with the same once more", ["cmp", original, copy], ""),
        ("`edfclaim check`, with the same once more", *whole),
        (f"`edfclaim check-parts`, with the {PARTS} files", *cut),
    ])
    one, several = by_turns([whole, cut])
    print(f"The check of the {PARTS} files takes {several[0] / one[0]:.2f} times the processor's time of that of one "
          f"file, and {several[1] / one[1]:.2f} times its time by the clock (by turns; wanted: at most {PARTS_BOUND}).\n",
          flush=True)
    clear(folder)


def touching(seconds):
    """1,000 intervals, each of which begins where the one before ends."""
    bounds = [f"{seconds * k // 1000}.{seconds * k % 1000:03}" for k in range(1001)]
    return list(zip(bounds, bounds[1:]))


def measure_length(program, folder, seconds, receipts):
    """Prints the table of a night, and where it is asked for those of a receipt, of drafts and of explanations."""
    night, title = Night(seconds), f"a night of {seconds} s"
    exports = [("the copy", night), ("an export in data records of 10 s", Night(seconds, tenths=100, lane=256))]
    paths, named = written(folder, night, exports, claim(night, WHOLE, (), ()))
    commands = commands_of(program, paths, named, others=(["cat"], ["sha256sum"]))
    print_table(f"{title}, {size_text(paths['night'])}", commands)
    if receipts:
        print_receipts(program, title, paths["night"], paths["copy"], paths["claim"])
        print_helpers(program, title, paths["night"], named, paths["claim"])
    clear(folder)


def measure_shapes(program, folder):
    """Nights that are large in one respect."""
    print("| the night, and its export if it isn't the copy | `cmp` | `conform` | `check` | by `cmp` | memory |")
    print("|---|---|---|---|---|---|")
    shape = functools.partial(measure_shape, program, folder)
    shape("28,770 s, in data records of 0.7 s", Night(28770), Night(28770, tenths=7, lane=96))
    shape("2,000,000 data records of 52 bytes", Night(2_000_000, channels=1, rate=20, lane=12, notes=[]))
    for rate, seconds in ((100, 100), (1, 5000)):
        shape(f"9,999 signals of {rate} Hz", Night(seconds, channels=9998, rate=rate))
    shape("a claim of 1,000 intervals", Night(EIGHT_HOURS), keep=touching(EIGHT_HOURS))
    shape("the same, data records of 16.5 MB", Night(28600, tenths=22000, lane=4096), keep=touching(28600))
    noted = Night(EIGHT_HOURS, lane=1024, notes=remarks(["Spike"] * 1_000_000, EIGHT_HOURS))
    shape("1,000,000 annotations", noted)
    texts = [short(k) for k in range(8000)]
    shape("the same, 8,000 begins of texts in `remove-prefix`", noted, prefixes=texts)
    remarked = Night(EIGHT_HOURS, notes=sorted(stages(EIGHT_HOURS) + remarks(texts, EIGHT_HOURS)))
    shape("8,000 texts in `remove`, without them", remarked, Night(EIGHT_HOURS), remove=texts)


def main(program, folder, *lengths):
    for number, length in enumerate(lengths):
        measure_length(program, folder, int(length), number == 0)
    measure_parts(program, folder, EIGHT_HOURS)
    measure_shapes(program, folder)


if __name__ == "__main__":
    main(sys.argv[1], pathlib.Path(sys.argv[2]), *sys.argv[3:])
