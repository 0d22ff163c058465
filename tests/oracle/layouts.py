"""Looks whether `layout` prints of random files what a second reading of its definitions does (layout.py), that each file is
written anew of what it means and these lines, byte for byte (layout_written.py), and that no two files with one meaning have
the same lines.

usage: python3 -m tests.oracle.layouts PROGRAM [COUNT [SEED]]

It makes COUNT files (2,000 where none is said; SEED is a number, 1 if none is said, and the same number makes the same files),
in families. The first of a family is plain, in one of the two orders, and known to be by how it was made; or some places of
its header are odd; or its lanes have hardly room for its annotations. Each of the others is the first one rearranged, so that
it means the same: zeros more in times and numbers, spaces more, a duration on a TAL that only keeps the time, TALs without a
text, several texts in one TAL, annotations in other data records and other lanes, channels in another order. One file in
ten is any file that the readers are tried on (cases.py), half of them with a fault. PROGRAM runs `layout` on each.

What disagrees is said, of twenty files at the most. The last line counts the files that passed and failed.
"""

import collections
import copy
import os
import random
import subprocess
import sys
import tempfile

from tests import edf
from tests.oracle import cases
from tests.oracle.layout import BY_TIME, ONE_BY_ONE, Tal, meaning, plain_lanes, printed, rank
from tests.oracle.layout_written import written
from tests.reading import rules

choose = random.Random()
TEXTS = [b"", b"a", b"b", b"Apnea", "ä€".encode(), b"Lights off", b"tab\t", b"a" * 30]
SECOND = 10**12


def one_of(*values):
    return choose.choice(values)


def often(part):
    return choose.random() < part


# ---- headers


def plain_column(label, samples):
    """The texts of a signal."""
    is_channel = label != edf.ANNOTATIONS
    line = one_of(("-100", "100"), ("0", "-0.5"), ("34.4", "40.25")) if is_channel else one_of(("-1", "1"), ("0", "2"))
    digital = one_of(("-2048", "2047"), ("0", "1")) if is_channel else ("-32768", "32767")
    names = ["physical-minimum", "physical-maximum", "digital-minimum", "digital-maximum"]
    texts = {"label": label, "transducer": one_of("", "cup"), "dimension": "uV", "prefilter": "", "samples": str(samples)}
    return {**texts, "reserved": one_of("", "note"), **dict(zip(names, [*line, *digital]))}


def plain_header(records, samples):
    """A header without an odd place, of one to three channels and as many annotation signals as there are numbers."""
    columns = [plain_column(label, one_of(1, 2, 3)) for label in choose.sample(["EEG", "ECG", "\"x\\", "Temp"], one_of(1, 2, 3))]
    columns += [plain_column(edf.ANNOTATIONS, number) for number in samples]
    choose.shuffle(columns)
    fixed = {
        "patient": one_of("X X X X", "MCH F 02-MAY-1951 Harry", "X M X X Ward7 X"),
        "recording": one_of("Startdate X X X X", "Startdate 02-MAR-2002 PSG NN cup a"), "startdate": "02.03.02",
        "starttime": "22.00.00", "records": str(records), "duration": one_of("1", "0.5", "30"),
    }
    return edf.header({**fixed, "reserved": one_of("EDF+C", "EDF+D", "EDF+D free")}, columns)


def odd_header(records, samples):
    """One whose spellings are odd, maybe, with so many data records."""
    cases.choose.seed(choose.randrange(2**32))
    file, _, found = cases.sound_header()
    left = list(samples)
    edf.put(file, len(found), edf.field("records"), one_of("%d", "0%d", "+%d") % records)
    for number, one in enumerate(found):
        if one["label"] == rules.ANNOTATIONS:
            edf.put(file, len(found), edf.signal(number, "samples"), one_of("%d", "00%d") % (left.pop(0) if left else 8))
    return bytes(file)


def header_with_two(records, samples):
    """One that is plain but for two additional subfields X."""
    file = bytearray(plain_header(records, samples))
    edf.put(file, len(file) // 256 - 1, edf.field("patient"), one_of("X X X X X X", "X X X X X a X"))
    return bytes(file)


# ---- files


class Laid:
    """A file: its header; where its data records start; and for each of them the lanes of its signals, each the bytes of a
    channel or the TALs of an annotation signal."""

    def __init__(self, head, starts, tals):
        self.head, self.starts = bytearray(head), starts
        said = rules.fixed_part(bytes(head))
        self.signals = rules.signals(bytes(head), said["signals"])
        self.records = [[self.lane(one, lanes) for one in self.signals] for lanes in map(iter, tals)]

    @staticmethod
    def lane(one, lanes):
        if one["label"] == rules.ANNOTATIONS:
            return list(next(lanes))
        return choose.randbytes(2 * one["samples"])

    def annotation_signals(self):
        return [number for number, one in enumerate(self.signals) if one["label"] == rules.ANNOTATIONS]

    def is_keeper(self, record, signal, place):
        """Whether the TAL at this place keeps the time."""
        return place == 0 and signal == self.annotation_signals()[0]

    def fits(self):
        return all(sum(len(tal.bytes()) for tal in lanes[number]) <= 2 * self.signals[number]["samples"]
                   for lanes in self.records for number in self.annotation_signals())

    def bytes(self):
        file = bytes(self.head)
        for lanes in self.records:
            for one, lane in zip(self.signals, lanes):
                is_list = isinstance(lane, list)
                file += edf.lane(2 * one["samples"], b"".join(tal.bytes() for tal in lane)) if is_list else lane
        return file


def random_starts(said, records):
    """Where the data records start."""
    start, found = one_of(0, 0, 0, 1, SECOND // 4, SECOND - 1), []
    for _ in range(records):
        found.append(start)
        start += said["duration"] * 100_000
        if said["reserved"][:5] == b"EDF+D" and often(0.4):
            start += one_of(1, SECOND, 90 * SECOND + 5 * 10**11)
    return found


def random_notes(starts):
    """Annotations: some equal, some at one time, some before the first data record and behind the last one."""
    found = []
    for _ in range(one_of(0, 1, 2, 3, 4, 6, 9)):
        if found and often(0.3):
            found.append(one_of(*found) if often(0.4) else (one_of(*found)[0], one_of(None, 0, SECOND), one_of(*TEXTS)))
            continue
        onset = one_of(*starts, one_of(*starts) + one_of(1, SECOND // 4, SECOND), -SECOND * 7, starts[-1] + 10**15, 0)
        found.append((onset, one_of(None, None, 0, SECOND, 3 * SECOND // 2, 1), one_of(*TEXTS)))
    return found


def made_tal(onset, duration, text):
    """The TAL of one annotation."""
    return Tal(edf.onset(onset).encode(), None if duration is None else edf.seconds(duration).encode(), (text,))


def put_plainly(order, notes, starts, width):
    """The TALs of all lanes where the first lane of each data record has room for all of its annotations."""
    lanes = [[[made_tal(start, None, b"")]] + [[] for _ in range(width - 1)] for start in starts]
    for number, note in enumerate(sorted(notes, key=rank)):
        begun = [record for record, start in enumerate(starts) if start <= note[0]]
        by_time = begun[-1] if begun else 0
        lanes[number % len(starts) if order == ONE_BY_ONE else by_time][0].append(made_tal(*note))
    return lanes


def first_of_family():
    """A file, the order in which its annotations are put, and whether its header is plain and its lanes are wide."""
    width, records, order = one_of(1, 1, 2, 3), one_of(1, 2, 3, 4, 7), one_of(ONE_BY_ONE, BY_TIME)
    is_wide, is_plain = often(0.5), often(0.7)
    samples = [600 if is_wide else one_of(12, 20, 30) for _ in range(width)]
    head = (plain_header if is_plain else one_of(odd_header, odd_header, header_with_two))(records, samples)
    said = rules.fixed_part(head)
    signals = rules.signals(head, said["signals"])
    sizes = [2 * one["samples"] for one in signals if one["label"] == rules.ANNOTATIONS]
    starts = random_starts(said, records)
    notes = random_notes(starts)
    if is_wide and is_plain:
        return Laid(head, starts, put_plainly(order, notes, starts, len(sizes))), order, True
    while True:
        lanes, left = plain_lanes(order, sorted(notes, key=rank), sizes, starts)
        file = Laid(head, starts, lanes)
        if not left and file.fits():
            return file, order, False
        if not notes:
            return first_of_family()
        notes.remove(one_of(*notes))


# ---- files that mean the same


def spelled_otherwise(text, sign=b""):
    """The text of a time, maybe with zeros more, or without."""
    whole, _, fraction = text[len(sign):].partition(b".")
    whole, fraction = whole.lstrip(b"0") or b"0", fraction.rstrip(b"0")
    whole = one_of(b"", b"", b"0", b"000") + whole
    fraction += one_of(b"", b"", b"0", b"00")
    if sign and not whole.strip(b"0") and not fraction.strip(b"0"):
        sign = one_of(b"+", b"-")
    return sign + whole + (b"." + fraction if fraction else b"")


def some_tal(file):
    """The place of a TAL."""
    record, signal = choose.randrange(len(file.records)), one_of(*file.annotation_signals())
    lane = file.records[record][signal]
    return (record, signal, choose.randrange(len(lane))) if lane else None


def respell_onset(file):
    if spot := some_tal(file):
        record, signal, place = spot
        lane = file.records[record][signal]
        lane[place] = lane[place]._replace(onset=spelled_otherwise(lane[place].onset, lane[place].onset[:1]))


def respell_duration(file):
    if spot := some_tal(file):
        record, signal, place = spot
        lane = file.records[record][signal]
        if lane[place].duration is not None:
            lane[place] = lane[place]._replace(duration=spelled_otherwise(lane[place].duration))


def change_timekeeping(file):
    """Another duration, or none, of a TAL that keeps the time and says nothing else."""
    lane = one_of(*file.records)[file.annotation_signals()[0]]
    if len(lane[0].texts) == 1:
        lane[0] = lane[0]._replace(duration=one_of(None, b"0", b"1", b"2.50", b"01"))


def add_empty(file):
    """A TAL more without a text."""
    record, signal = choose.randrange(len(file.records)), one_of(*file.annotation_signals())
    lane = file.records[record][signal]
    first = int(signal == file.annotation_signals()[0])
    lane.insert(choose.randint(first, len(lane)), Tal(one_of(b"+5", b"-1.0", b"+0"), one_of(None, None, b"1", b"0.0"), ()))


def drop_empty(file):
    for lanes in file.records:
        for signal in file.annotation_signals():
            lanes[signal] = [tal for tal in lanes[signal] if tal.texts or often(0.3)]


def move_tal(file):
    """A TAL to another place, but for one that keeps the time."""
    if (spot := some_tal(file)) and not file.is_keeper(*spot):
        record, signal, place = spot
        tal = file.records[record][signal].pop(place)
        to = file.records[choose.randrange(len(file.records))], one_of(*file.annotation_signals())
        lane = to[0][to[1]]
        lane.insert(choose.randint(int(to[1] == file.annotation_signals()[0]), len(lane)), tal)


def swap_tals(file):
    """Two TALs of one lane, or of two."""
    spots = [spot for spot in (some_tal(file), some_tal(file)) if spot and not file.is_keeper(*spot)]
    if len(spots) == 2:
        (r, s, p), (t, u, q) = spots
        here, there = file.records[r][s], file.records[t][u]
        here[p], there[q] = there[q], here[p]


def split_texts(file):
    """The last text of a TAL in one of its own."""
    if spot := some_tal(file):
        record, signal, place = spot
        lane = file.records[record][signal]
        if len(lane[place].texts) > 1:
            *texts, last = lane[place].texts
            lane.insert(place + 1, lane[place]._replace(texts=(last,)))
            lane[place] = lane[place]._replace(texts=tuple(texts))


def join_texts(file):
    """The texts of a TAL in another one with the same times."""
    spots = [(record, signal, place) for record, lanes in enumerate(file.records) for signal in file.annotation_signals()
             for place in range(len(lanes[signal]))]
    choose.shuffle(spots)
    for one in spots:
        for other in spots:
            r, s, p = one
            t, u, q = other
            here, there = file.records[r][s], file.records[t][u]
            if one != other and not file.is_keeper(*other) and here[p].times() == there[q].times() and there[q].texts:
                at = one_of(len(here[p].texts), int(file.is_keeper(*one)))
                texts = here[p].texts
                here[p] = here[p]._replace(texts=texts[:at] + there[q].texts + texts[at:])
                del there[q]
                return


def respell_number(file):
    """A number of the header in another spelling."""
    count = len(file.signals)
    names = ["physical-minimum", "physical-maximum", "digital-minimum", "digital-maximum", "samples"]
    places = [edf.field(name) for name in ("header-bytes", "records", "duration", "signals")]
    place = one_of(*places, *(edf.signal(number, name) for number in range(count) for name in names))
    at, width = edf.extent(place, count)
    text = rules.text(bytes(file.head[at:at + width]))
    is_whole = place[1] not in ("duration", "physical-minimum", "physical-maximum")
    sign = text[:1] if text[:1] in (b"+", b"-") else b""
    plain = text[len(sign):].lstrip(b"0")
    plain = plain if plain.strip(b".") else b"0" + plain
    other = one_of(b"", b"+", b"0", b"+0") + plain if sign != b"-" else sign + one_of(b"", b"0") + plain
    if not is_whole and b"." not in other:
        other += one_of(b"", b".", b".0")
    if len(other) <= width:
        edf.put(file.head, count, place, other)


def respace(file):
    """More spaces, or fewer, between two subfields."""
    name = one_of("patient", "recording")
    at, width = edf.extent(edf.field(name), len(file.signals))
    parts = bytes(file.head[at:at + width]).split()
    text = parts[0] + b"".join(b" " * one_of(1, 1, 2, 5) + part for part in parts[1:])
    if len(text) <= width:
        edf.put(file.head, len(file.signals), edf.field(name), text)


def reorder_signals(file):
    """A channel at another place."""
    channels = [number for number, one in enumerate(file.signals) if one["label"] != rules.ANNOTATIONS]
    order = list(range(len(file.signals)))
    order.remove(moved := one_of(*channels))
    order.insert(choose.randint(0, len(order)), moved)
    count, head = len(order), file.head[:256]
    for _, before, width in rules.COLUMNS:
        for number in order:
            at = 256 + before * count + width * number
            head += file.head[at:at + width]
    file.head = head
    file.signals = [file.signals[number] for number in order]
    file.records = [[lanes[number] for number in order] for lanes in file.records]


WAYS = [
    respell_onset, respell_duration, change_timekeeping, add_empty, drop_empty, move_tal, move_tal, move_tal, swap_tals,
    split_texts, join_texts, join_texts, respell_number, respace, reorder_signals,
]


def rearranged(file, ways):
    """The file with one change or more that leave what it means; with none, where those that are tried change nothing."""
    changed, wanted = copy.deepcopy(file), one_of(1, 1, 2, 4)
    for _ in range(wanted + 8):
        tried = copy.deepcopy(changed)
        one_of(*ways)(tried)
        if tried.fits() and tried.bytes() != changed.bytes():
            changed, wanted = tried, wanted - 1
        if wanted == 0:
            break
    return changed


# ---- what is printed, and what is to be


class Layouts:
    """The program in a folder of its own, and what was seen."""

    def __init__(self, program, work):
        self.program, self.path, self.seen = program, os.path.join(work, "made.edf"), collections.Counter()

    def wrong(self, file):
        """What is printed of a file, and what is wrong with it, or none."""
        with open(self.path, "wb") as made:
            made.write(file)
        how = {"stdin": subprocess.DEVNULL, "stdout": subprocess.PIPE, "stderr": subprocess.STDOUT, "close_fds": False}
        ran = subprocess.run([self.program, "layout", self.path], check=False, **how)
        status, want = printed(file)
        last = want.splitlines()[-1].split()[:2 if status else 1]
        self.seen[b" ".join(last).decode() if last[0] != b"FAULT" else "FAULT"] += 1
        self.seen["an order by time"] += BY_TIME + b"\n" in want
        if (ran.returncode, ran.stdout) != (status, want):
            return ran.stdout, f"{file.hex()}\nstatus {ran.returncode}, wanted {status}; given and wanted:\n" \
                f"{ran.stdout.decode(errors='replace')}----\n{want.decode(errors='replace')}"
        if last[0] != b"FAULT" and written(meaning(file), ran.stdout) != file:
            return ran.stdout, f"another file is written of what it means and its lines: {file.hex()}"
        return ran.stdout, None

    def family(self, size):
        """What is wrong with each file of a family, or none."""
        first, order, is_known = first_of_family()
        # files that differ in one way alone are the more like one another
        ways = one_of(WAYS, [one_of(*WAYS)])
        files = [first, *(rearranged(first, ways) for _ in range(size - 1))]
        texts = [file.bytes() for file in files]
        means = meaning(texts[0])
        printed_of, found = {}, []
        for number, text in enumerate(texts):
            given, wrong = self.wrong(text)
            if wrong is None and meaning(text) != means:
                wrong = f"it doesn't mean the same as the first of its family: {text.hex()}"
            if wrong is None and printed_of.setdefault(given, text) != text:
                wrong = f"another file that means the same has the same lines: {text.hex()} and {printed_of[given].hex()}"
            if wrong is None and number == 0 and is_known:
                wrong = wrong_plain(given, order)
            found.append(wrong)
        self.seen["other files of a family"] += len(printed_of) - 1
        return found


def wrong_plain(given, order):
    """What is wrong with what is printed of a file that was made plain in this order; both orders may fit."""
    lines = given.splitlines()
    fits = lines[-2] == order or lines[-2] == ONE_BY_ONE
    return None if lines[-1] == b"PLAIN" and fits else f"made plain, {order.decode()}; given: {given.decode()}"


def tries(layouts, count):
    """What is wrong with each of so many files, or none."""
    while count > 0:
        if often(1 / 4):
            cases.choose.seed(choose.randrange(2**32))
            found = [layouts.wrong(cases.whole_file())[1]]
        else:
            found = layouts.family(min(count, one_of(1, 3, 5)))
        yield from found
        count -= len(found)


def main():
    if len(sys.argv) not in (2, 3, 4) or not os.access(sys.argv[1], os.X_OK):
        print("usage: python3 -m tests.oracle.layouts PROGRAM [COUNT [SEED]]", file=sys.stderr)
        return 2
    count = int(sys.argv[2]) if len(sys.argv) > 2 else 2000
    choose.seed(int(sys.argv[3]) if len(sys.argv) > 3 else 1)
    failed = 0
    shared = "/dev/shm" if os.access("/dev/shm", os.W_OK) else None
    with tempfile.TemporaryDirectory(dir=shared) as work:
        layouts = Layouts(os.path.abspath(sys.argv[1]), work)
        for number, wrong in enumerate(tries(layouts, count)):
            if wrong:
                failed += 1
                if failed <= 20:
                    print(f"file {number}: {wrong}")
    for name, times in sorted(layouts.seen.items()):
        print(f"{times} with {name}")
    print(f"{count - failed} passed, {failed} failed")
    return 1 if failed or not count else 0


if __name__ == "__main__":
    sys.exit(main())
