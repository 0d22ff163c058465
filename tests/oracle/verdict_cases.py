"""Cases for a run: a night, an export of it that is right, nearly right or broken, and a claim.

usage: python3 -m tests.oracle.verdict_cases SEED COUNT

Prints a case a line: the original, the export and the text of the claim, in hexadecimal (verdict_rules.py).
"""

import datetime
import random
import sys

from tests import edf
from tests.reading.rules import ANNOTATIONS, SUBFIELDS

choose = random.Random()
LABELS = [b"Temp", b"Flow", b"A", b"A B", b"AB", b"", b'q"\\', b"~"]
TEXTS = [b"Apnea", b"Apnea 2", b"Az", b"xAp", b"x", b"", b'a\tb"\\', "é".encode(), "éa".encode(), b"X", b"XX"]

# of these some begin with others and some are whole texts; some stand within texts, and one is too long for each
PREFIXES = [b"A", b"Ap", b"Apnea", b"Apnea ", b"Apnea 22", b"a\t", "é".encode(), b"x", b"X", b"nea"]

# when nights begin; exports of the second one begin in 2084 or in 2085, from where on a startdate has the letters yy
STARTS = [
    datetime.datetime(2002, 3, 2, 22, 0, 0), datetime.datetime(2084, 12, 31, 23, 59, 59),
    datetime.datetime(2099, 12, 31, 22, 0, 0),
]

# how long a step of a night is, in units of 10^-7 s: all channels have whole numbers of samples in it
STEPS = [10_000_000, 5_000_000, 3_333_333, 2_500_000, 1_234_567, 100_000, 7, 1]


def one_of(*values):
    return choose.choice(values)


def often(part):
    return choose.random() < part


def duration_field(units):
    """The seconds of a data record in 8 bytes, or None where they don't fit."""
    field = edf.seconds(units, 10**7)
    field = field if len(field) <= 8 else field.lstrip("0")
    return field.encode() if len(field) <= 8 else None


class Night:
    """Channels with so many samples in each step, from a start on, their values, and annotations."""

    def __init__(self, lengths=(2, 4, 6, 12)):
        self.labels = choose.sample(LABELS, one_of(1, 1, 2, 2, 3))
        self.rates = {label: one_of(1, 2, 3, 4) for label in self.labels}
        self.step = choose.choice(STEPS)
        self.steps = one_of(*lengths)
        self.begin = one_of(STARTS[0], *STARTS)
        self.start = one_of(0, 0, 0, choose.randrange(10**12), 333_333_333_333, 999_999_999_999)
        ends = [self.instant(step) for step in range(self.steps + 1)]
        times = [*ends, *(end + 1 for end in ends), -1, ends[-1] + 10**12]
        self.notes = [(one_of(*times), one_of(None, None, 0, 10**12), one_of(*TEXTS)) for _ in range(one_of(0, 1, 2, 3))]
        if self.notes and often(0.4):
            time, span, _ = choose.choice(self.notes)
            self.notes.append((time, span, one_of(*TEXTS)))
        extra = [one_of(b"a", b"X") for _ in range(one_of(0, 0, 1))]
        self.said = {
            "code": one_of(b"X", b"MCH"), "sex": one_of(b"F", b"X"), "birthdate": one_of(b"X", b"02-MAY-1951"),
            "name": one_of(b"X", b"Harry"), "patient-extras": extra, "date": one_of(b"X", b"day", b"day"),
            "administration": b"PSG", "technician": one_of(b"X", b"NN"), "equipment": b"T3", "recording-extras": extra[:0],
        }

    def value(self, label, number):
        return (LABELS.index(label) * 100 + number * 7) % 60_000 - 30_000

    def instant(self, step):
        return self.start + step * self.step * 100_000

    def cut(self, parts, labels, said, notes, shift=0, changed=None, odd=0.02):
        """The file of these channels for stretches of steps, its data records so long as may be; odd says how often a
        text of its header is another one."""
        lengths = [length for length in range(1, 13) if all((last - first) % length == 0 for first, last in parts)]
        length = choose.choice([length for length in lengths if duration_field(length * self.step)])
        signals = [(label, self.rates[label] * length) for label in labels]
        signals += [(ANNOTATIONS, 100) for _ in range(one_of(1, 1, 1, 2))]
        choose.shuffle(signals)
        places = [at for first, last in parts for at in range(first, last, length)]
        second = self.instant(places[0]) // 10**12
        day = self.begin + datetime.timedelta(seconds=second + shift)
        kind = b"EDF+C" if len(parts) == 1 and often(0.8) else b"EDF+D"
        file = header(signals, len(places), duration_field(length * self.step), said, day, kind, odd)
        tals = [[] for _ in places]
        for time, span, part in notes:
            mark = None if span is None else edf.seconds(span)
            choose.choice(tals).append(edf.tal(edf.onset(time - second * 10**12), part, duration=mark))
        for at, more in zip(places, tals):
            lane = edf.tal(edf.onset(self.instant(at) - second * 10**12), "") + b"".join(more)
            for label, samples in signals:
                if label == ANNOTATIONS:
                    file += edf.lane(2 * samples, lane)
                    lane = b""
                    continue
                numbers = range(self.rates[label] * at, self.rates[label] * at + samples)
                file += edf.values([self.value(label, number) + ((label, number) == changed) for number in numbers])
        return file


def header(signals, records, duration, said, day, kind, odd):
    date = edf.dashed(day).encode() if said["date"] == b"day" else said["date"]
    has_letters = (day.year >= 2085) != often(odd)
    names = [said[name] for name in SUBFIELDS]
    patient, recording = [*names[:4], *names[4]], [b"Startdate", date, *names[6:9], *names[9]]
    fields = {
        "patient": b" ".join(patient), "recording": b" ".join(recording),
        "startdate": day.strftime("%d.%m.yy" if has_letters else "%d.%m.%y").encode(),
        "starttime": edf.starttime(day), "reserved": kind, "records": b"%d" % records, "duration": duration,
    }
    same = {
        "transducer": b"", "dimension": b"uV", "physical-minimum": b"-1", "physical-maximum": b"1",
        "digital-minimum": b"-32768", "digital-maximum": b"32767", "prefilter": b"", "reserved": b"",
    }
    columns = [{**same, "label": label, "samples": b"%d" % samples} for label, samples in signals]
    for column in columns:
        if column["label"] == ANNOTATIONS:
            column["dimension"] = b""
        elif often(odd):
            column[one_of("transducer", "dimension", "prefilter", "reserved")] = b"a"
    return edf.header(fields, columns)


def broken(file):
    """The file with a byte or two changed, cut off, or with a byte more."""
    way = choose.randrange(6)
    if way == 0:
        return file[:choose.randrange(len(file))]
    if way == 1:
        return file + b"\0"
    file = bytearray(file)
    for _ in range(one_of(1, 1, 2)):
        at = one_of(choose.randrange(len(file)), choose.randrange(256), 236 + choose.randrange(20))
        file[at] = one_of(0, 20, 32, 43, 48, 49, 50, 255, choose.randrange(256))
    return bytes(file)


def stretches(steps):
    """One or two stretches of steps, in order."""
    if often(0.5):
        return [(0, steps)]
    ends = sorted(choose.sample(range(steps + 1), 4 if steps > 3 and often(0.6) else 2))
    return list(zip(ends[::2], ends[1::2]))


def as_claimed(said, anonymous):
    shown = {}
    for name, value in said.items():
        hidden = [b"X" for _ in value] if isinstance(value, list) else b"X"
        shown[name] = hidden if name in anonymous and often(0.97) else value
    if often(0.05):
        shown[one_of("code", "name", "technician")] = one_of(b"X", b"x")
    return shown


def quoted(part):
    return '"' + part.decode().replace("\\", "\\\\").replace('"', '\\"').replace("\t", "\\t") + '"'


def array(parts):
    return f"[{', '.join(quoted(part) for part in parts)}]"


def document(form, labels, keep, anonymous, shift, texts):
    """A claim, with the two keys of format 2 where they have texts, and in format 2 maybe where they have none."""
    text = f"format = {form}\nchannels = {array(labels)}\n"
    text += f"anonymous = {array(name.encode() for name in anonymous)}\nshift = {shift}\n"
    remove, prefixes, blank = texts
    text += f"remove = {array(remove)}\n"
    for key, parts in (("remove-prefix", prefixes), ("blank", blank)):
        if parts or (form == 2 and often(0.5)):
            text += f"{key} = {array(parts)}\n"
    for low, high in keep:
        text += f'[[keep]]\nfrom = "{edf.seconds(low)}"\nto = "{edf.seconds(high)}"\n'
    return text.encode()


def claimed_texts(form):
    """The removed texts, the prefixes of such, and the blanked texts, of which some are removed, too."""
    remove = choose.sample(TEXTS, one_of(0, 0, 1, 2))
    if form == 1:
        return remove, [], []
    prefixes, blank = choose.sample(PREFIXES, one_of(0, 0, 1, 2, 4)), choose.sample(TEXTS, one_of(0, 1, 3, 6))
    return remove, prefixes, blank + [part for part in remove if part not in blank and often(0.4)]


def kept_notes(notes, keep, texts):
    """The annotations of an export: with X for a blanked text, and seldom for another, or with the blanked text itself;
    and seldom X in the place of a text that is removed and blanked."""
    remove, prefixes, blank = texts
    found = []
    for time, span, part in notes:
        is_blank = part in blank
        if not any(low <= time < high for low, high in keep):
            continue
        if part in remove or part.startswith(tuple(prefixes)):
            if is_blank and often(0.1):
                found.append((time, span, b"X"))
            continue
        if often(0.12 if is_blank else 0.04):
            is_blank = not is_blank
        found.append((time, span, b"X" if is_blank else part))
    return found


def changed_notes(notes):
    """One annotation fewer, more, or other, maybe; or one more or less often."""
    notes = list(notes)
    again = [note for note in notes if notes.count(note) > 1]
    if again and often(0.3):
        notes.remove(again[0])
    elif notes and often(0.03):
        notes.append(notes[-1])
    if often(0.1):
        notes.append((one_of(0, 10**12), one_of(None, 0), one_of(*TEXTS)))
    if notes and often(0.1):
        time, span, part = notes.pop()
        notes += one_of([], [(time, 0 if span is None else None, part)], [(time + 1, span, part)])
    return notes


def case():
    night = Night()
    other = int((choose.choice(STARTS) - night.begin).total_seconds())
    shift = one_of(0, 0, 0, 0, 86_400, -86_400, 1, -31_536_000, other, other, 10**10)
    are_late = [day.year >= 2085 for day in (night.begin, night.begin + datetime.timedelta(seconds=shift))]
    if any(are_late) and often(0.95):
        # from 2085 on there is no startdate without a recording date
        night.said["date"] = b"day"
    original = night.cut([(0, night.steps)], night.labels, night.said, night.notes)
    claimed = choose.sample(night.labels, choose.randint(1, len(night.labels)))
    exported = claimed if often(0.9) else choose.sample(night.labels, choose.randint(1, len(night.labels)))
    if often(0.04):
        claimed = claimed + [b"zz"]
    parts = stretches(night.steps)
    keep = [(night.instant(first), night.instant(last)) for first, last in parts]
    anonymous = [name for name in SUBFIELDS if often(0.05 if name == "date" and are_late[1] else 0.2)]
    form = one_of(1, 2, 2)
    texts = claimed_texts(form)
    changed = None
    if often(0.15):
        label = choose.choice(exported)
        changed = label, choose.randrange(night.rates[label] * night.steps)
    said, moved = as_claimed(night.said, anonymous), shift if often(0.95) else one_of(0, 1)
    notes = changed_notes(kept_notes(night.notes, keep, texts))
    export = night.cut(parts, exported, said, notes, moved, changed)
    if often(0.15):
        low, high = keep[-1]
        keep[-1] = one_of((low + 1, high), (low, max(high - 1, low + 1)), (low, high + 1), (low, high + 10**12))
        keep[-1] = (keep[-1][0], max(keep[-1][1], keep[-1][0] + 1))
    if often(0.12):
        export = broken(export)
    elif often(0.05):
        original = broken(original)
    text = document(form if often(0.96) else one_of(1, 2, 3), claimed, keep, anonymous, shift, texts)
    return original.hex(), export.hex(), text.hex()


def main(seed, count):
    choose.seed(int(seed))
    for _ in range(int(count)):
        print(*case())


if __name__ == "__main__":
    main(*sys.argv[1:])
