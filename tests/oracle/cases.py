"""Cases for the readers: texts that the rules allow, and texts that nearly are.

usage: python3 -m tests.oracle.cases SEED COUNT

Prints a case a line: a letter for its reader, a space, bytes in hexadecimal (rules.py).
"""

import random
import sys

from tests import edf
from tests.reading.rules import ANNOTATIONS, SUBFIELDS, Refused, fixed_part, signals, tals

choose = random.Random()
MARKS = [0, 1, 9, 10, 13, 20, 21, 31, 32, 43, 45, 46, 47, 48, 57, 58, 65, 88, 126, 127, 128, 200, 255]


def one_of(*values):
    return choose.choice(values)


def often(part):
    return choose.random() < part


def some(alphabet, least, most):
    return bytes(choose.choice(alphabet) for _ in range(choose.randint(least, most)))


def changed(field):
    """One or two bytes are others, are gone or have come."""
    field = bytearray(field)
    for _ in range(choose.randint(1, 2)):
        if not field:
            break
        at, byte = choose.randrange(len(field)), one_of(choose.randrange(256), choose.choice(MARKS))
        way = choose.randrange(4)
        if way < 2:
            field[at] = byte
        elif way == 2:
            del field[at]
        else:
            field.insert(at, byte)
    return bytes(field)


def maybe_changed(field, part):
    return changed(field) if often(part) else field


# ---- numbers, times, days


def number():
    if often(0.5):
        field = one_of(b"", b"+", b"-") + some(b"0123456789", 0, 5)
        field += one_of(b"", b".", b"." + some(b"0123456789", 0, 7))
    else:
        field = some(b"+-0123456789. .", 0, 9)
    if often(0.4):
        field = field.ljust(8)
    return maybe_changed(field, 0.05)[:one_of(8, 8, 8, 9, 12)]


def time(sign):
    field = one_of(b"+", b"-") if sign else b""
    field += b"0" * one_of(0, 0, 0, 1, 3, 20) + some(b"0123456789", *one_of((0, 1), (1, 2), (8, 10)))
    if often(0.5):
        field += b"." + some(b"0123456789", *one_of((0, 2), (11, 13))) + b"0" * one_of(0, 0, 1, 20)
    return maybe_changed(field, 0.1)


def day():
    return one_of(1, 28, 29, 30, 31, choose.randint(0, 32)), one_of(2, 2, choose.randint(0, 13))


def dotted_day():
    return maybe_changed(b"%02d.%02d.%02d" % (*day(), one_of(0, 4, 84, 85, 99, choose.randint(0, 99))), 0.2)


def lettered(number, month):
    return b"%02d.%02d.yy" % (number, month)


def lettered_day():
    field = lettered(*one_of(day(), (one_of(0, 1, 31, 32), one_of(0, 1, 12, 13))))
    return maybe_changed(field[:6] + one_of(*[b"yy"] * 7, b"YY", b"yY", b"Yy"), 0.15)


def dashed(number, month, year):
    name = edf.MONTHS[month - 1].encode() if 1 <= month <= 12 else b"ABC"
    return b"%02d-%s-%04d" % (number, name, year)


def dashed_day():
    return maybe_changed(dashed(*day(), one_of(0, 4, 1900, 2000, 2100, choose.randint(0, 9999))), 0.2)


def clock():
    parts = tuple(one_of(0, 23, 24, 59, 60, choose.randint(0, 99)) for _ in range(3))
    return maybe_changed(b"%02d.%02d.%02d" % parts, 0.2)


# ---- identification


def listed(parts, most):
    field = one_of(b"", b"", b"", b"", b" ")
    for part in parts[:one_of(most, most, most, choose.randint(0, most))]:
        field += part + b" " * one_of(1, 1, 1, 2)
    return maybe_changed(field[:80].ljust(one_of(0, 80, 80, 80)), 0.15)


def extras():
    return [one_of(b"a", b"X") for _ in range(choose.randint(0, 2))]


def patient():
    code, sex = one_of(b"X", b"MCH-0234567"), one_of(b"F", b"M", b"X", b"X", b"f", b"Male")
    birthdate = one_of(b"X", b"02-MAY-1951", dashed_day())
    return listed([code, sex, birthdate, b"Haagse_Harry", *extras()], 6)


def recording():
    word = one_of(b"Startdate", b"Startdate", b"Startdate", b"Startdate", b"startdate", b"X")
    date, equipment = one_of(b"X", b"02-MAR-2002", dashed_day()), one_of(b"X", b"Dev")
    return listed([word, date, b"PSG-1234/2002", b"NN", equipment, *extras()], 7)


# ---- lanes


def annotation_text():
    good = [b"", b"", b"", b"Apnea", b"N2", "ä € \U0001f634".encode(), b"\t\n\r", some(b"abc \t\x7f", 0, 6)]
    bad = [b"\x01", b"\x1f", b"\x15", b"\xff", b"\xe2\x82", b"\xc0\x80", b"\xed\xa0\x80", b"\xf4\x90\x80\x80"]
    return one_of(*good, *good, *bad, some(range(256), 1, 4))


def tal():
    field = time(True) + (b"\x15" + time(False) if often(0.4) else b"") + b"\x14"
    for _ in range(one_of(0, 1, 1, 1, 2, 3)):
        field += annotation_text() + b"\x14"
    return field + b"\0"


def lane():
    return maybe_changed(b"".join(tal() for _ in range(one_of(0, 1, 1, 2, 2, 3))) + b"\0" * one_of(0, 0, 1, 3, 10), 0.4)


# ---- headers


def two_late_dates():
    """A startdate with the letters yy and a recording date of that day, after 2084; or nearly."""
    days = [(1, 1, 2085), (31, 12, 2085), (29, 2, 2096), (29, 2, 2100), (31, 12, 2099), (31, 12, 9999)]
    other = [(choose.randint(1, 31), choose.randint(1, 12), choose.randint(2085, 9999)) for _ in range(3)]
    number, month, year = one_of(*days, *other)
    startdate, date = lettered(number, month), dashed(number, month, year)
    if often(0.6):
        return startdate, date
    early = one_of(0, 1985, 1999, 2084, 2084, choose.randint(0, 2084))
    return one_of(
        (startdate, b"X"),
        (startdate, dashed(number, month, early)),
        (lettered(number % 31 + 1, month), one_of(date, date, dashed(number, month, early))),
        (lettered(number, month % 12 + 1), one_of(date, date, b"X")),
        (lettered(*one_of((0, month), (32, month), (number, 0), (number, 13))), date),
        (b"31.02.yy", dashed(one_of(28, 28, 31), 2, year)),
        (startdate[:6] + one_of(b"YY", b"yY", b"Yy", b"y"), date),
        (b"%02d.%02d.%02d" % (number, month, year % 100), one_of(date, date, b"X")),
    )


def two_dates():
    """A startdate and a recording date."""
    if often(0.4):
        return two_late_dates()
    days = [(b"02.03.02", b"02-MAR-2002"), (b"31.12.84", b"31-DEC-2084"), (b"01.01.85", b"01-JAN-1985")]
    startdate, date = one_of(*days)
    return startdate, one_of(date, date, b"X")


def fixed_fields(count):
    startdate, date = two_dates()
    fields = {
        "version": b"0",
        "patient": b"MCH-0234567 F 02-MAY-1951 Haagse_Harry",
        "recording": b"Startdate " + date + b" PSG-1234/2002 NN Telemetry03",
        "startdate": startdate,
        "starttime": b"%02d.%02d.%02d" % (choose.randint(0, 23), choose.randint(0, 59), choose.randint(0, 59)),
        "header-bytes": b"%d" % edf.header_size(count),
        "reserved": one_of(b"EDF+C", b"EDF+D", b"EDF+C abc ", b"EDF+Dx"),
        "records": one_of(b"1", b"4", b"+7", b"99999999"),
        "duration": one_of(b"1", b"30", b"0.5", b".0000001", b"99999999", b"1."),
        "signals": b"%d" % count,
    }
    if often(0.35):
        name = choose.choice(list(fields))
        startdate = one_of(dotted_day, lettered_day)
        readers = {"patient": patient, "recording": recording, "startdate": startdate, "starttime": clock}
        other = readers.get(name, number)
        fields[name] = one_of(changed(fields[name]), other(), other(), b"", b"0", b"-1")
    return fields


def signal_fields(label):
    low, high = one_of((b"-440", b"510"), (b"100", b"-100"), (b"-1", b"1.5"), (b"0", b".0000001"))
    bottom, top = one_of((b"-2048", b"2047"), (b"-32768", b"32767"), (b"0", b"1"))
    if label == b"EDF Annotations":
        bottom, top = b"-32768", b"32767"
    fields = {
        "label": label,
        "transducer": one_of(b"AgAgCl electrodes", b""),
        "dimension": one_of(b"uV", b""),
        "physical-minimum": low,
        "physical-maximum": high,
        "digital-minimum": bottom,
        "digital-maximum": top,
        "prefilter": one_of(b"HP:0.1Hz", b""),
        "samples": one_of(b"1", b"4", b"51", b"+3"),
        "reserved": one_of(b"", b"note"),
    }
    if often(0.12):
        name = choose.choice(list(fields))
        others = [b"", b"0", b"-32769", b"32768", b"8388608", b"EDF Annotations"]
        fields[name] = one_of(changed(fields[name]), number(), *others)
    return fields


def header():
    labels = [b"C%d" % number for number in range(one_of(1, 2, 2, 3, 3, 4))]
    if often(0.9):
        labels[choose.randrange(len(labels))] = b"EDF Annotations"
    if often(0.2):
        labels[choose.randrange(len(labels))] = one_of(b"C0", b"", b"EDF Annotations")
    fixed, columns = fixed_fields(len(labels)), [signal_fields(label) for label in labels]
    file = edf.header(fixed, columns)
    if often(0.1):
        return file[:choose.randrange(len(file) + 1)]
    if often(0.15):
        at = choose.randrange(len(file))
        return file[:at] + some(range(256), 1, 1) + file[at + 1:]
    return file + one_of(b"", b"", b"abc")


# ---- whole files


def sound_header():
    """A header that the rules take, what its fixed part says, and its signals."""
    while True:
        file = header()
        try:
            said = fixed_part(file)
            found = signals(file, said["signals"])
        except Refused:
            continue
        return bytearray(file[:edf.header_size(len(found))]), said, found


def spelled(start):
    whole, fraction = divmod(abs(start), 10**12)
    return b"%s%d.%012d" % (b"-" if start < 0 else b"+", whole, fraction)


def sound_tal():
    """A TAL that the rules take."""
    while True:
        field = tal()
        if tals(field)[1] is None:
            return field


def timed_lane(start):
    """A lane that keeps the time, maybe with further texts and other TALs."""
    duration = one_of(b"", b"", b"\x15" + one_of(b"0", b"1.5"))
    more = b"".join(one_of(b"", b"Apnea", "ä".encode()) + b"\x14" for _ in range(one_of(0, 0, 0, 1, 2)))
    return spelled(start) + duration + b"\x14\x14" + more + b"\0" + b"".join(sound_tal() for _ in range(one_of(0, 0, 1)))


def whole_file():
    file, said, found = sound_header()
    count = choose.randint(1, 4)
    edf.put(file, len(found), edf.field("records"), str(count))
    for number, one in enumerate(found):
        if one["label"] == ANNOTATIONS:
            one["samples"] = one_of(60, 80)
            edf.put(file, len(found), edf.signal(number, "samples"), str(one["samples"]))
    start = one_of(0, 0, 0, 1, 5 * 10**11, 10**12 - 1) if often(0.93) else one_of(10**12, -1, -10**12)
    for _ in range(count):
        is_first = True
        for one in found:
            size = 2 * one["samples"]
            if one["label"] != ANNOTATIONS:
                file += some(range(256), size, size)
                continue
            part = timed_lane(start) if is_first else one_of(b"", sound_tal(), sound_tal() + sound_tal())
            if often(0.06):
                part = one_of(b"", lane(), changed(part), tal())
            file += edf.lane(size, part)[:size]
            is_first = False
        ended = start + said["duration"] * 100_000
        start = ended if often(0.8) else one_of(ended + 1, ended - 1, ended + 10**12)
    if often(0.1):
        return bytes(file[:choose.randrange(len(file) + 1)])
    return bytes(file) + one_of(b"", b"", b"", b"", b"", b"\0")


# ---- two headers and a claim

LABELS = [b"C0", b"C1", b"c0", b"C", b"\"", b"C0 C1"]
LINES = [(b"-100", b"100", b"-2048", b"2047"), (b"-100.0", b"+100.", b"-2048", b"2047"), (b"-100", b"-60", b"-2048", b"-1229"),
         (b"100", b"-100", b"-2048", b"2047"), (b"-99", b"101", b"-2048", b"2047"), (b"-100", b"100.0001", b"-2048", b"2047")]
CODES = [b"X", b"MCH-0234567", b"x"]

# by each recording date the startdate
STARTDATES = {b"X": b"02.03.02", b"02-MAR-2002": b"02.03.02", b"31-DEC-2099": b"31.12.yy"}


def channel(label):
    low, high, bottom, top = one_of(*LINES[:3])
    return {
        "label": label, "transducer": b"AgAgCl", "dimension": b"uV", "physical-minimum": low, "physical-maximum": high,
        "digital-minimum": bottom, "digital-maximum": top, "prefilter": b"HP:0.1Hz", "samples": b"1", "reserved": b"",
    }


def annotation_signal():
    return {**channel(ANNOTATIONS), "transducer": b"", "dimension": b"", "physical-minimum": b"-1", "physical-maximum": b"1",
            "digital-minimum": b"-32768", "digital-maximum": b"32767", "prefilter": b"", "samples": b"9"}


def changed_signal(fields):
    """With another text or another line, maybe, or the same line spelled otherwise."""
    fields = dict(fields)
    is_channel = fields["label"] != ANNOTATIONS
    if is_channel:
        low, high, bottom, top = one_of(*LINES[:3]) if often(0.93) else one_of(*LINES)
        fields |= {"physical-minimum": low, "physical-maximum": high, "digital-minimum": bottom, "digital-maximum": top}
    for name in ("transducer", "dimension", "prefilter", "reserved"):
        if often(0.03):
            fields[name] = one_of(b"", b"a", b"b")
    return fields


def built(said, columns):
    parts = said["patient"], said["recording"]
    fixed = {
        "patient": b" ".join(parts[0]), "recording": b" ".join([b"Startdate", *parts[1]]),
        "startdate": STARTDATES.get(parts[1][0], b"02.03.02"), "starttime": b"22.00.00", "reserved": said["reserved"],
        "records": b"1", "duration": b"1",
    }
    return edf.header(fixed, columns)


def two_heads():
    """The headers of an original and of an export that is nearly as a claim says, and the claim."""
    labels = choose.sample(LABELS, choose.randint(1, 4))
    claimed = [label for label in labels if often(0.8)] or labels[:1]
    choose.shuffle(claimed)
    columns = [channel(label) for label in labels]
    for _ in range(one_of(1, 1, 2)):
        columns.insert(choose.randrange(len(columns) + 1), annotation_signal())
    anonymous = [name for name in SUBFIELDS if often(0.3)]
    extra = [one_of(b"a", b"X") for _ in range(one_of(0, 0, 1, 2))]
    old = {
        "patient": [one_of(*CODES), one_of(b"F", b"X"), one_of(b"X", b"02-MAY-1951"), one_of(*CODES), *extra],
        "recording": [one_of(*STARTDATES), one_of(*CODES), b"NN", one_of(*CODES), *extra[:1]],
        "reserved": one_of(b"EDF+C", b"EDF+D x"),
    }
    names = [[name for name in SUBFIELDS[:4]], [name for name in SUBFIELDS[5:9]]]
    new = {"reserved": one_of(b"EDF+C", b"EDF+D", b"EDF+C", b"EDF+C x" if often(0.1) else b"EDF+D")}
    for field, name, rest in (("patient", names[0], "patient-extras"), ("recording", names[1], "recording-extras")):
        parts = [b"X" if key in anonymous and often(0.97) else part for key, part in zip(name, old[field])]
        parts = [part if often(0.98) else one_of(b"X", b"x", b"Y") for part in parts]
        more = [b"X" if rest in anonymous and often(0.9) else part for part in old[field][4:]]
        more = more if often(0.95) else one_of(more[1:], more + [b"X"], more + [b"a"])
        new[field] = parts + more
    if new["recording"][0] != b"X" and often(0.3):
        # another day is no difference
        new["recording"][0] = one_of(b"02-MAR-2002", b"31-DEC-2099")
    shown = [changed_signal(fields) for fields in columns if fields["label"] in (*claimed, ANNOTATIONS) or often(0.04)]
    if often(0.5):
        choose.shuffle(shown)
    if often(0.04):
        shown.insert(0, channel(one_of(*LABELS)))
    if often(0.03):
        claimed.append(one_of(*LABELS))
    texts = ", ".join(quoted(label.decode().replace('"', '\\"')) for label in claimed)
    hidden = ", ".join(quoted(name) for name in anonymous)
    front = f"format = {one_of(1, 2)}\nchannels = [{texts}]\nanonymous = [{hidden}]\n"
    document = f'{front}keep = [{{ from = "0", to = "1" }}]\n'.encode()
    first, second = built(old, columns), built(new, shown)
    return b"%-8d%-8d" % (len(first), len(second)) + first + second + document


# ---- claims


def quoted(value):
    return f'"{value}"'


def array(part, least, most):
    return f"[{', '.join(part() for _ in range(choose.randint(least, most)))}]"


def claimed_text():
    good = ["Temp", "ECG", "", "a" * 16, "a", "\\u0041"]
    return quoted(one_of(*good, "a" * 17, "Temp ", "EDF Annotations", "é", "\\t", "\\u007f"))


def begin():
    """What texts begin with: a letter or more, or a whole text; some begin with others."""
    return quoted(one_of("a", "ab", "abc", "abcd", "b", "\\u0061b", "é", "\\u00ea", "T", "Temp", "X", " "))


def blanked_text():
    return quoted(one_of("a", "ab", "\\u0061", "ba", "", "", "é", "ê", "Temp", "X", "ECG"))


def claimed_span():
    good = ["0", "1", "2.5", "00.5", "4", "999999999.999999999999"]
    return quoted(one_of(*good, "1000000000", "+0", "1.", ".5", "", "1e3"))


def interval():
    pair = f"{{ from = {claimed_span()}, to = {claimed_span()} }}"
    bad = [f"{{ from = {claimed_span()} }}", '{ from = "0", to = "1", x = 1 }', '{ from = 1, to = "2" }', '"a"']
    return one_of(pair, pair, pair, *bad)


def keep():
    if often(0.15):
        return array(interval, 0, 3)
    ends = sorted(choose.sample(range(100), one_of(2, 4, 6)))
    if len(ends) > 2 and often(0.4):
        ends[2] = ends[1]
    pairs = [f"{{ from = {quoted(a / 10)}, to = {quoted(b / 10)} }}" for a, b in zip(ends[::2], ends[1::2])]
    return f"[{', '.join(pairs)}]"


def changed_claim(document):
    """Changed, but with the same line breaks, commas and backslashes: Python reads TOML 1.0, the crates TOML 1.1."""
    other = changed(document)
    return other if all(other.count(mark) == document.count(mark) for mark in b"\n\r,\\") else document


def claim():
    form = one_of("1", "2", "2")
    other_forms = ["3", "0", f'"{form}"', f"{form}.0", "true", f"[{form}]", f"0x{form}", f"+{form}"]
    labels = ['["Temp"]', '["Temp", "ECG"]'] * 15
    named = array(lambda: quoted(one_of(*SUBFIELDS)), 0, 4)
    limits = [str(sign * (10**10 + more)) for sign in (1, -1) for more in (0, 1)]
    begins = ['["a", "abc"]', '["abc", "b", "a"]', '["a"]'] + [array(begin, 1, 3) for _ in range(9)]
    blanked = [array(blanked_text, 1, 3) for _ in range(9)]
    keys = {
        "format": one_of(*[form] * 32, *other_forms),
        "channels": one_of(*labels, array(claimed_text, 0, 3), array(claimed_text, 0, 3), '"Temp"', "[1]"),
        "keep": one_of(*[keep() for _ in range(27)], "3", '"a"', '{ from = "0", to = "1" }'),
        "anonymous": one_of(*[named] * 4, "[]", '["sex"]', '["Sex"]', '"sex"', "[1]", '["sex", "sex"]'),
        "shift": one_of("0", "-5", "1_000", "0b11", "7", '"1"', *limits),
        "remove": one_of(array(claimed_text, 0, 3), "[]", '["a"]', '["a", "b"]', '["b", "Temp"]', '["a", "a"]', '"a"', "[1]"),
        "remove-prefix": one_of(*begins, "[]", '["ab", "a"]', '[""]', '["a", ""]', '["a", "a"]', '"a"', "[1]"),
        "blank": one_of(*blanked, "[]", '[""]', '["a", "ab"]', '["a", "a"]', '["", ""]', '"a"', "[1]"),
        one_of("note", "Format", '"format "', "keeps", "a.b", "remove_prefix", "Blank"): "1",
    }
    names = [name for name in list(keys)[:3] if not often(0.02)] + [name for name in list(keys)[3:6] if often(0.35)]
    names += [name for name in list(keys)[6:8] if often(0.75 if form == "2" else 0.06)]
    names += list(keys)[8:] if often(0.06) else []
    choose.shuffle(names)
    document = "".join(f"{name} = {keys[name]}\n" for name in names)
    if often(0.1):
        document += one_of("# c\n", "[x]\n", '[[keep]]\nfrom = "0"\nto = "1"\n', "shift = 1\n", "x\n", "[format]\n")
    return changed_claim(document.encode()) if often(0.05) else document.encode()


CASES = {
    "n": (4, number), "w": (4, number), "o": (4, lambda: time(often(0.9))), "s": (3, lambda: time(often(0.1))),
    "d": (2, dotted_day), "y": (4, lettered_day), "D": (3, dashed_day), "c": (2, clock),
    "p": (6, patient), "r": (6, recording),
    "t": (30, lane), "h": (20, header), "f": (20, whole_file), "m": (10, whole_file),
    "C": (24, claim), "x": (20, two_heads),
}


def main(seed, count):
    choose.seed(int(seed))
    kinds, weights = list(CASES), [weight for weight, _ in CASES.values()]
    for kind in choose.choices(kinds, weights, k=int(count)):
        print(kind, CASES[kind][1]().hex())


if __name__ == "__main__":
    main(*sys.argv[1:])
