"""The rules of the formats, read a second time and apart from the crates.

usage: python3 -m tests.reading.rules CASES GIVEN

CASES holds a case a line: a letter for its reader, a space, bytes in hexadecimal. GIVEN holds what the
crates answered, a line for each case (answers.rt.in). Each case that the rules answer otherwise is printed;
the last line is 'N passed, M failed'.
"""

import datetime
import fractions
import re
import struct
import sys
import typing

MONTHS = ["JAN", "FEB", "MAR", "APR", "MAY", "JUN", "JUL", "AUG", "SEP", "OCT", "NOV", "DEC"]
ANNOTATIONS = b"EDF Annotations"

# name, first byte, bytes (EDF, "Header record")
FIXED = [
    ("version", 0, 8), ("patient", 8, 80), ("recording", 88, 80), ("startdate", 168, 8), ("starttime", 176, 8),
    ("header-bytes", 184, 8), ("reserved", 192, 44), ("records", 236, 8), ("duration", 244, 8), ("signals", 252, 4),
]

# name, bytes of one signal in the columns before it, bytes
COLUMNS = [
    ("label", 0, 16), ("transducer", 16, 80), ("dimension", 96, 8), ("physical-minimum", 104, 8),
    ("physical-maximum", 112, 8), ("digital-minimum", 120, 8), ("digital-maximum", 128, 8), ("prefilter", 136, 80),
    ("samples", 216, 8), ("reserved", 224, 32),
]

SUBFIELDS = [
    "code", "sex", "birthdate", "name", "patient-extras",
    "date", "administration", "technician", "equipment", "recording-extras",
]


class Refused(Exception):
    """What was refused, by the name of the first cause."""


def text(field):
    """A field without the spaces at its end."""
    return field.rstrip(b" ")


def is_printable(field):
    return all(32 <= byte <= 126 for byte in field)


# ---- numbers, times, days


def header_number(field):
    """In units of 10^-7."""
    found = re.fullmatch(rb"([+-]?)([0-9]*)(?:\.([0-9]*))?", text(field))
    if len(field) > 8 or not found or not (found[2] or found[3]):
        return None
    value = int((found[2] or b"0") + (found[3] or b"").ljust(7, b"0"))
    return -value if found[1] == b"-" else value


def header_whole(field):
    found = re.fullmatch(rb"([+-]?)([0-9]+)", text(field))
    if len(field) > 8 or not found:
        return None
    return -int(found[2]) if found[1] == b"-" else int(found[2])


def span(field):
    """A duration in picoseconds (EDF+, "Time-stamped Annotations Lists (TALs)")."""
    found = re.fullmatch(rb"([0-9]+)(?:\.([0-9]+))?", field)
    if not found:
        return None
    whole, fraction = found[1].lstrip(b"0"), (found[2] or b"").rstrip(b"0")
    if len(whole) > 9 or len(fraction) > 12:
        return None
    return int(whole + fraction.ljust(12, b"0"))


def onset(field):
    """The same with a sign."""
    value = span(field[1:]) if field[:1] in (b"+", b"-") else None
    return -value if value is not None and field[:1] == b"-" else value


def existing(year, month, day):
    """The day, where the calendar has it; the calendar of the year 0 is that of the year 400."""
    try:
        datetime.date(year or 400, month, day)
    except ValueError:
        return None
    return year, month, day


def dotted_day(field):
    found = re.fullmatch(rb"([0-9]{2})\.([0-9]{2})\.([0-9]{2})", field)
    if not found:
        return None
    day, month, year = (int(part) for part in found.groups())
    return existing(year + (1900 if year >= 85 else 2000), month, day)


def lettered_day(field):
    """The day of the month and the month of a startdate that has the letters yy in the place of its year."""
    found = re.fullmatch(rb"([0-9]{2})\.([0-9]{2})\.yy", field)
    if not found:
        return None
    day, month = (int(part) for part in found.groups())
    return (day, month) if 1 <= day <= 31 and 1 <= month <= 12 else None


def dashed_day(field):
    found = re.fullmatch(rb"([0-9]{2})-([A-Z]{3})-([0-9]{4})", field)
    if not found or found[2].decode() not in MONTHS:
        return None
    return existing(int(found[3]), MONTHS.index(found[2].decode()) + 1, int(found[1]))


def startdate(field, recorded):
    """The day of a startdate, and whether the recording date, a day or None, agrees; the letters yy leave the year to
    it, from 2085 on."""
    said = lettered_day(field)
    if said is None:
        day = dotted_day(field)
        return day, recorded in (None, day)
    if recorded is None or recorded[0] < 2085:
        return None, False
    return recorded, said == (recorded[2], recorded[1])


def clock(field):
    """The second of the day."""
    found = re.fullmatch(rb"([0-9]{2})\.([0-9]{2})\.([0-9]{2})", field)
    if not found:
        return None
    hour, minute, second = (int(part) for part in found.groups())
    return hour * 3600 + minute * 60 + second if hour < 24 and minute < 60 and second < 60 else None


# ---- identification (EDF+, "Additional specifications in EDF+")


def subfields(field, least):
    if not is_printable(field):
        raise Refused("NotPrintable")
    if field[:1] == b" ":
        raise Refused("LeadingSpace")
    found = [part for part in field.split(b" ") if part]
    if len(found) < least:
        raise Refused("TooFewSubfields")
    return found


def patient(field):
    found = subfields(field, 4)
    if found[1] not in (b"F", b"M", b"X"):
        raise Refused("BadSex")
    if found[2] != b"X" and not dashed_day(found[2]):
        raise Refused("BadDate")
    return found


def recording(field):
    found = subfields(field, 5)
    if found[1] != b"X" and not dashed_day(found[1]):
        raise Refused("BadDate")
    if found[0] != b"Startdate":
        raise Refused("NoStartdateWord")
    return found[1:]


# ---- lanes of annotations (EDF+, "Time-stamped Annotations Lists (TALs) in an 'EDF Annotations' signal")


def annotation_text(field):
    try:
        field.decode("utf-8")
    except UnicodeDecodeError:
        raise Refused("NotUtf8") from None
    if any(byte < 32 and byte not in (9, 10, 13) for byte in field):
        raise Refused("ControlByte")
    return field


def tal(piece):
    """The TAL of what stands before a byte 0."""
    if piece[-1] != 20:
        raise Refused("NoEnd")
    head, *texts = piece[:-1].split(b"\x14")
    first, has_duration, second = head.partition(b"\x15")
    start, duration = onset(first), span(second) if has_duration else None
    if start is None:
        raise Refused("BadOnset")
    if has_duration and duration is None:
        raise Refused("BadDuration")
    return start, duration, [annotation_text(part) for part in texts]


def tals(lane):
    """The TALs, and the first cause why the lane is no list of them, or None."""
    found = []
    while lane.strip(b"\0"):
        if lane[0] == 0:
            return found, "NotZeroFilled"
        piece, has_end, lane = lane.partition(b"\0")
        if not has_end:
            return found, "NoEnd"
        try:
            found.append(tal(piece))
        except Refused as cause:
            return found, str(cause)
    return found, None


def record_start(found, cause):
    if not found:
        return f"Tal({cause})" if cause else "NoTimekeeping"
    start, _, texts = found[0]
    return str(start) if texts[:1] == [b""] else "NoTimekeeping"


# ---- headers (EDF, "Header record"; EDF+, "The EDF+ header")


def must(holds, cause, place):
    if not holds:
        raise Refused(f"{cause} at {place}")


def identification(read, field, place):
    try:
        return read(field)
    except Refused as cause:
        raise Refused(f"{cause if str(cause) == 'NotPrintable' else f'BadSubfields({cause})'} at {place}") from None


def fixed_part(file):
    """What the fixed fields say, by their names, each judged in its turn."""
    said = {}
    for name, first, count in FIXED:
        must(not first <= len(file) < first + count, "Truncated", f"header field {name}")
    for name, first, count in FIXED:
        place, field = f"header field {name}", file[first:first + count]
        if name in ("patient", "recording"):
            said[name] = identification(patient if name == "patient" else recording, field, place)
            continue
        must(is_printable(field), "NotPrintable", place)
        if name == "version":
            must(text(field) == b"0", "BadVersion", place)
        elif name == "startdate":
            said[name], agrees = startdate(text(field), dashed_day(said["recording"][0]))
            must(said[name], "BadStart", place)
            must(agrees, "StartdateDiffers", place)
        elif name == "starttime":
            said[name] = clock(text(field))
            must(said[name] is not None, "BadStart", place)
        elif name == "reserved":
            must(field[:5] in (b"EDF+C", b"EDF+D"), "NotEdfPlus", place)
            said[name] = field
        else:
            said[name] = header_number(field) if name == "duration" else header_whole(field)
            must(said[name] is not None, "BadNumber", place)
            must(name == "header-bytes" or said[name] > 0, "BadRange", place)
    must(said["header-bytes"] == 256 * (said["signals"] + 1), "BadHeaderSize", "header field header-bytes")
    return said


def signal(file, count, number):
    """What the fields of a signal say, by their names."""
    said = {}
    for name, before, width in COLUMNS:
        place, at = f"signal {number} field {name}", 256 + before * count + width * number
        field = file[at:at + width]
        must(is_printable(field), "NotPrintable", place)
        if name.startswith("physical"):
            said[name] = header_number(field)
        elif name.startswith("digital") or name == "samples":
            said[name] = header_whole(field)
        else:
            said[name] = text(field)
        must(said[name] is not None, "BadNumber", place)
        must(not name.startswith("digital") or -32768 <= said[name] <= 32767, "BadRange", place)
        must(name != "samples" or said[name] > 0, "BadRange", place)
    place, low, high = f"signal {number} field", said["digital-minimum"], said["digital-maximum"]
    must(low < high, "BadRange", f"{place} digital-maximum")
    must(said["physical-minimum"] != said["physical-maximum"], "BadRange", f"{place} physical-maximum")
    must(said["label"] != ANNOTATIONS or (low, high) == (-32768, 32767), "BadAnnotationSignal", f"{place} label")
    return said


def signals(file, count):
    """All signals, each by itself and then together."""
    for name, before, width in COLUMNS:
        for number in range(count):
            at = 256 + before * count + width * number
            must(not at <= len(file) < at + width, "Truncated", f"signal {number} field {name}")
    found = [signal(file, count, number) for number in range(count)]
    labels = [one["label"] for one in found]
    must(ANNOTATIONS in labels, "NoAnnotationSignal", "header field signals")
    must(set(labels) != {ANNOTATIONS}, "NoOrdinarySignal", "header field signals")
    for number, label in enumerate(labels):
        must(label == ANNOTATIONS or label not in labels[:number], "DuplicateLabel", f"signal {number} field label")
    must(2 * sum(one["samples"] for one in found) <= 16_777_216, "RecordTooLarge", "header field signals")
    return found


# ---- whole files (EDF, "Data record"; EDF+, "Time keeping of data records")


def annotations(lanes, place):
    """Where a data record starts, and its annotations, by its annotation lanes."""
    read = [tals(lane) for lane in lanes]
    for _, cause in read:
        must(cause is None, f"BadTal({cause})", place)
    keeper = read[0][0][:1]
    must(keeper and keeper[0][2][:1] == [b""], "NoTimekeeping", place)
    found = [(one[0], one[1], part) for lane, _ in read for one in lane for part in one[2]]
    return keeper[0][0], found[1:]


def records(file, said, found):
    """Of each data record in turn where it starts and its annotations, up to the first that is refused."""
    size, at = 2 * sum(one["samples"] for one in found), 256 * (len(found) + 1)
    ended, count = None, 0
    for number in range(said["records"]):
        place = f"record {number}"
        must(at + size <= len(file), "Truncated", place)
        lanes, offset = [], at
        for one in found:
            if one["label"] == ANNOTATIONS:
                lanes.append(file[offset:offset + 2 * one["samples"]])
            offset += 2 * one["samples"]
        start, notes = annotations(lanes, place)
        if number == 0:
            must(0 <= start < 10**12, "BadFirstStart", place)
        elif said["reserved"][:5] == b"EDF+C":
            must(start == ended, "NotContiguous", place)
        else:
            must(start >= ended, "Overlap", place)
        ended, at, count = start + said["duration"] * 100_000, at + size, count + len(notes)
        must(count <= 1_000_000, "TooManyAnnotations", place)
        yield start, notes
    must(at == len(file), "TrailingBytes", "end")


# ---- claims

KEYS = {"format", "channels", "keep", "anonymous", "shift", "remove"}

# by each format the keys that a claim may have
KEYS_OF = {1: KEYS, 2: KEYS | {"remove-prefix", "blank"}}


class Claim(typing.NamedTuple):
    """What a claim says; texts of annotations are removed where they are one of `remove` or begin with one of
    `prefixes`, and else blanked where they are one of `blank`."""

    labels: list
    keep: list
    anonymous: list
    shift: int
    remove: list
    prefixes: list
    blank: list


def is_whole(value):
    return type(value) is int


def are_distinct_texts(values):
    are_texts = isinstance(values, list) and all(isinstance(value, str) for value in values)
    return are_texts and len(set(values)) == len(values)


def is_label(label):
    label = label.encode()
    return len(label) <= 16 and is_printable(label) and label[-1:] != b" " and label != ANNOTATIONS


def intervals(tables):
    """The stretches of time in order, or None."""
    if not isinstance(tables, list) or not 1 <= len(tables) <= 1000:
        return None
    found = []
    for table in tables:
        if not isinstance(table, dict) or set(table) != {"from", "to"}:
            return None
        ends = [span(table[key].encode()) if isinstance(table[key], str) else None for key in ("from", "to")]
        if None in ends or not ends[0] < ends[1] or (found and ends[0] < found[-1][1]):
            return None
        found.append(ends)
    return found


def claim(document):
    """The labels, the stretches, the subfields that are made anonymous, the shift, and what is made of texts."""
    # from Python 3.11 on; the other rules need no more than Python 3.8
    import tomllib

    if len(document) > 65536:
        raise Refused("TooLong")
    try:
        said = tomllib.loads(document.decode("utf-8"))
    except (UnicodeDecodeError, tomllib.TOMLDecodeError):
        raise Refused("NotToml") from None
    labels, keep, shift = said.get("channels"), intervals(said.get("keep")), said.get("shift", 0)
    anonymous, remove = said.get("anonymous", []), said.get("remove", [])
    prefixes, blank = said.get("remove-prefix", []), said.get("blank", [])
    has_format = is_whole(said.get("format")) and said["format"] in KEYS_OF
    for holds, cause in [
        (has_format, "BadFormat"),
        (has_format and set(said) <= KEYS_OF[said["format"]], "UnknownKey"),
        (are_distinct_texts(labels) and labels and all(is_label(label) for label in labels), "BadChannels"),
        (keep, "BadKeep"),
        (are_distinct_texts(anonymous) and set(anonymous) <= set(SUBFIELDS), "BadAnonymous"),
        (is_whole(shift) and abs(shift) <= 10**10, "BadShift"),
        (are_distinct_texts(remove), "BadRemove"),
        (are_distinct_texts(prefixes) and "" not in prefixes, "BadRemovePrefix"),
        (are_distinct_texts(blank), "BadBlank"),
    ]:
        if not holds:
            raise Refused(cause)
    return Claim(labels, keep, anonymous, shift, remove, prefixes, blank)


def removes(claimed, part):
    """Whether an annotation with this text is removed."""
    begins = any(part.startswith(prefix.encode()) for prefix in claimed.prefixes)
    return begins or any(part == other.encode() for other in claimed.remove)


def blanks(claimed, part):
    """Whether this text of a kept annotation is blanked."""
    return any(part == other.encode() for other in claimed.blank)


# ---- the answers, as answers.rt.in prints them

# the texts of annotations that each claim is asked for
ASKED = ["a", "ab", "ac", "ba", "", "é", "ê", "Temp", "X"]


def bracketed(fields):
    return "".join(f"[{field.hex()}]" for field in fields)


def day_line(day):
    return "None" if day is None else "-".join(str(part) for part in day)


def lane_line(lane):
    found, cause = tals(lane)
    line = ""
    for start, duration, texts in found:
        line += f"{start}{'' if duration is None else f'/{duration}'}{bracketed(texts)};"
    return f"{line}{cause or ''} {record_start(found, cause)}"


def header_line(file):
    said = fixed_part(file)
    found = signals(file, said["signals"])
    days = (datetime.date(*said["startdate"]) - datetime.date(1970, 1, 1)).days
    kind = "Contiguous" if said["reserved"][:5] == b"EDF+C" else "Interrupted"
    line = f"{days * 86400 + said['starttime']} {kind} {said['records']} {said['duration'] * 100_000}"
    line += f" {2 * sum(one['samples'] for one in found)} {bracketed([text(said['reserved'][5:])])}"
    line += f" {bracketed(said['patient'])} {bracketed(said['recording'])}"
    offset = 0
    for one in found:
        line += " " + bracketed(one[name] for name in ("label", "transducer", "dimension", "prefilter", "reserved"))
        for extreme in ("physical-minimum", "physical-maximum", "digital-minimum", "digital-maximum"):
            line += f" {one[extreme]}"
        line += f" {one['samples']} {offset} {str(one['label'] == ANNOTATIONS).lower()}"
        offset += 2 * one["samples"]
    return line


def note_text(note):
    start, duration, part = note
    return f"{start}{'' if duration is None else f'/{duration}'}{bracketed([part])}"


def file_line(file):
    """What a reader gives of each data record, and how the file ends; and what a whole file holds."""
    line, count = "", 0
    try:
        said = fixed_part(file)
        found = signals(file, said["signals"])
        for start, notes in records(file, said, found):
            line += f"{start}:{''.join(note_text(note) for note in notes)} "
            count += len(notes)
    except Refused as cause:
        return f"{line}{cause}; {cause}"
    samples = [one["samples"] for one in found if one["label"] != ANNOTATIONS]
    return f"{line}ends; {said['records']} {len(samples)} {said['records'] * sum(samples)} {count}"


def begin_of(said):
    """The picosecond at which a file starts, from 1970 on."""
    days = (datetime.date(*said["startdate"]) - datetime.date(1970, 1, 1)).days
    return (days * 86400 + said["starttime"]) * 10**12


def values(file, said, found, number, start):
    """The samples of a data record: the signal, the numerator of the instant, and the value."""
    at = 256 * (len(found) + 1) + number * 2 * sum(one["samples"] for one in found)
    for one in found:
        many, lane = one["samples"], file[at:at + 2 * one["samples"]]
        if one["label"] != ANNOTATIONS:
            for place, (value,) in enumerate(struct.iter_unpack("<h", lane)):
                yield one, many * (begin_of(said) + start) + place * said["duration"] * 100_000, value
        at += 2 * many


def meaning_line(file):
    """What a whole file means: each sample with its channel, its instant and its value, and each annotation."""
    said = fixed_part(file)
    found = signals(file, said["signals"])
    channels = [one["label"] for one in found if one["label"] != ANNOTATIONS]
    told, noted = "", ""
    for number, (start, notes) in enumerate(records(file, said, found)):
        for one, instant, value in values(file, said, found, number, start):
            told += f"{channels.index(one['label'])}@{instant}/{one['samples']}={value} "
        noted += "".join(note_text((begin_of(said) + onset, duration, part)) for onset, duration, part in notes)
    return told + noted


def text_marks(claimed, part):
    """Which half seconds are kept with an annotation of this text (k), or only with samples (s); whether it is blanked."""
    marks = ""
    for half in range(20):
        instant = half * 500_000_000_000
        is_kept = any(begin <= instant < end for begin, end in claimed.keep)
        marks += "-" if not is_kept else "s" if removes(claimed, part) else "k"
    return marks + ("x" if blanks(claimed, part) else "-")


def claim_line(document):
    claimed = claim(document)
    line = bracketed(label.encode() for label in claimed.labels) + f" {claimed.shift * 10**12} "
    line += "".join("x" if name in claimed.anonymous else "-" for name in SUBFIELDS)
    return line + "".join(f" {text_marks(claimed, part.encode())}" for part in ASKED)


def line_through(one):
    """The line from digital to physical values: its gain, and its physical value at the digital value 0."""
    low, bottom = one["physical-minimum"], one["digital-minimum"]
    gain = fractions.Fraction(one["physical-maximum"] - low, one["digital-maximum"] - bottom)
    return gain, low - bottom * gain


def named_subfields(said):
    found, other = said["patient"], said["recording"]
    return [*found[:4], found[4:], *other[:4], other[4:]]


def subfield_difference(old, new, anonymous):
    """The name of the first subfield that isn't as claimed, and what is wrong with it."""
    for name, before, after in zip(SUBFIELDS, named_subfields(old), named_subfields(new)):
        parts = after if isinstance(after, list) else [after]
        if name in anonymous:
            if any(part != b"X" for part in parts):
                return name, "NotX"
        elif name == "date" and (before == b"X") == (after == b"X"):
            continue
        elif before != after:
            return name, "Changed"
    return None


def head_difference(old, before, new, after, labels, anonymous):
    """The first difference of two headers: its number in a verdict, a word or two, and a label or none."""
    here = {one["label"]: one for one in before if one["label"] != ANNOTATIONS}
    there = {one["label"]: one for one in after if one["label"] != ANNOTATIONS}
    for number, word, having in ((3, "unknown", here), (4, "missing", there)):
        for label in labels:
            if label not in having:
                return number, word, label
    if set(there) - set(labels):
        return 5, "extra", min(set(there) - set(labels))
    for label in labels:
        for name in ("transducer", "prefilter"):
            if here[label][name] != there[label][name]:
                return 6, name, label
    for label in labels:
        one, other = here[label], there[label]
        if one["dimension"] != other["dimension"] or line_through(one) != line_through(other):
            return 7, "calibration", label
    found = subfield_difference(old, new, anonymous)
    if found:
        return 8, found, None
    free = text(new["reserved"][5:]) + b"".join(
        one[name] for one in after if one["label"] == ANNOTATIONS
        for name in ("transducer", "dimension", "prefilter", "reserved"))
    if free:
        return 9, "header", None
    for label in labels:
        if there[label]["reserved"]:
            return 9, "not clean", label
    return None


def heads_line(case):
    """The first difference of two headers under a claim."""
    first, second = int(case[:8]), int(case[8:16])
    original, export, document = case[16:16 + first], case[16 + first:16 + first + second], case[16 + first + second:]
    try:
        old, new = fixed_part(original), fixed_part(export)
        before, after = signals(original, old["signals"]), signals(export, new["signals"])
        claimed = claim(document)
    except Refused:
        return "refused"
    labels = [label.encode() for label in claimed.labels]
    found = head_difference(old, before, new, after, labels, claimed.anonymous)
    if not found:
        return "None"
    number, word, label = found
    if number == 8:
        name, mismatch = word
        return f"subfield {''.join(part.capitalize() for part in name.split('-'))} {mismatch}"
    if label is None:
        return "not clean header"
    return f"text {bracketed([label])} {word.capitalize()}" if number == 6 else f"{word} {bracketed([label])}"


ANSWERS = {
    "n": lambda field: str(header_number(field)),
    "w": lambda field: str(header_whole(field)),
    "o": lambda field: str(onset(field)),
    "s": lambda field: str(span(field)),
    "d": lambda field: day_line(dotted_day(field)),
    "y": lambda field: day_line(lettered_day(field)),
    "D": lambda field: day_line(dashed_day(field)),
    "c": lambda field: str(clock(field)),
    "p": lambda field: bracketed(patient(field)),
    "r": lambda field: bracketed(recording(field)),
    "t": lane_line,
    "h": header_line,
    "f": file_line,
    "m": meaning_line,
    "x": heads_line,
    "C": claim_line,
}


def answer(case):
    kind, _, digits = case.partition(" ")
    try:
        return ANSWERS[kind](bytes.fromhex(digits))
    except Refused as cause:
        return str(cause)


def compare(rule, cases_path, given_path):
    """Prints where the answers that were given aren't those of the rule, and the counts."""
    with open(cases_path, encoding="utf-8") as cases_file, open(given_path, encoding="utf-8") as given_file:
        cases, given = cases_file.read().splitlines(), given_file.read().splitlines()
    failed = 0
    for number, case in enumerate(cases):
        wanted, found = rule(case), given[number] if number < len(given) else "no answer"
        if wanted != found:
            failed += 1
            print(f"{case}\n  the crates: {found}\n  the rules:  {wanted}")
    print(f"{len(cases) - failed} passed, {failed} failed")
    return 1 if failed else 0


if __name__ == "__main__":
    sys.exit(compare(answer, *sys.argv[1:]))
