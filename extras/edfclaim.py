"""Runs edfclaim, and reads its answers: every kind of line that it writes for scripts, and nothing else.

    verdict = edfclaim.check("original.edf", "cut.edf", "cut.toml")
    if verdict.yes:
        print(verdict.fields["samples"])

Where there is no answer (a status 2, say, or a program that was ended), each call raises NoAnswer, and where the
program says what it doesn't write, BadLine. Neither of the two is a No. Where the header or the annotations of a file
with a fault are asked for, Faulty is raised.
"""

from __future__ import annotations

import dataclasses
import datetime
import decimal
import os
import re
import subprocess

PROGRAM = "edfclaim"

COUNT, SIGNED = "(?:0|[1-9][0-9]*)", "(?:0|-?[1-9][0-9]*)"
QUOTED = r'"((?:[^\x00-\x1f"\\\x7f]|\\x(?:[01][0-9a-f]|22|5c|7f))*)"'
# names: by tools/gate/tables.py
CAUSE = "(?:Truncated|TrailingBytes|NotPrintable|BadVersion|BadSubfields\\(LeadingSpace\\)|" \
    "BadSubfields\\(TooFewSubfields\\)|BadSubfields\\(BadSex\\)|BadSubfields\\(BadDate\\)|" \
    "BadSubfields\\(NoStartdateWord\\)|BadStart|StartdateDiffers|NotEdfPlus|BadHeaderSize|BadNumber|BadRange|" \
    "NoAnnotationSignal|NoOrdinarySignal|RecordTooLarge|BadAnnotationSignal|DuplicateLabel|BadTal\\(BadOnset\\)|" \
    "BadTal\\(BadDuration\\)|BadTal\\(NoEnd\\)|BadTal\\(NotUtf8\\)|BadTal\\(ControlByte\\)|BadTal\\(NotZeroFilled\\)|" \
    "NoTimekeeping|BadFirstStart|NotContiguous|Overlap|TooManyAnnotations)"
SUBFIELD = "(?:code|sex|birthdate|name|patient-extras|date|administration|technician|equipment|recording-extras)"
# end of names
FIELD = "(?:version|patient|recording|startdate|starttime|header-bytes|reserved|records|duration|signals)"
OF_SIGNAL = """(?:label|transducer|dimension|physical-minimum|physical-maximum|digital-minimum|digital-maximum|prefilter
|samples|reserved)""".replace("\n", "")
PLACE = f"(?:header field {FIELD}|signal {COUNT} field {OF_SIGNAL}|record {COUNT}|end)"
FAULT = f"(?P<cause>{CAUSE}) at (?P<place>{PLACE})"
COUNTS = f"channels (?P<channels>{COUNT}) samples (?P<samples>{COUNT}) annotations (?P<annotations>{COUNT})"
LABEL, TEXT = QUOTED.replace('"(', '"(?P<label>', 1), QUOTED.replace('"(', '"(?P<text>', 1)
VALUES = f"original (?P<original>{SIGNED}) export (?P<export>{SIGNED})"
DURATION = f"(?:none|(?P<duration_ps>{COUNT}) ps)"
DAY, WORD = "[0-9]{2}-(?:JAN|FEB|MAR|APR|MAY|JUN|JUL|AUG|SEP|OCT|NOV|DEC)-[0-9]{4}", "[!-~]+"
NOTE = f"(?P<at_ps>{SIGNED}) ps duration {DURATION} text {TEXT}"

# The number of each line, its kind, its words, and whether check-parts says in it which export it is about.
# lines: by tools/gate/tables.py
LINES = [
    (1, "original fault", f"original fault: {FAULT}", False),
    (2, "export fault", f"export fault: {FAULT}", True),
    (3, "unknown channel", f"unknown channel {LABEL}", False),
    (4, "missing channel", f"missing channel {LABEL}", True),
    (5, "extra channel", f"extra channel {LABEL}", True),
    (6, "channel text", f"channel text {LABEL} (?P<field>transducer|prefilter)", True),
    (7, "calibration", f"calibration {LABEL}", True),
    (8, "subfield", f"subfield (?P<subfield>{SUBFIELD}) (?P<how>not X|changed)", True),
    (9, "not clean", f"not clean (?:header|{LABEL})", True),
    (10, "sample", f"sample {LABEL} at (?P<at_ps>{SIGNED}) ps (?P<how>missing|extra|{VALUES})", False),
    (11, "annotation", f"annotation (?P<how>missing|extra) at {NOTE}", False),
    (12, "starts early", "starts early", True),
]
# end of lines
# The words in front of the lines of show, up to the channels: what stands behind each, and how often the line may stand.
HEADER = [
    ("kind", r"EDF\+[CD]", "once"), ("start", "[0-9]{4}-[0-9]{2}-[0-9]{2} [0-9]{2}:[0-9]{2}:[0-9]{2}", "once"),
    ("records", COUNT, "once"), ("duration", f"{COUNT} ps", "once"),
    ("code", WORD, "once"), ("sex", "[FMX]", "once"), ("birthdate", f"X|{DAY}", "once"), ("name", WORD, "once"),
    ("patient-extra", WORD, "often"),
    ("date", f"X|{DAY}", "once"), ("administration", WORD, "once"), ("technician", WORD, "once"),
    ("equipment", WORD, "once"), ("recording-extra", WORD, "often"),
]
EXTREMES = f"physical (?P<low>{SIGNED}) (?P<high>{SIGNED}) digital (?P<least>{SIGNED}) (?P<most>{SIGNED})"
CHANNEL = f"channel {LABEL} samples (?P<samples>{COUNT}) {EXTREMES}"
CHANNEL += "".join(f" {name} {QUOTED.replace('(', f'(?P<{name}>', 1)}" for name in ("dimension", "transducer", "prefilter"))

# The lines of a claim that is printed: a time in seconds, an interval, the shift, and the comment behind a text that is too
# long for a claim.
SECONDS = r"(0|[1-9][0-9]{0,8})(?:\.([0-9]{0,11}[1-9]))?"
INTERVAL = rf'\{{ from = "{SECONDS}", to = "{SECONDS}" \}}'
SAID_TEXT = r'"((?:[^\x00-\x1f"\\\x7f]|\\["\\]|\\u00(?:[01][0-9a-f]|7f))*)"'
SHIFT = f"shift = ({SIGNED})"
TOO_LONG = r"# too long for a claim; bytes that are too many: ([1-9][0-9]*)"

# What stands in front of the answer of the check with a draft, in its first line: with a Yes, and with a No.
WITH_DRAFT = "# With this draft the check answers: "
NOT_A_YES = "# NOT A YES: with this draft the check answers: "
FAULT_OF = {"# the original": "original fault", "# the export": "export fault"}
NUMBERS = {"channels", "samples", "annotations", "parts", "part", "records", "at_ps", "duration_ps", "original", "export"}


class NoAnswer(Exception):
    """The program gave no answer: its status, which is below 0 where a signal ended it, and what it said of it."""

    def __init__(self, status, said):
        super().__init__(f"status {status}: {said or 'nothing was said'}")
        self.status, self.said = status, said


class BadLine(Exception):
    """What the program doesn't write, or not with this status."""


class Faulty(Exception):
    """The header of a file or its annotations were asked for, and it has a fault; the fault, as conform answers it, and
    the annotations of the data records before it."""

    def __init__(self, verdict, notes=()):
        super().__init__(verdict.line)
        self.verdict, self.notes = verdict, list(notes)


@dataclasses.dataclass(frozen=True)
class Verdict:
    """An answer. It is true where it is a Yes, and where a file conforms."""

    line: str
    number: int  # that behind NO; 0 of a Yes and of a file that conforms, -1 of the fault of a file
    kind: str  # "yes", "conforms", "fault", or what the line is about, as "sample"
    fields: dict  # what the line says, by name: times in picoseconds, labels and texts as the file has them

    @property
    def yes(self):
        return self.number == 0

    def __bool__(self):
        return self.yes


@dataclasses.dataclass(frozen=True)
class Receipt:
    """A receipt: for each file its SHA-256 and its length, by "original", "export" or "part 0", "claim"."""

    text: bytes
    version: str
    files: dict
    verdict: Verdict


@dataclasses.dataclass(frozen=True)
class Explanation:
    """The answer of a check, and the sentences behind it, each with its indent."""

    verdict: Verdict
    sentences: list


@dataclasses.dataclass(frozen=True)
class Draft:
    """The draft of a claim. It is true where it is one."""

    status: int  # 0 where it is a claim, 1 where there is none
    kind: str  # "draft", "no draft", or which file has a fault: "original fault" or "export fault"
    text: str  # all that was printed, with its line ends: of a draft the claim
    verdict: Verdict | None  # what the check answers with the draft, if it was tried; of a fault the fault

    @property
    def first(self):
        """The first line, without its end."""
        return self.text.split("\n", 1)[0]

    def __bool__(self):
        return self.kind == "draft"


@dataclasses.dataclass(frozen=True)
class Channel:
    """A channel as a header has it. The physical extremes are in units of the dimension."""

    label: str
    samples: int  # in a data record
    physical_minimum: decimal.Decimal
    physical_maximum: decimal.Decimal
    digital_minimum: int
    digital_maximum: int
    dimension: str
    transducer: str
    prefilter: str


@dataclasses.dataclass(frozen=True)
class Header:
    """What the header of a file says."""

    kind: str  # "EDF+C", or "EDF+D" of a file that may have gaps
    start: datetime.datetime
    records: int
    duration_ps: int  # of a data record
    subfields: dict  # by the names that a claim has for them; "patient-extras" and "recording-extras" are lists of texts
    channels: list  # in the order of the file, each a Channel


@dataclasses.dataclass(frozen=True)
class Note:
    """An annotation of a file. It has no duration where this is None."""

    onset_ps: int
    duration_ps: int | None
    text: str


@dataclasses.dataclass(frozen=True)
class Claim:
    """A claim as it is understood."""

    text: str  # its plainest form, with its line ends; a claim that says the same, but where it is too long
    format: int  # 1, or 2 where format 1 can't say it
    channels: list  # labels
    intervals: list  # of each interval its begin and its end, in picoseconds after the start of the original
    anonymous: list  # the names of subfields
    shift: int  # in seconds
    remove: list  # texts
    remove_prefix: list
    blank: list
    excess: int  # by how many bytes the text is longer than a claim may be


def plain(quoted):
    """A label or a text as the file has it."""
    return re.sub(r"\\x(..)", lambda found: chr(int(found[1], 16)), quoted)


def matched(pattern, line):
    """What the line says by the names of the pattern, or none where it isn't such a line."""
    found = re.fullmatch(pattern, line)
    if not found:
        return None
    said = {name: text for name, text in found.groupdict().items() if text is not None or name == "duration_ps"}
    for name, text in said.items():
        if text is not None:
            said[name] = int(text) if name in NUMBERS else plain(text) if name in ("label", "text") else text
    if "original" in said:
        said["how"] = "value"
    return said


def patterns(parts):
    """The number, the kind and the pattern of each line of check, or of check-parts."""
    of_parts = f"parts (?P<parts>{COUNT}) " if parts else ""
    yield 0, "yes", f"YES {of_parts}{COUNTS}"
    for number, kind, words, of_one in LINES:
        if parts or number != 12:
            part = f"part (?P<part>{COUNT}) " if parts and of_one else ""
            yield number, kind, f"NO {number} {part}{words}"


CHECK, CHECK_PARTS = list(patterns(False)), list(patterns(True))
CONFORM = [(0, "conforms", f"CONFORMS records (?P<records>{COUNT}) {COUNTS}"), (-1, "fault", f"FAULT {FAULT}")]


def parse(line, forms=CHECK):
    """The answer in a line of check, without its end; with CHECK_PARTS or CONFORM of that command."""
    for number, kind, pattern in forms:
        said = matched(pattern, line)
        if said is not None:
            return Verdict(line, number, kind, said)
    raise BadLine(line)


def run(*words, program=None):
    """The status of the program on these words, 0 or 1, and the lines that it printed. Any other status is no answer, and
    so is a word on standard error."""
    # a file whose name begins with - is written with its folder
    files = [b"./" + name if name.startswith(b"-") else name for name in map(os.fsencode, words[1:])]
    ran = subprocess.run([program or PROGRAM, words[0], *files], stdin=subprocess.DEVNULL, capture_output=True)
    if ran.returncode not in (0, 1) or ran.stderr:
        raise NoAnswer(ran.returncode, ran.stderr.decode(errors="replace").strip())
    try:
        *lines, rest = ran.stdout.decode().split("\n")
    except UnicodeDecodeError as fault:
        raise BadLine(f"no UTF-8: {fault}") from None
    if rest:
        raise BadLine(f"a line without an end: {rest}")
    return ran.returncode, lines


def answer(status, lines, forms):
    """The answer that is the last of these lines, and the lines before it."""
    verdict = parse(lines[-1] if lines else "", forms)
    if verdict.yes != (status == 0):
        raise BadLine(f"status {status} with {verdict.line}")
    return verdict, lines[:-1]


def alone(*words, forms, program):
    """The answer that is the one line of a command."""
    verdict, before = answer(*run(*words, program=program), forms)
    if before:
        raise BadLine(before[0])
    return verdict


def check(original, export, claim, program=None):
    """The verdict on an export."""
    return alone("check", original, export, claim, forms=CHECK, program=program)


def check_parts(original, claim, exports, program=None):
    """The verdict on exports that go out together, in the order of time."""
    return alone("check-parts", original, claim, *exports, forms=CHECK_PARTS, program=program)


def conform(file, program=None):
    """Whether a file can be judged, and if not, its first fault."""
    return alone("conform", file, forms=CONFORM, program=program)


def read_receipt(status, lines, names, forms):
    """The receipt in these lines, which is about files of these names."""
    verdict, before = answer(status, lines, forms)
    patterns = [r"edfclaim (?P<version>[0-9]+\.[0-9]+\.[0-9]+)"]
    patterns += [f"{name} sha256 (?P<sha256>[0-9a-f]{{64}}) bytes (?P<bytes>{COUNT})" for name in names]
    if len(before) != len(patterns):
        raise BadLine(f"a receipt of {len(lines)} lines")
    said = [matched(*each) for each in zip(patterns, before)]
    if None in said:
        raise BadLine(before[said.index(None)])
    files = {name: (each["sha256"], int(each["bytes"])) for name, each in zip(names, said[1:])}
    return Receipt("".join(f"{line}\n" for line in lines).encode(), said[0]["version"], files, verdict)


def receipt(original, export, claim, program=None):
    """The receipt of an export."""
    ran = run("receipt", original, export, claim, program=program)
    return read_receipt(*ran, ["original", "export", "claim"], CHECK)


def receipt_parts(original, claim, exports, program=None):
    """The receipt of exports that go out together, in the order of time."""
    ran = run("receipt-parts", original, claim, *exports, program=program)
    names = ["original", *[f"part {number}" for number in range(len(exports))], "claim"]
    return read_receipt(*ran, names, CHECK_PARTS)


def explain(original, export, claim, program=None):
    """The verdict on an export, as that of check, and the sentences behind it."""
    status, lines = run("explain", original, export, claim, program=program)
    return Explanation(answer(status, lines[:1], CHECK)[0], lines[1:])


def explain_parts(original, claim, exports, program=None):
    """The verdict on exports that go out together, as that of check-parts, and the sentences behind it."""
    status, lines = run("explain-parts", original, claim, *exports, program=program)
    return Explanation(answer(status, lines[:1], CHECK_PARTS)[0], lines[1:])


def read_first(line, forms):
    """What the check answers with a draft by its first line, or none where it wasn't tried."""
    if line.startswith("# NOT TRIED: "):
        return None
    if line.startswith(WITH_DRAFT):
        verdict = parse(line[len(WITH_DRAFT):], forms)
        if verdict.yes:
            return verdict
    # behind a No stands a dot, and behind that one maybe more
    end = len(line)
    while line.startswith(NOT_A_YES) and (end := line.rfind(".", 0, end)) > 0:
        try:
            verdict = parse(line[len(NOT_A_YES):end], forms)
        except BadLine:
            continue
        if not verdict.yes:
            return verdict
    raise BadLine(line)


def draft(original, export, program=None):
    """The claim by which this export would be the export of this original, for a person to confirm line by line; or why
    there is none."""
    return read_draft(*run("draft", original, export, program=program), CHECK)


def draft_parts(original, exports, program=None):
    """The claim by which these exports, in the order of time, would together be the export of this original; or why there is
    none. Of a fault of one of them the first line says which one it is."""
    return read_draft(*run("draft-parts", original, *exports, program=program), CHECK_PARTS)


def read_draft(status, lines, forms):
    """The draft in these lines, whose first line has an answer of one of these forms."""
    text, first = "".join(f"{line}\n" for line in lines), lines[0] if lines else ""
    if status == 0:
        return Draft(status, "draft", text, read_first(first, forms))
    if first.startswith("# no draft: ") and all(line.startswith("# part ") for line in lines[1:]):
        return Draft(status, "no draft", text, None)
    fault_of = FAULT_OF.get(first) or ("export fault" if re.fullmatch(f"# part {COUNT}", first) else None)
    if fault_of and len(lines) == 2:
        return Draft(status, fault_of, text, answer(status, lines[1:], CONFORM)[0])
    raise BadLine(f"status {status} with {first}")


def read_channel(line):
    """The channel in a line of show."""
    found = re.fullmatch(CHANNEL, line)
    if not found:
        raise BadLine(line)
    # as the line has them, they are in units of 10^-7
    low, high = (decimal.Decimal(found[name]).scaleb(-7) for name in ("low", "high"))
    texts = {name: plain(found[name]) for name in ("dimension", "transducer", "prefilter")}
    return Channel(plain(found["label"]), int(found["samples"]), low, high, int(found["least"]), int(found["most"]), **texts)


def read_header(lines):
    """The header in the lines of show."""
    said, at = {}, 0
    for word, form, often in HEADER:
        said[word] = []
        while at < len(lines) and (often == "often" or not said[word]):
            found = re.fullmatch(f"{word} ({form})", lines[at])
            if not found:
                break
            said[word].append(found[1])
            at += 1
        if often == "once" and not said[word]:
            raise BadLine(lines[at] if at < len(lines) else f"no line {word}")
    kind, start, records, duration = (said.pop(word)[0] for word in ("kind", "start", "records", "duration"))
    try:
        start = datetime.datetime.strptime(start, "%Y-%m-%d %H:%M:%S")
    except ValueError:
        raise BadLine(f"start {start}") from None
    channels = [read_channel(line) for line in lines[at:]]
    if not channels:
        raise BadLine("a header without a channel")
    subfields = {}
    for word, texts in said.items():
        is_extra = word.endswith("-extra")
        subfields[f"{word}s" if is_extra else word] = texts if is_extra else texts[0]
    return Header(kind, start, int(records), int(duration[:-len(" ps")]), subfields, channels)


def show(file, program=None):
    """What the header of a file says. A file whose header has a fault raises Faulty."""
    status, lines = run("show", file, program=program)
    if status:
        verdict, before = answer(status, lines, CONFORM)
        if before:
            raise BadLine(before[0])
        raise Faulty(verdict)
    return read_header(lines)


def read_note(line):
    """The annotation in a line of notes."""
    said = matched(NOTE, line)
    if said is None:
        raise BadLine(line)
    return Note(said["at_ps"], said["duration_ps"], said["text"])


def notes(file, program=None):
    """The annotations of a file, in the order in which it has them. A file with a fault raises Faulty, which has those
    before the fault."""
    status, lines = run("notes", file, program=program)
    if status:
        verdict, before = answer(status, lines, CONFORM)
        raise Faulty(verdict, map(read_note, before))
    return [read_note(line) for line in lines]


def said_text(quoted):
    """A label or a text that stands in a claim between quotation marks."""
    return re.sub(r"\\(?:u(....)|(.))", lambda found: chr(int(found[1], 16)) if found[1] else found[2], quoted)


def picoseconds(whole, fraction):
    """Seconds and the digits of their fraction, as whole picoseconds."""
    return int(whole + (fraction or "").ljust(12, "0"))


def read_items(lines, key, form):
    """What stands in an array of a claim, whose items have this form, by the groups of the form. The lines, which are an
    iterator, go on behind it."""
    if next(lines, "") != f"{key} = [":
        raise BadLine(f"no {key}")
    found = []
    for line in lines:
        if line == "]":
            return found
        item = re.fullmatch(f"  {form}", line)
        if not item:
            raise BadLine(line)
        found.append(item.groups())
    raise BadLine(f"no end of {key}")


def read_texts(lines, key):
    """The texts in an array of a claim."""
    return [said_text(text) for text, in read_items(lines, key, f"{SAID_TEXT},")]


def read_keep(lines):
    """The intervals of a claim. Where its lines say them in picoseconds, too, these are the same times."""
    found = []
    for *seconds, low, high in read_items(lines, "keep", rf"{INTERVAL},(?: # ({COUNT}) ps to ({COUNT}) ps)?"):
        interval = picoseconds(*seconds[:2]), picoseconds(*seconds[2:])
        if low is not None and interval != (int(low), int(high)):
            raise BadLine(f"{interval} isn't {low} ps to {high} ps")
        found.append(interval)
    return found


def read_one(lines, form):
    """What stands in one line of this form."""
    line = next(lines, "")
    found = re.fullmatch(form, line)
    if not found:
        raise BadLine(line)
    return int(found[1])


def read_claim(lines):
    """The claim in these lines."""
    text, rest = "".join(f"{line}\n" for line in lines), iter(lines)
    said = {"format": read_one(rest, "format = ([12])"), "channels": read_texts(rest, "channels")}
    said.update(intervals=read_keep(rest), anonymous=read_texts(rest, "anonymous"), shift=read_one(rest, SHIFT))
    said["remove"] = read_texts(rest, "remove")
    for name, key in (("remove_prefix", "remove-prefix"), ("blank", "blank")):
        said[name] = read_texts(rest, key) if said["format"] == 2 else []
    behind = list(rest)
    said["excess"] = read_one(iter(behind[:1]), TOO_LONG) if behind else 0
    if behind[1:]:
        raise BadLine(behind[1])
    return Claim(text, **said)


def claim(file, program=None):
    """A claim as it is understood."""
    status, lines = run("claim", file, program=program)
    if status:
        raise BadLine(f"status {status} with {lines[0] if lines else 'nothing'}")
    return read_claim(lines)
