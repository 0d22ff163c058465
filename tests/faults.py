"""Writes broken copies of the example night's cut.edf: one for each cause of a fault at each kind of place.

usage: python3 -m tests.faults DIR

Beside the copies it writes DIR/answers, a line for each: the status, the words and the line of
`edfclaim conform`, with a tab between them.
"""

import pathlib
import sys

from tests import edf, night

SIGNALS = 4
HEADER = edf.header_size(SIGNALS)
LANE = 96
SAMPLES = 2 * 5 * (100 + 50 + 1)
RECORD = SAMPLES + LANE


def put(file, at, part):
    return file[:at] + part + file[at + len(part):]


def changed(file, place, text):
    """The file with another text in a field of its header."""
    file = bytearray(file)
    edf.put(file, SIGNALS, place, text)
    return bytes(file)


def fixed(name, text):
    """The file with another text in a field of the fixed part."""
    return lambda file: changed(file, edf.field(name), text)


def field(number, name, text):
    """The file with another text in a field of a signal."""
    return lambda file: changed(file, edf.signal(number, name), text)


def both(*changes):
    """All these changes, one after the other."""
    def change(file):
        for one in changes:
            file = one(file)
        return file

    return change


def lane(number, text):
    """The file with another annotation lane in a data record: text, then zeros."""
    at = HEADER + (number + 1) * RECORD - LANE
    return lambda file: put(file, at, edf.lane(LANE, text.encode("latin1")))


def many_annotations(file):
    """One data record with 1,000,001 annotations, all empty."""
    file = both(fixed("records", "1"), field(3, "samples", "500003"))(file)
    return file[:-18 * RECORD] + bytes(SAMPLES) + b"+0" + b"\x14" * 1_000_003 + b"\0"


def shortened(count):
    return lambda file: file[:count]


# the name of the copy, what is wrong with it, and the change
FAULTS = [
    ("ends-in-the-fixed-part", "Truncated at header field starttime", shortened(180)),
    ("ends-in-the-columns", "Truncated at signal 1 field label", shortened(275)),
    ("ends-in-a-record", "Truncated at record 17", shortened(-1)),
    ("umlaut-in-the-patient", "NotPrintable at header field patient", fixed("patient", "X F X M\u00fcller")),
    ("micro-sign", "NotPrintable at signal 0 field dimension", field(0, "dimension", "\u00b5V")),
    ("another-version", "BadVersion at header field version", fixed("version", "1")),
    ("patient-behind-a-space", "BadSubfields(LeadingSpace) at header field patient", fixed("patient", " X F X X")),
    ("patient-of-plain-edf", "BadSubfields(TooFewSubfields) at header field patient", fixed("patient", "Haagse")),
    ("sex-in-small-letters", "BadSubfields(BadSex) at header field patient", fixed("patient", "X f X X")),
    ("birthdate-by-year", "BadSubfields(BadDate) at header field patient", fixed("patient", "X F 1951 X")),
    ("recording-behind-a-space", "BadSubfields(LeadingSpace) at header field recording",
     fixed("recording", " Startdate X X X X")),
    ("recording-too-short", "BadSubfields(TooFewSubfields) at header field recording",
     fixed("recording", "Startdate X X")),
    ("recording-date-by-year", "BadSubfields(BadDate) at header field recording",
     fixed("recording", "Startdate 2018 X X X")),
    ("no-word-startdate", "BadSubfields(NoStartdateWord) at header field recording",
     fixed("recording", "Started X X X X")),
    ("date-with-slashes", "BadStart at header field startdate", fixed("startdate", "07/12/18")),
    ("another-day", "StartdateDiffers at header field startdate", fixed("startdate", "08.12.18")),
    ("time-with-colons", "BadStart at header field starttime", fixed("starttime", "23:10:30")),
    ("size-no-number", "BadNumber at header field header-bytes", fixed("header-bytes", "1,280")),
    ("another-size", "BadHeaderSize at header field header-bytes", fixed("header-bytes", "1024")),
    ("plain-edf", "NotEdfPlus at header field reserved", fixed("reserved", "")),
    ("records-no-number", "BadNumber at header field records", fixed("records", "?")),
    ("still-recorded", "BadRange at header field records", fixed("records", "-1")),
    ("duration-with-a-comma", "BadNumber at header field duration", fixed("duration", "0,5")),
    ("no-duration", "BadRange at header field duration", fixed("duration", "0")),
    ("signals-no-number", "BadNumber at header field signals", fixed("signals", "4.0")),
    ("no-signals", "BadRange at header field signals", fixed("signals", "0")),
    ("physical-minimum-with-a-comma", "BadNumber at signal 0 field physical-minimum",
     field(0, "physical-minimum", "-0,5")),
    ("physical-maximum-with-an-exponent", "BadNumber at signal 0 field physical-maximum",
     field(0, "physical-maximum", "5e2")),
    ("one-physical-extreme", "BadRange at signal 0 field physical-maximum", field(0, "physical-maximum", "-500")),
    ("digital-minimum-with-a-dot", "BadNumber at signal 1 field digital-minimum",
     field(1, "digital-minimum", "-2048.0")),
    ("digital-minimum-of-24-bits", "BadRange at signal 1 field digital-minimum",
     field(1, "digital-minimum", "-8388608")),
    ("digital-maximum-with-a-dot", "BadNumber at signal 1 field digital-maximum",
     field(1, "digital-maximum", "2047.0")),
    ("digital-extremes-exchanged", "BadRange at signal 1 field digital-maximum",
     both(field(1, "digital-minimum", "2047"), field(1, "digital-maximum", "-2048"))),
    ("samples-no-number", "BadNumber at signal 2 field samples", field(2, "samples", "5.0")),
    ("no-samples", "BadRange at signal 2 field samples", field(2, "samples", "0")),
    ("annotations-in-12-bits", "BadAnnotationSignal at signal 3 field label",
     both(field(3, "digital-minimum", "-2048"), field(3, "digital-maximum", "2047"))),
    ("no-annotations", "NoAnnotationSignal at header field signals", field(3, "label", "Annotations")),
    ("annotations-alone", "NoOrdinarySignal at header field signals",
     both(*(both(field(number, "label", "EDF Annotations"), field(number, "digital-minimum", "-32768"),
                 field(number, "digital-maximum", "32767")) for number in range(3)))),
    ("two-of-one-label", "DuplicateLabel at signal 1 field label", field(1, "label", "EEG C4-M1")),
    ("record-too-large", "RecordTooLarge at header field signals", field(2, "samples", "9000000")),
    ("onset-without-sign", "BadTal(BadOnset) at record 2", lane(2, "10\x14\x14\0")),
    ("duration-with-a-sign", "BadTal(BadDuration) at record 2", lane(2, "+10\x14\x14\0+12\x15-1\x14Apnea\x14\0")),
    ("text-without-an-end", "BadTal(NoEnd) at record 2", lane(2, "+10\x14\x14\0+12\x14Apnea\0")),
    ("text-in-latin-1", "BadTal(NotUtf8) at record 2", lane(2, "+10\x14\x14\0+12\x14Unruhe, m\u00fcde\x14\0")),
    ("control-byte-in-a-text", "BadTal(ControlByte) at record 2", lane(2, "+10\x14\x14\0+12\x14Ap\x02nea\x14\0")),
    ("bytes-behind-the-zeros", "BadTal(NotZeroFilled) at record 2", lane(2, "+10\x14\x14\0\0+12\x14Apnea\x14\0")),
    ("no-time", "NoTimekeeping at record 2", lane(2, "+12\x14Apnea\x14\0")),
    ("starts-late", "BadFirstStart at record 0", lane(0, "+1\x14\x14\0")),
    ("gap-in-a-contiguous-file", "NotContiguous at record 2", lane(2, "+10.5\x14\x14\0")),
    ("records-overlap", "Overlap at record 2", both(fixed("reserved", "EDF+D"), lane(2, "+9.5\x14\x14\0"))),
    ("too-many-annotations", "TooManyAnnotations at record 0", many_annotations),
    ("bytes-behind-the-end", "TrailingBytes at end", lambda file: file + b"\0"),
]


def main(words):
    if len(words) != 1 or words[0].startswith("-"):
        print(__doc__, file=sys.stderr)
        return 2
    folder = pathlib.Path(words[0])
    folder.mkdir(parents=True, exist_ok=True)
    whole = night.files()["cut.edf"]
    answers = []
    for name, fault, change in FAULTS:
        (folder / f"{name}.edf").write_bytes(change(whole))
        answers.append(f"1\tconform {name}.edf\tFAULT {fault}\n")
    (folder / "answers").write_text("".join(answers), encoding="utf-8")
    return 0


if __name__ == "__main__":
    sys.exit(main(sys.argv[1:]))
