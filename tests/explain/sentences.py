"""Each sentence of an explanation, as the files of words of the crates in WORDS have it: a check of which it is said, with
what stands in its open places, and a check of a near mistake of which it isn't said.

What stands in the open places comes from how the files were made, and the sentence from the crates, so whoever rewords one
has no row to change; who adds one has to add its row here, since a sentence without a row fails.
"""

import functools
import re

from tests import faults, night as example
from tests.cases.small_night import BOTH, LANE_0, LANE_1, LANE_2, LANE_3, NIGHT, VALUES_0, VALUES_1, VALUES_2, VALUES_3, WARD
from tests.edf import field, lane, signal, values
from tests.explain import rows as explain_rows, tries as explain_tries
from tests.harness import TOP
from tests.reading import rules
from tests.recordings import bytes_of, claim_of, recording

CRATES = TOP / "crates"

# The subfields by their variants: `PatientExtras` of `patient-extras`.
VARIANTS = {"".join(word.capitalize() for word in which.split("-")): which for which in rules.SUBFIELDS}

# The files that have the sentences; those on several exports have their rows in tests/test_explain_parts.py.
OF_PARTS = CRATES / "edf_explain" / "src" / "words" / "parts.rt"
WORDS = [
    *(CRATES / crate / "src" / "words.rt" for crate in ("edf_sentences", "edf_claim_advice", "edf_warnings")),
    *sorted(set((CRATES / "edf_explain" / "src" / "words").glob("*.rt")) - {OF_PARTS}),
]

# What has no row here: pieces of sentences that are punctuation; causes that no fault of a file has, since another one
# comes before; and what other parts of tests/test_explain.py show, since files that are changed or missing are no pair of files.
NO_ROW = {
    "FULL_STOP", "LISTED", "NOTE_TEXT", "SECONDS_UNIT", "THE_LINE", "LINE_CONTENT", "NEXT", "spelled.Sex",
    "NO_BYTES", "ONE_BYTE", "SOME_BYTES",
    "OTHER_RANGE", "FieldCause.NotPrintable", "READ_ANEW", "CANNOT_OPEN", "CANNOT_READ", "IS_FOLDER",
}

# Sentences whose rows stand in tests/explain/rows.py: words of each that a row there wants, and words that another doesn't.
OF_ROWS = {
    "BDF": ("This is a BDF file, which has 24 bits", "BDF"),
    "EMPTY": ("The file is empty", "is empty"),
    "Side.Export": ("It looks like a fault of the software that made the export: export again",
                    "software that made the export"),
    "Side.Original": ("Export the original again", "Export the original again"),
    "NAME_IN_NOTE": ("has something spelled like", "has something spelled like"),
    "NAME_IN_CHANNEL": ("A text of channel", "has something spelled like"),
    "NAME_IN_SUBFIELD": ("of the export has something spelled like", "has something spelled like"),
    "SPELLED_ALIKE": ("Names were looked for", "Names were looked for"),
    "CAUSE_OF_ALL_CHANGED": ("it looks like another cut of the night than claimed, or another night",
                             "it looks like another cut of the night than claimed, or another night"),
    "KEPT_BETWEEN": ("an interval, or a part of it, lies in a data record, and no sample of a claimed channel stands there",
                     "an interval, or a part of it, lies in a data record, and no sample of a claimed channel stands there"),
    "ORIGINAL_TWICE": ("it looks like the original was typed as the export, too",
                       "it looks like the original was typed as the export, too"),
    "EXPORT_TWICE": ("it looks like the export was typed as the original, too",
                     "it looks like the export was typed as the original, too"),
    "EXCHANGED": ("it looks like these two were exchanged", "it looks like these two were exchanged"),
    "NOT_IN_ORIGINAL": ("The original has no such annotation: delete it from the export.",
                        "The original has no such annotation: delete it from the export."),
    "LIKE_ALIKE": ("It looks like a text that the claim keeps at this time, and has other bytes",
                   "It looks like a text that the claim keeps at this time, and has other bytes"),
    "SEEN_ALIKE": ("An annotation has a text that looks the same, and has other bytes: ",
                   "An annotation has a text that looks the same, and has other bytes: "),
    "NOTES_WITHOUT_DURATIONS": (
        "annotations that differ only lack their durations",
        "annotations that differ only lack their durations",
    ),
    "NOTES_LATER": ("annotations that differ are only moved", "annotations that differ are only moved"),
    "NOTES_EARLIER": ("annotations that differ are only moved", "annotations that differ are only moved"),
    "MARK_IN_LINE": ("If it isn't meant as a part of a text, write the plain", "This line has"),
    "SHIFT_IN_UNITS": ("is shift = ", "is shift = "),
    "TIME_IN_SECONDS": ("as a length of time", "as a length of time"),
    "WITH_SHIFT_YES": ("With shift = ", "With shift"),
    "WITH_SHIFT_NO": ("With shift = ", "With shift"),
    "NO_BETTER_SHIFT": ("Other shifts were tried, and with none of them the first samples are as claimed: ", "were tried"),
    "SHIFT_BEYOND": (" s either way.", "as a shift is at most"),
    "CUT_ELSEWHERE": (". It looks like the export was cut elsewhere", "cut elsewhere"),
    "RECKONED_ANEW": (
        "With it all samples are as claimed. What follows is worked out with shift = ",
        "all samples are as claimed",
    ),
    "RECKONED_AS_CLAIMED": ("What follows is worked out with shift = ", "What follows is worked out"),
}

# Parts of sentences, each of which stands in the words that a row of tests/explain/rows.py wants.
PARTS = {f"spelled.{variant}" for variant in VARIANTS if variant != "Sex"}

CONSTANT = re.compile(r'const (\w+): &str =\s*"((?:[^"\\]|\\.)*)";')
CALL = re.compile(r"^pub\(crate\) fn (\w+)", re.M)
ARM = re.compile(r'(\w+)::(\w+) => (?:\{\s*)?"((?:[^"\\]|\\.)*)"')


def sentences(files=tuple(WORDS)):
    """The sentences of some files by their names: those of constants, and those of an enumeration's cases as `Side.Export`, or as
    `spelled.Name` where the function is `spelled`."""
    found = {}
    for file in files:
        text = file.read_text(encoding="utf-8")
        found |= dict(CONSTANT.findall(text))
        front, *parts = CALL.split(text)
        for call, part in [("", front), *zip(parts[0::2], parts[1::2])]:
            for kind, case, said in ARM.findall(part):
                found[f"{'spelled' if call == 'spelled' else kind}.{case}"] = said
    return {name: said.replace('\\"', '"').replace("\\\\", "\\") for name, said in found.items()}


def fault_of_rows(said, there, absent):
    """What is wrong with a sentence whose rows stand in tests/explain/rows.py, or none: words of it that no row wants, or of
    which no row says that they aren't there."""
    if there.strip() not in said or absent.strip() not in said:
        return f"it doesn't say {there!r}, or {absent!r}: {said!r}"
    wanted = any(there in words for row in other_rows() for words in row[5])
    refused = any(absent in words for row in other_rows() for words in row[6])
    return None if wanted and refused else f"no row wants {there!r}, or none refuses {absent!r}"


@functools.lru_cache
def other_rows():
    """The rows of the other two tables."""
    return [*explain_rows.rows(), *explain_tries.rows()]


def fault_of_part(said):
    """What is wrong with a part of a sentence: that no row wants it."""
    return None if any(said in words for row in other_rows() for words in row[5]) else f"no row wants {said!r}"


def filled(said, pieces):
    """A sentence with these pieces in its open places."""
    return re.sub(r"\{(\d)\}", lambda place: pieces[int(place[1])], said)


def pattern(said):
    """What a sentence looks like, whatever stands in its open places."""
    return re.compile(".*".join(re.escape(part) for part in re.split(r"\{\d\}", said)))


# The night, and what an export of it may be.

WHOLE = bytes_of(NIGHT)
ALL = [("0", "4")]
EVERYTHING = claim_of(BOTH, "", ALL)
A_DAY_BACK = claim_of(BOTH, "shift = -86400", ALL)


def edited(*edits, base=NIGHT, **said):
    """The bytes of the night with other texts in some fields, and what else is said."""
    return bytes_of(recording(edits=[*base["edits"], *edits], base=base, **said))


def with_lanes(*lanes, base=NIGHT, edits=()):
    """The night with other lanes in its four data records, and other texts in some fields; a short lane has zeros behind it."""
    shares = [VALUES_0, VALUES_1, VALUES_2, VALUES_3]
    parts = [part for share, text in zip(shares, lanes) for part in (share, lane(40, text))]
    return edited(*edits, base=base, parts=parts)


def with_values(*shares, edits=()):
    """The night with other samples in its four data records, and other texts in some fields."""
    lanes = [LANE_0, LANE_1, LANE_2, LANE_3]
    return edited(*edits, parts=[part for share, text in zip(shares, lanes) for part in (values(share), text)])


def with_notes(notes):
    """The night with these annotations, texts of TALs, in its first data record, and no others."""
    size = 1000
    lanes = [b"+0\x14\x14\0" + b"".join(notes), b"+1\x14\x14\0", b"+2\x14\x14\0", b"+3\x14\x14\0"]
    shares = [VALUES_0, VALUES_1, VALUES_2, VALUES_3]
    parts = [part for share, text in zip(shares, lanes) for part in (share, lane(size, text))]
    return edited((signal(2, "samples"), str(size // 2)), parts=parts)


def tal(onset, text, duration=None):
    span = "" if duration is None else f"\x15{duration}"
    return f"+{onset}{span}\x14{text}\x14\0".encode()


def at_start(day, startdate, starttime="22.00.00"):
    """The night at another start."""
    return edited((field("recording"), f"Startdate {day} PSG-1234/2002 NN Telemetry03"),
                  (field("startdate"), startdate), (field("starttime"), starttime))


def halves(count):
    """The channel ECG in so many data records of half a second, each with one sample, and the night's annotations."""
    notes = {1: tal("0.5", "Lights off"), 3: tal("1.5", "Apnea", 1), 6: tal("3", "Apnea")}
    parts = []
    for number in range(count):
        onset = f"{number // 2}{'.5' if number % 2 else ''}"
        parts += [values([100 + number]), lane(40, f"+{onset}\x14\x14\0".encode() + notes.get(number, b""))]
    edits = [(field("records"), str(count)), (field("duration"), "0.5"), (signal(0, "samples"), "1")]
    return bytes_of(recording(signals=[1, 2], edits=edits, parts=parts))


def patient(text):
    return edited((field("patient"), text))


def recorded(text):
    return edited((field("recording"), text))


UNLIT = with_lanes(b"+0\x14\x14\0", LANE_1, LANE_2, LANE_3)
QUIET = with_lanes(b"+0\x14\x14\0", b"+1\x14\x14\0", LANE_2, LANE_3)
HIDING = {which: claim_of(BOTH, f'anonymous = ["{which}"]', ALL) for which in rules.SUBFIELDS}
NAMELESS = patient("MCH-0234567 F 02-MAY-1951 X")
LONG = "The patient is awake and asks whether it is time to get up"
ONE_OTHER = [0, 10, 20, 30, 100, 101], [40, 50, 60, 70, 112, 103], [80, 90, 100, 110, 104, 105], [120, 130, 140, 150, 106, 107]
ONE_VALUE = with_values(*ONE_OTHER)
TWO_VALUES = with_values([0, 10, 20, 30, 100, 101], [40, 50, 60, 70, 112, 103], [80, 90, 100, 110, 104, 105],
                         [120, 130, 140, 150, 106, 117])
THREE_SECONDS = edited((field("records"), "3"), parts=[VALUES_0, LANE_0, VALUES_1, LANE_1, VALUES_2, LANE_2])
FASTER = edited((signal(1, "samples"), "4"), parts=[part for number, text in enumerate([LANE_0, LANE_1, LANE_2, LANE_3])
                for part in (values([40 * number + 10 * k for k in range(4)] + [100 + 2 * number + k // 2 for k in range(4)]),
                             text)])
WIDE, CUT_OFF, NARROWER = (edited((signal(0, "physical-minimum"), low), (signal(0, "physical-maximum"), high))
                           for low, high in (("-3276.7", "3276.7"), ("-3276.69", "3276.699"), ("-3276.7", "3276.6")))
QUARTER = with_lanes(b"+0.25\x14\x14\0", b"+1.25\x14\x14\0", b"+2.25\x14\x14\0", b"+3.25\x14\x14\0")
SILENT = with_lanes(b"+0\x14\x14\0", b"+1\x14\x14\0", LANE_2, b"+3\x14\x14\0")
MANY = [tal(f"0.{number:02}", f"Note {number}") for number in range(25)]
X_FOR_APNEA = with_lanes(LANE_0, b"+1\x14\x14\0" + tal("1.5", "X", 1), LANE_2, LANE_3)
LATER_APNEA = with_lanes(LANE_0, LANE_1, LANE_2, b"+3\x14\x14\0" + tal("3.5", "Apnea"))
UNTIL_THREE = claim_of(BOTH, "", [("0", "3")])
LAST_DAY = at_start("31-DEC-9999", "31.12.yy")


def until_three_with(onset, more=b""):
    """The night up to 3 s, with an annotation at an onset behind it, and maybe one more."""
    text = b"+2\x14\x14\0" + tal(onset, "Apnea") + more
    return edited((field("records"), "3"), parts=[VALUES_0, LANE_0, VALUES_1, LANE_1, VALUES_2, lane(40, text)])


def of_whole_files():
    """Those that are no mistake of one part of a file."""
    yield "a copy", WHOLE, WHOLE, EVERYTHING
    yield "behind the calendar", LAST_DAY, LAST_DAY, claim_of(BOTH, "shift = 10000000000", ALL)
    yield "one value", WHOLE, ONE_VALUE, EVERYTHING
    yield "two values", WHOLE, TWO_VALUES, EVERYTHING
    yield "the claim for the export", WHOLE, EVERYTHING.encode(), EVERYTHING
    yield "a letter for the export", WHOLE, b"To whom it may concern: the night is attached.\n", EVERYTHING


def of_channels():
    """Those on channels, and on texts of theirs and of the header."""
    flow = edited((signal(1, "label"), "Flow"))
    yield "a channel that the original lacks", WHOLE, flow, claim_of('["EEG Fpz-Cz", "Flow"]', "", ALL)
    yield "a channel that the export lacks", WHOLE, flow, EVERYTHING
    yield "a channel that neither has", WHOLE, WHOLE, claim_of('["EEG Fpz-Cz", "Flow"]', "", ALL)
    yield "a channel too many", WHOLE, WHOLE, claim_of('["EEG Fpz-Cz"]', "", ALL)
    yield "a channel too many, and a value", WHOLE, ONE_VALUE, claim_of('["EEG Fpz-Cz"]', "", ALL)
    yield "no channel of both", WHOLE, flow, claim_of('["Flow"]', "", ALL)
    yield "another sensor", WHOLE, edited((signal(1, "transducer"), "Cup")), EVERYTHING
    yield "another sensor, and a value", WHOLE, with_values(*ONE_OTHER, edits=[(signal(1, "transducer"), "Cup")]), EVERYTHING
    yield "another sensor, and an annotation less", WHOLE, with_lanes(b"+0\x14\x14\0", LANE_1, LANE_2, LANE_3, edits=[
        (signal(1, "transducer"), "Cup")]), EVERYTHING
    yield "a sensor cut short", WHOLE, edited((signal(1, "transducer"), "AgAgCl")), EVERYTHING
    yield "another filter", WHOLE, edited((signal(1, "prefilter"), "None")), EVERYTHING
    yield "another scale", WHOLE, edited((signal(0, "physical-maximum"), "200")), EVERYTHING
    yield "another unit", WHOLE, edited((signal(0, "dimension"), "mV")), EVERYTHING
    yield "extremes cut off", WIDE, CUT_OFF, EVERYTHING
    yield "an extreme a tenth less", WIDE, NARROWER, EVERYTHING
    yield "a text of a channel", WHOLE, edited((signal(1, "reserved"), "Haagse")), EVERYTHING
    yield "a text of the header", WHOLE, edited((field("reserved"), "EDF+C Haagse")), EVERYTHING


def of_subfields():
    """Those on subfields."""
    for which, claim in HIDING.items():
        shown = {"patient-extras": bytes_of(WARD),
                 "recording-extras": recorded("Startdate 02-MAR-2002 PSG-1234/2002 NN Telemetry03 Room5")}
        night = shown.get(which, WHOLE)
        yield f"{which} shown", night, night, claim
    yield "name hidden", WHOLE, NAMELESS, HIDING["name"]
    yield "another name", WHOLE, patient("MCH-0234567 F 02-MAY-1951 Haagse_Mary"), EVERYTHING
    yield "name hidden, not claimed", WHOLE, NAMELESS, EVERYTHING
    ward = bytes_of(WARD)
    yield "extras left out", ward, WHOLE, EVERYTHING
    yield "extras hidden, not claimed", ward, patient("MCH-0234567 F 02-MAY-1951 Haagse_Harry X"), EVERYTHING
    yield "date hidden, not claimed", WHOLE, recorded("Startdate X PSG-1234/2002 NN Telemetry03"), EVERYTHING


def of_starts():
    """Those on starts and shifts."""
    yield "an hour early", WHOLE, at_start("01-MAR-2002", "01.03.02", "21.00.00"), A_DAY_BACK
    yield "not moved", WHOLE, WHOLE, A_DAY_BACK
    yield "moved the other way", WHOLE, at_start("03-MAR-2002", "03.03.02"), A_DAY_BACK
    yield "a fraction left out", QUARTER, SILENT, EVERYTHING
    yield "nothing kept", WHOLE, WHOLE, claim_of(BOTH, "", [("100", "200")])


def of_samples():
    """Those on samples."""
    ecg = '["ECG"]'
    yield "half a second less", WHOLE, halves(7), claim_of(ecg, "", ALL)
    yield "half a second more", WHOLE, halves(8), claim_of(ecg, "", [("0", "3.5")])
    yield "in halves of a second", WHOLE, halves(8), claim_of(ecg, "", ALL)
    yield "a second less", WHOLE, THREE_SECONDS, EVERYTHING
    yield "a second more", WHOLE, WHOLE, UNTIL_THREE
    yield "another rate", WHOLE, FASTER, EVERYTHING


def of_notes():
    """Those on annotations that are missing, extra or moved."""
    yield "an annotation less", WHOLE, UNLIT, EVERYTHING
    yield "two annotations less", WHOLE, QUIET, EVERYTHING
    yield "an annotation more", UNLIT, WHOLE, EVERYTHING
    yield "two annotations more", QUIET, WHOLE, EVERYTHING
    yield "25 annotations less", with_notes(MANY), with_notes([]), EVERYTHING
    yield "20 annotations less", with_notes(MANY[:20]), with_notes([]), EVERYTHING
    yield "an annotation at the end", WHOLE, until_three_with("3"), UNTIL_THREE
    short = until_three_with("3")
    yield "an annotation at the end of the recording", short, short, UNTIL_THREE
    more = until_three_with("3", tal("3.5", "Snore"))
    yield "two annotations at the end of the recording and behind it", short, more, UNTIL_THREE
    yield "an annotation behind the end", LATER_APNEA, until_three_with("3.5"), UNTIL_THREE
    once, twice, moved = (with_notes([tal("0.5", "Lights off"), *more]) for more in (
        [], [tal("0.5", "Lights off")], [tal("2.75", "Snoring")]))
    yield "an annotation twice", once, twice, EVERYTHING
    yield "an annotation moved", with_notes([tal("0.5", "Lights off"), tal("2.5", "Snoring")]), moved, EVERYTHING


def of_note_texts():
    """Those on texts, times and durations of annotations."""
    removed = claim_of(BOTH, 'remove = ["Lights off"]', ALL)
    yield "a removed text that is there", WHOLE, WHOLE, removed
    yield "a text removed", WHOLE, UNLIT, removed
    yield "a text cut short", with_notes([tal("0.5", LONG)]), with_notes([tal("0.5", LONG[:40])]), EVERYTHING
    yield "a text cut shorter", with_notes([tal("0.5", LONG)]), with_notes([tal("0.5", LONG[:30])]), EVERYTHING
    exact = with_notes([tal("0.51234567", "Apnea")])
    yield "a time rounded", exact, with_notes([tal("0.5123", "Apnea")]), EVERYTHING
    yield "a time moved", exact, with_notes([tal("0.52", "Apnea")]), EVERYTHING
    yield "a text made X", WHOLE, X_FOR_APNEA, EVERYTHING
    blanked = claim_of(BOTH, 'blank = ["Apnea"]', ALL, 2)
    yield "a text not made X", WHOLE, WHOLE, blanked
    both_x = with_lanes(LANE_0, b"+1\x14\x14\0" + tal("1.5", "X", 1), LANE_2, b"+3\x14\x14\0" + tal("3", "X"))
    yield "a text blanked", WHOLE, both_x, blanked
    longer = with_lanes(LANE_0, b"+1\x14\x14\0" + tal("1.5", "Apnea", 2), LANE_2, LANE_3)
    yield "another duration", WHOLE, longer, EVERYTHING
    other = with_lanes(LANE_0, b"+1\x14\x14\0" + tal("1.5", "Apnoea", 1), LANE_2, LANE_3)
    yield "another text", WHOLE, other, EVERYTHING


def of_yes():
    """Those that are a Yes."""
    yield "a misspelt text", WHOLE, WHOLE, claim_of(BOTH, 'remove = ["Lights of"]', ALL)
    yield "a misspelt begin", WHOLE, WHOLE, claim_of(BOTH, 'remove-prefix = ["Ligths"]', ALL, 2)
    yield "a begin removed", WHOLE, UNLIT, claim_of(BOTH, 'remove-prefix = ["Lights"]', ALL, 2)
    everybody = (field("patient"), "X X X X"), (field("recording"), "Startdate X X X X")
    plain = [(signal(number, column), "") for number in (0, 1) for column in ("transducer", "prefilter")]
    nobody = edited(*everybody, *plain)
    yield "nothing to read", nobody, nobody, EVERYTHING


def pairs():
    """The checks by their names: the original, the export and the claim."""
    for table in (of_whole_files, of_channels, of_subfields, of_starts, of_samples, of_notes, of_note_texts, of_yes):
        yield from table()


# Broken copies of the example night's export, by their names in tests/faults.py, and what is said of each.
FAULTY = {
    "FieldCause.LeadingSpace": "patient-behind-a-space",
    "FieldCause.TooFewSubfields": "patient-of-plain-edf",
    "FieldCause.BadSex": "sex-in-small-letters",
    "FieldCause.BadDate": "birthdate-by-year",
    "FieldCause.NoStartdateWord": "no-word-startdate",
    "TalCause.BadOnset": "onset-without-sign",
    "TalCause.BadDuration": "duration-with-a-sign",
    "TalCause.NoEnd": "text-without-an-end",
    "TalCause.NotUtf8": "text-in-latin-1",
    "TalCause.ControlByte": "control-byte-in-a-text",
    "TalCause.NotZeroFilled": "bytes-behind-the-zeros",
    "NO_RECORDS": "still-recorded",
    "NO_DURATION_OF_RECORD": "no-duration",
    "NO_SIGNALS": "no-signals",
    "DIGITAL_RANGE": "digital-minimum-of-24-bits",
    "PHYSICAL_RANGE": "one-physical-extreme",
    "NO_SAMPLES": "no-samples",
    "TRUNCATED": "ends-in-a-record",
    "NOT_PRINTABLE": "micro-sign",
    "BAD_VERSION": "another-version",
    "BAD_START": "date-with-slashes",
    "STARTDATE_DIFFERS": "another-day",
    "BAD_HEADER_SIZE": "another-size",
    "NOT_EDF_PLUS": "plain-edf",
    "BAD_NUMBER": "duration-with-a-comma",
    "BAD_ANNOTATION_SIGNAL": "annotations-in-12-bits",
    "NO_ANNOTATION_SIGNAL": "no-annotations",
    "NO_ORDINARY_SIGNAL": "annotations-alone",
    "DUPLICATE_LABEL": "two-of-one-label",
    "RECORD_TOO_LARGE": "record-too-large",
    "NO_TIMEKEEPING": "no-time",
    "BAD_FIRST_START": "starts-late",
    "NOT_CONTIGUOUS": "gap-in-a-contiguous-file",
    "OVERLAP": "records-overlap",
    "TOO_MANY_ANNOTATIONS": "too-many-annotations",
    "TRAILING_BYTES": "bytes-behind-the-end",
}

FRONT = f"format = 1\nchannels = {BOTH}\n"
BEHIND = '[[keep]]\nfrom = "0"\nto = "4"\n'


def kept(*intervals):
    """A claim of intervals that are written as said."""
    return FRONT + "".join(f"[[keep]]\n{lines}\n" for lines in intervals)


def channels(said):
    return f"format = 1\nchannels = {said}\n{BEHIND}"


def line(said, form=1):
    """A claim with one more line in front of its interval, the third."""
    return f"format = {form}\nchannels = {BOTH}\n{said}\n{BEHIND}"


GOOD = FRONT + BEHIND

# Claims that are refused: the sentence, the claim, what stands in its open places, and a near claim of which it isn't said.
REFUSED = [
    ("CLAIM_IS_A_RECORDING", WHOLE, [], b"1       "),
    ("CLAIM_TOO_LONG", GOOD + "#" * 65536, ["65536"], GOOD + "channels = 1\n"),
    ("NOT_UTF8", FRONT.encode() + b"# m\xfcde\n" + BEHIND.encode(), ["3", "4"], line("m\u00fcde = 1")),
    ("NOT_TOML_ADVICE", FRONT.replace("]", "", 1) + BEHIND, [], line("# nothing") + "x = 1\n"),
    ("FORMAT_MISSING", f"channels = {BOTH}\n{BEHIND}", [], GOOD.replace("= 1", "= 3", 1)),
    ("FORMAT_QUOTED", GOOD.replace("= 1", '= "1"', 1), [], GOOD.replace("= 1", "= 3", 1)),
    ("FORMAT_OTHER", GOOD.replace("= 1", "= 3", 1), [], f"channels = {BOTH}\n{BEHIND}"),
    ("FORMAT_IN_TABLE", f"channels = {BOTH}\n{BEHIND}format = 1\n", [], f"channels = {BOTH}\n{BEHIND}"),
    ("KEY_OF_FORMAT_2", line('blank = ["Apnea"]'), ['"blank"'], line('blanks = ["Apnea"]')),
    ("KEY_OF_KEEP", line('from = "0"'), ['"from"'], line('form = "0"')),
    ("KEY_MISSPELT", line('remvoe = ["Apnea"]'), ['"remvoe"', "remove"], line('patient = "X"')),
    ("KEY_UNKNOWN", line('patient = "X"'),
     ['"patient"', "format, channels, keep, anonymous, shift and remove", "remove-prefix and blank"], line('remvoe = ["Apnea"]')),
    ("SHIFT_TOO_LARGE", line("shift = 10000000001"), ["10000000000"], line("shift = 1e10")),
    ("SHIFT_NOT_WHOLE", line("shift = -86400.0"), [], line("shift = 10000000001")),
    ("SHIFT_QUOTED", line('shift = "-86400"'), [], line("shift = -86400.0")),
    ("SHIFT_OTHER", line("shift = true"), [], line('shift = "-86400"')),
    ("TEXTS_MISSING", f"format = 1\n{BEHIND}", ["channels"], channels("[]")),
    ("TEXTS_NO_ARRAY", channels('"ECG"'), ["channels"], channels("[[]]")),
    ("TEXTS_NO_TEXT", channels('["ECG", 1]'), ["channels"], channels('["ECG", ["EEG Fpz-Cz"]]')),
    ("TEXTS_NESTED", channels('["ECG", ["EEG Fpz-Cz"]]'), ["channels"], channels('["ECG", 1]')),
    ("TEXT_TWICE", channels('["ECG", "ECG"]'), ['"ECG"', "channels"], channels('["ECG", "ECG "]')),
    ("PREFIX_EMPTY", line('remove-prefix = [""]', 2), [], line('remove-prefix = ["A", "A"]', 2)),
    ("CHANNELS_EMPTY", channels("[]"), [], channels('["ECG", "ECG"]')),
    ("LABEL_OF_ANNOTATIONS", channels('["EDF Annotations"]'), ['"EDF Annotations"'], channels('["EDF Annotations "]')),
    ("LABEL_NOT_ASCII", channels('["Fl\u00f6w"]'), ['"Fl\u00f6w"'], channels('["Fl\\tow"]')),
    ("LABEL_WITH_CONTROL", channels('["Fl\\tow"]'), ['"Fl\\x09ow"'], channels('["Fl\u00f6w"]')),
    ("LABEL_TOO_LONG", channels('["EEG Fpz-Cz-A1-A2x"]'), ['"EEG Fpz-Cz-A1-A2x"', "channels", "16"],
     channels('["EEG Fpz-Cz-A1 "]')),
    ("LABEL_WITH_SPACE", channels('["ECG "]'), ['"ECG "'], channels('["ECG", "ECG"]')),
    ("NAME_MISSPELT", line('anonymous = ["brithdate"]'), ['"brithdate"', "birthdate"], line('anonymous = ["hospital"]')),
    ("NAME_UNKNOWN", line('anonymous = ["hospital"]'), ['"hospital"'], line("shift = true")),
    ("NAMES", line('anonymous = ["hospital"]'), ["code, sex"], line("shift = true")),
    ("KEEP_MISSING", FRONT, ["999999999"], FRONT + BEHIND.replace("[[keep]]", "[keep]")),
    ("KEEP_SINGLE", FRONT + BEHIND.replace("[[keep]]", "[keep]"), [], FRONT),
    ("KEEP_TOO_MANY", FRONT + "".join(f'[[keep]]\nfrom = "{at}"\nto = "{at + 1}"\n' for at in range(1001)), ["1001", "1000"],
     kept('from = "0"')),
    ("KEEP_NO_TABLE", FRONT + 'keep = ["0", "4"]\n', [], FRONT + "keep = []\n"),
    ("KEEP_HAS_KEY_OF_CLAIM", GOOD + "shift = -86400\n", ["shift"], GOOD + 'till = "4"\n'),
    ("KEEP_HAS_OTHER_KEY", GOOD + 'till = "4"\n', ["till"], GOOD + "shift = -86400\n"),
    ("KEEP_BACKWARDS", kept('from = "0"\nto = "1"', 'from = "3"\nto = "2"'), ["to", "2"],
     kept('from = "0"\nto = "2"', 'from = "1"\nto = "3"')),
    ("KEEP_OUT_OF_ORDER", kept('from = "0"\nto = "2"', 'from = "1"\nto = "3"'), ["from", "2"],
     kept('from = "0"\nto = "1"', 'from = "3"\nto = "2"')),
    ("TIME_MISSING", kept('from = "0"'), ["to", "1"], kept('from = "0"\nto = ""')),
    ("TIME_NO_TEXT", kept('from = "0"\nto = true'), ["to", "1"], kept('from = "0"\nto = 4')),
    ("TIME_NOT_QUOTED", kept('from = "0"\nto = 4'), ["to", "4"], kept('from = "0"\nto = 4.5')),
    ("TIME_FLOAT_NOT_QUOTED", kept('from = "0"\nto = 4.5'), ["to", "1"], kept('from = "0"\nto = 4')),
    ("TIME_EMPTY", kept('from = "0"\nto = ""'), ["to", ""], kept('from = "0"\nto = " "')),
    ("TIME_IS_A_CLOCK", kept('from = "0"\nto = "22:00:04"'), ["to", "22:00:04"], kept('from = "0"\nto = "22.00.04"')),
    ("TIME_WITH_COMMA", kept('from = "0"\nto = "3,5"'), ["to", "3,5"], kept('from = "0"\nto = "3;5"')),
    ("TIME_WITH_SIGN", kept('from = "-1"\nto = "4"'), ["from", "-1"], kept('from = "1-"\nto = "4"')),
    ("TIME_WITH_EXPONENT", kept('from = "0"\nto = "4e0"'), ["to", "4e0"], kept('from = "0"\nto = "4x0"')),
    ("TIME_WITH_BARE_DOT", kept('from = ".5"\nto = "4"'), ["from", ".5"], kept('from = "0"\nto = "4.x"')),
    (
        "TIME_TOO_LONG",
        kept('from = "0"\nto = "1234567890"'),
        ["to", "1234567890", "9", "12"],
        kept('from = "0"\nto = "12345678.9.0"'),
    ),
    ("TIME_WITH_MARK", kept('from = "0\u20134"\nto = "4"'), ["from", "an en dash (U+2013)"], kept('from = "0_4"\nto = "4"')),
    ("TIME_OTHER", kept('from = "0"\nto = "4 s"'), ["to", "4 s"], kept('from = "0"\nto = "4,5"')),
    ("AT_LINE", line("shift = true"), ["3"], FRONT),
    ("AT_COLUMN", channels('["ECG", "ECG "]'), ["2", "21"], line("shift = true")),
    ("NOT_TOML", line("shift"), ["3", "6", ""], line("shift = true")),
]

# Checks that are answered: the sentence, the check of which it is said, what stands in its open places, and the near one.
ANSWERED = [
    ("NO_DAY", "behind the calendar", [], "not moved"),
    ("AT", "one value", ["1 s", "2002-03-02 22:00:01", "2002-03-02 22:00:01"], "another sensor"),
    ("LOOKS_LIKE_A_CLAIM", "the claim for the export", ["", "export"], "a letter for the export"),
    ("UNKNOWN_CHANNEL", "a channel that the original lacks", ['"Flow"'], "a channel that neither has"),
    ("MISSING_CHANNEL", "a channel that the export lacks", ['"ECG"'], "a channel that neither has"),
    ("CHANNEL_NOWHERE", "a channel that neither has", ['"Flow"'], "a channel that the original lacks"),
    ("EXTRA_CHANNEL", "a channel too many", ['"ECG"'], "a copy"),
    ("WITH_CHANNEL", "a channel too many", ['"EEG Fpz-Cz"'], "a channel that the export lacks"),
    ("CHANNELS_YES", "a channel too many", ["YES channels 2 samples 24 annotations 3"], "a channel too many, and a value"),
    ("CHANNELS_NO", "a channel too many, and a value", ['NO 10 sample "ECG" at 1000000000000 ps original 102 export 112'],
     "a channel too many"),
    ("TRANSDUCER", "another sensor", ['"ECG"', '"AgAgCl electrode"', '"Cup"'], "another filter"),
    ("PREFILTER", "another filter", ['"ECG"', '"HP:0.1Hz LP:75Hz"', '"None"'], "another sensor"),
    ("TEXT_CUT", "a sensor cut short", [], "another sensor"),
    ("CALIBRATION", "another scale", ['"EEG Fpz-Cz"'], "another filter"),
    ("CALIBRATION_ORIGINAL", "another scale", ["-100", "100", '"uV"', "-2048", "2047"], "another filter"),
    ("CALIBRATION_EXPORT", "another scale", ["-100", "200", '"uV"', "-2048", "2047"], "another filter"),
    ("CALIBRATION_CUT_OFF", "extremes cut off", [], "an extreme a tenth less"),
    ("CALIBRATION_DIMENSION", "another unit", [], "another scale"),
    ("CALIBRATION_SCALE", "another scale", [], "another unit"),
    ("FREE_TEXT_OF_CHANNEL", "a text of a channel", ['"ECG"', '"Haagse"'], "a text of the header"),
    ("FREE_TEXT_OF_HEADER", "a text of the header", [], "a text of a channel"),
    ("SUBFIELD_NOT_X", "name shown", ["name", "the patient's name"], "name hidden"),
    ("SUBFIELD_CHANGED", "another name", ["name", "the patient's name"], "name hidden, not claimed"),
    (
        "SUBFIELD_LEFT_OUT",
        "extras left out",
        ["patient-extras", "everything that comes after the patient's name"],
        "extras hidden, not claimed",
    ),
    (
        "SUBFIELD_HIDDEN",
        "extras hidden, not claimed",
        ["patient-extras", "everything that comes after the patient's name"],
        "extras left out",
    ),
    ("SUBFIELD_HIDDEN", "name hidden, not claimed", ["name", "the patient's name"], "another name"),
    ("DATE_CHANGED", "date hidden, not claimed",
     ["date", "the day of the recording, as the recording's line says it"], "name hidden, not claimed"),
    ("ALL_COMPARED", "another sensor", [], "one value"),
    ("ALL_COMPARED", "another sensor, and a value", [], "no channel of both"),
    ("NOTES_COMPARED", "no channel of both", [], "another sensor"),
    ("THEY_ARE_AS_CLAIMED", "another sensor", [], "another sensor, and a value"),
    ("THEY_ARE_AS_CLAIMED", "no channel of both", [], "another sensor, and an annotation less"),
    ("STARTS_EARLIER", "an hour early", ["1 hour", "2002-03-01 21:00:00", "2002-03-01 22:00:00"], "not moved"),
    ("STARTS_LATER", "not moved", ["1 day", "2002-03-02 22:00:00", "2002-03-01 22:00:00"], "an hour early"),
    ("SHIFT_FORGOTTEN", "not moved", [], "moved the other way"),
    ("SHIFT_TURNED", "moved the other way", [], "not moved"),
    ("NO_SHIFT_FITS", "a fraction left out", [], "an hour early"),
    ("NOTHING_KEPT", "nothing kept", [], "a second more"),
    ("OTHER_RATE", "another rate", ['"ECG"'], "one value"),
    ("SAMPLE_MISSING", "half a second less", ['"ECG"'], "in halves of a second"),
    ("SAMPLES_MISSING", "a second less", ['"EEG Fpz-Cz"', "4"], "a second more"),
    ("SAMPLE_EXTRA", "half a second more", ['"ECG"'], "in halves of a second"),
    ("SAMPLES_EXTRA", "a second more", ['"EEG Fpz-Cz"', "4"], "a second less"),
    ("SAMPLE_CHANGED", "one value", ['"ECG"'], "two values"),
    ("SAMPLES_CHANGED", "two values", ['"ECG"', "2"], "one value"),
    ("THE_SAMPLE", "one value", [], "two values"),
    ("THE_FIRST", "two values", [], "one value"),
    ("THE_LAST", "two values", [], "one value"),
    ("RECORD_OF_ORIGINAL", "one value", ["1"], "another sensor"),
    ("RECORD_OF_EXPORT", "one value", ["1"], "another sensor"),
    ("VALUES", "one value", ["102", "112"], "a second less"),
    ("CAUSE_OF_MISSING", "a second less", [], "a second more"),
    ("CAUSE_OF_EXTRA", "a second more", [], "a second less"),
    ("CAUSE_OF_CHANGED", "one value", [], "a second less"),
    ("NOTE_MISSING", "an annotation less", [], "two annotations less"),
    ("NOTES_MISSING", "two annotations less", ["2"], "an annotation less"),
    ("NOTE_EXTRA", "an annotation more", [], "two annotations more"),
    ("NOTES_EXTRA", "two annotations more", ["2"], "an annotation more"),
    ("DURATION", "two annotations less", ["1 s"], "an annotation less"),
    ("NO_DURATION", "an annotation less", [], "another duration"),
    ("NOT_LISTED", "25 annotations less", ["5"], "20 annotations less"),
    ("AT_END", "an annotation at the end", [], "an annotation behind the end"),
    ("WITH_END_YES", "an annotation at the end of the recording",
     ["3.000000000001", "3", "YES channels 2 samples 18 annotations 3"], "an annotation at the end"),
    ("WITH_END_NO", "two annotations at the end of the recording and behind it",
     ["3.000000000001", "3", 'NO 11 annotation extra at 3500000000000 ps duration none text "Snore"'],
     "an annotation at the end of the recording"),
    ("OUTSIDE", "an annotation behind the end", [], "an annotation at the end"),
    ("REMOVED_BUT_THERE", "a removed text that is there", [], "a text removed"),
    ("LIKE_CUT", "a text cut short", [], "a text cut shorter"),
    ("LIKE_ROUNDED", "a time rounded", [], "a time moved"),
    ("LIKE_BLANKED", "a text made X", [], "another text"),
    ("NOT_BLANKED", "a text not made X", [], "a text blanked"),
    ("LIKE_OTHER_DURATION", "another duration", [], "another text"),
    ("LIKE_OTHER_TEXT", "another text", [], "another duration"),
    ("LESS_OFTEN", "an annotation twice", [], "an annotation more"),
    ("LIKE_MOVED", "an annotation moved", [], "an annotation more"),
    ("NOTES_ADVICE", "an annotation less", [], "an annotation more"),
    ("NOTES_ALL", "an annotation more", [], "one value"),
    ("CHECK_AGAIN", "one value", [], "a copy"),
    ("AS_CLAIMED", "a copy", [], "one value"),
    ("TEXT_UNSEEN", "a misspelt text", ['"Lights of"', "remove"], "a text removed"),
    ("BEGIN_UNSEEN", "a misspelt begin", ['"Ligths"', "remove-prefix"], "a begin removed"),
    ("SUBFIELDS_SHOWN", "a copy", ["code, sex"], "nothing to read"),
    ("CHANNEL_TEXTS", "a copy", [], "nothing to read"),
    ("CHANNEL_TEXT", "a copy", ['"ECG"', '"AgAgCl electrode"', '"HP:0.1Hz LP:75Hz"'], "nothing to read"),
    ("READ_THE_TEXTS", "a copy", [], "one value"),
]

# Subfields by the names of their sentences.
SUBFIELDS = {f"Which.{variant}": which for variant, which in VARIANTS.items()}


# How much there may be of what a fault says there is too much of.
LIMITS = {"RECORD_TOO_LARGE": ["16777216"], "TOO_MANY_ANNOTATIONS": ["1000000"]}


def rows():
    """The name of the row, the sentence, the check of which it is said, what stands in its open places, and the near one."""
    files = {name: triple for name, *triple in pairs()}
    for name, case, pieces, near in ANSWERED:
        yield f"{name} of {case}", name, files[case], pieces, files[near]
    for name, which in SUBFIELDS.items():
        near = "sex" if which == "code" else "code"
        yield name, name, files[f"{which} shown"], [], files[f"{near} shown"]
    for name, claim, pieces, near in REFUSED:
        yield name, name, (WHOLE, WHOLE, claim), pieces, (WHOLE, WHOLE, near)
    made = example.files()
    original, export, claim = made["original.edf"], made["cut.edf"], made["cut.toml"]
    copies = {name: (said, change(export)) for name, said, change in faults.FAULTS}
    whole = "bytes-behind-the-end"
    for name, copy in FAULTY.items():
        near = "ends-in-a-record" if copy == whole else whole
        yield name, name, (original, copies[copy][1], claim), LIMITS.get(name, []), (original, copies[near][1], claim)
    for copy in ("ends-in-a-record", whole):
        said, broken = copies[copy]
        yield f"FAULT of {copy}", "FAULT", (original, broken, claim), [said, "export"], (original, export, claim)
