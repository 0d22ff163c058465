"""`edfclaim read`: what is printed of a file to be read, by how the files were made; and of each file with a fault the line of
`conform`.

The lines of the reference file are written here by its description in tests/recordings.py, those of the night by tests/night.py.
"""

import datetime
import decimal

from tests import edf, faults, night
from tests.edf import field, signal
from tests.harness import ProgramCase, each, slug
from tests.recordings import LANES, cut, recorded, temp_file

# What stands above the annotations of the reference file, but for its begin.
HEAD = """
code: MCH-0234567
sex: F
birthdate: 02-MAY-1951
name: Haagse_Harry
date: 02-MAR-2002
administration: PSG-1234/2002
technician: NN
equipment: Telemetry03

channel "EEG Fpz-Cz": samples in a data record: 4; -2048 to 2047 stand for -100 to 100 "uV"
  transducer "AgAgCl electrode", prefilter "HP:0.1Hz LP:75Hz"
channel "ECG": samples in a data record: 2; -2048 to 2047 stand for -10 to 10 "mV"
  transducer "AgAgCl electrode", prefilter "HP:0.1Hz LP:75Hz"

"""
BEGIN = """kind: EDF+C, without gaps
start: 2002-03-02 22:00:00
end: 2002-03-02 22:00:04, 4 s after the start
data records: 4, of 1 s each
"""
OFF = '2002-03-02 22:00:00.5 (0.5 s), data record 0: "Lights off"\n'
APNEA = '2002-03-02 22:00:01.5 (1.5 s), for 1 s, data record 1: "Apnea"\n'
LAST = '2002-03-02 22:00:03 (3 s), data record 3: "Apnea"\n'


# Texts of an annotation at 2.5 s, and how they are shown.
SHOWN = [
    ("plain", "Hyp", '"Hyp"'),
    ("umlaut", "Gähnen µ", '"Gähnen µ"'),
    ("empty", "", '""'),
    ("quotation_mark_and_backslash", 'a"b\\', '"a\\x22b\\x5c"'),
    ("tabulator_and_line_ends", "a\tb\r\n", '"a\\x09b\\x0d\\x0a"'),
    ("delete", "a\x7f", '"a\\x7f"'),
    ("controls_beyond_ascii", "\x80\x85\x9b\x9f", '"<U+0080><U+0085><U+009B><U+009F>"'),
    ("signs_that_turn", "a\u202eb\u2066", '"a<U+202E>b<U+2066>"'),
    ("marks_that_turn", "\u200e\u200f\u061c", '"<U+200E><U+200F><U+061C>"'),
    ("without_width", "a\u200bb\u200d\ufeff", '"a<U+200B>b<U+200D><U+FEFF>"'),
    ("soft_hyphen", "a\u00adb", '"a<U+00AD>b"'),
    ("ends_of_lines_and_paragraphs", "\u2028\u2029", '"<U+2028><U+2029>"'),
    ("tag", "\U000e0041", '"<U+E0041>"'),
    ("number_that_the_text_has", "<U+202E>", '"<U+202E>"'),
]

# The lanes of the reference file, and the lines of its annotations behind their count.
NOTES = [
    ("those_of_the_file", LANES, 3, [OFF, APNEA, LAST]),
    ("none", [edf.tal(f"+{at}", "") for at in range(4)], 0, []),
    (
        "in_the_order_of_time", [*LANES[:2], edf.tal("+2", "") + edf.tal("+0.25", "b"), LANES[3]], 4,
        ['2002-03-02 22:00:00.25 (0.25 s), data record 2: "b"\n', OFF, APNEA, LAST],
    ),
    (
        "before_the_start", [*LANES[:2], edf.tal("+2", "") + edf.tal("-7.25", "b", duration=0), LANES[3]], 4,
        ['2002-03-02 21:59:52.75 (-7.25 s), for 0 s, data record 2: "b"\n', OFF, APNEA, LAST],
    ),
    (
        "behind_midnight", [*LANES[:2], edf.tal("+2", "") + edf.tal("+7200", "b"), LANES[3]], 4,
        [OFF, APNEA, LAST, '2002-03-03 00:00:00 (7200 s), data record 2: "b"\n'],
    ),
    (
        "a_picosecond", [*LANES[:2], edf.tal("+2", "") + edf.tal("+2.000000000001", "b"), LANES[3]], 4,
        [OFF, APNEA, '2002-03-02 22:00:02.000000000001 (2.000000000001 s), data record 2: "b"\n', LAST],
    ),
    (
        "equal_ones_in_one_data_record", [LANES[0] + edf.tal("+0.5", "Lights off"), *LANES[1:]], 4,
        ['2002-03-02 22:00:00.5 (0.5 s), 2 times, first in data record 0: "Lights off"\n', APNEA, LAST],
    ),
    (
        "equal_ones_in_several",
        [*LANES[:2], *(edf.tal(f"+{at}", "") + edf.tal("+1.5", "Apnea", duration=1) for at in (2, 3))], 4,
        [OFF, '2002-03-02 22:00:01.5 (1.5 s), for 1 s, 3 times, first in data record 1: "Apnea"\n'],
    ),
    (
        "another_duration_and_another_text",
        [*LANES[:2], edf.tal("+2", "") + edf.tal("+1.5", "Apnea"),
         edf.tal("+3", "") + edf.tal("+1.5", "apnea", duration=1)], 4,
        [OFF, '2002-03-02 22:00:01.5 (1.5 s), data record 2: "Apnea"\n', APNEA,
         '2002-03-02 22:00:01.5 (1.5 s), for 1 s, data record 3: "apnea"\n'],
    ),
    (
        "two_texts_of_one_list", [*LANES[:2], edf.tal("+2", "", "b", "a"), LANES[3]], 5,
        [OFF, APNEA, *(f'2002-03-02 22:00:02 (2 s), data record 2: "{text}"\n' for text in "ab"), LAST],
    ),
]

# Texts of fields of the reference file, and lines that are printed of them.
FIELDS = [
    ("no_start_date", [(field("recording"), "Startdate X PSG X T3")],
     ["date: X", "administration: PSG", "technician: X", "equipment: T3"]),
    ("additional_subfields", [(field("patient"), "X X X X Ward7 Bed2")],
     ["name: X", "patient-extra: Ward7", "patient-extra: Bed2"]),
    ("recording_extra", [(field("recording"), "Startdate X X X X a b")],
     ["equipment: X", "recording-extra: a", "recording-extra: b"]),
    (
        "fractions", [(signal(0, "physical-minimum"), "-0.05"), (signal(0, "physical-maximum"), "3276.75")],
        ['channel "EEG Fpz-Cz": samples in a data record: 4; -2048 to 2047 stand for -0.05 to 3276.75 "uV"'],
    ),
    (
        "negative_gain", [(signal(1, "physical-minimum"), "1.0"), (signal(1, "physical-maximum"), "-.5")],
        ['channel "ECG": samples in a data record: 2; -2048 to 2047 stand for 1 to -0.5 "mV"'],
    ),
    ("a_label_in_quotes", [(signal(1, "label"), ' "a\\')],
     ['channel " \\x22a\\x5c": samples in a data record: 2; -2048 to 2047 stand for -10 to 10 "mV"']),
    ("a_filter", [(signal(1, "prefilter"), "")], ['  transducer "AgAgCl electrode", prefilter ""']),
]

# How a file of the channel `Temp` is cut, and the lines above its subfields.
COURSES = [
    (
        "with_a_fraction", cut(parts=[([1, 2], "+0.25")]),
        ["kind: EDF+C, without gaps", "start: 2002-03-02 22:00:00", "first data record: 0.25 s after the start",
         "end: 2002-03-02 22:00:01.25, 1.25 s after the start", "data records: 1, of 1 s each"],
    ),
    (
        "with_a_gap", cut(kind="EDF+D", records="2", duration="0.5", parts=[([1, 2], "+0"), ([3, 4], "+7199.75")]),
        ["kind: EDF+D, which may have gaps", "start: 2002-03-02 22:00:00",
         "end: 2002-03-03 00:00:00.25, 7200.25 s after the start", "data records: 2, of 0.5 s each"],
    ),
]


def of_night():
    """The lines of the night, from the values of which it was made."""
    code, sex, birthdate, name, ward = night.PATIENT
    administration, technician, equipment = night.RECORDING
    end = night.START + datetime.timedelta(seconds=night.SECONDS)
    yield from ["kind: EDF+C, without gaps", f"start: {night.START}", f"end: {end}, 150 s after the start"]
    yield from ["data records: 150, of 1 s each", "", f"code: {code}", f"sex: {sex}", f"birthdate: {birthdate}"]
    yield from [f"name: {name}", f"patient-extra: {ward}", "date: 17-MAR-2019", f"administration: {administration}"]
    yield from [f"technician: {technician}", f"equipment: {equipment}", ""]
    for label, (sensor, unit, low, high, prefilter, rate) in night.CHANNELS.items():
        yield f'channel "{label}": samples in a data record: {rate}; -2048 to 2047 stand for {low} to {high} "{unit}"'
        yield f'  transducer "{sensor}", prefilter "{prefilter}"'
    yield from ["", f"annotations: {len(night.NOTES)}"]
    for at, duration, text in night.NOTES:
        moment = night.START + datetime.timedelta(milliseconds=at)
        fraction = str(moment).rstrip("0") if moment.microsecond else str(moment)
        # the last one stands in the last data record, at whose end it is
        record = min(at // 1000, night.SECONDS - 1)
        lasts = f", for {decimal.Decimal(duration).scaleb(-3).normalize():f} s" if duration >= 0 else ""
        yield f'{fraction} ({decimal.Decimal(at).scaleb(-3).normalize():f} s){lasts}, data record {record}: "{text}"'


class Read(ProgramCase):
    """What is printed of files that conform."""

    def lines_of(self, file):
        """What is printed of a file, by lines."""
        ran = self.run_program("read", self.file("read.edf", file))
        self.assertTrue(ran.status == 0 and not ran.err, str(ran))
        return ran.out.decode().split("\n")

    def test_night(self):
        ran = self.run_program("read", "original.edf")
        self.assert_ran(ran, 0, "".join(f"{line}\n" for line in of_night()))

    @each(NOTES)
    def notes(self, lanes, count, lines):
        ran = self.run_program("read", self.file("read.edf", recorded(lanes=lanes)))
        self.assert_ran(ran, 0, f"{BEGIN}{HEAD}annotations: {count}\n{''.join(lines)}")

    @each(SHOWN)
    def text(self, text, shown):
        file = recorded(lanes=[*LANES[:2], edf.tal("+2", "") + edf.tal("+2.5", text), LANES[3]])
        lines = self.lines_of(file)
        self.assertEqual(lines[-3], f"2002-03-02 22:00:02.5 (2.5 s), data record 2: {shown}")

    @each(FIELDS)
    def field(self, edits, wanted):
        lines = self.lines_of(recorded(edits=edits))
        self.assertEqual([line for line in wanted if line not in lines], [], lines)

    @each(COURSES)
    def course(self, said, wanted):
        lines = self.lines_of(temp_file(said))
        self.assertEqual(lines[:lines.index("")], wanted)


class Faulty(ProgramCase):
    """Files with a fault: the line and the status of `conform`, and nothing else."""

    @each((slug(name), *row) for name, *row in faults.FAULTS)
    def fault(self, line, change):
        copy = self.file("broken.edf", change(night.files()["cut.edf"]))
        self.assert_ran(self.run_program("read", copy), 1, f"FAULT {line}\n")

    def test_fault_behind_annotations(self):
        late = self.file("late.edf", recorded(lanes=[*LANES[:3], b"+3.5\x14\x14\0"]))
        self.assert_ran(self.run_program("read", late), 1, "FAULT NotContiguous at record 3\n")
