"""`edfclaim layout`: what is printed of a file besides what it says, by how the files were made; and of each file with a fault
the line of `conform`.

The lines of each file are written here by its description, and looked for in what the program prints and in what the second
reading of the definitions does (tests/oracle/layout.py).
"""

from tests import edf, faults, night
from tests.edf import field, signal, tal, values
from tests.harness import NIGHT, Case, ProgramCase, each, slug
from tests.oracle.layout import meaning, printed
from tests.oracle.layout_written import written
from tests.recordings import LANES, bytes_of, recorded, recording

# How many data records the crowded files have.
MANY = 200_000

ONE_BY_ONE = "annotations one in each data record"
BY_TIME = "annotations by time"
TIME = "  onset plain duration plain time lasting none annotations"

# The lines of the header of the reference file.
HEAD = """\
kind EDF+C
duration 1
records 4
size 1024
signals 3
patient added 0
patient spaces 1 1 1
recording added 0
recording spaces 1 1 1 1
signal 0 samples 4 physical -100 100 digital -2048 2047 label "EEG Fpz-Cz"
signal 1 samples 2 physical -10 10 digital -2048 2047 label "ECG"
signal 2 samples 20 physical -1 1 digital -32768 32767 label "EDF Annotations"
""".splitlines()


def keeper(at):
    """The TAL that keeps the time of the data record that starts then."""
    return tal(f"+{at}", "")


def lane(number):
    """The line above an annotation lane of the reference file."""
    return f"data record {number} annotation signal 0"


def said(*places, onset="plain", duration="plain"):
    """The line of a TAL with the annotations at these places."""
    return f"  onset {onset} duration {duration} annotations{''.join(f' {place}' for place in places)}"


def ended(count):
    """The last line where so many places aren't plain."""
    return f"NOT PLAIN {count}" if count else "PLAIN"


OFF, APNEA, LAST = tal("+0.5", "Lights off"), tal("+1.5", "Apnea", duration=1), tal("+3", "Apnea")

# The lanes of the reference file; the order; the lines of the lanes that this order has otherwise; how many these are. The
# annotations are at 0.5 s, at 1.5 s for 1 s, and at 3 s, where a row has no other ones.
BODIES = [
    ("by_time", LANES, BY_TIME, [], 0),
    ("one_by_one", [keeper(0) + OFF, keeper(1) + APNEA, keeper(2) + LAST, keeper(3)], ONE_BY_ONE, [], 0),
    ("no_annotation", [keeper(at) for at in range(4)], ONE_BY_ONE, [], 0),
    ("one_annotation_that_fits_both", [keeper(0) + OFF, *map(keeper, (1, 2, 3))], ONE_BY_ONE, [], 0),
    (
        "one_by_one_around_the_end",
        [keeper(0) + tal("+0", "a") + tal("+0", "e"), *(keeper(at) + tal("+0", "abcd"[at]) for at in (1, 2, 3))],
        ONE_BY_ONE, [], 0,
    ),
    (
        "one_by_one_in_the_order_of_texts",
        [keeper(0) + tal("+0", "b"), keeper(1) + tal("+0", "a"), keeper(2), keeper(3)], ONE_BY_ONE,
        [lane(0), TIME, said(1), lane(1), TIME, said(0)], 2,
    ),
    (
        "no_duration_comes_before_any",
        [keeper(0) + tal("+0", "z"), keeper(1) + tal("+0", "y", duration=0), keeper(2) + tal("+0", "x", duration=1), keeper(3)],
        ONE_BY_ONE, [], 0,
    ),
    (
        "before_the_start_and_behind_the_end",
        [keeper(0) + tal("-7.25", "b") + OFF, LANES[1], LANES[2], keeper(3) + LAST + tal("+99", "c")], BY_TIME, [], 0,
    ),
    (
        "a_full_lane_goes_on_into_the_next",
        [keeper(0) + OFF, keeper(1) + tal("+0.75", "a" * 12) + APNEA, LANES[2], LANES[3]], BY_TIME, [], 0,
    ),
    (
        "behind_the_last_data_record_from_the_first_on",
        [keeper(0) + tal("+3.5", "a" * 23), LANES[1], LANES[2], LANES[3]], BY_TIME, [], 0,
    ),
    (
        "a_lane_that_is_full_to_its_last_byte",
        [keeper(0) + tal("+0.5", "a" * 28), keeper(1), keeper(2), keeper(3) + tal("+0.5", "b")], ONE_BY_ONE,
        [lane(1), TIME, lane(3), TIME, said(1)], 2,
    ),
    ("zeros_in_an_onset", [keeper(0) + tal("+00.50", "Lights off"), *LANES[1:]], BY_TIME,
     [lane(0), TIME, said(0, onset="+00.50")], 1),
    ("a_dot_and_a_zero_in_an_onset", [*LANES[:3], keeper(3) + tal("+3.0", "Apnea")], BY_TIME,
     [lane(3), TIME, said(2, onset="+3.0")], 1),
    ("zeros_in_a_duration", [LANES[0], keeper(1) + tal("+1.5", "Apnea", duration="1.0"), *LANES[2:]], BY_TIME,
     [lane(1), TIME, said(1, duration="1.0")], 1),
    ("minus_zero", [tal("-0", "") + OFF, *LANES[1:]], BY_TIME,
     [lane(0), TIME.replace("onset plain", "onset -0"), said(0)], 1),
    ("a_duration_on_a_timekeeping_tal", [*LANES[:2], tal("+2", "", duration=1), LANES[3]], BY_TIME,
     [lane(2), TIME.replace("none", "1000000000000 ps")], 1),
    (
        "an_odd_duration_on_a_timekeeping_tal_with_a_text",
        [*LANES[:2], tal("+2", "", "b", duration="01"), LANES[3]], ONE_BY_ONE,
        [lane(2), "  onset plain duration 01 time lasting 1000000000000 ps annotations 2"], 1,
    ),
    ("an_annotation_in_a_timekeeping_tal", [*LANES[:3], tal("+3", "", "Apnea")], BY_TIME, [lane(3), f"{TIME} 2"], 1),
    ("a_tal_without_a_text", [*LANES[:2], keeper(2) + tal("+5"), LANES[3]], BY_TIME,
     [lane(2), TIME, "  onset plain duration plain no text at 5000000000000 ps duration none"], 1),
    ("one_with_odd_times", [*LANES[:2], keeper(2) + tal("-05", duration="00.5"), LANES[3]], BY_TIME,
     [lane(2), TIME, "  onset -05 duration 00.5 no text at -5000000000000 ps duration 500000000000 ps"], 1),
    ("two_texts_in_one_tal", [LANES[0], keeper(1) + tal("+1.5", "Apnea", "Hyp", duration=1), *LANES[2:]], BY_TIME,
     [lane(1), TIME, said(1, 2)], 1),
    ("two_texts_the_other_way_round", [LANES[0], keeper(1) + tal("+1.5", "Hyp", "Apnea", duration=1), *LANES[2:]], BY_TIME,
     [lane(1), TIME, said(2, 1)], 1),
    ("equal_annotations", [keeper(0) + tal("+0.5", "a") * 2, *LANES[1:]], BY_TIME, [], 0),
    ("equal_annotations_in_one_tal", [keeper(0) + tal("+0.5", "a", "a"), *LANES[1:]], BY_TIME, [lane(0), TIME, said(0, 0)], 1),
    ("an_empty_text", [*LANES[:2], keeper(2) + tal("+2", ""), LANES[3]], ONE_BY_ONE, [], 0),
    ("in_another_data_record", [LANES[0], keeper(1), keeper(2) + APNEA, LANES[3]], BY_TIME,
     [lane(1), TIME, lane(2), TIME, said(1)], 2),
    ("not_in_the_order_of_time", [keeper(0) + tal("+0.75", "a") + OFF, *LANES[1:]], BY_TIME, [lane(0), TIME, said(1), said(0)], 1),
    ("as_far_from_both_orders", [keeper(0) + OFF + APNEA, keeper(1) + LAST, keeper(2), keeper(3)], ONE_BY_ONE,
     [lane(0), TIME, said(0), said(1), lane(1), TIME, said(2), lane(2), TIME], 3),
]

# Files of the channel `Temp` and two annotation signals of 32 bytes, in data records of 1 s: the lanes of each; the order, the
# lines of odd lanes and how many these are.
TWO_SIGNALS = [
    ("the_second_one_is_empty", [(keeper(0) + OFF, b"")], ONE_BY_ONE, [], 0),
    ("the_first_one_has_no_room", [(keeper(0), tal("+0.5", "a" * 21))], ONE_BY_ONE, [], 0),
    ("the_first_one_has_room", [(keeper(0), tal("+0.5", "a" * 20))], ONE_BY_ONE,
     [lane(0), TIME, "data record 0 annotation signal 1", said(0)], 2),
    ("another_empty_text_in_the_second_one", [(keeper(0), tal("+0", ""))], ONE_BY_ONE,
     [lane(0), TIME, "data record 0 annotation signal 1", said(0)], 2),
    ("on_into_the_second_one", [(keeper(0), b""), (keeper(1) + tal("+1.5", "Arousal", duration="0.25"), APNEA)], BY_TIME, [], 0),
]

# Texts of fields of the reference file; lines of its layout that are other ones for it; and what isn't plain.
FIELDS = [
    ("spaces", [(field("patient"), "MCH-0234567  F 02-MAY-1951   Haagse_Harry")], {"patient spaces": "2 1 3"},
     ["header field patient has 2 spaces behind subfield 1", "header field patient has 3 spaces behind subfield 3"]),
    ("spaces_in_the_recording", [(field("recording"), "Startdate  02-MAR-2002 PSG NN T3")], {"recording spaces": "2 1 1 1"},
     ["header field recording has 2 spaces behind subfield 1"]),
    ("additional_subfields", [(field("patient"), "X X X X Ward7 X")], {"patient added": "2", "patient spaces": "1 1 1 1 1"}, []),
    ("two_x", [(field("patient"), "X X X X X a X")], {"patient added": "3", "patient spaces": "1 1 1 1 1 1"},
     ["header field patient has more than one additional subfield X"]),
    ("two_x_in_the_recording", [(field("recording"), "Startdate X X X X X X")],
     {"recording added": "2", "recording spaces": "1 1 1 1 1 1"},
     ["header field recording has more than one additional subfield X"]),
    ("records", [(field("records"), "0004")], {"records": "0004"}, ["header field records spells 0004"]),
    ("duration", [(field("duration"), "1.0")], {"duration": "1.0"}, ["header field duration spells 1.0"]),
    ("size_and_signals", [(field("header-bytes"), "01024"), (field("signals"), "+3")], {"size": "01024", "signals": "+3"},
     ["header field header-bytes spells 01024", "header field signals spells +3"]),
    ("kind", [(field("reserved"), "EDF+D")], {"kind": "EDF+D"}, []),
    ("free_text", [(field("reserved"), "EDF+C some text")], {}, []),
    (
        "numbers_of_a_signal",
        [(signal(0, "physical-minimum"), "-100."), (signal(0, "physical-maximum"), ".5"), (signal(0, "digital-minimum"), "-02048"),
         (signal(0, "digital-maximum"), "+2047"), (signal(0, "samples"), "04")],
        {"signal 0": 'samples 04 physical -100. .5 digital -02048 +2047 label "EEG Fpz-Cz"'},
        ["signal 0 field physical-minimum spells -100.", "signal 0 field physical-maximum spells .5",
         "signal 0 field digital-minimum spells -02048", "signal 0 field digital-maximum spells +2047",
         "signal 0 field samples spells 04"],
    ),
    ("fractions", [(signal(1, "physical-minimum"), "-0.05"), (signal(1, "physical-maximum"), "0")],
     {"signal 1": 'samples 2 physical -0.05 0 digital -2048 2047 label "ECG"'}, []),
    ("minus_zero", [(signal(1, "physical-maximum"), "-0")],
     {"signal 1": 'samples 2 physical -10 -0 digital -2048 2047 label "ECG"'}, ["signal 1 field physical-maximum spells -0"]),
    ("an_annotation_signal", [(signal(2, "physical-minimum"), "7.250")],
     {"signal 2": 'samples 20 physical 7.250 1 digital -32768 32767 label "EDF Annotations"'},
     ["signal 2 field physical-minimum spells 7.250"]),
    ("a_label_in_quotes", [(signal(1, "label"), ' "a\\')],
     {"signal 1": r'samples 2 physical -10 10 digital -2048 2047 label " \x22a\x5c"'}, []),
]


def changed(lines, others):
    """The lines of a header, of which some have another text behind their first words."""
    found = list(lines)
    for words, text in others.items():
        number = next(number for number, line in enumerate(found) if line.startswith(f"{words} "))
        found[number] = f"{words} {text}"
    return found


def of_bodies():
    for name, lanes, order, lines, count in BODIES:
        yield f"lanes_{name}", recorded(lanes=lanes), [*HEAD, order, *lines, ended(count)], count


def of_two_signals():
    for name, records, order, lines, count in TWO_SIGNALS:
        parts = [part for first, second in records for part in (edf.lane(32, first), values([1, 2]), edf.lane(32, second))]
        file = recording(signals=[4, 3, 4], edits=[(field("records"), str(len(records)))], parts=parts)
        head = [*changed(HEAD[:9], {"records": len(records)})]
        head += [f'signal {number} samples 16 physical -1 1 digital -32768 32767 label "EDF Annotations"' for number in (0, 2)]
        head.insert(10, 'signal 1 samples 2 physical 30 40 digital -2048 2047 label "Temp"')
        yield f"two_signals_{name}", bytes_of(file), [*head, order, *lines, ended(count)], count


def of_fields():
    for name, edits, others, places in FIELDS:
        lines = [*changed(HEAD, others), BY_TIME, *(f"not plain: {place}" for place in places), ended(len(places))]
        yield f"field_{name}", recorded(edits=edits), lines, len(places)


def of_both():
    """A lane and a place of the header: the lane comes first, and both are counted."""
    file = recorded(edits=[(field("records"), "+4")], lanes=[keeper(0) + tal("+00.5", "Lights off"), *LANES[1:]])
    lines = [*changed(HEAD, {"records": "+4"}), BY_TIME, lane(0), TIME, said(0, onset="+00.5")]
    yield "lane_and_field", file, [*lines, "not plain: header field records spells +4", "NOT PLAIN 2"], 2


ROWS = [
    (name, file, "".join(f"{line}\n" for line in lines), int(count > 0))
    for rows in (of_bodies(), of_two_signals(), of_fields(), of_both()) for name, file, lines, count in rows
]


def of_night():
    """The lines of the night's original, from the values of which it was made."""
    yield from ["kind EDF+C", "duration 1", f"records {night.SECONDS}", "size 1792", "signals 6"]
    yield from ["patient added 1", "patient spaces 1 1 1 1", "recording added 0", "recording spaces 1 1 1 1"]
    for number, (label, (_, _, low, high, _, rate)) in enumerate(night.CHANNELS.items()):
        yield f'signal {number} samples {rate} physical {low} {high} digital -2048 2047 label "{label}"'
    yield 'signal 5 samples 32 physical -1 1 digital -32768 32767 label "EDF Annotations"'
    yield from [BY_TIME, "PLAIN"]


class SecondReading(Case):
    """What the second reading of the definitions prints; and the file that has these lines and this meaning."""

    @each(ROWS)
    def prints(self, file, lines, status):
        self.assertEqual(printed(file), (status, lines.encode()))

    @each(ROWS)
    def is_written(self, file, lines, status):
        self.assertEqual(written(meaning(file), lines.encode()), file)


class Layout(ProgramCase):
    """What the program prints."""

    @each(ROWS)
    def prints(self, file, lines, status):
        self.assert_ran(self.run_program("layout", self.file("layout.edf", file)), status, lines)

    def test_night(self):
        self.assert_ran(self.run_program("layout", "original.edf"), 0, "".join(f"{line}\n" for line in of_night()))


    @each((slug(path.stem), path) for path in sorted(NIGHT.glob("*.edf")))
    def export(self, path):
        """The exports of the night are plain, as they were made, and nothing else is in them."""
        file = path.read_bytes()
        status, text = printed(file)
        self.assertEqual((status, text.splitlines()[-2:]), (0, [BY_TIME.encode(), b"PLAIN"]))
        self.assertEqual(written(meaning(file), text), file)
        self.assert_ran(self.run_program("layout", path), 0, text)


class Crowded(ProgramCase):
    """Small files with many annotations that have no room where they belong: the answer comes, and in time."""

    def layout_of(self, name, lane_of):
        """What is printed of a file with so many data records of 1 s, each with two samples and a lane of 32 bytes."""
        parts = [values([1, 2]) + edf.lane(32, lane_of(at)) for at in range(MANY)]
        file = recording(signals=[3, 4], edits=[(field("records"), str(MANY))], parts=parts)
        return self.run_program("layout", self.file(name, bytes_of(file)))

    def test_no_room_anywhere(self):
        ran = self.layout_of("no_room.edf", lambda at: tal(f"+{at}.123456789012", "", "a", "b", "c"))
        self.assertEqual((ran.status, ran.out.splitlines()[-1]), (1, b"NOT PLAIN %d" % MANY))

    def test_all_at_one_time(self):
        ran = self.layout_of("one_time.edf", lambda at: keeper(at) + tal("+0", "a"))
        self.assertEqual((ran.status, ran.out.splitlines()[-2:]), (0, [ONE_BY_ONE.encode(), b"PLAIN"]))


class Faulty(ProgramCase):
    """Files with a fault: the line and the status of `conform`, and nothing else."""

    @each((slug(name), *row) for name, *row in faults.FAULTS)
    def fault(self, line, change):
        copy = self.file("broken.edf", change(night.files()["cut.edf"]))
        self.assert_ran(self.run_program("layout", copy), 1, f"FAULT {line}\n")

    def test_fault_behind_annotations(self):
        late = self.file("late.edf", recorded(lanes=[*LANES[:3], b"+3.5\x14\x14\0"]))
        self.assert_ran(self.run_program("layout", late), 1, "FAULT NotContiguous at record 3\n")
