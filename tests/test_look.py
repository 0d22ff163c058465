"""extras/edfclaim-look: its reader beside `edfclaim notes` and the values of which the night was made, and its pages on the
example night, on claims in other spellings, on exports that are moved far, on files that are cut off, with faults, with
gaps, with starts inside a second and with odd signs, and with programs that have `explain` or don't.

It needs a Python that has numpy and matplotlib.
"""

import contextlib
import datetime
import importlib.machinery
import importlib.util
import io
import os
import pathlib
import re
import shutil
import sys
import tempfile
import unittest
import xml.dom.minidom

from tests import made, night
from tests.cases.verdict_lines import FIRST, HALF, LATE, ONE
from tests.edf import field, lane
from tests.edf import values as values_of
from tests.harness import ANSWERS, TOP, ProgramCase, each, program, slug
from tests.harness import run as run_command
from tests.recordings import LANES, bytes_of, claim_of, cut, recorded, recording, temp_file

os.environ.setdefault("MPLCONFIGDIR", tempfile.gettempdir())
HAS_LIBRARIES = all(importlib.util.find_spec(name) for name in ("numpy", "matplotlib"))

sys.path.insert(0, str(TOP / "extras"))
import edfclaim  # noqa: E402

PS = 10**12
FILES = ["made-original.edf", "made-export.edf", "made.toml"]


def loaded():
    """The script, as a module."""
    loader = importlib.machinery.SourceFileLoader("edfclaim_look", str(TOP / "extras" / "edfclaim-look"))
    found = importlib.util.module_from_spec(importlib.util.spec_from_loader("edfclaim_look", loader))
    loader.exec_module(found)
    return found


look = loaded() if HAS_LIBRARIES else None


def run(program, *words):
    """The status of the script on these words, what it prints, and what it says on standard error."""
    sys.argv = ["edfclaim-look", "--program", str(program), *words]
    out, err = io.StringIO(), io.StringIO()
    with contextlib.redirect_stdout(out), contextlib.redirect_stderr(err):
        try:
            status = look.main()
        except SystemExit as ended:
            status = ended.code
    return status, out.getvalue(), err.getvalue()


def page_of(name="look.html"):
    return pathlib.Path(name).read_text(encoding="utf-8")


class Picture:
    """What is drawn of a check: the points of each line by its name in the legend, of the channel and of the timeline;
    the words of each axis; the names of the rows, the bars, the bars in outlines, the ticks, the texts and the borders of
    the timeline; and the page's remarks."""

    def __init__(self, files, line, asked=None):
        import matplotlib.pyplot as pyplot

        found, close = [], pyplot.close
        night_of = look.Night(files, edfclaim.parse(line), lambda path: look.Claim(path, asked or program(), edfclaim))
        try:
            pyplot.close = found.append
            look.picture_of(night_of, "png")
        finally:
            pyplot.close = close
        axes, timeline = found[-1].axes, found[-1].axes[-1]
        self.lines = [{line.get_label(): line.get_xydata().tolist() for line in each.lines} for each in axes]
        self.words = [each.get_xlabel().replace("\n", " ") for each in axes]
        self.rows = [tick.get_text().replace("\n", " ") for tick in timeline.get_yticklabels()] if timeline.axison else []
        self.bars, self.outlines = bars_of(timeline), outlines_of(timeline)
        self.ticks = list(zip(timeline.get_xticks(), (tick.get_text() for tick in timeline.get_xticklabels())))
        self.texts = [text.get_text() for text in timeline.texts]
        self.place_of = lambda time: timeline.transData.transform((time, 0))[0]
        self.borders, self.remarks = timeline.get_xlim(), night_of.remarks
        self.title = found[-1]._suptitle.get_text()
        close(found[-1])

    def times(self, name):
        """The times on the timeline of what has this name."""
        return [at for at, _ in self.lines[-1].get(name, [])]


def bars_of(axes):
    """The bars of a timeline, by rows, each with its begin and its end."""
    from matplotlib.collections import PolyCollection

    rows = [each.get_paths() for each in axes.collections if isinstance(each, PolyCollection)]
    return [[(path.get_extents().x0, path.get_extents().x1) for path in paths] for paths in rows]


def outlines_of(axes):
    """The bars in outlines, each with its begin, its end and its row."""
    from matplotlib.patches import Rectangle

    found = [it for it in axes.patches if isinstance(it, Rectangle) and not it.get_hatch() and it.get_facecolor()[3] == 0]
    return [(it.get_x(), it.get_x() + it.get_width(), it.get_y() + it.get_height() / 2) for it in found]


def lanes_with(number, text):
    """The lanes of the reference file, one of them with another text."""
    return [*LANES[:number], text, *LANES[number + 1:]]


# Other spellings of the night's claim: what is put in a place of it. The program takes each of them.
REMARK = '"Mrs. Haagse asks for water"'
KEEP = '[[keep]]\nfrom = "30"\nto = "120"\n'
SPELLINGS = [
    ("byte_order_mark", "# One and", "\ufeff# One and"),
    ("cr_lf", "\n", "\r\n"),
    ("one_line", KEEP, 'keep = [{from = "30", to = "120"}]\n'),
    ("table_over_lines", KEEP, 'keep = [{\n    from = "30",\n    to = "120"\n}]\n'),
    ("comma_at_the_end", KEEP, 'keep = [{from = "30", to = "120",}]\n'),
    ("escape_of_1_1", REMARK, REMARK.replace("M", "\\x4d")),
    ("escape_of_1_0", REMARK, REMARK.replace("M", "\\u004d")),
    ("quotation_mark_by_an_escape_of_1_1", REMARK, f'{REMARK}, "\\x22"'),
    ("quotation_mark_by_an_escape_of_1_0", REMARK, f'{REMARK}, "\\u0022"'),
    ("control_sign_by_an_escape_of_1_1", REMARK, f'{REMARK}, "\\e"'),
    ("control_sign_by_an_escape_of_1_0", REMARK, f'{REMARK}, "\\u001b"'),
    ("text_over_lines", REMARK, f"{REMARK}, '''\na\nb'''"),
    ("text_over_lines_with_cr_lf", REMARK, f"{REMARK}, '''a\r\nb'''"),
    ("text_with_cr_lf_by_escapes", REMARK, f'{REMARK}, "a\\r\\nb"\r\n'),
]

# What the page says where the program doesn't print the claim.
NOT_READ = ["The claim isn&#x27;t drawn: ", "unrecognized subcommand", "No export and no channel is drawn"]


BOTH = '["EEG Fpz-Cz", "ECG"]'
ALL = claim_of(BOTH, "", [("0", "4")])
# three samples a second, and the same a third of a picosecond too early
THIRDS = cut(samples="3", parts=[([1, 2, 3], "+0")])
EARLY_THIRDS = cut(samples="3", kind="EDF+D", parts=[([2, 3, 4], "+0.333333333333")])

ECG = {"ECG": [at % 100 for at in range(2400)]}
MINUTE = made.Made([(0, 60)], ECG, [(5 * PS, None, "Lights off"), (20 * PS, None, "Apnea")])
DAY, AGE = 86_400, 10_000_000_000

# By how many seconds an export of the seconds 10 to 40 is moved, and by how many it is claimed to be; where its bar is
# then, in seconds after the start of the original, and what is said to be left out, if something is.
MOVED = [
    ("as_claimed", -100 * DAY, -100 * DAY, (10, 40), None),
    ("a_hundred_days_too_far_back", -200 * DAY, -100 * DAY, (10 - 100 * DAY, 40 - 100 * DAY), "99 days 23 h 59 min 20 s"),
    ("a_hundred_days_too_late", 0, -100 * DAY, (10 + 100 * DAY, 40 + 100 * DAY), "99 days 23 h 59 min 10 s"),
    ("a_day_back", -DAY, 0, (10 - DAY, 40 - DAY), "23 h 59 min 20 s"),
    ("two_days_on", 2 * DAY, 0, (10 + 2 * DAY, 40 + 2 * DAY), "1 day 23 h 59 min 10 s"),
    ("an_hour_on", 3600, 0, (3610, 3640), "59 min 10 s"),
    # the time between isn't long beside both recordings
    ("two_minutes_on", 120, 0, (130, 160), None),
    ("an_age_back", 0, AGE, (10 - AGE, 40 - AGE), "115,740 days 17 h 46 min"),
    ("an_age_on", 0, -AGE, (10 + AGE, 40 + AGE), "115,740 days 17 h 45 min 50 s"),
]


def whole(parts):
    """A file of these seconds, and where its data records begin."""
    data = MINUTE.but(stretches=parts).bytes()
    count = sum(last - first for first, last in parts)
    length = 2 * 2 + made.LANE
    return data, len(data) - count * length, length


GAPPED = [(0, 20), (30, 60)]

# The parts of a file, how many of its data records have all bytes, and how many bytes stand behind these; where its bytes
# end and where it would end by its header, both in seconds after its start; and words of the page.
CUT_OFF = [
    ("inside_a_record", [(0, 60)], 17, 5, 17, 60,
     "end inside data record 17 of 60, counted from 0, at 2002-03-02 22:00:17 (17 s). By its header it would "
     "end at 2002-03-02 22:01:00 (60 s)."),
    ("before_a_record", [(0, 60)], 17, 0, 17, 60,
     "end before data record 17 of 60, counted from 0, at 2002-03-02 22:00:17 (17 s). By its header it would "
     "end at 2002-03-02 22:01:00 (60 s)."),
    ("inside_the_last_record", [(0, 60)], 59, 303, 59, 60, "end inside data record 59 of 60, counted from 0"),
    ("before_the_second_record", [(0, 60)], 1, 0, 1, 60, "end before data record 1 of 60, counted from 0"),
    ("inside_the_first_record", [(0, 60)], 0, 3, 0, 60,
     "end inside data record 0 of 60, counted from 0, at 2002-03-02 22:00:00 (0 s). By its header it would "
     "end at 2002-03-02 22:01:00 (60 s)."),
    ("before_the_first_record", [(0, 60)], 0, 0, 0, 60, "end before data record 0 of 60, counted from 0"),
    # with gaps, of which the header says nothing
    ("before_a_gap", GAPPED, 10, 9, 10, 50, "By its header it would end no earlier than at 2002-03-02 22:00:50 (50 s)."),
    ("behind_a_gap", GAPPED, 25, 9, 35, 60, "By its header it would end no earlier than at 2002-03-02 22:01:00 (60 s)."),
]


# a night of 8 hours with two gaps, the second of which is too narrow to be seen
EVENING, NIGHT, MORNING = (0, 3_600), (3_960, 20_000), (20_001, 28_800)
STAGES = [at for first, last in (EVENING, NIGHT, MORNING) for at in range(0, 28_800, 30) if first <= at < last]
HOURS = made.Made(
    [EVENING, NIGHT, MORNING], {"ECG": [at % 500 for at in range(57_600)]},
    [(at * PS, 30 * PS, "Sleep stage N2") for at in STAGES],
)


class LookCase(ProgramCase):
    """Tests in a copy of the night."""

    @classmethod
    def setUpClass(cls):
        if not HAS_LIBRARIES:
            raise unittest.SkipTest("no Python with numpy and matplotlib: extras/edfclaim-look isn't tried")
        super().setUpClass()
        cls.enterClassContext(contextlib.chdir(cls.copy_of_night()))

    def write(self, *files):
        """Writes an original, an export and a claim."""
        for name, content in zip(FILES, files):
            pathlib.Path(name).write_bytes(content.encode() if isinstance(content, str) else content)

    def assert_line(self, line, *words):
        """Runs the script on the three files, or on these words: it prints this line."""
        wanted = int(line.startswith("NO ")), f"{line}\n", ""
        self.assertEqual(run(self.program, *(words or FILES)), wanted)

    def assert_ticks(self, picture, start=made.START):
        """The ticks of a timeline: the clock of the original, the seconds after its start, and a day where it is another
        one."""
        before, wrong = None, []
        for time, text in picture.ticks:
            clock, after, *day = text.split("\n")
            shown = start + datetime.timedelta(seconds=time)
            right = clock == shown.strftime("%H:%M:%S") and after in (f"{time:g} s", f"{time:.0f} s")
            days = [shown.strftime("%Y-%m-%d")]
            wrong += [] if right and day == (days if days != before else []) else [text]
            before = days
        places = [picture.place_of(time) for time, _ in picture.ticks]
        near = [after - at for at, after in zip(places, places[1:]) if after - at < 80]
        self.assertTrue(picture.ticks and not wrong and not near, f"the ticks {picture.ticks}, {wrong}, {near}")

    def assert_wide(self, picture, bars):
        """None of these bars is narrow."""
        narrow = [bar for bar in bars if abs(picture.place_of(bar[1]) - picture.place_of(bar[0])) < 100]
        self.assertEqual(narrow, [], "bars of less than 100 dots")


class Reader(LookCase):
    """The reader on the night's files, one of them with a gap, and on one that starts inside a second."""

    @each((slug(name), name) for name in ("original.edf", "cut.edf", "two-intervals.edf", "blanked.edf"))
    def annotations(self, name):
        found = [(note.onset_ps, note.text) for note in edfclaim.notes(name, program=self.program)]
        self.assertEqual(look.Recording(name).notes(), [note for note in found if note[1]])

    @each([("original", "original.edf", 0, "ECG"), ("two_intervals", "two-intervals.edf", 0, "ECG"),
           ("cut", "cut.edf", 30, "Temp rectal")])
    def samples(self, name, move, label):
        values = night.night()
        parts, signal = look.Recording(name).samples(label, (25 - move) * PS, (95 - move) * PS)
        rate = night.CHANNELS[label][5]
        right = all(values[label][(time + move * PS) * rate // PS] == number for part in parts for time, number, _ in part)
        self.assertTrue(right, "other values")
        self.assertEqual(signal.dimension, night.CHANNELS[label][1])
        spans = [(part[0][0] // PS + move, -(-part[-1][0] // PS) + move) for part in parts]
        wanted = [(25, 30), (90, 95)] if name.startswith("two") else [(25 if not move else 30, 95)]
        self.assertEqual(spans, wanted, "the parts")

    def test_segments(self):
        self.assertEqual(look.Recording("two-intervals.edf").segments(), [[0, 30 * PS], [90 * PS, 60 * PS]])

    def test_physical_value(self):
        value = look.Recording("original.edf").samples("Temp rectal", 0, 0)[0][0][0]
        self.assertEqual(value[:2], (0, -495))
        self.assertAlmostEqual(value[2], 36.5987, delta=0.001)

    def test_start(self):
        apart = look.start_of("17.03.19", "23.10.00", "") - look.start_of("07.12.18", "23.10.30", "")
        self.assertEqual(apart, 100 * 86400 - 30)

    def test_start_after_2084(self):
        later = look.start_of("02.01.yy", "00.00.00", "Startdate  02-JAN-2090 X X X")
        self.assertEqual(later - look.start_of("31.12.84", "23.59.59", ""), 1827 * 86400 + 1)

    # Files by their lanes: the parts without a gap, by start and length, and the annotations, all in seconds; and which
    # data record, if any, is the first that doesn't say when it starts.
    OFF, APNEA, LATER = (0.5, "Lights off"), (1.5, "Apnea"), (3, "Apnea")
    LANES_OF = [
        ("whole", LANES, [(0, 4)], [OFF, APNEA, LATER], None),
        ("time_with_a_duration", lanes_with(1, b"+1\x151\x14\x14Apnea\x14\0"), [(0, 4)], [OFF, (1, "Apnea"), LATER], None),
        ("empty_text", lanes_with(2, b"+2\x14\x14\0+2.25\x14\x14\0"), [(0, 4)], [OFF, APNEA, (2.25, ""), LATER], None),
        ("empty_text_behind_the_time", lanes_with(2, b"+2\x14\x14\x14\0"), [(0, 4)], [OFF, APNEA, (2, ""), LATER], None),
        ("time_with_zeros", lanes_with(2, b"+0002.0000000000000000\x14\x14\0"), [(0, 4)], [OFF, APNEA, LATER], None),
    ]
    # The same with faults.
    FAULTY = [
        ("gap", lanes_with(3, b"+3.5\x14\x14\0"), [(0, 3), (3.5, 1)], [OFF, APNEA], None),
        ("time_without_a_sign", lanes_with(2, b"?2\x14\x14\0"), [(0, 2)], [OFF, APNEA], 2),
        ("no_time", lanes_with(2, b""), [(0, 2)], [OFF, APNEA], 2),
    ]

    def read(self, data, segments, notes, stop, conforms):
        """Looks at what is read of a file, and at what the program says of it."""
        pathlib.Path("made.edf").write_bytes(data)
        file = look.Recording("made.edf")
        parts = [(at / PS, length / PS) for at, length in file.segments()]
        self.assertEqual((parts, [(at / PS, text) for at, text in file.notes()]), (segments, notes))
        if stop is None:
            self.assertIsNone(file.stop)
        else:
            self.assertTrue(file.stop.startswith(f"data record {stop} doesn't say when it starts: "), file.stop)
        self.assertEqual(edfclaim.conform("made.edf", program=self.program).yes, conforms)
        if conforms:
            said = edfclaim.notes("made.edf", program=self.program)
            self.assertEqual([(note.onset_ps / PS, note.text) for note in said], notes)

    @each(LANES_OF)
    def lanes(self, lanes, segments, notes, stop):
        self.read(recorded(lanes=lanes), segments, notes, stop, True)

    @each(FAULTY)
    def faulty_lanes(self, lanes, segments, notes, stop):
        self.read(recorded(lanes=lanes), segments, notes, stop, False)

    def test_second_annotation_signal(self):
        """No text keeps the time in it."""
        second = lane(40, b"+0.5\x14\x14\0")
        two = recording(signals=[3, 4, 2], parts=[values_of([7, -7]), lane(32, b"+0\x14\x14"), second])
        self.read(bytes_of(two), [(0, 1)], [(0.5, "")], None, True)


class Night(LookCase):
    """The pages on each check of the night."""

    CHECKS = [(slug(words), status, words.split()[1:], line) for status, words, line in ANSWERS if words.startswith("check ")]

    @each(CHECKS)
    def page(self, status, words, line):
        shutil.rmtree("page", ignore_errors=True)
        os.mkdir("page")
        ran = run(self.program, *words, "--page", "page/look.html", "--picture", "page/look.png")
        if status == 2:
            self.assertEqual(ran[:2], (2, ""))
            self.assertTrue(ran[2].startswith(f"edfclaim-look: no answer: {line}\n"), ran)
            self.assertEqual(os.listdir("page"), [], "without an answer")
            return
        self.assertEqual(ran, (status, f"{line}\n", ""))
        self.assertEqual(sorted(os.listdir("page")), ["look.html", "look.png"])
        page, picture = page_of("page/look.html"), pathlib.Path("page/look.png").read_bytes()
        self.assertIn(f">{line.replace(chr(34), '&quot;')}<", page)
        self.assertTrue(page.count("<img") == 1 and '<p class="left-out">' not in page and "no witness" in page, "the page")
        self.assertLess(page.index('<p class="line">'), page.index("<img"))
        self.assertLess(page.index("<img"), page.index("<table>"))
        sentences = [match.start() for match in re.finditer('<p class="sentence"', page)]
        self.assertTrue(not sentences or page.index("<img") < sentences[0] < page.index("<table>"), "the order of the page")
        self.assertTrue("@page { size: A4;" in page and "overflow-wrap: anywhere" in page, "the style of the page")
        self.assertTrue(
            picture.startswith(b"\x89PNG\r\n") and look.base64.b64encode(picture).decode() in page,
            "the picture",
        )


class Pictures(LookCase):
    """What is drawn of a value that is another one, of annotations, of a sample that is missing, and of gaps."""

    def drawn(self, files, line):
        """The lines of a picture, by what is drawn."""
        return Picture(files, line).lines

    def times(self, points):
        return [at for at, _ in points]

    def test_another_value(self):
        line = 'NO 10 sample "EEG C4-M1" at 75500000000000 ps original -49 export -48'
        channel, timeline = self.drawn(["original.edf", "changed-value.edf", "cut.toml"], line)
        pairs = [(old, new) for old, new in zip(channel["original"], channel["export"]) if old != new]
        self.assertEqual((len(channel["original"]), len(channel["export"])), (41, 41), "samples that are drawn")
        self.assertEqual([(old[0], new[0]) for old, new in pairs], [(0, 0)], "samples that differ")
        self.assertEqual(timeline["the first difference"][0][0], 75.5)
        self.assertEqual(self.times(timeline["annotation removed"]), [72.5])
        kept, exported = timeline["annotation kept"], timeline["annotation of the export"]
        self.assertEqual((self.times(kept), self.times(exported)), ([30, 57.25, 60, 90, 104.5],) * 2)

    def test_two_intervals(self):
        line = "YES channels 2 samples 18000 annotations 5"
        timeline, = self.drawn(["original.edf", "two-intervals.edf", "two-intervals.toml"], line)
        kept, exported = timeline["annotation kept"], timeline["annotation of the export"]
        self.assertEqual((self.times(kept), self.times(exported)), ([0, 4.5, 90, 104.5, 120],) * 2)

    def test_blanked(self):
        line = "YES channels 3 samples 13590 annotations 5"
        timeline, = self.drawn(["original.edf", "blanked.edf", "blanked.toml"], line)
        self.assertEqual(self.times(timeline["annotation blanked"]), [30, 60, 90])

    def test_start_inside_a_second(self):
        self.write(recorded(ONE, [FIRST]), recorded(LATE, [HALF]), claim_of('["EEG Fpz-Cz", "ECG"]', "", [("0", "4")]))
        self.assertEqual(look.Recording(FILES[1]).segments(), [[PS // 2, PS]])
        channel, _ = self.drawn(FILES, 'NO 10 sample "ECG" at 0 ps missing')
        self.assertEqual((channel["original"][0][0], channel["export"][0][0]), (0, 0.5), "the first samples")

    def test_long_title(self):
        """All lines of the title are within the picture, and the page has the whole line."""
        line = f'NO 11 annotation extra at 72500000000000 ps duration none text "{"Asks for water. " * 40}"'
        lines = Picture(["original.edf", "cut.edf", "cut.toml"], line).title.split("\n")
        self.assertTrue(len(lines) == 3 and all(len(one) <= 100 for one in lines), lines)
        self.assertTrue(line.startswith(lines[0]) and lines[2].endswith("..."), lines)

    # An original, an export, a claim, the line; what the words below the channel say, if one is drawn; and where the
    # dashed line is, if there is one.
    CHECKS = [
        ("sample_that_is_not_kept", recorded(), recorded(), claim_of(BOTH, "", [("1", "4")]),
         'NO 10 sample "ECG" at 0 ps extra',
         "the original has 100, which the claim doesn't keep, and the export has 100", 0),
        ("second_missing", recorded(), recorded([(field("records"), "3")], LANES[:3]), ALL,
         'NO 10 sample "ECG" at 3000000000000 ps missing', "the original has 106 and the export has no sample", 3),
        ("third_of_a_picosecond_early", temp_file(THIRDS), temp_file(EARLY_THIRDS),
         claim_of('["Temp"]', "", [("0.333333333333", "1")]), 'NO 10 sample "Temp" at 333333333333 ps extra',
         "the original has no sample and the export has 2", 0.333333333333),
        ("empty_text", recorded(), recorded(lanes=lanes_with(2, b"+2\x14\x14\0+2.25\x14\x14\0")), ALL,
         'NO 11 annotation extra at 2250000000000 ps duration none text ""', None, 2.25),
        ("gap", recorded(), recorded(lanes=lanes_with(3, b"+3.5\x14\x14\0")), ALL,
         "NO 2 export fault: NotContiguous at record 3", None, 3.5),
        ("time_without_a_sign", recorded(), recorded(lanes=lanes_with(2, b"?2\x14\x14\0")), ALL,
         "NO 2 export fault: BadTal(BadOnset) at record 2", None, 2),
        ("original_a_byte_short", recorded()[:-1], recorded(), ALL, "NO 1 original fault: Truncated at record 3", None, 3),
        ("original_without_its_columns", recorded()[:700], recorded(), ALL,
         "NO 1 original fault: Truncated at signal 0 field prefilter", None, None),
    ]

    @each(CHECKS)
    def check(self, original, export, claim, line, words, place):
        self.write(original, export, claim)
        self.assert_line(line)
        picture = Picture(FILES, line)
        self.assertTrue(picture.words[0].endswith(f"; there {words}" if words else ""), picture.words)
        self.assertEqual(len(picture.lines), 2 if words else 1)
        name = "the data record of the fault" if " fault: " in line else "the first difference"
        self.assertEqual(picture.times(name), [] if place is None else [place, place])


class Claims(LookCase):
    """Claims in other spellings, of which all is drawn as of the plain one; and a program that doesn't print claims."""

    LINE = 'NO 10 sample "EEG C4-M1" at 75500000000000 ps original -49 export -48'
    NAMES = ("kept", "removed", "of the original", "of the export")

    @each(SPELLINGS)
    def spelling(self, old, new):
        text, files = night.CUT.replace(old, new), ["original.edf", "changed-value.edf", "spelled.toml"]
        self.assertNotEqual(text, night.CUT)
        pathlib.Path("spelled.toml").write_bytes(text.encode())
        self.assert_line(self.LINE, *files)
        page, picture = page_of(), Picture(files, self.LINE)
        found = [picture.times(f"annotation {name}") for name in self.NAMES]
        drawn = not any(row.endswith(" (not drawn)") for row in picture.rows)
        kept = [30, 57.25, 60, 90, 104.5]
        self.assertEqual((found, drawn, len(picture.lines)), ([kept, [72.5], [], kept], True, 2))
        self.assertIn("there the original has -49 and the export has -48", picture.words[0])
        self.assertNotIn('<p class="left-out">', page)
        self.assertEqual(picture.times("the first difference"), [75.5, 75.5])

    def test_program_that_prints_no_claim(self):
        """Nothing is drawn that hangs on the claim."""
        refuses = "echo \"error: unrecognized subcommand 'claim'\" >&2; exit 2"
        body = f'#!/bin/sh\nif [ "$1" = claim ]; then {refuses}; fi\nexec "{self.program}" "$@"\n'
        pathlib.Path("stand-in").write_text(body, encoding="utf-8")
        os.chmod("stand-in", 0o755)
        files = ["original.edf", "changed-value.edf", "cut.toml"]
        self.assertEqual(run("./stand-in", *files), (1, f"{self.LINE}\n", ""))
        page, picture = page_of(), Picture(files, self.LINE, asked="./stand-in")
        found = [picture.times(f"annotation {name}") for name in self.NAMES]
        rows = [row.endswith(" (not drawn)") for row in picture.rows]
        onsets = [at / 1000 for at, _, _ in night.NOTES]
        self.assertEqual((found, rows), ([[], [], onsets, []], [False, True, True, False, True]))
        self.assertEqual(picture.words, ["clock of the original, and seconds after its start"])
        self.assertEqual((len(picture.lines), len(picture.bars[0]), sum(picture.bars[1:], [])), (1, 1, []))
        self.assertEqual([words for words in NOT_READ if words not in page], [], "words that lack on the page")
        self.assertEqual(picture.times("the first difference"), [75.5, 75.5])

    # A claim that removes a text of two lines, the line, and what is drawn of the annotation: an end of a line has one
    # byte, or two, or is written as an escape.
    LINE_ENDS = [
        ("of_one_byte", "remove = ['''a\nb''']\n",
         'NO 11 annotation missing at 2500000000000 ps duration none text "a\\x0d\\x0ab"', "annotation kept"),
        (
            "of_two_bytes",
            "remove = ['''a\r\nb''']\r\n",
            "YES channels 2 samples 24 annotations 3",
            "annotation removed",
        ),
        ("by_an_escape", 'remove = ["a\\r\\nb"]\r\n', "YES channels 2 samples 24 annotations 3", "annotation removed"),
    ]

    @each(LINE_ENDS)
    def end_of_a_line(self, keys, line, name):
        two = lanes_with(2, b"+2\x14\x14\0+2.5\x14a\r\nb\x14\0")
        self.write(recorded(lanes=two), recorded(), claim_of(BOTH, keys, [("0", "4")]))
        self.assert_line(line)
        self.assertIn([2.5, 1], Picture(FILES, line).lines[-1].get(name, []))


class LeftOut(LookCase):
    """What isn't drawn, and that it is said."""

    def test_original_that_cannot_be_read(self):
        self.write(recorded()[:700], recorded(), ALL)
        picture = Picture(FILES, "NO 1 original fault: Truncated at signal 0 field prefilter")
        self.assertEqual((picture.rows, picture.bars, picture.lines), ([], [], [{}]))
        self.assertTrue(any(remark.startswith("Nothing is drawn: ") for remark in picture.remarks), picture.remarks)

    UNREAD = claim_of(BOTH, "remove = ['''a\r\nb''']", [("0", "4")])

    @each([("in_part", ALL, "in part"), ("not_at_all", UNREAD, "not drawn")])
    def export(self, claim, how):
        self.write(recorded(), recorded(lanes=lanes_with(2, b"?2\x14\x14\0")), claim)
        picture = Picture(FILES, "NO 2 export fault: BadTal(BadOnset) at record 2")
        rows = [row for row in picture.rows if row.startswith("export: ")]
        self.assertEqual(rows, [f"export: data records ({how})", f"export: annotations ({how})"])

    @each((slug(how), how) for how in ("original -49 export -47", "original -48 export -48", "missing", "extra"))
    def samples_that_are_not_those_of_the_line(self, how):
        line = f'NO 10 sample "EEG C4-M1" at 75500000000000 ps {how}'
        picture = Picture(["original.edf", "changed-value.edf", "cut.toml"], line)
        self.assertEqual(len(picture.lines), 1)
        self.assertTrue(picture.remarks[0].startswith("The channel isn't drawn: what "), picture.remarks)

    def test_before_and_behind_the_night(self):
        lanes = lanes_with(3, b"+3\x14\x14\0+9\x14Late\x14\0-5\x14Soon\x14\0")
        intervals = [("0", "1"), ("2", "999999998"), ("999999998", "999999999")]
        self.write(recorded(lanes=lanes), recorded(), claim_of(BOTH, "", intervals))
        picture = Picture(FILES, 'NO 10 sample "ECG" at 1000000000000 ps extra')
        words = ["not drawn: 1 of the intervals of the claim.", "not drawn: 2 of the annotations of the original."]
        self.assertEqual([text[-len(end):] for text, end in zip(picture.remarks, words)], words)
        wanted = ["claim: kept intervals (1 not drawn)", "original: annotations (2 not drawn)"]
        self.assertEqual([row for row in picture.rows if "(" in row], wanted)
        self.assertEqual(picture.bars[2], [(0, 1), (2, picture.borders[1])])
        self.assertGreater(picture.borders[1], 4)


class Far(LookCase):
    """Exports that are moved by other times than claimed, files that are cut off, and what else lies far from the night: no
    bar is narrow, and the axis says what it leaves out."""

    @each(MOVED)
    def moved(self, moved, claimed, bar, left_out):
        export, claim = MINUTE.cut(10, 40, moved), made.Claimed(["ECG"], [(10, 40)], claimed)
        self.write(MINUTE.bytes(), export.bytes(), claim.text())
        line = "YES channels 1 samples 60 annotations 1"
        if bar[0] != 10:
            how = "extra" if bar[0] < 10 else "missing"
            line = f'NO 10 sample "ECG" at {min(bar[0], 10) * PS} ps {how}'
        self.assert_line(line)
        page, picture = page_of(), Picture(FILES, line)
        found = [bars[0] for bars in (picture.bars[0], picture.bars[1], picture.bars[2])]
        self.assertEqual(found, [(0, 60), bar, (10, 40)])
        self.assert_wide(picture, found)
        said = [text for text in picture.texts if text.startswith("left out: ")]
        self.assertEqual(said, [f"left out: {left_out}"] if left_out else [])
        if left_out:
            self.assertIn(f"The axis is broken: {left_out} without a data record are left out", page)
        else:
            self.assertNotIn("broken", page)
        self.assert_ticks(picture)

    @each((f"{name}_{role}", number, role, *row) for name, *row in CUT_OFF for number, role in [(0, "original"), (1, "export")])
    def cut_off(self, number, role, parts, records, rest, end, last, words):
        data, front, length = whole(parts)
        files = [data, data]
        files[number] = data[:front + records * length + rest]
        self.write(*files, made.Claimed(["ECG"], [(0, 60)]).text())
        line = f"NO {number + 1} {role} fault: Truncated at record {records}"
        self.assert_line(line)
        page, picture = page_of(), Picture(FILES, line)
        self.assertEqual(picture.outlines, [(end, last, 4 - 2 * number)], "bars in outlines")
        self.assertTrue(f"The bytes of the {role} {words}" in page or words in page, picture.remarks)
        self.assertEqual([row for row in picture.rows if "(" in row], [f"{role}: data records (cut off)"])
        self.assertEqual([bar[1] for bar in picture.bars[number]][-1:], [end] if end else [], "where the last bar ends")
        self.assertEqual(picture.times("the data record of the fault"), [end, end])
        self.assert_ticks(picture)

    @each((name, row[0]) for name, *row in CUT_OFF)
    def not_cut_off(self, parts):
        data = whole(parts)[0]
        self.write(data, data, made.Claimed(["ECG"], [(0, 60)]).text())
        self.assertEqual(Picture(FILES, "YES channels 1 samples 120 annotations 2").outlines, [])

    ONE_MINUTE = made.Claimed(["ECG"], [(0, 60)]).text()
    # an hour before the start of an export that is moved a day back, and two days before it
    EARLY = [(-3_600 * PS, None, "Soon"), (-2 * DAY * PS, None, "Sooner")]

    def test_end_by_the_header(self):
        self.write(MINUTE.bytes(), MINUTE.but(edits=[(field("records"), "99999999")]).bytes(), self.ONE_MINUTE)
        line = "NO 2 export fault: Truncated at record 60"
        self.assert_line(line)
        picture = Picture(FILES, line)
        self.assertEqual(picture.outlines, [(60, 99_999_999, 2)])
        self.assertEqual(picture.texts[-1], "left out: 1,157 days 9 h 45 min 39 s")

    def test_early_annotations_of_the_original(self):
        self.write(MINUTE.but(notes=MINUTE.notes + self.EARLY).bytes(), MINUTE.but(shift=-DAY).bytes(), self.ONE_MINUTE)
        picture = Picture(FILES, f'NO 10 sample "ECG" at {-DAY * PS} ps extra')
        words = "Outside of the times of the picture, and not drawn: 2 of the annotations of the original."
        self.assertIn(words, picture.remarks)
        self.assertEqual(picture.times("annotation outside of the intervals"), [])

    def test_early_annotations_of_the_export(self):
        self.write(MINUTE.bytes(), MINUTE.but(notes=MINUTE.notes + self.EARLY).bytes(), self.ONE_MINUTE)
        line = f'NO 11 annotation extra at {-2 * DAY * PS} ps duration none text "Sooner"'
        self.assert_line(line)
        picture = Picture(FILES, line)
        self.assertEqual(picture.times("annotation of the export"), [-2 * DAY, 5, 20])
        self.assertTrue(any("1 of the annotations of the export" in remark for remark in picture.remarks), picture.remarks)

    def test_narrow_gap(self):
        bars = [(0, 700), (701, 800), (850, 1200)]
        data = made.Made(bars, ECG).bytes()
        self.write(data, data, self.ONE_MINUTE)
        picture = Picture(FILES, "YES channels 1 samples 2298 annotations 0")
        self.assertEqual(picture.times("narrow gap"), [700])
        self.assertEqual((picture.bars[0], picture.bars[1], picture.remarks), (bars, bars, []))

    # A night of 8 hours with gaps: when the export begins, by how many seconds it is moved, and the line.
    HOURS_MOVED = [
        ("as_claimed", 1_800, 0, "YES channels 1 samples 49678 annotations 828"),
        ("cut_a_minute_later", 1_860, 0, f'NO 10 sample "ECG" at {1_800 * PS} ps missing'),
        ("moved_by_100_days_more", 1_800, -100 * DAY, f'NO 10 sample "ECG" at {(1_800 - 100 * DAY) * PS} ps extra'),
    ]

    @each(HOURS_MOVED)
    def hours(self, first, shift, line):
        parts = [(first, 3_600), NIGHT, (20_001, first + 25_200)]
        kept = [note for note in HOURS.notes if first * PS <= note[0] < (first + 25_200) * PS]
        export = HOURS.but(stretches=parts, notes=kept, shift=shift)
        self.write(HOURS.bytes(), export.bytes(), made.Claimed(["ECG"], [(1_800, 27_000)]).text())
        self.assert_line(line)
        picture = Picture(FILES, line)
        moved = [(begin + shift, end + shift) for begin, end in parts]
        self.assertEqual(picture.bars[:3], [[EVENING, NIGHT, MORNING], moved, [(1_800, 27_000)]])
        self.assertEqual(picture.times("narrow gap"), [20_000])
        self.assert_wide(picture, [moved[1], NIGHT])
        times = sorted(onset // PS + shift for onset, _, _ in kept)
        self.assertEqual(sorted(picture.times("annotation of the export")), times)
        self.assert_ticks(picture)


def put(name, source, old, new):
    """A copy of a file with other bytes in a place."""
    data = pathlib.Path(source).read_bytes()
    assert old in data and len(old) == len(new)
    pathlib.Path(name).write_bytes(data.replace(old, new))


class Odd(LookCase):
    """Files with faults, and signs that mean something to a page or a picture."""

    # What is done to the night's export.
    CHANGES = {
        "empty": lambda data: b"", "front": lambda data: data[:300], "a_byte_short": lambda data: data[:-1],
        "zeros": lambda data: bytes(5000), "letters": lambda data: b"x" * 5000,
        "time_without_a_sign": lambda data: data.replace(b"+5\x14\x14", b"?5\x14\x14"),
    }

    @each((f"{name}_{role}", change, role) for name, change in CHANGES.items() for role in ("original", "export"))
    def faulty(self, change, role):
        pathlib.Path("odd.edf").write_bytes(change(pathlib.Path("cut.edf").read_bytes()))
        number, words = (1, ["odd.edf", "cut.edf"]) if role == "original" else (2, ["original.edf", "odd.edf"])
        status, said, err = run(self.program, *words, "cut.toml")
        self.assertTrue(status == 1 and said.startswith(f"NO {number} ") and not err, f"{status}, {said}{err}")
        self.assertIn("<img", page_of())

    def test_signs_in_a_text_and_a_name(self):
        remark = b"Mrs. Haagse asks for water"
        put("a <b>& $x$.edf", "remark-left.edf", remark, b"<script>\"&'\xe2\x80\xae$x$ $\\a{ <i>")
        status, said, err = run(self.program, "original.edf", "a <b>& $x$.edf", "cut.toml")
        self.assertTrue(status == 1 and "<script>" in said and not err, f"{status}, {said}{err}")
        page = page_of()
        self.assertTrue("<script" not in page and "&lt;script&gt;" in page, "signs of a text aren't escaped")
        self.assertTrue("a &lt;b&gt;&amp; $x$.edf" in page and "\u202e" not in page, "signs of a name aren't escaped")

    def test_signs_in_a_header(self):
        """A field that can't be read is said in a remark, and the name of the file stands in the table."""
        put("duration.edf", "cut.edf", b"18      5       4   ", b"18      <b>1</b>4   ")
        os.replace("duration.edf", "\"><img src=x>.edf")
        status, said, err = run(self.program, "original.edf", "\"><img src=x>.edf", "cut.toml")
        self.assertTrue(status == 1 and said.startswith("NO 2 ") and not err, f"{status}, {said}{err}")
        page = page_of()
        self.assertTrue("&lt;b&gt;1&lt;/b&gt;" in page and "<b>" not in page, "signs of a field aren't escaped")
        self.assertTrue(
            page.count("<img") == 1 and "&quot;&gt;&lt;img src=x&gt;.edf" in page,
            "signs of a name aren't escaped",
        )

    def test_signs_in_a_label(self):
        for name in ("original", "changed-value"):
            put(f"dollar-{name}.edf", f"{name}.edf", b"EEG C4-M1", b"$\\f{ $xx ")
        put("dollar.toml", "cut.toml", b'"EEG C4-M1"', b"'$\\f{ $xx' ")
        words = ["dollar-original.edf", "dollar-changed-value.edf", "dollar.toml", "--picture", "dollar.svg"]
        status, said, err = run(self.program, *words)
        self.assertTrue(status == 1 and said.startswith("NO 10 ") and not err, f"{status}, {said}{err}")
        drawn = pathlib.Path("dollar.svg").read_bytes()
        xml.dom.minidom.parseString(drawn)
        run(self.program, *words)
        self.assertEqual(pathlib.Path("dollar.svg").read_bytes(), drawn, "the same files give another picture")


def indent(wide, spaces):
    """What stands in front of a sentence that is indented by so many spaces."""
    style = f"width: {wide}em; margin-left: -{wide}em"
    return f'<p class="sentence" style="padding-left: {wide}em"><span style="{style}">{" " * spaces}</span>'


# What a program does with `explain`, and what the script gives: its status, and words of the page or of what it says.
EXPLAIN = [
    ("sentence_with_signs", 'echo "NO 8 subfield name not X"; echo "The <i>name</i> & more."; exit 1', 1,
     '<p class="sentence">The &lt;i&gt;name&lt;/i&gt; &amp; more.</p>'),
    (
        "sentence_behind_a_yes",
        'echo "YES channels 3 samples 13590 annotations 5"; echo "A text is left."',
        0,
        "can name somebody",
    ),
    (
        "sign_that_turns_the_writing",
        "printf 'NO 8 subfield name not X\\nA \\342\\200\\256 text.\\n'; exit 1",
        1,
        "are written by their numbers",
    ),
    ("spaces", "printf 'NO 8 subfield name not X\\na  b\\302\\240c\\n'; exit 1", 1, '<p class="sentence">a  b\\u00a0c</p>'),
    (
        "indent_of_two",
        "printf 'NO 8 subfield name not X\\n  <b>in</b>\\n    deeper\\n'; exit 1",
        1,
        f'{indent("1.2", 2)}&lt;b&gt;in&lt;/b&gt;</p>',
    ),
    (
        "indent_of_four",
        "printf 'NO 8 subfield name not X\\n  <b>in</b>\\n    deeper\\n'; exit 1",
        1,
        f'{indent("2.4", 4)}deeper</p>',
    ),
    ("style", "echo 'NO 8 subfield name not X'; exit 1", 1, "p, td { white-space: pre-wrap; }"),
    (
        "no_such_command",
        "echo \"error: unrecognized subcommand 'explain'\" >&2; exit 2",
        1,
        "<p class=\"line\">NO 8 subfield name not X</p>",
    ),
    ("out_of_memory", 'echo "edfclaim: out of memory" >&2; exit 2', 2, "no answer: edfclaim: out of memory"),
    ("status_0_of_a_no", 'echo "NO 8 subfield name not X"', 2, "status 0 with NO 8"),
    ("another_text", 'echo "Hello"; exit 1', 2, "Hello"),
    ("nothing", "exit 1", 2, ""),
    ("ended", "kill -9 $$", 2, "no answer: status -9"),
]

class Explain(LookCase):
    """Programs that have `explain`, and ones that don't."""

    @each(EXPLAIN)
    def program_that(self, script, wanted, words):
        body = f'#!/bin/sh\nif [ "$1" = explain ]; then\n{script}\nelse\nexec "{self.program}" "$@"\nfi\n'
        pathlib.Path("stand-in").write_text(body, encoding="utf-8")
        os.chmod("stand-in", 0o755)
        pathlib.Path("look.html").unlink(missing_ok=True)
        status, _, err = run("./stand-in", "original.edf", "name-left.edf", "cut.toml")
        self.assertEqual(status, wanted, err)
        self.assertEqual(os.path.exists("look.html"), wanted < 2, "whether there is a page")
        self.assertIn(words, page_of() if wanted < 2 else err)

    def test_no_program(self):
        self.assertEqual(run("./none", "original.edf", "cut.edf", "cut.toml")[0], 2)

    def test_no_folder_for_the_page(self):
        words = ["original.edf", "cut.edf", "cut.toml", "--page", "none/look.html"]
        self.assertEqual(run(self.program, *words)[0], 2)

    def test_without_the_libraries(self):
        words = [sys.executable, "-I", "-S", TOP / "extras" / "edfclaim-look", "original.edf", "cut.edf", "cut.toml"]
        ran = run_command(*words)
        self.assertEqual(ran.status, 2, str(ran))
        self.assertRegex(ran.err.decode(), r"\Aedfclaim-look: [a-z]+ is missing; on Debian: .*\n\Z")
