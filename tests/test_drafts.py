"""Drafts of claims, and the checks under them.

Of each small file of tests/cases of which a check says Yes, and of 600 random nights with honest exports, of which 300 were
moved by any number of seconds, the draft has status 0, and the check under the draft writes the line of the check under the
claim. The first line of a draft is that of the check with it: also where that is a No, as of an export with a changed
sample, of swapped files, or of a channel that the original lacks. Of a file that doesn't conform its fault is written as
`conform` writes it. A shift that the samples tell and one that nothing tells are marked, 1,000 intervals are drafted, and
where a claim can't say what the export is, a comment says so.
"""

from tests import night
from tests.cases import made, rows_of
from tests.edf import field
from tests.explain.tries import APNEA, BOTH, LIGHTS, NIGHT, ecg
from tests.harness import NIGHT as EXAMPLE
from tests.harness import ProgramCase, each
from tests.made import PS, Claimed, Made
from tests.oracle import draft_cases, moved_cases, verdict_cases

# The tables that have checks.
TABLES = [
    "verdict_lines", "rows", "differences", "channels", "labels", "headers", "samples", "shifts", "annotations",
    "note_texts", "cuts",
]
RANDOM_NIGHTS, SEED = 300, 1

YES, NO = "# With this draft the check answers: ", "# NOT A YES: with this draft the check answers: "
SWAPPED = "# It looks like the two files were swapped."
BY_SAMPLES, ANOTHER = "# TOLD BY THE SAMPLES: ", "# ANOTHER SHIFT FITS AS WELL: "
REMARKS = ["# It looks like", "# OTHER DAYS", "# NOT IN", "# NOT TOLD", BY_SAMPLES, ANOTHER]
DAY = 86_400


def draftable():
    """The checks of the tables that say Yes."""
    for table in TABLES:
        for row in rows_of(table):
            if row.command == "check" and row.line.startswith("YES "):
                yield f"{table}_{row.name}", row


class DraftCase(ProgramCase):
    """Tests of drafts."""

    def draft(self, original, export):
        """The draft of two files, which are bytes, and their paths."""
        files = self.file("original.edf", original), self.file("export.edf", export)
        return self.run_program("draft", *files), files

    def assert_checked(self, original, export, claim):
        """Looks whether the check under the draft has the line of the check under the claim, which is a Yes."""
        draft, files = self.draft(original, export)
        want = self.run_program("check", *files, self.file("claim.toml", claim))
        self.assertEqual(want.status, 0, f"the claim itself: {want}")
        self.assertTrue(draft.status == 0 and not draft.err, str(draft))
        given = self.run_program("check", *files, self.file("drafted.toml", draft.out))
        self.assertTrue(
            draft.out.startswith(YES.encode() + given.out),
            f"{draft}\nwanted: a draft with the line {given.out!r}",
        )
        self.assert_ran(given, want.status, want.out, want.err)

    def assert_says(self, original, export, words, absent=()):
        """Looks whether a draft has these words in it, and not the others; its first line has the line of the check with
        it."""
        draft, files = self.draft(original.bytes(), export.bytes())
        line = self.run_program("check", *files, self.file("drafted.toml", draft.out)).out.rstrip(b"\n")
        self.assertTrue(draft.status == 0 and not draft.err, str(draft))
        text = draft.out.decode()
        self.assertIn(
            f" check answers: {line.decode()}",
            text.partition("\n")[0],
            "the first line, and the line of the check",
        )
        self.assertEqual([word for word in words if word not in text], [], f"words that lack in the draft: {text}")
        self.assertEqual([word for word in absent if word in text], [], f"words that the draft mustn't have: {text}")
        return files


class ExampleNight(DraftCase):
    """The example night, broken copies of it, and files that aren't there."""

    def test_stored(self):
        self.assert_ran(self.run_program("draft", "original.edf", "cut.edf"), 0, (EXAMPLE / "draft.toml").read_bytes())

    @each([("cut", "cut"), ("two_intervals", "two-intervals")])
    def export(self, name):
        files = [(EXAMPLE / file).read_bytes() for file in ("original.edf", f"{name}.edf", f"{name}.toml")]
        self.assert_checked(*files)

    @each([("original_and_export", "original", "broken", "broken"), ("original", "original", "broken", "cut.edf"),
           ("export", "export", "original.edf", "broken")])
    def broken(self, role, *files):
        broken = self.file("broken.edf", (EXAMPLE / "original.edf").read_bytes()[:-1])
        line = self.run_program("conform", broken).out
        ran = self.run_program("draft", *(broken if file == "broken" else file for file in files))
        self.assert_ran(ran, 1, f"# the {role}\n".encode() + line)

    @each([("original", "no-such", "cut.edf"), ("export", "original.edf", "no-such")])
    def missing(self, *files):
        role = "original" if files[0] == "no-such" else "export"
        self.assert_refused(self.run_program("draft", *files), f"edfclaim: cannot open {role}")


class Comments(DraftCase):
    """What the first line and the comments of a draft say."""

    QUARTER = Made([(0, 900)], {"EEG Fpz-Cz": list(range(-1800, 1800)), "ECG": list(range(1800))})

    MOVES = [("five_minutes_back", -300), ("an_hour_and_a_second_forward", 3_601), ("years_back", -10**8 - 1)]

    @each(MOVES)
    def moved(self, shift):
        self.assert_says(self.QUARTER, self.QUARTER.cut(300, 600, shift), [
            f"{YES}YES channels 2 samples 1800 annotations 0\n", BY_SAMPLES, f"\nshift = {shift} # confirm: ",
            '{ from = "300", to = "600" }, # confirm: 22:05:00 to 22:10:00\n',
        ], [remark for remark in REMARKS if remark != BY_SAMPLES])

    def test_moved_with_a_flat_front(self):
        flat = Made([(0, 300)], {"EEG Fpz-Cz": [7] * 800 + list(range(400)), "ECG": [3] * 600})
        line = f"{YES}YES channels 2 samples 600 annotations 0\n"
        self.assert_says(flat, flat.cut(150, 250, -77), [line, BY_SAMPLES], [ANOTHER])

    def test_moved_with_a_gap(self):
        kept = self.QUARTER.but(stretches=[(20, 21), (40, 100)], shift=59)
        intervals = '{ from = "20", to = "21" }, # confirm: 22:00:20 to 22:00:21\n  { from = "40", to = "100" }'
        self.assert_says(self.QUARTER, kept, [f"{YES}YES channels 2 samples 366 annotations 0\n", intervals], [ANOTHER])

    def test_moved_and_repeated(self):
        """The channels repeat themselves every ten seconds: of the shifts that fit the first one is a Yes."""
        again = Made([(0, 60)], {"EEG Fpz-Cz": list(range(40)) * 6, "ECG": list(range(20)) * 6})
        self.assert_says(again, again.cut(30, 40, -5), [
            f"{YES}YES channels 2 samples 60 annotations 0\n", BY_SAMPLES, "\nshift = 25 # confirm: 00:00:25 forward\n",
            f"{ANOTHER}the same samples are also samples of the original with shift = 15.\n", "with shift = 5.\n",
        ])

    def test_moved_with_a_changed_sample(self):
        """The change stands behind the samples that are looked for, so the shift is found, and the check is a No."""
        late = self.QUARTER.cut(300, 600, -300).changed("ECG", 1100, 7)
        self.assert_says(self.QUARTER, late, [
            f'{NO}NO 10 sample "ECG" at 550000000000000 ps original 1100 export 7. ', BY_SAMPLES,
            "\nshift = -300 # confirm: ",
        ])

    def test_days_that_the_samples_tell_as_well(self):
        """The days stay, though the check with them is a No: of another annotation."""
        late = self.QUARTER.cut(300, 600).but(notes=[(400 * PS, None, "Apnea")])
        line = f'{NO}NO 11 annotation extra at 400000000000000 ps duration none text "Apnea"'
        self.assert_says(self.QUARTER, late, [line, "\nshift = 0 # "], REMARKS)

    def test_changed_from_the_first_sample_on(self):
        """Nothing is found by the samples: the days stay, by which the export is taken for another part."""
        late = self.QUARTER.cut(300, 600, -300).changed("ECG", 600, 7)
        self.assert_says(self.QUARTER, late, [f'{NO}NO 10 sample "ECG" at 0 ps original 0 export 7. '], REMARKS)

    def test_in_order(self):
        self.assert_says(NIGHT, NIGHT.cut(10, 70, -DAY), [
            f"{YES}YES channels 2 samples 360 annotations 1\n",
            '{ from = "10", to = "70" }, # confirm: 22:00:10 to 22:01:10\n', "\nshift = -86400 # confirm: 1 day back\n",
        ], [*REMARKS, "NOT A YES", "no such channel"])

    SHIFTS = [
        ("not_moved", 0, "not moved"), ("a_day_forward", DAY, "1 day forward"),
        ("a_hundred_days_back", -100 * DAY, "100 days back"),
    ]

    @each(SHIFTS)
    def shift(self, shift, way):
        absent = "# NOT MOVED" if shift else "# confirm: 1"
        self.assert_says(NIGHT, NIGHT.cut(0, 100, shift), [f"\nshift = {shift} # confirm: {way}\n"], [*REMARKS, absent])

    def test_swapped(self):
        line = f'{NO}NO 10 sample "ECG" at 0 ps original {ecg(10)} export {ecg(0)}. '
        self.assert_says(NIGHT.cut(10, 70, -DAY), NIGHT, [line, SWAPPED])

    def test_swapped_of_one_length(self):
        hidden = NIGHT.but(edits=[(field("patient"), "X F X X")])
        self.assert_says(hidden, NIGHT, [f"{NO}NO 8 subfield code changed", SWAPPED])

    def test_date_that_the_export_shows(self):
        patient = field("patient"), "X F X X"
        nobody = NIGHT.but(edits=[patient, (field("recording"), "Startdate X X X X")])
        dated = NIGHT.but(edits=[patient, (field("recording"), "Startdate 02-MAR-2002 X X X")])
        self.assert_says(nobody, dated, ["# NOT A YES: "], REMARKS)

    def test_hidden(self):
        hidden = NIGHT.but(edits=[(field("patient"), "X F X X")])
        shown = "\n# the export shows: sex, date, administration, technician, equipment\n"
        self.assert_says(NIGHT, hidden, [f"{YES}YES channels 2 samples 600 annotations 2\n", shown], REMARKS)

    def test_all_hidden(self):
        nothing = NIGHT.but(edits=[(field("patient"), "X X X X"), (field("recording"), "Startdate X X X X")])
        self.assert_says(NIGHT, nothing, ["# With this draft", "\n# NOT MOVED: "], [*REMARKS, "the export shows"])

    def test_annotation_beside_the_records(self):
        beside = 80 * PS + PS // 3, None, "Asks for water"
        asked = NIGHT.but(notes=[*NIGHT.notes, beside])
        interval = '{ from = "80.333333333333", to = "80.333333333334" }'
        self.assert_says(asked, asked.cut(10, 70).but(notes=[APNEA, beside]), [
            f"{YES}YES channels 2 samples 360 annotations 2\n",
            "# BESIDE THE DATA RECORDS: 1 of the export's annotations begin outside",
            f"{interval}, # confirm: 22:01:20.333333333333 to 22:01:20.333333333334\n",
        ], REMARKS)

    @each([("first", 40), ("second", 50)])
    def one_of_two_annotations_in_a_gap(self, at):
        broken_off = NIGHT.but(stretches=[(0, 30), (60, 100)], notes=[(40 * PS, None, "Apnea"), (50 * PS, None, "Apnea")])
        one = broken_off.but(notes=[(at * PS, None, "Apnea")])
        self.assert_says(broken_off, one, [f"{YES}YES channels 2 samples 420 annotations 1\n", "# BESIDE"], REMARKS)

    def test_middle_one_of_three_annotations_in_a_gap(self):
        three = NIGHT.but(stretches=[(0, 30), (60, 100)], notes=[(at * PS, None, "Apnea") for at in (35, 40, 45)])
        self.assert_says(three, three.but(notes=[(40 * PS, None, "Apnea")]), [
            f"{YES}YES channels 2 samples 420 annotations 1\n",
            '{ from = "40", to = "40.000000000001" }, # confirm: 22:00:40 to 22:00:40.000000000001\n',
        ], REMARKS)

    def test_text_that_was_blanked(self):
        blanked = NIGHT.but(notes=[LIGHTS, (APNEA[0], None, "X")])
        self.assert_says(NIGHT, blanked, [
            f"{YES}YES channels 2 samples 600 annotations 2\n", "format = 2\n",
            'blank = [\n  "Apnea", # confirm; how often it stands: 1\n]',
        ], REMARKS)

    def test_text_beside_an_x_of_the_original(self):
        own = NIGHT.but(notes=[*NIGHT.notes, (APNEA[0], None, "X")])
        self.assert_says(own, NIGHT.but(notes=[LIGHTS, (APNEA[0], None, "X")]), [
            f"{YES}YES channels 2 samples 600 annotations 2\n", "format = 1\n",
            'remove = [\n  "Apnea", # confirm; how often it stands: 1\n]',
        ], ["blank = ["])

    def test_text_that_was_removed_beside_one_that_was_blanked(self):
        """One `X` stands where both texts were, and another where only one of them was."""
        both = NIGHT.but(notes=[(at * PS, None, text) for at, text in ((10, "Apnea"), (10, "Arousal"), (20, "Arousal"))])
        self.assert_says(both, both.but(notes=[(10 * PS, None, "X"), (20 * PS, None, "X")]), [
            f"{YES}YES channels 2 samples 600 annotations 2\n",
            'remove = [\n  "Apnea", # confirm; how often it stands: 1\n]',
            'blank = [\n  "Arousal", # confirm; how often it stands: 2\n]',
        ], REMARKS)

    def test_x_that_was_removed(self):
        own = NIGHT.but(notes=[(10 * PS, None, "X"), (20 * PS, None, "Apnea")])
        self.assert_says(own, own.but(notes=[(20 * PS, None, "X")]), [
            f"{YES}YES channels 2 samples 600 annotations 1\n",
            'remove = [\n  "X", # confirm; how often it stands: 1\n]',
            'blank = [\n  "Apnea", # confirm; how often it stands: 1\n]',
        ], REMARKS)

    def test_channel_more(self):
        more = NIGHT.but(channels={**NIGHT.channels, "Temp": [place % 50 for place in range(100)]})
        self.assert_says(NIGHT, more, [
            f'{NO}NO 3 unknown channel "Temp"', '# NOT IN THE ORIGINAL: channel "Temp".',
            '\n  "ECG", # confirm\n', '\n  "Temp", # the original has no such channel\n',
        ], REMARKS[:2])

    # ten seconds, a gap of more than two days, and ten seconds more
    DAYS = 200_000
    LONG = Made([(0, 10), (DAYS, DAYS + 10)], {
        "EEG Fpz-Cz": [place * 7 % 4001 - 2000 for place in range(4 * DAYS + 40)], "ECG": [7] * (2 * DAYS + 20)})

    def test_two_days_and_more(self):
        self.assert_says(self.LONG, self.LONG.cut(0, 10), [
            f"{YES}YES channels 2 samples 60 annotations 0\n",
            "# OTHER DAYS FIT AS WELL: with a shift by -2 to 0 whole days",
        ], ["# It looks like", "# NOT IN", "# NOT TOLD", "# NOT A"])

    def test_later_day(self):
        interval = '{ from = "200000", to = "200010" }, # confirm: 05:33:20 of day 4 to 05:33:30 of day 4\n'
        self.assert_says(self.LONG, self.LONG.cut(self.DAYS, self.DAYS + 10), [interval], ["# NOT A YES"])

    def test_over_a_day(self):
        day = Made([(0, 86_500)], {"ECG": [place * 7 % 1999 for place in range(2 * 86_500)]})
        interval = '{ from = "86395", to = "86405" }, # confirm: 21:59:55 of day 2 to 22:00:05 of day 2\n'
        self.assert_says(day, day.cut(86_395, 86_405), [interval], ["# NOT A YES"])

    def test_original_over_a_pipe(self):
        export = self.file("export.edf", NIGHT.cut(10, 70, -DAY).bytes())
        ran = self.run_program("draft", "/dev/stdin", export, input=NIGHT.bytes())
        self.assertTrue(ran.status == 0 and ran.out.startswith(b"# NOT TRIED: ") and not ran.err, str(ran))


def temperatures(intervals, notes=(), shift=0):
    """A file of these intervals of a night of one channel."""
    nobody = ["X", "X", "X", "X"]
    values = {"Temp rectal": [place % 1000 for place in range(2100)]}
    return night.file(values, list(notes), ["Temp rectal"], intervals, 1, 1400, shift, nobody, lambda _: nobody)


class Limits(DraftCase):
    """A shift that isn't told, and drafts that are as long as a claim may be, or longer."""

    def assert_none(self, original, export):
        draft, _ = self.draft(original, export)
        is_so = draft.status == 1 and draft.out.startswith(b"# no draft: ") and draft.out.count(b"\n") == 1 and not draft.err
        self.assertTrue(is_so, f"{draft}\nwanted: status 1 and one line, `# no draft: ..`")

    def test_a_thousand_and_one_intervals(self):
        self.assert_none(temperatures([(0, 2100)]), temperatures([(at, at + 1) for at in range(0, 2002, 2)]))

    def test_sixty_long_texts(self):
        texts = [(1000 * at, -1, f"{at} " + "x" * 1200) for at in range(60)]
        self.assert_none(temperatures([(0, 60)], texts), temperatures([(0, 60)]))

    def test_hour_back(self):
        draft, _ = self.draft(temperatures([(0, 2100)]), temperatures([(30, 120)], shift=-3600))
        words = (f"{YES}YES ".encode(), BY_SAMPLES.encode(), b"\nshift = -3600 # confirm: 01:00:00 back\n",
                 b'{ from = "30", to = "120" }', b"with shift = -4600.\n")
        self.assertTrue(draft.status == 0 and not draft.err, str(draft))
        self.assertEqual([word for word in words if word not in draft.out], [], f"words that lack: {draft}")

    KEEP = [(at, at + 1) for at in range(0, 2000, 2)]

    def test_a_thousand_intervals(self):
        claim = 'format = 1\nchannels = ["Temp rectal"]\nshift = -86400\n'
        claim += "".join(f'[[keep]]\nfrom = "{start}"\nto = "{end}"\n' for start, end in self.KEEP)
        self.assert_checked(temperatures([(0, 2100)]), temperatures(self.KEEP, shift=-DAY), claim)

    def test_a_thousand_intervals_without_times(self):
        """With times by the clock it would have more than 65,536 bytes."""
        draft, _ = self.draft(temperatures([(0, 2100)]), temperatures(self.KEEP, shift=-DAY))
        is_so = b'{ from = "1998", to = "1999" }, # confirm\n' in draft.out and b"start\nkeep = [\n" in draft.out
        self.assertTrue(is_so, str(draft))


class Tables(DraftCase):
    """The small files."""

    @each(draftable())
    def row(self, row):
        self.assert_checked(*row.made())


class RandomNights(DraftCase):
    """Nights with honest exports, the same ones each time."""

    @classmethod
    def setUpClass(cls):
        super().setUpClass()
        verdict_cases.choose.seed(SEED)
        cls.honest = [draft_cases.honest() for _ in range(RANDOM_NIGHTS)]
        verdict_cases.choose.seed(SEED)
        cls.moved = [moved_cases.honest() for _ in range(RANDOM_NIGHTS)]

    @each((f"{number}", number) for number in range(RANDOM_NIGHTS))
    def night(self, number):
        self.assert_checked(*self.honest[number])

    @each((f"{number}", number) for number in range(RANDOM_NIGHTS))
    def moved_night(self, number):
        self.assert_checked(*self.moved[number])
