"""Drafts of claims for several exports of one original, and the checks under them.

What a draft says is known from how its files were made: two halves of the example night, parts with a gap between them,
parts that were moved by days and by seconds, a text that was blanked or removed in all parts. Its first line is that of
`check-parts` with it. Of files for which no claim is a Yes whatever it says, a comment says why: parts with other channels,
and parts in another order. Random nights with honest exports are cut into two to four parts. For a single export it is the
draft of `draft`, but for the words of the first line that say how many parts there are.
"""

from tests import night
from tests.edf import field
from tests.explain.tries import APNEA, LIGHTS, NIGHT
from tests.harness import NIGHT as EXAMPLE
from tests.harness import ProgramCase, each
from tests.made import PS, Made
from tests.oracle import drafted_parts, verdict_cases

YES, NO = "# With this draft the check answers: ", "# NOT A YES: with this draft the check answers: "
BY_SAMPLES = "# TOLD BY THE SAMPLES: "
DAY = 86_400
RANDOM_NIGHTS, SEED = 100, 1

QUARTER = Made([(0, 900)], {"EEG Fpz-Cz": list(range(-1800, 1800)), "ECG": list(range(1800))})

OTHER_CHANNELS = (
    "# no draft: the parts don't have the same channels, and a claim has one list of channels for all of them\n"
)


def out_of_order(part):
    """What is said of a part that begins too early."""
    return (f"# no draft: part {part} begins before part {part - 1} ends, and the parts of an export follow one another, "
            "in the order of time\n")


class PartsCase(ProgramCase):
    """Tests of drafts for several exports."""

    def draft_parts(self, original, *exports):
        """The draft of these files, which are bytes, and their paths."""
        original = self.file("original.edf", original)
        paths = [self.file(f"part-{number}.edf", export) for number, export in enumerate(exports)]
        return self.run_program("draft-parts", original, *paths), original, paths

    def assert_says(self, original, parts, words, absent=()):
        """Looks whether a draft has these words in it, and not the others; its first line has the line of the check with
        it."""
        draft, path, paths = self.draft_parts(original.bytes(), *(part.bytes() for part in parts))
        line = self.run_program("check-parts", path, self.file("drafted.toml", draft.out), *paths).out.rstrip(b"\n")
        self.assertTrue(draft.status == 0 and not draft.err, str(draft))
        text = draft.out.decode()
        self.assertIn(f" check answers: {line.decode()}", text.partition("\n")[0], "the first line, and that of the check")
        self.assertEqual([word for word in words if word not in text], [], f"words that lack in the draft: {text}")
        self.assertEqual([word for word in absent if word in text], [], f"words that the draft mustn't have: {text}")


class ExampleNight(PartsCase):
    """The example night in parts, and broken copies of it."""

    ORIGINAL = (EXAMPLE / "original.edf").read_bytes()
    STORED = (EXAMPLE / "draft.toml").read_text(encoding="utf-8").partition("\n")[2]

    def test_two_halves(self):
        ran = self.run_program("draft-parts", "original.edf", "cut-part-1.edf", "cut-part-2.edf")
        self.assert_ran(ran, 0, f"{YES}YES parts 2 channels 3 samples 13590 annotations 5\n{self.STORED}")

    def test_one_export(self):
        ran = self.run_program("draft-parts", "original.edf", "cut.edf")
        self.assert_ran(ran, 0, f"{YES}YES parts 1 channels 3 samples 13590 annotations 5\n{self.STORED}")

    @each([("two_intervals", "two-intervals"), ("changed_value", "changed-value"), ("name_left", "name-left"),
           ("blanked", "blanked"), ("remark_left", "remark-left")])
    def one(self, name):
        """Of a single export the draft of `draft`, but for the first line."""
        one, several = (self.run_program(command, "original.edf", f"{name}.edf") for command in ("draft", "draft-parts"))
        self.assertEqual((one.status, one.err, several.status, several.err), (0, b"", 0, b""))
        first, _, behind = one.out.partition(b"\n")
        for front, parts in ((b": YES ", b": YES parts 1 "), (b": NO 8 ", b": NO 8 part 0 ")):
            first = first.replace(front, parts)
        self.assertEqual(several.out, first + b"\n" + behind)

    def test_gap_between(self):
        values = night.night()
        draft, _, _ = self.draft_parts(self.ORIGINAL, night.cut(values, last=60), night.cut(values, first=90))
        keep = ('keep = [\n  { from = "30", to = "60" }, # confirm: 23:10:30 to 23:11:00\n'
                '  { from = "90", to = "120" }, # confirm: 23:11:30 to 23:12:00\n]\n')
        text = draft.out.decode()
        self.assertEqual((draft.status, draft.err), (0, b""))
        self.assertTrue(text.startswith(f"{YES}YES parts 2 channels 3 samples 9060 annotations 4\n"), text)
        self.assertTrue(keep in text and "\nremove = [\n]\n" in text, text)

    def test_a_name_left_in_one_part(self):
        """What only one of the parts hides isn't anonymous in the draft, and no claim is a Yes then."""
        values = night.night()
        shown = night.cut(values, name=night.PATIENT[3], first=75)
        draft, _, _ = self.draft_parts(self.ORIGINAL, night.cut(values, last=75), shown)
        text = draft.out.decode()
        self.assertTrue(text.startswith(f"{NO}NO 8 part 0 subfield name changed.\n"), text)
        self.assertTrue('"name", # confirm' not in text and "# the export shows: sex, name, date, equipment\n" in text, text)

    @each([("original", "the original", "broken", "cut-part-1.edf"), ("first", "part 0", "original.edf", "broken", "cut-part-2.edf"),
           ("second", "part 1", "original.edf", "cut-part-1.edf", "broken"),
           ("both", "part 0", "original.edf", "broken", "broken")])
    def broken(self, what, *files):
        broken = self.file("broken.edf", self.ORIGINAL[:-1])
        line = self.run_program("conform", broken).out
        ran = self.run_program("draft-parts", *(broken if file == "broken" else file for file in files))
        self.assert_ran(ran, 1, f"# {what}\n".encode() + line)

    ORDERS = [
        ("exchanged", 1, "cut-part-2.edf", "cut-part-1.edf"),
        ("overlapping", 1, "cut-part-1.edf", "overlapping-part-2.edf"),
        ("the_last_twice", 2, "cut-part-1.edf", "cut-part-2.edf", "cut-part-2.edf"),
    ]

    @each(ORDERS)
    def order(self, part, *exports):
        self.assert_ran(self.run_program("draft-parts", "original.edf", *exports), 1, out_of_order(part))


class Comments(PartsCase):
    """What a draft says of parts that were made for it."""

    @each([("days", -DAY, False), ("a_hundred_days", 100 * DAY, False), ("seconds", -300, True), ("years_and_a_second", 10**8 + 1, True)])
    def three_parts(self, shift, by_samples):
        parts = [QUARTER.cut(300, 400, shift), QUARTER.cut(400, 500, shift), QUARTER.cut(520, 600, shift)]
        self.assert_says(QUARTER, parts, [
            f"{YES}YES parts 3 channels 2 samples 1680 annotations 0\n", f"\nshift = {shift} # confirm: ",
            'keep = [\n  { from = "300", to = "500" }, # confirm: 22:05:00 to 22:08:20\n'
            '  { from = "520", to = "600" }, # confirm: 22:08:40 to 22:10:00\n]\n',
            *([BY_SAMPLES] if by_samples else []),
        ], ["# NOT A YES", "# NOT TOLD", *([] if by_samples else [BY_SAMPLES])])

    def test_channels_in_another_order(self):
        other = QUARTER.cut(50, 100).but(channels=dict(reversed(QUARTER.channels.items())))
        self.assert_says(QUARTER, [QUARTER.cut(0, 50), other], [
            f"{YES}YES parts 2 channels 2 samples 600 annotations 0\n",
            'channels = [\n  "EEG Fpz-Cz", # confirm\n  "ECG", # confirm\n]', '{ from = "0", to = "100" }',
        ])

    def test_parts_that_are_cut_at_other_seconds(self):
        """A part of its own has a gap, too."""
        parts = [NIGHT.but(stretches=[(0, 10), (20, 30)], notes=[LIGHTS]), NIGHT.cut(30, 40), NIGHT.cut(60, 100)]
        keep = ['{ from = "0", to = "10" }', '{ from = "20", to = "40" }', '{ from = "60", to = "100" }']
        self.assert_says(NIGHT, parts, [f"{YES}YES parts 3 channels 2 samples 420 annotations 1\n", *keep])

    def test_only_one_channel_in_one_part(self):
        one = QUARTER.cut(50, 100).but(channels={"ECG": QUARTER.channels["ECG"]})
        both = QUARTER.cut(0, 50)
        draft, *_ = self.draft_parts(QUARTER.bytes(), both.bytes(), one.bytes())
        self.assert_ran(draft, 1, f'{OTHER_CHANNELS}# part 1 lacks channel "EEG Fpz-Cz", which part 0 has\n')

    def test_a_channel_more_in_a_later_part(self):
        one = QUARTER.cut(0, 50).but(channels={"ECG": QUARTER.channels["ECG"]})
        both = QUARTER.cut(50, 100)
        draft, *_ = self.draft_parts(QUARTER.bytes(), one.bytes(), both.bytes(), both.but(stretches=[(100, 110)]).bytes())
        lines = [f'# part 0 lacks channel "EEG Fpz-Cz", which part {part} has\n' for part in (1, 2)]
        self.assert_ran(draft, 1, OTHER_CHANNELS + "".join(lines))

    TWICE = NIGHT.but(notes=[LIGHTS, APNEA, (70 * PS, None, "Apnea")])

    def test_text_that_was_blanked_in_both(self):
        blanked = self.TWICE.but(notes=[LIGHTS, (50 * PS, None, "X"), (70 * PS, None, "X")])
        self.assert_says(self.TWICE, [blanked.cut(0, 60), blanked.cut(60, 100)], [
            f"{YES}YES parts 2 channels 2 samples 600 annotations 3\n", "format = 2\n",
            'blank = [\n  "Apnea", # confirm; how often it stands: 2\n]', "\nremove = [\n]\n",
        ])

    def test_text_that_was_removed_in_both(self):
        parts = [self.TWICE.cut(0, 60).but(notes=[LIGHTS]), self.TWICE.cut(60, 100).but(notes=[])]
        self.assert_says(self.TWICE, parts, [
            f"{YES}YES parts 2 channels 2 samples 600 annotations 1\n",
            'remove = [\n  "Apnea", # confirm; how often it stands: 2\n]',
        ], ["blank = "])

    def test_text_that_was_removed_in_one(self):
        """What one part has isn't removed: no claim removes it in the other alone."""
        parts = [self.TWICE.cut(0, 60).but(notes=[LIGHTS]), self.TWICE.cut(60, 100)]
        self.assert_says(self.TWICE, parts, [f"{NO}NO 11 annotation missing at {50 * PS} ps ", "\nremove = [\n]\n"], ["blank = "])

    def test_annotation_in_the_other_part(self):
        """An annotation of the time of one part stands in another."""
        parts = [NIGHT.cut(0, 50).but(notes=[LIGHTS, APNEA]), NIGHT.cut(50, 100).but(notes=[])]
        self.assert_says(NIGHT, parts, [f"{YES}YES parts 2 channels 2 samples 600 annotations 2\n", "\nremove = [\n]\n"], ["# BESIDE"])

    def test_parts_of_different_days(self):
        long = Made([(0, 10), (200_000, 200_010)], {
            "EEG Fpz-Cz": [place * 7 % 4001 - 2000 for place in range(800_040)], "ECG": [7] * 400_020})
        self.assert_says(long, [long.cut(0, 10, DAY), long.cut(200_000, 200_010, DAY)], [
            f"{YES}YES parts 2 channels 2 samples 120 annotations 0\n", "\nshift = 86400 # confirm: 1 day forward\n",
            '{ from = "200000", to = "200010" }, # confirm: 05:33:20 of day 4 to 05:33:30 of day 4\n',
        ], ["# OTHER DAYS"])

    def test_hidden_in_both(self):
        hidden = NIGHT.but(edits=[(field("patient"), "X F X X")])
        self.assert_says(NIGHT, [hidden.cut(0, 60), hidden.cut(60, 100)], [
            f"{YES}YES parts 2 channels 2 samples 600 annotations 2\n",
            "\n# the export shows: sex, date, administration, technician, equipment\n",
            'anonymous = [\n  "code", # confirm\n  "birthdate", # confirm\n  "name", # confirm\n]',
        ])

    def test_original_among_the_exports(self):
        text = self.draft_parts(NIGHT.cut(10, 20, -DAY).bytes(), NIGHT.cut(0, 60).bytes(), NIGHT.cut(60, 100).bytes())[0].out
        self.assertIn(b"# It looks like another file was typed in place of the original.", text)

    def test_original_over_a_pipe(self):
        paths = [self.file(f"half-{first}.edf", NIGHT.cut(first, first + 50).bytes()) for first in (0, 50)]
        ran = self.run_program("draft-parts", "/dev/stdin", *paths, input=NIGHT.bytes())
        self.assertTrue(ran.status == 0 and ran.out.startswith(b"# NOT TRIED: ") and not ran.err, str(ran))


class RandomNights(PartsCase):
    """Nights with honest exports in two to four parts, the same ones each time."""

    @classmethod
    def setUpClass(cls):
        super().setUpClass()
        verdict_cases.choose.seed(SEED)
        cls.honest = [drafted_parts.honest() for _ in range(RANDOM_NIGHTS)]

    @each((f"{number}", number) for number in range(RANDOM_NIGHTS))
    def night(self, number):
        original, exports, claim = self.honest[number]
        draft, path, paths = self.draft_parts(original, *exports)
        want = self.run_program("check-parts", path, self.file("claim.toml", claim), *paths)
        self.assertEqual(want.status, 0, f"the claim itself: {want}")
        self.assertTrue(draft.status == 0 and not draft.err, str(draft))
        self.assertTrue(draft.out.startswith(YES.encode() + want.out), f"{draft}\nwanted: a draft with the line {want.out!r}")
        given = self.run_program("check-parts", path, self.file("drafted.toml", draft.out), *paths)
        self.assert_ran(given, want.status, want.out, want.err)
