"""Each explanation of several exports beside their check, and what is said of each export.

`explain-parts` has the status of `check-parts`, and its first line: on standard output behind an answer, on standard error
behind a refusal. This is tried on all checks of several exports of tests/cases. What has to be said of a mistake follows
from how its files are made: a cut of the night of 4 s, two channels and three annotations.
"""

import re
import unittest

from tests.cases import rows_of
from tests.cases.parts import AT_TWO, FIRST, JUST_EARLY, KEPT_TIME, SECOND, SECONDS, SINGLE, changed, second
from tests.cases.small_night import BOTH, LANE_0, LANE_1, LANE_2, LANE_3, NIGHT, VALUES_0, VALUES_1, VALUES_2, VALUES_3
from tests.edf import field, lane, signal, values
from tests.explain import sentences, tries
from tests.harness import ProgramCase, each
from tests.made import PS, Claimed
from tests.recordings import bytes_of, claim_of, recording

ALL_OF_IT = claim_of(BOTH, "", [("0", "4")])
AS_CLAIMED = "  Its header and its samples are as claimed.\n"
EARLY = "  It begins before the part in front of it ends"

# The first half with another value of the channel `EEG Fpz-Cz`, and without its first annotation.
OTHER_FIRST = recording(parts=[VALUES_0, LANE_0, values([40, 50, 60, 71, 102, 103]), LANE_1], base=FIRST)
FIRST_WITHOUT_NOTE = recording(parts=[VALUES_0, KEPT_TIME, VALUES_1, LANE_1], base=FIRST)

# Annotations more than the night has: one of the second half, one that both have, and one that the second half has twice.
MORE_IN_SECOND = second(first_lane=lane(40, b"+0\x14\x14\x00+0.5\x14Snoring\x14\x00"))
APNEA_IN_FIRST = recording(
    parts=[VALUES_0, LANE_0, VALUES_1, lane(40, b"+1\x14\x14\x00+1.5\x151\x14Apnea\x14\x00+3\x14Apnea\x14\x00")], base=FIRST
)
MORE_AT_ONE_TIME = second(last_lane=lane(40, b"+1\x14\x14\x00+1\x14Apnea\x14Snoring\x14\x00"))
TWICE_IN_SECOND = second(last_lane=lane(40, b"+1\x14\x14\x00+1\x14Apnea\x14Apnea\x14\x00"))
# All annotations of the night in the second half, too; and as many as all in each half, of which some are others.
ALL_IN_SECOND = second(first_lane=lane(40, b"+0\x14\x14\x00-1.5\x14Lights off\x14\x00-0.5\x151\x14Apnea\x14\x00"))
THREE_IN_FIRST = recording(
    parts=[VALUES_0, LANE_0, VALUES_1, lane(40, b"+1\x14\x14\x00+1.5\x151\x14Apnea\x14\x00+1.75\x14Snoring\x14\x00")], base=FIRST
)
THREE_IN_SECOND = second(first_lane=lane(40, b"+0\x14\x14\x00+0.5\x14Snoring\x14Yawning\x14\x00"))
# The annotations of the first half a quarter of a second earlier; and the second half in one data record, with one more.
EARLIER_IN_FIRST = recording(
    parts=[VALUES_0, lane(40, b"+0\x14\x14\x00+0.25\x14Lights off\x14\x00"),
           VALUES_1, lane(40, b"+1\x14\x14\x00+1.25\x151\x14Apnea\x14\x00")], base=FIRST
)
LONG_SECOND = recording(
    edits=[SINGLE, AT_TWO, (field("duration"), "2"), (signal(0, "samples"), "8"), (signal(1, "samples"), "4")],
    parts=[values([80, 90, 100, 110, 120, 130, 140, 150, 104, 105, 106, 107]),
           lane(40, b"+0\x14\x14\x00+0.5\x14Snoring\x14\x00+1\x14Apnea\x14\x00")], base=NIGHT
)

OTHER_SECOND = second(third=values([80, 90, 100, 110, 104, 106]), fourth=values([120, 130, 140, 150, 107, 107]))

ONE_OF_EEG = 'Channel "EEG Fpz-Cz": 1 sample has another value in the export.\n'
TWO_OF_ECG = 'Channel "ECG": 2 samples have another value in the export.\n'
OTHER_SENSOR = 'Channel "ECG" has another sensor in the export: the original has "AgAgCl electrode", the export has "x".'
COMPARED = "  Its header isn't as claimed. Its samples were compared all the same"
NO_CHANNEL = "  It has no claimed channel that the original has, too"
SO_CLAIMED = "  They are as claimed.\n"
NOTES_AS_CLAIMED = "The annotations of all parts together were compared all the same. They are as claimed.\n"


def behind(number, words):
    """What is said of a part: its name, and the words behind it."""
    return f"Part {number}:\n{words}"


def starts(at, length, way, belongs):
    """What is said of where a part behind the first one starts."""
    return (f"Its first samples are at {at}, {length} {way} than the first one of its channels that the claim keeps behind the part "
            f"in front of it, which belongs at {belongs}.\n")


# The exports, the status, what has to be said, and what not.
ROWS = [
    ("two_halves", [FIRST, SECOND], 0, [behind(0, AS_CLAIMED) + behind(1, AS_CLAIMED)], ["Part 2", "together"]),
    ("one_export", [NIGHT], 0, [behind(0, AS_CLAIMED)], ["Part 1"]),
    ("four_seconds", SECONDS, 0, [behind(number, AS_CLAIMED) for number in range(4)], ["Part 4"]),
    ("another_value_in_the_first_half", [OTHER_FIRST, SECOND], 1, [behind(0, ONE_OF_EEG), behind(1, AS_CLAIMED)], ["together"]),
    (
        "other_values_in_both_halves",
        [OTHER_FIRST, OTHER_SECOND],
        1,
        [
            behind(0, ONE_OF_EEG), "The first is at 2.5 s", "The last is at 3 s", behind(1, TWO_OF_ECG), ": 70 in the original, 71 in the",
            ": 105 in the original, 106 in the export", ": 106 in the original, 107 in the export", "It is at 1.75 s (2002-03-02 22:00:01.75",
        ],
        [AS_CLAIMED, "together"],
    ),
    (
        "another_header_of_the_first_half_and_values_of_the_second",
        [changed(FIRST, (signal(1, "transducer"), "x")), OTHER_SECOND],
        1,
        [behind(0, OTHER_SENSOR), COMPARED, SO_CLAIMED + behind(1, TWO_OF_ECG), NOTES_AS_CLAIMED],
        [AS_CLAIMED],
    ),
    (
        "another_header_and_values_of_the_second_half",
        [FIRST_WITHOUT_NOTE, changed(OTHER_SECOND, (signal(1, "transducer"), "x"))],
        1,
        [behind(0, AS_CLAIMED), behind(1, OTHER_SENSOR), COMPARED, TWO_OF_ECG, "The annotations of all parts together:"],
        [SO_CLAIMED, NOTES_AS_CLAIMED],
    ),
    (
        "a_first_half_with_other_labels",
        [changed(FIRST, (signal(0, "label"), "A"), (signal(1, "label"), "B")), SECOND],
        1,
        ['The claim names channel "ECG", but the export doesn\'t have it', NO_CHANNEL, behind(1, AS_CLAIMED), NOTES_AS_CLAIMED],
        [COMPARED, SO_CLAIMED, "The export starts", "The claim keeps no sample"],
    ),
    (
        "other_headers_in_both_halves",
        [changed(FIRST, (signal(1, "transducer"), "x")), changed(SECOND, (signal(1, "transducer"), "x"))],
        1,
        [behind(0, OTHER_SENSOR), behind(1, OTHER_SENSOR), SO_CLAIMED + behind(1, OTHER_SENSOR), NOTES_AS_CLAIMED],
        [AS_CLAIMED, "have another value", "has another value"],
    ),
    (
        "third_second_missing",
        [FIRST, SECONDS[3]],
        1,
        [
            behind(0, AS_CLAIMED),
            behind(1, starts("2002-03-02 22:00:03", "1 s", "later", "2002-03-02 22:00:02")),
            'Channel "EEG Fpz-Cz": 4 samples that the claim keeps are missing',
            'Channel "ECG": 2 samples that the claim keeps are missing',
        ],
        ["together"],
    ),
    (
        "last_second_missing",
        [FIRST, SECONDS[2]],
        1,
        [
            behind(0, AS_CLAIMED),
            behind(1, 'Channel "EEG Fpz-Cz": 4 samples that the claim keeps are missing'),
            "The annotations of all parts together:\nThe export lacks 1 annotation that the claim keeps",
            "  at 3 s (",
        ],
        ["Its first samples", "This time lies"],
    ),
    (
        "first_half_alone",
        [FIRST],
        1,
        [behind(0, 'Channel "EEG Fpz-Cz": 8 samples that the claim keeps are missing'), 'Channel "ECG": 4 samples that'],
        ["Part 1"],
    ),
    (
        "annotations_missing_and_a_value",
        [FIRST_WITHOUT_NOTE, OTHER_SECOND],
        1,
        [behind(0, AS_CLAIMED), behind(1, TWO_OF_ECG), "The annotations of all parts together:",
         'text "Lights off"\n    This time lies between the begin and the end of part 0.\nRun '],
        ["the end of part 1", "at this time"],
    ),
    (
        "an_annotation_more_in_the_second_half",
        [FIRST, MORE_IN_SECOND],
        1,
        [
            "The annotations of all parts together:\nThe export has 1 annotation that the claim doesn't keep:\n  at 2.5 s (",
            ', no duration, text "Snoring"\n    Part 1 has 1 annotation that begins at this time.\n    The original has no such annotation',
        ],
        ["    Part 0 has"],
    ),
    (
        "an_annotation_in_both_halves",
        [APNEA_IN_FIRST, SECOND],
        1,
        [
            'text "Apnea"\n    Part 0 has 1 annotation that begins at this time.\n    Part 1 has 1 annotation that begins at this time.\n'
            "    The claim keeps this annotation, but fewer times",
        ],
        ["    Part 2 has"],
    ),
    (
        "an_annotation_twice_in_the_second_half",
        [FIRST, TWICE_IN_SECOND],
        1,
        ['text "Apnea"\n    Part 1 has 2 annotations that begin at this time.\n    The claim keeps this annotation, but fewer times'],
        ["    Part 0 has"],
    ),
    (
        "all_annotations_in_each_half",
        [APNEA_IN_FIRST, ALL_IN_SECOND],
        1,
        [
            "The annotations of all parts together:\nEach part has 3 annotations, as many as the claim keeps in all: it looks as if each",
            "The export has 3 annotations that the claim doesn't keep:", "\nRun edfclaim notes on each file to see all annotations.\n",
        ],
        ["both files", "In a claim, remove"],
    ),
    (
        "as_many_annotations_in_each_half_as_are_kept",
        [THREE_IN_FIRST, THREE_IN_SECOND],
        1,
        ["The export has 3 annotations that the claim doesn't keep:", 'text "Yawning"\n    Part 1 has 2 annotations'],
        ["Each part has", "both files"],
    ),
    (
        "an_annotation_more_beside_one_that_is_kept",
        [FIRST, MORE_AT_ONE_TIME],
        1,
        ["has 1 annotation that", 'text "Snoring"\n    Part 1 has 2 annotations that begin at this time.\n    The original has no such annotation'],
        ["    Part 0 has", 'text "Apnea"'],
    ),
    (
        "an_annotation_more_in_a_half_of_one_data_record",
        [FIRST, LONG_SECOND],
        1,
        ['  at 2.5 s (', 'text "Snoring"\n    Part 1 has 1 annotation that begins at this time.\n    The original has no such annotation'],
        ["    Part 0 has"],
    ),
    (
        "annotations_of_the_first_half_moved",
        [EARLIER_IN_FIRST, SECOND],
        1,
        [
            "All 2 annotations that differ are only moved",
            "earlier than the claim keeps it.\nThe export has 2 annotations that the claim doesn't keep:\n  at 0.25 s (",
            'text "Lights off"\n    Part 0 has 1 annotation that begins at this time.\n',
            'text "Apnea"\n    Part 0 has 1 annotation that begins at this time.\n',
        ],
        ["    Part 1 has", "annotations that the claim keeps:"],
    ),
    (
        "an_annotation_more_in_one_export",
        [recording(parts=[VALUES_0, LANE_0, VALUES_1, LANE_1, VALUES_2, lane(40, b"+2\x14\x14\x00+2.5\x14Snoring\x14\x00"), VALUES_3, LANE_3],
                   base=NIGHT)],
        1,
        ['text "Snoring"\n    The original has no such annotation'],
        ["at this time."],
    ),
    (
        "an_annotation_missing_in_each_half",
        [FIRST_WITHOUT_NOTE, second(last_lane=lane(40, b"+1\x14\x14\x00"))],
        1,
        ['text "Lights off"\n    This time lies between the begin and the end of part 0.\n', 'text "Apnea"\n    This time lies between the begin and the end of part 1.\n'],
        ["at this time"],
    ),
    (
        "an_annotation_a_second_early_in_the_second_half",
        [FIRST, second(last_lane=lane(40, b"+1\x14\x14\x00+0\x14Apnea\x14\x00"))],
        1,
        [
            '  at 3 s (', 'text "Apnea"\n    This time lies between the begin and the end of part 1.\n',
            '  at 2 s (', 'text "Apnea"\n    Part 1 has 1 annotation that begins at this time.\n',
        ],
        ["the end of part 0", "Part 0 has"],
    ),
    (
        "an_annotation_missing_in_one_export",
        [recording(parts=[VALUES_0, KEPT_TIME, VALUES_1, LANE_1, VALUES_2, LANE_2, VALUES_3, LANE_3], base=NIGHT)],
        1,
        ['text "Lights off"\nRun '],
        ["This time lies"],
    ),
    ("halves_exchanged", [SECOND, FIRST], 1, [EARLY, "put the parts in the order of time"], [behind(1, AS_CLAIMED), "together"]),
    ("a_hair_early", [FIRST, JUST_EARLY], 1, [behind(0, AS_CLAIMED), behind(1, EARLY)], ["together"]),
    (
        "the_first_half_thrice",
        [FIRST, FIRST, FIRST],
        1,
        [behind(1, EARLY), behind(2, "  Its samples weren't compared.\n")],
        [behind(2, EARLY)],
    ),
    (
        "a_broken_second_half",
        [FIRST, recording(length=-1, base=SECOND)],
        1,
        [behind(1, "The export can't be judged. Its first fault is: Truncated at record 1."), "looks like a copy that was broken off"],
        ["Part 0", "The original can't"],
    ),
    ("an_empty_first_half", [recording(length=0, base=FIRST), SECOND], 1, [behind(0, "The export can't"), "The file is empty"], ["Part 1"]),
    (
        "two_broken_halves",
        [recording(length=-1, base=FIRST), recording(length=-2, base=SECOND)],
        1,
        [behind(number, "The export can't be judged. Its first fault is: Truncated at record 1.") for number in range(2)],
        ["The original can't", "Part 2"],
    ),
    (
        "a_broken_half_between_two",
        [SECONDS[0], recording(length=-1, base=SECONDS[1]), SECONDS[2], recording(length=0, base=SECONDS[3])],
        1,
        [behind(1, "The export can't be judged. Its first fault is: Truncated at record 0."), behind(3, "The export can't"), "is empty"],
        ["The original can't", "Part 0", "Part 2"],
    ),
]

# A name in the header of the second half alone, where a claim hides the patient's name.
NAME = "Haagse"
HIDDEN = (field("patient"), "MCH-0234567 F 02-MAY-1951 X")


class ExplainPartsCase(ProgramCase):
    """Tests of explanations of several exports."""

    def explained(self, original, claim, exports):
        """The words of the sentences, and the status; the line is that of the check."""
        parts = [self.file(f"part-{number}.edf", export) for number, export in enumerate(exports)]
        paths = [self.file("original.edf", original), self.file("claim.toml", claim), *parts]
        check, given = self.run_program("check-parts", *paths), self.run_program("explain-parts", *paths)
        line, said, other = (check.err, given.err, given.out) if check.status == 2 else (check.out, given.out, given.err)
        self.assertTrue(given.status == check.status and said.startswith(line) and not other, f"{given}\nand the check: {check}")
        text = said.removeprefix(line).decode(errors="replace")
        self.assertTrue(line.count(b"\n") == 1 and text.strip() and text.endswith("\n"), f"no sentences: {given}")
        return text, given.status


class Rows(ExplainPartsCase):
    """What is said of each part."""

    @each(ROWS)
    def row(self, exports, status, there, absent):
        text, given = self.explained(bytes_of(NIGHT), ALL_OF_IT, [bytes_of(export) for export in exports])
        self.assertEqual(given, status, text)
        self.assertEqual([word for word in there if word not in text], [], f"words that lack: {text}")
        self.assertEqual([word for word in absent if word in text], [], f"words that are said: {text}")

    def test_each_sentence_is_said_and_isn_t(self):
        """Of each sentence on several exports there is a row of which it is said, and one of which it isn't."""
        texts = [self.explained(bytes_of(NIGHT), ALL_OF_IT, [bytes_of(export) for export in row[1]])[0] for row in ROWS]
        texts += [self.explained(row[1].bytes(), row[3].text(), [export.bytes() for export in row[2]])[0] for row in TRIES]
        for name, said in sentences.sentences([sentences.OF_PARTS]).items():
            # but the name of a part, which each row with an answer on parts has
            kinds = {bool(sentences.pattern(said).search(text)) for text in texts}
            self.assertEqual(kinds, {True} if name == "PART" else {True, False}, name)

    def test_name_in_the_second_header(self):
        """The claim hides the name, and the second half has it in a text of a channel."""
        claim = claim_of(BOTH, 'anonymous = ["name"]', [("0", "4")])
        named = changed(SECOND, HIDDEN, (signal(1, "transducer"), NAME))
        text, _ = self.explained(bytes_of(NIGHT), claim, [bytes_of(changed(FIRST, HIDDEN)), bytes_of(named)])
        self.assertEqual(text.count(f'A text of channel "ECG" has something spelled like a word of the patient\'s name: "{NAME}".'), 1, text)


HALVES = [tries.NIGHT.cut(10, 40), tries.NIGHT.cut(40, 70)]
MOVED = [half.but(shift=-tries.DAY) for half in HALVES]
SCORED = tries.NIGHT.but(notes=[(20 * PS, 3 * PS, "Apnea"), (50 * PS, 2 * PS, "Arousal")])
SCORED_HALVES = [SCORED.cut(10, 40), SCORED.cut(40, 70)]
DAYS = tries.NIGHT.but(channels={"Temp": list(range(100))}, notes=[])
LATE = tries.NIGHT.but(fraction=PS // 2, notes=[])
LATE_HALVES = [LATE.but(stretches=[(0, 50)]), LATE.but(stretches=[(50, 100)])]
LAST_NOTE, SNORING = (70 * PS, None, "Lights on"), (60 * PS, None, "Snoring")
ENDED = tries.NIGHT.but(stretches=[(0, 70)], notes=[*tries.NIGHT.notes, LAST_NOTE])
ENDED_HALVES = [HALVES[0], ENDED.cut(40, 71).but(stretches=[(40, 70)])]
YES = "the answer would be YES parts 2 channels 2 samples 360 annotations"
TRIED = ["With shift", "With channels", "With to", "were tried", "What follows is worked out"]

# What is tried: the original, the exports and the claim; what has to be said, and what not.
TRIES = [
    ("a_forgotten_shift", tries.NIGHT, HALVES, tries.of_ten(),
     [f"With shift = 0 {YES} 1.", "no sample and no annotation is listed", behind(0, "The export starts 1 day later than claimed")],
     [*tries.LISTED, "were tried", "together", "With channels", "With to", "Part 1", AS_CLAIMED]),
    ("a_forgotten_shift_and_a_lost_annotation", tries.NIGHT, [HALVES[0], HALVES[1].but(notes=[])], tries.of_ten(),
     [f"With shift = 0 the first difference would be NO 11 annotation missing at {50 * PS} ps duration none text \"Apnea\".",
      "With it all samples are as claimed. What follows is worked out with shift = 0.",
      # the warning stands by the claimed shift
      behind(0, "The export starts 1 day later than claimed"), "It starts as if nothing had been moved", behind(1, AS_CLAIMED),
      "The annotations of all parts together:\nThe export lacks 1 annotation"],
     ["missing in the export", "another value", "With to"]),
    ("a_forgotten_shift_and_another_value", tries.NIGHT, [HALVES[0], HALVES[1].changed("ECG", 100, -1)], tries.of_ten(),
     [f"With shift = 0 the first difference would be NO 10 sample \"ECG\" at {50 * PS} ps original {tries.ecg(50)} export -1.",
      f"What follows is worked out with shift = {-tries.DAY}, as claimed.",
      # by the claim both parts stand a day behind the night, so the first one lacks all of it
      'Channel "ECG": 120 samples that the claim keeps are missing', behind(1, 'Channel "EEG Fpz-Cz": 120 samples of the export are ones')],
     ["all samples are as claimed", "were tried", "would be YES"]),
    ("a_cut_that_begins_a_second_late", tries.NIGHT, [tries.NIGHT.cut(11, 40, -tries.DAY), MOVED[1]], tries.of_ten(),
     [f"Other shifts were tried, and with none of them the first samples are as claimed: {-tries.DAY + 1}, 0, {tries.DAY}. "
      "It looks like the export was cut elsewhere",
      behind(0, "The export starts 1 s later than claimed"), '"EEG Fpz-Cz": 4 samples that the claim keeps are missing', behind(1, AS_CLAIMED)],
     ["With shift", "another value"]),
    ("the_right_shift_and_another_value", tries.NIGHT, [MOVED[0], MOVED[1].changed("ECG", 100, -1)], tries.of_ten(),
     [behind(0, AS_CLAIMED), behind(1, 'Channel "ECG": 1 sample has another value')], TRIED),
    # the first half ends before the time that the claim keeps, so the first sample that is kept comes behind it
    ("halves_an_hour_early", tries.NIGHT, [half.but(shift=-tries.DAY - 3600) for half in HALVES], tries.of_ten(),
     [f"With shift = {-tries.DAY - 3600} {YES} 1.", behind(0, "The export starts 1 hour earlier than claimed")],
     [*tries.LISTED, *tries.LIKELY, "Part 1"]),
    ("a_forgotten_shift_forwards", tries.NIGHT, HALVES, tries.of_ten(tries.DAY),
     [f"With shift = 0 {YES} 1.", behind(0, "The export starts 1 day earlier than claimed"), "It starts as if nothing had been moved"],
     [*tries.LISTED, "Part 1"]),
    ("halves_moved_back_for_forwards", tries.NIGHT, MOVED, tries.of_ten(tries.DAY),
     [f"With shift = {-tries.DAY} {YES} 1.", behind(0, "The export starts 2 days earlier than claimed"), "moved the other way"],
     [*tries.LISTED, "Part 1"]),
    ("a_half_moved_too_far_back_and_another_value", tries.NIGHT,
     [MOVED[0].but(shift=-tries.DAY - 3600), MOVED[1].changed("ECG", 100, -1)], tries.of_ten(),
     [behind(0, "The export starts 1 hour earlier than claimed"),
      behind(1, starts("2002-03-01 22:00:40", "30 s", "later", "2002-03-01 22:00:10") + 'Channel "EEG Fpz-Cz": 120 samples that the claim')],
     ["would be YES", *tries.LIKELY]),
    # the first part ends where the second interval has begun, so what it lacks there may be its own
    ("two_intervals_later", tries.NIGHT,
     [tries.NIGHT.cut(10, 40, 15 - tries.DAY), tries.NIGHT.cut(50, 70, 15 - tries.DAY).changed("ECG", 110, -1)],
     Claimed(tries.BOTH, [(10, 40), (50, 70)], -tries.DAY),
     [f"With shift = {15 - tries.DAY} the first difference would be NO 10", behind(0, "The export starts 15 s later than claimed"),
      behind(1, starts("2002-03-01 22:01:05", "10 s", "later", "2002-03-01 22:00:55") + 'Channel "')],
     ["The export starts 10 s later"]),
    # which part should have what is missing between two isn't known, so it isn't said that the second one starts elsewhere than claimed
    ("a_first_part_that_ends_early", tries.NIGHT, [tries.NIGHT.cut(10, 35), tries.NIGHT.cut(50, 70)],
     Claimed(tries.BOTH, [(10, 40), (50, 70)]),
     [behind(0, AS_CLAIMED),
      behind(1, starts("2002-03-02 22:00:50", "15 s", "later", "2002-03-02 22:00:35")
             + 'Channel "EEG Fpz-Cz": 20 samples that the claim keeps are missing in the export.\n')],
     ["The export starts", "should be at", *TRIED, *tries.LIKELY]),
    ("a_second_part_that_begins_early", tries.NIGHT, [tries.NIGHT.cut(10, 40), tries.NIGHT.cut(45, 70)],
     Claimed(tries.BOTH, [(10, 40), (50, 70)]),
     [behind(0, AS_CLAIMED),
      behind(1, starts("2002-03-02 22:00:45", "5 s", "earlier", "2002-03-02 22:00:50")
             + 'Channel "EEG Fpz-Cz": 20 samples of the export are ones that the claim doesn\'t keep, ')],
     ["The export starts", "should be at", *TRIED]),
    ("a_second_part_of_three_that_begins_late", tries.NIGHT,
     [tries.NIGHT.cut(10, 30), tries.NIGHT.cut(35, 50), tries.NIGHT.cut(50, 70)], Claimed(tries.BOTH, [(10, 70)]),
     [behind(0, AS_CLAIMED), behind(1, starts("2002-03-02 22:00:35", "5 s", "later", "2002-03-02 22:00:30")), behind(2, AS_CLAIMED)],
     ["The export starts", *TRIED]),
    # the samples of the second of two days are as claimed, and it only lacks the first one: it wasn't moved otherwise
    ("a_day_that_is_missing", DAYS, [DAYS.cut(0, 10, -40), DAYS.cut(50, 100, -40)], Claimed(["Temp"], [(0, 100)], -40),
     [behind(0, AS_CLAIMED), behind(1, starts("2002-03-02 22:00:10", "40 s", "later", "2002-03-02 21:59:30") + 'Channel "Temp": 40 samples')],
     [*tries.LIKELY, *TRIED]),
    ("a_part_of_a_second_that_both_halves_leave_out", LATE, [half.but(fraction=0) for half in LATE_HALVES], Claimed(tries.BOTH, [(0, 200)]),
     [behind(0, "The export starts 0.5 s earlier than claimed"), "No shift lets it start as claimed, as a shift is whole seconds."],
     ["The claim keeps no sample"]),
    ("a_claim_that_keeps_nothing_of_halves", tries.NIGHT, HALVES, Claimed(tries.BOTH, [(200, 300)]),
     ["The claim keeps no sample of the original: its intervals lie after the end of the recording"], ["The export starts", *TRIED]),
    ("a_claim_that_keeps_nothing_beside_one_half", tries.NIGHT, HALVES, Claimed(tries.BOTH, [(40, 70)]),
     ['120 samples of the export are ones', behind(1, AS_CLAIMED)], ["The claim keeps no sample"]),
    # the second half alone wasn't moved
    ("a_forgotten_shift_of_the_second_half", tries.NIGHT, [HALVES[0].but(shift=-10), HALVES[1]], tries.of_ten(-10),
     [behind(0, AS_CLAIMED), behind(1, starts("2002-03-02 22:00:40", "10 s", "later", "2002-03-02 22:00:30") + "It starts as if nothing had been moved")],
     ["The export starts", *TRIED]),
    ("lost_durations_in_both_halves", SCORED, [half.but(notes=[(at, None, text) for at, _, text in half.notes]) for half in SCORED_HALVES],
     Claimed(tries.BOTH, [(10, 70)]),
     ["All 2 annotations that differ only lack their durations",
      "Export again with durations.\nThe export has 2 annotations that the claim doesn't keep:\n",
      'text "Apnea"\n    Part 0 has 1 annotation that begins at this time.\n',
      'text "Arousal"\n    Part 1 has 1 annotation that begins at this time.\n'],
     ["This time lies", *TRIED]),
    ("a_forgotten_shift_and_an_annotation_more", tries.NIGHT, [HALVES[0], HALVES[1].but(notes=[*HALVES[1].notes, SNORING])], tries.of_ten(),
     [f"With shift = 0 the first difference would be NO 11 annotation extra at {60 * PS} ps duration none text \"Snoring\".",
      "What follows is worked out with shift = 0.", '  at 60 s (',
      'text "Snoring"\n    Part 1 has 1 annotation that begins at this time.\n    The original has no such annotation'],
     ["Part 0 has", "This time lies"]),
    ("a_misspelt_channel", tries.NIGHT, HALVES, Claimed(["EEG Fpz-Cz", "EGC"], [(10, 70)]),
     [f'With channels = ["EEG Fpz-Cz", "ECG"] {YES} 1.'], ["With shift", "With to", "were tried"]),
    ("a_channel_of_another_name", tries.NIGHT, HALVES, Claimed(["EEG Fpz-Cz", "Blood pressure"], [(10, 70)]),
     [f'With channels = ["EEG Fpz-Cz", "ECG"] {YES} 1.'], ["With shift", "With to", "were tried"]),
    ("an_annotation_at_the_end", ENDED, ENDED_HALVES, Claimed(tries.BOTH, [(10, 70)]),
     [f'With to = "70.000000000001" in place of "70" {YES} 2.', behind(0, AS_CLAIMED) + behind(1, AS_CLAIMED)],
     ["With shift", "With channels", "were tried"]),
    ("an_annotation_behind_the_end", ENDED, [HALVES[0], HALVES[1].but(notes=[*HALVES[1].notes, (71 * PS, None, "Lights on")])],
     Claimed(tries.BOTH, [(10, 70)]),
     ["has 1 annotation"], TRIED),
]


class Tries(ExplainPartsCase):
    """Changes of the claim that are named, each of which was tried on all exports together."""

    @each(TRIES)
    def row(self, original, exports, claim, there, absent):
        text, given = self.explained(original.bytes(), claim.text(), [export.bytes() for export in exports])
        self.assertEqual(given, 1, text)
        self.assertEqual([word for word in there if word not in text], [], f"words that lack: {text}")
        self.assertEqual([word for word in absent if word in text], [], f"words that are said: {text}")

    def test_faults_behind_the_original(self):
        """Behind a fault of the original, that of each export that has one is said, too."""
        broken = recording(length=-1, base=NIGHT)
        exports = [bytes_of(FIRST), bytes_of(recording(length=-1, base=SECOND))]
        text, given = self.explained(bytes_of(broken), ALL_OF_IT, exports)
        self.assertEqual(given, 1, text)
        self.assertIn("The original can't be judged. Its first fault is: Truncated at record 3.", text)
        self.assertIn(behind(1, "The export can't be judged. Its first fault is: Truncated at record 1."), text)
        self.assertNotIn("Part 0", text)


class Checks(ExplainPartsCase):
    """All checks of several exports of the tables."""

    @each([(row.name, row) for row in rows_of("parts") if row.command == "check-parts"])
    def check(self, row):
        original, claim, *exports = row.made()
        text, _ = self.explained(original, claim, exports)
        # twelve seconds as two halves, of which one has another value at one second
        at = re.search(r"_s_as_halves_of_.*_with_another_value_at_(\d+)_s$", row.name)
        if at:
            other = int(at[1]) // 6
            self.assertIn(behind(other, 'Channel "Temp": 1 sample has another value in the export.\n'), text)
            self.assertIn(behind(1 - other, AS_CLAIMED), text)
            self.assertIn(f"  It is at {at[1]} s (", text)

    def test_a_claim_for_an_export(self):
        """The order of the files is that of the command."""
        text, _ = self.explained(bytes_of(NIGHT), ALL_OF_IT, [ALL_OF_IT.encode(), bytes_of(SECOND)])
        self.assertIn("The export looks like a claim. The order is: the original, the export, the claim; with explain-parts: the original, "
                      "the claim, the exports.\n", text)

    def test_a_folder_among_the_exports(self):
        """It is named by its path, though the line says only that an export can't be read."""
        folder = self.room / "a-folder"
        folder.mkdir(exist_ok=True)
        paths = [self.file("original.edf", bytes_of(NIGHT)), self.file("claim.toml", ALL_OF_IT), self.file("part.edf", bytes_of(FIRST))]
        given = self.run_program("explain-parts", *paths, folder)
        said = sentences.filled(sentences.sentences()["IS_FOLDER"], [str(folder)])
        self.assertEqual((given.status, given.out, given.err.decode()), (2, b"", f"edfclaim: reading export failed\n{said}\n"))

    def test_too_many(self):
        paths = [self.file("original.edf", bytes_of(NIGHT)), self.file("claim.toml", ALL_OF_IT)]
        parts = [self.file("part.edf", bytes_of(FIRST))] * 65
        check, given = self.run_program("check-parts", *paths, *parts), self.run_program("explain-parts", *paths, *parts)
        self.assertEqual((given.status, given.out, given.err), (2, b"", check.err))


if __name__ == "__main__":
    unittest.main()
