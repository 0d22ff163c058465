"""The worked rows, each on files that are written apart from those of the program."""

from tests.cases import check, check_parts
from tests.cases.small_night import (
    ALL, BLANK_APNEA, DARK, DATELESS, DAY_BEFORE, ENDS, EXCERPT, EXCHANGED, FOUR, FROM_ONE, GAP, INTO_2099,
    INTO_2099_DATELESS, LANE_0, LANE_1, LANE_2, LANE_3, LAST_OF_2099, MIDDLE, NAMELESS, NIGHT, NOBODY, NO_APNEA, NO_EXTRAS,
    ONE, SIX_SECONDS, TWO, UNKNOWN, UNLIT, UNLIT_BY_BEGIN, VALUES_0, VALUES_1, VALUES_2, VALUES_3, WARD, YES, dated,
)
from tests.edf import field, lane, signal, values
from tests.recordings import recording

# Two samples in 1 s; 804 bytes.
SMALL = recording(signals=[3, 4], edits=[], parts=[values([7, -7]), lane(32, b'+0\x14\x14\x00')], length=None)

# Six samples, two in a data record of 2 s.
PAIRS = recording(
    edits=[(field('records'), '3'), (field('duration'), '2')],
    parts=[
        values([1, 2]),
        lane(32, b'+0\x14\x14\x00'),
        values([3, 4]),
        lane(32, b'+2\x14\x14\x00'),
        values([5, 6]),
        lane(32, b'+4\x14\x14\x00'),
    ],
    base=SMALL,
)

# The same, three in a data record of 3 s.
TRIPLES = recording(
    edits=[TWO, (field('duration'), '3'), (signal(0, 'samples'), '3')],
    parts=[values([1, 2, 3]), lane(32, b'+0\x14\x14\x00'), values([4, 5, 6]), lane(32, b'+3\x14\x14\x00')],
    base=SMALL,
)

# Of these the first in each data record.
SPARSE = recording(
    edits=[TWO, (field('duration'), '3'), (signal(0, 'samples'), '1')],
    parts=[values([1]), lane(32, b'+0\x14\x14\x00'), values([4]), lane(32, b'+3\x14\x14\x00')],
    base=SMALL,
)

# Three samples in 1 s.
THIRDS = recording(
    edits=[(signal(0, 'samples'), '3')],
    parts=[values([1, 2, 3]), lane(32, b'+0\x14\x14\x00')],
    base=SMALL,
)

# The same in data records of their own, which start at whole picoseconds.
SPREAD = recording(
    edits=[
        (field('reserved'), 'EDF+D'),
        (field('records'), '3'),
        (field('duration'), '0.1'),
        (signal(0, 'samples'), '1'),
    ],
    parts=[
        values([1]),
        lane(32, b'+0\x14\x14\x00'),
        values([2]),
        lane(32, b'+0.333333333333\x14\x14\x00'),
        values([3]),
        lane(32, b'+0.666666666666\x14\x14\x00'),
    ],
    base=SMALL,
)

# What the samples of the channel `Temp` decide.
TEMP_ROWS = [
    ('itself', SMALL, SMALL, SIX_SECONDS, 'YES channels 1 samples 2 annotations 0\n'),
    ('pairs_as_triples', PAIRS, TRIPLES, SIX_SECONDS, 'YES channels 1 samples 6 annotations 0\n'),
    ('pairs_as_sparse', PAIRS, SPARSE, SIX_SECONDS, 'NO 10 sample "Temp" at 1000000000000 ps missing\n'),
    ('thirds_spread_over_records', THIRDS, SPREAD, SIX_SECONDS, 'NO 10 sample "Temp" at 333333333333 ps extra\n'),
    (
        'thirds_with_another_value',
        THIRDS,
        recording(parts=[values([1, 9, 3]), lane(32, b'+0\x14\x14\x00')], base=THIRDS),
        SIX_SECONDS,
        'NO 10 sample "Temp" at 333333333333 ps original 2 export 9\n',
    ),
]

# What the samples of the night decide.
NIGHT_ROWS = [
    ('itself', NIGHT, NIGHT, ALL, YES),
    ('channels_exchanged', NIGHT, EXCHANGED, ALL, YES),
    ('excerpt', NIGHT, EXCERPT, MIDDLE, 'YES channels 2 samples 12 annotations 1\n'),
    (
        'excerpt_with_a_second_more',
        NIGHT,
        recording(
            edits=[
                (field('records'), '3'),
                NOBODY,
                DAY_BEFORE,
                (field('startdate'), '01.03.02'),
                (field('starttime'), '22.00.01'),
            ],
            parts=[VALUES_1, FROM_ONE, VALUES_2, lane(40, b'+1\x14\x14\x00'), VALUES_3, lane(40, b'+2\x14\x14\x00')],
            base=EXCERPT,
        ),
        MIDDLE,
        'NO 10 sample "ECG" at 3000000000000 ps extra\n',
    ),
    ('gap', NIGHT, GAP, ENDS, 'YES channels 2 samples 12 annotations 2\n'),
    (
        'gap_said_to_be_contiguous',
        NIGHT,
        recording(edits=[TWO], base=GAP),
        ENDS,
        'NO 2 export fault: NotContiguous at record 1\n',
    ),
    (
        'another_value_of_the_eeg',
        NIGHT,
        recording(
            parts=[values([0, 10, 20, 31, 100, 101]), LANE_0, VALUES_1, LANE_1, VALUES_2, LANE_2, VALUES_3, LANE_3],
            base=NIGHT,
        ),
        ALL,
        'NO 10 sample "EEG Fpz-Cz" at 750000000000 ps original 30 export 31\n',
    ),
    (
        'another_value_of_both',
        NIGHT,
        recording(
            parts=[VALUES_0, LANE_0, VALUES_1, LANE_1, values([80, 90, 100, 0, 104, 104]), LANE_2, VALUES_3, LANE_3],
            base=NIGHT,
        ),
        ALL,
        'NO 10 sample "ECG" at 2500000000000 ps original 105 export 104\n',
    ),
]

# The night without its recording date.
NO_DAY = recording(edits=[FOUR, (field('recording'), 'Startdate X PSG-1234/2002 NN Telemetry03')], base=NIGHT)

# What the calibrations, subfields and dates decide.
HEADER_ROWS = [
    (
        'extremes_spelled_otherwise',
        NIGHT,
        recording(
            edits=[FOUR, (signal(0, 'physical-minimum'), '-100.0'), (signal(0, 'physical-maximum'), '100.00')],
            base=NIGHT,
        ),
        ALL,
        YES,
    ),
    (
        'half_of_the_range',
        NIGHT,
        recording(
            edits=[FOUR, (signal(0, 'physical-maximum'), '-60'), (signal(0, 'digital-maximum'), '-1229')],
            base=NIGHT,
        ),
        ALL,
        YES,
    ),
    (
        'extreme_a_hair_higher',
        NIGHT,
        recording(edits=[FOUR, (signal(0, 'physical-maximum'), '100.0001')], base=NIGHT),
        ALL,
        'NO 7 calibration "EEG Fpz-Cz"\n',
    ),
    (
        'both_extremes_a_step_higher',
        NIGHT,
        recording(
            edits=[FOUR, (signal(0, 'physical-minimum'), '-99'), (signal(0, 'physical-maximum'), '101')],
            base=NIGHT,
        ),
        ALL,
        'NO 7 calibration "EEG Fpz-Cz"\n',
    ),
    ('name_left', NIGHT, NIGHT, NAMELESS, 'NO 8 subfield name not X\n'),
    (
        'sex_changed',
        NIGHT,
        recording(edits=[FOUR, (field('patient'), 'MCH-0234567 X 02-MAY-1951 Haagse_Harry')], base=NIGHT),
        ALL,
        'NO 8 subfield sex changed\n',
    ),
    ('patient_extras_left_out', WARD, NIGHT, NO_EXTRAS, YES),
    ('patient_extras_left', WARD, WARD, NO_EXTRAS, 'NO 8 subfield patient-extras not X\n'),
    ('patient_extras_lost', WARD, NIGHT, ALL, 'NO 8 subfield patient-extras changed\n'),
    ('date_hidden', NIGHT, NO_DAY, DATELESS, YES),
    ('date_hidden_and_not_claimed', NIGHT, NO_DAY, ALL, 'NO 8 subfield date changed\n'),
    (
        'excerpt_of_another_recording_date',
        NIGHT,
        recording(
            edits=[TWO, NOBODY, (field('startdate'), '01.03.02'), (field('starttime'), '22.00.01')],
            base=EXCERPT,
        ),
        MIDDLE,
        'NO 2 export fault: StartdateDiffers at header field startdate\n',
    ),
]

# What the free texts, the channels and their texts decide.
CHANNEL_ROWS = [
    (
        'free_text_of_the_header',
        NIGHT,
        recording(edits=[FOUR, (field('reserved'), 'EDF+C by J')], base=NIGHT),
        ALL,
        'NO 9 not clean header\n',
    ),
    (
        'free_text_of_a_channel',
        NIGHT,
        recording(edits=[FOUR, (signal(1, 'reserved'), 'room 4')], base=NIGHT),
        ALL,
        'NO 9 not clean "ECG"\n',
    ),
    (
        'free_texts_of_the_original_alone',
        recording(
            edits=[FOUR, (signal(1, 'reserved'), 'room 4'), (signal(2, 'prefilter'), 'n/a')],
            base=NIGHT,
        ),
        NIGHT,
        ALL,
        YES,
    ),
    ('channel_too_many', NIGHT, NIGHT, ONE, 'NO 5 extra channel "EEG Fpz-Cz"\n'),
    (
        'channel_missing',
        NIGHT,
        recording(
            signals=[0, 2],
            edits=[FOUR],
            parts=[
                values([0, 10, 20, 30]),
                LANE_0,
                values([40, 50, 60, 70]),
                LANE_1,
                values([80, 90, 100, 110]),
                LANE_2,
                values([120, 130, 140, 150]),
                LANE_3,
            ],
            length=None,
        ),
        ALL,
        'NO 4 missing channel "ECG"\n',
    ),
    (
        'another_prefilter',
        NIGHT,
        recording(edits=[FOUR, (signal(1, 'prefilter'), 'HP:1Hz')], base=NIGHT),
        ALL,
        'NO 6 channel text "ECG" prefilter\n',
    ),
    ('unknown_channel', NIGHT, NIGHT, UNKNOWN, 'NO 3 unknown channel "EMG"\n'),
]

# What the annotations decide.
NOTE_ROWS = [
    (
        'annotation_in_another_record',
        NIGHT,
        recording(
            parts=[
                VALUES_0,
                LANE_0,
                VALUES_1,
                lane(40, b'+1\x14\x14\x00'),
                VALUES_2,
                LANE_2,
                VALUES_3,
                lane(40, b'+3\x14\x14\x00+3\x14Apnea\x14\x00+1.50\x151\x14Apnea\x14\x00'),
            ],
            base=NIGHT,
        ),
        ALL,
        YES,
    ),
    (
        'annotation_once_of_two',
        recording(
            parts=[
                VALUES_0,
                LANE_0,
                VALUES_1,
                lane(40, b'+1\x14\x14\x00+1.5\x151\x14Apnea\x14\x00+1.5\x151\x14Apnea\x14\x00'),
                VALUES_2,
                LANE_2,
                VALUES_3,
                LANE_3,
            ],
            base=NIGHT,
        ),
        NIGHT,
        ALL,
        'NO 11 annotation missing at 1500000000000 ps duration 1000000000000 ps text "Apnea"\n',
    ),
    (
        'annotation_removed_and_left',
        NIGHT,
        NIGHT,
        DARK,
        'NO 11 annotation extra at 500000000000 ps duration none text "Lights off"\n',
    ),
]

# The night with another first sample, and a last text that isn't UTF-8.
BAD_TEXT = recording(
    parts=[
        values([1, 10, 20, 30, 100, 101]),
        LANE_0,
        VALUES_1,
        LANE_1,
        VALUES_2,
        LANE_2,
        VALUES_3,
        lane(40, b'+3\x14\x14\x00+3\x14\xffpnea\x14\x00'),
    ],
    base=NIGHT,
)

# What a fault decides.
FAULT_ROWS = [
    ('export_a_byte_short', NIGHT, recording(length=1231, base=NIGHT), ALL, 'NO 2 export fault: Truncated at record 3\n'),
    (
        'export_a_byte_long',
        NIGHT,
        recording(
            parts=[VALUES_0, LANE_0, VALUES_1, LANE_1, VALUES_2, LANE_2, VALUES_3, LANE_3, lane(1, b'\x00')],
            base=NIGHT,
        ),
        ALL,
        'NO 2 export fault: TrailingBytes at end\n',
    ),
    (
        'original_empty',
        recording(length=0, base=NIGHT),
        NIGHT,
        ALL,
        'NO 1 original fault: Truncated at header field version\n',
    ),
    (
        'export_ends_in_its_columns',
        NIGHT,
        recording(length=300, base=NIGHT),
        ALL,
        'NO 2 export fault: Truncated at signal 2 field label\n',
    ),
    ('text_not_utf8', NIGHT, BAD_TEXT, ALL, 'NO 2 export fault: BadTal(NotUtf8) at record 3\n'),
    (
        'fault_of_both_is_the_originals',
        recording(edits=[(field('records'), '-1')], base=NIGHT),
        BAD_TEXT,
        ALL,
        'NO 1 original fault: BadRange at header field records\n',
    ),
    (
        'startdate_without_a_year_before_2085',
        NIGHT,
        recording(edits=[FOUR, (field('startdate'), '02.03.yy')], base=NIGHT),
        ALL,
        'NO 2 export fault: BadStart at header field startdate\n',
    ),
]

# What the texts of annotations decide that a claim of format 2 blanks, or removes by their begin.
TEXT_ROWS = [
    (
        'text_not_blanked',
        NIGHT,
        NIGHT,
        BLANK_APNEA,
        'NO 11 annotation extra at 1500000000000 ps duration 1000000000000 ps text "Apnea"\n',
    ),
    (
        'texts_blanked',
        NIGHT,
        recording(
            parts=[
                VALUES_0,
                LANE_0,
                VALUES_1,
                lane(40, b'+1\x14\x14\x00+1.5\x151\x14X\x14\x00'),
                VALUES_2,
                LANE_2,
                VALUES_3,
                lane(40, b'+3\x14\x14\x00+3\x14X\x14\x00'),
            ],
            base=NIGHT,
        ),
        BLANK_APNEA,
        YES,
    ),
    (
        'text_not_removed_by_its_begin',
        NIGHT,
        NIGHT,
        UNLIT_BY_BEGIN,
        'NO 11 annotation extra at 500000000000 ps duration none text "Lights off"\n',
    ),
    ('text_removed_by_its_begin', NIGHT, UNLIT, UNLIT_BY_BEGIN, 'YES channels 2 samples 24 annotations 2\n'),
    (
        'text_removed_and_blanked',
        NIGHT,
        recording(
            parts=[
                VALUES_0,
                LANE_0,
                VALUES_1,
                lane(40, b'+1\x14\x14\x00'),
                VALUES_2,
                LANE_2,
                VALUES_3,
                lane(40, b'+3\x14\x14\x00'),
            ],
            base=NIGHT,
        ),
        NO_APNEA,
        'YES channels 2 samples 24 annotations 1\n',
    ),
]

# What a startdate decides that has the letters `yy` in the place of its year.
LATE_ROWS = [
    ('last_day_of_2099_as_itself', LAST_OF_2099, LAST_OF_2099, ALL, YES),
    ('moved_to_the_last_day_of_2099', NIGHT, LAST_OF_2099, INTO_2099, YES),
    (
        'no_recording_date_in_2099',
        NIGHT,
        dated('X', '31.12.yy'),
        INTO_2099_DATELESS,
        'NO 2 export fault: BadStart at header field startdate\n',
    ),
    (
        'another_day_of_2099',
        LAST_OF_2099,
        dated('30-DEC-2099', '31.12.yy'),
        ALL,
        'NO 2 export fault: StartdateDiffers at header field startdate\n',
    ),
    (
        'year_of_two_digits_in_2099',
        LAST_OF_2099,
        dated('31-DEC-2099', '31.12.99'),
        ALL,
        'NO 2 export fault: StartdateDiffers at header field startdate\n',
    ),
]


# The first two seconds of the night.
FIRST_HALF = recording(edits=[TWO], parts=[VALUES_0, LANE_0, VALUES_1, LANE_1], base=NIGHT)

LATER = (field('starttime'), '22.00.02')

# Its last two seconds.
SECOND_HALF = recording(
    edits=[TWO, LATER],
    parts=[VALUES_2, lane(40, b'+0\x14\x14\x00'), VALUES_3, lane(40, b'+1\x14\x14\x00+1\x14Apnea\x14\x00')],
    base=NIGHT,
)

# What several exports of the night decide, one after the other.
PARTS_ROWS = [
    ('whole_as_one_part', [NIGHT], 'YES parts 1 channels 2 samples 24 annotations 3\n'),
    ('two_halves', [FIRST_HALF, SECOND_HALF], 'YES parts 2 channels 2 samples 24 annotations 3\n'),
    ('halves_exchanged', [SECOND_HALF, FIRST_HALF], 'NO 12 part 1 starts early\n'),
    ('first_half_twice', [FIRST_HALF, FIRST_HALF], 'NO 12 part 1 starts early\n'),
    ('first_half_alone', [FIRST_HALF], 'NO 10 sample "ECG" at 2000000000000 ps missing\n'),
    (
        'second_half_a_byte_short',
        [FIRST_HALF, recording(length=1127, base=SECOND_HALF)],
        'NO 2 part 1 export fault: Truncated at record 1\n',
    ),
    (
        'second_half_of_another_sex',
        [
            FIRST_HALF,
            recording(edits=[TWO, LATER, (field('patient'), 'MCH-0234567 X 02-MAY-1951 Haagse_Harry')], base=SECOND_HALF),
        ],
        'NO 8 part 1 subfield sex changed\n',
    ),
]


# The tables of checks of one export, by what decides.
TABLES = {
    "temp": TEMP_ROWS, "night": NIGHT_ROWS, "header": HEADER_ROWS, "channel": CHANNEL_ROWS, "note": NOTE_ROWS,
    "fault": FAULT_ROWS, "text": TEXT_ROWS, "late": LATE_ROWS,
}


def rows():
    """Each check: the original, the export, the claim and the line; of several exports the claim stands before them."""
    for front, table in TABLES.items():
        for name, *row in table:
            yield check(f"{front}_{name}", *row)
    for name, exports, line in PARTS_ROWS:
        yield check_parts(f"parts_{name}", NIGHT, ALL, exports, line)
