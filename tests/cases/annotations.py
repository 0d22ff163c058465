"""What the annotations of the night decide beside the worked rows."""

from tests.cases import check
from tests.cases.small_night import (
    ALL, DARK, FOUR, LANE_0, LANE_1, LANE_2, LANE_3, NIGHT, UNLIT, VALUES_0, VALUES_1, VALUES_2, VALUES_3, YES,
)
from tests.edf import lane
from tests.recordings import recording

# The night with an annotation before its start.
EARLY = recording(
    parts=[
        VALUES_0,
        lane(40, b'+0\x14\x14\x00-0.5\x14Alarm\x14\x00+0.5\x14Lights off\x14\x00'),
        VALUES_1,
        LANE_1,
        VALUES_2,
        LANE_2,
        VALUES_3,
        LANE_3,
    ],
    base=NIGHT,
)

# No interval begins before 0 s, so the annotation is kept nowhere.
EARLY_ROWS = [
    ('before_the_start_and_left_out', EARLY, NIGHT, ALL, YES),
    (
        'before_the_start_and_left',
        EARLY,
        EARLY,
        ALL,
        'NO 11 annotation extra at -500000000000 ps duration none text "Alarm"\n',
    ),
    (
        'before_the_start_in_the_export_alone',
        NIGHT,
        EARLY,
        ALL,
        'NO 11 annotation extra at -500000000000 ps duration none text "Alarm"\n',
    ),
]

# The night with an annotation that has no duration.
BARE = recording(
    parts=[VALUES_0, LANE_0, VALUES_1, LANE_1, VALUES_2, lane(40, b'+2\x14\x14\x00+2.5\x14x\x14\x00'), VALUES_3, LANE_3],
    base=NIGHT,
)

# The same with a duration of 0 s.
MOMENT = recording(
    parts=[
        VALUES_0,
        LANE_0,
        VALUES_1,
        LANE_1,
        VALUES_2,
        lane(40, b'+2\x14\x14\x00+2.5\x150\x14x\x14\x00'),
        VALUES_3,
        LANE_3,
    ],
    base=NIGHT,
)

# The night with both.
TWINS = recording(
    parts=[
        VALUES_0,
        LANE_0,
        VALUES_1,
        LANE_1,
        VALUES_2,
        lane(40, b'+2\x14\x14\x00+2.5\x150\x14x\x14\x00+2.5\x14x\x14\x00'),
        VALUES_3,
        LANE_3,
    ],
    base=NIGHT,
)

NO_DURATION_MISSING = 'NO 11 annotation missing at 2500000000000 ps duration none text "x"\n'

# No duration comes before a duration of 0 s, and isn't the same.
DURATION_ROWS = [
    ('twins', TWINS, TWINS, ALL, 'YES channels 2 samples 24 annotations 5\n'),
    ('twins_without_the_bare_one', TWINS, MOMENT, ALL, NO_DURATION_MISSING),
    ('twins_without_both', TWINS, NIGHT, ALL, NO_DURATION_MISSING),
    ('bare_with_a_duration_of_nothing', BARE, MOMENT, ALL, NO_DURATION_MISSING),
    (
        'twins_without_the_duration_of_nothing',
        TWINS,
        BARE,
        ALL,
        'NO 11 annotation missing at 2500000000000 ps duration 0 ps text "x"\n',
    ),
    (
        'duration_of_nothing_as_bare',
        MOMENT,
        BARE,
        ALL,
        'NO 11 annotation extra at 2500000000000 ps duration none text "x"\n',
    ),
]

# The night with a text that isn't printed as it stands.
ODD = recording(
    parts=[
        VALUES_0,
        LANE_0,
        VALUES_1,
        LANE_1,
        VALUES_2,
        lane(40, b'+2\x14\x14\x00+2.5\x14a\tb\n\r\x7f"\\\xc3\xa9\x14\x00'),
        VALUES_3,
        LANE_3,
    ],
    base=NIGHT,
)

TEXT_ROWS = [
    (
        'odd_text_missing',
        ODD,
        NIGHT,
        ALL,
        'NO 11 annotation missing at 2500000000000 ps duration none text "a\\x09b\\x0a\\x0d\\x7f\\x22\\x5cé"\n',
    ),
    ('odd_text_in_both', ODD, ODD, ALL, 'YES channels 2 samples 24 annotations 4\n'),
    ('removed_text', NIGHT, UNLIT, DARK, 'YES channels 2 samples 24 annotations 2\n'),
    (
        'removed_text_and_not_claimed',
        NIGHT,
        UNLIT,
        ALL,
        'NO 11 annotation missing at 500000000000 ps duration none text "Lights off"\n',
    ),
]

BLANK = lane(32, b'')

# The night with a second annotation signal, which is blank.
BLANK_SECOND = recording(
    signals=[0, 1, 2, 4],
    edits=[FOUR],
    parts=[VALUES_0, LANE_0, BLANK, VALUES_1, LANE_1, BLANK, VALUES_2, LANE_2, BLANK, VALUES_3, LANE_3, BLANK],
    length=None,
)

# The same with the last annotation in the second signal.
MOVED = recording(
    parts=[
        VALUES_0,
        LANE_0,
        BLANK,
        VALUES_1,
        LANE_1,
        BLANK,
        VALUES_2,
        LANE_2,
        BLANK,
        VALUES_3,
        lane(40, b'+3\x14\x14\x00'),
        lane(32, b'+3\x14Apnea\x14\x00'),
    ],
    base=BLANK_SECOND,
)

# The same with one annotation more, in the second signal.
COUGH = recording(
    parts=[
        VALUES_0,
        LANE_0,
        BLANK,
        VALUES_1,
        LANE_1,
        lane(32, b'+1.25\x14Cough\x14\x00'),
        VALUES_2,
        LANE_2,
        BLANK,
        VALUES_3,
        LANE_3,
        BLANK,
    ],
    base=BLANK_SECOND,
)

SECOND_ROWS = [
    ('second_signal_blank', NIGHT, BLANK_SECOND, ALL, YES),
    ('second_signal_blank_in_the_original', BLANK_SECOND, NIGHT, ALL, YES),
    ('annotation_moved_to_the_second_signal', NIGHT, MOVED, ALL, YES),
    ('annotation_in_the_second_signal', COUGH, COUGH, ALL, 'YES channels 2 samples 24 annotations 4\n'),
    (
        'annotation_added_in_the_second_signal',
        NIGHT,
        COUGH,
        ALL,
        'NO 11 annotation extra at 1250000000000 ps duration none text "Cough"\n',
    ),
    (
        'annotation_lost_from_the_second_signal',
        COUGH,
        NIGHT,
        ALL,
        'NO 11 annotation missing at 1250000000000 ps duration none text "Cough"\n',
    ),
]


def rows():
    """Each check: the original, the export, the claim and the line."""
    for row in EARLY_ROWS + DURATION_ROWS + TEXT_ROWS + SECOND_ROWS:
        yield check(*row)
