"""What else the headers of the night decide: free texts of the annotation signal, negative gain, and a recording date
beside a startdate without a year."""

from tests.cases import check
from tests.cases.small_night import ALL, DATELESS, FOUR, INTO_2099, LAST_OF_2099, NIGHT, YES, dated
from tests.edf import field, signal
from tests.recordings import recording

# The night with a text in the annotation signal.
NOTED = recording(edits=[FOUR, (signal(2, 'prefilter'), 'n/a')], base=NIGHT)

HIGH = (signal(0, 'physical-minimum'), '100')

LOW = (signal(0, 'physical-maximum'), '-100')

# The night with a negative gain of its first channel.
TURNED = recording(edits=[FOUR, HIGH, LOW], base=NIGHT)

# The same line by other extremes: half of the digital values.
HALF_TURNED = recording(
    edits=[FOUR, HIGH, (signal(0, 'physical-maximum'), '60'), (signal(0, 'digital-maximum'), '-1229')],
    base=NIGHT,
)

RECALIBRATED = 'NO 7 calibration "EEG Fpz-Cz"\n'

ROWS = [
    ('text_in_the_annotation_signal', NIGHT, NOTED, ALL, 'NO 9 not clean header\n'),
    ('text_in_the_annotation_signal_of_both', NOTED, NOTED, ALL, 'NO 9 not clean header\n'),
    ('reserved_without_a_text', NIGHT, recording(edits=[FOUR, (field('reserved'), 'EDF+C')], base=NIGHT), ALL, YES),
    ('gain_turned_in_both', TURNED, TURNED, ALL, YES),
    ('gain_turned_and_half_the_range', TURNED, HALF_TURNED, ALL, YES),
    ('gain_turned_in_the_export', NIGHT, TURNED, ALL, RECALIBRATED),
    ('gain_turned_in_the_original', TURNED, NIGHT, ALL, RECALIBRATED),
]

# The night without its recording date.
NO_DAY = dated('X', '02.03.02')

NOT_X = 'NO 8 subfield date not X\n'

CHANGED = 'NO 8 subfield date changed\n'

# With a startdate without a year the recording date can't be `X`; which day it is, the subfields don't ask.
LATE_ROWS = [
    ('date_to_be_hidden_in_2099', LAST_OF_2099, LAST_OF_2099, DATELESS, NOT_X),
    ('date_not_hidden_in_2099', NO_DAY, LAST_OF_2099, DATELESS, NOT_X),
    ('date_shown_that_was_hidden', NO_DAY, LAST_OF_2099, INTO_2099, CHANGED),
    ('date_hidden_that_was_shown', LAST_OF_2099, NO_DAY, ALL, CHANGED),
    (
        'day_of_2085_for_2099',
        LAST_OF_2099,
        dated('31-DEC-2085', '31.12.yy'),
        ALL,
        'NO 10 sample "ECG" at -441763200000000000000 ps extra\n',
    ),
    ('day_of_2099_for_2085', dated('31-DEC-2085', '31.12.yy'), LAST_OF_2099, ALL, 'NO 10 sample "ECG" at 0 ps missing\n'),
]


def rows():
    """Each check: the original, the export, the claim and the line."""
    for row in ROWS + LATE_ROWS:
        yield check(*row)
