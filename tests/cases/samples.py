"""What the instants of the samples decide beside the worked rows: other starts, gaps and shifts."""

from tests.cases import check
from tests.cases.small_night import (
    ALL, ENDS, EXCERPT, FOUR, FROM_ONE, GAP, INTERRUPTED, MIDDLE, NIGHT, NOBODY, SIX_SECONDS, TWO, VALUES_1, VALUES_2, YES,
)
from tests.edf import field, lane, signal, values
from tests.recordings import recording

# The night, a second earlier.
EARLIER = recording(edits=[FOUR, (field('starttime'), '21.59.59')], base=NIGHT)

# Three samples of `Temp` in 1 s.
THIRDS = recording(
    signals=[3, 4],
    edits=[(signal(0, 'samples'), '3')],
    parts=[values([1, 2, 3]), lane(32, b'+0\x14\x14\x00')],
    length=None,
)

# The same, two thirds of a second earlier, up to a picosecond.
THIRDS_EARLIER = recording(
    edits=[(field('starttime'), '21.59.59'), (signal(0, 'samples'), '3')],
    parts=[values([1, 2, 3]), lane(32, b'+0.333333333333\x14\x14\x00')],
    base=THIRDS,
)

# An export that starts before its original.
START_ROWS = [
    ('export_a_second_early', NIGHT, EARLIER, ALL, 'NO 10 sample "ECG" at -1000000000000 ps extra\n'),
    (
        'export_two_thirds_of_a_second_early',
        THIRDS,
        THIRDS_EARLIER,
        SIX_SECONDS,
        'NO 10 sample "Temp" at -666666666667 ps extra\n',
    ),
    ('original_a_second_early', EARLIER, NIGHT, ALL, 'NO 10 sample "ECG" at 0 ps missing\n'),
]

# The night, said to be interrupted.
UNBROKEN = recording(edits=[FOUR, INTERRUPTED], base=NIGHT)

BOTH = '["EEG Fpz-Cz", "ECG"]'

HALVES = (BOTH, '', [('0', '2'), ('2', '4')])

# Interrupted files, and claims of two intervals.
GAP_ROWS = [
    ('export_said_to_be_interrupted', NIGHT, UNBROKEN, ALL, YES),
    ('original_said_to_be_interrupted', UNBROKEN, NIGHT, ALL, YES),
    ('two_intervals_that_touch', NIGHT, NIGHT, HALVES, YES),
    ('gap_in_both', GAP, GAP, ALL, 'YES channels 2 samples 12 annotations 2\n'),
    ('gap_in_both_and_kept_so', GAP, GAP, ENDS, 'YES channels 2 samples 12 annotations 2\n'),
    ('gap_filled', GAP, NIGHT, ALL, 'NO 10 sample "ECG" at 1000000000000 ps extra\n'),
    ('gap_not_claimed', NIGHT, GAP, ALL, 'NO 10 sample "ECG" at 1000000000000 ps missing\n'),
    ('gap_claimed_and_not_there', NIGHT, NIGHT, ENDS, 'NO 10 sample "ECG" at 1000000000000 ps extra\n'),
]

# The second and third second of the night, anonymous and a day later.
NEXT_DAY = recording(
    edits=[
        TWO,
        NOBODY,
        (field('recording'), 'Startdate 03-MAR-2002 PSG-1234/2002 NN Telemetry03'),
        (field('startdate'), '03.03.02'),
        (field('starttime'), '22.00.01'),
    ],
    parts=[VALUES_1, FROM_ONE, VALUES_2, lane(40, b'+1\x14\x14\x00')],
    base=NIGHT,
)

LATER = (BOTH, 'anonymous = ["code", "birthdate", "name"]\nshift = 86400', [('1', '3')])

UNMOVED = (BOTH, 'anonymous = ["code", "birthdate", "name"]', [('1', '3')])

SHIFT_ROWS = [
    ('day_later', NIGHT, NEXT_DAY, LATER, 'YES channels 2 samples 12 annotations 1\n'),
    ('day_later_than_claimed_earlier', NIGHT, NEXT_DAY, MIDDLE, 'NO 10 sample "ECG" at 1000000000000 ps missing\n'),
    ('day_earlier_and_not_claimed', NIGHT, EXCERPT, UNMOVED, 'NO 10 sample "ECG" at -86399000000000000 ps extra\n'),
    ('day_earlier_than_claimed_later', NIGHT, EXCERPT, LATER, 'NO 10 sample "ECG" at -172799000000000000 ps extra\n'),
]


def rows():
    """Each check: the original, the export, the claim and the line."""
    for row in START_ROWS + GAP_ROWS + SHIFT_ROWS:
        yield check(*row)
