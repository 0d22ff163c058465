"""Cuts that begin past midnight, shifts as far as they go, into the years after 2084 and out of them, and a claim that
keeps no sample."""

from tests.cases import check
from tests.cases.small_night import ALL, FROM_ONE, LAST_OF_2099, NIGHT, TWO, VALUES_1, VALUES_2, YES, dated
from tests.edf import field, lane
from tests.recordings import recording

# The night, from a second before midnight on.
LATE = recording(edits=[(field('records'), '4'), (field('starttime'), '23.59.59')], base=NIGHT)

# Its second and third second: they begin on the day after.
AFTER_MIDNIGHT = recording(
    edits=[
        TWO,
        (field('recording'), 'Startdate 03-MAR-2002 PSG-1234/2002 NN Telemetry03'),
        (field('startdate'), '03.03.02'),
        (field('starttime'), '00.00.00'),
    ],
    parts=[VALUES_1, FROM_ONE, VALUES_2, lane(40, b'+1\x14\x14\x00')],
    base=NIGHT,
)

# The same on the day of the night.
DAY_TOO_EARLY = recording(edits=[TWO, (field('starttime'), '00.00.00')], base=AFTER_MIDNIGHT)

BOTH = '["EEG Fpz-Cz", "ECG"]'

# The second and third second as they are.
CUT = (BOTH, '', [('1', '3')])

# What is later than the end.
NOTHING = (BOTH, '', [('5', '6')])

FAR_ON = (BOTH, 'shift = 10000000000', [('0', '4')])

FAR_BACK = (BOTH, 'shift = -10000000000', [('0', '4')])

ROWS = [
    ('cut_past_midnight', LATE, AFTER_MIDNIGHT, CUT, 'YES channels 2 samples 12 annotations 1\n'),
    ('cut_past_midnight_on_the_day_before', LATE, DAY_TOO_EARLY, CUT, 'NO 10 sample "ECG" at -86399000000000000 ps extra\n'),
    ('nothing_kept', NIGHT, NIGHT, NOTHING, 'NO 10 sample "ECG" at 0 ps extra\n'),
    ('as_far_on_as_may_be', NIGHT, NIGHT, FAR_ON, 'NO 10 sample "ECG" at -10000000000000000000000 ps extra\n'),
    ('as_far_back_as_may_be', NIGHT, NIGHT, FAR_BACK, 'NO 10 sample "ECG" at 0 ps missing\n'),
]

# The night from the last second of 2084 on.
LAST_OF_2084 = dated('31-DEC-2084', '31.12.84', '23.59.59')

CUT_DATELESS = (BOTH, 'anonymous = ["date"]', [('1', '3')])

CUT_YES = 'YES channels 2 samples 12 annotations 1\n'

BAD_START = 'NO 2 export fault: BadStart at header field startdate\n'

DIFFERS = 'NO 2 export fault: StartdateDiffers at header field startdate\n'

# Cuts that begin on the day after, in 2085 or later. The digits 85 say 1985, which is a hundred years earlier.
LATE_CUTS = [
    ('into_2085', LAST_OF_2084, dated('01-JAN-2085', '01.01.yy', '00.00.00', AFTER_MIDNIGHT), CUT, CUT_YES),
    ('into_2085_by_digits', LAST_OF_2084, dated('01-JAN-2085', '01.01.85', '00.00.00', AFTER_MIDNIGHT), CUT, DIFFERS),
    (
        'into_2085_on_the_day_before',
        LAST_OF_2084,
        dated('31-DEC-2084', '31.12.yy', '00.00.00', AFTER_MIDNIGHT),
        CUT,
        BAD_START,
    ),
    (
        'into_2085_by_letters_without_a_date',
        LAST_OF_2084,
        dated('X', '01.01.yy', '00.00.00', AFTER_MIDNIGHT),
        CUT_DATELESS,
        BAD_START,
    ),
    (
        'into_1985_without_a_date',
        LAST_OF_2084,
        dated('X', '01.01.85', '00.00.00', AFTER_MIDNIGHT),
        CUT_DATELESS,
        'NO 10 sample "ECG" at -3155759999000000000000 ps extra\n',
    ),
    (
        'into_2100',
        dated('31-DEC-2099', '31.12.yy', '23.59.59'),
        dated('01-JAN-2100', '01.01.yy', '00.00.00', AFTER_MIDNIGHT),
        CUT,
        CUT_YES,
    ),
    (
        'into_a_leap_day_of_2096',
        dated('28-FEB-2096', '28.02.yy', '23.59.59'),
        dated('29-FEB-2096', '29.02.yy', '00.00.00', AFTER_MIDNIGHT),
        CUT,
        CUT_YES,
    ),
    (
        'past_a_day_that_2100_lacks',
        dated('28-FEB-2100', '28.02.yy', '23.59.59'),
        dated('01-MAR-2100', '01.03.yy', '00.00.00', AFTER_MIDNIGHT),
        CUT,
        CUT_YES,
    ),
    (
        'past_a_day_that_2100_lacks_on_the_day_before',
        dated('28-FEB-2100', '28.02.yy', '23.59.59'),
        dated('28-FEB-2100', '01.03.yy', '00.00.00', AFTER_MIDNIGHT),
        CUT,
        DIFFERS,
    ),
]

# The night as far on as a shift can move it, and the night on the last day of all.
FAR_LATER = dated('21-JAN-2319', '21.01.yy', '15.46.40')

LAST_DAY = dated('31-DEC-9999', '31.12.yy')

OUT_OF_2099 = (BOTH, 'shift = -3087331200', [('0', '4')])

OUT_OF_2099_DATELESS = (BOTH, 'anonymous = ["date"]\nshift = -3087331200', [('0', '4')])

SECOND_MORE = (BOTH, 'shift = 3087331201', [('0', '4')])

# Shifts into the years after 2084, out of them, and between them.
LATE_SHIFTS = [
    ('into_2085_by_days', NIGHT, dated('02-MAR-2085', '02.03.yy'), (BOTH, 'shift = 2619302400', [('0', '4')]), YES),
    ('to_the_last_day_of_2084', NIGHT, dated('31-DEC-2084', '31.12.84'), (BOTH, 'shift = 2614032000', [('0', '4')]), YES),
    ('a_second_more_than_claimed', NIGHT, LAST_OF_2099, SECOND_MORE, 'NO 10 sample "ECG" at -1000000000000 ps extra\n'),
    ('not_claimed', NIGHT, LAST_OF_2099, ALL, 'NO 10 sample "ECG" at 0 ps missing\n'),
    ('not_claimed_back', LAST_OF_2099, NIGHT, ALL, 'NO 10 sample "ECG" at -3087331200000000000000 ps extra\n'),
    ('out_of_2099', LAST_OF_2099, NIGHT, OUT_OF_2099, YES),
    ('out_of_2099_without_a_date', LAST_OF_2099, dated('X', '02.03.02'), OUT_OF_2099_DATELESS, YES),
    ('out_of_2099_by_letters_without_a_date', LAST_OF_2099, dated('X', '02.03.yy'), OUT_OF_2099_DATELESS, BAD_START),
    ('as_far_on_as_a_shift_goes', NIGHT, FAR_LATER, FAR_ON, YES),
    ('as_far_back_from_there', FAR_LATER, NIGHT, FAR_BACK, YES),
    ('last_day_of_all', LAST_DAY, LAST_DAY, ALL, YES),
    ('as_far_back_from_the_last_day', LAST_DAY, dated('10-FEB-9683', '10.02.yy', '04.13.20'), FAR_BACK, YES),
]


def rows():
    """Each check: the original, the export, the claim and the line."""
    for row in ROWS + LATE_CUTS + LATE_SHIFTS:
        yield check(*row)
