"""The night, and cuts of it: 4 s of two channels and three annotations."""

from tests.edf import field, lane, signal, values
from tests.recordings import recording

# The four data records of the night: the samples of both channels, then the lane.
VALUES_0 = values([0, 10, 20, 30, 100, 101])

VALUES_1 = values([40, 50, 60, 70, 102, 103])

VALUES_2 = values([80, 90, 100, 110, 104, 105])

VALUES_3 = values([120, 130, 140, 150, 106, 107])

LANE_0 = lane(40, b'+0\x14\x14\x00+0.5\x14Lights off\x14\x00')

LANE_1 = lane(40, b'+1\x14\x14\x00+1.5\x151\x14Apnea\x14\x00')

LANE_2 = lane(40, b'+2\x14\x14\x00')

LANE_3 = lane(40, b'+3\x14\x14\x00+3\x14Apnea\x14\x00')

# The night; 1,232 bytes.
NIGHT = recording(
    signals=[0, 1, 2],
    edits=[(field('records'), '4')],
    parts=[VALUES_0, LANE_0, VALUES_1, LANE_1, VALUES_2, LANE_2, VALUES_3, LANE_3],
    length=None,
)

FOUR = (field('records'), '4')

TWO = (field('records'), '2')

INTERRUPTED = (field('reserved'), 'EDF+D')

# The same in two data records, the second channel first.
EXCHANGED = recording(
    signals=[1, 0, 2],
    edits=[TWO, (field('duration'), '2'), (signal(0, 'samples'), '4'), (signal(1, 'samples'), '8')],
    parts=[
        values([100, 101, 102, 103]),
        values([0, 10, 20, 30, 40, 50, 60, 70]),
        lane(40, b'+0\x14\x14\x00+0.5\x14Lights off\x14\x00+1.5\x151\x14Apnea\x14\x00'),
        values([104, 105, 106, 107]),
        values([80, 90, 100, 110, 120, 130, 140, 150]),
        lane(40, b'+2\x14\x14\x00+3\x14Apnea\x14\x00'),
    ],
    length=None,
)

NOBODY = (field('patient'), 'X F X X')

DAY_BEFORE = (field('recording'), 'Startdate 01-MAR-2002 PSG-1234/2002 NN Telemetry03')

# The first lane of its second and third second.
FROM_ONE = lane(40, b'+0\x14\x14\x00+0.5\x151\x14Apnea\x14\x00')

# Its second and third second, anonymous and a day earlier.
EXCERPT = recording(
    edits=[TWO, NOBODY, DAY_BEFORE, (field('startdate'), '01.03.02'), (field('starttime'), '22.00.01')],
    parts=[VALUES_1, FROM_ONE, VALUES_2, lane(40, b'+1\x14\x14\x00')],
    base=NIGHT,
)

# Its first and its last second.
GAP = recording(edits=[TWO, INTERRUPTED], parts=[VALUES_0, LANE_0, VALUES_3, LANE_3], base=NIGHT)

# The night with an additional subfield of the patient.
WARD = recording(edits=[FOUR, (field('patient'), 'MCH-0234567 F 02-MAY-1951 Haagse_Harry Ward7')], base=NIGHT)


def dated(date, startdate, starttime="22.00.00", base=NIGHT):
    """The night, or a cut of it, with another recording date and another start."""
    edits = [
        (field("recording"), f"Startdate {date} PSG-1234/2002 NN Telemetry03"),
        (field("startdate"), startdate),
        (field("starttime"), starttime),
    ]
    return recording(edits=[*base["edits"], *edits], base=base)


# The night on the last day of 2099: after 2084 a startdate has no year.
LAST_OF_2099 = dated('31-DEC-2099', '31.12.yy')

# The night without its first annotation.
UNLIT = recording(
    parts=[VALUES_0, lane(40, b'+0\x14\x14\x00'), VALUES_1, LANE_1, VALUES_2, LANE_2, VALUES_3, LANE_3],
    base=NIGHT,
)

BOTH = '["EEG Fpz-Cz", "ECG"]'

# Both channels, for 4 s.
ALL = (BOTH, '', [('0', '4')])

# The second and third second, anonymous and a day earlier.
MIDDLE = (BOTH, 'anonymous = ["code", "birthdate", "name"]\nshift = -86400', [('1', '3')])

# The first and the last second.
ENDS = (BOTH, '', [('0', '1'), ('3', '4')])

NAMELESS = (BOTH, 'anonymous = ["name"]', [('0', '4')])

NO_EXTRAS = (BOTH, 'anonymous = ["patient-extras"]', [('0', '4')])

DATELESS = (BOTH, 'anonymous = ["date"]', [('0', '4')])

DARK = (BOTH, 'remove = ["Lights off"]', [('0', '4')])

# Of format 2: `X` in the place of each text `Apnea`.
BLANK_APNEA = (BOTH, 'blank = ["Apnea"]', [('0', '4')], 2)

# Of format 2: no annotation whose text begins with `Lights`.
UNLIT_BY_BEGIN = (BOTH, 'remove-prefix = ["Lights"]', [('0', '4')], 2)

# Of format 2: no annotation `Apnea`, which is blanked besides.
NO_APNEA = (BOTH, 'remove = ["Apnea"]\nblank = ["Apnea"]', [('0', '4')], 2)

# Both channels, on the last day of 2099.
INTO_2099 = (BOTH, 'shift = 3087331200', [('0', '4')])

# The same without the recording date.
INTO_2099_DATELESS = (BOTH, 'anonymous = ["date"]\nshift = 3087331200', [('0', '4')])

ONE = ('["ECG"]', '', [('0', '4')])

UNKNOWN = ('["EEG Fpz-Cz", "ECG", "EMG"]', '', [('0', '4')])

YES = 'YES channels 2 samples 24 annotations 3\n'

# The claim that keeps the channel `Temp` for 6 s.
SIX_SECONDS = ('["Temp"]', "", [("0", "6")])
