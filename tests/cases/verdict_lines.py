"""The line of verdicts that name channels, samples and annotations, with odd bytes in labels and odd signs in texts."""

from tests.cases import check, later
from tests.cases.head_differences import file_of
from tests.edf import field, signal
from tests.recordings import ALL_SIGNALS as ALL, recorded

BOTH = '["EEG Fpz-Cz", "ECG"]'

# The header of an export of the reference file, the claimed channels, and the line of the difference.
CHANNELS = [
    ('unknown_channel', (ALL, []), '["EEG Fpz-Cz", "ECG", "EMG"]', 'NO 3 unknown channel "EMG"\n'),
    ('unknown_channel_without_a_name', (ALL, []), '["", "ECG"]', 'NO 3 unknown channel ""\n'),
    ('unknown_quotation_mark', (ALL, []), '[\'"\', "ECG"]', 'NO 3 unknown channel "\\x22"\n'),
    ('unknown_backslash', (ALL, []), '[\'\\\', "ECG"]', 'NO 3 unknown channel "\\x5c"\n'),
    ('missing_channel', ([0, 2], []), BOTH, 'NO 4 missing channel "ECG"\n'),
    ('extra_channel', (ALL, []), '["ECG"]', 'NO 5 extra channel "EEG Fpz-Cz"\n'),
    ('extra_channel_without_a_name', (ALL, [(signal(0, 'label'), '')]), '["ECG"]', 'NO 5 extra channel ""\n'),
    ('transducer', (ALL, [(signal(1, 'transducer'), 'x')]), BOTH, 'NO 6 channel text "ECG" transducer\n'),
    ('prefilter', (ALL, [(signal(1, 'prefilter'), 'x')]), BOTH, 'NO 6 channel text "ECG" prefilter\n'),
    ('calibration', (ALL, [(signal(0, 'dimension'), 'mV')]), BOTH, 'NO 7 calibration "EEG Fpz-Cz"\n'),
    ('free_text_of_a_channel', (ALL, [(signal(1, 'reserved'), 'x')]), BOTH, 'NO 9 not clean "ECG"\n'),
]

ONE = [
    (field('records'), '1'),
]

TWO = [
    (field('records'), '2'),
]

# One second, a second earlier.
EARLY = [
    (field('records'), '1'),
    (field('starttime'), '21.59.59'),
]

# From half a second on.
LATE = [
    (field('records'), '1'),
    (field('reserved'), 'EDF+D'),
]

FIRST = b'+0\x14\x14\x00'

SECOND = b'+1\x14\x14\x00'

HALF = b'+0.5\x14\x14\x00'

# An original, an export, and the line of the first difference of their samples.
SAMPLES = [
    ('second_missing', (TWO, [FIRST, SECOND]), (ONE, [FIRST]), 'NO 10 sample "ECG" at 1000000000000 ps missing\n'),
    ('second_extra', (ONE, [FIRST]), (TWO, [FIRST, SECOND]), 'NO 10 sample "ECG" at 1000000000000 ps extra\n'),
    ('second_early', (ONE, [FIRST]), (EARLY, [FIRST]), 'NO 10 sample "ECG" at -1000000000000 ps extra\n'),
    ('first_half_second_missing', (ONE, [FIRST]), (LATE, [HALF]), 'NO 10 sample "ECG" at 0 ps missing\n'),
    ('first_half_second_extra', (LATE, [HALF]), (ONE, [FIRST]), 'NO 10 sample "ECG" at 0 ps extra\n'),
]

APNEA = b'+0\x14\x14\x00+1.5\x151\x14Apnea\x14\x00'

LIGHTS = b'+0\x14\x14\x00+0.5\x14Lights off\x14\x00'

MOMENT = b'+0\x14\x14\x00+0.5\x150\x14Lights off\x14\x00'

EMPTY = b'+0\x14\x14\x00-0.000000000001\x14\x14\x00'

ODD = b'+0\x14\x14\x00+0\x14a\tb\r\n"\\\x7f\xc3\xa9\x14\x00'

# The lane of an original, that of an export, and the line of the first difference of their annotations.
NOTES = [
    (
        'annotation_missing',
        APNEA,
        FIRST,
        'NO 11 annotation missing at 1500000000000 ps duration 1000000000000 ps text "Apnea"\n',
    ),
    ('annotation_extra', FIRST, LIGHTS, 'NO 11 annotation extra at 500000000000 ps duration none text "Lights off"\n'),
    (
        'duration_of_nothing_added',
        LIGHTS,
        MOMENT,
        'NO 11 annotation missing at 500000000000 ps duration none text "Lights off"\n',
    ),
    ('duration_of_nothing', FIRST, MOMENT, 'NO 11 annotation extra at 500000000000 ps duration 0 ps text "Lights off"\n'),
    ('annotation_before_the_start', FIRST, EMPTY, 'NO 11 annotation extra at -1 ps duration none text ""\n'),
    ('odd_signs', FIRST, ODD, 'NO 11 annotation extra at 0 ps duration none text "a\\x09b\\x0d\\x0a\\x22\\x5c\\x7fé"\n'),
]


def rows():
    """Each check: the original, the export, the claim and the line."""
    four = [("0", "4")]
    for name, export, channels, line in CHANNELS:
        yield check(f"channel_{name}", later(file_of, ALL, []), later(file_of, *export), (channels, "", four), line)
    for name, original, export, line in SAMPLES:
        yield check(f"sample_{name}", later(recorded, *original), later(recorded, *export), (BOTH, "", four), line)
    for name, original, export, line in NOTES:
        files = later(recorded, ONE, [original]), later(recorded, ONE, [export])
        yield check(f"note_{name}", *files, (BOTH, "", four), line)
