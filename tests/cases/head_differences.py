"""Headers of an original and an export, and the line of their first difference. The files have data records, which
hold the same samples."""

from tests.cases import check, later
from tests.edf import field, lane, signal, values
from tests.recordings import ALL_SIGNALS as ALL, header

AGREE = "YES channels 2 samples 24 annotations 0\n"

HEADER = "NO 9 not clean header\n"


def unknown(label):
    return f'NO 3 unknown channel "{label}"\n'


def missing(label):
    return f'NO 4 missing channel "{label}"\n'


def extra(label):
    return f'NO 5 extra channel "{label}"\n'


def text(label, name):
    return f'NO 6 channel text "{label}" {name}\n'


def calibration(label):
    return f'NO 7 calibration "{label}"\n'


def subfield(name, mismatch):
    return f"NO 8 subfield {name} {mismatch}\n"


def channel(label):
    return f'NO 9 not clean "{label}"\n'


A = (ALL, [])

BOTH = '["EEG Fpz-Cz", "ECG"]'

TURNED = '["ECG", "EEG Fpz-Cz"]'

EEG = 'EEG Fpz-Cz'

ECG = 'ECG'

WARD = (ALL, [(field('patient'), 'MCH-0234567 F 02-MAY-1951 Haagse_Harry Ward7')])

SEX_X = (ALL, [(field('patient'), 'MCH-0234567 X 02-MAY-1951 Haagse_Harry')])

DATE_X = (ALL, [(field('recording'), 'Startdate X PSG-1234/2002 NN Telemetry03')])

# The worked comparisons that the headers alone decide.
WORKED = [
    (
        'extremes_spelled_otherwise',
        A,
        (ALL, [(signal(0, 'physical-minimum'), '-100.0'), (signal(0, 'physical-maximum'), '100.00')]),
        BOTH,
        '',
        AGREE,
    ),
    (
        'half_of_the_range',
        A,
        (ALL, [(signal(0, 'physical-maximum'), '-60'), (signal(0, 'digital-maximum'), '-1229')]),
        BOTH,
        '',
        AGREE,
    ),
    ('extreme_a_hair_higher', A, (ALL, [(signal(0, 'physical-maximum'), '100.0001')]), BOTH, '', calibration(EEG)),
    (
        'both_extremes_a_step_higher',
        A,
        (ALL, [(signal(0, 'physical-minimum'), '-99'), (signal(0, 'physical-maximum'), '101')]),
        BOTH,
        '',
        calibration(EEG),
    ),
    ('name_left', A, A, BOTH, 'anonymous = ["name"]', subfield('name', 'not X')),
    ('sex_changed', A, SEX_X, BOTH, '', subfield('sex', 'changed')),
    ('patient_extras_left_out', WARD, A, BOTH, 'anonymous = ["patient-extras"]', AGREE),
    ('patient_extras_left', WARD, WARD, BOTH, 'anonymous = ["patient-extras"]', subfield('patient-extras', 'not X')),
    ('patient_extras_lost', WARD, A, BOTH, '', subfield('patient-extras', 'changed')),
    ('date_hidden', A, DATE_X, BOTH, 'anonymous = ["date"]', AGREE),
    ('date_hidden_and_not_claimed', A, DATE_X, BOTH, '', subfield('date', 'changed')),
    ('free_text_of_the_header', A, (ALL, [(field('reserved'), 'EDF+C by J')]), BOTH, '', HEADER),
    ('free_text_of_a_channel', A, (ALL, [(signal(1, 'reserved'), 'room 4')]), BOTH, '', channel(ECG)),
    (
        'free_texts_of_the_original_alone',
        (ALL, [(signal(1, 'reserved'), 'room 4'), (signal(2, 'prefilter'), 'n/a')]),
        A,
        BOTH,
        '',
        AGREE,
    ),
    ('channel_too_many', A, A, '["ECG"]', '', extra(EEG)),
    ('channel_missing', A, ([0, 2], []), BOTH, '', missing(ECG)),
    ('another_prefilter', A, (ALL, [(signal(1, 'prefilter'), 'HP:1Hz')]), BOTH, '', text(ECG, 'prefilter')),
    ('unknown_channel', A, A, '["EEG Fpz-Cz", "ECG", "EMG"]', '', unknown('EMG')),
]

# An export with the channels Z, ECG and EMG.
MORE = ([0, 1, 1, 2], [(signal(0, 'label'), 'Z'), (signal(2, 'label'), 'EMG')])

# An export with the channels z, Z and ECG.
LETTERS = ([0, 1, 1, 2], [(signal(0, 'label'), 'z'), (signal(1, 'label'), 'Z')])

# An export with the channels EMG, EM and ECG.
FRONTS = ([0, 1, 1, 2], [(signal(0, 'label'), 'EMG'), (signal(1, 'label'), 'EM')])

# Channels that are claimed or not, in another order of the file, of the claim, and of bytes.
CHANNELS = [
    ('claim_in_the_order_of_the_file', A, A, BOTH, '', AGREE),
    ('claim_in_another_order', A, A, TURNED, '', AGREE),
    ('file_in_another_order', A, ([1, 2, 0], []), BOTH, '', AGREE),
    ('both_in_another_order', A, ([2, 0, 1], []), TURNED, '', AGREE),
    ('two_channels_too_many', A, MORE, '["ECG"]', '', extra('EMG')),
    ('small_letter_behind_a_capital', A, LETTERS, '["ECG"]', '', extra('Z')),
    ('front_before_the_whole', A, FRONTS, '["ECG"]', '', extra('EM')),
    ('two_unknown_channels', A, A, '["Z", "ECG", "EMG"]', '', unknown('Z')),
    ('two_missing_channels', A, ([2, 1], [(signal(1, 'label'), 'EMG')]), TURNED, '', missing(ECG)),
    ('two_missing_channels_in_another_order', A, ([2, 1], [(signal(1, 'label'), 'EMG')]), BOTH, '', missing(EEG)),
]

# The prefilter of the first channel and the transducer of the second one are others.
CROSSED = (ALL, [(signal(0, 'prefilter'), 'none'), (signal(1, 'transducer'), 'none')])

# Both texts of the second channel are others.
TWO_TEXTS = (ALL, [(signal(1, 'prefilter'), 'none'), (signal(1, 'transducer'), 'none')])

# The dimensions of both channels are others.
TWO_DIMENSIONS = (ALL, [(signal(0, 'dimension'), 'mV'), (signal(1, 'dimension'), 'uV')])

# Both channels have free text.
TWO_FREE = (ALL, [(signal(0, 'reserved'), 'x'), (signal(1, 'reserved'), 'x')])

# Several differences of one kind: the claim's order decides, and in a channel the transducer is first.
CLAIM_ORDER = [
    ('prefilter_of_the_first_claimed', A, CROSSED, BOTH, '', text(EEG, 'prefilter')),
    ('transducer_of_the_first_claimed', A, CROSSED, TURNED, '', text(ECG, 'transducer')),
    ('transducer_before_prefilter', A, TWO_TEXTS, BOTH, '', text(ECG, 'transducer')),
    ('dimension_of_the_first_claimed', A, TWO_DIMENSIONS, BOTH, '', calibration(EEG)),
    ('dimension_of_the_first_claimed_in_another_order', A, TWO_DIMENSIONS, TURNED, '', calibration(ECG)),
    ('free_text_of_the_first_claimed', A, TWO_FREE, BOTH, '', channel(EEG)),
    ('free_text_of_the_first_claimed_in_another_order', A, TWO_FREE, TURNED, '', channel(ECG)),
]

# A patient of whom nothing is told, and two additional subfields.
TWO_X = (ALL, [(field('patient'), 'X X X X X X')])

X_AND_WARD = (ALL, [(field('patient'), 'X X X X X Ward7')])

SMALL_X = (ALL, [(field('patient'), 'X F 02-MAY-1951 x')])

# The same subfields with more spaces between them.
SPACED = (ALL, [(field('patient'), 'MCH-0234567  F   02-MAY-1951 Haagse_Harry')])

NOTHING_TOLD = 'anonymous = ["code", "sex", "birthdate", "name", "patient-extras"]'

# Subfields of the patient and of the recording.
SUBFIELDS = [
    ('patient_extras_of_two_x', WARD, TWO_X, BOTH, NOTHING_TOLD, AGREE),
    ('patient_extras_of_x_and_a_word', WARD, X_AND_WARD, BOTH, NOTHING_TOLD, subfield('patient-extras', 'not X')),
    ('small_x_for_a_name', A, SMALL_X, BOTH, 'anonymous = ["code", "name"]', subfield('name', 'not X')),
    ('more_spaces_between', A, SPACED, BOTH, '', AGREE),
    ('date_shown_that_was_hidden', DATE_X, A, BOTH, '', subfield('date', 'changed')),
    ('date_hidden_in_both', DATE_X, DATE_X, BOTH, '', AGREE),
    ('patient_extras_added', A, WARD, BOTH, '', subfield('patient-extras', 'changed')),
    (
        'sex_hidden_and_not_claimed',
        A,
        TWO_X,
        BOTH,
        'anonymous = ["code", "birthdate", "patient-extras"]',
        subfield('sex', 'changed'),
    ),
]

# Texts of annotation signals.
NOTES = [
    ('second_annotation_signal', A, ([0, 1, 2, 2], []), BOTH, '', AGREE),
    ('text_in_the_second_annotation_signal', A, ([0, 1, 2, 2], [(signal(3, 'transducer'), 'x')]), BOTH, '', HEADER),
    ('dimension_of_the_annotation_signal', A, (ALL, [(signal(2, 'dimension'), 'x')]), BOTH, '', HEADER),
    ('prefilter_of_the_annotation_signal', A, (ALL, [(signal(2, 'prefilter'), 'n/a')]), BOTH, '', HEADER),
    ('text_in_an_annotation_signal_that_comes_first', A, ([2, 0, 1], [(signal(0, 'reserved'), 'x')]), BOTH, '', HEADER),
]

# Changes of the export, each with its answer, in the order in which they are answered.
ORDER = [
    ('channel_missing', (signal(1, 'label'), 'EMG'), missing(ECG)),
    ('another_transducer', (signal(1, 'transducer'), 'none'), text(ECG, 'transducer')),
    ('another_dimension', (signal(0, 'dimension'), 'mV'), calibration(EEG)),
    ('another_code', (field('patient'), 'X F 02-MAY-1951 Haagse_Harry'), subfield('code', 'changed')),
    (
        'free_text_of_a_channel',
        (field('recording'), 'Startdate 02-MAR-2002 PSG-1234/2002 X Telemetry03'),
        subfield('technician', 'changed'),
    ),
    ('another_technician', (field('reserved'), 'EDF+C by J'), HEADER),
    ('free_text_of_the_header', (signal(0, 'reserved'), 'x'), channel(EEG)),
]


def file_of(signals, edits):
    """A file of four data records that hold zeros and keep the time."""
    file = bytes(header(signals, [(field("records"), "4"), *edits]))
    for record in range(4):
        first = True
        for kind in signals:
            if kind != 2:
                file += values([0] * [4, 2][kind])
            else:
                file += lane(40, b"+%d\x14\x14" % record if first else b"")
                first = False
    return file


# The tables, by what they are about.
TABLES = {"worked": WORKED, "channels": CHANNELS, "order_of_the_claim": CLAIM_ORDER, "subfields": SUBFIELDS, "notes": NOTES}


def rows():
    """Each check: the original, the export, the claim and the line."""
    four = [("0", "4")]
    for front, table in TABLES.items():
        for name, original, export, channels, keys, line in table:
            yield check(f"{front}_{name}", later(file_of, *original), later(file_of, *export), (channels, keys, four), line)
    # of two differences the one that stands first in the order
    for place, (name, edit, line) in enumerate(ORDER):
        for other_name, other, _ in ORDER[place:]:
            whole = f"{name}_alone" if name == other_name else f"{name}_before_{other_name}"
            yield check(whole, later(file_of, *A), later(file_of, ALL, [edit, other]), (BOTH, "", four), line)
