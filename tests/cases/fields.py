"""Headers with one field that has another text, and the first fault, or that there is none; and headers of another day,
which `show` says."""

from tests.cases import Row, later
from tests.edf import field, signal, words
from tests.recordings import reference_header

PATIENT = ' MCH-0234567 F 02-MAY-1951 Haagse_Harry'

LEADING_SPACE = 'BadSubfields(LeadingSpace)'

# One field with another text, and the cause for which that very field is refused, or `Sound`.
FIELDS = [
    ('another_version', field('version'), '1', 'BadVersion'),
    ('patient_behind_a_space', field('patient'), PATIENT, LEADING_SPACE),
    ('startdate_without_a_year', field('startdate'), '02.03.yy', 'BadStart'),
    ('starttime_with_colons', field('starttime'), '22:00:00', 'BadStart'),
    ('another_header_size', field('header-bytes'), '1280', 'BadHeaderSize'),
    ('header_size_with_zeros', field('header-bytes'), '00001024', 'Sound'),
    ('plain_edf', field('reserved'), '', 'NotEdfPlus'),
    ('records_with_a_sign', field('records'), '+4', 'Sound'),
    ('records_with_zeros', field('records'), '0004', 'Sound'),
    ('no_records', field('records'), '-0', 'BadRange'),
    ('records_below_0', field('records'), '-1', 'BadRange'),
    ('records_with_a_dot', field('records'), '4.0', 'BadNumber'),
    ('no_duration', field('duration'), '0', 'BadRange'),
    ('duration_with_an_exponent', field('duration'), '1e3', 'BadNumber'),
    ('label_behind_a_space', signal(0, 'label'), ' ECG', 'Sound'),
    ('one_physical_extreme', signal(0, 'physical-maximum'), '-100', 'BadRange'),
    ('one_physical_extreme_spelled_otherwise', signal(0, 'physical-maximum'), '-100.000', 'BadRange'),
    ('digital_minimum_of_24_bits', signal(0, 'digital-minimum'), '-32769', 'BadRange'),
    ('one_digital_extreme', signal(0, 'digital-maximum'), '-2048', 'BadRange'),
    ('one_label_twice', signal(1, 'label'), 'EEG Fpz-Cz', 'DuplicateLabel'),
    ('digital_range_of_a_lane', signal(2, 'digital-maximum'), '-32768', 'BadRange'),
]

DATE = 'Startdate 03-MAR-2002 PSG-1234/2002 NN Telemetry03'

# A recording date that is no day: 2100 is no leap year.
NO_SUCH_DAY = 'Startdate 29-FEB-2100 PSG-1234/2002 NN Telemetry03'

NO_NOTES = 'NoAnnotationSignal at header field signals'

NO_LANE = 'BadAnnotationSignal at signal 2 field label'

SHORT = 'Truncated at signal 2 field prefilter'

# Other texts, and the answer where it is of another field or none.
FILES = [
    ('whole', [], 'Sound'),
    ('another_recording_date', [(field('recording'), DATE)], 'StartdateDiffers at header field startdate'),
    (
        'no_such_day_by_letters',
        [(field('recording'), NO_SUCH_DAY), (field('startdate'), '29.02.yy')],
        'BadSubfields(BadDate) at header field recording',
    ),
    (
        'no_such_day_by_digits',
        [(field('recording'), NO_SUCH_DAY), (field('startdate'), '29.02.00')],
        'BadSubfields(BadDate) at header field recording',
    ),
    ('no_annotation_signal', [(signal(2, 'label'), 'EDF Notes')], NO_NOTES),
    ('digital_minimum_of_a_lane', [(signal(2, 'digital-minimum'), '-32767')], NO_LANE),
    ('a_signal_more_than_there_is', [(field('header-bytes'), '1280'), (field('signals'), '4')], SHORT),
    (
        'physical_extremes_exchanged',
        [(signal(0, 'physical-minimum'), '100'), (signal(0, 'physical-maximum'), '-100')],
        'Sound',
    ),
]

# The text of the startdate, the recording date, and the day that `show` says, or the cause for which the startdate is
# refused.
STARTS = [
    # two digits are the years 1985 to 2084
    ('31_12_84_beside_31_dec_2084', '31.12.84', '31-DEC-2084', '2084-12-31'),
    ('31_12_84_beside_x', '31.12.84', 'X', '2084-12-31'),
    ('01_01_85_beside_01_jan_1985', '01.01.85', '01-JAN-1985', '1985-01-01'),
    ('31_12_85_beside_x', '31.12.85', 'X', '1985-12-31'),
    ('31_12_85_beside_31_dec_2085', '31.12.85', '31-DEC-2085', 'StartdateDiffers'),
    ('31_12_99_beside_31_dec_2099', '31.12.99', '31-DEC-2099', 'StartdateDiffers'),
    ('31_12_99_beside_31_dec_9999', '31.12.99', '31-DEC-9999', 'StartdateDiffers'),
    ('29_02_96_beside_29_feb_2096', '29.02.96', '29-FEB-2096', 'StartdateDiffers'),
    # the letters are the years from 2085 on
    ('31_12_yy_beside_31_dec_2084', '31.12.yy', '31-DEC-2084', 'BadStart'),
    ('01_01_yy_beside_01_jan_2085', '01.01.yy', '01-JAN-2085', '2085-01-01'),
    ('31_12_yy_beside_31_dec_2085', '31.12.yy', '31-DEC-2085', '2085-12-31'),
    ('31_12_yy_beside_31_dec_2099', '31.12.yy', '31-DEC-2099', '2099-12-31'),
    ('01_01_yy_beside_01_jan_2100', '01.01.yy', '01-JAN-2100', '2100-01-01'),
    ('31_12_yy_beside_31_dec_9999', '31.12.yy', '31-DEC-9999', '9999-12-31'),
    ('31_12_yy_beside_31_dec_0000', '31.12.yy', '31-DEC-0000', 'BadStart'),
    ('31_12_yy_beside_31_dec_1984', '31.12.yy', '31-DEC-1984', 'BadStart'),
    ('31_12_yy_beside_31_dec_1999', '31.12.yy', '31-DEC-1999', 'BadStart'),
    ('31_12_yy_beside_x', '31.12.yy', 'X', 'BadStart'),
    # day and month are those of the recording date
    ('30_12_yy_beside_31_dec_2099', '30.12.yy', '31-DEC-2099', 'StartdateDiffers'),
    ('31_12_yy_beside_30_dec_2099', '31.12.yy', '30-DEC-2099', 'StartdateDiffers'),
    ('31_01_yy_beside_31_dec_2099', '31.01.yy', '31-DEC-2099', 'StartdateDiffers'),
    ('31_12_yy_beside_31_jan_2100', '31.12.yy', '31-JAN-2100', 'StartdateDiffers'),
    ('12_11_yy_beside_11_dec_2099', '12.11.yy', '11-DEC-2099', 'StartdateDiffers'),
    ('11_12_yy_beside_11_dec_2099', '11.12.yy', '11-DEC-2099', '2099-12-11'),
    ('30_12_yy_beside_31_dec_2084', '30.12.yy', '31-DEC-2084', 'BadStart'),
    ('30_12_yy_beside_x', '30.12.yy', 'X', 'BadStart'),
    # days from 01 to 31, months from 01 to 12; whether the calendar has such a day isn't asked
    ('00_12_yy_beside_31_dec_2099', '00.12.yy', '31-DEC-2099', 'BadStart'),
    ('01_12_yy_beside_01_dec_2099', '01.12.yy', '01-DEC-2099', '2099-12-01'),
    ('32_12_yy_beside_31_dec_2099', '32.12.yy', '31-DEC-2099', 'BadStart'),
    ('99_12_yy_beside_31_dec_2099', '99.12.yy', '31-DEC-2099', 'BadStart'),
    ('31_00_yy_beside_31_dec_2099', '31.00.yy', '31-DEC-2099', 'BadStart'),
    ('31_01_yy_beside_31_jan_2099', '31.01.yy', '31-JAN-2099', '2099-01-31'),
    ('31_13_yy_beside_31_dec_2099', '31.13.yy', '31-DEC-2099', 'BadStart'),
    ('12_31_yy_beside_31_dec_2099', '12.31.yy', '31-DEC-2099', 'BadStart'),
    ('31_02_yy_beside_28_feb_2099', '31.02.yy', '28-FEB-2099', 'StartdateDiffers'),
    ('31_04_yy_beside_30_apr_2099', '31.04.yy', '30-APR-2099', 'StartdateDiffers'),
    ('30_02_yy_beside_x', '30.02.yy', 'X', 'BadStart'),
    ('29_02_yy_beside_29_feb_2096', '29.02.yy', '29-FEB-2096', '2096-02-29'),
    ('29_02_yy_beside_29_feb_2400', '29.02.yy', '29-FEB-2400', '2400-02-29'),
    ('29_02_yy_beside_28_feb_2100', '29.02.yy', '28-FEB-2100', 'StartdateDiffers'),
    ('29_02_yy_beside_01_mar_2100', '29.02.yy', '01-MAR-2100', 'StartdateDiffers'),
    ('29_02_yy_beside_29_feb_2084', '29.02.yy', '29-FEB-2084', 'BadStart'),
    # two small letters y, and nothing else
    ('capital_letters', '31.12.YY', '31-DEC-2099', 'BadStart'),
    ('a_small_letter_and_a_capital', '31.12.yY', '31-DEC-2099', 'BadStart'),
    ('a_capital_and_a_small_letter', '31.12.Yy', '31-DEC-2099', 'BadStart'),
    ('two_x', '31.12.xx', '31-DEC-2099', 'BadStart'),
    ('two_z', '31.12.zz', '31-DEC-2099', 'BadStart'),
    ('a_letter_and_a_digit', '31.12.y9', '31-DEC-2099', 'BadStart'),
    ('a_digit_and_a_letter', '31.12.9y', '31-DEC-2099', 'BadStart'),
    ('one_letter', '31.12.y', '31-DEC-2099', 'BadStart'),
    ('a_space_and_a_letter', '31.12. y', '31-DEC-2099', 'BadStart'),
    ('no_letter', '31.12.', '31-DEC-2099', 'BadStart'),
    ('dashes', '31-12-yy', '31-DEC-2099', 'BadStart'),
    ('a_dot_and_a_dash', '31.12-yy', '31-DEC-2099', 'BadStart'),
    ('a_dash_and_a_dot', '31-12.yy', '31-DEC-2099', 'BadStart'),
    ('a_letter_in_the_day', '3l.12.yy', '31-DEC-2099', 'BadStart'),
    ('a_letter_in_the_month', '31.l2.yy', '31-DEC-2099', 'BadStart'),
    ('letters_alone', 'dd.mm.yy', '31-DEC-2099', 'BadStart'),
    ('a_day_of_one_digit', '1.12.yy', '01-DEC-2099', 'BadStart'),
    ('a_day_of_a_space_and_a_digit', ' 1.12.yy', '01-DEC-2099', 'BadStart'),
    ('a_day_with_a_sign', '+1.12.yy', '01-DEC-2099', 'BadStart'),
    ('a_month_of_one_digit', '01.1.yy', '01-JAN-2099', 'BadStart'),
    ('nothing', '', '31-DEC-2099', 'BadStart'),
    # a byte that can't be printed, first of all
    ('a_control_sign', '31.12.y\x1f', '31-DEC-2099', 'NotPrintable'),
    ('a_byte_of_255', '31.12.y\xff', 'X', 'NotPrintable'),
    ('a_control_sign_in_no_such_day', '32.12\x7fyy', '31-DEC-2084', 'NotPrintable'),
]


def start_line_of(answer):
    """The line of a fault of the startdate, or that of the start."""
    return f"start {answer} 22:00:00\n" if answer[0].isdigit() else f"FAULT {answer} at header field startdate\n"


def line_of(answer):
    """The line of `show`, or none where it shows the header."""
    return None if answer == "Sound" else f"FAULT {answer}\n"


def rows():
    """Each header, and the line of `show`, or that of its start."""
    for name, place, text, cause in FIELDS:
        answer = cause if cause == "Sound" else f"{cause} at {words(place)}"
        yield Row(name, "show", (later(reference_header, [(place, text)]),), line_of(answer))
    for name, edits, answer in FILES:
        yield Row(name, "show", (later(reference_header, edits),), line_of(answer))
    for name, text, date, answer in STARTS:
        edits = [(field("recording"), f"Startdate {date} PSG-1234/2002 NN Telemetry03"), (field("startdate"), text)]
        yield Row(f"start_{name}", "show", (later(reference_header, edits),), start_line_of(answer))
    other = reference_header()
    other[30] = 200
    yield Row("patient_with_a_byte_of_200", "show", (bytes(other),), line_of("NotPrintable at header field patient"))
