"""Whole files with one change, and what `conform` answers; where it is four numbers, they are the counts."""

from tests.cases import Row, later
from tests.edf import field, lane, signal, values
from tests.recordings import LANES, header, recorded, small_file

TWO = (field('records'), '2')

INTERRUPTED = (field('reserved'), 'EDF+D')

# The lanes of the first and the last data record, as a cut with a gap has them.
GAP = [b'+0\x14\x14\x00+0.5\x14Lights off\x14\x00', b'+3\x14\x14\x00+3\x14Apnea\x14\x00']

# The same, where the second one starts too early.
EARLY_GAP = [b'+0\x14\x14\x00+0.5\x14Lights off\x14\x00', b'+0.9\x14\x14\x00+3\x14Apnea\x14\x00']

# The reference file's, where the first one starts too late, and where the third one is silent.
LATE_START = [
    b'+1\x14\x14\x00+0.5\x14Lights off\x14\x00',
    b'+1\x14\x14\x00+1.5\x151\x14Apnea\x14\x00',
    b'+2\x14\x14\x00',
    b'+3\x14\x14\x00+3\x14Apnea\x14\x00',
]

SILENT_THIRD = [
    b'+0\x14\x14\x00+0.5\x14Lights off\x14\x00',
    b'+1\x14\x14\x00+1.5\x151\x14Apnea\x14\x00',
    b'',
    b'+3\x14\x14\x00+3\x14Apnea\x14\x00',
]

EARLY = [b'+0\x14\x14\x00', b'+0.9\x14\x14\x00']

HAIR_EARLY = [b'+0\x14\x14\x00', b'+0.999999999999\x14\x14\x00']

HAIR_LATE = [b'+0\x14\x14\x00', b'+1.000000000001\x14\x14\x00']

LATE = [b'+1\x14\x14\x00', b'+2\x14\x14\x00']

BEFORE = [b'-0.1\x14\x14\x00', b'+0.9\x14\x14\x00']

OFFSET = [b'+0.999999999999\x14\x14\x00', b'+1.999999999999\x14\x14\x00']

SILENT = [b'+0\x14\x14\x00', b'+1\x14\x14\x00', b'', b'+3\x14\x14\x00']

SPOKEN = [b'+0\x14\x14\x00', b'+1\x14x\x14\x00', b'+2\x14\x14\x00', b'+3\x14\x14\x00']

OPEN = [b'+0\x14\x14\x00', b'+1\x14\x14\x00', b'+2\x14\x14\x00+2\x14x\x00', b'+9\x14\x14\x00']

# The recording date of the last day of 2099.
LAST_DAY = (field('recording'), 'Startdate 31-DEC-2099 PSG-1234/2002 NN Telemetry03')

# Changes of the reference file, and the answer.
ROWS = [
    ('whole', [], LANES, '4, 2, 24, 3'),
    ('whole_said_to_be_interrupted', [INTERRUPTED], LANES, '4, 2, 24, 3'),
    ('gap', [TWO, INTERRUPTED], GAP, '2, 2, 12, 2'),
    ('gap_in_a_contiguous_file', [TWO], GAP, 'NotContiguous at record 1'),
    ('overlap_behind_a_gap', [TWO, INTERRUPTED], EARLY_GAP, 'Overlap at record 1'),
    ('late_start', [], LATE_START, 'BadFirstStart at record 0'),
    ('third_record_silent', [], SILENT_THIRD, 'NoTimekeeping at record 2'),
    ('overlap', [TWO, INTERRUPTED], EARLY, 'Overlap at record 1'),
    ('overlap_in_a_contiguous_file', [TWO], EARLY, 'NotContiguous at record 1'),
    ('hair_early', [TWO], HAIR_EARLY, 'NotContiguous at record 1'),
    ('hair_early_in_an_interrupted_file', [TWO, INTERRUPTED], HAIR_EARLY, 'Overlap at record 1'),
    ('hair_late', [TWO], HAIR_LATE, 'NotContiguous at record 1'),
    ('hair_late_in_an_interrupted_file', [TWO, INTERRUPTED], HAIR_LATE, '2, 2, 12, 0'),
    ('starts_at_a_second', [TWO], LATE, 'BadFirstStart at record 0'),
    ('starts_at_a_second_in_an_interrupted_file', [TWO, INTERRUPTED], LATE, 'BadFirstStart at record 0'),
    ('starts_before_the_second', [TWO], BEFORE, 'BadFirstStart at record 0'),
    ('starts_a_hair_before_the_next_second', [TWO], OFFSET, '2, 2, 12, 0'),
    ('third_lane_empty', [], SILENT, 'NoTimekeeping at record 2'),
    ('second_lane_with_a_text_alone', [], SPOKEN, 'NoTimekeeping at record 1'),
    ('text_without_an_end', [], OPEN, 'BadTal(NoEnd) at record 2'),
    ('records_too_few', [TWO], LANES, 'TrailingBytes at end'),
    ('records_too_many', [(field('records'), '5')], LANES, 'Truncated at record 4'),
    ('one_label_twice', [(signal(0, 'label'), 'ECG')], LANES, 'DuplicateLabel at signal 1 field label'),
    ('last_day_of_2099', [LAST_DAY, (field('startdate'), '31.12.yy')], LANES, '4, 2, 24, 3'),
    (
        'last_day_of_2099_by_digits',
        [LAST_DAY, (field('startdate'), '31.12.99')],
        LANES,
        'StartdateDiffers at header field startdate',
    ),
    ('letters_for_the_year_2002', [(field('startdate'), '02.03.yy')], LANES, 'BadStart at header field startdate'),
]

THIRDS = [b'+0\x14\x14\x00', b'+0.333333333333\x14\x14\x00', b'+0.666666666666\x14\x14\x00']

# The lanes of two annotation signals in one data record, and the answer.
PAIRS = [
    ('second_lane_empty', b'+0\x14\x14\x00', b'', '1, 1, 2, 0'),
    ('second_lane_with_a_text', b'+0\x14\x14\x00', b'+0.5\x14x\x14\x00', '1, 1, 2, 1'),
    ('second_lane_with_an_empty_text', b'+0\x14\x14\x00', b'+0.5\x14\x14\x00', '1, 1, 2, 1'),
    ('first_lane_empty', b'', b'+0\x14\x14\x00', 'NoTimekeeping at record 0'),
    ('second_lane_broken', b'+0\x14\x14\x00', b'+0.5', 'BadTal(NoEnd) at record 0'),
    ('first_lane_empty_and_second_broken', b'', b'+0.5', 'BadTal(NoEnd) at record 0'),
    ('both_lanes_broken', b'+5.\x14\x14\x00', b'+0.5', 'BadTal(BadOnset) at record 0'),
]


# What makes a channel `Temp` with one sample in each data record of 0.1 s of an interrupted file.
SPARSE = [(field("reserved"), "EDF+D"), (field("records"), "3"), (field("duration"), "0.1"), (signal(0, "samples"), "1")]


def line_of(answer):
    """The line of an answer."""
    if not answer[0].isdigit():
        return f"FAULT {answer}\n"
    records, channels, samples, annotations = answer.split(", ")
    return f"CONFORMS records {records} channels {channels} samples {samples} annotations {annotations}\n"


def sparse(lanes):
    """A file with one sample in each data record, and these lanes."""
    return bytes(header([3, 4], SPARSE)) + b"".join(values([1]) + lane(32, text) for text in lanes)


def twofold(first, second):
    """A file of one data record with two annotation signals behind a channel, and these lanes."""
    return bytes(header([1, 2, 2])) + values([7, 7]) + lane(40, first) + lane(40, second)


def crowded(separators):
    """A file of one data record with an annotation lane of an onset, so many bytes 20, and zeros."""
    front = bytes(header([3, 4], [(signal(1, "samples"), "500003")])) + values([0, 0])
    return front + lane(1_000_006, b"+0" + b"\x14" * separators)


def conform(name, file, answer):
    """The row of a file and what `conform` answers."""
    return Row(name, "conform", (file,), line_of(answer))


def whole_front(count):
    """The first bytes of the reference file."""
    return recorded()[:count]


def rows():
    """Each file, and the line of `conform`."""
    for name, edits, lanes, answer in ROWS:
        yield conform(f"reference_{name}", later(recorded, edits, lanes), answer)
    yield conform("small_file", small_file, "1, 1, 2, 0")
    for count in range(1024, 1232):
        yield conform(f"first_{count}_bytes", later(whole_front, count), f"Truncated at record {(count - 1024) // 52}")
    yield conform("a_byte_more", recorded() + b"\0", "TrailingBytes at end")
    yield conform("one_sample_in_each_record", later(sparse, THIRDS), "3, 1, 3, 0")
    for name, first, second, answer in PAIRS:
        yield conform(f"two_lanes_{name}", later(twofold, first, second), answer)
    yield conform("as_many_annotations_as_fit", later(crowded, 1_000_002), "1, 1, 2, 1000000")
    yield conform("an_annotation_too_many", later(crowded, 1_000_003), "TooManyAnnotations at record 0")
