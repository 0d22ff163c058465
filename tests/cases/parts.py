"""Several exports of one original: the line of each difference, which of several is said, and how the exports may be
cut. And one export: a check of it alone says what `check` says."""

import itertools

from tests.cases import BY_RULES, check_parts, later, rows_of
from tests.cases.cuts import CUTS, cut_file
from tests.cases.small_night import (
    ALL, BOTH, ENDS, FOUR, INTERRUPTED, LANE_0, LANE_1, LANE_2, MIDDLE, NAMELESS, NIGHT, ONE, TWO, UNKNOWN, VALUES_0,
    VALUES_1, VALUES_2, VALUES_3,
)
from tests.edf import field, lane, signal, values
from tests.recordings import bytes_of, recording

SINGLE = (field('records'), '1')

KEPT_TIME = lane(40, b'+0\x14\x14\x00')

AT_TWO = (field('starttime'), '22.00.02')

# The first and the second half of the night.
FIRST = recording(edits=[TWO], parts=[VALUES_0, LANE_0, VALUES_1, LANE_1], base=NIGHT)

APNEA_AT_ONE = lane(40, b'+1\x14\x14\x00+1\x14Apnea\x14\x00')

SECOND = recording(edits=[TWO, AT_TWO], parts=[VALUES_2, KEPT_TIME, VALUES_3, APNEA_AT_ONE], base=NIGHT)

# Each second of the night.
SECONDS = [
    recording(edits=[SINGLE], parts=[VALUES_0, LANE_0], base=NIGHT),
    recording(
        edits=[SINGLE, (field('starttime'), '22.00.01')],
        parts=[VALUES_1, lane(40, b'+0\x14\x14\x00+0.5\x151\x14Apnea\x14\x00')],
        base=NIGHT,
    ),
    recording(edits=[SINGLE, AT_TWO], parts=[VALUES_2, KEPT_TIME], base=NIGHT),
    recording(
        edits=[SINGLE, (field('starttime'), '22.00.03')],
        parts=[VALUES_3, lane(40, b'+0\x14\x14\x00+0\x14Apnea\x14\x00')],
        base=NIGHT,
    ),
]


def changed(part, *edits):
    """The part with other texts in its header."""
    return recording(edits=[*part['edits'], *edits], base=part)


def second(*, first_lane=KEPT_TIME, last_lane=APNEA_AT_ONE, third=VALUES_2, fourth=VALUES_3, edits=()):
    """The second half of the night with other lanes, other values or another header."""
    return recording(edits=[TWO, AT_TWO, *edits], parts=[third, first_lane, fourth, last_lane], base=NIGHT)


# The second half without `ECG`.
EEG_ALONE = recording(
    signals=[0, 2],
    parts=[values([80, 90, 100, 110]), KEPT_TIME, values([120, 130, 140, 150]), APNEA_AT_ONE],
    base=SECOND,
)

WHOLE = 'channels 2 samples 24 annotations 3\n'

EARLY = 'NO 12 part 1 starts early\n'

# The exports of the night, and the line; the claim keeps all of it.
LINES = [
    ('whole_as_one_part', [NIGHT], f'YES parts 1 {WHOLE}'),
    ('two_halves', [FIRST, SECOND], f'YES parts 2 {WHOLE}'),
    ('four_seconds', SECONDS, f'YES parts 4 {WHOLE}'),
    ('halves_exchanged', [SECOND, FIRST], EARLY),
    ('first_half_twice', [FIRST, FIRST], EARLY),
    ('whole_twice', [NIGHT, NIGHT], EARLY),
    ('three_with_the_first_half_again', [FIRST, SECOND, FIRST], 'NO 12 part 2 starts early\n'),
    ('first_half_thrice', [FIRST, FIRST, FIRST], EARLY),
    ('first_half_alone', [FIRST], 'NO 10 sample "ECG" at 2000000000000 ps missing\n'),
    ('second_half_alone', [SECOND], 'NO 10 sample "ECG" at 0 ps missing\n'),
    (
        'second_half_a_byte_short',
        [FIRST, recording(length=-1, base=SECOND)],
        'NO 2 part 1 export fault: Truncated at record 1\n',
    ),
    (
        'first_half_a_byte_short',
        [recording(length=-1, base=FIRST), SECOND],
        'NO 2 part 0 export fault: Truncated at record 1\n',
    ),
    (
        'both_halves_empty',
        [recording(length=0, base=FIRST), recording(length=0, base=SECOND)],
        'NO 2 part 0 export fault: Truncated at header field version\n',
    ),
    ('second_half_without_a_channel', [FIRST, EEG_ALONE], 'NO 4 part 1 missing channel "ECG"\n'),
    (
        'another_transducer_in_the_second_half',
        [FIRST, changed(SECOND, (signal(1, 'transducer'), 'x'))],
        'NO 6 part 1 channel text "ECG" transducer\n',
    ),
    (
        'another_prefilter_in_the_first_half',
        [changed(FIRST, (signal(0, 'prefilter'), 'x')), SECOND],
        'NO 6 part 0 channel text "EEG Fpz-Cz" prefilter\n',
    ),
    (
        'another_dimension_in_the_second_half',
        [FIRST, changed(SECOND, (signal(0, 'dimension'), 'mV'))],
        'NO 7 part 1 calibration "EEG Fpz-Cz"\n',
    ),
    (
        'another_sex_in_the_second_half',
        [FIRST, changed(SECOND, (field('patient'), 'MCH-0234567 X 02-MAY-1951 Haagse_Harry'))],
        'NO 8 part 1 subfield sex changed\n',
    ),
    (
        'free_text_of_the_second_header',
        [FIRST, changed(SECOND, (field('reserved'), 'EDF+C by J'))],
        'NO 9 part 1 not clean header\n',
    ),
    (
        'free_text_of_a_channel_in_the_first_half',
        [changed(FIRST, (signal(1, 'reserved'), 'x')), SECOND],
        'NO 9 part 0 not clean "ECG"\n',
    ),
    (
        'another_value_in_the_second_half',
        [FIRST, second(third=values([80, 90, 100, 110, 104, 106]))],
        'NO 10 sample "ECG" at 2500000000000 ps original 105 export 106\n',
    ),
    ('last_second_missing', [FIRST, SECONDS[2]], 'NO 10 sample "ECG" at 3000000000000 ps missing\n'),
    ('third_second_missing', [FIRST, SECONDS[3]], 'NO 10 sample "ECG" at 2000000000000 ps missing\n'),
    (
        'last_second_again_later',
        [*SECONDS, changed(SECONDS[3], (field('starttime'), '22.00.04'))],
        'NO 10 sample "ECG" at 4000000000000 ps extra\n',
    ),
    (
        'last_annotation_missing',
        [FIRST, second(last_lane=lane(40, b'+1\x14\x14\x00'))],
        'NO 11 annotation missing at 3000000000000 ps duration none text "Apnea"\n',
    ),
    (
        'annotation_added_in_the_second_half',
        [FIRST, second(first_lane=lane(40, b'+0\x14\x14\x00+0.5\x14Lights on\x14\x00'))],
        'NO 11 annotation extra at 2500000000000 ps duration none text "Lights on"\n',
    ),
    (
        'annotation_in_the_first_half_that_is_the_seconds',
        [recording(parts=[VALUES_0, LANE_0, VALUES_1, lane(40, b'+1\x14\x14\x00+3\x14Apnea\x14\x00')], base=FIRST), SECOND],
        'NO 11 annotation missing at 1500000000000 ps duration 1000000000000 ps text "Apnea"\n',
    ),
]

# Of several differences the one with the least number is said, and of those with one number that of the first export.
OF_SEVERAL = [
    (
        'prefilter_before_free_text',
        [changed(FIRST, (signal(1, 'reserved'), 'x')), changed(SECOND, (signal(1, 'prefilter'), 'x'))],
        'NO 6 part 1 channel text "ECG" prefilter\n',
    ),
    (
        'first_part_of_two_texts',
        [changed(FIRST, (signal(1, 'prefilter'), 'x')), changed(SECOND, (signal(0, 'transducer'), 'x'))],
        'NO 6 part 0 channel text "ECG" prefilter\n',
    ),
    (
        'fault_before_free_text',
        [changed(FIRST, (signal(1, 'reserved'), 'x')), recording(length=-1, base=SECOND)],
        'NO 2 part 1 export fault: Truncated at record 1\n',
    ),
    ('free_text_before_the_order', [SECOND, changed(FIRST, (signal(1, 'reserved'), 'x'))], 'NO 9 part 1 not clean "ECG"\n'),
    (
        'fault_before_the_order',
        [SECOND, recording(length=-1, base=FIRST)],
        'NO 2 part 1 export fault: Truncated at record 1\n',
    ),
    (
        'order_before_a_value',
        [recording(parts=[values([1, 10, 20, 30, 100, 101]), LANE_0, VALUES_1, LANE_1], base=FIRST), FIRST],
        EARLY,
    ),
    (
        'earliest_value',
        [
            recording(parts=[VALUES_0, LANE_0, values([40, 50, 60, 71, 102, 103]), LANE_1], base=FIRST),
            second(third=values([81, 90, 100, 110, 104, 105])),
        ],
        'NO 10 sample "EEG Fpz-Cz" at 1750000000000 ps original 70 export 71\n',
    ),
    (
        'value_before_an_annotation',
        [
            recording(parts=[VALUES_0, KEPT_TIME, VALUES_1, LANE_1], base=FIRST),
            second(fourth=values([120, 130, 140, 150, 106, 108])),
        ],
        'NO 10 sample "ECG" at 3500000000000 ps original 107 export 108\n',
    ),
    (
        'earliest_annotation',
        [
            recording(parts=[VALUES_0, KEPT_TIME, VALUES_1, LANE_1], base=FIRST),
            second(last_lane=lane(40, b'+1\x14\x14\x00')),
        ],
        'NO 11 annotation missing at 500000000000 ps duration none text "Lights off"\n',
    ),
]

# A picosecond before the first half ends, and a picosecond behind that.
JUST_EARLY = second(
    first_lane=lane(40, b'+0.999999999999\x14\x14\x00'),
    last_lane=lane(40, b'+1.999999999999\x14\x14\x00'),
    edits=[(field('starttime'), '22.00.01')],
)

JUST_LATE = second(first_lane=lane(40, b'+0.000000000001\x14\x14\x00'), last_lane=lane(40, b'+1.000000000001\x14\x14\x00'))

# The first half in one data record, its channels exchanged; the first and third second with the gap between them.
REGROUPED = recording(
    signals=[1, 0, 2],
    edits=[SINGLE, (field('duration'), '2'), (signal(0, 'samples'), '4'), (signal(1, 'samples'), '8')],
    parts=[
        values([100, 101, 102, 103]),
        values([0, 10, 20, 30, 40, 50, 60, 70]),
        lane(40, b'+0\x14\x14\x00+0.5\x14Lights off\x14\x00+1.5\x151\x14Apnea\x14\x00'),
    ],
    length=None,
)

WITH_GAP = recording(edits=[TWO, INTERRUPTED], parts=[VALUES_0, LANE_0, VALUES_2, LANE_2], base=NIGHT)

# The first half with the annotation of the last second, and the second half without it.
WITH_LATER_NOTE = recording(
    signals=[0, 1, 2, 2],
    edits=[TWO],
    parts=[VALUES_0, LANE_0, lane(40, b'+3\x14Apnea\x14\x00'), VALUES_1, LANE_1, lane(40, b'')],
    length=None,
)

WITHOUT_NOTE = second(last_lane=lane(40, b'+1\x14\x14\x00'))

# A claim, the exports of the night, and the line.
CUT = [
    ('second_half_a_hair_early', ALL, [FIRST, JUST_EARLY], EARLY),
    ('second_half_a_hair_late', ALL, [FIRST, JUST_LATE], 'NO 10 sample "ECG" at 2000000000000 ps missing\n'),
    ('first_half_in_one_record', ALL, [REGROUPED, SECOND], f'YES parts 2 {WHOLE}'),
    ('first_half_in_one_record_and_two_seconds', ALL, [REGROUPED, *SECONDS[2:]], f'YES parts 3 {WHOLE}'),
    ('annotation_in_another_part', ALL, [WITH_LATER_NOTE, WITHOUT_NOTE], f'YES parts 2 {WHOLE}'),
    ('first_and_last_second', ENDS, [SECONDS[0], SECONDS[3]], 'YES parts 2 channels 2 samples 12 annotations 2\n'),
    ('second_more_than_kept', ENDS, [FIRST, SECONDS[3]], 'NO 10 sample "ECG" at 1000000000000 ps extra\n'),
    ('three_seconds', (BOTH, '', [('0', '3')]), [FIRST, SECONDS[2]], 'YES parts 2 channels 2 samples 18 annotations 2\n'),
    ('kept_intervals_that_touch', (BOTH, '', [('0', '1'), ('1', '3'), ('3', '4')]), [FIRST, SECOND], f'YES parts 2 {WHOLE}'),
    (
        'part_with_a_gap',
        (BOTH, '', [('0', '1'), ('2', '4')]),
        [WITH_GAP, SECONDS[3]],
        'YES parts 2 channels 2 samples 18 annotations 2\n',
    ),
    ('part_within_the_gap_of_another', (BOTH, '', [('0', '1'), ('2', '4')]), [WITH_GAP, SECONDS[1]], EARLY),
    (
        'half_a_second_less_kept',
        (BOTH, '', [('0', '3.5')]),
        [FIRST, SECOND],
        'NO 10 sample "ECG" at 3500000000000 ps extra\n',
    ),
    ('name_left', NAMELESS, [FIRST, SECOND], 'NO 8 part 0 subfield name not X\n'),
    ('channel_too_many', ONE, [FIRST, SECOND], 'NO 5 part 0 extra channel "EEG Fpz-Cz"\n'),
    ('unknown_channel', UNKNOWN, [FIRST, SECOND], 'NO 3 unknown channel "EMG"\n'),
]

NOBODY = (field('patient'), 'X F X X')


def day_before(part, time):
    """The part on the day before at this time, and anonymous."""
    recorded = (field('recording'), 'Startdate 01-MAR-2002 PSG-1234/2002 NN Telemetry03')
    return changed(part, NOBODY, recorded, (field('startdate'), '01.03.02'), (field('starttime'), time))


# The second and third second, anonymous and a day earlier; and the third one as it was, a day later than it should be.
MOVED = [
    (
        'two_seconds_a_day_back',
        [day_before(SECONDS[1], '22.00.01'), day_before(SECONDS[2], '22.00.02')],
        'YES parts 2 channels 2 samples 12 annotations 1\n',
    ),
    (
        'one_of_two_seconds_a_day_back',
        [day_before(SECONDS[1], '22.00.01'), changed(SECONDS[2], NOBODY)],
        'NO 10 sample "ECG" at 2000000000000 ps missing\n',
    ),
    ('one_of_two_seconds_as_it_was', [day_before(SECONDS[1], '22.00.01'), SECONDS[2]], 'NO 8 part 1 subfield code not X\n'),
]

TWELVE = ('["Temp"]', "", [("0", "12")])


def half(seconds, start, raised=None):
    """Six of twelve seconds from a start on, cut into data records of so many seconds (tests/cases/cuts.py)."""
    edits = [
        (field("records"), str(6 // seconds)), (field("duration"), str(seconds)), (signal(0, "samples"), str(seconds)),
        (field("starttime"), f"22.00.{start:02}"),
    ]
    parts = []
    for at in range(0, 6, seconds):
        parts.append(values([place + (place == raised) for place in range(start + at, start + at + seconds)]))
        parts.append(lane(32, b"+%d\x14\x14" % at))
    return bytes_of(recording(signals=[3, 4], edits=edits, parts=parts))


def halves():
    """Twelve seconds in two exports: how any of the three files is cut into data records changes no line."""
    yes = "YES parts 2 channels 1 samples 12 annotations 0\n"
    for original, first, other in itertools.product(CUTS, (1, 2, 3, 6), (1, 2, 3, 6)):
        name = f"records_of_{original[1]}_s_as_halves_of_{first}_s_and_{other}_s"
        whole = later(cut_file, *original)
        yield check_parts(name, whole, TWELVE, [later(half, first, 0), later(half, other, 6)], yes)
        for at in (0, 5, 6, 11):
            exports = [later(half, first, 0, at), later(half, other, 6, at)]
            line = f'NO 10 sample "Temp" at {at * 10**12} ps original {at} export {at + 1}\n'
            yield check_parts(f"{name}_with_another_value_at_{at}_s", whole, TWELVE, exports, line)


def seconds_of(count):
    """An original of so many seconds of one channel, and each of them as an export."""
    parts = [[values([at]), lane(32, b"+%d\x14\x14" % at)] for at in range(count)]
    edits = [(field("records"), str(count)), (signal(0, "samples"), "1")]
    exports = []
    for at in range(count):
        own = [(signal(0, "samples"), "1"), (field("starttime"), f"22.{at // 60:02}.{at % 60:02}")]
        exports.append(bytes_of(recording(signals=[3, 4], edits=own, parts=[values([at]), lane(32, b"+0\x14\x14")])))
    return bytes_of(recording(signals=[3, 4], edits=edits, parts=sum(parts, []))), exports


def most():
    """As many exports as one check takes, and the last two of them exchanged."""
    original, exports = seconds_of(64)
    claim = ('["Temp"]', "", [("0", "64")])
    yield check_parts("sixty_four", original, claim, exports, "YES parts 64 channels 1 samples 64 annotations 0\n")
    exchanged = [*exports[:62], exports[63], exports[62]]
    yield check_parts("sixty_four_of_which_two_are_exchanged", original, claim, exchanged, "NO 12 part 63 starts early\n")


def of_one(line):
    """The line of a check of several exports where there is this one, of which `check` says the line."""
    if line is BY_RULES:
        return line
    word, number, rest = line.split(" ", 2)
    if word == "YES":
        return f"YES parts 1 {number} {rest}"
    return line if number in ("1", "3", "10", "11") else f"NO {number} part 0 {rest}"


TABLES_OF_CHECKS = [
    "head_differences", "verdict_lines", "rows", "differences", "channels", "labels", "headers", "samples", "shifts",
    "annotations", "note_texts",
]


def rows():
    """Each check of several exports: the original, the claim, the exports and the line."""
    for name, exports, line in LINES:
        yield check_parts(f"line_{name}", NIGHT, ALL, exports, line)
    for name, exports, line in OF_SEVERAL:
        yield check_parts(f"first_of_several_{name}", NIGHT, ALL, exports, line)
    for name, claim, exports, line in CUT:
        yield check_parts(f"cut_{name}", NIGHT, claim, exports, line)
    for name, exports, line in MOVED:
        yield check_parts(f"moved_{name}", NIGHT, MIDDLE, exports, line)
    cut_short = recording(edits=[FOUR], length=-1, base=NIGHT)
    both = [recording(length=-1, base=FIRST), SECOND]
    yield check_parts(
        "original_and_first_half_a_byte_short",
        cut_short,
        ALL,
        both,
        "NO 1 original fault: Truncated at record 3\n",
    )
    yield from halves()
    yield from most()
    for table in TABLES_OF_CHECKS:
        for row in rows_of(table):
            if row.command == "check":
                original, export, claim = row.files
                yield check_parts(f"one_part_{table}_{row.name}", original, claim, [export], of_one(row.line))
