"""Lines of files that pass every test, and of files with a byte too few or too many."""

from tests.cases import check, later
from tests.cases.small_night import SIX_SECONDS
from tests.edf import put, signal
from tests.recordings import cut, small_file, temp_file

# One data record of 1 s with two samples, 7 and -7.
SMALL = cut(parts=[([7, -7], "+0")])

YES_1 = 'YES channels 1 samples 1 annotations 0\n'

YES_2 = 'YES channels 1 samples 2 annotations 0\n'

YES_6 = 'YES channels 1 samples 6 annotations 0\n'

# How many bytes of the longer file the original and the export have, and the line of the check.
LENGTHS = [
    ('whole', 804, 804, YES_2),
    ('export_a_byte_short', 804, 803, 'NO 2 export fault: Truncated at record 0\n'),
    ('export_a_byte_long', 804, 805, 'NO 2 export fault: TrailingBytes at end\n'),
    ('export_empty', 804, 0, 'NO 2 export fault: Truncated at header field version\n'),
    ('original_empty', 0, 805, 'NO 1 original fault: Truncated at header field version\n'),
    ('both_faulty', 805, 0, 'NO 1 original fault: TrailingBytes at end\n'),
]

# Under a claim of the channel `Temp`.
TEMP_CLAIMED = [
    ('temp_unknown', 'Flow', 'Temp', 'NO 3 unknown channel "Temp"\n'),
    ('temp_missing', 'Temp', 'Flow', 'NO 4 missing channel "Temp"\n'),
    ('temp_in_small_letters', 'Temp', 'temp', 'NO 4 missing channel "Temp"\n'),
    ('temp_behind_a_space', 'Temp', ' Temp', 'NO 4 missing channel "Temp"\n'),
    ('temp_with_a_digit', 'Temp', 'Temp2', 'NO 4 missing channel "Temp"\n'),
]

# Under a claim of the channel `Flow`.
FLOW_CLAIMED = [
    ('flow_unknown', 'Temp', 'Temp', 'NO 3 unknown channel "Flow"\n'),
    ('flow_missing', 'Flow', 'Temp', 'NO 4 missing channel "Flow"\n'),
    ('flow_in_both', 'Flow', 'Flow', YES_2),
]

# Under a claim of both.
BOTH_CLAIMED = [
    ('flow_nowhere', 'Temp', 'Temp', 'NO 3 unknown channel "Flow"\n'),
    ('flow_in_the_export', 'Temp', 'Flow', 'NO 3 unknown channel "Flow"\n'),
    ('temp_in_the_export', 'Flow', 'Temp', 'NO 3 unknown channel "Temp"\n'),
    ('temp_beside_an_empty_label', '', 'Temp', 'NO 3 unknown channel "Temp"\n'),
]

FLOW = ('["Flow"]', '', [('0', '6')])

BOTH = ('["Temp", "Flow"]', '', [('0', '6')])

# Under a claim of a label that isn't printed as it stands.
MARKS_CLAIMED = [
    ('marks_in_both', 'a"\\b', 'a"\\b', YES_2),
    ('marks_missing', 'a"\\b', 'Temp', 'NO 4 missing channel "a\\x22\\x5cb"\n'),
]

# Under a claim of the empty label.
NOTHING_CLAIMED = [
    ('empty_label_in_both', '', '', YES_2),
    ('empty_label_unknown', 'Temp', 'Temp', 'NO 3 unknown channel ""\n'),
]

NOTHING = ('[""]', '', [('0', '6')])

MARKS = ('[\'a"\\b\']', '', [('0', '6')])

# The same samples in two data records.
HALVES = cut(records='2', duration='0.5', samples='1', parts=[([7], '+0'), ([-7], '+0.5')], base=SMALL)

# The first sample alone.
ONE = cut(records='1', duration='1', samples='1', parts=[([7], '+0')], base=SMALL)

# Three samples in a second.
THREE = cut(records='1', duration='1', samples='3', parts=[([7, 0, -7], '+0')], base=SMALL)

# Another second of the same.
TWICE = cut(records='2', duration='1', samples='2', parts=[([7, -7], '+0'), ([7, -7], '+1')], base=SMALL)

# The same in two seconds.
SLOWER = cut(records='1', duration='2', samples='2', parts=[([7, -7], '+0')], base=SMALL)

# Another second value.
LOWER = cut(records='1', duration='1', samples='2', parts=[([7, -8], '+0')], base=SMALL)

# Other values.
OTHER = cut(records='1', duration='1', samples='2', parts=[([8, -8], '+0')], base=SMALL)

# Another first value, and three samples in a second.
MIXED = cut(records='1', duration='1', samples='3', parts=[([8, 0, -7], '+0')], base=SMALL)

# The values of two bytes at their limits.
EXTREME = cut(records='1', duration='1', samples='2', parts=[([32767, -32768], '+0')], base=SMALL)

INSTANTS = [
    ('small_as_halves', SMALL, HALVES, YES_2),
    ('halves_as_small', HALVES, SMALL, YES_2),
    ('lower_second_value', SMALL, LOWER, 'NO 10 sample "Temp" at 500000000000 ps original -7 export -8\n'),
    ('higher_second_value', LOWER, SMALL, 'NO 10 sample "Temp" at 500000000000 ps original -8 export -7\n'),
    ('one_sample_of_two', SMALL, ONE, 'NO 10 sample "Temp" at 500000000000 ps missing\n'),
    ('two_samples_of_one', ONE, SMALL, 'NO 10 sample "Temp" at 500000000000 ps extra\n'),
    ('three_samples_of_two', SMALL, THREE, 'NO 10 sample "Temp" at 333333333333 ps extra\n'),
    ('two_samples_of_three', THREE, SMALL, 'NO 10 sample "Temp" at 333333333333 ps missing\n'),
    ('twice_as_long', SMALL, TWICE, 'NO 10 sample "Temp" at 1000000000000 ps extra\n'),
    ('half_as_long', TWICE, SMALL, 'NO 10 sample "Temp" at 1000000000000 ps missing\n'),
    ('slower', SMALL, SLOWER, 'NO 10 sample "Temp" at 500000000000 ps missing\n'),
    ('faster', SLOWER, SMALL, 'NO 10 sample "Temp" at 500000000000 ps extra\n'),
    ('other_values', SMALL, OTHER, 'NO 10 sample "Temp" at 0 ps original 7 export 8\n'),
    ('another_value_and_three_samples', SMALL, MIXED, 'NO 10 sample "Temp" at 0 ps original 7 export 8\n'),
    ('extreme_values_as_small', EXTREME, SMALL, 'NO 10 sample "Temp" at 0 ps original 32767 export 7\n'),
    ('extreme_values_as_themselves', EXTREME, EXTREME, YES_2),
]

# Six samples, two in each of three data records of 2 s.
PAIRS = cut(
    records='3',
    duration='2',
    samples='2',
    parts=[([1, 2], '+0'), ([3, 4], '+2'), ([5, 6], '+4')],
    base=SMALL,
)

# The same, three in each of two data records of 3 s.
TRIPLES = cut(records='2', duration='3', samples='3', parts=[([1, 2, 3], '+0'), ([4, 5, 6], '+3')], base=SMALL)

# The first and the fourth alone.
SPARSE = cut(records='2', duration='3', samples='1', parts=[([1], '+0'), ([4], '+3')], base=SMALL)

# Three samples in a second.
THIRDS = cut(records='1', duration='1', samples='3', parts=[([1, 2, 3], '+0')], base=SMALL)

# Another second value.
CHANGED = cut(records='1', duration='1', samples='3', parts=[([1, 9, 3], '+0')], base=SMALL)

MANY_RECORDS = [
    ('pairs_as_triples', PAIRS, TRIPLES, YES_6),
    ('triples_as_pairs', TRIPLES, PAIRS, YES_6),
    ('pairs_as_sparse', PAIRS, SPARSE, 'NO 10 sample "Temp" at 1000000000000 ps missing\n'),
    ('sparse_as_triples', SPARSE, TRIPLES, 'NO 10 sample "Temp" at 1000000000000 ps extra\n'),
    ('thirds_with_another_value', THIRDS, CHANGED, 'NO 10 sample "Temp" at 333333333333 ps original 2 export 9\n'),
]

# The first sample alone, in half a second.
FRONT = cut(duration='0.5', samples='1', parts=[([7], '+0')], base=SMALL)

# Kept up to the second sample, which isn't.
FIRST_KEPT = [
    ('first_kept_and_both_there', SMALL, SMALL, 'NO 10 sample "Temp" at 500000000000 ps extra\n'),
    ('first_kept_and_there', SMALL, FRONT, YES_1),
]

# Kept up to a picosecond behind it.
BOTH_KEPT = [
    ('both_kept_and_there', SMALL, SMALL, YES_2),
    ('both_kept_and_one_there', SMALL, FRONT, 'NO 10 sample "Temp" at 500000000000 ps missing\n'),
]

# Kept from the second sample on.
SECOND_KEPT = [
    ('second_kept_and_both_there', SMALL, SMALL, 'NO 10 sample "Temp" at 0 ps extra\n'),
]

# The annotation signal first.
EXCHANGED = cut(is_lane_first=True, base=SMALL)

# The same with another second value.
EXCHANGED_LOWER = cut(parts=[([7, -8], '+0')], base=EXCHANGED)

EXCHANGES = [
    ('annotations_first_in_the_export', SMALL, EXCHANGED, YES_2),
    ('annotations_first_in_the_original', EXCHANGED, SMALL, YES_2),
    ('annotations_first_in_both', EXCHANGED, EXCHANGED, YES_2),
    (
        'annotations_first_and_another_value',
        SMALL,
        EXCHANGED_LOWER,
        'NO 10 sample "Temp" at 500000000000 ps original -7 export -8\n',
    ),
]


# Kept up to the second sample, up to a picosecond behind it, and from it on.
TO_SECOND = ('["Temp"]', "", [("0", "0.5")])
BEHIND_SECOND = ('["Temp"]', "", [("0", "0.500000000001")])
FROM_SECOND = ('["Temp"]', "", [("0.5", "6")])


def labelled(label):
    """The small file with this label."""
    file = bytearray(small_file())
    put(file, 2, signal(0, "label"), label)
    return bytes(file)


def rows():
    """Each check: the original, the export, the claim and the line."""
    longer = small_file() + b"\0"
    for name, original, export, line in LENGTHS:
        yield check(f"length_{name}", longer[:original], longer[:export], SIX_SECONDS, line)
    for claim, table in [
        (SIX_SECONDS, TEMP_CLAIMED), (FLOW, FLOW_CLAIMED), (BOTH, BOTH_CLAIMED), (NOTHING, NOTHING_CLAIMED),
        (MARKS, MARKS_CLAIMED),
    ]:
        for name, original, export, line in table:
            yield check(f"label_{name}", later(labelled, original), later(labelled, export), claim, line)
    for claim, table in [
        (SIX_SECONDS, INSTANTS + MANY_RECORDS + EXCHANGES), (TO_SECOND, FIRST_KEPT), (BEHIND_SECOND, BOTH_KEPT),
        (FROM_SECOND, SECOND_KEPT),
    ]:
        for name, original, export, line in table:
            yield check(f"sample_{name}", later(temp_file, original), later(temp_file, export), claim, line)
