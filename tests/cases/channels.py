"""Files with several channels."""

from tests.cases import check, later
from tests.cases.small_night import SIX_SECONDS
from tests.edf import lane, signal, values
from tests.recordings import header, small_file

# The two files: the small one, and the one with a channel `Flow` in front.
SMALL = "small"
WITHFLOW = "with flow"

# What makes a channel `Flow` with one sample in a data record of the first signal.
FLOW = [
    (signal(0, 'label'), 'Flow'),
    (signal(0, 'dimension'), 'L/s'),
    (signal(0, 'physical-minimum'), '-1'),
    (signal(0, 'physical-maximum'), '1'),
    (signal(0, 'samples'), '1'),
]

TEMP_CLAIMED = [
    ('temp_claimed_and_flow_there', WITHFLOW, WITHFLOW, 'NO 5 extra channel "Flow"\n'),
    ('temp_claimed_and_alone', WITHFLOW, SMALL, 'YES channels 1 samples 2 annotations 0\n'),
]

TEMP_AND_FLOW_CLAIMED = [
    ('temp_and_flow_there', WITHFLOW, WITHFLOW, 'YES channels 2 samples 3 annotations 0\n'),
    ('flow_unknown', SMALL, WITHFLOW, 'NO 3 unknown channel "Flow"\n'),
    ('flow_missing', WITHFLOW, SMALL, 'NO 4 missing channel "Flow"\n'),
]

PULSE_CLAIMED = [
    ('pulse_unknown', WITHFLOW, WITHFLOW, 'NO 3 unknown channel "Pulse"\n'),
]

TEMP_AND_FLOW = ('["Temp", "Flow"]', '', [('0', '6')])

PULSE = ('["Temp", "Pulse", "Acc"]', '', [('0', '6')])

ALL_CLAIMED = [
    ('three_channels', ['b', 'ab', 'B'], [1, 2, 3], 'YES channels 3 samples 3 annotations 0\n'),
    ('three_channels_of_zeros', ['b', 'ab', 'B'], [0, 0, 0], 'NO 10 sample "B" at 0 ps original 3 export 0\n'),
    (
        'three_channels_of_zeros_in_the_order_of_bytes',
        ['B', 'b', 'ab'],
        [0, 0, 0],
        'NO 10 sample "B" at 0 ps original 3 export 0\n',
    ),
    ('two_channels_of_zeros', ['ab', 'b', 'B'], [0, 0, 3], 'NO 10 sample "ab" at 0 ps original 2 export 0\n'),
    ('one_channel_of_another_label', ['c', 'ab', 'd'], [1, 2, 3], 'NO 4 missing channel "b"\n'),
]

ONE_CLAIMED = [
    ('one_claimed_of_three', ['b', 'ab', 'B'], [1, 2, 3], 'NO 5 extra channel "B"\n'),
    ('one_claimed_of_three_of_zeros', ['B', 'b', 'ab'], [0, 0, 0], 'NO 5 extra channel "B"\n'),
]

# The samples of the channel `slow` and of the channel `fast`, and the line of the check.
EARLIEST = [
    ('two_rates', [1, 2], [3, 4, 5], 'YES channels 2 samples 5 annotations 0\n'),
    ('fast_before_slow', [1, 0], [3, 0, 5], 'NO 10 sample "fast" at 333333333333 ps original 4 export 0\n'),
    ('slow_before_fast', [1, 0], [3, 4, 0], 'NO 10 sample "slow" at 500000000000 ps original 2 export 0\n'),
    ('slow_at_the_start', [0, 2], [3, 0, 5], 'NO 10 sample "slow" at 0 ps original 1 export 0\n'),
    ('fast_at_the_start_beside_slow', [0, 2], [0, 4, 5], 'NO 10 sample "fast" at 0 ps original 3 export 0\n'),
    ('fast_at_the_end', [1, 2], [3, 4, 0], 'NO 10 sample "fast" at 666666666666 ps original 5 export 0\n'),
]


# The claims of the tables on three channels, and on two of other rates.
ALL_THREE = ('["b", "ab", "B"]', "", [("0", "6")])
ONE_OF_THREE = ('["ab"]', "", [("0", "6")])
BOTH_RATES = ('["slow", "fast"]', "", [("0", "6")])


def built(kind):
    """The file of this kind."""
    if kind == SMALL:
        return small_file()
    return bytes(header([3, 3, 4], FLOW)) + values([5, 7, -7]) + lane(32, b"+0\x14\x14")


def three_channels(labels, samples):
    """A file of one data record with three channels of one sample, an annotation signal before the last one."""
    edits = []
    for number, label in zip([0, 1, 3], labels):
        edits += [(signal(number, "label"), label), (signal(number, "samples"), "1")]
    return bytes(header([3, 3, 4, 3], edits)) + values(samples[:2]) + lane(32, b"+0\x14\x14") + values(samples[2:])


def two_rates(slow, fast):
    """A file with a channel `slow` of 2 and a channel `fast` of 3 samples a data record."""
    edits = [(signal(0, "label"), "slow"), (signal(1, "label"), "fast"), (signal(1, "samples"), "3")]
    return bytes(header([3, 3, 4], edits)) + values(slow) + values(fast) + lane(32, b"+0\x14\x14")


def rows():
    """Each check: the original, the export, the claim and the line."""
    for claim, table in [(SIX_SECONDS, TEMP_CLAIMED), (TEMP_AND_FLOW, TEMP_AND_FLOW_CLAIMED), (PULSE, PULSE_CLAIMED)]:
        for name, original, export, line in table:
            yield check(name, later(built, original), later(built, export), claim, line)
    for claim, table in [(ALL_THREE, ALL_CLAIMED), (ONE_OF_THREE, ONE_CLAIMED)]:
        for name, labels, samples, line in table:
            original = later(three_channels, ["b", "ab", "B"], [1, 2, 3])
            yield check(name, original, later(three_channels, labels, samples), claim, line)
    for name, slow, fast, line in EARLIEST:
        yield check(name, later(two_rates, [1, 2], [3, 4, 5]), later(two_rates, slow, fast), BOTH_RATES, line)
