"""Two files of one data record whose samples differ in a single byte: the low one or the high one of each sample in
turn, where the channel lies in front of the annotation signal in both files, and where it lies behind it in one."""

from tests.cases import check, later
from tests.edf import lane, signal
from tests.recordings import bytes_of, recording

# How many bytes the samples have: 40 samples in a second, whose values are their numbers.
BYTES = 80

CLAIM = ('["ECG"]', "", [("0", "1")])


def file_of(is_channel_first, changed=None):
    """The file; the lowest bit of the byte that is changed is turned."""
    samples = bytearray(BYTES)
    samples[0::2] = range(BYTES // 2)
    if changed is not None:
        samples[changed] ^= 1
    channel, notes = (0, 1) if is_channel_first else (1, 0)
    parts = [bytes(samples), lane(32, b"+0\x14\x14")]
    edits = [(signal(channel, "samples"), "40"), (signal(notes, "samples"), "16")]
    signals = [1, 2] if is_channel_first else [2, 1]
    return bytes_of(recording(signals=signals, edits=edits, parts=parts if is_channel_first else parts[::-1]))


def line_of(changed):
    """The line where this byte of the export is changed: its sample has another value."""
    if changed is None:
        return "YES channels 1 samples 40 annotations 0\n"
    number = changed // 2
    value = number ^ 1 if changed % 2 == 0 else number + 256
    return f'NO 10 sample "ECG" at {number * 25 * 10**9} ps original {number} export {value}\n'


def rows():
    """Each check: the original, the export, the claim and the line."""
    for is_channel_first in [True, False]:
        place = "channel_first_in_both" if is_channel_first else "annotations_first_in_the_export"
        for changed in [None, *range(BYTES)]:
            name = f"{place}_no_byte" if changed is None else f"{place}_byte_{changed}"
            export = later(file_of, is_channel_first, changed)
            yield check(name, later(file_of, True), export, CLAIM, line_of(changed))
