"""Twelve seconds of one channel, cut into data records of several lengths: how they are cut changes no line."""

from tests.cases import check, later
from tests.edf import field, lane, signal, values
from tests.recordings import bytes_of, recording

# How many data records a file of twelve seconds has, and how many seconds each of them.
CUTS = [(12, 1), (6, 2), (4, 3), (3, 4), (2, 6), (1, 12)]

# The claim that keeps all of them.
CLAIM = ('["Temp"]', "", [("0", "12")])


def cut_file(records, seconds, raised=None):
    """The file that is cut so, with one sample each second. The value at a second is its number, and one more
    where it is the second that is raised."""
    edits = [(field("records"), str(records)), (field("duration"), str(seconds)), (signal(0, "samples"), str(seconds))]
    parts = []
    for start in range(0, records * seconds, seconds):
        parts.append(values([at + (at == raised) for at in range(start, start + seconds)]))
        parts.append(lane(32, b"+%d\x14\x14" % start))
    return bytes_of(recording(signals=[3, 4], edits=edits, parts=parts))


def rows():
    """Each check: the original, the export, the claim and the line."""
    for original in CUTS:
        for export in CUTS:
            name = f"records_of_{original[1]}_s_as_records_of_{export[1]}_s"
            files = later(cut_file, *original), later(cut_file, *export)
            yield check(name, *files, CLAIM, "YES channels 1 samples 12 annotations 0\n")
            for at in range(12):
                line = f'NO 10 sample "Temp" at {at * 10**12} ps original {at} export {at + 1}\n'
                yield check(f"{name}_with_another_value_at_{at}_s", files[0], later(cut_file, *export, at), CLAIM, line)
