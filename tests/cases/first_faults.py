"""Which of two faults of a header is answered: the one that stands first in the order of the tests."""

import collections

from tests.cases import Row, later
from tests.edf import field, signal, words
from tests.harness import slug
from tests.recordings import reference_header

LEADING_SPACE = 'BadSubfields(LeadingSpace)'

# No recording date, one of 2084, and one of 2099: beside the last one alone a startdate may have no year.
DATELESS = ('recording', 'Startdate X PSG-1234/2002 NN Telemetry03')

EARLY = ('recording', 'Startdate 02-MAR-2084 PSG-1234/2002 NN Telemetry03')

LATE = ('recording', 'Startdate 02-MAR-2099 PSG-1234/2002 NN Telemetry03')

# Faults of the fixed part, in the order of their tests. Each stands at its last field.
FIXED = [
    ([('version', '1\x1f')], 'NotPrintable'),
    ([('version', '1')], 'BadVersion'),
    ([('patient', ' \x1f')], 'NotPrintable'),
    ([('patient', ' ')], LEADING_SPACE),
    ([('recording', ' \x1f')], 'NotPrintable'),
    ([('recording', ' ')], LEADING_SPACE),
    ([('startdate', 'x\x1f')], 'NotPrintable'),
    ([DATELESS, ('startdate', '02.03.y\x1f')], 'NotPrintable'),
    ([('startdate', 'x')], 'BadStart'),
    ([DATELESS, ('startdate', '02.03.yy')], 'BadStart'),
    ([EARLY, ('startdate', '03.03.yy')], 'BadStart'),
    ([('startdate', '03.03.02')], 'StartdateDiffers'),
    ([LATE, ('startdate', '03.03.yy')], 'StartdateDiffers'),
    ([('starttime', 'x\x1f')], 'NotPrintable'),
    ([('starttime', 'x')], 'BadStart'),
    ([('header-bytes', 'x\x1f')], 'NotPrintable'),
    ([('header-bytes', 'x')], 'BadNumber'),
    ([('reserved', 'x\x1f')], 'NotPrintable'),
    ([('reserved', 'x')], 'NotEdfPlus'),
    ([('records', 'x\x1f')], 'NotPrintable'),
    ([('records', 'x')], 'BadNumber'),
    ([('duration', '0\x1f')], 'NotPrintable'),
    ([('duration', '0')], 'BadRange'),
    ([('signals', '0\x1f')], 'NotPrintable'),
    ([('signals', '0')], 'BadRange'),
    ([('header-bytes', '1280')], 'BadHeaderSize'),
]

SMALL_LANE = [
    ('digital-minimum', '5'),
    ('label', 'EDF Annotations'),
]

# Faults of any signal, in the order of their tests. Each stands at its last field.
SIGNAL = [
    ([('label', '\x1f')], 'NotPrintable'),
    ([('transducer', '\x1f')], 'NotPrintable'),
    ([('dimension', '\x1f')], 'NotPrintable'),
    ([('physical-minimum', 'x\x1f')], 'NotPrintable'),
    ([('physical-minimum', 'x')], 'BadNumber'),
    ([('physical-maximum', 'x\x1f')], 'NotPrintable'),
    ([('physical-maximum', 'x')], 'BadNumber'),
    ([('digital-minimum', '40000\x1f')], 'NotPrintable'),
    ([('digital-minimum', '40000')], 'BadRange'),
    ([('digital-maximum', 'x\x1f')], 'NotPrintable'),
    ([('digital-maximum', 'x')], 'BadNumber'),
    ([('prefilter', '\x1f')], 'NotPrintable'),
    ([('samples', '0\x1f')], 'NotPrintable'),
    ([('samples', '0')], 'BadRange'),
    ([('reserved', '\x1f')], 'NotPrintable'),
    ([('digital-maximum', '-32768')], 'BadRange'),
    ([('physical-minimum', '5'), ('physical-maximum', '5')], 'BadRange'),
    (SMALL_LANE, 'BadAnnotationSignal'),
]

SIGNALS = field('signals')

FIRST = signal(0, 'label')

SECOND = signal(1, 'label')

THIRD = signal(2, 'label')

# The channels as annotation signals.
NOTES = [
    (FIRST, 'EDF Annotations'),
    (signal(0, 'digital-minimum'), '-32768'),
    (signal(0, 'digital-maximum'), '32767'),
    (SECOND, 'EDF Annotations'),
    (signal(1, 'digital-minimum'), '-32768'),
    (signal(1, 'digital-maximum'), '32767'),
]

# Both channels with one label.
ALIKE = [
    (FIRST, 'ECG'),
    (SECOND, 'ECG'),
]

# More samples than a data record can have.
LARGE = [
    (signal(0, 'samples'), '99999999'),
]

# Faults of the signals together, in the order of their tests. A file has only one of the first two.
JOINT = [
    ([(THIRD, 'EDF Notes')], SIGNALS, 'NoAnnotationSignal'),
    (NOTES, SIGNALS, 'NoOrdinarySignal'),
    (ALIKE, SECOND, 'DuplicateLabel'),
    (LARGE, SIGNALS, 'RecordTooLarge'),
]


def spoil_signal(number, edits, cause):
    """A fault of this signal: what makes it, its place and its cause."""
    return [(signal(number, name), text) for name, text in edits], signal(number, edits[-1][0]), cause


def faults():
    """All faults in the order of their tests."""
    for edits, cause in FIXED:
        yield [(field(name), text) for name, text in edits], field(edits[-1][0]), cause
    for number in range(3):
        for edits, cause in SIGNAL:
            yield spoil_signal(number, edits, cause)
    yield from JOINT


def names_of(found):
    """A name for each of these faults: its cause and its place, with a number behind where others have the same."""
    counts = collections.Counter()
    for _, place, cause in found:
        name = f"{slug(cause)}_at_{slug(words(place))}"
        counts[name] += 1
        yield name if counts[name] == 1 else f"{name}_{counts[name]}"


def rows():
    """Each header with two faults, and the line of `show`, which reads the header alone."""
    all_faults = list(faults())
    names = list(names_of(all_faults))
    no_annotations = len(all_faults) - len(JOINT)
    for later_one in range(len(all_faults)):
        for first in range(later_one + 1):
            # no file has no annotation signal and no channel
            if (first, later_one) == (no_annotations, no_annotations + 1):
                continue
            edits = [*all_faults[later_one][0], *all_faults[first][0]]
            _, place, cause = all_faults[first]
            name = names[first] + ("_alone" if first == later_one else f"_before_{names[later_one]}")
            yield Row(name, "show", (later(reference_header, edits),), f"FAULT {cause} at {words(place)}\n")
