"""Labels in the order of their bytes: of two channels that aren't claimed, the least is named."""

from tests.cases import check, later
from tests.cases.small_night import SIX_SECONDS
from tests.edf import lane, signal, values
from tests.recordings import header, small_file

# Two labels, and the line that names the first of them.
ORDERED = [
    ('nothing_before_a_mark', '', '!', 'NO 5 extra channel ""\n'),
    ('a_space_before_a_letter', ' Temp', 'Flow', 'NO 5 extra channel " Temp"\n'),
    ('a_front_before_the_whole', 'EEG', 'EEG 2', 'NO 5 extra channel "EEG"\n'),
    ('a_digit_before_a_digit', 'EEG 10', 'EEG 2', 'NO 5 extra channel "EEG 10"\n'),
    ('capitals_in_order', 'Flow', 'Temp2', 'NO 5 extra channel "Flow"\n'),
    ('a_capital_before_a_small_letter', 'Temp2', 'flow', 'NO 5 extra channel "Temp2"\n'),
    ('all_capitals_before_small_letters', 'TEMP', 'temp', 'NO 5 extra channel "TEMP"\n'),
    ('a_letter_before_a_tilde', 'temp', '~', 'NO 5 extra channel "temp"\n'),
]


def labelled(first, second):
    """The small file with two more channels of two samples, of these labels."""
    edits = [(signal(0, "label"), first), (signal(2, "label"), second)]
    return bytes(header([3, 3, 3, 4], edits)) + values([1, 2, 7, -7, 3, 4]) + lane(32, b"+0\x14\x14")


def rows():
    """Each check: the original, the export, the claim and the line."""
    for name, low, high, line in ORDERED:
        for way, first, second in (("", low, high), ("_exchanged", high, low)):
            yield check(name + way, small_file, later(labelled, first, second), SIX_SECONDS, line)
