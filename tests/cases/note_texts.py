"""What claims of format 2 make of the texts of annotations: which are removed by their begin, and which are blanked."""

from tests.cases import check, later
from tests.cases.small_night import BOTH, EXCERPT, NIGHT, VALUES_1, VALUES_2
from tests.edf import field, lane
from tests.recordings import recorded, recording

NO_NOTES = 'YES channels 2 samples 6 annotations 0\n'

ONE_NOTE = 'YES channels 2 samples 6 annotations 1\n'

TWO_NOTES = 'YES channels 2 samples 6 annotations 2\n'


def missing(text):
    """The line where an annotation with this text is missing at half a second."""
    return f'NO 11 annotation missing at 500000000000 ps duration none text "{text}"\n'


def extra(text):
    """The same where it is extra."""
    return f'NO 11 annotation extra at 500000000000 ps duration none text "{text}"\n'


# The further lines of a claim that removes texts by their begin; by them the texts at half a second in the original
# and in the export, and the line.
REMOVED = [
    # a whole text as a prefix
    ('remove-prefix = ["Apnea"]', [
        ('whole_text_as_a_prefix', ['Apnea'], [], NO_NOTES),
        ('whole_text_as_a_prefix_and_left', ['Apnea'], ['Apnea'], extra('Apnea')),
        ('longer_text', ['Apnea 2'], [], NO_NOTES),
        ('shorter_text', ['Apne'], ['Apne'], ONE_NOTE),
        ('other_letters', ['apnea'], ['apnea'], ONE_NOTE),
        ('empty_text', [''], [''], ONE_NOTE),
        ('empty_text_missing', [''], [], missing('')),
    ]),
    # two of which one begins with the other; behind the longer one in their order there is a text of the shorter one
    ('remove-prefix = ["Ap", "Apnea"]', [
        ('two_prefixes', ['Ap', 'Apnea', 'Apnea 2', 'Apz', 'A'], ['A'], ONE_NOTE),
        ('text_of_the_shorter_prefix_left', ['Apz'], ['Apz'], extra('Apz')),
    ]),
    ('remove-prefix = ["Apnea", "Ap"]', [
        ('two_prefixes_in_another_order', ['Ap', 'Apnea', 'Apnea 2', 'Apz', 'A'], ['A'], ONE_NOTE),
        ('shorter_text_missing', ['A'], [], missing('A')),
    ]),
    # one that a text has in its middle or at its end alone
    ('remove-prefix = ["ne"]', [
        ('prefix_at_the_end', ['Apnea'], ['Apnea'], ONE_NOTE),
        ('prefix_at_the_end_and_missing', ['Apnea'], [], missing('Apnea')),
        ('prefix_behind_a_space', [' ne'], [' ne'], ONE_NOTE),
    ]),
    # one of two bytes, the first of which another text begins with
    ('remove-prefix = ["é"]', [
        ('prefix_of_two_bytes', ['été', 'ê'], ['ê'], ONE_NOTE),
        ('first_byte_of_a_prefix', ['ê'], [], missing('ê')),
    ]),
    # beside whole texts
    ('remove = ["Snore"]\nremove-prefix = ["Ap"]', [
        ('whole_text_and_prefix', ['Snore', 'Apnea', 'Snores'], ['Snores'], ONE_NOTE),
    ]),
]

# The same of a claim that blanks texts.
BLANKED = [
    ('blank = ["Apnea"]', [
        ('blanked', ['Apnea'], ['X'], ONE_NOTE),
        ('left', ['Apnea'], ['Apnea'], extra('Apnea')),
        ('missing', ['Apnea'], [], missing('X')),
        ('a_small_x', ['Apnea'], ['x'], missing('X')),
        ('two_x', ['Apnea'], ['XX'], missing('X')),
        ('an_empty_text', ['Apnea'], [''], extra('')),
        # another text that begins with it
        ('longer_text_left', ['Apnea 2'], ['Apnea 2'], ONE_NOTE),
        # X for a text that isn't blanked: one before X in the order of texts, and one behind it
        ('x_for_a_text_before_it', ['Arousal'], ['X'], missing('Arousal')),
        ('x_for_a_text_behind_it', ['Zzz'], ['X'], extra('X')),
        # an X of the original's own beside it
        ('beside_an_x_of_the_original', ['X', 'Apnea'], ['X', 'X'], TWO_NOTES),
        ('beside_an_x_of_the_original_and_missing', ['X', 'Apnea'], ['X'], missing('X')),
        ('beside_an_x_of_the_original_and_left', ['X', 'Apnea'], ['X', 'Apnea'], extra('Apnea')),
    ]),
    # one behind X in the order of texts
    ('blank = ["Zzz"]', [
        ('text_behind_x', ['Zzz'], ['X'], ONE_NOTE),
        ('text_behind_x_left', ['Zzz'], ['Zzz'], missing('X')),
    ]),
    # two that both become X
    ('blank = ["Arousal", "Apnea"]', [
        ('two_texts', ['Apnea', 'Arousal'], ['X', 'X'], TWO_NOTES),
        ('two_texts_and_one_missing', ['Apnea', 'Arousal'], ['X'], missing('X')),
        ('two_texts_and_an_x_more', ['Apnea', 'Arousal'], ['X', 'X', 'X'], extra('X')),
        ('two_texts_and_one_left', ['Apnea', 'Arousal'], ['X', 'Arousal'], extra('Arousal')),
    ]),
    # the empty text, and X itself
    ('blank = [""]', [
        ('empty_text_blanked', [''], ['X'], ONE_NOTE),
        ('empty_text_left', [''], [''], extra('')),
        ('another_text_than_the_empty_one', ['Apnea'], ['X'], missing('Apnea')),
    ]),
    ('blank = ["X"]', [
        ('x_blanked', ['X'], ['X'], ONE_NOTE),
        ('x_missing', ['X'], [], missing('X')),
    ]),
]

# The same of a claim that has both keys, or removes whole texts and blanks.
BOTH_WAYS = [
    # what is removed isn't blanked
    ('remove = ["Apnea"]\nblank = ["Apnea"]', [
        ('removed_and_blanked', ['Apnea'], [], NO_NOTES),
        ('removed_and_an_x_there', ['Apnea'], ['X'], extra('X')),
        ('removed_and_left', ['Apnea'], ['Apnea'], extra('Apnea')),
    ]),
    ('remove-prefix = ["Ap"]\nblank = ["Apnea", "Arousal"]', [
        ('prefix_and_two_blanked', ['Apnea', 'Arousal'], ['X'], ONE_NOTE),
        ('prefix_and_an_x_more', ['Apnea', 'Arousal'], ['X', 'X'], extra('X')),
    ]),
    # a text is removed by itself, and not by the X in its place
    ('remove-prefix = ["X"]\nblank = ["Apnea"]', [
        ('x_removed_and_another_blanked', ['Apnea'], ['X'], ONE_NOTE),
        ('x_removed_beside_another_blanked', ['Apnea', 'X'], ['X'], ONE_NOTE),
        ('x_removed_and_the_other_missing', ['Apnea'], [], missing('X')),
    ]),
    ('remove-prefix = []\nblank = []', [
        ('neither', ['Apnea'], ['Apnea'], ONE_NOTE),
        ('neither_and_an_x_there', ['Apnea'], ['X'], missing('Apnea')),
    ]),
]

# The annotations in the lane of the original and in that of the export, and the line, where `Apnea` is blanked.
TIMES = [
    ('duration_of_a_second', b'+0.5\x151\x14Apnea\x14\x00', b'+0.5\x151\x14X\x14\x00', ONE_NOTE),
    ('duration_of_nothing_added', b'+0.5\x14Apnea\x14\x00', b'+0.5\x150\x14X\x14\x00', missing('X')),
    ('duration_lost', b'+0.5\x151\x14Apnea\x14\x00', b'+0.5\x14X\x14\x00', extra('X')),
    (
        'another_duration',
        b'+0.5\x151\x14Apnea\x14\x00',
        b'+0.5\x152\x14X\x14\x00',
        'NO 11 annotation missing at 500000000000 ps duration 1000000000000 ps text "X"\n',
    ),
    (
        'earlier',
        b'+0.5\x14Apnea\x14\x00',
        b'+0.4\x14X\x14\x00',
        'NO 11 annotation extra at 400000000000 ps duration none text "X"\n',
    ),
    ('in_another_order', b'+0.5\x14Apnea\x14\x00+0.6\x14Apnea\x14\x00', b'+0.6\x14X\x14\x00+0.5\x14X\x14\x00', TWO_NOTES),
    # before the interval that is kept
    ('before_the_interval', b'-0.5\x14Apnea\x14\x00', b'', NO_NOTES),
    (
        'before_the_interval_and_there',
        b'-0.5\x14Apnea\x14\x00',
        b'-0.5\x14X\x14\x00',
        'NO 11 annotation extra at -500000000000 ps duration none text "X"\n',
    ),
]

# The second and third second of the night, anonymous and a day earlier, with `Apnea` blanked.
MIDDLE = (BOTH, 'anonymous = ["code", "birthdate", "name"]\nshift = -86400\nblank = ["Apnea"]', [('1', '3')], 2)

BLANKED_EXCERPT = recording(
    parts=[VALUES_1, lane(40, b'+0\x14\x14\x00+0.5\x151\x14X\x14\x00'), VALUES_2, lane(40, b'+1\x14\x14\x00')],
    base=EXCERPT,
)

MIDDLE_ROWS = [
    ('anonymous_and_a_day_earlier', NIGHT, BLANKED_EXCERPT, MIDDLE, 'YES channels 2 samples 12 annotations 1\n'),
    (
        'anonymous_and_a_day_earlier_and_left',
        NIGHT,
        EXCERPT,
        MIDDLE,
        'NO 11 annotation extra at 1500000000000 ps duration 1000000000000 ps text "Apnea"\n',
    ),
]


def second(notes):
    """A file of one second with these annotations in its lane."""
    return recorded([(field("records"), "1")], [b"+0\x14\x14\0" + notes])


def at_half(texts):
    """A file of one second with these texts at half a second."""
    return second(b"+0.5\x14" + "".join(f"{text}\x14" for text in texts).encode() + b"\0" if texts else b"")


# The tables of texts, by the key that they are about.
TABLES = {"removed": REMOVED, "blanked": BLANKED, "both": BOTH_WAYS}


def rows():
    """Each check: the original, the export, the claim and the line."""
    kept = [("0", "1")]
    for front, table in TABLES.items():
        for keys, texts in table:
            for name, original, export, line in texts:
                files = later(at_half, original), later(at_half, export)
                yield check(f"{front}_{name}", *files, (BOTH, keys, kept, 2), line)
    for name, original, export, line in TIMES:
        files = later(second, original), later(second, export)
        yield check(f"blanked_at_{name}", *files, (BOTH, 'blank = ["Apnea"]', kept, 2), line)
    for row in MIDDLE_ROWS:
        yield check(*row)
