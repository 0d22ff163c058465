"""Claims, each with a name and how it is answered: by the name of its refusal, or `taken`."""

# The channels and the interval of a claim.
BEHIND = '\nchannels = ["EEG Fpz-Cz", "ECG"]\n[[keep]]\nfrom = "0"\nto = "4"\n'

# What stands in front of them.
FORMATS = [
    ('one', 'format = 1', 'taken'),
    ('two', 'format = 2', 'taken'),
    ('zero', 'format = 0', 'BadFormat'),
    ('three', 'format = 3', 'BadFormat'),
    ('minus_one', 'format = -1', 'BadFormat'),
    ('one_and_a_dot', 'format = 1.0', 'BadFormat'),
    ('two_and_a_dot', 'format = 2.0', 'BadFormat'),
    ('one_as_text', 'format = "1"', 'BadFormat'),
    ('two_as_text', 'format = "2"', 'BadFormat'),
    ('a_list', 'format = [1, 2]', 'BadFormat'),
    ('none', '', 'BadFormat'),
    ('none_and_a_key', 'blank = []', 'BadFormat'),
    ('three_and_an_unknown_key', 'format = 3\nnote = 1', 'BadFormat'),
    ('three_and_wrong_texts', 'format = 3\nremove-prefix = [""]\nblank = [1]', 'BadFormat'),
    ('one_and_an_unknown_key', 'format = 1\nnote = 1', 'UnknownKey'),
    ('one_and_another_spelling', 'format = 1\nFormat = 1', 'UnknownKey'),
    ('one_an_unknown_key_and_a_wrong_text', 'format = 1\nnote = 1\nremove = [1]', 'UnknownKey'),
    ('two_and_an_unknown_key', 'format = 2\nnote = 1', 'UnknownKey'),
    ('two_and_an_underscore', 'format = 2\nremove_prefix = []', 'UnknownKey'),
    ('two_and_a_capital', 'format = 2\nBlank = []', 'UnknownKey'),
    ('two_an_unknown_key_and_wrong_texts', 'format = 2\nnote = 1\nremove-prefix = [""]\nblank = [1]', 'UnknownKey'),
]

# The same, as TOML or not.
TOML = [
    ('no_value', 'format = ', 'NotToml'),
    ('key_twice', 'format = 1\nformat = 1', 'NotToml'),
    ('number_too_large', 'format = 1\nshift = 9223372036854775808', 'NotToml'),
    ('byte_order_mark', '\ufeffformat = 1', 'taken'),
    ('comments', '# a claim\nformat = 1 # of the first kind', 'taken'),
    ('sign_beyond_ascii', 'format = 1 # µV', 'taken'),
]

# Whole claims.
WHOLE = [
    ('empty', '', 'BadFormat'),
    (
        'unknown_key_before_no_channels',
        'format = 1\nnote = 1\nchannels = []\n[[keep]]\nfrom = "0"\nto = "4"\n',
        'UnknownKey',
    ),
    ('single_quotation_marks', "format = 1\nchannels = ['ECG',]\nkeep = [{from = '0', to = '4'}]\n", 'taken'),
    (
        'keys_in_another_order',
        "blank = ['']\nremove-prefix = ['a']\nchannels = ['ECG']\nkeep = [{from = '0', to = '4'}]\nformat = 2\n",
        'taken',
    ),
    ('no_interval_and_a_wrong_text', 'format = 2\nchannels = ["ECG"]\nblank = [1]\n', 'BadKeep'),
    ('key_within_an_interval', 'format = 2\nchannels = ["ECG"]\n[[keep]]\nfrom = "0"\nto = "4"\nblank = []\n', 'BadKeep'),
]

# Whole claims that are no text, in bytes.
NO_TEXTS = [
    ('byte_in_a_comment', b'format = 1 # \xff\nchannels = ["ECG"]\n[[keep]]\nfrom = "0"\nto = "4"\n', 'NotToml'),
    ('byte_in_a_text', b'format = 1\nremove = ["\xff"]\nchannels = ["ECG"]\n[[keep]]\nfrom = "0"\nto = "4"\n', 'NotToml'),
    (
        'byte_of_two_alone',
        b'format = 2\nremove-prefix = ["\xc3"]\nchannels = ["ECG"]\n[[keep]]\nfrom = "0"\nto = "4"\n',
        'NotToml',
    ),
    (
        'overlong_bytes',
        b'format = 1\nremove = ["\xc0\xaf"]\nchannels = ["ECG"]\n[[keep]]\nfrom = "0"\nto = "4"\n',
        'NotToml',
    ),
]

# How many arrays the value of a key has in one another that a claim may not have.
DEPTHS = [
    ('ten_lists', 10, 'UnknownKey'),
    ('a_thousand_lists', 1000, 'NotToml'),
]

# The value of `channels`.
CHANNELS = [
    ('two', '["EEG Fpz-Cz", "ECG"]', 'taken'),
    ('empty_label', '[""]', 'taken'),
    ('annotations_behind_a_space', '[" EDF Annotations"]', 'taken'),
    ('sixteen_bytes', '["0123456789abcdef"]', 'taken'),
    ('printable_ends', '["~ !"]', 'taken'),
    ('none', '[]', 'BadChannels'),
    ('no_list', '"ECG"', 'BadChannels'),
    ('a_number', '[1]', 'BadChannels'),
    ('a_label_and_a_number', '["ECG", 1]', 'BadChannels'),
    ('a_label_twice', '["ECG", "ECG"]', 'BadChannels'),
    ('a_label_twice_of_three', '["ECG", "EMG", "ECG"]', 'BadChannels'),
    ('seventeen_bytes', '["0123456789abcdefg"]', 'BadChannels'),
    ('a_space_at_the_end', '["ECG "]', 'BadChannels'),
    ('a_tabulator', '["EC\\tG"]', 'BadChannels'),
    ('a_sign_beyond_ascii', '["EKG µV"]', 'BadChannels'),
    ('annotations', '["EDF Annotations"]', 'BadChannels'),
]

# What stands in front of the intervals.
TOP = 'format = 1\nchannels = ["EEG Fpz-Cz", "ECG"]\n'

# The bounds of an interval.
BOUNDS = [
    ('whole_seconds', '0', '4', 'taken'),
    ('as_fine_and_as_large_as_may_be', '0.000000000001', '000999999999.9', 'taken'),
    ('zeros_at_the_end', '0.500000000000000', '1', 'taken'),
    ('empty_interval', '0', '0', 'BadKeep'),
    ('backwards', '4', '0', 'BadKeep'),
    ('plus_sign', '+0', '4', 'BadKeep'),
    ('minus_sign', '-1', '4', 'BadKeep'),
    ('empty_text', '', '4', 'BadKeep'),
    ('bare_dot_in_front', '.5', '4', 'BadKeep'),
    ('bare_dot_at_the_end', '0', '5.', 'BadKeep'),
    ('exponent', '0', '4e0', 'BadKeep'),
    ('space_in_front', '0', ' 4', 'BadKeep'),
    ('ten_digits', '0', '1000000000', 'BadKeep'),
    ('thirteen_digits_behind_the_dot', '0', '4.0000000000001', 'BadKeep'),
]

# The intervals.
INTERVALS = [
    ('to_before_from', '[[keep]]\nto = "4"\nfrom = "0"\n', 'taken'),
    ('numbers', '[[keep]]\nfrom = 0\nto = 4\n', 'BadKeep'),
    ('no_to', '[[keep]]\nfrom = "0"\n', 'BadKeep'),
    ('another_key', '[[keep]]\nfrom = "0"\nto = "4"\nwhy = ""\n', 'BadKeep'),
    ('key_of_the_claim', '[[keep]]\nfrom = "0"\nto = "4"\nshift = 1\n', 'BadKeep'),
    ('single_brackets', '[keep]\nfrom = "0"\nto = "4"\n', 'BadKeep'),
    ('empty_list', 'keep = []\n', 'BadKeep'),
    ('list_of_a_number', 'keep = [1]\n', 'BadKeep'),
    ('none', '', 'BadKeep'),
    ('two_that_touch', '[[keep]]\nfrom = "0"\nto = "2"\n[[keep]]\nfrom = "2"\nto = "4"\n', 'taken'),
    ('two_that_overlap', '[[keep]]\nfrom = "0"\nto = "2"\n[[keep]]\nfrom = "1"\nto = "3"\n', 'BadKeep'),
    ('two_in_another_order', '[[keep]]\nfrom = "2"\nto = "4"\n[[keep]]\nfrom = "0"\nto = "2"\n', 'BadKeep'),
]

# How many intervals of a second there are, each of which begins where the one before ends.
COUNTS = [
    ('a_thousand', 1000, 'taken'),
    ('a_thousand_and_one', 1001, 'BadKeep'),
]

# A line at the top, in both formats.
LINES = [
    ('nothing_hidden', 'anonymous = []', 'taken'),
    (
        'all_hidden',
        'anonymous = ["code", "sex", "birthdate", "name", "patient-extras", "date", "administration", "technician", "equipment", "recording-extras"]',
        'taken',
    ),
    ('no_such_subfield', 'anonymous = ["street"]', 'BadAnonymous'),
    ('subfield_with_a_capital', 'anonymous = ["Name"]', 'BadAnonymous'),
    ('subfield_twice', 'anonymous = ["name", "name"]', 'BadAnonymous'),
    ('hidden_no_list', 'anonymous = "name"', 'BadAnonymous'),
    ('hidden_a_number', 'anonymous = [1]', 'BadAnonymous'),
    ('shift_as_far_on_as_may_be', 'shift = 10000000000', 'taken'),
    ('shift_as_far_back_as_may_be', 'shift = -10000000000', 'taken'),
    ('shift_too_far_on', 'shift = 10000000001', 'BadShift'),
    ('shift_too_far_back', 'shift = -10000000001', 'BadShift'),
    ('shift_with_a_dot', 'shift = 1.0', 'BadShift'),
    ('shift_as_text', 'shift = "1"', 'BadShift'),
    ('removed_texts', 'remove = ["", "Lights off"]', 'taken'),
    ('removed_text_twice', 'remove = ["a", "a"]', 'BadRemove'),
    ('removed_no_list', 'remove = "a"', 'BadRemove'),
    ('removed_a_number', 'remove = [1]', 'BadRemove'),
    ('shift_before_removed', 'shift = 1.0\nremove = [1]', 'BadShift'),
    ('hidden_before_shift', 'anonymous = [1]\nshift = 1.0', 'BadAnonymous'),
]

# A line at the top, in format 1, which hasn't the two keys.
FIRST_LINES = [
    ('prefix_of_format_2', 'remove-prefix = ["a"]', 'UnknownKey'),
    ('no_prefix_of_format_2', 'remove-prefix = []', 'UnknownKey'),
    ('empty_prefix_of_format_2', 'remove-prefix = [""]', 'UnknownKey'),
    ('blank_of_format_2', 'blank = ["a"]', 'UnknownKey'),
    ('no_blank_of_format_2', 'blank = []', 'UnknownKey'),
    ('wrong_blank_of_format_2', 'blank = [1]', 'UnknownKey'),
    ('unknown_key_before_removed', 'remove = [1]\nblank = []', 'UnknownKey'),
]

# A line at the top, in format 2.
SECOND_LINES = [
    ('no_prefix', 'remove-prefix = []', 'taken'),
    ('two_prefixes', 'remove-prefix = ["Lights off", "Apnea"]', 'taken'),
    ('three_prefixes', 'remove-prefix = ["a", "ab", "A"]', 'taken'),
    ('prefix_of_a_space', 'remove-prefix = [" "]', 'taken'),
    ('prefix_by_a_quoted_key', '"remove-prefix" = ["µ"]', 'taken'),
    ('empty_prefix', 'remove-prefix = [""]', 'BadRemovePrefix'),
    ('prefix_and_an_empty_one', 'remove-prefix = ["a", ""]', 'BadRemovePrefix'),
    ('prefix_twice', 'remove-prefix = ["a", "a"]', 'BadRemovePrefix'),
    ('prefix_twice_by_an_escape', 'remove-prefix = ["a", "\\u0061"]', 'BadRemovePrefix'),
    ('prefix_twice_of_three', 'remove-prefix = ["a", "b", "a"]', 'BadRemovePrefix'),
    ('prefix_no_list', 'remove-prefix = "a"', 'BadRemovePrefix'),
    ('prefix_a_number', 'remove-prefix = [1]', 'BadRemovePrefix'),
    ('prefix_and_a_number', 'remove-prefix = ["a", 1]', 'BadRemovePrefix'),
    ('prefix_a_list', 'remove-prefix = [["a"]]', 'BadRemovePrefix'),
    ('no_blank', 'blank = []', 'taken'),
    ('two_blanks', 'blank = ["Lights off", "Apnea"]', 'taken'),
    ('empty_blank', 'blank = [""]', 'taken'),
    ('two_blanks_of_one_letter', 'blank = ["X", "x"]', 'taken'),
    ('blank_twice', 'blank = ["a", "a"]', 'BadBlank'),
    ('empty_blank_twice', 'blank = ["", ""]', 'BadBlank'),
    ('blank_twice_of_three', 'blank = ["a", "b", "a"]', 'BadBlank'),
    ('blank_no_list', 'blank = "a"', 'BadBlank'),
    ('blank_a_number', 'blank = [1]', 'BadBlank'),
    ('blank_and_a_number', 'blank = ["a", 1]', 'BadBlank'),
    ('blank_a_table', 'blank = { text = "a" }', 'BadBlank'),
    ('all_three_keys', 'remove = ["a"]\nremove-prefix = ["a"]\nblank = ["a"]', 'taken'),
    ('removed_before_prefix_and_blank', 'blank = [1]\nremove-prefix = [1]\nremove = [1]', 'BadRemove'),
    ('shift_before_prefix', 'remove-prefix = [""]\nshift = 1.0', 'BadShift'),
    ('removed_before_prefix', 'remove-prefix = [1]\nremove = ["a", "a"]', 'BadRemove'),
    ('prefix_before_blank', 'blank = ["a", "a"]\nremove-prefix = [""]', 'BadRemovePrefix'),
    ('prefix_and_blank_twice', 'blank = ["a", "a"]\nremove-prefix = ["a"]', 'BadBlank'),
]

# How many bytes a comment fills a claim up to.
SIZES = [
    ('as_long_as_may_be', 65536, 'taken'),
    ('a_byte_too_long', 65537, 'TooLong'),
]

# How many bytes 255 there are, and nothing else.
BYTES = [
    ('as_long_as_may_be', 65536, 'NotToml'),
    ('a_byte_too_long', 65537, 'TooLong'),
]


def rows():
    """Each claim: its name, its text, and how it is answered."""
    for name, front, want in FORMATS:
        yield f"format_{name}", front + BEHIND, want
    for name, front, want in TOML:
        yield f"toml_{name}", front + BEHIND, want
    for name, text, want in WHOLE:
        yield f"whole_{name}", text, want
    for name, depth, want in DEPTHS:
        yield f"value_of_{name}", f"format = 1\nnote = {'[' * depth}{']' * depth}" + BEHIND, want
    for name, channels, want in CHANNELS:
        yield f"channels_{name}", f'format = 1\nchannels = {channels}\n[[keep]]\nfrom = "0"\nto = "4"\n', want
    yield from of_intervals()
    for form, lines in ((1, FIRST_LINES), (2, SECOND_LINES)):
        for name, line, want in LINES + lines:
            yield f"in_format_{form}_{name}", f"format = {form}\n{line}{BEHIND}", want
    for name, size, want in SIZES:
        text = TOP + '[[keep]]\nfrom = "0"\nto = "4"\n#'
        yield f"comment_{name}", text + "x" * (size - len(text)), want
    for name, size, want in BYTES:
        yield f"bytes_of_255_{name}", b"\xff" * size, want
    for name, text, want in NO_TEXTS:
        yield f"no_text_{name}", text, want


def of_intervals():
    """Those that are about intervals and their bounds."""
    for name, start, end, want in BOUNDS:
        yield f"bounds_{name}", f'{TOP}[[keep]]\nfrom = "{start}"\nto = "{end}"\n', want
    for name, intervals, want in INTERVALS:
        yield f"intervals_{name}", TOP + intervals, want
    for name, count, want in COUNTS:
        intervals = "".join(f'[[keep]]\nfrom = "{at}"\nto = "{at + 1}"\n' for at in range(count))
        yield f"intervals_{name}", TOP + intervals, want
