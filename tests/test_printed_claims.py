"""`edfclaim claim`: claims in many spellings, with the text that is printed of each, and those of tests/cases/claim_texts.py.

What is printed is read by the second reading of the rules (tests/reading/rules.py), which reads TOML by Python's tomllib, and by
the module for Python: both say what the claim says. It is printed again as it stands.
"""

import sys

from tests import night
from tests.cases import claim_texts
from tests.harness import NIGHT, TOP, ProgramCase, each
from tests.oracle import cases
from tests.reading import rules

sys.path.insert(0, str(TOP / "extras"))
import edfclaim  # noqa: E402

PS = 10**12
MOST = 65_536


def items(key, texts):
    """The lines of an array of texts, which have nothing to escape."""
    return f"{key} = [\n" + "".join(f'  "{text}",\n' for text in texts) + "]\n"


def printed(keep, channels=("ECG",), anonymous=(), shift=0, remove=(), more=None):
    """The text that is printed of a claim: `keep` are the lines of the intervals, and `more` the prefixes and the texts that are
    blanked, where there are some."""
    text = f"format = {2 if more else 1}\n{items('channels', channels)}keep = [\n{keep}]\n{items('anonymous', anonymous)}"
    text += f"shift = {shift}\n{items('remove', remove)}"
    return text + (items("remove-prefix", more[0]) + items("blank", more[1]) if more else "")


KEPT = '  { from = "0", to = "4" }, # 0 ps to 4000000000000 ps\n'
HEAD, BEHIND = 'format = 1\nchannels = ["ECG"]\n', '[[keep]]\nfrom = "0"\nto = "4"\n'

# What a claim is written like, and what is printed of it.
SPELLINGS = [
    ("defaults", HEAD + BEHIND, printed(KEPT)),
    (
        "each_key_of_format_1",
        f'format = 1\nchannels = ["ECG", "EEG Fpz-Cz"]\nanonymous = {rules.SUBFIELDS}\nshift = -86400\nremove = ["b", "a"]\n{BEHIND}',
        printed(KEPT, ("ECG", "EEG Fpz-Cz"), rules.SUBFIELDS, -86400, ("b", "a")),
    ),
    (
        "each_key_of_format_2",
        f'format = 2\nchannels = ["ECG"]\nanonymous = ["name"]\nshift = 1\nremove = ["b"]\nremove-prefix = ["c", "cd"]\n'
        f'blank = ["", "X"]\n{BEHIND}',
        printed(KEPT, anonymous=["name"], shift=1, remove=["b"], more=(["c", "cd"], ["", "X"])),
    ),
    ("format_2_that_needs_no_more_than_1", f'format = 2\nchannels = ["ECG"]\nblank = []\n{BEHIND}', printed(KEPT)),
    ("a_prefix_alone", f'format = 2\nchannels = ["ECG"]\nremove-prefix = ["M"]\n{BEHIND}', printed(KEPT, more=(["M"], []))),
    ("a_blanked_text_alone", f'format = 2\nchannels = ["ECG"]\nblank = ["M"]\n{BEHIND}', printed(KEPT, more=([], ["M"]))),
    ("another_order", 'keep = [{to = "4", from = "0"}]\nchannels = ["ECG"]\nformat = 1\n', printed(KEPT)),
    ("byte_order_mark", f"\ufeff{HEAD}{BEHIND}", printed(KEPT)),
    ("ends_of_two_bytes", f"{HEAD}{BEHIND}".replace("\n", "\r\n"), printed(KEPT)),
    ("comments", f"# a claim\n{HEAD}# all of it\n{BEHIND}# and no more", printed(KEPT)),
    (
        "arrays_over_lines", 'format = 1\nchannels = [ # one\n\n  "ECG", # this\n]\nremove = [\n"a"\n,\n"b"]\n' + BEHIND,
        printed(KEPT, remove=["a", "b"]),
    ),
    ("table_over_lines", f'{HEAD}keep = [{{\n    from = "0",\n    to = "4"\n}}]\n', printed(KEPT)),
    ("comma_at_the_end_of_a_table", f'{HEAD}keep = [{{from = "0", to = "4",}},]\n', printed(KEPT)),
    ("quoted_keys", f"'format' = 1\n\"channels\" = [\"ECG\"]\n{BEHIND}", printed(KEPT)),
    ("numbers", f'format = 0x1\nchannels = ["ECG"]\nshift = -86_400\n{BEHIND}', printed(KEPT, shift=-86400)),
    ("plus_sign", f'format = +1\nchannels = ["ECG"]\nshift = +5\n{BEHIND}', printed(KEPT, shift=5)),
    ("largest_shift_back", f'{HEAD}shift = -10000000000\n{BEHIND}', printed(KEPT, shift=-10**10)),
    ("single_quotation_marks", f"{HEAD}remove = ['a\\b \"c\"']\n{BEHIND}", printed(KEPT, remove=['a\\\\b \\"c\\"'])),
    ("escapes_of_1_0", f'{HEAD}remove = ["\\u0041\\t\\n\\"\\\\"]\n{BEHIND}', printed(KEPT, remove=['A\\u0009\\u000a\\"\\\\'])),
    ("escapes_of_1_1", f'{HEAD}remove = ["\\x22\\x41\\e"]\n{BEHIND}', printed(KEPT, remove=['\\"A\\u001b'])),
    ("lowest_and_highest_control", f'{HEAD}remove = ["\\x00\\x1f\\x7f "]\n{BEHIND}',
     printed(KEPT, remove=["\\u0000\\u001f\\u007f "])),
    ("text_over_lines", f"{HEAD}remove = ['''\na\nb''', '''\r\na\r\nb''']\n{BEHIND}",
     printed(KEPT, remove=["a\\u000ab", "a\\u000d\\u000ab"])),
    ("line_that_is_folded", f'{HEAD}remove = ["""a \\\n   b"""]\n{BEHIND}', printed(KEPT, remove=["a b"])),
    ("other_signs", f'{HEAD}remove = ["µ é \u202e\u0085 \U0001f319", "\\u00e9"]\n{BEHIND}',
     printed(KEPT, remove=["µ é \u202e\u0085 \U0001f319", "é"])),
    ("labels", f"format = 1\nchannels = ['', ' a\"b\\', '}}, #']\n{BEHIND}", printed(KEPT, ("", ' a\\"b\\\\', "}, #"))),
    (
        "intervals",
        HEAD + "".join(f'[[keep]]\nfrom = "{low}"\nto = "{high}"\n' for low, high in
                       [("0000.000", "0.000000000001"), ("0.500", "1"), ("10.010", "0999999999.999999999999")]),
        printed(
            '  { from = "0", to = "0.000000000001" }, # 0 ps to 1 ps\n'
            '  { from = "0.5", to = "1" }, # 500000000000 ps to 1000000000000 ps\n'
            '  { from = "10.01", to = "999999999.999999999999" }, # 10010000000000 ps to 999999999999999999999 ps\n'
        ),
    ),
]


def lines_of(intervals, says_ps):
    """The lines of intervals of whole seconds."""
    return "".join(
        f'  {{ from = "{low}", to = "{high}" }},' + (f" # {low * PS} ps to {high * PS} ps\n" if says_ps else "\n")
        for low, high in intervals)


def many(count, first):
    """Intervals of a second each, one behind the other, and a claim that keeps them."""
    intervals = [(first + 2 * at, first + 2 * at + 1) for at in range(count)]
    return intervals, HEAD + "".join(f'[[keep]]\nfrom = "{low}"\nto = "{high}"\n' for low, high in intervals)


class Printed(ProgramCase):
    """What is printed of claims."""

    def printed_of(self, claim):
        """The text that is printed of a claim."""
        ran = self.run_program("claim", self.file("claim.toml", claim))
        self.assertTrue(ran.status == 0 and not ran.err, str(ran))
        return ran.out

    def assert_says(self, text, wanted):
        """A text that is printed says this claim, to the second reading and to the module for Python, and is printed again."""
        claimed = rules.claim(text)
        self.assertEqual(claimed, wanted)
        said = edfclaim.claim(self.file("printed.toml", text), program=self.program)
        values = said.channels, said.intervals, said.anonymous, said.shift, said.remove, said.remove_prefix, said.blank
        names = (claimed.labels, [tuple(each) for each in claimed.keep], claimed.anonymous, claimed.shift, claimed.remove,
                 claimed.prefixes, claimed.blank)
        self.assertEqual(values, names)
        self.assertEqual((said.text.encode(), said.excess), (text, 0))

    @each(SPELLINGS)
    def spelling(self, claim, wanted):
        text = self.printed_of(claim)
        self.assertEqual(text.decode(), wanted)
        self.assert_says(text, rules.claim(wanted.encode()))

    @each((name, text) for name, text, want in claim_texts.rows() if want == "taken")
    def taken(self, claim):
        claim = claim.encode() if isinstance(claim, str) else claim
        text = self.printed_of(claim)
        try:
            wanted = rules.claim(claim)
        except rules.Refused:
            # Python's reader knows no TOML 1.1, and no byte order mark
            wanted = rules.claim(text)
        self.assert_says(text, wanted)

    @each((name, text, want) for name, text, want in claim_texts.rows() if want != "taken")
    def refused(self, claim, want):
        self.assert_refused(self.run_program("claim", self.file("claim.toml", claim)), f"edfclaim: claim refused: {want}")

    @each((path.stem.replace("-", "_"), path.name) for path in sorted(NIGHT.glob("*.toml")) if path.name != "refused.toml")
    def of_the_night(self, name):
        claim = (NIGHT / name).read_bytes()
        self.assert_says(self.printed_of(claim), rules.claim(claim))

    def test_random_claims(self):
        """Of 900 random documents each is refused by the cause that the second reading names, or printed as what it says."""
        cases.choose.seed(20)
        taken = 0
        for _ in range(900):
            document = cases.claim()
            try:
                wanted = rules.claim(document)
            except rules.Refused as cause:
                ran = self.run_program("claim", self.file("claim.toml", document))
                self.assert_refused(ran, f"edfclaim: claim refused: {cause}")
            else:
                taken += 1
                self.assert_says(self.printed_of(document), wanted)
        self.assertGreater(taken, 100)

    # A thousand intervals, and whether their times in picoseconds have room in the text.
    @each([("with_picoseconds", 500, 100, True), ("a_thousand_without_picoseconds", 1000, 10_000, False)])
    def intervals(self, count, first, says_ps):
        intervals, claim = many(count, first)
        text = self.printed_of(claim)
        self.assertEqual(text.decode(), printed(lines_of(intervals, says_ps)))
        self.assert_says(text, rules.claim(claim.encode()))
        self.assertEqual(len(printed(lines_of(intervals, True))) <= MOST, says_ps)

    def test_last_length_with_picoseconds(self):
        """A text of just 65,536 bytes has its times in picoseconds, and one of a byte more hasn't."""
        room = MOST - len(printed(KEPT, remove=[""]))
        for length, says_ps in ((room, True), (room + 1, False)):
            text = self.printed_of(f'{HEAD}remove = ["{"a" * length}"]\n{BEHIND}')
            keep = KEPT if says_ps else '  { from = "0", to = "4" },\n'
            self.assertEqual(text.decode(), printed(keep, remove=["a" * length]))

    # Labels in a denser form than the printed one, and how many bytes too many are printed.
    @each([("by_one_byte", 1), ("by_ten", 10), ("by_a_thousand", 1000)])
    def too_long(self, excess):
        plain = '  { from = "0", to = "4" },\n'
        length = MOST + excess - len(printed(plain, remove=["", ""]))
        # a line end has six bytes where it is printed, and one in this claim
        ends, rest = divmod(length, 6)
        claim = f"{HEAD}remove = [\"{'b' * rest}\", '''\n{chr(10) * ends}''']\n{BEHIND}"
        wanted = printed(plain, remove=["b" * rest, "\\u000a" * ends])
        self.assertEqual(len(wanted), MOST + excess)
        text = self.printed_of(claim).decode()
        self.assertEqual(text, f"{wanted}# too long for a claim; bytes that are too many: {excess}\n")
        said = edfclaim.claim(self.file("claim.toml", claim), program=self.program)
        self.assertEqual((said.excess, said.remove, said.text), (excess, ["b" * rest, "\n" * ends], text))
        self.assert_refused(
            self.run_program("claim", self.file("printed.toml", text)), "edfclaim: claim refused: TooLong")

    @each([("the_claim_itself", night.CUT), ("with_ends_of_two_bytes", night.CUT.replace("\n", "\r\n"))])
    def answer_of_check(self, claim):
        """The printed claim has the answer of the claim."""
        text = self.printed_of(claim)
        ran = self.run_program("check", "original.edf", "cut.edf", self.file("printed.toml", text))
        self.assert_ran(ran, 0, "YES channels 3 samples 13590 annotations 5\n")
