"""The program on the claims of tests/cases/claim_texts.py: each is refused by its name, or taken.

A refused claim has the status 2, its line on standard error and nothing on standard output. One that is taken has the
status 0 or 1 and one line on standard output. The recordings are those of the example night.
"""

from tests.cases import claim_texts
from tests.harness import ProgramCase, each


class Claims(ProgramCase):
    """All claims."""

    @each(claim_texts.rows())
    def claim(self, text, want):
        ran = self.run_program("check", "original.edf", "cut.edf", self.file("claim.toml", text))
        if want == "taken":
            right = ran.status in (0, 1) and ran.out.count(b"\n") == 1 and not ran.err
            self.assertTrue(right, f"{ran}\nwanted: a claim that is taken, and its line: {text[:200]!r}")
        else:
            self.assert_refused(ran, f"edfclaim: claim refused: {want}")
