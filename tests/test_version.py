"""Whether the program, its manual pages, the changelogs, the receipts of the example night and the pages say the same
version as the crate edf_command_line. Of a page all that follows the program's name, as in a receipt or in the name of a
package, has to be that version."""

import re

from tests.harness import NIGHT, TOP, Case, ProgramCase, each, slug

CRATE = TOP / "crates" / "edf_command_line" / "src" / "lib.rt"
VERSION = re.search(r'^pub const VERSION: &str = "(.*)";$', CRATE.read_text(encoding="utf-8"), re.M)[1]
SAID = re.compile(r"edfclaim[ _-](\d+\.\d+\.\d+)")


def pages():
    """The pages that say a version, each with a name."""
    for path in [TOP / "README.md", *sorted((TOP / "docs").glob("*.md")), *sorted((TOP / "docs").glob("*.1"))]:
        if SAID.search(path.read_text(encoding="utf-8")):
            yield slug(path.name), path


class Program(ProgramCase):
    """What the program says."""

    def test_version(self):
        self.assert_ran(self.run_program("--version"), 0, f"edfclaim {VERSION}\n")


class Places(Case):
    """What stands elsewhere."""

    # A place, its file, and what stands before and behind the version.
    PLACES = [
        ("manual_page", "docs/edfclaim.1", r'^\.TH EDFCLAIM 1 "" "edfclaim (.*)" "User Commands"$'),
        ("manual_page_of_look", "docs/edfclaim-look.1", r'^\.TH EDFCLAIM-LOOK 1 "" "edfclaim (.*)" "User Commands"$'),
        ("changelog", "CHANGELOG.md", r"^## ([0-9.]*)"),
        ("changelog_of_debian", "debian/changelog", r"\Aedfclaim \(([^)]*)\) "),
    ]

    @each(PLACES)
    def place(self, name, pattern):
        found = re.search(pattern, (TOP / name).read_text(encoding="utf-8"), re.M)
        self.assertEqual(found and found[1], VERSION, name)

    @each([("receipt", "receipt.txt"), ("receipt_of_parts", "receipt-parts.txt")])
    def stored(self, name):
        first = (NIGHT / name).read_text(encoding="utf-8").partition("\n")[0]
        self.assertEqual(first, f"edfclaim {VERSION}", f"the first line of {name}")

    @each(pages())
    def page(self, path):
        self.assertEqual(set(SAID.findall(path.read_text(encoding="utf-8"))), {VERSION}, path.name)
