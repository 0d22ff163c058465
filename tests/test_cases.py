"""The program on the small files of the tables in tests/cases: the line of each, and the status that goes with it.

A row's checks are judged by the second reading of the rules (tests/reading), too: the line of its table has to be the one
that this gives. Of a sweep no line is stored, and it is the one that the second reading gives. The status is 0 where the
line says Yes or a start or there is none, and 1 where it says No; standard error stays empty.
"""

from tests.cases import BY_RULES, all_rows
from tests.harness import ProgramCase, each, run
from tests.reading import parts_rules, verdict_rules

# Of each command the names of its files, in the order of its words; several exports are counted.
ROLES = {"check": ["original", "export", "claim"], "check-parts": ["original", "claim"]}


def second_reading(command, files):
    """The line of a check by the second reading of the rules, which writes bytes as the signs of their numbers."""
    if command == "check":
        line = verdict_rules.line(*files)
    else:
        original, claim, *exports = files
        line = parts_rules.line(original, claim, exports)
    return line.encode("latin1") + b"\n"


class Cases(ProgramCase):
    """The rows of all tables."""

    def paths(self, command, files):
        """The files in the room. What a table has in many rows isn't written again."""
        roles = ROLES.get(command, ["file"])
        roles = roles + [f"export-{number}" for number in range(len(files) - len(roles))]
        return [self.file(role, content) for role, content in zip(roles, files, strict=True)]

    @each((row.name, row) for row in all_rows())
    def case(self, row):
        files, wanted = row.made(), row.wanted()
        if row.command in ROLES:
            read = second_reading(row.command, files)
            wanted = read if row.line is BY_RULES else wanted
            self.assertEqual(read, wanted, "the second reading of the rules gives the first, the table has the second")
        ran = run(self.program, row.command, *self.paths(row.command, files), cwd=self.room)
        if wanted is None or wanted.startswith(b"start "):
            self.assertTrue((ran.status, ran.err) == (0, b"") and ran.out.startswith(b"kind "), f"{ran}\nwanted: the header")
            if wanted:
                self.assertEqual(ran.out.splitlines(keepends=True)[1], wanted, str(ran))
        else:
            self.assert_ran(ran, 0 if wanted.startswith((b"YES ", b"CONFORMS ")) else 1, wanted)
