"""Files that other programs wrote (tests/written): what `conform` and `layout` say of them, and what `check` says of an export
that EDFbrowser cut out of a night which EDFlib wrote.

The lines follow from how the files were made (tests/written/README.md), but for what was read off them: which texts are spelled
how, and how many bytes the annotation signals have.
"""

import pathlib

from tests.harness import ProgramCase, each
from tests.oracle.layout import meaning, printed
from tests.oracle.layout_written import written
from tests.test_layout import BY_TIME, ONE_BY_ONE, TIME, changed, ended, lane, said

WRITTEN = pathlib.Path(__file__).parent / "written"

# The lines of the header of what EDFlib wrote.
HEAD = """\
kind EDF+C
duration 1
records 6
size 1024
signals 3
patient added 0
patient spaces 1 1 1
recording added 0
recording spaces 1 1 1 1
signal 0 samples 8 physical -3276.8 3276.699 digital -32768 32767 label "EEG Fpz-Cz"
signal 1 samples 4 physical -3276.8 3276.699 digital -32768 32767 label "Resp oro-nasal"
signal 2 samples 57 physical -1 1 digital -32768 32767 label "EDF Annotations"
""".splitlines()


def notes_line(size):
    """The other line of a header with an annotation signal of another size."""
    return {"signal 2": f'samples {size} physical -1 1 digital -32768 32767 label "EDF Annotations"'}


def kept(time):
    """The line of a TAL that keeps the time, where its onset is spelled so."""
    return TIME.replace("onset plain", f"onset {time}")


def second(number):
    """The line above a lane of the second annotation signal."""
    return f"data record {number} annotation signal 1"


TWO_SIGNALS = [
    lane(0), TIME, said(0, onset="+0.5000"), second(0), said(1, onset="+1.2500"),
    lane(1), TIME, said(2), second(1), said(3),
    lane(2), TIME, said(4, onset="+4.1000"), second(2), said(5, onset="+4.2000"),
    lane(3), TIME, said(6, onset="+4.3000"), second(3), said(7, onset="+4.4000"),
    lane(4), TIME, said(8, onset="+4.5000"),
]

# Each file: how many data records, samples and annotations it has; the lines of its layout: those of its header that are other
# ones, the order, those of odd lanes, and how many these are.
FILES = [
    ("edflib-one-each", (6, 72, 3), {}, ONE_BY_ONE,
     [lane(0), TIME, said(0, onset="+0.5000"), lane(1), TIME, said(1, onset="+1.2500")], 2),
    ("edflib-between-seconds", (6, 72, 3), {}, ONE_BY_ONE,
     [lane(0), kept("+0.2500000"), said(0, onset="+0.7500"), lane(1), kept("+1.2500000"), said(1, onset="+1.5000"),
      lane(2), kept("+2.2500000"), said(2), *(line for at in (3, 4, 5) for line in (lane(at), kept(f"+{at}.2500000")))], 6),
    ("edflib-as-they-come", (6, 72, 2), {}, ONE_BY_ONE,
     [lane(0), TIME, said(1), lane(1), TIME, said(0, onset="+0.5000")], 2),
    ("edflib-two-signals", (6, 72, 9), {"size": "1280", "signals": "4"}, BY_TIME, TWO_SIGNALS, 9),
    ("edfbrowser-one-each", (4, 48, 2), {"records": "4", **notes_line(15)}, ONE_BY_ONE, [], 0),
    ("edfbrowser-between-seconds", (4, 48, 2), {"records": "4", **notes_line(16)}, ONE_BY_ONE, [], 0),
    ("edfbrowser-two-signals", (6, 72, 9), notes_line(30), ONE_BY_ONE,
     [*(line for at in range(4) for line in (lane(at), TIME, said(2 * at), said(2 * at + 1))), lane(4), TIME, said(8),
      lane(5), TIME], 6),
]

LAYOUTS = [
    (name.replace("-", "_"), f"{name}.edf", [*changed(HEAD, others), *more, order, *lines, ended(count)], int(count > 0))
    for name, _, others, order, lines, count in FILES
    for more in [[HEAD[11].replace("signal 2", "signal 3")] if "signals" in others else []]
]

# What is kept of a night that EDFlib wrote, in seconds; samples and annotations of the export that EDFbrowser wrote.
CUTS = [
    ("one-each", "1", "5", 48, 2),
    ("between-seconds", "1.25", "5.25", 48, 2),
    ("two-signals", "0", "6", 72, 9),
]


class Written(ProgramCase):
    """What the program says of these files."""

    @each((name.replace("-", "_"), f"{name}.edf", *counts) for name, counts, *_ in FILES)
    def conforms(self, file, records, samples, annotations):
        line = f"CONFORMS records {records} channels 2 samples {samples} annotations {annotations}\n"
        self.assert_ran(self.run_program("conform", WRITTEN / file), 0, line)

    @each(LAYOUTS)
    def layout(self, file, lines, status):
        self.assert_ran(self.run_program("layout", WRITTEN / file), status, "".join(f"{line}\n" for line in lines))

    @each(LAYOUTS)
    def reads(self, file, lines, status):
        text, content = "".join(f"{line}\n" for line in lines).encode(), (WRITTEN / file).read_bytes()
        self.assertEqual(printed(content), (status, text))
        self.assertEqual(written(meaning(content), text), content)

    @each((name.replace("-", "_"), name, *row) for name, *row in CUTS)
    def cut(self, name, begin, end, samples, annotations):
        claim = self.file(f"{name}.toml", f"""\
format = 1
channels = ["EEG Fpz-Cz", "Resp oro-nasal"]
anonymous = []
keep = [{{ from = "{begin}", to = "{end}" }}]
""")
        ran = self.run_program("check", WRITTEN / f"edflib-{name}.edf", WRITTEN / f"edfbrowser-{name}.edf", claim)
        self.assert_ran(ran, 0, f"YES channels 2 samples {samples} annotations {annotations}\n")
