"""Headers that end at each of their bytes: what is said is the field of the first missing byte, until what is there
has a fault."""

from tests.cases import Row, later
from tests.edf import COLUMNS, FIXED, field, signal, words
from tests.recordings import reference_header

# Other texts of a field, the fault that they are, and from how many bytes on it is answered.
ROWS = [
    ("whole", [], None, 1024),
    ("another_version", [(field("version"), "1")], "BadVersion at header field version", 256),
    ("another_size", [(field("header-bytes"), "1280")], "BadHeaderSize at header field header-bytes", 256),
    ("label_not_printable", [(signal(0, "label"), "\x1f")], "NotPrintable at signal 0 field label", 1024),
]


def places():
    """The place of each byte of a header of three signals."""
    for name, width in FIXED:
        yield from [field(name)] * width
    for name, width in COLUMNS:
        for number in range(3):
            yield from [signal(number, name)] * width


def front(edits, count):
    """The first bytes of a header."""
    return bytes(reference_header(edits))[:count]


def rows():
    """Each front of a header, and the line of `show`, or none where it shows the header."""
    at = list(places())
    for name, edits, fault, enough in ROWS:
        for count in range(len(at) + 1):
            answer = fault if count >= enough else f"Truncated at {words(at[count])}"
            line = None if answer is None else f"FAULT {answer}\n"
            yield Row(f"{name}_first_{count}_bytes", "show", (later(front, edits, count),), line)
