"""Writes EDF+ files: the one place in the tests where the layout of a header stands.

The second reading of the rules (tests/reading) has a reader of its own, which knows nothing of this file. A place is
the name of a field of the fixed part, or the number of a signal with the name of one of its fields.
"""

import struct

MONTHS = ["JAN", "FEB", "MAR", "APR", "MAY", "JUN", "JUL", "AUG", "SEP", "OCT", "NOV", "DEC"]
ANNOTATIONS = "EDF Annotations"

# The fields of the fixed part, and how many bytes each has.
FIXED = [
    ("version", 8), ("patient", 80), ("recording", 80), ("startdate", 8), ("starttime", 8), ("header-bytes", 8),
    ("reserved", 44), ("records", 8), ("duration", 8), ("signals", 4),
]

# The columns behind it, and how many bytes of a signal each has.
COLUMNS = [
    ("label", 16), ("transducer", 80), ("dimension", 8), ("physical-minimum", 8), ("physical-maximum", 8),
    ("digital-minimum", 8), ("digital-maximum", 8), ("prefilter", 80), ("samples", 8), ("reserved", 32),
]


def field(name):
    """The place of a field of the fixed part."""
    return None, name


def signal(number, name):
    """The place of a field of a signal."""
    return number, name


def words(place):
    """The place as a fault names it."""
    number, name = place
    return f"header field {name}" if number is None else f"signal {number} field {name}"


def extent(place, signals):
    """Where a field begins in a header of so many signals, and how many bytes it has."""
    number, wanted = place
    at = 0
    for name, width in FIXED:
        if number is None and name == wanted:
            return at, width
        at += width
    for name, width in COLUMNS:
        if number is not None and name == wanted:
            return at + width * number, width
        at += width * signals
    raise ValueError(f"no such field: {place}")


def header_size(signals):
    """How many bytes the header of so many signals has."""
    return 256 * (signals + 1)


def filled(text, width):
    """The bytes of a field: the text with spaces behind it, or as much of it as there is room for."""
    data = text if isinstance(text, bytes) else text.encode("latin1")
    return data.ljust(width)[:width]


def put(file, signals, place, text):
    """Puts another text into a field of a file with so many signals."""
    at, width = extent(place, signals)
    file[at:at + width] = filled(text, width)


def header(fixed, signals):
    """A header, from the texts of the fixed part and those of each signal, by the names of their fields. How long it is
    and how many signals it has stands in it where nothing else is said."""
    said = {"version": "0", "header-bytes": str(header_size(len(signals))), "signals": str(len(signals)), **fixed}
    parts = [filled(said[name], width) for name, width in FIXED]
    parts += [filled(each[name], width) for name, width in COLUMNS for each in signals]
    return b"".join(parts)


def dashed(day):
    """A day as the recording's line has it."""
    return f"{day.day:02}-{MONTHS[day.month - 1]}-{day.year:04}"


def startdate(day):
    """A day as the field startdate has it: from 2085 on without its year."""
    return f"{day.day:02}.{day.month:02}." + ("yy" if day.year > 2084 else f"{day.year % 100:02}")


def starttime(day):
    """A time of the day as the field starttime has it."""
    return f"{day.hour:02}.{day.minute:02}.{day.second:02}"


def seconds(number, unit=10**12):
    """A time in parts of a second, as a number of seconds, without zeros that say nothing."""
    whole, rest = divmod(abs(number), unit)
    fraction = str(unit + rest)[1:].rstrip("0")
    return ("-" if number < 0 else "") + (f"{whole}.{fraction}" if fraction else f"{whole}")


def onset(number, unit=10**12):
    """The same as an onset has it: with its sign."""
    return ("" if number < 0 else "+") + seconds(number, unit)


def tal(begin, *texts, duration=None):
    """A list of annotations that begin at this onset, which is written as it is said."""
    span = "" if duration is None else f"\x15{duration}"
    parts = [text if isinstance(text, bytes) else text.encode() for text in texts]
    return f"{begin}{span}\x14".encode() + b"".join(part + b"\x14" for part in parts) + b"\0"


def lane(size, text):
    """A lane of so many bytes, with zeros behind the text."""
    return text.ljust(size, b"\0")


def values(samples):
    """Samples, two bytes each, the low one first."""
    return struct.pack(f"<{len(samples)}h", *samples)
