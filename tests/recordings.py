"""Small EDF+ files and claims, as the tables describe them."""

from tests import edf
from tests.edf import field, lane, signal, values

PATIENT = "MCH-0234567 F 02-MAY-1951 Haagse_Harry"
RECORDING = "Startdate 02-MAR-2002 PSG-1234/2002 NN Telemetry03"

# The texts of the fixed part; a file says of itself how long its header is and how many signals it has.
FIXED = {
    "version": "0", "patient": PATIENT, "recording": RECORDING, "startdate": "02.03.02", "starttime": "22.00.00",
    "reserved": "EDF+C", "records": "1", "duration": "1",
}

# The texts of five signals, by column: two channels of the night, its annotation signal, a channel `Temp`, and the
# annotation signal beside it.
COLUMNS = {
    "label": ["EEG Fpz-Cz", "ECG", edf.ANNOTATIONS, "Temp", edf.ANNOTATIONS],
    "transducer": ["AgAgCl electrode", "AgAgCl electrode", "", "", ""],
    "dimension": ["uV", "mV", "", "degC", ""],
    "physical-minimum": ["-100", "-10", "-1", "30", "-1"],
    "physical-maximum": ["100", "10", "1", "40", "1"],
    "digital-minimum": ["-2048", "-2048", "-32768", "-2048", "-32768"],
    "digital-maximum": ["2047", "2047", "32767", "2047", "32767"],
    "prefilter": ["HP:0.1Hz LP:75Hz", "HP:0.1Hz LP:75Hz", "", "", ""],
    "samples": ["4", "2", "20", "2", "16"],
    "reserved": ["", "", "", "", ""],
}


def header(signals, edits=()):
    """A header of these signals, by their numbers among the five, with other texts in some fields."""
    file = bytearray(edf.header(FIXED, [{name: texts[kind] for name, texts in COLUMNS.items()} for kind in signals]))
    for place, text in edits:
        edf.put(file, len(signals), place, text)
    return file


def recording(base=None, **said):
    """A file: its signals by their numbers, other texts in fields, what stands behind the header, and how many
    bytes are left of it all where the end is cut off. What isn't said is that of the base."""
    return {**(base or {"signals": [], "edits": [], "parts": [], "length": None}), **said}


def bytes_of(file):
    """The bytes of a file."""
    whole = bytes(header(file["signals"], file["edits"])) + b"".join(file["parts"])
    return whole[:file["length"]]


def claim_of(channels, keys, keep, form=1):
    """The text of a claim: the value of `channels`, further lines, the intervals that are kept, and the format."""
    tables = "".join(f'[[keep]]\nfrom = "{start}"\nto = "{end}"\n' for start, end in keep)
    return f"format = {form}\nchannels = {channels}\n{keys}\n{tables}"


# How the samples of the channel `Temp` are cut into data records: how many there are, how long each is, how many
# samples it has; the values of each and the onset of its start; whether the annotation signal comes first.
def cut(base=None, **said):
    first = {"records": "1", "duration": "1", "samples": "2", "parts": [], "is_lane_first": False, "kind": "EDF+C"}
    return {**(base or first), **said}


def temp_file(cut):
    """The bytes of a file that is cut so."""
    signals, channel = ([4, 3], 1) if cut["is_lane_first"] else ([3, 4], 0)
    edits = [
        (field("reserved"), cut["kind"]),
        (field("records"), cut["records"]),
        (field("duration"), cut["duration"]),
        (signal(channel, "samples"), cut["samples"]),
    ]
    parts = []
    for samples, onset in cut["parts"]:
        both = [values(samples), lane(32, onset.encode() + b"\x14\x14")]
        parts += reversed(both) if cut["is_lane_first"] else both
    return bytes_of(recording(signals=signals, edits=edits, parts=parts))


# The reference file: two channels and an annotation signal, four data records of 1 s.
ALL_SIGNALS = [0, 1, 2]
LANES = [
    b"+0\x14\x14\0+0.5\x14Lights off\x14\0",
    b"+1\x14\x14\0+1.5\x151\x14Apnea\x14\0",
    b"+2\x14\x14\0",
    b"+3\x14\x14\0+3\x14Apnea\x14\0",
]


def reference_header(edits=(), signals=ALL_SIGNALS):
    return header(signals, [(field("records"), "4"), *edits])


def recorded(edits=(), lanes=LANES):
    """The reference file with other texts in some of its fields, and these lanes."""
    file = reference_header(edits)
    for k, text in enumerate(lanes):
        file += values([40 * k + 10 * i for i in range(4)] + [100 + 2 * k + i for i in range(2)]) + lane(40, text)
    return bytes(file)


def small_file():
    """A file of one data record of 1 s with two samples, 7 and -7: 804 bytes."""
    return bytes_of(recording(signals=[3, 4], parts=[values([7, -7]), lane(32, b"+0\x14\x14")]))
