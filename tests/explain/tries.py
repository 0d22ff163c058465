"""Rows on other shifts, which are tried, and on where an export starts.

A row has a name, the status of the check, the original, the export and the claim, the words that the sentences have to have,
and words that they must not have: what is said of a near mistake. All words come from how the files were made (tests/made.py).
"""

from tests.edf import field
from tests.made import PS, Claimed, Made

DAY = 86_400
BOTH = ["EEG Fpz-Cz", "ECG"]
LIGHTS, APNEA = (5 * PS + PS // 2, None, "Lights off"), (50 * PS, None, "Apnea")

# no value of a channel stands twice within some minutes
NIGHT = Made(
    [(0, 100)],
    {"EEG Fpz-Cz": [place * 7 % 4001 - 2000 for place in range(400)], "ECG": [place * 5 % 997 for place in range(200)]},
    [LIGHTS, APNEA],
)

# the same, but that both channels stand still in the first minute
FLAT = NIGHT.but(channels={
    "EEG Fpz-Cz": [7] * 240 + NIGHT.channels["EEG Fpz-Cz"][240:],
    "ECG": [3] * 120 + NIGHT.channels["ECG"][120:],
})

# what is said of other shifts and of likely mistakes
NO_SHIFT = ["With shift", "were tried", "What follows is worked out"]
LIKELY = ["as if nothing had been moved", "moved the other way"]
LISTED = ["missing in the export", "ones that the claim doesn't keep", "another value", "The export lacks"]


def of_ten(shift=-DAY):
    """The claim that keeps the seconds from 10 to 70."""
    return Claimed(BOTH, [(10, 70)], shift)


def ecg(second):
    """The value of the ECG at a second of the night."""
    return NIGHT.channels["ECG"][2 * second]


def with_yes():
    """Rows in which one of the shifts that are tried makes a Yes, and the same without one."""
    yes = "the answer would be YES channels 2 samples 360 annotations 1."
    yield ("a shift an hour off, tried", 1, NIGHT, NIGHT.cut(10, 70, -DAY - 3600), of_ten(),
           [
               "The export starts 1 hour earlier than claimed",
               f"With shift = {-DAY - 3600} {yes}",
               "no sample and no annotation is listed",
           ],
           [*LISTED, *LIKELY, "were tried", "What follows is worked out"])
    yield ("the shift is right and a value is changed", 1, NIGHT, NIGHT.cut(10, 70, -DAY).changed("ECG", 60, -1), of_ten(),
           ['"ECG": 1 sample has another value', f"at 30 s ", f": {ecg(30)} in the original, -1 in the export"],
           [*NO_SHIFT, *LIKELY, "The export starts"])
    yield ("a forgotten shift, tried", 1, NIGHT, NIGHT.cut(10, 70), of_ten(),
           ["The export starts 1 day later than claimed", "as if nothing had been moved", f"With shift = 0 {yes}"],
           [*LISTED, "moved the other way", "were tried"])
    yield ("a shift of the other sign, tried", 1, NIGHT, NIGHT.cut(10, 70, DAY), of_ten(),
           ["The export starts 2 days later than claimed", "moved the other way", f"With shift = {DAY} {yes}"],
           [*LISTED, "as if nothing had been moved", "were tried"])
    yield ("a shift a second from a forgotten one", 1, NIGHT, NIGHT.cut(10, 70, 1), of_ten(),
           ["The export starts 1 day 1 s later than claimed", f"With shift = 1 {yes}"], [*LISTED, *LIKELY, "were tried"])
    yield ("a flat front, and a shift 20 s off", 1, FLAT, FLAT.cut(0, 90, -100 * DAY + 20), Claimed(BOTH, [(0, 90)], -100 * DAY),
           ["The export starts 20 s later than claimed",
            f"With shift = {-100 * DAY + 20} the answer would be YES channels 2 samples 540 annotations 2."],
           [*LISTED, *LIKELY, "were tried", "What follows is worked out"])


def with_no():
    """Rows in which none of the shifts that are tried makes a Yes."""
    yield ("a flat front, and a cut that begins 20 s late", 1, FLAT, FLAT.cut(20, 90, -100 * DAY), Claimed(BOTH, [(0, 90)], -100 * DAY),
           ["The export starts 20 s later than claimed", '"EEG Fpz-Cz": 80 samples that the claim keeps are missing',
            '"ECG": 40 samples that the claim keeps are missing', f"What follows is worked out with shift = {-100 * DAY}, as claimed.",
            f"With shift = {-100 * DAY + 20} the first difference would be NO 10 sample \"ECG\" at {40 * PS} ps original 3 export {ecg(60)}.",
            "The export lacks 1 annotation"],
           ["another value", "would be YES", "were tried", *LIKELY])
    lacking = NIGHT.cut(10, 70).but(notes=[])
    yield ("a forgotten shift and an annotation that is lost", 1, NIGHT, lacking, of_ten(),
           ["as if nothing had been moved",
            f"With shift = 0 the first difference would be NO 11 annotation missing at {50 * PS} ps duration none text \"Apnea\".",
            "With it all samples are as claimed. What follows is worked out with shift = 0.", "The export lacks 1 annotation"],
           ["missing in the export", "ones that the claim doesn't keep", "another value", f"shift = {-DAY}, as claimed"])
    yield ("a forgotten shift and a value that is changed", 1, NIGHT, NIGHT.cut(10, 70).changed("ECG", 60, -1), of_ten(),
           [f"With shift = 0 the first difference would be NO 10 sample \"ECG\" at {30 * PS} ps original {ecg(30)} export -1.",
            f"What follows is worked out with shift = {-DAY}, as claimed.", '"ECG": 120 samples that the claim keeps are missing'],
           ["all samples are as claimed", "were tried"])
    yield ("a cut that begins a second late", 1, NIGHT, NIGHT.cut(11, 70, -DAY), of_ten(),
           ["The export starts 1 s later than claimed",
            f"Other shifts were tried, and with none of them the first samples are as claimed: {-DAY + 1}, 0, {DAY}. "
            "It looks like the export was cut elsewhere",
            '"EEG Fpz-Cz": 4 samples that the claim keeps are missing'],
           ["With shift", "another value", *LIKELY])
    yield ("a cut that begins a second late, and a day more", 1, NIGHT, NIGHT.cut(11, 70, -2 * DAY), of_ten(),
           [f"with none of them the first samples are as claimed: {-2 * DAY + 1}, {-2 * DAY}, 0. It looks like the export was cut elsewhere",
            f"What follows is worked out with shift = {-DAY}, as claimed."],
           ["With shift", "all samples are as claimed", *LIKELY])
    yield ("a cut that begins three seconds early", 1, NIGHT, NIGHT.cut(7, 70, -DAY), of_ten(),
           [
               "The export starts 3 s earlier than claimed",
               f"samples are as claimed: {-DAY - 3}, 0, {DAY}. It looks like the export was cut elsewhere",
           ],
           ["With shift", *LIKELY])


def beside_a_shift():
    """Rows in which no shift is the remedy: parts of a second, shifts beyond the limit, and what else differs."""
    late = NIGHT.but(fraction=PS // 2)
    yield ("a part of a second that is left out", 1, late, late.but(fraction=0, shift=-DAY), Claimed(BOTH, [(0, 200)], -DAY),
           [
               "The export starts 0.5 s earlier than claimed",
               "No shift lets it start as claimed, as a shift is whole seconds.",
           ],
           ["would be YES", "cut elsewhere", *LIKELY])
    far = Claimed(BOTH, [(10, 70)], 9_999_999_999)
    yield ("a shift that is beyond the limit", 1, NIGHT, NIGHT.cut(10, 70, 10_000_000_001), far,
           [
               "The export starts 2 s later than claimed",
               "No shift lets it start as claimed, as a shift is at most 10000000000 s either way.",
           ],
           ["would be YES", "whole seconds", "cut elsewhere"])
    yield ("a part of a second that is kept", 1, late, late.but(shift=0), Claimed(BOTH, [(0, 200)], -DAY),
           ["With shift = 0 the answer would be YES channels 2 samples 600 annotations 2."],
           ["No shift lets it start", "as a shift is at most"])
    named = [(field("patient"), "MCH-0234567 F 02-MAY-1951 Haagse_Henry")]
    yield ("a forgotten shift behind another name", 1, NIGHT, NIGHT.cut(10, 70).but(edits=named), of_ten(),
           ["The export starts 1 day later than claimed", "as if nothing had been moved", "The claim doesn't hide name"],
           ["With shift", "were tried"])
    other = {label: [value + 1 for value in channel] for label, channel in NIGHT.channels.items()}
    yield ("another night", 1, NIGHT, NIGHT.but(channels=other).cut(10, 70, -DAY), of_ten(),
           [
               '"EEG Fpz-Cz": 240 samples have another value',
               "360 of the 360 that both files have at the same time: it looks like another cut",
           ],
           ["a filter", "The export starts", *NO_SHIFT])
    half = {**NIGHT.channels, "ECG": other["ECG"]}
    yield ("another filter of one channel", 1, NIGHT, NIGHT.but(channels=half).cut(10, 70, -DAY), of_ten(),
           ['"ECG": 120 samples have another value', "It looks like a filter, a new scale or a mistake in copying"],
           ["another night", "The export starts", *NO_SHIFT])
    yield ("a claim that keeps nothing", 1, NIGHT, NIGHT.cut(10, 70), Claimed(BOTH, [(200, 300)]),
           ["The claim keeps no sample of the original", '"EEG Fpz-Cz": 240 samples of the export'], ["The export starts", *NO_SHIFT])


def rows():
    """The rows, with the bytes of their files."""
    for make in with_yes, with_no, beside_a_shift:
        for name, status, original, export, claim, words, absent in make():
            yield name, status, original.bytes(), export.bytes(), claim.text(), words, absent
