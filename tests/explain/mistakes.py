"""Mistakes that are easily made, and what an explanation has to say of each.

All words follow from how the files are made. What isn't a pair of files stands in tests/test_explain.py: files that aren't
there or can't be read.
"""

from tests.cases.small_night import BOTH, LANE_0, LANE_1, LANE_2, NIGHT, VALUES_0, VALUES_1, VALUES_2
from tests.edf import field, lane, signal, values
from tests.recordings import bytes_of, claim_of, recording

# What the sentences have to have, by the mistake. Each word stands in them somewhere, in this spelling.
WORDS = {
    "an annotation at the end of the interval": ["exactly at the end of a kept interval"],
    "an annotation at the end of the recording": [
        "exactly at the end of a kept interval",
        'With to = "3.000000000001" in place of "3" the answer would be YES channels 2 samples 18 annotations 3. ',
    ],
    "an annotation outside of the interval": ["outside the kept intervals"],
    "extremes that are cut off": ['"EEG Fpz-Cz"', "digits cut off", "3276.7 ", "3276.699 ", "EDFlib"],
    "a text that is cut": ["cut texts to 40 bytes", "EDFlib"],
    "a time that is rounded": ["a little earlier or later", "0.1 ms"],
    "a shift an hour off": ["The export starts 1 hour earlier than claimed", "shift = -90000 "],
    "a forgotten shift": ["The export starts 1 day later than claimed", "was forgotten", "shift = 0 "],
    "a forgotten shift into the future": ["The export starts 1 day earlier than claimed", "was forgotten", "shift = 0 "],
    "a shift of the other sign": ["The export starts 2 days later than claimed", "the other way"],
    "five mistakes": [
        '"ECG" has another sensor', '"EEG Fpz-Cz" has another scale', "The claim hides name ", "has another value", '"Apnoea"',
    ],
    "channels that are missing and too many": ['names channel "Flow"', 'has channel "ECG"'],
    "a text of remove that is misspelt": ['"Lights of"', "remove", "may be misspelt"],
    "a removed text in the place of another": [
        "The claim removes this text. If it names somebody, the export doesn't go out.",
    ],
    "a name in an annotation": ["a word of the patient's name", '"Haagse calls"'],
    "a time of a claim without quotation marks": ["line 4: from = 600", 'write from = "600"'],
    "a key of a claim that is misspelt": ["line 3: remvoe = ", "remove may be meant"],
    "a key of format 2 that is misspelt": ["line 3: blanks = ", "blank may be meant"],
    "a name of a subfield that is misspelt": ['"brithdate"', "birthdate may be meant"],
    "single brackets": ["[[keep]]", "double brackets"],
    "a shift behind an interval": ["shift", "before the first [[keep]]"],
    "the claim and the export exchanged": ["looks like a recording", "The order is: the original, the export, the claim"],
    "the claim for the export": ["looks like a claim", "The order is: the original, the export, the claim"],
    "the claim for the original": ["looks like a claim", "The order is: the original, the export, the claim"],
    "no original": ["no-such-original.edf", "No such file"],
    "no export": ["no-such-export.edf", "No such file"],
    "no claim": ["no-such-claim.toml", "No such file"],
    "a folder for the export": ["a-folder"],
}

# The night, in bytes, and the claim that keeps all of it.
WHOLE = bytes_of(NIGHT)
ALL = [("0", "4")]


def edited(file, *edits, **said):
    """The bytes of a file with other texts in some fields."""
    return bytes_of(recording(edits=[*file["edits"], *edits], base=file, **said))


def with_long_text(text, base=NIGHT, onset="+0.5"):
    """The night with this text in place of `Lights off`, and room for it."""
    # lanes of 120 bytes
    lanes = [f"+0\x14\x14\0{onset}\x14{text}\x14\0".encode(), LANE_1, LANE_2, base["parts"][7]]
    parts = [part for pair in zip(base["parts"][0::2], (lane(120, text) for text in lanes)) for part in pair]
    return edited(base, (signal(2, "samples"), "60"), parts=parts)


def moved(day, startdate, starttime="22.00.00", base=NIGHT):
    """The night at another start."""
    recorded = f"Startdate {day} PSG-1234/2002 NN Telemetry03"
    return edited(base, (field("recording"), recorded), (field("startdate"), startdate), (field("starttime"), starttime))


def at_end():
    """The night up to 3 s, with the annotation that begins there, and the same with one that begins behind it."""
    three = recording(edits=[(field("records"), "3")], base=NIGHT)
    front = [VALUES_0, LANE_0, VALUES_1, LANE_1, VALUES_2]
    for onset in ("+3", "+3.5"):
        yield edited(three, parts=[*front, lane(40, f"+2\x14\x14\0{onset}\x14Apnea\x14\0".encode())])


def five_mistakes():
    """The night with another sensor, another scale, the patient's name, another value and another text."""
    return edited(
        NIGHT, (signal(1, "transducer"), "AgAgCl"), (signal(0, "physical-maximum"), "200"),
        parts=[VALUES_0, LANE_0, values([40, 51, 60, 70, 102, 103]), lane(40, b"+1\x14\x14\0+1.5\x151\x14Apnoea\x14\0"),
               *NIGHT["parts"][4:]],
    )


def mistakes():
    """The mistakes by their names in WORDS: the status of the check, the original, the export and the claim."""
    all_of_it = claim_of(BOTH, "", ALL)
    a_day_back = claim_of(BOTH, "shift = -86400", ALL)
    until_three = claim_of(BOTH, "", [("0", "3")])
    at_to, behind_to = at_end()
    late_apnea = edited(NIGHT, parts=[*NIGHT["parts"][:7], lane(40, b"+3\x14\x14\0+3.5\x14Apnea\x14\0")])
    yield "an annotation at the end of the interval", 1, WHOLE, at_to, until_three
    yield "an annotation at the end of the recording", 1, at_to, at_to, until_three
    yield "an annotation outside of the interval", 1, late_apnea, behind_to, until_three
    wide = [[(signal(0, "physical-minimum"), low), (signal(0, "physical-maximum"), high)]
            for low, high in (("-3276.7", "3276.7"), ("-3276.69", "3276.699"))]
    yield "extremes that are cut off", 1, *(edited(NIGHT, *edits) for edits in wide), all_of_it
    remark = "The patient is awake and asks whether it is time to get up"
    yield "a text that is cut", 1, with_long_text(remark), with_long_text(remark[:40]), all_of_it
    exact, rounded = (with_long_text("Lights off", onset=onset) for onset in ("+0.51234567", "+0.5123"))
    yield "a time that is rounded", 1, exact, rounded, all_of_it
    yield "a shift an hour off", 1, WHOLE, moved("01-MAR-2002", "01.03.02", "21.00.00"), a_day_back
    yield "a forgotten shift", 1, WHOLE, WHOLE, a_day_back
    yield "a forgotten shift into the future", 1, WHOLE, WHOLE, claim_of(BOTH, "shift = 86400", ALL)
    yield "a shift of the other sign", 1, WHOLE, moved("03-MAR-2002", "03.03.02"), a_day_back
    yield "five mistakes", 1, WHOLE, five_mistakes(), claim_of(BOTH, 'anonymous = ["name"]', ALL)
    yield "channels that are missing and too many", 1, WHOLE, WHOLE, claim_of('["EEG Fpz-Cz", "Flow"]', "", ALL)
    yield "a text of remove that is misspelt", 0, WHOLE, WHOLE, claim_of(BOTH, 'remove = ["Lights of"]', ALL)
    other, removed = (with_long_text(text) for text in ("Lights are off", "Mrs. Haagse sleeps"))
    yield "a removed text in the place of another", 1, other, removed, claim_of(BOTH, 'remove = ["Mrs. Haagse sleeps"]', ALL)
    named = with_long_text("Haagse calls")
    yield "a name in an annotation", 0, named, named, all_of_it
    front = f"format = 1\nchannels = {BOTH}\n"
    behind = '[[keep]]\nfrom = "0"\nto = "4"\n'
    yield "a time of a claim without quotation marks", 2, WHOLE, WHOLE, f'{front}[[keep]]\nfrom = 600\nto = "660"\n'
    yield "a key of a claim that is misspelt", 2, WHOLE, WHOLE, f'{front}remvoe = ["Apnea"]\n{behind}'
    second = front.replace("format = 1", "format = 2")
    yield "a key of format 2 that is misspelt", 2, WHOLE, WHOLE, f'{second}blanks = ["Apnea"]\n{behind}'
    yield "a name of a subfield that is misspelt", 2, WHOLE, WHOLE, f'{front}anonymous = ["name", "brithdate"]\n{behind}'
    yield "single brackets", 2, WHOLE, WHOLE, front + behind.replace("[[keep]]", "[keep]")
    yield "a shift behind an interval", 2, WHOLE, WHOLE, f"{front}{behind}shift = -86400\n"
    yield "the claim and the export exchanged", 2, WHOLE, all_of_it.encode(), WHOLE
    yield "the claim for the export", 1, WHOLE, all_of_it.encode(), all_of_it
    yield "the claim for the original", 1, all_of_it.encode(), WHOLE, all_of_it
