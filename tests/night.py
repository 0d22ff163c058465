"""Writes the example night: a recording of two and a half minutes, exports of it, one of them also in two parts, and
four claims.

usage: python3 -m tests.night DIR              writes the files to DIR
       python3 -m tests.night --check DIR      compares those of DIR with what it would write

All that is in the files is made up, and whole numbers alone are reckoned with: the bytes are the same on
every machine. The check prints a line for each file that is missing or has other bytes, and how many there
are; its status is 0 where all are the same.
"""

import datetime
import pathlib
import sys

from tests import edf

SECONDS = 150
START = datetime.datetime(2019, 3, 17, 23, 10, 0)

PATIENT = ["SLZ-004711", "F", "17-OCT-1951", "Haagse_Johanna", "Ward7"]
RECORDING = ["PSG-0310/2019", "KV", "Recorder7"]
REMARK = "Mrs. Haagse asks for water"

# label, transducer, dimension, physical extremes, prefilter, samples a second
CHANNELS = {
    "EEG C4-M1": ("AgAgCl cup electrodes", "uV", "-500", "500", "HP:0.1Hz LP:35Hz N:50Hz", 100),
    "EOG horizontal": ("AgAgCl cup electrodes", "uV", "-500", "500", "HP:0.1Hz LP:15Hz N:50Hz", 50),
    "EMG submental": ("AgAgCl cup electrodes", "uV", "-100", "100", "HP:10Hz LP:45Hz N:50Hz", 100),
    "ECG": ("AgAgCl adhesive electrodes", "mV", "-5", "5", "HP:0.3Hz LP:45Hz N:50Hz", 100),
    "Temp rectal": ("Rectal thermistor", "degC", "34.4", "40.2", "LP:0.1Hz", 1),
}

# onset and duration in milliseconds (-1 for none), and text
NOTES = [
    (0, 30_000, "Sleep stage W"),
    (4_500, -1, "Lights off"),
    (30_000, 30_000, "Sleep stage N1"),
    (57_250, 3_500, "EEG arousal"),
    (60_000, 30_000, "Sleep stage W"),
    (72_500, -1, REMARK),
    (90_000, 30_000, "Sleep stage N1"),
    (104_500, 800, "Limb movement"),
    (120_000, 30_000, "Sleep stage N2"),
    (150_000, -1, "Lights on"),
]

CUT = """\
# One and a half minutes of the night, for a study that scores arousals: three of the five channels, no word
# of who the patient is but the sex, and the date 100 days back.
format = 1
channels = ["EEG C4-M1", "EOG horizontal", "Temp rectal"]

# X in the export. The sex and the equipment aren't named here, so they stay as they are; the date isn't
# either, so it is the day on which the export begins.
anonymous = ["code", "birthdate", "name", "patient-extras", "administration", "technician"]

# in seconds: -100 times 86400
shift = -8640000

# The remark of the night shift names the patient. So does this claim: it is for those who may know her name.
remove = ["Mrs. Haagse asks for water"]

# Seconds after the start of the original. The sample and the stage at 30 s are kept, those at 120 s aren't.
[[keep]]
from = "30"
to = "120"
"""

TWO_INTERVALS = """\
# The first half minute and the last minute of the night, for a course: two channels, and nobody to be found
# by the header. The remark that names the patient stands in the gap, so it isn't kept.
format = 1
channels = ["EEG C4-M1", "ECG"]
anonymous = [
    "code", "sex", "birthdate", "name", "patient-extras",
    "date", "administration", "technician", "equipment", "recording-extras",
]

# 365 days and 3 hours back: the header's startdate and starttime move, too
shift = -31546800

[[keep]]
from = "0"
to = "30"

# "Lights on" stands at 150 s, where the recording ends. It isn't kept: `to` is not included.
[[keep]]
from = "90"
to = "150"
"""

BLANKED = """\
# One and a half minutes of the night, for those who must not learn a name from the claim, either. Whatever
# begins with "Mrs." goes. That the patient was scored is to stay, and not with which stage.
format = 2
channels = ["EEG C4-M1", "EOG horizontal", "Temp rectal"]
anonymous = ["code", "birthdate", "name", "patient-extras", "administration", "technician"]

# in seconds: -100 times 86400
shift = -8640000

# texts that begin so are removed, whatever follows
remove-prefix = ["Mrs.", "Mr."]

# X in the export; the time and the duration stay
blank = ["Sleep stage W", "Sleep stage N1", "Sleep stage N2"]

[[keep]]
from = "30"
to = "120"
"""

REFUSED = """\
# A claim with a mistake that is made easily: single brackets around `keep`.
format = 1
channels = ["EEG C4-M1"]

[keep]
from = "0"
to = "150"
"""


class Noise:
    """Numbers that look random, the same ones in every run."""

    def __init__(self, state):
        self.state = state

    def upto(self, height):
        """A number from -height to height."""
        self.state = (self.state * 1_103_515_245 + 12_345) % 2**31
        return self.state // 65_536 % (2 * height + 1) - height


def wave(place, period, height):
    """A parabola up and one down, in an even number of samples."""
    half = period // 2
    side = place % half
    value = 4 * height * side * (half - side) // (half * half)
    return value if place % period < half else -value


def eeg(noise, place):
    drowsy = 3_000 <= place < 6_000 or place >= 9_000
    slow = wave(place, 180, 260 if place >= 12_000 else 60)
    quick = wave(place, 20, 140) if drowsy else wave(place, 10, 180)
    return slow + quick + noise.upto(30)


def eog(noise, place):
    return wave(place, 400, 420) + noise.upto(25)


def emg(noise, place):
    return noise.upto(700 if 10_450 <= place < 10_530 else 160)


def ecg(noise, place):
    beat = place % 88
    if 12 <= beat < 24:
        shape = wave(beat - 12, 24, 70)
    elif 50 <= beat < 70:
        shape = wave(beat - 50, 40, 130)
    else:
        shape = {30: -90, 31: 420, 32: 910, 33: 380, 34: -210}.get(beat, 0)
    return shape + noise.upto(8)


def temperature(_, place):
    return -495 + place // 20


def night():
    """The values of each channel, from the first second to the last."""
    shapes = [eeg, eog, emg, ecg, temperature]
    found = {}
    for number, (label, (*_, rate)) in enumerate(CHANNELS.items()):
        noise = Noise(1951 + number)
        found[label] = [shapes[number](noise, place) for place in range(SECONDS * rate)]
    return found


def header(labels, kind, records, length, lane, start, patient, recording):
    """The header of so many data records of so many seconds, with these channels and a lane of so many bytes."""
    fixed = {
        "patient": " ".join(patient), "recording": " ".join(["Startdate", *recording]), "startdate": edf.startdate(start),
        "starttime": edf.starttime(start), "reserved": kind, "records": str(records), "duration": str(length),
    }
    signals = []
    for label in labels:
        transducer, dimension, low, high, prefilter, rate = CHANNELS[label]
        signals.append({
            "label": label, "transducer": transducer, "dimension": dimension, "physical-minimum": low,
            "physical-maximum": high, "digital-minimum": "-2048", "digital-maximum": "2047", "prefilter": prefilter, "samples": str(rate * length),
            "reserved": "",
        })
    signals.append({
        "label": edf.ANNOTATIONS, "transducer": "", "dimension": "", "physical-minimum": "-1", "physical-maximum": "1",
        "digital-minimum": "-32768", "digital-maximum": "32767", "prefilter": "", "samples": str(lane // 2), "reserved": "",
    })
    return edf.header(fixed, signals)


def tals(notes, begin):
    """Annotations in a file that begins at this second."""
    found = b""
    for onset, duration, said in notes:
        span = None if duration < 0 else edf.seconds(duration, 1000)
        found += edf.tal(edf.onset(onset - begin * 1000, 1000), said, duration=span)
    return found


def file(values, notes, labels, intervals, length, lane, shift, patient, recording, end=SECONDS):
    """The file of these intervals of a night that ends at a second, in data records of so many seconds with an annotation
    lane of so many bytes."""
    begin = intervals[0][0]
    places = [at for first, last in intervals for at in range(first, last, length)]
    start = START + datetime.timedelta(seconds=begin + shift)
    kind = "EDF+C" if len(intervals) == 1 else "EDF+D"
    parts = [header(labels, kind, len(places), length, lane, start, patient, recording(start))]
    left = list(notes)
    for at in places:
        for label in labels:
            rate = CHANNELS[label][5]
            parts.append(edf.values(values[label][at * rate:(at + length) * rate]))
        own = []
        # what stands at the end of the recording has its place in the last data record
        while left and (left[0][0] < (at + length) * 1000 or at + length == end):
            own.append(left.pop(0))
        text = edf.tal(edf.onset(at - begin, 1), "") + tals(own, begin)
        assert len(text) <= lane
        parts.append(edf.lane(lane, text))
    assert not left
    return b"".join(parts)


def original(values):
    def recording(start):
        return [edf.dashed(start), *RECORDING]

    return file(values, NOTES, list(CHANNELS), [(0, SECONDS)], 1, 64, 0, PATIENT, recording)


def cut(values, name="X", remark=False, blank=(), first=30, last=120):
    def recording(start):
        return [edf.dashed(start), "X", "X", RECORDING[2]]

    kept = [note for note in NOTES if first * 1000 <= note[0] < last * 1000 and (remark or note[2] != REMARK)]
    kept = [(*times, "X" if said in blank else said) for *times, said in kept]
    labels = ["EEG C4-M1", "EOG horizontal", "Temp rectal"]
    return file(values, kept, labels, [(first, last)], 5, 96, -8_640_000, ["X", "F", "X", name], recording)


def two_intervals(values):
    def recording(_):
        return ["X", "X", "X", "X"]

    kept = [note for note in NOTES if note[0] < 30_000 or 90_000 <= note[0] < 150_000]
    # as an export may, it has its channels in another order than the original
    labels = ["ECG", "EEG C4-M1"]
    return file(values, kept, labels, [(0, 30), (90, 150)], 10, 96, -31_546_800, ["X", "X", "X", "X"], recording)


def with_another_value(values):
    """The night with the EEG a step higher at 75.5 s."""
    changed = list(values["EEG C4-M1"])
    changed[7_550] += 1
    return {**values, "EEG C4-M1": changed}


def files():
    """All files, by their names."""
    values = night()
    return {
        "original.edf": original(values),
        "cut.edf": cut(values),
        "cut-part-1.edf": cut(values, last=75),
        "cut-part-2.edf": cut(values, first=75),
        "overlapping-part-2.edf": cut(values, first=70),
        "two-intervals.edf": two_intervals(values),
        "changed-value.edf": cut(with_another_value(values)),
        "name-left.edf": cut(values, name=PATIENT[3]),
        "remark-left.edf": cut(values, remark=True),
        "blanked.edf": cut(values, blank=["Sleep stage W", "Sleep stage N1"]),
        "cut.toml": CUT.encode(),
        "two-intervals.toml": TWO_INTERVALS.encode(),
        "blanked.toml": BLANKED.encode(),
        "refused.toml": REFUSED.encode(),
    }


def check(folder):
    """Whether the files are there with these bytes."""
    passed = failed = 0
    for name, wanted in files().items():
        path = folder / name
        if path.is_file() and path.read_bytes() == wanted:
            passed += 1
        else:
            failed += 1
            print(f"{path}: {'other bytes' if path.is_file() else 'missing'}")
    print(f"{passed} passed, {failed} failed")
    return 1 if failed else 0


def main(words):
    if len(words) == 2 and words[0] == "--check":
        return check(pathlib.Path(words[1]))
    if len(words) != 1 or words[0].startswith("-"):
        print(__doc__, file=sys.stderr)
        return 2
    folder = pathlib.Path(words[0])
    folder.mkdir(parents=True, exist_ok=True)
    for name, data in files().items():
        (folder / name).write_bytes(data)
    return 0


if __name__ == "__main__":
    sys.exit(main(sys.argv[1:]))
