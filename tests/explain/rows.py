"""Rows of sentences: how two files and a claim are made, what has to be said of them, and what not.

A row is its name, the status of the check, the original, the export, the claim, the words that stand in the sentences,
and words that don't. Beside each row in which a sentence is printed stands one of a near mistake, in which it isn't.
All words follow from how the files are made.
"""

from tests import edf
from tests.cases.small_night import BOTH, NIGHT, VALUES_0, VALUES_1
from tests.edf import field, lane, signal, values
from tests.recordings import bytes_of, claim_of, recording

ALL = [("0", "4")]
WHOLE = bytes_of(NIGHT)
ALL_OF_IT = claim_of(BOTH, "", ALL)

# The patient and the recording whose names are looked for, and the subfields that the claim hides.
PATIENT = "SLZ-004711 F 17-OCT-1951 Haagse_Johanna Ward7"
RECORDED = "Startdate 02-MAR-2002 PSG-0310/2019 KV Recorder7"
HIDDEN = ["code", "birthdate", "name", "patient-extras", "administration", "technician"]


def edited(file, *edits, **said):
    """The bytes of a file with other texts in some fields."""
    return bytes_of(recording(edits=[*file["edits"], *edits], base=file, **said))


def with_lanes(*texts, edits=(), base=NIGHT, size=240):
    """The night with these annotations in its lanes, and room for them."""
    samples = base["parts"][0::2]
    lanes = [lane(size, text if isinstance(text, bytes) else text.encode()) for text in texts]
    parts = [part for pair in zip(samples, lanes) for part in pair]
    return edited(base, (signal(2, "samples"), str(size // 2)), *edits, parts=parts)


def note(onset, text, duration=""):
    """An annotation in a lane."""
    span = f"\x15{duration}" if duration else ""
    return f"+{onset}{span}\x14{text}\x14\0"


def with_notes(*notes, edits=(), base=NIGHT, size=240):
    """The night with these annotations in its first lane alone."""
    first = "+0\x14\x14\0" + "".join(notes)
    return with_lanes(first, "+1\x14\x14\0", "+2\x14\x14\0", "+3\x14\x14\0", edits=edits, base=base, size=size)


# A text, and what of the patient it has, by the words of the sentence; none where it is harmless.
NAME = "a word of the patient's name"
CODE = "the code by which the hospital knows the patient"
BIRTH = "the day of birth"
EXTRAS = "a word of what comes after the patient's name"
NUMBER = "the number of the investigation"
TECHNICIAN = "the name or the initials of who made the recording"
TEXTS = [
    ("haagse schnarcht", NAME),
    ("Fr. Haagses Tochter ruft an", NAME),
    ("HAAGSE", NAME),
    ("johanna fragt", NAME),
    ("Akte SLZ-004711", CODE),
    ("akte slz-004711, Blatt 2", CODE),
    ("geb. 17.10.1951", BIRTH),
    ("*17.10.51", BIRTH),
    ("born 17-OCT-1951", BIRTH),
    ("born on 17-Oct-1951.", BIRTH),
    ("1951-10-17", BIRTH),
    ("17/10/1951", BIRTH),
    ("10/17/1951", BIRTH),
    ("PSG-0310/2019 begins", NUMBER),
    ("Bett in WARD7", EXTRAS),
    ("gez. KV", TECHNICIAN),
    ("Sleep stage N2", None),
    ("Hagse schnarcht", None),
    ("Den Haag", None),
    ("Akte SLZ-00471", None),
    ("Akte 4711", None),
    ("geb. 1951", None),
    ("17.10.1950", None),
    ("117.10.51", None),
    ("17.10.519 mV", None),
    ("1951-10-171", None),
    ("PSG begins", None),
    ("Ward 7", None),
    ("Ward71", None),
    ("kv 5", None),
    ("KVM", None),
    ("EKVX", None),
]

# The same of other names: the name, the text, and whether it is found.
NAMES = [
    ("Mueller_Ruediger", "M\u00fcller hustet", True),
    ("Mueller_Ruediger", "M\u00dcLLER", True),
    ("Mueller_Ruediger", "Mu\u0308ller", True),
    ("Mueller_Ruediger", "R\u00fcdigers Hand", True),
    ("Mueller_Ruediger", "Muller", False),
    ("Muller_Rudi", "M\u00fcller hustet", True),
    ("Gross_Uwe", "Herr Gro\u00df", True),
    ("Gross_Uwe", "Uwe schnarcht", True),
    ("Gross_Uwe", "Uwes Bett", False),
    ("Soerensen_Aage", "S\u00f8rensen", True),
    ("Rene_Lefevre", "Ren\u00e9", True),
    ("von_der_Heide", "Ende der Messung", False),
    ("von_der_Heide", "Heide", True),
]


def anonymous(hidden):
    return "anonymous = [" + ", ".join(f'"{name}"' for name in hidden) + "]"


def named(text, patient=PATIENT, label=None):
    """The night of a patient with this text, and the same with the subfields hidden."""
    sex = patient.split(" ")[1]
    edits = [(field("patient"), patient), (field("recording"), RECORDED)]
    hidden = [(field("patient"), f"X {sex} X X"), (field("recording"), "Startdate 02-MAR-2002 X X Recorder7")]
    more = [] if label is None else [(signal(1, "transducer"), label)]
    return with_notes(note(0.5, text), edits=edits + more), with_notes(note(0.5, text), edits=hidden + more)


def of_names():
    claim = claim_of(BOTH, anonymous(HIDDEN), ALL)
    for text, found in TEXTS:
        there = [f'The annotation at 0.5 s has something spelled like {found}: "{text}".'] if found else [
            "Names were looked for",
        ]
        yield f"the text {text}", 0, *named(text), claim, there, [] if found else ["has something spelled like"]
    for name, text, is_found in NAMES:
        pair = named(text, f"X F X {name}")
        there = [f'has something spelled like {NAME}: "{text}".'] if is_found else ["Names were looked for"]
        yield f"the name {name} and the text {text}", 0, *pair, claim, there, [] if is_found else [
            "has something spelled like",
        ]
    yield ("a name beside a channel", 0, *named("Lights off", label="for Ms Haagse"), claim,
           [f'A text of channel "ECG" has something spelled like {NAME}: "for Ms Haagse".'], [])
    yield (
        "no name beside a channel",
        0,
        *named("Lights off", label="for Ms Hagse"),
        claim,
        [],
        ["has something spelled like"],
    )


def of_other_names():
    """Names in subfields that the export shows, in more annotations than are listed, and none where nobody is named."""
    shown = [name for name in HIDDEN if name != "patient-extras"]
    claim = claim_of(BOTH, anonymous(shown), ALL)
    for extra, there, absent in (("Haagse7", ["The subfield patient-extras of the export has something spelled like"], []),
                                 ("Ward7", [], ["has something spelled like"])):
        original, _ = named("Lights off", f"SLZ-004711 F 17-OCT-1951 Haagse_Johanna {extra}")
        _, export = named("Lights off")
        export = bytearray(export)
        edf.put(export, 3, field("patient"), f"X F X X {extra}")
        yield f"the subfield {extra} that isn't hidden", 0, original, export, claim, there, absent
    for which, recorded, hidden, text, found in (
            ("date", RECORDED, "Startdate X PSG-0310/2019 KV Recorder7", "02.03.2002", "the day of the recording"),
            (
                "equipment",
                RECORDED,
                "Startdate 02-MAR-2002 PSG-0310/2019 KV X",
                "Recorder7 stops",
                "a word of the equipment",
            ),
            ("recording-extras", f"{RECORDED} Room5", "Startdate 02-MAR-2002 PSG-0310/2019 KV Recorder7 X", "Room5",
             "a word of what comes after the equipment")):
        nobody = (field("patient"), "X F X X")
        pair = [with_notes(note(0.5, text), edits=[nobody, (field("recording"), said)]) for said in (recorded, hidden)]
        yield (f"{which} in a text", 0, *pair, claim_of(BOTH, anonymous([which]), ALL),
               [f'The annotation at 0.5 s has something spelled like {found}: "{text}".'], [])
    # more than 20 annotations, of which 20 are listed
    many = "".join(note(f"0.{number:02}", "Haagse") for number in range(10, 40))
    edits = [(field("patient"), PATIENT), (field("recording"), RECORDED)]
    hidden = [(field("patient"), "X F X X"), (field("recording"), "Startdate 02-MAR-2002 X X Recorder7")]
    pair = (with_notes(many, edits=way, size=600) for way in (edits, hidden))
    yield "thirty names", 0, *pair, claim_of(BOTH, anonymous(HIDDEN), ALL), ["  and 10 more"], ["  and 11 more"]
    # nothing is hidden, and the original names nobody
    nobody = with_notes(note(0.5, "X-ray"), edits=[(field("patient"), "X F X X")])
    yield "nobody", 0, nobody, nobody, ALL_OF_IT, [], ["Names were looked for", "has something spelled like"]


SOFTWARE = "software that made the export"
ANEW = "Export the original again"
AGAIN = "Copy it again, and compare the sizes."


def of_files():
    """Files that can't be judged: one remedy, by the cause."""
    bdf = b"\xffBIOSEMI" + WHOLE[8:]
    other = edited(NIGHT, (field("version"), "1"))
    plain = edited(NIGHT, (field("reserved"), ""))
    older = edited(NIGHT, (field("reserved"), ""), (field("patient"), "Haagse"))
    behind_space = edited(NIGHT, (field("patient"), " X F X X"))
    doubled = edited(NIGHT, (signal(1, "label"), "EEG Fpz-Cz"))
    cut_short = WHOLE[:-2]
    table = [
        ("an empty file", b"", ["The file is empty", AGAIN], ["broken off", SOFTWARE, ANEW]),
        ("a file that ends a byte early", WHOLE[:-1], ["looks like a copy that was broken off", AGAIN],
         ["is empty", SOFTWARE, ANEW]),
        ("a file that ends in its header", WHOLE[:200], ["looks like a copy that was broken off", AGAIN],
         ["is empty", SOFTWARE, ANEW]),
        (
            "a file of BDF",
            bdf,
            ["This is a BDF file, which has 24 bits", "Export it as EDF+"],
            ["older, plain EDF", SOFTWARE, ANEW],
        ),
        ("a file of another version", other, ["doesn't begin as an EDF file does", "Export it as EDF+."],
         ["BDF", "older, plain EDF", SOFTWARE, ANEW]),
        (
            "a file of the older EDF",
            plain,
            ["it looks like a file of the older, plain EDF. Export it as EDF+."],
            ["BDF", SOFTWARE, ANEW],
        ),
        ("one whose patient is of the older EDF, too", older, ["it looks like a file of the older, plain EDF. Export it as EDF+."],
         ["too few words", SOFTWARE, ANEW]),
        ("two channels of one label", doubled, ["give one of them another label"], [SOFTWARE, ANEW]),
    ]
    for name, data, there, absent in table:
        of_original, of_export = "The original can't be judged", "The export can't be judged"
        yield f"{name} as export", 1, WHOLE, data, ALL_OF_IT, [of_export, *there], [*absent, of_original]
        yield f"{name} as original", 1, data, WHOLE, ALL_OF_IT, [of_original, *there], [*absent, of_export]
        yield f"{name} as export of a broken original", 1, cut_short, data, ALL_OF_IT, [of_original, of_export, *there], []
    looks = "It looks like a fault of the software that made the export: export again"
    yield "a patient behind a space in the export", 1, WHOLE, behind_space, ALL_OF_IT, [looks], [
        "older, plain EDF",
        ANEW,
        AGAIN,
    ]
    yield "a patient behind a space in the original", 1, behind_space, WHOLE, ALL_OF_IT, [ANEW], [
        "older, plain EDF",
        SOFTWARE,
        AGAIN,
    ]


def scaled(low, high):
    return edited(NIGHT, (signal(0, "physical-minimum"), low), (signal(0, "physical-maximum"), high))


def of_scales():
    """Extremes that differ by what eight characters don't hold, and by more."""
    cut, other = "with their last digits cut off", "They may have been rounded, or the samples were rescaled."
    for original, export, is_cut in (
        (("-3276.7", "3276.7"), ("-3276.69", "3276.699"), True),
        (("-3276.7", "3276.7"), ("-3276.7", "3276.699"), True),
        (("-3276.7", "3276.7"), ("-3276.7", "3276.698"), False),
        (("-3276.7", "3276.7"), ("-3276.68", "3276.7"), False),
        (("-3276.7", "3276.7"), ("-3276.7", "3276.6"), False),
        (("-3276.7", "3276.7"), ("-3276.7", "3276.701"), False),
        (("-5", "5"), ("-4.99999", "4.999999"), True),
        (("-5", "5"), ("-5", "4.998"), False),
        (("-5", "5"), ("-5", "4.99999"), False),
    ):
        there, absent = (cut, other) if is_cut else (other, cut)
        pair = scaled(*original), scaled(*export)
        yield f"extremes {original} as {export}", 1, *pair, ALL_OF_IT, [there], [absent]
    wide, cut = ([(signal(0, "physical-minimum"), low), (signal(0, "physical-maximum"), high)]
                 for low, high in (("-3276.7", "3276.7"), ("-3276.69", "3276.699")))
    for name, edit, there in (("unit", (signal(0, "dimension"), "mV"), "  The unit is different."),
                              ("range", (signal(0, "digital-maximum"), "2046"), "  Export again with the original's extremes.")):
        yield (f"extremes cut off, and another {name}", 1, edited(NIGHT, *wide), edited(NIGHT, *cut, edit), ALL_OF_IT, [there],
               ["digits cut off"])


def of_extra_notes():
    """Annotations that the export adds, and names in them."""
    plain = with_notes(note(0.5, "Lights off"))
    added, misspelt = (with_notes(note(0.5, "Lights off"), note(2.5, text)) for text in ("Snoring", "Lights of"))
    delete = "    The original has no such annotation: delete it from the export."
    advice = "leave annotations out by their texts"
    yield "an annotation that the export adds", 1, plain, added, ALL_OF_IT, [delete], [advice]
    yield "another one", 1, plain, misspelt, ALL_OF_IT, [delete], [advice]
    removed = claim_of(BOTH, 'remove = ["Snoring"]', ALL)
    yield ("an annotation that the claim removes", 1, added, added, removed,
           ["    The claim removes this text. If it names somebody, the export doesn't go out."], [delete, advice])
    twice = with_notes(note(0.5, "Lights off"), note(0.5, "Lights off"))
    yield ("an annotation that the export has twice", 1, plain, twice, ALL_OF_IT,
           ["    The claim keeps this annotation, but fewer times than the export has it"], [delete, advice])
    late = with_notes(note(0.5, "Lights off"), note(2.75, "Snoring"))
    yield ("an annotation that is moved", 1, added, late, ALL_OF_IT,
           ["    The export lacks an annotation with this text at another time: it looks like one that was moved.", advice],
           [delete])
    yield "an annotation that is missing", 1, added, plain, ALL_OF_IT, ["The export lacks 1 annotation", advice], [delete]
    claim = claim_of(BOTH, anonymous(HIDDEN), ALL)
    original, _ = named("Lights off")
    _, export = named("Fr. Haagses Tochter")
    yield ("a name behind a No", 1, original, export, claim,
           [f'The annotation at 0.5 s has something spelled like {NAME}: "Fr. Haagses Tochter".', "Names were looked for"], [])
    _, export = named("Fr. Hagses Tochter")
    yield "no name behind a No", 1, original, export, claim, [], ["has something spelled like", "Names were looked for"]


def with_values(change, base=NIGHT, channels=(0, 1)):
    """The night with other values: those that a function gives for a channel, the place of a sample and its value."""
    parts = list(base["parts"])
    for record in range(4):
        data = [40 * record + 10 * place for place in range(4)], [100 + 2 * record + place for place in range(2)]
        parts[2 * record] = b"".join(
            values([change(channel, len(data[channel]) * record + place, value) for place, value in enumerate(data[channel])])
            for channel in channels)
    return edited(base, parts=parts)


def of_samples():
    """Samples that nearly all are others, and claims that keep none."""
    looks, filtered = "it looks like another cut of the night than claimed, or another night", "It looks like a filter"
    assert with_values(lambda channel, place, value: value) == WHOLE
    for name, change, is_all in (
        ("all samples are others", lambda channel, place, value: value + 1, True),
        ("all samples but one are others", lambda channel, place, value: value + (channel + place > 0), False),
        ("all samples of one channel are others", lambda channel, place, value: value + (channel == 0), False),
    ):
        there, absent = ([looks, "24 of the 24"], [filtered]) if is_all else ([filtered], [looks])
        yield name, 1, WHOLE, with_values(change), ALL_OF_IT, there, absent
    between = "an interval, or a part of it, lies in a data record, and no sample of a claimed channel stands there"
    behind = "its intervals lie after the end of the recording, in a gap, or before its first data record"
    for keep, there, absent in (((("0.1", "0.2"),), [between], [behind]), ((("100", "101"),), [behind], [between]),
                                ((("0.1", "0.3"),), [], [behind, between])):
        yield f"what is kept is {keep}", 1, WHOLE, WHOLE, claim_of(BOTH, "", keep), there, absent


def of_rates():
    """Channels with other numbers of samples a second."""
    def sampled(samples):
        """The night with so many samples of the EEG a second, by a list of its values in each data record."""
        parts = list(NIGHT["parts"])
        for record, eeg in enumerate(samples):
            parts[2 * record] = values([*eeg, 100 + 2 * record, 101 + 2 * record])
        return edited(NIGHT, (signal(0, "samples"), str(len(samples[0]))), parts=parts)

    rate = 'Channel "EEG Fpz-Cz" has another number of samples a second in the export'
    half = [[40 * record, 40 * record + 20] for record in range(4)]
    missing = 'Channel "EEG Fpz-Cz": 8 samples that the claim keeps are missing in the export.'
    extra = 'Channel "EEG Fpz-Cz": 8 samples of the export are ones that the claim doesn\'t keep'
    at = "  The first is at 0.25 s ", "  The last is at 3.75 s "
    changed = "another value in the export"
    yield "half the samples", 1, WHOLE, sampled(half), ALL_OF_IT, [rate, missing, *at], [changed]
    yield "twice the samples", 1, sampled(half), WHOLE, ALL_OF_IT, [rate, extra, *at], [changed]
    other = [half[0], [40, 61], *half[2:]]
    yield ("half the samples, of which one is another", 1, WHOLE, sampled(other), ALL_OF_IT,
           [missing, 'Channel "EEG Fpz-Cz": 1 sample has another value', "  It is at 1.5 s ", ": 60 in the original, 61 in the export."], [])
    third = [[40 * record + place for place in range(3)] for record in range(4)]
    yield ("three samples for four", 1, WHOLE, sampled(third), ALL_OF_IT,
           ['Channel "EEG Fpz-Cz": 12 samples that the claim keeps are missing',
            'Channel "EEG Fpz-Cz": 8 samples of the export are ones'], [changed])
    quarter = [[40 * record] for record in range(4)]
    yield ("a quarter of the samples, and a kept interval that begins between them", 1, WHOLE, sampled(quarter),
           claim_of(BOTH, "", [("0.5", "4")]),
           ['Channel "EEG Fpz-Cz": 11 samples that the claim keeps are missing',
            'Channel "EEG Fpz-Cz": 1 sample of the export is one'], [changed])


# Letters that aren't seen, or that a terminal may obey, and how they stand in sentences.
UNSEEN = [
    "\u0080",
    "\u009b",
    "\u009f",
    "\u00ad",
    "\u200b",
    "\u200f",
    "\u2028",
    "\u202a",
    "\u202e",
    "\u2066",
    "\u2069",
    "\ufeff",
]
SEEN = ["\u00a1", "\u00fc", "\u20ac", "\u4e2d"]


def of_hidden_letters():
    """A name with a letter in it that isn't seen."""
    claim = claim_of(BOTH, anonymous(HIDDEN), ALL)
    for name, is_found in (("Haa\u200bgse", True), ("Haa gse", False)):
        there = f"The annotation at 0.5 s has something spelled like {NAME}: "
        yield f"the name {name!r}", 0, *named(f"{name} schnarcht"), claim, [there] if is_found else [], [] if is_found else [
            there,
        ]


def of_removed_texts():
    """Texts that the claim removes or blanks, and that the export has."""
    removed = "    The claim removes this text. If it names somebody, the export doesn't go out."
    blanked = "    The claim blanks this text: where it is kept, X is to stand in its place."
    mrs = note(3.25, "Mrs. Haagse asks")
    early, late = with_notes(note(0.5, "Mrs. Haagse asks")), with_lanes(
        "+0\x14\x14\0" + note(0.5, "Lights off"), b"+1\x14\x14\0", b"+2\x14\x14\0", ("+3\x14\x14\0" + mrs).encode())
    half = edited(NIGHT, (signal(2, "samples"), "120"), (field("records"), "2"), parts=[
        VALUES_0, lane(240, b"+0\x14\x14\0"), VALUES_1, lane(240, ("+1\x14\x14\0" + mrs).encode())])
    keys = 'remove = ["Mrs. Haagse asks"]', 'remove-prefix = ["Mrs."]\nblank = ["Mrs. Haagse asks"]', 'blank = ["Mrs. Haagse asks"]'
    for key, there, absent in ((keys[0], removed, blanked), (keys[1], removed, blanked), (keys[2], blanked, removed)):
        yield f"a text in the interval, {key}", 1, early, early, claim_of(BOTH, key, ALL, 2), [there], [absent]
        yield (f"a text outside of the interval, {key}", 1, late, half, claim_of(BOTH, key, [("0", "2")], 2), [there],
               [absent, "outside the kept intervals"])
    literal, other = with_notes(note(0.5, "X")), with_notes(note(0.5, "Y"))
    yield ("another text for an X of the original", 1, literal, other, ALL_OF_IT,
           ["    At this time the claim keeps an annotation with another text, which the export lacks."], [blanked, removed])


def of_ends():
    """Annotations that the export has at the end of an interval, for other reasons than that."""
    at_end = "It begins exactly at the end of a kept interval"
    for onset, words, absent in (("1.99996", "it looks like a time that was rounded", at_end), ("1.9", at_end, "rounded")):
        old = with_lanes(
            "+0\x14\x14\0",
            "+1\x14\x14\0" + (note(onset, "Apnea") if onset == "1.99996" else ""),
            b"+2\x14\x14\0",
            b"+3\x14\x14\0",
        )
        new = edited(NIGHT, (signal(2, "samples"), "120"), (field("records"), "2"), parts=[
            VALUES_0, lane(240, b"+0\x14\x14\0"), VALUES_1, lane(240, ("+1\x14\x14\0" + note(2, "Apnea")).encode())])
        yield f"an annotation of {onset} s at the end", 1, old, new, claim_of(BOTH, "", [("0", "2")]), [words], [absent]


def of_numbers():
    """Numbers of claims that are wrong in more than one way."""
    yield ("a time below 0 without quotation marks", 2, WHOLE, WHOLE, claimed("[[keep]]", "from = -30", 'to = "3"'),
           ["from has a sign"], ['write from = "-30"'])
    yield ("a time of ten digits without quotation marks", 2, WHOLE, WHOLE, claimed("[[keep]]", "from = 1234567890", 'to = "3"'),
           ["from has too many digits"], ['write from = "'])
    yield ("200,000 days", 2, WHOLE, WHOLE, claimed('shift = "200000 days"', *KEEP),
           ["a shift is a number of seconds from -10000000000 to 10000000000"], ["is shift ="])


def of_letters():
    plain = with_notes(note(0.5, "Lights off"))
    for letter in UNSEEN + SEEN:
        text = f"A{letter}B"
        shown = f"A<U+{ord(letter):04X}>B" if letter in UNSEEN else text
        added = with_notes(note(0.5, "Lights off"), note(2.5, text))
        other = text if letter in UNSEEN else f"A<U+{ord(letter):04X}>B"
        yield f"the letter U+{ord(letter):04X}", 1, plain, added, ALL_OF_IT, [f'text "{shown}"'], [other]


def of_places():
    """Files in the places of others."""
    nameless = edited(NIGHT, (field("patient"), "MCH-0234567 F 02-MAY-1951 X"))
    renamed = edited(NIGHT, (field("patient"), "MCH-0234567 F 02-MAY-1951 Haagse_Henry"))
    claim = claim_of(BOTH, 'anonymous = ["name"]', ALL)
    first, second = "it looks like the original was typed as the export, too", "it looks like the export was typed as the original, too"
    both = "it looks like these two were exchanged"
    moving = claim_of(BOTH, 'anonymous = ["name"]\nshift = -86400', ALL)
    yield "the original twice", 1, WHOLE, WHOLE, claim, [first], [second, both]
    yield "the export twice", 1, nameless, nameless, moving, [second], [first, both]
    yield "the files exchanged", 1, nameless, WHOLE, claim, [both], [first, second]
    hidden, dated = (edited(NIGHT, (field("patient"), "X F X X"), (field("recording"), f"Startdate {day} X X X"))
                     for day in ("X", "02-MAR-2002"))
    yield ("a date that the export shows alone", 1, hidden, dated, claim_of(BOTH, 'anonymous = ["name", "date"]', ALL),
           ["The claim hides date"], [both, first, second])
    ward = edited(NIGHT, (field("patient"), "MCH-0234567 F 02-MAY-1951 Haagse_Harry Ward7"))
    yield ("words behind the name that the export adds", 1, WHOLE, ward, claim_of(BOTH, 'anonymous = ["patient-extras"]', ALL),
           ["The claim hides patient-extras"], [both, first, second])
    yield "a name that is another one", 1, WHOLE, renamed, claim, [], [first, second, both]
    changed = with_values(lambda channel, place, value: value + 1)
    yield "one header, and nothing to be hidden", 1, WHOLE, changed, ALL_OF_IT, [], [first, second, both]


def of_alike():
    """Texts that look alike."""
    looks = "It looks like a text that the claim keeps at this time, and has other bytes"
    for original, export, bytes_there in (
        ("M\u00fcller", "Mu\u0308ller", "the original has the bytes c3 bc where the export has the bytes 75 cc 88."),
        ("Lights off", "Lights off ", "the original has nothing where the export has the byte 20."),
        ("Lights off", "Lights\u00a0off", "the original has the byte 20 where the export has the bytes c2 a0."),
        ("Lights off", "Lights\u200b off", "the original has nothing where the export has the bytes e2 80 8b."),
        ("M\u00fcller", "Mueller", None),
        ("Lights off", "Lights of", None),
        ("Lights off", "Lights  off", None),
    ):
        there, absent = ([looks, bytes_there], []) if bytes_there else ([], [looks])
        pair = (with_notes(note(0.5, text)) for text in (original, export))
        how = {"Lights off ": "with a space behind it", "Lights  off": "with two spaces"}.get(export, export)
        yield f"the text {original!a} as {how!a}", 1, *pair, ALL_OF_IT, there, absent
    same = "  An annotation has a text that looks the same, and has other bytes: "
    for text, claimed, bytes_there in (
        ("Lights off", "Lights off ", "the claim has the byte 20 where the annotation has nothing."),
        ("M\u00fcller", "Mu\u0308ller", "the claim has the bytes 75 cc 88 where the annotation has the bytes c3 bc."),
        ("Lights off", "Lights of", None),
    ):
        there, absent = ([same + bytes_there], []) if bytes_there else ([], [same])
        file = with_notes(note(0.5, text))
        claim = claim_of(BOTH, f'remove = ["{claimed}"]', ALL)
        yield f"the text {text!r} as {claimed!r} in a claim", 0, file, file, claim, ["may be misspelt", *there], absent


def of_one_way():
    """Annotations that all differ in one way."""
    notes = [(0.5, "Apnea", "1"), (1.5, "Hypopnea", "2"), (2.5, "Apnea", "1.5")]

    def pair(change):
        return (with_notes(*(note(*one) for one in some)) for some in (notes, [change(*one) for one in notes]))

    lost, later, earlier = "All 3 annotations that differ only lack their durations", "0.125 s later", "0.125 s earlier"
    moved = "All 3 annotations that differ are only moved"
    listed = "The export lacks 3 annotations"
    yield "durations that are lost", 1, *pair(lambda at, text, span: (at, text)), ALL_OF_IT, [lost], [moved, listed]
    yield ("durations that are lost, and a text that is another", 1,
           *pair(lambda at, text, span: (at, text if at < 2 else "Snoring")), ALL_OF_IT, [listed], [moved, lost])
    yield ("durations of which one is left", 1,
           *pair(lambda at, text, span: (at, text) if at < 2 else (at, text, "1.25")), ALL_OF_IT, [listed], [moved, lost])
    yield ("onsets that are later", 1, *pair(lambda at, text, span: (at + 0.125, text, span)), ALL_OF_IT,
           [moved, later], [earlier, lost, listed])
    yield ("onsets that are earlier", 1, *pair(lambda at, text, span: (at - 0.125, text, span)), ALL_OF_IT,
           [moved, earlier], [later, lost, listed])
    yield ("onsets of which one is moved by more", 1,
           *pair(lambda at, text, span: (at + (0.125 if at < 2 else 0.25), text, span)), ALL_OF_IT, [listed], [moved, lost])


def claimed(*lines):
    return "\n".join(["format = 1", f"channels = {BOTH}", *lines, ""])


KEEP = ["[[keep]]", 'from = "0"', 'to = "4"']


def of_claims():
    """Claims that are refused: marks of typography, days, times of the day, and lines."""
    for name, sign, plain in (("a left double quotation mark (U+201C)", "\u201c", '"'), ("an en dash (U+2013)", "\u2013", "-"),
                              ("a double low-9 quotation mark (U+201E)", "\u201e", '"')):
        words = f"This line has {name}. If it isn't meant as a part of a text, write the plain {plain} in its place."
        line = f"shift = {sign}86400"
        yield f"a claim with {name}", 2, WHOLE, WHOLE, claimed(line, *KEEP), [words], []
    yield "a claim without marks", 2, WHOLE, WHOLE, claimed("shift = off", *KEEP), [], ["This line has"]
    yield ("a time with an en dash", 2, WHOLE, WHOLE, claimed("[[keep]]", 'from = "0\u20134"', 'to = "4"'),
           ["from has an en dash (U+2013)"], ["a number of seconds"])
    day = "one day is 86400 s"
    for text, unit, seconds in (('"-100 days"', day, -8640000), ('"-100days"', day, -8640000), ("-100 days", day, -8640000),
                                ('"2 hours"', "one hour is 3600 s", 7200), ('"-1 week"', "one week is 604800 s", -604800)):
        name = f"a shift of {text}" + (" in quotation marks" if text.startswith('"') else "")
        yield (name, 2, WHOLE, WHOLE, claimed(f"shift = {text}", *KEEP),
               [unit, f"is shift = {seconds}"], ["This line has"])
    yield "a shift between quotation marks", 2, WHOLE, WHOLE, claimed('shift = "-86400"', *KEEP), ["without quotation marks"], [
        "is shift = ",
    ]
    for text, seconds in (("00:10:00", 600), ("23:30", 84600), ("1:00:01", 3601)):
        yield (f"the clock {text}", 2, WHOLE, WHOLE, claimed("[[keep]]", f'from = "{text}"', 'to = "99999"'),
               [f'"{text}" is {seconds} s: as a length of time, from = "{seconds}"'], [])
    yield ("a clock without quotation marks", 2, WHOLE, WHOLE, claimed("[[keep]]", "from = 00:10:00", 'to = "99999"'),
           ['"00:10:00" is 600 s: as a length of time, from = "600"'], [])
    for text in ("600,5", "1:2:3:4", "ten:past"):
        yield (f"no clock {text}", 2, WHOLE, WHOLE, claimed("[[keep]]", f'from = "{text}"', 'to = "99999"'),
               [], ["as a length of time"])
    listed = claimed("keep = [", '  { from = "0", to = "1" }, # { confirm', '  { from = "2", to = 3 }, # confirm', "]")
    yield "a mistake in a list of intervals", 2, WHOLE, WHOLE, listed, ['line 5, column 3: ', 'write to = "3"'], [
        "line 3: keep",
    ]
    first = claimed("keep = [", '  { from = "0", to = 1 },', '  { from = "2", to = "3" },', "]")
    yield "one in the first of a list", 2, WHOLE, WHOLE, first, ["line 4, column 3: "], ["line 3: keep", "line 5"]
    lacking = claimed("[[keep]]", 'from = "0"', "[[keep]]", 'from = "2"', 'to = "3"')
    yield "an interval without its end", 2, WHOLE, WHOLE, lacking, ["line 3: [[keep]]: interval 1 has no to"], ["line 7"]


def of_misspelt():
    """What may be misspelt in a claim, behind a No."""
    other = edited(NIGHT, (field("patient"), "MCH-0234567 F 02-MAY-1951 Haagse_Henry"))
    for key, text, is_misspelt in (("remove", "Lights of", True), ("remove", "Lights off", False),
                                   ("remove-prefix", "Light of", True), ("remove-prefix", "Light", False)):
        claim = claim_of(BOTH, f'{key} = ["{text}"]', ALL, 2)
        words = f'"{text}" of {key}: it may be misspelt.'
        yield f"{key} of {text!r} behind a No", 1, WHOLE, other, claim, [words] if is_misspelt else [], [] if is_misspelt else [
            words,
        ]


def of_channels():
    """Other channels, which are named only where the answer with them is better, and none of channels again."""
    unknown, tried = "it may be misspelt", "With channels = ["
    both = 'With channels = ["EEG Fpz-Cz", "ECG"] the answer would be YES channels 2 samples 24 annotations 3.'
    flow = edited(NIGHT, (signal(1, "label"), "Flow"))
    for claimed, words in (('["EEG Fpz-C"]', [unknown, both]), ('["ECg", "EEG Fpz-C"]', [unknown, f'{tried}"ECG", "EEG Fpz-Cz"] the']),
                           ('["Flow"]', [unknown, both]), ('["EEG Fpz-Cz"]', ['has channel "ECG"', both])):
        yield f"the channels {claimed}", 1, WHOLE, WHOLE, claim_of(claimed, "", ALL), words, []
    for claimed, words in (('["EEG Fpz-Cz", "Flow"]', [unknown]), (BOTH, ['names channel "ECG"'])):
        yield f"the channels {claimed}, of an export with another", 1, WHOLE, flow, claim_of(claimed, "", ALL), words, [
            tried,
        ]
    told = edited(NIGHT, (signal(1, "label"), "Flow"), (signal(1, "reserved"), "Haagse"))
    free = 'channel "Flow" has the text "Haagse" in its reserved field'
    for file, words, others in ((told, [unknown, free], []), (flow, [unknown], [free])):
        yield (f"a channel that the original lacks, with {'a text' if words[1:] else 'none'}", 1, WHOLE, file,
               claim_of('["EEG Fpz-Cz", "Flow"]', "", ALL), words, others)
    half = edited(NIGHT, (field("records"), "2"), parts=NIGHT["parts"][:4])
    yield ("a channel too many, and half of the night", 1, WHOLE, half, claim_of('["ECG"]', "", ALL),
           [f'{tried}"ECG", "EEG Fpz-Cz"] the first difference would be NO 10 sample "ECG" at 2000000000000 ps missing.'], [])
    yield "a sensor, and all channels", 1, WHOLE, edited(NIGHT, (signal(1, "transducer"), "Cup")), ALL_OF_IT, [], [tried]


TABLES = [
    of_names, of_other_names, of_files, of_scales, of_extra_notes, of_samples, of_rates, of_letters, of_places, of_alike,
    of_one_way, of_claims, of_misspelt, of_channels, of_hidden_letters, of_removed_texts, of_ends, of_numbers,
]


def rows():
    for table in TABLES:
        yield from table()
