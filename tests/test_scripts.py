"""The module for Python, extras/edfclaim.py, on every kind of line that the program writes.

The lines are those of the tables of tests/cases, of the example night, of the broken copies of tests/faults.py and of
docs/READING-THE-ANSWER.md. Each is read, and written again from what was read; then one of each shape is turned in many
ways, and no turned line may be taken, or else it is written again as it stands. So are the lines of `show` and `notes`:
those of docs/CLAIM.md, and those of the program, which have to say what the night was made of. The drafts and explanations
of the module are those that the program prints. The module is run with the program, and with programs that say what
edfclaim doesn't.
"""

import contextlib
import decimal
import pathlib
import re
import sys

from tests import edf, faults
from tests import night as example
from tests.cases import BY_RULES, all_rows
from tests.harness import ANSWERS, NIGHT, TOP, Case, ProgramCase, each, run, slug
from tests.reading.rules import SUBFIELDS
from tests.recordings import LANES, recorded

sys.path.insert(0, str(TOP / "extras"))
import edfclaim  # noqa: E402

KINDS = {"check": edfclaim.CHECK, "check-parts": edfclaim.CHECK_PARTS, "conform": edfclaim.CONFORM, "show": edfclaim.CONFORM}


def lines_of_cases():
    """The lines of the tables of tests/cases, with the command that gives each."""
    for row in all_rows():
        if row.line is not BY_RULES and row.line and not row.line.startswith("start "):
            yield row.command, row.line.rstrip("\n")


def lines_of_files():
    """Those of the example night and of its broken copies."""
    for status, words, line in ANSWERS:
        if status != 2:
            yield words.split()[0], line
    for _, fault, _ in faults.FAULTS:
        yield "conform", f"FAULT {fault}"
        yield "check", f"NO 1 original fault: {fault}"
        yield "check", f"NO 2 export fault: {fault}"
        yield "check-parts", f"NO 1 original fault: {fault}"
        yield "check-parts", f"NO 2 part 63 export fault: {fault}"


def spelled(line):
    """The lines that a line of the page stands for, with words in the place of its capital letters."""
    line = line.replace("fault: ..", "fault: Truncated at record 3").replace("duration Q", "duration 7 ps")
    line = re.sub(r'"([LT])"', r'"\1 \\x22"', line)
    line = re.sub(r"(?<= )[CSNRJVWPK](?= |$)", "7", line)
    fields = re.findall(r"[a-z-]+", edfclaim.FIELD if "header field" in line else edfclaim.OF_SIGNAL)
    for name in SUBFIELDS if "subfield NAME" in line else fields:
        yield line.replace("NAME", name)


def faults_of_row(found):
    """The faults that the texts of a row's first column stand for: some are a fault, and names for its last word."""
    fronts = [text for text in found if " at " in text]
    names = [text for text in found if " at " not in text]
    for front in fronts:
        bare = front if front.endswith(" field") else front.rsplit(" ", 1)[0]
        yield from [front] if bare != front else []
        yield from (f"{bare} {name}" for name in names)


def verdicts_of_row(found):
    """The answers that they stand for: some are an answer, and other words for its end."""
    for text in found:
        if re.match("(YES|NO|CONFORMS|FAULT) ", text):
            yield text.replace("FAULT ..", "FAULT Overlap at record 1")
        elif re.fullmatch("prefilter|changed|extra|original V export W", text):
            yield re.sub(r"(transducer|not X|missing|extra)$", text, found[0])


def lines_of_page():
    """Those of the tables of docs/READING-THE-ANSWER.md, in whose first column they stand."""
    commands = {"## The answer of `edfclaim check-parts`": "check-parts", "## The answers of the other commands": "conform"}
    command, is_fault = "check", False
    for row in (TOP / "docs" / "READING-THE-ANSWER.md").read_text(encoding="utf-8").splitlines():
        if row.startswith("## "):
            command, is_fault = commands.get(row, "check"), row == "## Faults"
        found = re.findall("`([^`]*)`", row.split(" | ")[0]) if row.startswith("| `") else []
        if is_fault:
            yield from (("conform", f"FAULT {line}") for text in faults_of_row(found) for line in spelled(text))
        else:
            yield from ((command, line) for text in verdicts_of_row(found) for line in spelled(text) if ".." not in line)


def quoted(text):
    """A text between quotation marks, as the program writes it."""
    return '"' + re.sub(r'[\x00-\x1f"\\\x7f]', lambda found: f"\\x{ord(found[0]):02x}", text) + '"'


def written(verdict):
    """The line of a verdict, from its kind and its fields alone."""
    it = dict(verdict.fields)
    part = f"part {it['part']} " if "part" in it else ""
    names = ("parts", "records", "channels", "samples", "annotations")
    counts = " ".join(f"{name} {it[name]}" for name in names if name in it)
    if verdict.kind in ("yes", "conforms"):
        return f"{'YES' if verdict.kind == 'yes' else 'CONFORMS'} {counts}"
    fault = f"{it['cause']} at {it['place']}" if "cause" in it else ""
    if verdict.kind == "fault":
        return f"FAULT {fault}"
    label = quoted(it["label"]) if "label" in it else ""
    how = f"original {it['original']} export {it['export']}" if it.get("how") == "value" else it.get("how")
    if verdict.kind == "sample":
        rest = f"{label} at {it['at_ps']} ps {how}"
    elif verdict.kind == "annotation":
        duration = "none" if it["duration_ps"] is None else f"{it['duration_ps']} ps"
        rest = f"{how} at {it['at_ps']} ps duration {duration} text {quoted(it['text'])}"
    elif verdict.kind.endswith("fault"):
        rest = f": {fault}"
    elif verdict.kind == "not clean":
        rest = label or "header"
    else:
        rest = " ".join(word for word in (label, it.get("field"), it.get("subfield"), how) if word)
    return f"NO {verdict.number} {part}{verdict.kind} {rest}".replace(" : ", ": ").rstrip()


def turned(line):
    """Lines that are like this one."""
    yield from (f" {line}", f"{line} ", f"{line}\n", f"\ufeff{line}", line[1:], line.lower(), line.replace(" ", "  ", 1))
    yield from (line[:-1], line.rsplit(" ", 1)[0], f"{line} {line}", f"{line}\n{line}", "")
    for found in re.finditer("[0-9]+", line):
        for other in (f"0{found[0]}", f"+{found[0]}", f"-{found[0]}", f"{found[0]}.0", "\u0663", "", "x"):
            yield line[:found.start()] + other + line[found.end():]
    for found in re.finditer("[A-Za-z-]+", line):
        yield line[:found.start()] + "other" + line[found.end():]
    for found in re.finditer('"', line):
        for other in ("", '""', "'", "\\x41", "\\x2", "\\"):
            yield line[:found.start()] + other + line[found.end():]
        # behind a first mark, within the text
        for other in ("\t", "\x1f", "\x7f", "\n", "\\x41", "\\x1F", "\\x2", "\\n", "\\"):
            yield line[:found.end()] + other + line[found.end():]


def kind_of(line, forms):
    """The kind of a line, or none where it isn't taken."""
    try:
        return edfclaim.parse(line, forms).kind
    except edfclaim.BadLine:
        return None


def shape_of(command, line):
    """What is the same in lines that differ in numbers and texts alone."""
    return command, re.sub(r'"[^"]*"|-?[0-9]+', "", line)


def shapes():
    """All lines by their shapes, each line once: a name, the command, and its lines."""
    found = {}
    for command, line in dict.fromkeys([*lines_of_files(), *lines_of_page(), *lines_of_cases()]):
        found.setdefault(shape_of(command, line), []).append(line)
    return [(slug(" ".join(shape)), shape[0], lines) for shape, lines in found.items()]


SHAPES = shapes()


class Lines(Case):
    """Lines that are read, written again, and turned."""

    @each(SHAPES)
    def read(self, command, lines):
        for line in lines:
            verdict = edfclaim.parse(line, KINDS[command])
            self.assertEqual((written(verdict), verdict.line), (line, line), f"what was read: {verdict}")
            is_yes = line.startswith(("YES ", "CONFORMS "))
            self.assertEqual((verdict.yes, bool(verdict)), (is_yes, is_yes), line)
            number = re.match("NO ([0-9]+) ", line)
            self.assertEqual(verdict.number, int(number[1]) if number else 0 if is_yes else -1, line)

    @each(SHAPES)
    def turned(self, command, lines):
        for other in turned(lines[0]):
            with contextlib.suppress(edfclaim.BadLine):
                verdict = edfclaim.parse(other, KINDS[command])
                # a turned line can be another one that the program may write, as with another label
                self.assertEqual(written(verdict), other, f"taken for {verdict}")
                self.assertNotIn("\n", other, f"taken for {verdict}")

    def test_all_kinds(self):
        kinds = {(command, kind_of(lines[-1], KINDS[command])) for _, command, lines in SHAPES}
        wanted = {(name, kind) for name, forms in KINDS.items() if name != "show" for _, kind, _ in forms}
        self.assertEqual(sorted(wanted - kinds), [], "kinds of which there is no line")

    # Lines that are no lines of a command.
    NOT_TAKEN = [
        ("part_of_a_check_without_its_number", "NO 12 starts early", edfclaim.CHECK),
        ("part_of_a_check", "NO 12 part 1 starts early", edfclaim.CHECK),
        ("part_of_a_check_with_a_channel", "NO 4 part 0 missing channel \"L\"", edfclaim.CHECK),
        ("channel_of_no_part", "NO 4 missing channel \"L\"", edfclaim.CHECK_PARTS),
        ("yes_of_parts_of_a_check", "YES parts 2 channels 3 samples 1 annotations 5", edfclaim.CHECK),
        ("yes_of_no_parts", "YES channels 3 samples 1 annotations 5", edfclaim.CHECK_PARTS),
        ("fault_of_a_check", "FAULT Overlap at record 1", edfclaim.CHECK),
        ("yes_of_conform", "YES channels 3 samples 1 annotations 5", edfclaim.CONFORM),
        ("refusal", "edfclaim: out of memory", edfclaim.CHECK),
        ("number_13", "NO 13 part 1 starts early", edfclaim.CHECK_PARTS),
        ("original_of_a_part", "NO 1 part 0 original fault: Overlap at record 1", edfclaim.CHECK_PARTS),
        ("no_such_subfield", "NO 8 subfield other not X", edfclaim.CHECK),
        ("subfield_x", "NO 8 subfield name X", edfclaim.CHECK),
        ("no_such_cause", "FAULT Other at record 1", edfclaim.CONFORM),
        ("cause_without_its_own", "FAULT BadTal at record 1", edfclaim.CONFORM),
        ("field_of_a_signal_in_the_header", "FAULT BadNumber at header field label", edfclaim.CONFORM),
        ("field_of_the_header_in_a_signal", "FAULT BadNumber at signal 1 field version", edfclaim.CONFORM),
    ]

    @each(NOT_TAKEN)
    def not_taken(self, line, forms):
        self.assertRaises(edfclaim.BadLine, edfclaim.parse, line, forms)


def written_header(header):
    """The lines of a header, from what was read of it alone."""
    yield from (f"kind {header.kind}", f"start {header.start.isoformat(' ')}", f"records {header.records}")
    yield f"duration {header.duration_ps} ps"
    for name in SUBFIELDS:
        texts = header.subfields[name]
        yield from (f"{name[:-1]} {text}" for text in texts) if name.endswith("-extras") else [f"{name} {texts}"]
    for it in header.channels:
        low, high = (int(extreme * 10**7) for extreme in (it.physical_minimum, it.physical_maximum))
        texts = f"dimension {quoted(it.dimension)} transducer {quoted(it.transducer)} prefilter {quoted(it.prefilter)}"
        numbers = f"physical {low} {high} digital {it.digital_minimum} {it.digital_maximum}"
        yield f"channel {quoted(it.label)} samples {it.samples} {numbers} {texts}"


def written_note(note):
    """The line of an annotation, from what was read of it alone."""
    duration = "none" if note.duration_ps is None else f"{note.duration_ps} ps"
    return f"{note.onset_ps} ps duration {duration} text {quoted(note.text)}"


def read_again(read, written, given):
    """Whether what is read of this is written again as it stands; none where it isn't taken."""
    try:
        return written(read(given)) == given
    except edfclaim.BadLine:
        return None


def printed_lines():
    """What docs/CLAIM.md shows of a command: its lines, by the command."""
    text = (TOP / "docs" / "CLAIM.md").read_text(encoding="utf-8")
    blocks = re.finditer(r"^\$ edfclaim (show|notes) [^\n]*\n(.*?)^```$", text, re.M | re.S)
    return {found[1]: found[2].splitlines() for found in blocks}


def turned_headers(lines):
    """Headers that are like this one: each line turned, left out, twice, and in the place of the one before it."""
    for at, line in enumerate(lines):
        front, behind = lines[:at], lines[at + 1:]
        yield from (front + [other] + behind for other in turned(line))
        yield from (front + behind, front + [line, line] + behind, front[:-1] + [line] + front[-1:] + behind)
    yield from ([], lines[:-5], lines + ["FAULT Overlap at record 1"])


PRINTED = printed_lines()


def again(lines):
    """The lines of a header, from what is read of them."""
    return list(written_header(lines))


class Reports(Case):
    """The lines of show and notes of docs/CLAIM.md, each read and written again, and turned."""

    def test_shown(self):
        self.assertEqual(
            [len(PRINTED.get(name, [])) for name in ("show", "notes")],
            [18, 10],
            "lines that docs/CLAIM.md shows",
        )

    def headers(self):
        """The header of the page, and one with odd texts."""
        shown = PRINTED["show"]
        odd = [*shown[:9], "patient-extra Second", *shown[9:13], "recording-extra A", "recording-extra B"]
        odd += ['channel "\\x22\\x5c" samples 1 physical -1 0 digital -32768 -1 dimension "" transducer "" prefilter " a"']
        return {"page": shown, "odd": odd}

    @each([("of_the_page", "page"), ("with_odd_texts", "odd")])
    def header(self, name):
        lines = self.headers()[name]
        self.assertIs(read_again(edfclaim.read_header, again, lines), True, f"not taken, or not written again: {lines}")
        for other in turned_headers(lines):
            # a turned line can be another one that the program may write, as with another name
            right = read_again(edfclaim.read_header, again, other)
            self.assertTrue(right is None or right and not any("\n" in line for line in other), f"taken: {other}")

    def test_notes(self):
        for line in [*PRINTED["notes"], '-1 ps duration 0 ps text ""', '5 ps duration none text "a\\x22b\\x5c\\x09\u2028"']:
            self.assertIs(
                read_again(edfclaim.read_note, written_note, line),
                True,
                f"not taken, or not written again: {line}",
            )
            for other in turned(line):
                right = read_again(edfclaim.read_note, written_note, other)
                self.assertTrue(right is None or right and "\n" not in other, f"taken: {other!r}")


class ModuleCase(ProgramCase):
    """Tests of the module's calls, in a copy of the night."""

    @classmethod
    def setUpClass(cls):
        super().setUpClass()
        cls.night = cls.copy_of_night()
        cls.enterClassContext(contextlib.chdir(cls.night))

    def call(self, name, *words):
        """A call of the module, by the name of its command."""
        if name.endswith("-parts"):
            words = [words[0], words[1], words[2:]]
        return getattr(edfclaim, name.replace("-", "_"))(*words, program=self.program)

    def printed(self, *words):
        """The status of the program, and the lines that it prints."""
        ran = run(self.program, *words)
        return ran.status, ran.out.decode().split("\n")[:-1]


class Checks(ModuleCase):
    """Verdicts and receipts of the night."""

    @each((slug(words), status, words.split(), line) for status, words, line in ANSWERS)
    def verdict(self, status, words, line):
        if status == 2:
            with self.assertRaises(edfclaim.NoAnswer) as refusal:
                self.call(*words)
            self.assertEqual((refusal.exception.status, refusal.exception.said), (2, line))
        else:
            verdict = self.call(*words)
            self.assertEqual((verdict.line, verdict.yes), (line, status == 0))

    @each((slug(words), status, words.split(), line) for status, words, line in ANSWERS if words.startswith("check"))
    def receipt(self, status, words, line):
        words = [words[0].replace("check", "receipt"), *words[1:]]
        if status == 2:
            with self.assertRaises(edfclaim.NoAnswer) as refusal:
                self.call(*words)
            self.assertEqual((refusal.exception.status, refusal.exception.said), (2, line))
        else:
            self.assertEqual(self.call(*words).verdict.line, line)

    def test_stored_receipt(self):
        one = self.call("receipt", "original.edf", "cut.edf", "cut.toml")
        self.assertEqual(one.text, pathlib.Path("receipt.txt").read_bytes())
        self.assertEqual(list(one.files), ["original", "export", "claim"])
        self.assertEqual(one.files["claim"][1], 838, "bytes of the claim")

    def test_stored_receipt_of_parts(self):
        several = self.call("receipt-parts", "original.edf", "cut.toml", "cut-part-1.edf", "cut-part-2.edf")
        self.assertEqual(several.text, pathlib.Path("receipt-parts.txt").read_bytes())
        self.assertEqual(list(several.files), ["original", "part 0", "part 1", "claim"])

    def test_claim_in_another_spelling(self):
        """Python's own reader of TOML takes neither a byte order mark nor such an escape."""
        spelled = "\ufeff" + pathlib.Path("cut.toml").read_text(encoding="utf-8").replace('"Mrs.', '"\\x4drs.')
        pathlib.Path("spelled.toml").write_text(spelled, encoding="utf-8")
        self.assertEqual(self.call("check", "original.edf", "cut.edf", "spelled.toml").line, YES_OF_NIGHT)

    def test_name_with_a_dash(self):
        pathlib.Path("-cut.edf").write_bytes(pathlib.Path("cut.edf").read_bytes())
        self.assertTrue(self.call("check", "original.edf", "-cut.edf", "cut.toml").yes)


YES_OF_NIGHT = "YES channels 3 samples 13590 annotations 5"


def wanted_header():
    """The header of the night, by what it was made of."""
    code, sex, birthdate, name, *extras = example.PATIENT
    administration, technician, equipment = example.RECORDING
    subfields = {
        "code": code, "sex": sex, "birthdate": birthdate, "name": name, "patient-extras": extras, "date": "17-MAR-2019",
        "administration": administration, "technician": technician, "equipment": equipment, "recording-extras": [],
    }
    channels = [
        edfclaim.Channel(label, rate, decimal.Decimal(low), decimal.Decimal(high), -2048, 2047, unit, sensor, prefilter)
        for label, (sensor, unit, low, high, prefilter, rate) in example.CHANNELS.items()
    ]
    return edfclaim.Header("EDF+C", example.START, example.SECONDS, 10**12, subfields, channels)


class Readers(ModuleCase):
    """The headers and the annotations of the night's files, of one with odd texts, and of files with faults."""

    FILES = sorted(path.name for path in NIGHT.glob("*.edf"))

    def test_header_of_the_night(self):
        self.assertEqual(self.call("show", "original.edf"), wanted_header())

    def test_annotations_of_the_night(self):
        wanted = [edfclaim.Note(at * 10**9, None if span < 0 else span * 10**9, text) for at, span, text in example.NOTES]
        self.assertEqual(self.call("notes", "original.edf"), wanted)

    @each((slug(path), path) for path in FILES)
    def show(self, path):
        self.assertEqual(list(written_header(self.call("show", path))), self.printed("show", path)[1])

    @each((slug(path), path) for path in FILES)
    def notes(self, path):
        self.assertEqual([written_note(note) for note in self.call("notes", path)], self.printed("notes", path)[1])

    ODD = '"a\\b" \t \u2028 \x85 \u00e4 X\r\n'
    ODD_LANES = [*LANES[:2], edf.tal("+2", "") + edf.tal("-7.25", ODD, duration=0), LANES[3]]
    ODD_NOTES = [
        edfclaim.Note(500_000_000_000, None, "Lights off"), edfclaim.Note(1_500_000_000_000, 10**12, "Apnea"),
        edfclaim.Note(-7_250_000_000_000, 0, ODD),
    ]

    def test_odd_texts(self):
        pathlib.Path("odd.edf").write_bytes(recorded(lanes=self.ODD_LANES))
        self.assertEqual(self.call("notes", "odd.edf"), [*self.ODD_NOTES, edfclaim.Note(3 * 10**12, None, "Apnea")])

    def assert_faulty(self, call, path, line, before):
        with self.assertRaises(edfclaim.Faulty) as fault:
            self.call(call, path)
        self.assertEqual((fault.exception.verdict.line, fault.exception.notes), (line, before))

    def test_fault_behind_annotations(self):
        pathlib.Path("late.edf").write_bytes(recorded(lanes=[*self.ODD_LANES[:3], b"+3.5\x14\x14\0"]))
        self.assert_faulty("notes", "late.edf", "FAULT NotContiguous at record 3", self.ODD_NOTES)
        self.assertEqual(self.call("show", "late.edf").records, 4, "data records of a file with a fault behind its header")

    @each([("notes", "notes"), ("show", "show")])
    def fault_of_a_header(self, call):
        pathlib.Path("no-header.edf").write_bytes(pathlib.Path("cut.edf").read_bytes()[:300])
        self.assert_faulty(call, "no-header.edf", "FAULT Truncated at signal 2 field label", [])

    def test_notes_of_a_broken_file(self):
        pathlib.Path("broken.edf").write_bytes(pathlib.Path("cut.edf").read_bytes()[:-1])
        self.assertRaises(edfclaim.Faulty, self.call, "notes", "broken.edf")

    @each([("notes", "notes"), ("show", "show")])
    def no_file(self, call):
        self.assertRaises(edfclaim.NoAnswer, self.call, call, "none.edf")

    def test_no_program(self):
        self.assertRaises(FileNotFoundError, edfclaim.notes, "cut.edf", program="./none")


class Explanations(ModuleCase):
    """Of the night's checks: the answer, and what the program prints behind it, with its indents."""

    CHECKS = [(slug(words), status, words.split()[1:], line) for status, words, line in ANSWERS if words.startswith("check ")]

    @each(CHECKS)
    def explain(self, status, words, line):
        if status == 2:
            with self.assertRaises(edfclaim.NoAnswer) as refusal:
                self.call("explain", *words)
            said = refusal.exception.said.split("\n")
            self.assertEqual((refusal.exception.status, said[0]), (2, line))
            self.assertGreater(len(said), 1, "lines of what was said")
        else:
            said, (code, lines) = self.call("explain", *words), self.printed("explain", *words)
            self.assertEqual((said.verdict, code), (self.call("check", *words), status))
            self.assertTrue(said.sentences)
            self.assertEqual(lines, [line, *said.sentences])

    def test_indents(self):
        indents = set()
        for _, status, words, _ in self.CHECKS:
            if status != 2:
                sentences = self.call("explain", *words).sentences
                indents.update(len(text) - len(text.lstrip(" ")) for text in sentences)
        self.assertLessEqual({0, 2}, indents, "indents of sentences")


class Drafts(ModuleCase):
    """The stored draft, those of exports that no claim of their own makes a Yes, and files of which there is none."""

    def test_stored(self):
        one = self.call("draft", "original.edf", "cut.edf")
        self.assertEqual(one.text, pathlib.Path("draft.toml").read_text(encoding="utf-8"))
        self.assertEqual((one.status, one.kind, bool(one)), (0, "draft", True))
        first = f"# With this draft the check answers: {YES_OF_NIGHT}"
        self.assertEqual((one.verdict.line, one.first), (YES_OF_NIGHT, first))
        pathlib.Path("drafted.toml").write_text(one.text, encoding="utf-8", newline="\n")
        self.assertEqual(self.call("check", "original.edf", "cut.edf", "drafted.toml"), one.verdict)

    def test_no_yes(self):
        other = self.call("draft", "original.edf", "changed-value.edf")
        line = 'NO 10 sample "EEG C4-M1" at 75500000000000 ps original -49 export -48'
        self.assertTrue(other.first.startswith(f"# NOT A YES: with this draft the check answers: {line}."), other)
        self.assertEqual((bool(other), other.verdict.line, other.verdict.yes), (True, line, False))

    def test_swapped(self):
        swapped = self.call("draft", "cut.edf", "original.edf")
        self.assertEqual((bool(swapped), swapped.verdict.number), (True, 3))

    @each([("original", "broken.edf", "cut.edf"), ("export", "original.edf", "broken.edf")])
    def broken(self, *words):
        pathlib.Path("broken.edf").write_bytes(pathlib.Path("cut.edf").read_bytes()[:-1])
        role, said = "original" if words[0] == "broken.edf" else "export", self.call("draft", *words)
        given = said.status, said.kind, bool(said), said.verdict.line
        self.assertEqual(given, (1, f"{role} fault", False, "FAULT Truncated at record 17"))
        self.assertEqual((said.text, said.first), (f"# the {role}\n{said.verdict.line}\n", f"# the {role}"))

    def test_none(self):
        nobody, values = ["X"] * 4, {"Temp rectal": [0] * 2100}
        for name, intervals in (("whole.edf", [(0, 2100)]), ("pieces.edf", [(at, at + 1) for at in range(0, 2002, 2)])):
            data = example.file(values, [], ["Temp rectal"], intervals, 1, 64, 0, nobody, lambda _: nobody)
            pathlib.Path(name).write_bytes(data)
        none = self.call("draft", "whole.edf", "pieces.edf")
        self.assertEqual((none.status, none.kind, bool(none), none.verdict), (1, "no draft", False, None))
        self.assertTrue(none.text.count("\n") == 1 and none.first.startswith("# no draft: "), none)

    def test_no_file(self):
        self.assertRaises(edfclaim.NoAnswer, self.call, "draft", "original.edf", "none.edf")

    HALVES = ["cut-part-1.edf", "cut-part-2.edf"]

    def test_parts(self):
        one = self.call("draft_parts", "original.edf", self.HALVES)
        line = "YES parts 2 channels 3 samples 13590 annotations 5"
        self.assertEqual((one.status, one.kind, bool(one), one.verdict.line), (0, "draft", True, line))
        pathlib.Path("drafted.toml").write_text(one.text, encoding="utf-8", newline="\n")
        self.assertEqual(self.call("check_parts", "original.edf", "drafted.toml", self.HALVES), one.verdict)

    def test_parts_in_another_order(self):
        none = self.call("draft_parts", "original.edf", self.HALVES[::-1])
        self.assertEqual((none.status, none.kind, bool(none), none.verdict), (1, "no draft", False, None))

    def test_parts_that_overlap(self):
        none = self.call("draft_parts", "original.edf", ["cut-part-1.edf", "overlapping-part-2.edf"])
        self.assertEqual((none.status, none.kind, none.verdict), (1, "no draft", None))

    def test_broken_part(self):
        pathlib.Path("broken.edf").write_bytes(pathlib.Path("cut-part-2.edf").read_bytes()[:-1])
        said = self.call("draft_parts", "original.edf", ["cut-part-1.edf", "broken.edf"])
        self.assertEqual((said.status, said.kind, said.verdict.line), (1, "export fault", "FAULT Truncated at record 8"))
        self.assertEqual(said.first, "# part 1")


# What a program says, with which status, and what the module raises of its check.
STRANGE = [
    ("yes_with_status_1", "echo 'YES channels 1 samples 1 annotations 1'; exit 1", edfclaim.BadLine),
    ("no_with_status_0", "echo 'NO 8 subfield name not X'", edfclaim.BadLine),
    ("line_more_behind_a_yes", "echo 'YES channels 1 samples 1 annotations 1'; echo", edfclaim.BadLine),
    ("line_more_before_a_yes", "echo; echo 'YES channels 1 samples 1 annotations 1'", edfclaim.BadLine),
    ("yes_without_its_end", "printf 'YES channels 1 samples 1 annotations 1'", edfclaim.BadLine),
    ("letter_behind_a_yes", "echo 'YES channels 1 samples 1 annotations 1'; printf Y", edfclaim.BadLine),
    ("byte_that_is_no_text", "printf 'NO 5 extra channel \"\\377\"\\n'; exit 1", edfclaim.BadLine),
    ("nothing_with_status_0", "exit 0", edfclaim.BadLine),
    ("nothing_with_status_1", "exit 1", edfclaim.BadLine),
    ("yes_with_status_2", "echo 'YES channels 1 samples 1 annotations 1'; exit 2", edfclaim.NoAnswer),
    ("yes_with_status_137", "echo 'YES channels 1 samples 1 annotations 1'; exit 137", edfclaim.NoAnswer),
    ("yes_of_a_program_that_is_ended", "echo 'YES channels 1 samples 1 annotations 1'; kill -9 $$", edfclaim.NoAnswer),
    ("yes_with_a_warning", "echo 'YES channels 1 samples 1 annotations 1'; echo warning >&2", edfclaim.NoAnswer),
]


YES, NO = "YES channels 1 samples 1 annotations 1", "NO 8 subfield name not X"
WITH, NOT = "# With this draft the check answers:", "# NOT A YES: with this draft the check answers:"
HEAD = "kind EDF+C"

# What prints a claim, and the comment of one that is too long.
CLAIM = """printf 'format = 1\\nchannels = [\\n  "ECG",\\n]\\nkeep = [\\n  { from = "0", to = "4" }, # 0 ps to 4000000000000 ps\\n]\\n'
printf 'anonymous = [\\n]\\nshift = -5\\nremove = [\\n]\\n'"""
TOO_LONG = "echo '# too long for a claim; bytes that are too many: 7'"

# What a program says to another command, with which status, and what the module raises of that.
STRANGE_REPORTS = [
    ("yes_that_is_a_no", "draft", f"echo '{WITH} {NO}.'", edfclaim.BadLine),
    ("no_that_is_a_yes", "draft", f"echo '{NOT} {YES}.'", edfclaim.BadLine),
    ("yes_with_a_dot", "draft", f"echo '{WITH} {YES}.'", edfclaim.BadLine),
    ("no_without_a_dot", "draft", f"echo '{NOT} {NO}'", edfclaim.BadLine),
    ("no_with_its_dot_on_another_line", "draft", f"echo '{NOT} {NO}'; echo '.'", edfclaim.BadLine),
    ("yes_with_status_1", "draft", f"echo '{WITH} {YES}'; exit 1", edfclaim.BadLine),
    ("without_its_first_line", "draft", "echo 'format = 1'", edfclaim.BadLine),
    ("nothing_with_status_0", "draft", "exit 0", edfclaim.BadLine),
    ("nothing_with_status_1", "draft", "exit 1", edfclaim.BadLine),
    ("none_with_status_0", "draft", "echo '# no draft: none'", edfclaim.BadLine),
    ("fault_without_a_line", "draft", "echo '# the export'; exit 1", edfclaim.BadLine),
    ("fault_with_status_0", "draft", "echo '# the export'; echo 'FAULT Overlap at record 1'", edfclaim.BadLine),
    (
        "fault_that_conforms",
        "draft",
        "echo '# the export'; echo 'CONFORMS records 1 channels 1 samples 1 annotations 1'; exit 1",
        edfclaim.BadLine,
    ),
    ("yes_without_its_end", "draft", f"printf '{WITH} {YES}'", edfclaim.BadLine),
    ("yes_with_status_2", "draft", f"echo '{WITH} {YES}'; exit 2", edfclaim.NoAnswer),
    ("yes_of_a_program_that_is_ended", "draft", f"echo '{WITH} {YES}'; kill -9 $$", edfclaim.NoAnswer),
    ("yes_with_status_1", "explain", f"echo '{YES}'; echo 'All is well.'; exit 1", edfclaim.BadLine),
    ("no_with_status_0", "explain", f"echo '{NO}'", edfclaim.BadLine),
    ("sentences_before_the_line", "explain", f"echo 'All is well.'; echo '{YES}'", edfclaim.BadLine),
    ("nothing", "explain", "exit 0", edfclaim.BadLine),
    ("sentence_without_its_end", "explain", f"echo '{YES}'; printf 'All is'", edfclaim.BadLine),
    ("yes_with_status_2", "explain", f"echo '{YES}'; exit 2", edfclaim.NoAnswer),
    ("yes_with_a_warning", "explain", f"echo '{YES}'; echo warning >&2", edfclaim.NoAnswer),
    ("first_line_alone", "show", f"echo '{HEAD}'", edfclaim.BadLine),
    ("nothing_with_status_0", "show", "exit 0", edfclaim.BadLine),
    ("nothing_with_status_1", "show", "exit 1", edfclaim.BadLine),
    ("fault_with_status_0", "show", "echo 'FAULT Overlap at record 1'", edfclaim.BadLine),
    ("first_line_with_status_1", "show", f"echo '{HEAD}'; exit 1", edfclaim.BadLine),
    ("first_line_and_a_fault", "show", f"echo '{HEAD}'; echo 'FAULT Overlap at record 1'; exit 1", edfclaim.BadLine),
    ("fault", "show", "echo 'FAULT Overlap at record 1'; exit 1", edfclaim.Faulty),
    ("first_line_with_status_137", "show", f"echo '{HEAD}'; exit 137", edfclaim.NoAnswer),
    ("annotation_with_status_1", "notes", "echo '0 ps duration none text \"a\"'; exit 1", edfclaim.BadLine),
    ("nothing_with_status_1", "notes", "exit 1", edfclaim.BadLine),
    ("another_line_before_a_fault", "notes", "echo Hello; echo 'FAULT Overlap at record 1'; exit 1", edfclaim.BadLine),
    ("fault", "notes", "echo 'FAULT Overlap at record 1'; exit 1", edfclaim.Faulty),
    ("empty_line", "notes", "echo; exit 0", edfclaim.BadLine),
    ("annotation_without_its_end", "notes", "printf '0 ps duration none text \"a\"'", edfclaim.BadLine),
    ("nothing_with_status_2", "notes", "exit 2", edfclaim.NoAnswer),
    ("nothing", "claim", "exit 0", edfclaim.BadLine),
    ("status_1", "claim", f"{CLAIM}; exit 1", edfclaim.BadLine),
    ("status_2", "claim", f"{CLAIM}; exit 2", edfclaim.NoAnswer),
    ("two_formats", "claim", f"echo 'format = 1'; {CLAIM}", edfclaim.BadLine),
    ("another_format", "claim", CLAIM.replace("format = 1", "format = 3"), edfclaim.BadLine),
    ("no_channels", "claim", CLAIM.replace("channels", "labels"), edfclaim.BadLine),
    ("label_without_quotes", "claim", CLAIM.replace('"ECG"', "ECG"), edfclaim.BadLine),
    ("other_picoseconds", "claim", CLAIM.replace("4000000000000", "4000000000001"), edfclaim.BadLine),
    ("time_with_a_zero", "claim", CLAIM.replace('"4"', '"4.0"'), edfclaim.BadLine),
    ("shift_with_a_dot", "claim", CLAIM.replace("= -5", "= -5.0"), edfclaim.BadLine),
    ("escape_that_is_not_written", "claim", CLAIM.replace('"ECG"', '"\\\\t"'), edfclaim.BadLine),
    ("no_end", "claim", CLAIM[:-len("]\\n'")] + "'", edfclaim.BadLine),
    ("keys_of_format_2", "claim", f"{CLAIM}; printf 'blank = [\n]\n'", edfclaim.BadLine),
    ("line_behind_the_comment", "claim", f"{CLAIM}; {TOO_LONG}; {TOO_LONG}", edfclaim.BadLine),
]

# The words of each call.
WORDS = {"draft": ["a", "b"], "explain": ["a", "b", "c"], "show": ["a"], "notes": ["a"], "claim": ["a"]}


class Strange(Case):
    """Programs that say what edfclaim doesn't."""

    def stand_in(self, script):
        """A program that does this."""
        path = self.file("stand-in", f"#!/bin/sh\n{script}\n")
        path.chmod(0o755)
        return str(path)

    @each((f"{name}_by_{call}", call, script, kind) for call in ("check", "receipt") for name, script, kind in STRANGE)
    def check(self, call, script, kind):
        with self.assertRaises(kind, msg=script):
            getattr(edfclaim, call)("a", "b", "c", program=self.stand_in(script))

    @each((f"{call}_{name}", call, script, kind) for name, call, script, kind in STRANGE_REPORTS)
    def report(self, call, script, kind):
        with self.assertRaises(kind, msg=script):
            getattr(edfclaim, call)(*WORDS[call], program=self.stand_in(script))

    def test_draft_that_was_not_tried(self):
        said = edfclaim.draft("a", "b", program=self.stand_in("echo '# NOT TRIED: a file'\necho 'format = 1'"))
        self.assertEqual((bool(said), said.verdict, said.text), (True, None, "# NOT TRIED: a file\nformat = 1\n"))
        self.assertEqual(said.first, "# NOT TRIED: a file")

    def test_claim(self):
        said = edfclaim.claim("a", program=self.stand_in(f"{CLAIM}; {TOO_LONG}"))
        self.assertEqual((said.channels, said.intervals, said.shift, said.excess), (["ECG"], [(0, 4 * 10**12)], -5, 7))

    def test_sentences(self):
        script = f"echo '{NO}'\necho '  A  sentence '\necho\nexit 1"
        said = edfclaim.explain("a", "b", "c", program=self.stand_in(script))
        self.assertEqual((said.verdict.line, said.sentences), (NO, ["  A  sentence ", ""]))
