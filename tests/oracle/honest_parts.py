"""Looks whether what `explain-parts` says of random wrong exports in several parts is so: numbers, and remedies.

usage: python3 -m tests.oracle.honest_parts PROGRAM [COUNT [SEED]]

It makes COUNT nights with a claim and an export as tests/oracle/honesty.py does (2,000 where none is said; SEED is a number, 1 if none
is said, and the same number makes the same files), wrong in up to three ways, and cuts the export into one to four parts. Of some
nights one part alone has another header or another shift; parts are exchanged, one is handed in twice, or one begins in the last
second of the part in front of it; each part has the annotations of all; or files are broken off, or have bytes behind their ends.
PROGRAM runs `check-parts` and `explain-parts` on each. What the sentences state is recounted from how the files were made: of each
part which rules of its header are broken, and whether its samples were compared all the same; by how much it starts elsewhere than
claimed or, behind the first part, than the first sample that is kept behind the part in front of it, and when; and of each of its
channels how many samples are missing, too many and changed, the first and the last of them, and how many of how many are changed where
nearly all are; of all parts together which annotations are missing and too many, of each of those that are too many how many
annotations of each part begin when it does, of each of those that are missing in the time of which part it lies, and whether it looks as if
each part had all of them. What is missing in front of a part counts for it, and behind the last part for that one. Of a part that
begins before the one in front of it ends, and of those behind it, the headers alone are compared, and no annotations are. Where files
can't be judged, the first fault of each is said, and nothing else. Each change of the claim that is named is put into the claim,
`check-parts` is run again, and its line is compared with what was said. Which ones are tried follows from how the files were made, too:
one that helps has to be named.

What disagrees is said, of twenty exports at the most. The last line counts the exports that passed and failed.
"""

import collections
import os
import re
import sys
import tempfile
from decimal import Decimal

from tests.edf import seconds
from tests.explain.sentences import OF_PARTS, filled, sentences
from tests.made import PS, apart, notes_apart
from tests.oracle.honesty import (
    DAY, LISTED, NOTES, SENTENCES as OF_ONE, Honesty, Said, case, choose, clock, common, head_lines, length, lines_of, lost_from,
    named_otherwise, texts_otherwise, truncated, words_in_header, wrong_head_lines, wrong_listed, wrong_nearly_all, wrong_notes, wrong_spot,
)

PART = re.compile(r"^Part (\d+):$")
THEN = re.compile(r"^    Part \d+ has \d+ annotations? that begins? at this time\.$")
WITHIN = re.compile(r"^    This time lies between the begin and the end of part \d+\.$")
SENTENCES = sentences([OF_PARTS])
TOGETHER, NOTES_AS_CLAIMED = SENTENCES["NOTES_OF_ALL"], SENTENCES["NOTES_OF_ALL_AS_CLAIMED"]
AS_CLAIMED = SENTENCES["PART_AS_CLAIMED"]
COMPARED = [SENTENCES["PART_COMPARED"], SENTENCES["PART_WITHOUT_CHANNELS"]]
UNCOMPARED = [SENTENCES["PART_EARLY"], SENTENCES["PART_NOT_COMPARED"]]
STARTS_BEHIND = re.compile(r"^Its first samples are at (\S+ \S+), (.*) (earlier|later) than the first one of its channels that the claim "
                           r"keeps behind the part in front of it, which belongs at (\S+ \S+)\.$")
EARLY_LINE = re.compile(r"^NO 12 part (\d+) starts early$")


# ---- how the parts are made


def seconds_of(part):
    """The seconds that a recording has, after the start of the original."""
    return [second for first, last in part.stretches for second in range(first, last)]


def stretches_of(places):
    """Seconds as stretches."""
    stretches = []
    for second in places:
        if stretches and stretches[-1][1] == second:
            stretches[-1] = stretches[-1][0], second + 1
        else:
            stretches.append((second, second + 1))
    return stretches


def in_parts(export):
    """The export in one to four parts, each of which has at least one second. An annotation stands in the first part that ends
    behind its onset, or in the last one."""
    places = seconds_of(export)
    cuts = sorted(choose.sample(range(1, len(places)), min(choose.randint(0, 3), len(places) - 1)))
    left, parts = list(export.notes), []
    for first, last in zip([0, *cuts], [*cuts, len(places)]):
        stretches = stretches_of(places[first:last])
        is_last = last == len(places)
        kept = [note for note in left if is_last or note[0] < stretches[-1][1] * PS]
        left = [note for note in left if note not in kept]
        parts.append(export.but(stretches=stretches, notes=kept))
    return parts


def head_of_one(original, parts):
    """Another header of one part: free text, another name, a channel less or one more, or a text of a channel."""
    part, way = choose.choice(parts), choose.randrange(4)
    others = sorted(original.channels.keys() - part.channels.keys())
    if way == 0:
        words_in_header(part)
    elif way == 1:
        named_otherwise(part, choose.choice(["Haagse_Mary", "X"]))
    elif way == 2 and others:
        part.channels[others[0]] = original.channels[others[0]]
    elif way == 2 and len(part.channels) > 1:
        del part.channels[choose.choice(sorted(part.channels))]
    else:
        texts_otherwise(part)


def shift_of_one(parts):
    """Another shift of one part of several."""
    if len(parts) > 1:
        choose.choice(parts).shift += choose.choice([1, 1, 20, -1, -20, 3600, -3600, DAY, -DAY])


def order_otherwise(parts):
    """Two parts that are exchanged, one that is handed in twice, or one that begins in the last second of the one in front of it."""
    way = choose.randrange(3)
    if way == 0 or len(parts) == 1:
        number = choose.randrange(len(parts))
        parts.insert(number, parts[number].but())
    elif way == 1:
        one, other = choose.sample(range(len(parts)), 2)
        parts[one], parts[other] = parts[other], parts[one]
    else:
        number = choose.randrange(1, len(parts))
        before = parts[number - 1].stretches[-1][1] - 1
        parts[number].stretches = stretches_of([before, *seconds_of(parts[number])])


def all_in_each(export, parts):
    """The annotations of all parts in each of them, as far as a data record has room for them."""
    if len(export.notes) <= 6:
        for part in parts:
            part.notes = list(export.notes)


def broken(files):
    """How many bytes each file has lost at its end, one or two of them some; below 0 it has as many behind its end."""
    lost = [0] * len(files)
    for number in choose.sample(range(len(files)), choose.choice([1, 1, 2])):
        size = files[number].record_size()
        lost[number] = choose.choice([lost_from(files[number]), lost_from(files[number]), -1, -size])
    return lost


def parts_case():
    """An original, an export in parts, the claim, and how many bytes each file has lost, that of the original first."""
    original, export, claim = case((0, 1, 1, 2, 3))
    parts, way = in_parts(export), choose.randrange(16)
    if way == 0:
        head_of_one(original, parts)
    elif way == 1:
        shift_of_one(parts)
    elif way == 2:
        order_otherwise(parts)
    elif way == 4:
        all_in_each(export, parts)
    files = [original, *parts]
    return original, parts, claim, broken(files) if way == 3 else [0] * len(files)


# ---- what is said, and what is so


class Sections:
    """The sentences of an explanation of several exports: those in front of the first part, of each part, and behind all."""

    def __init__(self, text):
        self.front, self.parts, self.together, self.are_notes_as_claimed, self.numbers = [], [], None, False, []
        into = self.front
        for line in text.splitlines():
            if found := PART.match(line):
                self.numbers.append(int(found[1]))
                into = []
                self.parts.append(into)
            elif line == TOGETHER:
                into = self.together = []
            elif line == NOTES_AS_CLAIMED:
                self.are_notes_as_claimed = True
            else:
                into.append(line)

    def tried(self):
        """What is said of what was tried."""
        return Said("\n".join(self.front + (self.together or []) + (self.parts[-1] if self.parts else [])))


def begin_of(part, shift):
    """When the first data record of a part begins, by this shift, in picoseconds after the second at which the original starts."""
    return (part.begin() + part.shift - shift) * PS + part.fraction


def end_of(part, shift):
    """When its last data record ends."""
    return (part.stretches[-1][1] + part.shift - shift) * PS + part.fraction


def first_early(parts):
    """The number of the first part that begins before the one in front of it ends, or none."""
    early = [number for number in range(1, len(parts)) if begin_of(parts[number], 0) < end_of(parts[number - 1], 0)]
    return early[0] if early else None


def span_of(parts, number, shift):
    """The time that counts for a part, in picoseconds after the start of the original: from the end of the one in front of it, and
    to its own end, or for ever."""
    first = end_of(parts[number - 1], shift) if number else -(10**30)
    return first, end_of(parts[number], shift) if number + 1 < len(parts) else 10**30


def kept_in(original, parts, number, claim, shift):
    """When the samples are taken that are kept in the time that counts for a part, of the channels that both have."""
    first, end = span_of(parts, number, shift)
    return [at for label in common(original, parts[number], claim) for at in original.samples(label)
            if claim.keeps(at) and first <= at < end]


def kept_first(original, parts, claim, shift):
    """The same of the first part that has such a sample in its time, of those that are compared. Behind one that lacks a claimed channel
    it isn't known, nor of one behind the first that lacks one."""
    early = first_early(parts)
    for number, part in enumerate(parts[:early]):
        kept = kept_in(original, parts, number, claim, shift)
        has_all = len(common(original, part, claim)) == len(claim.labels)
        if kept or not has_all:
            return kept if has_all or number == 0 else []
    return []


def with_all_notes(parts):
    """The first part with the annotations of all parts, each at its time by the clock of the first one."""
    first = parts[0]
    notes = [(onset + (part.shift - first.shift) * PS, *rest) for part in parts for onset, *rest in part.notes]
    return first.but(notes=notes)


def starts_behind(lines):
    """By how much a part is said to start elsewhere than the first sample that is kept behind the part in front of it, and when."""
    found = [STARTS_BEHIND.match(line) for line in lines]
    return [(length(spot[2]), spot[3], spot[1], spot[4]) for spot in found if spot]


def wrong_start(lines, original, parts, number, claim, shift):
    """What is wrong with where a part starts, by this shift: the first one as by the claim, and each other one beside the first sample
    of its channels that is kept behind the part in front of it."""
    part, kept = parts[number], kept_in(original, parts, number, claim, shift) if number else kept_first(original, parts, claim, shift)
    later, want = begin_of(part, shift) - min(kept, default=0), []
    if kept and later:
        exported = clock(part.begin() * PS + part.fraction, part.shift)
        want = [(abs(later), "earlier" if later < 0 else "later", exported, clock(min(kept), shift))]
    starts = Said("\n".join(lines)).starts
    of_first, behind = [starts] if starts else [], starts_behind(lines)
    if of_first + behind == want and not (behind if number == 0 else of_first):
        return None
    return f"it starts {want}; said: {of_first} {behind}"


def wrong_heads(lines, said, original, part, claim):
    """What is wrong with what is said of the header of a part, and of its samples, which were compared all the same."""
    want, compared = list(head_lines(original, part, claim)), []
    if want:
        has_channels = bool(common(original, part, claim))
        compared = [COMPARED[0 if has_channels else 1]]
        if has_channels and not said.counts:
            want.append(("THEY_ARE_AS_CLAIMED", []))
    if [line for line in lines if line in COMPARED] != compared:
        return f"it lacks {compared}; said: {lines}"
    return wrong_head_lines(said, lines_of(want))


def wrong_part(lines, original, parts, number, claim, shift):
    """What is wrong with what is said of a part, by this shift."""
    part, said = parts[number], Said("\n".join(lines))
    span, counts = span_of(parts, number, shift), []
    by = shift if number else claim.shift
    if wrong := wrong_start(lines, original, parts, number, claim, by) or wrong_heads(lines, said, original, part, claim):
        return wrong
    for label in common(original, part, claim):
        found_apart = apart(original, part, claim, label, shift)
        found_apart["missing"] = [spot for spot in found_apart["missing"] if span[0] <= spot[0] < span[1]]
        kept = [at for at in original.samples(label) if claim.keeps(at) and span[0] <= at < span[1]]
        counts.append((len(found_apart["changed"]), len(kept) - len(found_apart["missing"])))
        for kind, found in found_apart.items():
            count, spots = said.counts.pop((label, kind), (0, []))
            if count != len(found):
                return f"{len(found)} samples of {label} are {kind}; said: {count}"
            names = ["It"] if count == 1 else ["The first", "The last"] if count else []
            for name, spot, want in zip(names, spots + [None, None], [found[0], found[-1]] if found else []):
                if wrong := wrong_spot(spot, name, want, shift):
                    return f"{kind} sample of {label}: {wrong}"
    if said.counts:
        return f"said of samples that aren't: {said.counts}"
    return wrong_nearly_all(said, counts)


def wrong_uncompared(lines, original, part, claim, is_first):
    """What is wrong with what is said of a part that wasn't compared, the first one of these or one behind it."""
    said = Said("\n".join(lines))
    of_part = [line for line in lines if line in [*COMPARED, *UNCOMPARED, AS_CLAIMED]]
    if of_part != lines[-1:] or of_part != [UNCOMPARED[0 if is_first else 1]]:
        return f"it isn't compared; said: {lines}"
    if said.counts or said.starts or starts_behind(lines) or said.nearly_all or said.odd:
        return f"its samples aren't compared, and said is: {lines}"
    return wrong_head_lines(said, lines_of(head_lines(original, part, claim)))


def fault_lines(side, made, lost):
    """What has to be said of a file that has lost so many bytes, or has some behind its end."""
    fault, meaning = (truncated(made, lost), "TRUNCATED") if lost > 0 else ("TrailingBytes at end", "TRAILING_BYTES")
    yield filled(OF_ONE["FAULT"], [fault, side])
    yield OF_ONE[meaning]
    if lost < 0:
        yield OF_ONE[f"Side.{side.capitalize()}"]


def wrong_faults(sections, original, parts, lost):
    """What is wrong with the first faults of files, of which alone something is said."""
    want = {number: list(fault_lines("export", part, count)) for number, (part, count) in enumerate(zip(parts, lost[1:])) if count}
    front = list(fault_lines("original", original, lost[0])) if lost[0] else []
    said = dict(zip(sections.numbers, sections.parts))
    if said == want and sections.front == front and len(sections.numbers) == len(want) and sections.together is None:
        return None if not sections.are_notes_as_claimed else "annotations are said to be as claimed"
    return f"of faults it lacks {front} {want}; said: {sections.front} {said}"


def lines_then(at, parts, shift):
    """What has to be said of an annotation that is too many at a time, in seconds as a sentence says it: how many of each part begin
    then. Of one part alone nothing is said."""
    for number, part in enumerate(parts if len(parts) > 1 else []):
        count = sum(seconds(onset + (part.shift - shift) * PS) == at for onset, *_ in part.notes)
        if count == 1:
            yield filled(SENTENCES["NOTE_THEN"], [str(number)])
        elif count:
            yield filled(SENTENCES["NOTES_THEN"], [str(number), str(count)])


def lines_within(at, parts, shift):
    """What has to be said of an annotation that is missing at a time, in seconds as a sentence says it: the part in whose time it
    begins, from the begin of its first data record and to the end of its last one. Of one part alone nothing is said."""
    ps = round(Decimal(at) * PS)
    for number, part in enumerate(parts if len(parts) > 1 else []):
        if begin_of(part, shift) <= ps < end_of(part, shift):
            yield filled(SENTENCES["NOTE_WITHIN"], [str(number)])


def wrong_then(lines, parts, shift):
    """What is wrong with the parts that are named behind an annotation: behind one that is too many, how many annotations of each begin
    when it does; behind one that is missing, the part in whose time it lies."""
    want, lines_behind = [], None
    for line in lines:
        if THEN.match(line) or WITHIN.match(line):
            continue
        want.append(line)
        for kind, named in (("lacks", lines_within), ("has", lines_then)):
            if NOTES[kind].match(line):
                lines_behind = named
        if lines_behind and (found := LISTED.match(line)):
            want += lines_behind(found[1], parts, shift)
    return None if want == lines else f"behind annotations parts are to be named so: {want}; said: {lines}"


def lines_of_each(original, parts, claim, shift):
    """What has to be said where none of several annotations is missing, those that are too many are the kept ones, once for each further
    part, and each part has as many as are kept, some of which begin when the first and the last of those do."""
    kept = [note for note in original.notes if claim.keeps(note[0]) and note[2] not in claim.remove]
    begins = [[onset + (part.shift - shift) * PS for onset, *_ in part.notes] for part in parts]
    missing, extra = notes_apart(original, with_all_notes(parts), claim, shift)
    if len(parts) > 1 and len(kept) > 1 and not missing and extra == collections.Counter(kept * (len(parts) - 1)):
        ends = {min(onset for onset, *_ in kept), max(onset for onset, *_ in kept)}
        if all(len(found) == len(kept) and ends <= set(found) for found in begins):
            yield filled(SENTENCES["ALL_IN_EACH"], [str(len(kept))])


def wrong_each(sections, original, parts, claim, shift):
    """What is wrong with what is said of each part, by this shift, or none."""
    early = first_early(parts)
    for number, lines in enumerate(sections.parts):
        if early is not None and number >= early:
            if wrong := wrong_uncompared(lines, original, parts[number], claim, number == early):
                return f"part {number}: {wrong}"
            continue
        if wrong := wrong_part(lines, original, parts, number, claim, shift):
            return f"part {number}: {wrong}"
        of_part = Said("\n".join(lines))
        starts = of_part.starts or starts_behind(lines)
        is_as_claimed = not any(head_lines(original, parts[number], claim)) and not of_part.counts and not starts
        if of_part.odd or (AS_CLAIMED in lines) != is_as_claimed or any(line in UNCOMPARED for line in lines):
            return f"is part {number} as claimed: {is_as_claimed}; said, and what is odd: {lines} {of_part.odd}"
    return None


class HonestParts(Honesty):
    """The program in a folder of its own, and how many explanations passed and failed."""

    def run(self, command, *files):
        """As `check-parts` wants its files: the claim behind the original."""
        if command != "check":
            return super().run(command, *files)
        original, *exports, claim = files
        return super().run("check-parts", original, claim, *exports)

    def wrong_in_parts(self, original, parts, claim, lost):
        """What is wrong with an explanation, or none; the files have lost so many bytes at their ends, or have some behind these."""
        wholes = [made.bytes() for made in (original, *parts)]
        cut = [whole[:len(whole) - count] if count >= 0 else whole + bytes(-count) for whole, count in zip(wholes, lost)]
        names = ["original.edf", *(f"part-{number}.edf" for number in range(len(parts)))]
        files = [self.path(name, content) for name, content in zip(names, cut)]
        text = self.path("claim.toml", claim.text().encode())
        status, line = self.run("check", *files, text)
        if status not in (0, 1):
            return f"the check has status {status}: {line}"
        ended, whole = self.run("explain-parts", files[0], text, *files[1:])
        if ended != status or not whole.startswith(line) or whole == line:
            return f"the explanation has status {ended}; the check: {line}"
        sections, line = Sections(whole[len(line):]), line.rstrip("\n")
        self.seen[line.split()[0] + line.split()[1] * (status == 1)] += 1
        self.seen[f"{len(parts)} parts"] += 1
        if any(lost):
            self.see_faults(lost)
            return wrong_faults(sections, original, parts, lost)
        return self.wrong_parts(sections, line, files, (original, parts, claim))

    def see_faults(self, lost):
        """Counts files that can't be judged."""
        self.seen["an original that is broken off, or has bytes behind its end"] += lost[0] != 0
        self.seen["a part that is broken off"] += any(count > 0 for count in lost[1:])
        self.seen["a part with bytes behind its end"] += any(count < 0 for count in lost[1:])
        self.seen["two files with faults"] += sum(count != 0 for count in lost) == 2

    def see(self, said, original, parts, claim):
        """Counts of what kind the parts are, and what is said."""
        heads = [list(head_lines(original, part, claim)) for part in parts]
        self.seen["one part whose header alone isn't as claimed"] += len(parts) > 1 and sum(map(bool, heads)) == 1
        self.seen["headers that aren't as claimed in several ways"] += any(head != heads[0] for head in heads)
        self.seen["one part that alone has another shift"] += len({part.shift for part in parts}) > 1
        self.seen["a part that begins early"] += first_early(parts) is not None
        self.seen["a part behind one that begins early"] += first_early(parts) not in (None, len(parts) - 1)
        self.seen["a shift that makes a Yes"] += said.has_yes()
        self.seen["a shift that is better"] += bool(said.named) and not said.has_yes()
        self.seen["shifts that aren't better"] += bool(said.tried)
        self.seen["other channels"] += bool(said.channels)
        self.seen["another end"] += bool(said.ends)

    def wrong_parts(self, sections, line, files, made):
        """What is wrong with what is said of files that have no fault, or none."""
        original, parts, claim = made
        said = sections.tried()
        if said.odd or sections.numbers != list(range(len(sections.parts))):
            return f"said in no known form, or twice, or parts without their numbers: {said.odd} {sections.numbers}"
        # with a shift that makes a Yes it is said where the first part starts, and nothing else
        if len(sections.parts) != (1 if said.has_yes() else len(parts)):
            return f"{len(parts)} parts; said: {len(sections.parts)}"
        self.see(said, *made)
        early, found = first_early(parts), EARLY_LINE.match(line)
        if found and int(found[1]) != early or not found and early is not None and not re.match("NO [3-9] ", line):
            return f"the first part that begins early is {early}; the check: {line}"
        kept = kept_first(original, parts, claim, claim.shift)
        first = min(kept, default=0)
        starts = begin_of(parts[0], claim.shift) - first if kept else 0, first
        if wrong := (self.wrong_remedies(said, claim, files, line, first)
                     or self.wrong_tries(said, claim, files, line, (original, parts[0], with_all_notes(parts), starts))):
            return wrong
        if said.has_yes():
            if sections.together or any(Said("\n".join(lines)).counts for lines in sections.parts):
                return "samples or annotations are listed"
            return wrong_start(sections.parts[0], original, parts, 0, claim, claim.shift)
        shift = claim.shift if said.reckoned is None else said.reckoned
        return wrong_each(sections, original, parts, claim, shift) or self.wrong_together(sections, original, parts, claim, shift)

    def wrong_together(self, sections, original, parts, claim, shift):
        """What is wrong with what is said of the annotations of all parts, or none: nothing where not all were compared."""
        is_compared = first_early(parts) is None
        are_as_claimed = is_compared and sections.together is None and any(any(head_lines(original, part, claim)) for part in parts)
        if sections.are_notes_as_claimed != are_as_claimed:
            return f"are all annotations as claimed behind other headers: {are_as_claimed}; said: {sections.are_notes_as_claimed}"
        if not is_compared:
            return f"annotations are compared behind an early part: {sections.together}" if sections.together is not None else None
        together, exported = sections.together or [], with_all_notes(parts)
        of_notes = Said("\n".join(together))
        missing = of_notes.listed.get("lacks", ([], 0))[0]
        of_each = list(lines_of_each(original, parts, claim, shift))
        if [line for line in together if line.startswith("Each part has ")] != of_each:
            return f"of each part it lacks {of_each}; said: {together}"
        self.seen["parts each of which has all annotations"] += bool(of_each)
        self.seen["annotations of which it is said which part has them"] += any(THEN.match(line) for line in together)
        self.seen["missing annotations in the time of a part"] += any(WITHIN.match(line) for line in together)
        self.seen["missing annotations in the time of no part"] += len(parts) > 1 and any(
            not list(lines_within(at, parts, shift)) for at, *_ in missing)
        if wrong := wrong_notes(of_notes, original, exported, claim, shift) or wrong_then(together, parts, shift):
            return wrong
        if of_notes.is_one_way and len(parts) > 1:
            self.seen["annotations that differ in one way, of several parts"] += 1
            return wrong_listed(of_notes, "has", notes_apart(original, exported, claim, shift)[1], shift)
        return None


def main():
    if len(sys.argv) not in (2, 3, 4) or not os.access(sys.argv[1], os.X_OK):
        print("usage: python3 -m tests.oracle.honest_parts PROGRAM [COUNT [SEED]]", file=sys.stderr)
        return 2
    count = int(sys.argv[2]) if len(sys.argv) > 2 else 2000
    choose.seed(int(sys.argv[3]) if len(sys.argv) > 3 else 1)
    failed = 0
    shared = "/dev/shm" if os.access("/dev/shm", os.W_OK) else None
    with tempfile.TemporaryDirectory(dir=shared) as work:
        honest = HonestParts(os.path.abspath(sys.argv[1]), work)
        for number in range(count):
            if wrong := honest.wrong_in_parts(*parts_case()):
                failed += 1
                if failed <= 20:
                    print(f"export {number}: {wrong}")
    for name, times in sorted(honest.seen.items()):
        print(f"{times} with {name}")
    print(f"{count - failed} passed, {failed} failed")
    return 1 if failed or not count else 0


if __name__ == "__main__":
    sys.exit(main())
