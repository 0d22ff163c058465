#!/usr/bin/env python3
"""Writes one document for an auditor: what a Yes of the check means, with each word that it stands on.

usage: tools/gate/headline.py           writes out/headline.txt and out/headline.html
       tools/gate/headline.py --check   looks whether they can be written, and writes nothing

The document begins with the contract of the call `check`, with its clause `headline` alone. Then comes each
definition that the contract stands on, once, as its file has it and with its comment, behind the first that
needs it: first what an export keeps of its original, and behind that what bytes say. Of a type of the code that is
its item, and its value to contracts where it has one (`impl Model`); bodies of functions are no part of it. What is
left out of a copy is marked by `[..]`, and words that aren't copied are named. At the end stand a few sentences that no
comment has, and the words of the toolchain.

A word that is defined nowhere is printed, and so is one that stands beside those of the headline in a file of
definitions and isn't needed, a sentence of a definition that isn't copied, and a row of the notation of which nothing
is used; nothing is written then, and the status is 1. The last line of the output counts the definitions, their lines without and with comments, and the words
of the text. Empty lines never count.
"""

import functools
import html
import html.parser
import itertools
import pathlib
import re
import sys
import textwrap
import typing

sys.dont_write_bytecode = True
TOP = pathlib.Path(__file__).resolve().parent.parent.parent
CRATES = TOP / "crates"
OUT = TOP / "out"
WIDTH = 120

# how other files may use a word: this isn't copied, but of code
VISIBLE = re.compile(r"^( *)(?:(?:abbrev|unfoldable) )?pub (?!fn|struct|enum|trait|const)", re.M)
# signs and words that the language of definitions has without a `use`
SIGNS = set(": = . , ; _ → × λ ⊥ ¬ ( ) { } [..] Type Unit tt record where let in".split())
# kinds of values that the code has without a `use`
KINDS = re.compile(r"[iu](?:8|16|32|64|128|size)|bool|char|str|Option|Result|String|Vec")

TOKEN = re.compile(r'--.*|"(?:[^"\\]|\\.)*"|\[\.\.\]|\[\]|λ|[(){}\[\];,.]|[^\s(){}\[\];,."]+')
NAME = re.compile(r"[^\W\d][\w'-]*")
DEFINES = re.compile(r"(?:abbrev |unfoldable )?(?:pub )?(?:record (?P<record>\S+)|(?P<word>\S+) :(?=\s))")
FIELD = re.compile(r"^  (?:pub )?(\S+) :(?=\s)", re.M)
USE = re.compile(r"^(?:ghost )?use (Rattle[\w.]+?)(?:\.\{([^}]*)\}| as (\w+));?$")

CODE_TOKEN = re.compile(r"'\w+|\w+")
ITEM = re.compile(r"(?:pub(?:\([^)]*\))? )?(struct|enum|trait|fn) (\w+)")
MODEL = re.compile(r"impl(?:<[^>]*>)? Model for (\w+)")
CLAUSE = re.compile(r"    (?:ensures|requires)\b *(\w*)")
COLON = re.compile(r"\b(\w+):(?!:)")
VARIANT = re.compile(r"^    ([A-Z]\w*)", re.M)
PART = re.compile(r" +(?:pub |ghost |ensures |requires )+(\w+)")
GHOST = re.compile(r"^ *(?:(?:ensures|requires)\b *\w*|ghost \w+(?::| =)) *(?=\{)", re.M)

TITLE = "What a Yes means"
HEADLINE = "Headline"
# with these begins what bytes say: they come behind all that an export keeps
BYTES = ("Conforms", "HasHead", "HasNotes", "SaysRecord", "record_at", "lane_of", "digital_value", "day_number")
PARTS = ("What an export keeps", "What bytes say")
# what stands right behind the headline: laws, each a clause of a call that does nothing
LAWS = (
    ("edf_header/specs/HeadsReading.antt", "HasOneHead"),
    ("edf_stream/specs/Laws.antt", "HasItsNotes"),
    ("edf_stream/specs/Laws.antt", "OneAtAnInstant"),
)
# what isn't copied, and why
LEFT_OUT = {
    "Difference": "what a No names; of a No the headline says nothing",
    "CheckStop": "why a check stops and answers neither Yes nor No",
    "Reads": "how many reads of a source failed",
    "ReadFault": "a read that failed",
    "Fails": "that one more failed",
    "Rises": "that a count went up",
}
# parts of what is copied that are left out: fields, members and clauses of these names
CUT = {"Source": ("reads", "failures", "fails")}
ABOUT = [
    "edfclaim checks an export of a night against its original and a claim: that the export is the original, cut"
    " and made anonymous as the claim says, and nothing else. The call `check` answers this. If it answers Yes, and"
    " each of its two sources is honest and gives the bytes of its file (`is_honest`; `left` are the bytes still to come, at"
    " the call the whole file), then the statement `Headline` holds of the two files and the claim, and the counts of the Yes are the"
    " export's. This is proved of the code.",
    "It says this of a Yes alone: what a No says is another clause of `check`, `verdict`. A source over bytes in memory"
    " gives them, and this is proved; that a file on a disk gives its bytes is assumed. How the text of a claim becomes"
    " the claim, and that the line of this verdict is printed, are clauses of `run`. The profile is the definition"
    " `Conforms`: which EDF+ files are judged at all. A channel is a signal whose label isn't `EDF Annotations`; the"
    " lane of a signal is its bytes in a data record; a TAL is a time-stamped annotations list (EDF+ 2003).",
    "Here stands all of this project that has to be read to know what a Yes of this call means: first its contract,"
    " then each definition that it stands on, once, numbered, behind the first that needs it. There are two parts: what an"
    " export keeps of its original, and what the bytes of a file say, for who knows EDF, with `Conforms` first. All is copied"
    " from the files that are named, but for words that say how other files may use a definition. The"
    " prose above a definition is its comment: it says in words what the definition says exactly, and the definition is"
    " what counts. Right behind `Headline` stand laws, which are proved to follow from the definitions: a file has one"
    " header, says its annotations in one way, and has no sample twice.",
    "Of a type of the code its fields count and, where `impl Model` gives one, the value by which contracts know it; how the"
    " code works is no part of it. Where something is left out of a copy a line says `[..]`: the other clauses of"
    " `check`, what holds of each value of a type, and what a source says of reads that fail. What the code derives for"
    " its types (`#[derive]`) is left out, too. Words that aren't copied are named at the end. That a claim which can be"
    " read is sensible (`IsClaim`) is proved, and nothing here needs it.",
    "Behind the definitions stand a header and a lane as examples, the names with their numbers, and the words that no file of"
    " this project defines: those of the toolchain's library.",
]
NOTATION = [
    ("f x y", "the function f of x and y; a word with a capital is a statement, or a kind of values"),
    ("A → B", "between statements: from A follows B; between kinds of values: the functions from A to B"),
    ("A × B, A ⊎ B", "A and B, and between kinds of values: the pairs; A or B"),
    ("what binds first", "a call; then ^; *; ∷; +, - and ++; <, ≤, <ℤ, ≤ℤ and ==; &&; ||; *ℤ; +ℤ and -ℤ; ≡ and ≢; ×, ⊎"
     " and ↔, between which brackets stand; and → last. A → B → C is A → (B → C)"),
    ("(x : T) → A", "for each x of the kind T, A holds"),
    ("(x : T) × A", "there is an x of the kind T for which A holds"),
    ("a ≡ b, a ≢ b", "a and b are equal; they aren't"),
    ("⊥, Unit {0}", "never; always. So A → ⊥ says that A doesn't hold"),
    ("A ↔ B", "each follows from the other"),
    ("Type 0", "the kind of all statements; f : A → Type 0 says something of each A"),
    ("ℕ, ℤ", "the whole numbers from 0 on; those with a sign, of which pos n is the number n, and neg_ℤ z is -z"),
    ("+ℤ, -ℤ, *ℤ, <ℤ, ≤ℤ", "what +, -, *, < and ≤ are on ℕ, on ℤ. No number has a bound. On ℕ, a - b is never below 0;"
     " ^ is to the power of"),
    ("zero, suc n", "0 and n + 1"),
    ("Bool, false", "what a test gives, true or false. && is and, || is or, not turns it"),
    ("if b then x else y", "x where the test b gives true, and else y"),
    ("==, nat_le, nat_lt", "tests: two numbers are equal; the first is ≤ the second; it is < it. int_le, int_lt: on ℤ"),
    ("bytes_eq", "a test: two texts are the same, byte for byte"),
    ("List T, [], x ∷ xs", "lists of T; the empty one; x before the list xs. xs ++ ys is one behind the other"),
    ("length, replicate n x", "how many a list has; the list of n times x"),
    ("take n xs, drop n xs", "the first n of xs; what stands behind them"),
    ("slice_get xs i", "Some x, or None where there is none at i; slice_index xs i is that number, or 0"),
    ("map, filter, flat_map", "f of each; those that pass the test; the lists that f gives, one behind the other"),
    ("All P xs, IsPermutation", "P holds of each of xs; one list is the other, perhaps in another order"),
    ("list_all p, list_any p", "whether all pass the test p; whether one does"),
    ("before_first, after_first", "what stands before the first that passes, or all; what stands behind it, or nothing"),
    ("position p xs", "the place of the first that passes the test p, if there is one"),
    ("Option, Some x, None", "a value that may be missing. option_map_or f o d: f of the value, or d where there is none"),
    ('codes "EDF+C", IsUtf8', "the bytes of a text; bytes are a text in UTF-8"),
    ("Date, IsYmd, epoch_day", "a day that the Gregorian calendar has, so none is the 31st of February: the library's type"
     " holds no other. It has this year, month and day; its number is 0 for 1970-01-01, as is that of days_from_civil, which"
     " is reckoned from year, month and day"),
    ("λ x. e", "the function that gives e for x"),
    ("record R .. where ..", "a kind of values that have these fields; where fields are statements, these hold, of some values"
     " for the others: so IsSample says that there are a signal, a data record, a place, .. of which the rest holds"),
    ("record { a = x }, r.a", "the value with this field; its field a, also of a statement. p.0 and p.1 are the two parts"
     " of a pair"),
    ("fixed.Version, Yes n", "a value of a type that the code declares: Version of FixedField, as signal.Label is one of"
     " SignalField; Yes with its part n"),
    ("several lines", "of one word: one for each form of its arguments, of which the first that fits counts"),
    ("{X : Type 0}", "an argument that isn't written where the word is used"),
    ("x.old, x.new, x.now", "in a contract: what x stood for as the call began; as it ended; what it stands for"),
    ("requires, ensures, ghost", "in a contract: what has to hold at the call; what is proved to hold at its end; a word for"
     " contracts alone"),
    ("result, v.items", "in a contract: what the call answers; the list in a Vec"),
    ("IfOk r P, OnOk r A", "in a contract: if the call answered Ok x, P x holds; if Ok, A holds. IsTrue b: the test b gives true"),
    ("Result, Global, Model", "in the code: an answer or an error; where a call has its memory; what a type is to contracts"),
    ("u8, u32, u64, usize", "whole numbers of the code, which a contract takes for those of ℕ; i64 and i128 for those of ℤ"),
]
# a header and a lane as they stand in a file, and what they say: ⟨20⟩ is the byte 20
EXAMPLES = [
    "The fixed part of a header (`fixed_extent`), · for each run of spaces: `0·`, `MCH-0234567 F X X·`, `Startdate 02-MAR-2002 X X X·`,"
    " `02.03.02`, `22.00.00`, `768·`, `EDF+C·`, `2·`, `1·`, `2·`. It says (`HasHead`): a patient of that code, sex F, no birthdate and"
    " name told; the day 2002-03-02, the clock 79200; Contiguous, no free text; 2 data records of 10^12 picoseconds; 2 signals, whose"
    " columns are the 512 bytes behind it: `ECG·`, `EDF Annotations·`, and so on.",
    "A lane of its second data record: `+1⟨20⟩⟨20⟩⟨0⟩+1.5⟨21⟩30⟨20⟩Apnea⟨20⟩⟨0⟩`, and zeros to its end. It is a spelling"
    " (`IsLaneOf`) of two TALs, of onset 10^12 with one empty text, and of onset 15 * 10^11 and duration 30 * 10^12 with the text"
    " Apnea. So (`SaysRecord`) the data record starts at 10^12, and Apnea is its one annotation.",
]
# rows that say how a definition is read, and name no word
SAID = ("f x y", "what binds first", "A → B", "(x : T) → A", "(x : T) × A", "λ x. e", "several lines",
        "record R .. where ..", "record { a = x }, r.a", "{X : Type 0}", "requires, ensures, ghost")
STYLE = """
:root { color-scheme: light dark; --ink: #1c1c1c; --paper: #fdfdfb; --dim: #5f6368; --line: #d8d8d2; --link: #0b57a4; }
@media (prefers-color-scheme: dark) {
  :root { --ink: #e4e4e0; --paper: #17181a; --dim: #9aa0a6; --line: #3a3c40; --link: #8ab8f0; }
}
body { max-width: 120ch; margin: 2em auto; padding: 0 1em; color: var(--ink); background: var(--paper);
  font: 16px/1.5 system-ui, sans-serif; }
a { color: var(--link); text-decoration: none; }
a:hover { text-decoration: underline; }
a.toolchain { color: inherit; }
pre, code { font-family: ui-monospace, monospace; font-size: 14px; }
pre { overflow-x: auto; padding: .6em; border: 1px solid var(--line); }
section { border-top: 1px solid var(--line); }
section:target h2 { text-decoration: underline; }
h2 { font-size: 1.1em; margin-bottom: .3em; }
h2 small, .users { color: var(--dim); font-size: .85em; font-weight: normal; }
.comment { white-space: pre-line; margin: .3em 0; }
nav { columns: 30ch; font-size: .85em; }
nav div { white-space: nowrap; overflow: hidden; text-overflow: ellipsis; }
td { padding: .1em 1.5em .1em 0; vertical-align: top; }
"""


class Word(typing.NamedTuple):
    """A word by the file of the project that defines it, or by where the toolchain has it."""

    home: pathlib.Path | str
    name: str

    def is_toolchain(self):
        return isinstance(self.home, str)

    def is_code(self):
        return not self.is_toolchain() and self.home.suffix == ".rt"


class Names:
    """The words that stand for something in a file, each by its first part."""

    def __init__(self):
        self.words, self.groups = {}, set()

    def add(self, name, word):
        """Takes a word; one with ◌ has several parts, of which the first one finds it."""
        parts = [part for part in name.split("◌") if part]
        self.words[parts[0]] = (word, parts[1:])

    def find(self, part):
        return self.words.get(part, (None, []))

    def use(self, lines):
        """Takes the words of a `use` of definitions, or of a `ghost use`, and answers whether it is one."""
        of = USE.match(" ".join(line.strip() for line in lines))
        if not of:
            return False
        home, declared = home_of(of[1])
        if of[3]:
            self.groups.add(of[3])
            self.add(of[3], Word(home, declared or of[3]))
        for name in (of[2] or "").split(","):
            name, _, other = name.strip().partition(" as ")
            if name:
                self.add(other or name, Word(home, declared or name))
        return True


class Definition:
    """What a file says of a word: its comment and its lines, and which words of them stand where."""

    def __init__(self, word, comment, lines):
        self.word, self.comment, self.lines = word, comment, lines
        self.marks, self.unknown = [], []
        self.number, self.depth, self.users = 0, 0, []

    @property
    def text(self):
        return "\n".join(self.lines)

    def mark(self, begin, end, word):
        """Says that what stands here is this word; the definition's own word isn't said."""
        if word != self.word:
            self.marks.append((begin, end, word))

    def needs(self):
        """The words in the order in which they stand here, those of definitions before those of code."""
        words = dict.fromkeys(word for _, _, word in self.marks)
        return sorted(words, key=Word.is_code)

    def counts(self):
        """How many lines it has without comments, and with them."""
        lines = [line.strip() for line in self.lines if line.strip()]
        said = [line for line in lines if not line.startswith(("--", "//"))]
        return len(said), len(self.comment) + len(lines)


class Reader:
    """Goes over the words of definitions from the left. What is bound in brackets is bound up to their end."""

    def __init__(self, definition, names, bound):
        self.definition, self.names, self.own = definition, names, bound
        self.begin()

    def begin(self):
        """Forgets what was bound."""
        self.bound, self.waiting, self.behind = [set(self.own)], [[]], []

    def tokens(self, begin, end):
        found = [(it.group(), *it.span()) for it in TOKEN.finditer(self.definition.text, begin, end)]
        return [it for it in found if not it[0].startswith("--")]

    def read(self, tokens):
        at = 0
        while at < len(tokens):
            at = self.step(tokens, at)

    def step(self, tokens, at):
        """Reads the word at this place, and answers the place of the next one to be read."""
        token, begin, end = tokens[at]
        if token in ("(", "{"):
            return self.enter(tokens, at + 1)
        if token in (")", "}"):
            self.leave()
        elif token in ("λ", "let"):
            names = leading_names(tokens, at + 1)
            self.bound[-1].update(names)
            return at + 1 + len(names)
        elif token == "." and is_field(tokens, at):
            return at + 2
        elif token in SIGNS or token[0] in '"0123456789' or self.is_bound(token):
            pass
        elif token in self.names.groups and is_field(tokens, at + 1):
            return self.take_variant(tokens, at)
        elif [it[0] for it in tokens[at + 1:at + 2]] != ["="]:
            self.refer(token, begin, end)
        return at + 1

    def enter(self, tokens, at):
        """Goes into brackets. Where they begin with `x y :` these are bound behind them."""
        names = leading_names(tokens, at)
        if [it[0] for it in tokens[at + len(names):at + len(names) + 1]] != [":"]:
            names = []
        self.bound.append(set())
        self.waiting.append([])
        self.behind.append(names)
        return at + len(names)

    def leave(self):
        self.bound.pop()
        self.waiting.pop()
        self.bound[-1].update(self.behind.pop())

    def is_bound(self, token):
        return any(token in names for names in self.bound)

    def take_variant(self, tokens, at):
        """Reads `group.Variant`, which is a word of the type that has the variant."""
        self.definition.mark(tokens[at][1], tokens[at + 2][2], self.names.find(tokens[at][0])[0])
        return at + 3

    def refer(self, token, begin, end):
        """Reads a word, or a further part of one that has several."""
        waiting = self.waiting[-1]
        if waiting and token == waiting[-1][1][0]:
            word, parts = waiting.pop()
            parts = parts[1:]
        else:
            word, parts = self.names.find(token)
        if parts:
            waiting.append((word, parts))
        if word is None:
            self.definition.unknown.append(token)
        else:
            self.definition.mark(begin, end, word)

    def read_patterns(self, tokens):
        """Reads the arguments of an equation: a word that makes values is meant, any other name is bound."""
        own = self.definition.word.name.split("◌")
        at = 0
        while at < len(tokens):
            token, begin, end = tokens[at]
            word, _ = self.names.find(token)
            if token in self.names.groups and is_field(tokens, at + 1):
                at = self.take_variant(tokens, at)
                continue
            if token in own or token in SIGNS or token[0] in '"0123456789':
                pass
            elif word and token not in self.names.groups and (word.is_toolchain() or word.is_code()):
                self.definition.mark(begin, end, word)
            elif NAME.fullmatch(token):
                self.bound[-1].add(token)
            else:
                self.definition.unknown.append(token)
            at += 1


class Spec:
    """A file of definitions."""

    def __init__(self, file):
        self.names, self.definitions, self.odd = Names(), {}, []
        comment, infix, last = [], [], None
        for lines in chunks(file, " "):
            first = lines[0] if lines else ""
            of = DEFINES.match(first)
            if not lines:
                comment = []
            elif self.names.use(lines):
                comment = []
            elif first.startswith("infix"):
                infix = lines
            elif first.startswith("--"):
                comment += lines
            elif of:
                last = Definition(Word(file, of["record"] or of["word"]), comment, infix + lines)
                self.names.add(last.word.name, last.word)
                self.definitions[last.word.name] = last
                comment, infix = [], []
            elif last:
                last.lines += comment + lines
                comment = []
            else:
                self.odd.append(first)

    def read(self, definition):
        """Finds the words of a definition: of its kind, of its fields, and of its equations one by one."""
        reader, text = Reader(definition, self.names, set()), definition.text
        starts = [it.start() for it in re.finditer(r"^(?=\S)", text, re.M)]
        for begin, end in zip(starts, starts[1:] + [len(text)]):
            reader.begin()
            of = DEFINES.match(text, begin, end)
            if of and of["record"]:
                fields = list(FIELD.finditer(text, begin, end))
                ends = [it.start() for it in fields] + [end]
                reader.read(reader.tokens(of.end(), ends[0]))
                for field, behind in zip(fields, ends[1:]):
                    reader.read(reader.tokens(field.end(), behind))
                    reader.bound[0].add(field[1])
            elif of:
                reader.read(reader.tokens(of.end(), end))
            elif not text.startswith(("--", "infix"), begin):
                tokens = reader.tokens(begin, end)
                signs = [it[0] for it in tokens]
                at = signs.index("=") if "=" in signs else len(signs)
                reader.read_patterns(tokens[:at])
                reader.read(tokens[at:])


def without_ghosts(lines):
    """The lines of a type without its ghost fields, each of which goes on up to the next field or the end."""
    kept, inside = [], False
    for line in lines:
        if line[:5].strip() or line[:4].strip() or not line.strip():
            inside = line.startswith("    ghost ")
        if not inside:
            kept.append(line)
        elif kept[-1] != "    [..]":
            kept.append("    [..]")
    return kept


def without_parts(lines, names):
    """The lines of a definition without its parts of these names, each with its comment and the lines that stand deeper."""
    kept, room = [], None
    for line in lines:
        depth = len(line) - len(line.lstrip())
        if room is not None and line.strip() and depth > room:
            continue
        of = PART.match(line)
        room = depth if of and of[1] in names else None
        if room is None:
            kept.append(line)
        else:
            while kept[-1].lstrip().startswith("///"):
                kept.pop()
            if kept[-1].strip() != "[..]":
                kept.append(" " * depth + "[..]")
    return kept


class Code:
    """A file of code: those of its items that are something to contracts."""

    def __init__(self, file):
        self.names, self.ghosts, self.definitions, self.odd = Names(), Names(), {}, []
        self.file, models, front = file, [], []
        for lines in chunks(file, " {})"):
            first = lines[0] if lines else ""
            if first.startswith(("///", "#[")):
                front += lines
                continue
            if first.startswith("use "):
                self.use(" ".join(line.strip() for line in lines))
            elif first.startswith("ghost use ") and not self.ghosts.use(lines):
                self.odd.append(first)
            elif ITEM.match(first):
                self.take(ITEM.match(first), front, lines)
            elif MODEL.match(first):
                models.append((MODEL.match(first)[1], lines))
            front = []
        for name, lines in models:
            if name in self.definitions:
                self.take_model(self.definitions[name], lines)

    def use(self, line):
        """Takes the words of a `use` line of code."""
        path, _, names = line[len("use "):].rstrip(";").rpartition("::")
        crate, *modules = path.split("::")
        own = self.file.relative_to(CRATES).parts[0]
        folder = CRATES / (own if crate == "crate" else crate) / "src"
        for name in names.strip("{ }").split(","):
            name, _, other = name.strip().partition(" as ")
            if name:
                within = modules or handed_out(folder, name)
                home = folder.joinpath(*within).with_suffix(".rt") if folder.is_dir() else path
                self.names.add(other or name, Word(home, name))

    def take(self, item, front, lines):
        """Takes an item: all of a type or a trait; of a function what stands before its body."""
        kind, name = item.groups()
        if kind == "fn":
            lines = lines[:lines.index("{")] if "{" in lines else lines[:1]
        comment = [line for line in front if line.startswith("///")]
        lines = [line for line in lines if not line.lstrip().startswith("#[")]
        if kind == "struct":
            # what holds of each value is proved where one is made, and no statement needs it
            lines = without_ghosts(lines)
        lines = without_parts(lines, CUT.get(name, ()))
        self.definitions[name] = Definition(Word(self.file, name), comment, lines)
        self.names.add(name, Word(self.file, name))

    def take_model(self, definition, lines):
        """Takes what a type is to contracts: its kind of value, and the value of each of its values."""
        kept, inside = [], False
        for line in lines:
            self.ghosts.use([line])
            if line.startswith("    ghost "):
                inside = line.startswith(("    ghost Value ", "    ghost view "))
            if inside and line.startswith("    ") and line.strip():
                kept.append(line)
            elif line.startswith("    ghost invariant "):
                kept.append("    [..]")
        definition.lines += ["", lines[0], *kept, "}"]

    def read(self, definition):
        """Finds the words of an item, and those of its clauses among the words that these may use."""
        code, kind = blanked(definition.text, r"//.*"), ITEM.match(definition.text)[1]
        ghosts = [(*it.span(), closing(code, it.end())) for it in GHOST.finditer(code)]
        # an argument, a ghost of a trait, and a type that stands for any have a colon behind them
        bound = {"Self", "self", "result"}
        for front, begin, end in ghosts:
            bound |= set(COLON.findall(code, front, begin))
            code = code[:front] + " " * (end - front) + code[end:]
        if kind in ("fn", "trait"):
            bound |= set(COLON.findall(code))
        variants = [it.start(1) for it in VARIANT.finditer(code)] if kind == "enum" else []
        for it in CODE_TOKEN.finditer(code):
            if it.start() not in variants and it.group() not in bound:
                self.read_word(definition, it)
        for _, begin, end in ghosts:
            reader = Reader(definition, self.ghosts, bound)
            reader.read(reader.tokens(begin, end))
        definition.marks.sort()

    def read_word(self, definition, it):
        """Finds a word of the code: a type, or a kind of values that the code has without a `use`."""
        word, _ = self.names.find(it.group())
        if not word and KINDS.fullmatch(it.group()):
            word = Word("the language of the code", it.group())
        if word and (word.is_toolchain() or word.name[0].isupper()):
            definition.mark(*it.span(), word)
        elif it.group()[0].isupper():
            definition.unknown.append(it.group())


def chunks(file, inner):
    """The parts of a file, each with the lines behind it that begin so; an empty one for an empty line."""
    found, last = [], None
    for line in file.read_text(encoding="utf-8").splitlines():
        if line and line[0] in inner and last:
            last.append(line)
        else:
            found.append([line] if line else [])
            last = found[-1] or last
    return found


def handed_out(folder, name):
    """The modules in which a crate has what it hands out by this name (`pub use` in its lib.rt)."""
    root = folder / "lib.rt"
    text = root.read_text(encoding="utf-8") if root.exists() else ""
    for path, names in re.findall(r"^pub use (\S+)::(\{[^}]*\}|\w+);", text, re.M):
        if name in [it.strip() for it in names.strip("{ }").split(",")]:
            return path.split("::")
    return []


def home_of(path):
    """The file that the path of a `use` names, and the type where it is one of code; or the path, of the toolchain."""
    _, crate, *rest = path.split(".")
    if not (CRATES / crate).is_dir():
        return path, None
    if rest[:2] != ["specs", "declared"]:
        return CRATES.joinpath(crate, *rest).with_suffix(".antt"), None
    *modules, declared = [it for it in rest[2:] if it != "TheVariants"]
    return CRATES.joinpath(crate, "src", *modules).with_suffix(".rt"), declared


def leading_names(tokens, at):
    """The names that stand here one behind the other, up to anything else."""
    names = []
    for token, _, _ in tokens[at:]:
        if token in SIGNS - {"_"} or not NAME.fullmatch(token):
            break
        names.append(token)
    return names


def is_field(tokens, at):
    """Whether a dot stands here without a space before it or behind it."""
    if not 0 < at < len(tokens) - 1 or tokens[at][0] != ".":
        return False
    return tokens[at - 1][2] == tokens[at][1] and tokens[at][2] == tokens[at + 1][1]


def blanked(text, pattern):
    """The text with blanks where this stands."""
    return re.sub(pattern, lambda it: " " * len(it.group()), text)


def closing(text, at):
    """The place behind the bracket that closes the one here."""
    depth = 0
    for it in re.finditer(r"[{}]", text[at:]):
        depth += 1 if it.group() == "{" else -1
        if depth == 0:
            return at + it.end()
    return len(text)


@functools.cache
def opened(file):
    return Code(file) if file.suffix == ".rt" else Spec(file)


@functools.cache
def define(word):
    """The definition of a word, with the words that it needs; none where its file has none."""
    definition = opened(word.home).definitions.get(word.name) if word.home.is_file() else None
    if definition:
        if not word.is_code():
            definition.lines = without_parts(definition.lines, CUT.get(word.name, ()))
        opened(word.home).read(definition)
    return definition


def contract(file, name, clause):
    """The contract of a call, with one of its clauses."""
    whole = opened(file).definitions[name]
    lines, keeps = [], True
    for line in whole.lines:
        of = CLAUSE.match(line)
        keeps = of[1] == clause if of else keeps
        if keeps:
            lines.append(line)
        elif lines[-1] != "    [..]":
            lines.append("    [..]")
    one = Definition(whole.word, whole.comment, lines)
    opened(file).read(one)
    return one


class Order:
    """The definitions that one needs, each behind the first that needs it, and what is wrong with them."""

    def __init__(self, first):
        self.first, self.found, self.faults, self.left = first, {first.word: first}, [], {}
        self.laws, self.put_off = [], []
        first.number = 1
        self.go_on(first)
        # what bytes say comes behind all that an export keeps
        self.begin_bytes = len(self.found) + 1
        for word in self.put_off:
            if word not in self.found:
                self.go_on(self.take(word, 0))
        self.look()

    def take(self, word, depth):
        """Takes a definition, and gives it its number."""
        taken = define(word)
        self.found[word] = taken
        taken.number, taken.depth = len(self.found), depth
        return taken

    def needs(self, definition):
        """The words that a definition needs, but for the toolchain's and those that aren't copied."""
        place = f"{definition.word.home.relative_to(TOP)}: {definition.word.name}"
        self.faults += [f"{place}: `{token}` is defined nowhere" for token in definition.unknown]
        for word in definition.needs():
            if word.is_toolchain():
                continue
            if word.name in LEFT_OUT:
                self.left[word] = LEFT_OUT[word.name]
            elif not define(word):
                self.faults.append(f"{place}: `{word.name}` isn't in {word.home.relative_to(TOP)}")
            else:
                define(word).users.append(definition)
                yield word

    def go_on(self, definition):
        """Takes what a definition needs, each followed by what it needs in turn; the laws stand right behind the headline."""
        if definition.word.name == HEADLINE:
            for law in [self.take(Word(CRATES / file, name), 1) for file, name in LAWS]:
                self.laws.append(law)
        for word in self.needs(definition):
            if word.name in BYTES and not self.is_in_bytes():
                self.put_off.append(word)
            elif word not in self.found:
                self.go_on(self.take(word, definition.depth + 1))
        if definition.word.name == HEADLINE:
            for law in self.laws:
                self.go_on(law)

    def is_in_bytes(self):
        return hasattr(self, "begin_bytes")

    def look(self):
        """Looks for what is wrong."""
        laws = {CRATES / file for file, _ in LAWS}
        for file in {word.home for word in self.found}:
            self.faults += [f"{file.relative_to(TOP)}: a line that isn't understood: {line}" for line in opened(file).odd]
            if file.suffix == ".antt" and file not in laws:
                # what the headline needs stands in files that hold nothing else
                others = [name for name, one in opened(file).definitions.items() if not self.has(one.word)]
                self.faults += [f"{file.relative_to(TOP)}: `{name}` isn't needed by the headline" for name in others]
        for one in self.found.values():
            one.users.sort(key=lambda user: user.number)

    def has(self, word):
        return word in self.found or word.name in LEFT_OUT


def toolchain(definitions):
    """The words of the toolchain that are used, by where it has them."""
    found = {}
    for word in sorted({word for one in definitions for word in one.needs() if word.is_toolchain()}):
        found.setdefault(word.home, []).append(word)
    return found


def files(definitions):
    """The files, each with those of the definitions that it has."""
    found = {}
    for one in definitions:
        found.setdefault(one.word.home, []).append(one)
    return dict(sorted(found.items()))


def prose(comment):
    """A comment without its marks, line by line."""
    return [re.sub(r"^(?:--|//[/!]) ?", "", line) for line in comment]


def fitted(lines, room):
    """The lines as they are; where one is too long for the room, all of them cut to about one length."""
    longest = max(map(len, lines), default=0)
    width = room if longest <= room else longest // -(-longest // room) + 8
    return [it for line in lines for it in textwrap.wrap(line, width, break_on_hyphens=False) or [""]]


def listed(front, those, indent):
    """A line that lists words, cut to the width; none where there are none."""
    if not those:
        return []
    # a number and its word stay side by side
    text = f"{indent}{front}: {', '.join(it.replace(' ', chr(160)) for it in those)}"
    lines = textwrap.wrap(text, WIDTH, subsequent_indent=indent + "    ", break_on_hyphens=False)
    return [line.replace(chr(160), " ") for line in lines]


def plain(one, text):
    """The text of a definition without how other files may use its words; of code as it is."""
    return text if one.word.is_code() else VISIBLE.sub(r"\1", text)


def parts(order):
    """The two parts, each with its definitions."""
    every = list(order.found.values())
    return zip(PARTS, (every[:order.begin_bytes - 1], every[order.begin_bytes - 1:]))


def as_text(order):
    """The document as a text."""
    definitions = list(order.found.values())
    lines = [TITLE, "=" * len(TITLE), ""]
    for paragraph in ABOUT:
        lines += [*textwrap.wrap(paragraph, WIDTH, break_on_hyphens=False), ""]
    for written, says in NOTATION:
        first, *more = textwrap.wrap(says, WIDTH - 28)
        lines += [f"  {written:<25} {first}", *(28 * " " + line for line in more)]
    for part, those in parts(order):
        lines += ["", "", part, "-" * len(part)]
        for one in those:
            lines += ["", "", f"{one.number}. {one.word.name}  ({one.word.home.relative_to(TOP)})", ""]
            lines += ["    " + line for line in fitted(prose(one.comment), WIDTH - 4)]
            lines += [""] * bool(one.comment) + [plain(one, line) for line in one.lines]
    lines += ["", "", "What isn't copied", ""]
    lines += [f"{word.name}  ({word.home.relative_to(TOP)}): {why}" for word, why in order.left.items()]
    lines += ["", "", "A header and a lane", ""]
    for example in EXAMPLES:
        lines += textwrap.wrap(example, WIDTH, break_on_hyphens=False) + [""]
    names = [f"{one.word.name}:{one.number}" for one in sorted(definitions, key=lambda one: one.word.name.lower())]
    lines += ["", "Names and their numbers", "", *textwrap.wrap(", ".join(names), WIDTH, break_on_hyphens=False)]
    lines += ["", "", "Words of the toolchain", ""]
    for home, words in toolchain(definitions).items():
        lines += listed(home, [word.name for word in words], "")
    return "\n".join(line.rstrip() for line in lines) + "\n"


def marked(lines):
    """Lines for the page, with what stands between two backticks as code."""
    return re.sub(r"`([^`]*)`", r"<code>\1</code>", html.escape("\n".join(lines)))


def linked(one, anchors):
    """The lines of a definition for the page, each word with a link to its definition."""
    text, at, page = one.text, 0, ""
    for begin, end, word in one.marks:
        if word not in anchors:
            # it isn't copied
            continue
        page += html.escape(text[at:begin])
        kind = ' class="toolchain"' if word.is_toolchain() else ""
        page += f'<a{kind} href="#{anchors[word]}">{html.escape(text[begin:end])}</a>'
        at = end
    return page + html.escape(text[at:])


def link(one, anchors):
    """A definition's number and word, with a link to it."""
    return f'<a href="#{anchors[one.word]}">{one.number} {html.escape(one.word.name)}</a>'


def section(one, anchors):
    """A definition on the page."""
    page = f'<section id="{anchors[one.word]}">\n'
    page += f"<h2>{one.number}. <code>{html.escape(one.word.name)}</code> <small>{one.word.home.relative_to(TOP)}</small></h2>\n"
    if one.comment:
        page += f'<p class="comment">{marked(prose(one.comment))}</p>\n'
    page += f"<pre><code>{plain(one, linked(one, anchors))}</code></pre>\n"
    if one.users:
        page += f'<p class="users">used by: {", ".join(link(user, anchors) for user in one.users)}</p>\n'
    return page + "</section>\n"


def page_front(order, anchors):
    """The page up to its first definition."""
    page = f'<!DOCTYPE html>\n<html lang="en">\n<head>\n<meta charset="utf-8">\n<title>{TITLE}</title>\n'
    page += f"<style>{STYLE}</style>\n</head>\n<body>\n<h1>{TITLE}</h1>\n"
    page += "".join(f"<p>{marked([paragraph])}</p>\n" for paragraph in ABOUT) + "<table>\n"
    for written, says in NOTATION:
        page += f"<tr><td><code>{html.escape(written)}</code></td><td>{html.escape(says)}</td></tr>\n"
    page += "</table>\n<h2>Contents</h2>\n<nav>\n"
    for part, those in parts(order):
        page += f"<div><b>{part}</b></div>\n"
        for one in those:
            page += f'<div style="padding-left: {one.depth}ch">{link(one, anchors)}</div>\n'
    page += '<div><a href="#left">What isn\'t copied</a></div>\n<div><a href="#examples">A header and a lane</a></div>\n'
    return page + '<div><a href="#toolchain">Words of the toolchain</a></div>\n</nav>\n'


def as_page(order):
    """The document as a page."""
    definitions = list(order.found.values())
    library = toolchain(definitions)
    anchors = {one.word: f"d{one.number}" for one in definitions}
    anchors |= {word: f"t{k}" for k, word in enumerate(itertools.chain(*library.values()), 1)}
    page = page_front(order, anchors)
    for part, those in parts(order):
        page += f"<h2>{part}</h2>\n" + "".join(section(one, anchors) for one in those)
    page += '<section id="left">\n<h2>What isn\'t copied</h2>\n'
    for word, why in order.left.items():
        page += f"<p><code>{html.escape(word.name)}</code> ({word.home.relative_to(TOP)}): {html.escape(why)}</p>\n"
    page += "</section>\n"
    page += '<section id="examples">\n<h2>A header and a lane</h2>\n'
    page += "".join(f"<p>{marked([example])}</p>\n" for example in EXAMPLES)
    page += '</section>\n<section id="toolchain">\n<h2>Words of the toolchain</h2>\n'
    for home, words in library.items():
        those = ", ".join(f'<code id="{anchors[word]}">{html.escape(word.name)}</code>' for word in words)
        page += f"<p>{html.escape(home)}: {those}</p>\n"
    return page + "</section>\n</body>\n</html>\n"


class Page(html.parser.HTMLParser):
    """Reads a page: whether each tag is closed by its own end, and whether each link leads to a place on it."""

    def __init__(self, page):
        super().__init__()
        self.open, self.faults, self.places, self.links = [], [], [], []
        self.feed(page)
        self.close()
        self.faults += [f"the page: `{tag}` stays open" for tag in self.open]
        self.faults += [f"the page: {link} leads nowhere" for link in self.links if link[1:] not in self.places]
        if len(set(self.places)) != len(self.places):
            self.faults.append("the page: a place has the name of another")

    def handle_starttag(self, tag, attrs):
        if tag != "meta":
            self.open.append(tag)
        self.places += [value for key, value in attrs if key == "id"]
        self.links += [value for key, value in attrs if key == "href"]

    def handle_endtag(self, tag):
        if not self.open or self.open.pop() != tag:
            self.faults.append(f"the page: `{tag}` is closed and wasn't open")


def notation_faults(definitions):
    """What the notation lacks of the toolchain's words, and its rows of which no definition has anything."""
    written = " ".join(one.text for one in definitions)
    signs = set(TOKEN.findall(written)) | set(NAME.findall(written))
    told = set(TOKEN.findall(" ".join(f"{row} {says}".replace(";", " ") for row, says in NOTATION)))
    told |= {it.rstrip(".,:") for it in told} | {"Vec"}
    lacking = {
        part
        for words in toolchain(definitions).values()
        for word in words
        for part in word.name.split("◌")
        if part and part not in told
    }
    dead = {
        row: [it for it in NAME.findall(row) if len(it) > 1 and it not in signs]
        for row, _ in NOTATION
        if row not in SAID
    }
    return [f"the notation doesn't tell `{part}`" for part in sorted(lacking)] + [
        f"the notation: no definition has `{word}`" for words in dead.values() for word in words
    ]


def main():
    if sys.argv[1:] not in ([], ["--check"]):
        print(f"usage: {sys.argv[0]} [--check]", file=sys.stderr)
        return 2
    order = Order(contract(CRATES / "edf_check" / "src" / "of_one.rt", "check", "headline"))
    definitions, faults = list(order.found.values()), order.faults
    if not faults:
        page = as_page(order)
        faults = Page(page).faults + notation_faults(definitions)
    for fault in faults:
        print(fault)
    text = as_text(order)
    if not faults and sys.argv[1:] == []:
        OUT.mkdir(exist_ok=True)
        (OUT / "headline.txt").write_text(text, encoding="utf-8")
        (OUT / "headline.html").write_text(page, encoding="utf-8")
    said = sum(one.counts()[0] for one in definitions)
    written = sum(one.counts()[1] for one in definitions)
    print(f"{len(definitions)} definitions, {said} lines, {written} with comments, of {len(files(definitions))} files;"
          f" {len(text.split())} words")
    return 1 if faults else 0


if __name__ == "__main__":
    sys.exit(main())
