"""Whether the tables of docs/tables say what the definitions say, and what the program says of itself.

A definition is read as far as it is a list of texts: `codes "TEXT"` behind the name of what it defines. For each table
there is a comparison, which gives what differs, in words.
"""

import pathlib
import re
import subprocess

import tables_written
from tables_read import lines, plain_rows, rows

# A case of the definition of commands: the command's name, and its words.
SAYS_JOB = r'^SaysJob words .*=\s*\(?words ≡ codes "([^"]*)" ∷ (.*?)\[?\]?\)?(?: ×.*)?$'
CRATES = pathlib.Path(__file__).resolve().parent.parent.parent / "crates"


def source(path):
    """The text of a file of crates/."""
    return (CRATES / path).read_text(encoding="utf-8")


def cases(path, name):
    """The lines of a definition by cases: for each its first word, and what stands behind the equals sign."""
    found = re.findall(rf"^{name} \(?([\w.]+)[^=\n]*= (.*)$", source(path), re.MULTILINE)
    return {case.rpartition(".")[2]: body for case, body in found}


def first_text(body):
    """The first text of a definition's body, or none."""
    found = re.search(r'codes "((?:[^"\\]|\\.)*)"', body)
    return found[1] if found else None


def differing(what, said, wanted):
    """What is in one of two lists and not in the other, in words; and where only the order differs, that."""
    missing, more = [text for text in wanted if text not in said], [text for text in said if text not in wanted]
    found = [f"{what} lacks {text!r}" for text in missing] + [f"{what} has {text!r} alone" for text in more]
    return found or ([] if list(said) == list(wanted) else [f"{what} has another order"])


def of_causes():
    """The causes of faults: those of the definition of their names."""
    path = "edf_fields/specs/FaultTexts.antt"
    inner = {"field_cause_name": cases(path, "field_cause_name"), "tal_cause_name": cases(path, "tal_cause_name")}
    wanted = []
    for body in cases(path, "cause_name").values():
        helper = next((name for name in inner if name in body), None)
        names = [first_text(text) for text in inner[helper].values()] if helper else [""]
        wanted += [first_text(body) + name + (")" if helper else "") for name in names]
    # a field in which bytes aren't printable is answered by the cause without brackets
    wanted.remove("BadSubfields(NotPrintable)")
    return differing("causes.tsv", sorted(tables_written.causes()), sorted(wanted))


def first_words(path, body):
    """The words with which a line goes on behind its number: those of the body, or of a definition that it calls."""
    text = first_text(body)
    if text is not None:
        return text
    for name in re.findall(r"[a-z_]+", body):
        called = re.search(rf"^{name} .*?=\s*(.*?)(?:\n\n|\Z)", source(path), re.MULTILINE | re.DOTALL)
        found = first_words(path, called[1]) if called else None
        if found is not None:
            return found
        by_cases = cases(path, name)
        if by_cases:
            return first_text(next(iter(by_cases.values())))
    return None


def of_lines():
    """The lines of a NO: the numbers of the definition, the words behind the number, and the kind, which they begin with."""
    path = "edf_verdict/specs/Lines.antt"
    numbers = {case: int(body) for case, body in cases(path, "number_of").items()}
    found = differing("lines.toml", sorted(no["number"] for no in lines()["no"]), sorted(numbers.values()))
    texts = {numbers[case]: first_words(path, body) for case, body in cases(path, "what_text").items()}
    for no in lines()["no"]:
        begin = (texts.get(no["number"]) or "?").split(" header")[0].strip().removesuffix(' "')
        table = [row for kind in ("exact", "check", "parts") for row in no.get(kind, [])]
        said = [no["words"], *[line_words(row, no["number"]) for row in table]]
        other = [text for text in said if not text.startswith(begin)]
        other += [no["kind"]] if no["kind"] != begin.rstrip(":") else []
        found += [f"lines.toml, number {no['number']}: {text!r} isn't {begin!r}" for text in other]
    return found


def line_words(row, number):
    """What stands in a row's first line behind NO, this number and the words on an export of several."""
    found = re.match(rf"`NO {number} (?:part J )?(.*)", row["line"])
    return found[1] if found else row["line"]


def of_counts():
    """The lines of a YES and of a recording that conforms: their words, without the counts."""
    one = ("edf_verdict/specs/Lines.antt", "counts_text")
    places = [
        (lines()["yes"]["exact"], *one),
        (lines()["yes"]["check"], *one),
        (lines()["yes"]["parts"], "edf_verdict/specs/PartsLines.antt", "parts_counts_text"),
        (lines()["conform"], "edf_report/specs/ConformTexts.antt", "counts_line"),
    ]
    found = []
    for table, path, name in places:
        body = re.search(rf"^{name} [^=]*=(.*?)(?:\n\n|\Z)", source(path), re.MULTILINE | re.DOTALL)[1]
        wanted = "".join(re.findall(r'codes "([^"]*)"', body)).split()
        said = [word for word in table[0]["line"].strip("`").split() if len(word) > 1]
        found += differing(f"lines.toml, {table[0]['line']}", said, wanted)
    return found


def of_show():
    """The words with which the lines of `show` begin, in their order."""
    texts = source("edf_report/specs/ShowTexts.antt")
    words = re.findall(r'(?:word_line|extras_text|with_quoted) \(codes "([a-z-]+ ?)"\)', texts)
    said = [text.split()[0] for row in lines()["show"] for text in re.findall(r"`([^`]+)`", row["line"])]
    return differing("lines.toml, [[show]]", list(dict.fromkeys(said)), [word.strip() for word in words])


def of_comments():
    """The comments of a draft: each begins so in the code that writes it."""
    files = [*(CRATES / "edf_draft" / "src").rglob("*.rt"), *(CRATES / "edf_guesses" / "src").rglob("*.rt"),
             CRATES / "edf_claim" / "src" / "drafting" / "draft_text.rt"]
    code = "".join(path.read_text(encoding="utf-8") for path in files)
    said = [re.split(r"\.\.|(?<=answers: )", text)[0].strip("# ")
            for row in lines()["draft"] for text in re.findall(r"`(# [^`]*)`", row["line"])]
    return [f"lines.toml, [[draft]]: no draft says {text!r}" for text in said if text not in code]


def of_calls():
    """The calls of the module for Python."""
    text = (CRATES.parent / "extras" / "edfclaim.py").read_text(encoding="utf-8")
    calls = [row["call"] for row in rows("commands") if row["call"]]
    return [f"commands.tsv, {call}: extras/edfclaim.py has no such call" for call in calls
            if f"\ndef {call.removesuffix(')')}, program=None):" not in text]


def of_parts():
    """Of which lines check-parts says the export that they are about."""
    body = cases("edf_verdict/specs/PartsLines.antt", "is_of_part")
    whole = {case for case, truth in body.items() if truth == "false"}
    numbers = {case: int(text) for case, text in cases("edf_verdict/specs/Lines.antt", "number_of").items()}
    wanted = sorted(number for case, number in numbers.items() if case not in whole)
    return differing("lines.toml, of_part", sorted(no["number"] for no in lines()["no"] if no["of_part"]), wanted)


def of_refusals():
    """The names of refused claims, in the order of their definition, and the lines of refusals."""
    path = "edf_refusal/specs/Refusals.antt"
    names = [first_text(body) for case, body in cases(path, "stop_word").items() if case != "OutOfMemory"]
    found = differing("refused.tsv", [row["name"] for row in rows("refused")], names)
    said = " ".join(row["line"] for row in rows("refusals"))
    both = source(path) + source("edfclaim/src/main.rt")
    texts = [text.strip() for text in re.findall(r'(?:codes|refuse\(rt,) "(edfclaim: [^"]*)"', both)]
    alone = [line for line in re.findall(r"`(edfclaim: [^`]*)`", said) if not line.startswith(tuple(texts))]
    return (found + [f"refusals.tsv lacks {text!r}" for text in texts if text not in said]
            + [f"refusals.tsv has {line!r} alone" for line in alone])


def of_statuses():
    """The statuses of the program."""
    wanted = re.findall(r"^status_of .* = (\d+)$", source("edf_refusal/specs/Statuses.antt"), re.MULTILINE)
    return differing("statuses.tsv", [row["status"] for row in rows("statuses")], wanted)


def of_fields():
    """The fields of a header, by the names that a place has for them."""
    path = "edf_fields/specs/fields/LayoutReading.antt"
    wanted = [first_text(body) for name in ("fixed_field_name", "signal_field_name") for body in cases(path, name).values()]
    said = re.findall(r"`([^`]*)`", " ".join(row["names"] for row in rows("fields")))
    return differing("fields.tsv", sorted(said), sorted(wanted))


def of_subfields():
    """The subfields, in the order of their definition."""
    wanted = [first_text(body) for body in cases("edf_fields/specs/fields/SubfieldNames.antt", "name_of").values()]
    return differing("subfields.tsv", [row["name"] for row in rows("subfields")], wanted)


def of_keys():
    """The keys of a claim."""
    text = source("edf_claim/specs/Claims.antt")
    both = [re.search(rf"^{name} = (.*)$", text, re.MULTILINE)[1] for name in ("claim_keys", "more_claim_keys")]
    wanted = [key for body in both for key in re.findall(r'codes "([^"]*)"', body)]
    return differing("keys.tsv", [row["key"] for row in rows("keys")], wanted)


def of_commands():
    """The commands with their words, and what the help says of each."""
    said = {row["name"]: row for row in rows("commands")}
    jobs = re.findall(SAYS_JOB, source("edf_jobs/specs/Jobs.antt"), re.MULTILINE)
    found = differing("commands.tsv", sorted(said), sorted(name for name, _ in jobs))
    spelled = {"PATH": "FILE", "EXPORTS": "EXPORT..."}
    for name, rest in jobs:
        words = [word.upper() for word in re.findall(r"([a-z]+)\.now", rest.replace("w.now", ""))]
        words = [spelled.get(word, word) for word in words]
        if name in said and said[name]["words"].split() != words:
            found.append(f"commands.tsv, {name}: the definition has {' '.join(words)}")
    abouts = re.findall(r'name: "([^"]*)",\s*about: "([^"]*)"', source("edf_command_line/src/command.rt"))
    return found + [f"commands.tsv, {name}: the help says {about!r}" for name, about in abouts
                    if name in said and said[name]["about"] != about]


def of_manual():
    """The commands that the manual page describes, with their words; and whether READING-THE-ANSWER knows each."""
    docs = CRATES.parent / "docs"
    text = (docs / "edfclaim.1").read_text(encoding="utf-8").partition(".SH COMMANDS\n")[2].partition("\n.SH ")[0]
    heads = re.findall(r"^\.TP\n\.BI? (.*)$", re.sub(r'\\(-)|"', r"\1", text), re.MULTILINE)
    said = [" ".join(head.split()) for head in heads]
    wanted = [f"{row['name']} {row['words'].replace('...', ' ...')}".strip() for row in rows("commands")]
    found = differing("docs/edfclaim.1, COMMANDS,", sorted(said), sorted(wanted))
    pages = (docs / "READING-THE-ANSWER.md").read_text(encoding="utf-8")
    return found + [f"docs/READING-THE-ANSWER.md has no `edfclaim {row['name']}`" for row in rows("commands")
                    if not re.search(rf"`edfclaim {row['name']}\b(?!-)", pages)]


def of_limits():
    """The limits: each stands in the file that has it, as the table says, with this number."""
    found = []
    for row in plain_rows("limits"):
        if not re.search(rf"{re.escape(row['stands'])}(?![\d_])", (CRATES.parent / row["file"]).read_text(encoding="utf-8")):
            found.append(f"limits.tsv, {row['name']}: {row['file']} has no {row['stands']!r}")
        number = int(re.search(r"([\d_]+)$", row["stands"])[1].replace("_", "")) * int(row["times"])
        if f"{number:,}" != row["most"]:
            found.append(f"limits.tsv, {row['name']}: {row['most']} isn't {number:,}")
    return found


def of_advice():
    """The digits of a time, by which advice on a claim that is refused goes."""
    said = re.findall(r"MOST_(?:WHOLE|PLACES): usize = (\d+);", source("edf_claim_advice/src/limits.rt"))
    most = {row["name"]: row["most"] for row in plain_rows("limits")}
    return differing("edf_claim_advice/src/limits.rt", said, [most[name] for name in ("second-digits", "fraction-digits")])


def of_no_draft():
    """The limits that the comment says by which no claim can be drafted."""
    text = re.search(r'^none_text = codes "(.*)"$', source("edf_draft/specs/Answers.antt"), re.MULTILINE)[1]
    most = {row["name"]: row["most"] for row in plain_rows("limits")}
    wanted = [most[name] for name in ("claim-intervals", "claim-bytes", "second-digits", "shift-seconds")]
    return differing("the comment of a draft", re.findall(r"\d[\d,]*", text), wanted)


def helped(program, *words):
    """The help of a program, or of a command of it."""
    return subprocess.run([program, *words, "--help"], capture_output=True, text=True, check=False).stdout


def of_options(program):
    """The options that are completed to: those of the help."""
    inside = helped(program).partition("Options:\n")[2].partition("\n\n")[0]
    words = [word for line in inside.splitlines() for word in re.findall(r"-[-\w]+", line.split("  Print")[0])]
    stored = (CRATES.parent / "extras" / "edfclaim.bash-completion").read_text(encoding="utf-8")
    return differing("the completions", re.search(r"local options='([^']*)'", stored)[1].split(), words)


def of_help(program):
    """The commands, their order and what they do, as the help of a program has them, and the words of each."""
    inside = helped(program).partition("Commands:\n")[2].partition("\n\n")[0]
    said = [tuple(line.split(None, 1)) for line in inside.splitlines() if re.match(r"  [a-z]", line)]
    wanted = [(row["name"], row["about"]) for row in rows("commands")]
    found = differing("commands.tsv", wanted, [pair for pair in said if pair[0] != "help"])
    for row in rows("commands"):
        usage = re.search(rf"^Usage: \S+ {row['name']}(.*)$", helped(program, row["name"]), re.MULTILINE)
        words = re.sub(r"\[OPTIONS\]|[<>]", "", usage[1]).split() if usage else None
        if words != row["words"].split():
            found.append(f"commands.tsv, {row['name']}: the program has {words}")
    return found


def comparisons(program):
    """Each comparison: what it is about, and what differs."""
    told = {
        "causes": of_causes, "fields": of_fields, "lines": of_lines, "parts": of_parts, "counts": of_counts,
        "show": of_show, "comments": of_comments, "statuses": of_statuses, "refusals": of_refusals,
        "subfields": of_subfields, "keys": of_keys, "commands": of_commands, "manual": of_manual, "calls": of_calls,
        "limits": of_limits, "advice": of_advice, "no draft": of_no_draft,
    }
    found = [(name, compare()) for name, compare in told.items()]
    return found + ([("help", of_help(program)), ("options", of_options(program))] if program else [])
