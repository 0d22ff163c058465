"""What tools/gate/tables.py writes: the tables of docs/tables, in the form of each page that has them."""

import re

from tables_read import lines, parts_of, rows

NARROW = 120
# The table of a file that is written whole.
WHOLE = ""
# A call of the module for Python that is no command.
PARSED = [
    {
        "call": "`parse(line)`, `parse(line, CHECK_PARTS)`, `parse(line, CONFORM)`",
        "gives": "the `Verdict` in a line that was kept",
    }
]


# ---- in Markdown


def markdown(heads, body):
    """The lines of a table of Markdown."""
    lines_of_rows = ["|" + "".join(f" {cell} |" if cell else " |" for cell in row) for row in body]
    return [f"| {' | '.join(heads)} |", "|" + "---|" * len(heads), *lines_of_rows]


def columns(table, **heads):
    """A table of Markdown: of each column its name, and the words that stand above it."""
    return markdown(heads.values(), [[row.get(name, "") for name in heads] for row in table])


def as_code(name, column):
    """The rows of a table, with this cell of each as Markdown has code."""
    return [row | {column: f"`{row[column]}`"} for row in rows(name)]


def limits(of):
    """What a file or a claim has at the most."""
    return columns(parts_of("limits", "of", ("file", "claim"))[of], what="what is counted", most="the most")


FOR_CENTRES = {"line": "line", "means": "what it means", "does": "what the centre does", "seen": "seen"}


def reading():
    """The tables of docs/READING-THE-ANSWER.md."""
    said = lines()
    faults = {"means": "what it means", "does": "what the centre does", "seen": "seen"}
    groups = {
        f"causes-{group}": columns(table, fault="fault", **faults)
        for group, table in parts_of("causes", "group", ("end", "header", "signal", "record")).items()
    }
    of_parts = [row for no in said["no"] for row in no.get("parts", [])]
    drafted = [row for row in as_code("keys", "key") if row["drafted"]]
    return groups | {
        "statuses": columns(rows("statuses"), status="status", says="what it says", where="where the line is printed"),
        "lines-yes": columns(said["yes"]["check"], **FOR_CENTRES),
        "lines-no": columns([row for no in said["no"] for row in no.get("check", [])], **FOR_CENTRES),
        "lines-parts": columns(said["yes"]["parts"] + of_parts, **FOR_CENTRES),
        "lines-receipt": columns(said["receipt"], line="line", means="what it means", compares="who can compare it"),
        "lines-draft": columns(
            said["draft"], line="line", means="what it means", status="status", does="what the centre does"
        ),
        "lines-conform": columns(said["conform"], line="line", means="what it means", status="status", seen="seen"),
        "lines-show": columns(said["show"], line="line", means="what it means"),
        "lines-notes": columns(said["notes"], line="line", means="what it means"),
        "subfields": columns(as_code("subfields", "name"), name="NAME", holds="what it is"),
        "fields": columns(rows("fields"), names="NAME", holds="what the field holds"),
        "keys-drafted": columns(drafted, key="key", drafted="what is drafted"),
        "refusals": columns(
            rows("refusals"), line="line", means="what it means", does="what to do", seen="to see it, in the night"
        ),
    }


def claim():
    """The tables of docs/CLAIM.md."""
    return {
        "keys": columns(as_code("keys", "key"), key="key", says="says", absent="if it is absent"),
        "limits-claim": limits("claim"),
        "refused": columns(as_code("refused", "name"), name="refusal", wrong="what is wrong", does="what to do"),
    }


def profile():
    """The tables of docs/PROFILE.md: exactly when a line is the answer, and the limits."""
    exact = [row for no in lines()["no"] for row in no.get("exact", [])] + lines()["yes"]["exact"]
    return {
        "lines-exact": columns(exact, line="line", says="says"),
        "limits-file": limits("file"),
    }


def scripts():
    """The tables of docs/SCRIPTS.md: the calls of the module for Python, and what the lines give."""
    by_fields = {}
    said = [("yes", lines()["yes"]["fields"])] + [(no["kind"], no["fields"]) for no in lines()["no"]]
    for kind, fields in said + [(kind, lines()[kind]["fields"]) for kind in ("conforms", "fault")]:
        by_fields.setdefault(fields, []).append(f"`{kind}`")
    calls = [row | {"call": f"`{row['call']}`"} for row in rows("commands") if row["call"]]
    return {
        "calls": columns(calls + PARSED, call="call", gives="what it gives"),
        "kinds": markdown(["kind", "fields"], [[", ".join(kinds), fields] for fields, kinds in by_fields.items()]),
    }


# ---- in the manual page


def roff(text):
    """A cell of a table in the manual page: what is code stands bold there, and of a link its words."""
    text = re.sub(r"\[([^]]*)\]\([^)]*\)", r"\1", text.replace("\\|", "|").replace("**", "")).replace("\\", "\\e")
    text = re.sub(r"`([^`]*)`", r"\\fB\1\\fR", text.replace("-", "\\-"))
    return "\\&" + text if text.startswith((".", "'")) else text


def items(pairs):
    """A list of the manual page: what each item is about, and what is said of it."""
    return [line for what, says in pairs for line in (".TP", roff(what), roff(says))]


def synopsis():
    """The commands with their words, as the manual page begins."""
    found = []
    for row in rows("commands"):
        words = row["words"].removesuffix("...")
        found += [f".B edfclaim {roff(row['name'])}"] + ([f".I {words}"] if words else [])
        found += ["\\&..."] if row["words"].endswith("...") else []
        found.append(".br")
    return found[:-1]


def manual():
    """The tables of docs/edfclaim.1."""
    numbers = [(no["number"], no["brief"]) for no in lines()["no"]]
    refused = ", ".join(row["name"] for row in as_code("refused", "name"))
    refusals = [(row["line"], row["means"]) for row in rows("refusals") if row["line"].startswith("`edfclaim: ")]
    return {
        "synopsis": synopsis(),
        "numbers": items((f"`{number}`", brief) for number, brief in numbers),
        "statuses": items((f"`{row['status']}`", row["says"]) for row in rows("statuses")),
        "refusals": items(refusals + [("NAME of a refused claim", refused)]),
        "keys": items((row["key"], row["says"]) for row in as_code("keys", "key")),
        "subfields": [roff(", ".join(row["name"] for row in as_code("subfields", "name")))],
        "limits": [line for row in rows("limits") for line in (f"{roff(row['what'])}: {row['most']}", ".br")][:-1],
    }


# ---- in the completions and in the module for Python


def completions(commands):
    """Commands with their words, in extras/edfclaim.bash-completion."""
    names = " ".join(row["name"] for row in commands)
    words = [f"    {row['name']}) echo \"{row['words']}\" ;;" for row in commands]
    about = "# The words that a command takes, or nothing where there is no such command."
    heads = [f"_edfclaim_commands='{names} help'", "", about, "_edfclaim_words() {", "    case $1 in"]
    return {"commands": heads + words + ["    help) echo COMMAND ;;", "    esac", "}"]}


def causes():
    """The names of the causes, as a line has them, in the order of the table."""
    found = re.findall(r"`([A-Z]\w+(?:\(\w+\))?) at", " ".join(row["fault"] for row in rows("causes")))
    return list(dict.fromkeys(found))


def alternatives(name, words):
    """An assignment of Python to this name: a pattern of these words, in lines that aren't too long."""
    found, line = [], f'{name} = "(?:'
    for at, word in enumerate(words):
        piece = word.replace("(", r"\\(").replace(")", r"\\)") + ("|" if at + 1 < len(words) else ')"')
        if len(line) + len(piece) > NARROW:
            found.append(line + '" \\')
            line = '    "'
        line += piece
    return found + [line]


def module():
    """The patterns of extras/edfclaim.py that name causes and subfields, and its table of lines."""
    named = alternatives("CAUSE", causes()) + alternatives("SUBFIELD", [row["name"] for row in rows("subfields")])
    said = ["LINES = ["]
    for no in sorted(lines()["no"], key=lambda no: no["number"]):
        words = ("f" if "{" in no["words"] else "") + f'"{no["words"]}"'
        said.append(f'    ({no["number"]}, "{no["kind"]}", {words}, {no["of_part"]}),')
    return {"names": named, "lines": said + ["]"]}


# ---- the worked rows


def quoted(text):
    """A text as the language and the definitions write it."""
    return '"' + text.replace("\\", "\\\\").replace('"', '\\"') + '"'


def row_lines():
    """The lines of the worked rows as constants of the crate that has them."""
    found = [
        "//! The line that is stored for each worked row, with its end.",
        "//!",
        "//! `tools/gate/tables.py` writes this file, by `docs/tables/rows.tsv`.",
        "",
    ]
    for row in rows("rows"):
        head, text = f"pub(crate) const ROW_{row['row']}: &str =", quoted(row["line"])[:-1] + '\\n";'
        found += ([f"{head} {text}"] if len(head) + len(text) < 100 else [head, f"    {text}"]) + [""]
    return found[:-1]


def row_definition():
    """The worked rows, in the definition of what is written of them."""
    ends = ["    "] + ["    ∷ "] * (len(rows("rows")) - 1)
    lines_of_rows = [f"{row['of']} {row['row']} (codes {quoted(row['line'])[:-1]}\\n\")" for row in rows("rows")]
    body = [end + line for end, line in zip(ends, lines_of_rows)]
    return ["unfoldable pub worked_rows : List WorkedRow", "worked_rows =", *body, "    ∷ []", ""]


def row_text():
    """What is written of all worked rows, as a constant of the tests."""
    body = [f"    {quoted(row['row'] + ' ' + row['line'])[:-1]}\\n\"," for row in rows("rows")]
    return ["const TEXT: &str = concat!(", *body, ");"]


def pages():
    """Each file that has tables, with its tables by their names."""
    return {
        "docs/READING-THE-ANSWER.md": reading(),
        "docs/CLAIM.md": claim(),
        "docs/PROFILE.md": profile(),
        "docs/SCRIPTS.md": scripts(),
        "docs/edfclaim.1": manual(),
        "extras/edfclaim.bash-completion": completions(rows("commands")),
        "extras/edfclaim.py": module(),
        "crates/edf_rows/src/lines.rt": {WHOLE: row_lines()},
        "crates/edf_rows/specs/Rows.antt": {"rows": row_definition()},
        "crates/edf_command_tests/src/rows.rt": {"rows": row_text()},
        "crates/edfclaim/stdout": {WHOLE: [f"{row['row']} {row['line']}" for row in rows("rows")]},
    }
