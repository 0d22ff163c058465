"""Reads the tables of docs/tables, and refuses one that has other columns, an empty cell, or a row twice."""

import functools
import pathlib
import re
import tomllib

TABLES = pathlib.Path(__file__).resolve().parent.parent.parent / "docs" / "tables"
# The columns of each table in order. A cell of a column with a question mark may be empty.
COLUMNS = {
    "causes": "group fault means does seen",
    "commands": "name words? about call? gives?",
    "fields": "names holds",
    "keys": "key says absent drafted?",
    "limits": "name of what most file stands times",
    "refusals": "line means does seen?",
    "refused": "name wrong does",
    "rows": "row of original exports claim line",
    "statuses": "status says where",
    "subfields": "name holds",
}
# What the rows of lines.toml have, by the list in which they stand; what has a question mark may be left out.
IN_LINES = {
    "no": "number kind words of_part fields brief exact? check? parts?",
    "exact": "line says",
    "check": "line means does seen?",
    "parts": "line means does seen?",
    "receipt": "line means compares?",
    "draft": "line means status does",
    "conform": "line means status seen",
    "show": "line means",
    "notes": "line means",
}


class BadTable(Exception):
    """A table that can't be read."""


def needed(words):
    """The words of a list without a question mark."""
    return [word for word in words.split() if not word.endswith("?")]


def fault_in(text):
    """What would break a table of Markdown in a text, if something would."""
    if text != text.strip():
        return "a space at an end"
    if re.search(r"(?<!\\)\|", text):
        return "a | without a backslash"
    return "a backquote alone" if text.count("`") % 2 else None


def fault_of(cells, columns):
    """What is wrong with the cells of a row, if something is."""
    if len(cells) != len(columns):
        return f"{len(cells)} cells, and not {len(columns)}"
    for cell, column in zip(cells, columns):
        if not cell and not column.endswith("?"):
            return f"no {column}"
        if fault_in(cell):
            return f"{column.rstrip('?')} has {fault_in(cell)}"
    return None


def plain_rows(name):
    """The rows of a table of docs/tables as they stand there, each a dictionary by the words of its first line."""
    head, *body = [line.split("\t") for line in (TABLES / f"{name}.tsv").read_text(encoding="utf-8").splitlines()]
    wanted = COLUMNS[name].replace("?", "").split()
    if head != wanted:
        raise BadTable(f"docs/tables/{name}.tsv has the columns {', '.join(head)}, and not {', '.join(wanted)}")
    key = 1 if head[0] == "group" else 0
    for number, cells in enumerate(body, start=2):
        fault = fault_of(cells, COLUMNS[name].split())
        if not fault and cells[key] in [row[key] for row in body[:number - 2]]:
            fault = f"{cells[key]} for the second time"
        if fault:
            raise BadTable(f"docs/tables/{name}.tsv, line {number}: {fault}")
    return [dict(zip(head, row)) for row in body]


def with_limits(text):
    """A text with the number of each limit where it has `{limit.NAME}`."""
    most = {row["name"]: row["most"] for row in plain_rows("limits")}
    for word in re.findall(r"\{[^{}]*\.[^{}]*\}", text):
        if word.removeprefix("{limit.").removesuffix("}") not in most:
            raise BadTable(f"docs/tables: {word} is no limit of limits.tsv")
    return re.sub(r"\{limit\.([a-z-]+)\}", lambda found: most[found[1]], text)


@functools.cache
def rows(name):
    """The rows of a table of docs/tables, with the numbers of limits."""
    return [{column: with_limits(cell) for column, cell in row.items()} for row in plain_rows(name)]


def parts_of(name, column, values):
    """The rows of a table by the value of a column, in the order of these values: there are no others."""
    found = {value: [row for row in rows(name) if row[column] == value] for value in values}
    for row in rows(name):
        if row[column] not in found:
            raise BadTable(f"docs/tables/{name}.tsv: {column} {row[column]!r} is none of {', '.join(values)}")
    return found


def lines_faults(name, table):
    """What is wrong with the rows of a list of lines.toml, and with the lists in them."""
    for row in table:
        about = f"docs/tables/lines.toml, [[{name}]] {row.get('number', row.get('line', ''))}"
        yield from (f"{about}: no {word}" for word in needed(IN_LINES[name]) if row.get(word, "") == "")
        known = IN_LINES[name].replace("?", "").split()
        yield from (f"{about}: {word} is none of {', '.join(known)}" for word in row if word not in known)
        for word, said in row.items():
            if isinstance(said, list) and word in IN_LINES:
                yield from lines_faults(word, said)
            elif isinstance(said, str) and word != "words" and fault_in(said):
                yield f"{about}: {word} has {fault_in(said)}"


@functools.cache
def lines():
    """The lines that the program prints, by docs/tables/lines.toml."""
    try:
        said = tomllib.loads(with_limits((TABLES / "lines.toml").read_text(encoding="utf-8")))
    except tomllib.TOMLDecodeError as fault:
        raise BadTable(f"docs/tables/lines.toml: {fault}") from None
    lists = {name: table for name, table in said.items() if isinstance(table, list)}
    lists |= {name: table for name, table in said["yes"].items() if isinstance(table, list)}
    for name, table in lists.items():
        if name not in IN_LINES:
            raise BadTable(f"docs/tables/lines.toml: [[{name}]] is none of {', '.join(IN_LINES)}")
        for fault in lines_faults(name, table):
            raise BadTable(fault)
    return said
