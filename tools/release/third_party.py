#!/usr/bin/env python3
"""Writes what the program has linked in from the toolchain, with its licences and notices: THIRD-PARTY.md, and
debian/copyright for the Debian package.

usage: tools/release/third_party.py           writes both files
       tools/release/third_party.py --check   looks whether they are those that would be written, and writes nothing

The libraries are those that crates.txt gives the program and the crates below it, and those that they stand on in
turn: the lines `dep` of the kit's rlibs/NAME.rlib/format. A notice is the text of the files LICENSE* beside the
library in the kit; where one of several licences can be chosen, that of MIT is. The name of what a library was
made from is in this script, and its version is read from the library's README in the kit.

The check looks on any machine whether the libraries that crates.txt names are those that the files name, and
whether each library of THIRD-PARTY.md stands in debian/copyright. Where the kit is the one that the file was made
from, it compares both files to the letter. Another kit may have other libraries and other notices: what is of another
name there is said, and is no failure. The last line of a check is 'N passed, M failed'.
"""

import pathlib
import re
import shutil
import subprocess
import sys
import textwrap

TOP = pathlib.Path(__file__).resolve().parent.parent.parent
PROGRAM = "edfclaim"
PAGE, COPYRIGHT = TOP / "THIRD-PARTY.md", TOP / "debian" / "copyright"
HOLDER = "the Mishkadar authors"
MAIL = "maintainers@users.noreply.mishkadar.example"

# libraries of the toolchain itself, which are no ports: its standard library and what that stands on
OWN = "core io libc os std std_alloc std_collections std_heap std_io".split()
MIT, EITHER, UNLICENSE, UNICODE = "MIT", "MIT OR Apache-2.0", "Unlicense OR MIT", "Unicode-3.0"
# of each port, or of all whose names begin so: the Rust crates that it was made from, and the licence that they offer
UPSTREAM = {
    "arrayvec": (["arrayvec"], EITHER),
    "byteorder": (["byteorder"], UNLICENSE),
    "caseless": (["caseless"], f"{MIT}, and {UNICODE} for the data"),
    "clap": (["clap_builder", "clap_lex"], EITHER),
    "fast_float": (["fast-float2"], EITHER),
    "hex": (["hex"], EITHER),
    "itoa": (["itoa"], EITHER),
    "jiff": (["jiff"], UNLICENSE),
    "jiff_core": (["jiff-core", "jiff"], UNLICENSE),
    "jiff_tz": (["jiff", "jiff-core"], UNLICENSE),
    "jiff_*": (["jiff"], UNLICENSE),
    "memchr": (["memchr"], UNLICENSE),
    "ryu": (["ryu", "zmij"], "Apache-2.0 OR BSL-1.0 for ryu, MIT for zmij"),
    "serde": (["serde"], EITHER),
    "sha2": (["sha2"], EITHER),
    "simdutf8": (["simdutf8"], EITHER),
    "strsim": (["strsim"], MIT),
    "thiserror": (["thiserror"], EITHER),
    "toml": (["toml"], EITHER),
    "toml_datetime": (["toml_datetime"], EITHER),
    "toml_parser": (["toml_parser"], EITHER),
    "toml_writer": (["toml_writer"], EITHER),
    "ucd_*": ([], UNICODE),
    "unicode": ([], UNICODE),
    "unicode_ident": (["unicode-ident"], f"{EITHER}, and {UNICODE} for the data"),
    "unicode_normalization": (["unicode-normalization"], f"{EITHER}, and {UNICODE} for the data"),
    "unicode_segmentation": (["unicode-segmentation"], f"{EITHER}, and {UNICODE} for the data"),
    "unicode_width": (["unicode-width"], f"{EITHER}, and {UNICODE} for the data"),
}


class Lacking(Exception):
    """What can't be found, or isn't known to this script."""


def named():
    """The libraries that crates.txt gives the program and the crates below it."""
    below = {}
    for line in (TOP / "crates.txt").read_text(encoding="utf-8").splitlines():
        name, colon, libraries = line.partition("#")[0].partition(":")
        if colon:
            below[name.split()[0]] = libraries.split()
    seen, left = set(), [PROGRAM]
    while left:
        name = left.pop()
        if name not in seen:
            seen.add(name)
            left += below.get(name, [])
    return seen - below.keys()


def said_by_kit(word):
    """What a command of the toolchain prints of itself, or nothing where there is none."""
    if not shutil.which("rt"):
        return ""
    said = subprocess.run(["rt", word], capture_output=True, text=True, check=False, cwd="/")
    return said.stdout.strip() if said.returncode == 0 else ""


def kit_folder():
    """The folder of the kit, or none where it isn't found."""
    page = said_by_kit("doc")
    folder = pathlib.Path(page).parent if page else None
    return folder if folder and (folder / "rlibs").is_dir() and (folder / "rattle").is_dir() else None


def libraries_of(kit, names):
    """The libraries with these names, and all that they stand on."""
    seen, left = set(), [*names, "std"]
    while left:
        name = left.pop()
        if name in seen:
            continue
        seen.add(name)
        path = kit / "rlibs" / f"{name}.rlib" / "format"
        try:
            text = path.read_text(encoding="utf-8", errors="replace")
        except OSError as error:
            raise Lacking(f"{path}: what the library {name} stands on can't be read: {error.strerror}") from error
        left += re.findall(r"^dep (\w+)$", text, re.M)
    return seen


def upstream_of(kit, name):
    """What a port was made from, in words, and the licence that was offered."""
    word = name if name in UPSTREAM else name.partition("_")[0] + "_*"
    if word not in UPSTREAM:
        raise Lacking(f"{name}: this script doesn't know what that library was made from")
    crates, licence = UPSTREAM[word]
    if not crates:
        return "the data of Unicode", licence
    page = kit / "rattle" / name / "README.md"
    text = page.read_text(encoding="utf-8") if page.is_file() else ""
    words = []
    for crate in crates:
        version = re.search(rf"(?<![\w-])`?{re.escape(crate)}`? (\d+(?:\.\d+)+)", text)
        words.append(f"{crate} {version[1]}" if version else crate)
    return ", ".join(words), licence


def plain(text):
    """The words of a text, without its lines."""
    return " ".join(text.split())


def notices_of(kit, name):
    """The texts that stand beside a library in the kit, without the licences that needn't be chosen."""
    files = sorted((kit / "rattle" / name).glob("LICENSE*"))
    if any(file.name == "LICENSE-MIT" for file in files):
        files = [file for file in files if file.name != "LICENSE-APACHE"]
    # the ends of lines are no part of a text
    return ["\n".join(line.rstrip() for line in file.read_text(encoding="utf-8").strip("\n").splitlines()) for file in files]


def is_apache(text):
    return plain(text).startswith("Apache License Version 2.0")


def holders_of(text):
    """Who holds the copyright, by the lines of a notice."""
    lines = re.findall(r"^\s*Copyright (?:\(c\) |© )?(.*\S)$", text, re.M)
    return [line for line in lines if not is_apache(text)]


def lines_of(words, width):
    return textwrap.wrap(words, width, break_long_words=False, break_on_hyphens=False)


def page_of(kit_says, direct, ports, notices):
    """THIRD-PARTY.md."""
    texts = [text for text in dict.fromkeys(text for name in ports for text in notices[name]) if not is_apache(text)]
    number = {text: at + 1 for at, text in enumerate(texts)}

    def links(name):
        words = ["the text of [LICENSE-APACHE](LICENSE-APACHE)" if is_apache(text) else f"[{number[text]}](#notice-{number[text]})"
                 for text in notices[name]]
        return ", ".join(words) or "none in the kit"

    out = [
        "# What is linked in",
        "",
        "The program `edfclaim` is licensed under [MIT](LICENSE-MIT) or [Apache-2.0](LICENSE-APACHE). It has libraries of the Rattle toolchain "
        "linked in. Most are ports of Rust crates, under the licences of these. This page names each library that the program "
        "stands on, directly or by another one, what it was made from, the licence that this is offered under, and the notice that "
        "stands beside the library in the kit of the toolchain. The linker takes of a library what the program uses: not each of them need have left code in it.",
        "",
        f"`tools/release/third_party.py` wrote this page from `crates.txt` and the kit `{kit_says}`. Where MIT can be chosen, the notice is that of MIT.",
        "",
        "## Libraries with a notice",
        "",
        "| library | named in `crates.txt` | made from | offered under | notice |",
        "|---|---|---|---|---|",
    ]
    for name, (upstream, licence) in ports.items():
        out.append(f"| `{name}` | {'yes' if name in direct else 'no'} | {upstream} | {licence} | {links(name)} |")
    out += [
        "",
        "A notice without a line of copyright has none in the kit either, and so it names nobody.",
        "",
        "## Of the toolchain itself: no notice",
        "",
        f"The libraries {', '.join(f'`{name}`' for name in OWN[:-1])} and `{OWN[-1]}` are the toolchain's standard library and what it stands on. "
        "No file of a licence and no notice stands beside them in the kit, and the kit names none for itself: under which terms they may be handed on isn't to be found there. "
        "A program of the toolchain also begins with the start files of the C library and of GCC (`Scrt1.o`, `crti.o`, `crtbeginS.o` and others), as other programs on Linux do; "
        "the kit has no notice for these either. The C library and `libgcc_s` themselves are libraries of the system, and no part of the program's file.",
        "",
        "## Notices",
    ]
    for text in texts:
        users = [f"`{name}`" for name in ports if text in notices[name]]
        out += ["", f"### Notice {number[text]}", "", f"Of {', '.join(users)}.", "", "```", text, "```"]
    return "\n".join(out) + "\n"


def licence_text(text):
    """A text as a field of debian/copyright."""
    return "\n".join(f" {line}" if line.strip() else " ." for line in text.strip("\n").splitlines())


def copyright_of(kit_says, ports, notices):
    """debian/copyright, in the form that machines read."""
    holders = {}
    for name in ports:
        for text in notices[name]:
            for holder in holders_of(text):
                holders.setdefault(holder, []).append(name)
    comment = [
        f"The program has libraries of the Rattle toolchain linked in, which its kit ({kit_says}) brings: ports of Rust crates, under "
        "Expat, Apache-2.0 and Unicode-3.0. The file THIRD-PARTY.md beside this one has, of each, what it was made from, its licence and the text of its notice.",
        f"The ports are {', '.join(ports)}.",
        f"The toolchain's own libraries are {', '.join(OWN)}. The kit has no notice for these.",
    ]
    fields = [f"{holder} ({', '.join(names)})" for holder, names in holders.items()]
    mit = (TOP / "LICENSE-MIT").read_text(encoding="utf-8").partition("\n\n")[2].partition("\n\n")[2]
    unicode_text = next(text for name in ports for text in notices[name] if text.startswith("UNICODE"))
    out = [
        "Format: https://www.debian.org/doc/packaging-manuals/copyright-format/1.0/",
        "Upstream-Name: edfclaim",
        f"Upstream-Contact: Mishkadar maintainers <{MAIL}>",
        "Comment:",
        "\n .\n".join("\n".join(f" {line}" for line in lines_of(words, 110)) for words in comment),
        "",
        "Files: *",
        f"Copyright: 2026 {HOLDER}",
        "License: Expat or Apache-2.0",
        "",
        "Files: crates/edfclaim/out/edfclaim",
        f"Copyright: 2026 {HOLDER}",
        "\n".join(f"  {line}" for words in fields for line in lines_of(words, 110)),
        "License: Expat or Apache-2.0, and Expat, and Apache-2.0, and Unicode-3.0",
        "",
        "License: Expat",
        licence_text(mit),
        "",
        "License: Apache-2.0",
        " On Debian systems the whole text of the Apache License, Version 2.0, is in the file",
        " /usr/share/common-licenses/Apache-2.0.",
        "",
        "License: Unicode-3.0",
        licence_text(unicode_text),
    ]
    return "\n".join(out) + "\n"


def make(kit):
    """Both files, as they would be written of this kit."""
    direct = named()
    names = sorted(libraries_of(kit, direct) - set(OWN))
    ports = {name: upstream_of(kit, name) for name in names}
    notices = {name: notices_of(kit, name) for name in names}
    says = said_by_kit("version")
    return page_of(says, direct, ports, notices), copyright_of(says, ports, notices)


def check():
    """Compares the stored files. Returns whether they are as they should be."""
    passed = failed = 0

    def judge(good, words):
        nonlocal passed, failed
        if good:
            passed += 1
        else:
            failed += 1
            print(words)

    page, copyright_text = PAGE.read_text(encoding="utf-8"), COPYRIGHT.read_text(encoding="utf-8")
    rows = dict(re.findall(r"^\| `(\w+)` \| (yes|no) \|", page, re.M))
    wanted, stored = named(), {name for name, word in rows.items() if word == "yes"}
    judge(wanted == stored, f"THIRD-PARTY.md names {sorted(stored)} of crates.txt; wanted: {sorted(wanted)}")
    ports = re.search(r"The ports are ([\w,\s]+)\.", copyright_text)
    judge(ports and plain(ports[1]).split(", ") == sorted(rows), "debian/copyright doesn't name the libraries of THIRD-PARTY.md")
    numbers = set(re.findall(r"\(#notice-(\d+)\)", page))
    judge(numbers == set(re.findall(r"^### Notice (\d+)$", page, re.M)), "THIRD-PARTY.md: notices that nothing links to, or that aren't there")
    kit, made_from = kit_folder(), re.search(r"the kit `([^`]*)`", page)
    if kit is None:
        print("no kit of the toolchain here: its libraries and notices aren't compared")
    elif made_from and said_by_kit("version") == made_from[1]:
        for path, text in zip((PAGE, COPYRIGHT), make(kit)):
            judge(path.read_text(encoding="utf-8") == text, f"{path.relative_to(TOP)} isn't the file that tools/release/third_party.py writes")
    else:
        here = said_by_kit("version")
        try:
            libraries = libraries_of(kit, wanted) - set(OWN)
            differ = sorted(libraries ^ rows.keys())
            what = f"it has other libraries: {', '.join(differ)}; " if differ else "it has the same libraries; "
        except Lacking as error:
            what = f"{error}; "
        print(f"THIRD-PARTY.md is of another kit than {here}: {what}the notices aren't compared")
    print(f"{passed} passed, {failed} failed")
    return failed == 0


def main():
    if sys.argv[1:] == ["--check"]:
        return 0 if check() else 1
    if sys.argv[1:]:
        print(f"usage: {sys.argv[0]} [--check]", file=sys.stderr)
        return 2
    kit = kit_folder()
    if kit is None:
        print(f"{sys.argv[0]}: no kit of the toolchain on this machine: rt doc doesn't name its folder", file=sys.stderr)
        return 2
    try:
        made = make(kit)
    except Lacking as error:
        print(f"{sys.argv[0]}: {error}", file=sys.stderr)
        return 2
    for path, text in zip((PAGE, COPYRIGHT), made):
        path.write_text(text, encoding="utf-8")
        print(f"wrote {path.relative_to(TOP)}")
    return 0


sys.exit(main())
