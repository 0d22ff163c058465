#!/usr/bin/env python3
"""Looks whether the links of pages lead to files that are there, and to headings of these, and whether the scripts and the
files of the language that they name are there.

usage: tools/gate/links.py                            the pages of the sources, which git knows
       tools/gate/links.py ROOT                       the links of all pages below a folder, which mustn't lead out of it
       tools/gate/links.py --pack PAGES NAME=FILE..   mends the links of packed pages

A page is a file whose name ends in .md, and a link is one of Markdown, or an attribute href or src. Links to the
network aren't looked at, nor what stands in a block of code or between backquotes. What stands behind a `#` has to be a
heading of the page, as Markdown is shown on the usual sites: in small letters, spaces as `-`, without other signs.

A file that is named stands between backquotes, by its name or with folders in front, and has an ending such as `.py` or
`.rt`.

With --pack a link to a file of the sources that isn't packed becomes its words, with `(in the sources)` behind them;
a link to NAME leads to FILE, where that is packed elsewhere. The last line of a look is 'N passed, M failed', of
links and names.
"""

import os
import pathlib
import re
import subprocess
import sys
import urllib.parse

TOP = pathlib.Path(__file__).resolve().parent.parent.parent
LINK = re.compile(r"(?P<image>!?)\[(?P<words>(?:[^\[\]]|\[[^\[\]]*\])*)\]\((?P<target>[^()\s]+)(?P<title>\s+\"[^\"]*\")?\)|(?:href|src)=\"(?P<attribute>[^\"]+)\"")
CODE = re.compile(r"^(?P<fence>```+|~~~+).*?^(?P=fence)[ \t]*$|(?P<ticks>`+)(?!`)[^\n]+?(?<!`)(?P=ticks)(?!`)", re.M | re.S)
FAR = re.compile(r"[a-z][a-z0-9+.-]*:|//")
NAMED = re.compile(r"`([\w-][\w./-]*\.(?:py|sh|rt|antt|edit))`")
HEADING = re.compile(r"^#{1,6} +(.*?) *$", re.M)


def links_of(text):
    """The links of a page, each as what was found in the text."""
    # code as long as it was, so that places stay
    hidden = CODE.sub(lambda code: re.sub(r"[^\n]", "~", code[0]), text)
    return [link for link in LINK.finditer(hidden) if not FAR.match(link["target"] or link["attribute"])]


def file_of(page, target):
    """The file that a link of a page leads to."""
    if target.startswith("#"):
        return page
    return pathlib.Path(os.path.normpath(page.parent / urllib.parse.unquote(target.partition("#")[0])))


def hidden_code(text):
    """A text without its blocks of code, line by line as long as it was."""
    return re.sub(r"^(```+|~~~+).*?^\1[ \t]*$", lambda code: re.sub(r"[^\n]", "~", code[0]), text, flags=re.M | re.S)


def headings(page):
    """What leads to the headings of a page; of several of one text the later ones have a number."""
    found = {}
    for heading in HEADING.findall(hidden_code(page.read_text(encoding="utf-8"))):
        words = re.sub(r"\[([^\]]*)\]\([^)]*\)", r"\1", heading).lower()
        slug = re.sub(r"[^\w\- ]", "", words).replace(" ", "-")
        found[slug] = found.get(slug, -1) + 1
    return {slug + (f"-{number}" if number else "") for slug, most in found.items() for number in range(most + 1)}


def fault(root, page, target):
    """Why a link of a page leads nowhere, or none."""
    file = file_of(page, target)
    if not (file.is_relative_to(root) and file.exists()):
        return "no file"
    heading = urllib.parse.unquote(target.partition("#")[2])
    if heading and file.suffix == ".md" and heading not in headings(file):
        return "no heading"
    return None


def found_in(root, page, files):
    """Each link of a page, and each file that it names where the files are known: the place, the words, and the fault."""
    text = page.read_text(encoding="utf-8")
    for link in links_of(text):
        target = link["target"] or link["attribute"]
        yield text.count("\n", 0, link.start()) + 1, target, fault(root, page, target)
    for name in NAMED.finditer(hidden_code(text)) if files else ():
        known = any(f"/{file}".endswith(f"/{name[1]}") for file in files)
        yield text.count("\n", 0, name.start()) + 1, name[1], None if known else "no file"


def look(root, pages, files):
    """Looks at all links and names. Returns whether each leads to a file below the root."""
    passed = failed = 0
    for page in pages:
        for line, words, why in found_in(root, page, files):
            if why is None:
                passed += 1
            else:
                failed += 1
                print(f"{page.relative_to(root)}:{line}: {why}: {words}")
    print(f"{passed} passed, {failed} failed")
    return failed == 0


def pack(folder, elsewhere):
    """Mends the links of the packed pages."""
    for page in sorted(folder.rglob("*.md")):
        text = page.read_text(encoding="utf-8")
        out, at = [], 0
        for link in links_of(text):
            target = link["target"]
            if not target or (file := file_of(page, target)).exists():
                continue
            words = text[link.start("words"):link.end("words")]
            name = str(file.relative_to(folder)) if file.is_relative_to(folder) else target
            if name in elsewhere:
                words = f"[{words}]({os.path.relpath(elsewhere[name], page.parent)})"
            elif not link["image"]:
                words += " (in the sources)"
            out += [text[at:link.start()], words]
            at = link.end()
        if out:
            page.write_text("".join(out) + text[at:], encoding="utf-8")


def main():
    words = sys.argv[1:]
    if words[:1] == ["--pack"] and len(words) >= 2 and all("=" in word for word in words[2:]):
        folder = pathlib.Path(words[1]).resolve()
        pack(folder, {name: pathlib.Path(file).resolve() for name, file in (word.split("=", 1) for word in words[2:])})
        return 0
    if len(words) > 1 or words and not pathlib.Path(words[0]).is_dir():
        print(f"usage: {sys.argv[0]} [ROOT | --pack PAGES NAME=FILE..]", file=sys.stderr)
        return 2
    if words:
        root = pathlib.Path(words[0]).resolve()
        return 0 if look(root, sorted(root.rglob("*.md")), []) else 1
    listed = subprocess.run(["git", "ls-files", "-z"], cwd=TOP, capture_output=True, text=True, check=True).stdout
    files = [name for name in listed.split("\0") if name and (TOP / name).is_file()]
    return 0 if look(TOP, [TOP / name for name in files if name.endswith(".md")], files) else 1


sys.exit(main())
