#!/usr/bin/env python3
"""Makes the manual page of the formats, and the faults of the program's page, from docs/FORMATS.md, or tests that they are made of it.

    format-page.py          tests
    format-page.py write    writes man/rebuild.5, and of man/rebuild.1 what is between its two comments on this script

The document has paragraphs, lists, and indented blocks. A list whose items begin with text in backquotes and a colon becomes one of tags.
A block that begins with `$ ` becomes an example, which manual.sh runs."""

import pathlib
import re
import sys
import textwrap

ROOT = pathlib.Path(__file__).resolve().parent.parent
SOURCE = ROOT / "docs/FORMATS.md"
FORMATS, PROGRAM = ROOT / "man/rebuild.5", ROOT / "man/rebuild.1"
FROM, TO = '.\\" From docs/FORMATS.md, by tools/format-page.py:\n', '.\\" Up to here.\n'
FAULTS = "Faults"
# What the program's page leaves out: the numbers that no line has.
INNER = "\nThe other numbers "
WIDTH = 80
TAGGED = re.compile(r"- (`.*?[`)]): (.*)", re.S)
HEAD = """\
.\\" The manual page of the formats, which tools/format-page.py makes from docs/FORMATS.md: change that. gate/manual.sh runs each
.\\" display after a comment "example", and compares what comes with what the display shows.
.Dd November 26, 2026
.Dt REBUILD 5
.Os rebuild {version}
.Sh NAME
.Nm rebuild
.Nd request lists, fragments, reports and lines of
.Xr rebuild 1
.Sh DESCRIPTION
All text is ASCII.
Coefficients, bytes and digests are hexadecimal, and other numbers decimal.
The numbers of faults, such as E20, are in
.Xr rebuild 1
with their meanings.
"""
FOOT = """\
.Sh COMPATIBILITY
From version 0.1.0 on, later versions take what this page describes, and give what
it says.
.Sh SEE ALSO
.Xr rebuild 1 ,
.Xr rebuild-lists 1 ,
.Xr rebuild-store 1 ,
.Xr rebuild-store 5
.Sh STANDARDS
Lists and reports are comma-separated values of RFC 4180, but the lines of a report
end by LF, and those of a list by CR LF, LF or CR.
Digests are SHA-256 of FIPS 180-4.
.Sh HISTORY
The first version is 0.1.0, which isn\\(aqt released yet.
.Sh AUTHORS
.An The Bucketuntil maintainers .
.Sh COPYRIGHT
Copyright 2026 the Bucketuntil maintainers.
There is no licence yet: nobody else may pass it on.
"""


def sections():
    """The sections of the document by their titles, in order."""
    parts = re.split(r"^## (.*)\n", SOURCE.read_text(encoding="ascii"), flags=re.M)
    return dict(zip(parts[1::2], parts[2::2]))


def escaped(text):
    return text.replace("\\", "\\e").replace("^", "\\(ha")


def literal(text):
    return escaped(text).replace("-", "\\-").replace("'", "\\(aq")


def inline(text):
    """Text with what is in backquotes in bold, and links as their text."""
    text = re.sub(r"\[([^\]]*)\]\([^)]*\)", r"\1", " ".join(text.split()))
    pieces = text.split("`")
    return "".join(f"\\fB{literal(piece)}\\fR" if number % 2 else escaped(piece) for number, piece in enumerate(pieces))


def lines(text):
    """The lines of text, each sentence on its own."""
    for sentence in re.split(r"(?<=[.:]) (?=[A-Z\\])", inline(text)):
        for line in textwrap.wrap(sentence, WIDTH, break_long_words=False, break_on_hyphens=False):
            yield "\\&" + line if line[0] in ".'" else line


def display(block):
    """An indented block, as an example if it has commands."""
    text = [literal(line) for line in textwrap.dedent("\n".join(block)).splitlines()]
    mark = ['.\\" example'] if text[0].startswith("$ ") else []
    return [*mark, ".Bd -literal -offset indent", *text, ".Ed"]


def listed(items):
    """A list, of tags if its items have them. The tags of the list of all faults are plain, so that manual.sh finds them."""
    tagged = [TAGGED.fullmatch(item) for item in items]
    is_of_faults = all(parts and re.fullmatch(r"`E\d+`", parts[1]) for parts in tagged)
    made = [".Bl -tag -width Ds" if all(tagged) else ".Bl -bullet"]
    for item, parts in zip(items, tagged):
        if all(tagged):
            tag = parts[1].strip("`") if is_of_faults else inline(parts[1])
            made += [f".It {tag}", *lines(parts[2][0].upper() + parts[2][1:])]
        else:
            made += [".It", *lines(item[2:])]
    return [*made, ".El"]


def page(text):
    """What a section becomes."""
    made = []
    for part in re.split(r"\n{2,}", text.strip("\n")):
        rows = part.splitlines()
        if rows[0].startswith("    "):
            made += display(rows)
        elif rows[0].startswith("- "):
            made += listed(re.split(r"\n(?=- )", part))
        else:
            made += [".Pp"] * bool(made) + [*lines(part)]
    return "\n".join(made) + "\n"


def version():
    return re.search(r"^\.Os rebuild (.*)$", PROGRAM.read_text(), re.M)[1]


def formats():
    parts = [f".Ss {title}\n{page(text)}" for title, text in sections().items() if title != FAULTS]
    return HEAD.format(version=version()) + "".join(parts) + FOOT


def program():
    before, _, rest = PROGRAM.read_text(encoding="ascii").partition(FROM)
    _, _, after = rest.partition(TO)
    if TO not in rest:
        sys.exit(f"format-page: man/rebuild.1 has no two comments {FROM.strip()} and {TO.strip()}")
    shown, inner, _ = sections()[FAULTS].partition(INNER)
    if not inner:
        sys.exit(f"format-page: {SOURCE.name} has no paragraph that begins with {INNER.strip()!r}")
    return before + FROM + page(shown) + TO + after


def main():
    wanted = {FORMATS: formats(), PROGRAM: program()}
    for path, text in wanted.items():
        if sys.argv[1:] == ["write"]:
            path.write_text(text, encoding="ascii")
        elif path.read_text(encoding="ascii") != text:
            sys.exit(f"format-page: {path.relative_to(ROOT)} isn't what docs/FORMATS.md gives: tools/format-page.py write makes it")
    print("format-page: rebuild(5) and the faults of rebuild(1) are those of docs/FORMATS.md")


main()
