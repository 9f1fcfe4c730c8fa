#!/usr/bin/env python3
"""Runs the commands that documents show, and compares what they write with what the documents show.

    examples.py [DOCUMENT ..]                      README.md and docs/FORMATS.md, if none is named
    examples.py section DOCUMENT SECTION FOLDER    the commands of a section alone

An example is an indented block whose first line begins with `$ `. Each such line is a command, which lines that begin with `> ` go on
with, and the lines after it, up to the next command, are what it writes. The commands of a document run in turn in one empty folder, with
the built programs as `rebuild` and `rebuild-store` and the companion as `rebuild-lists`; those of a section in the folder that is named,
in one shell and with the programs of the PATH."""

import os
import pathlib
import subprocess
import sys
import tempfile
import textwrap

ROOT = pathlib.Path(__file__).resolve().parent.parent
PROGRAM = ROOT / "crates/rebuild/out/rebuild"
STORE = ROOT / "crates/rebuild_store/out/rebuild_store"
COMPANION = ROOT / "companion/rebuild-lists"
MARK = "-- the next command --"


def blocks(text):
    """The indented blocks of a document, without their indentation."""
    block = []
    for line in [*text.splitlines(), ""]:
        if line.startswith("    "):
            block.append(line)
        elif block:
            yield textwrap.dedent("\n".join(block)).splitlines()
            block = []


def examples(text):
    """The commands of a document, each with the lines that it writes."""
    for block in blocks(text):
        if not block[0].startswith("$ "):
            continue
        for line in block:
            if line.startswith("$ "):
                command = [line[2:], []]
                yield command
            elif line.startswith("> ") and not command[1]:
                command[0] += "\n" + line[2:]
            else:
                command[1].append(line)


def run(document, folder):
    """Runs the examples of a document in a folder."""
    made = 0
    for command, shown in list(examples((ROOT / document).read_text())):
        environment = os.environ | {"PATH": f"{folder / 'bin'}:{os.environ['PATH']}", "LC_ALL": "C"}
        ran = subprocess.run(["bash", "-c", command], cwd=folder / "work", env=environment, stdout=subprocess.PIPE,
                             stderr=subprocess.STDOUT, timeout=300)
        said = ran.stdout.decode().splitlines()
        if said != shown:
            sys.exit(f"examples {document}: {command}\nshows {shown}\nand wrote {said}")
        made += 1
    if made == 0:
        sys.exit(f"examples {document}: there are none")
    print(f"examples {document}: {made} commands write what it shows")


def section_of(text, title):
    """The lines of the sections with this title."""
    lines, inside = [], False
    for line in text.splitlines():
        if line.startswith("#"):
            inside = line.lstrip("#").strip() == title
        elif inside:
            lines.append(line)
    return "\n".join(lines)


def run_section(document, title, folder):
    """Runs the examples of a section in a folder, in one shell, which writes a line of its own before each."""
    document = pathlib.Path(document)
    found = list(examples(section_of(document.read_text(), title)))
    if not found:
        sys.exit(f"{document}: no section {title!r} with commands")
    script = "".join(f"echo '{MARK}'\n{command}\n" for command, _ in found)
    ran = subprocess.run(["bash", "-c", script], cwd=folder, stdin=subprocess.DEVNULL, stdout=subprocess.PIPE, stderr=subprocess.STDOUT,
                         text=True)
    printed = ran.stdout.split(MARK + "\n")[1:]
    if len(printed) != len(found):
        sys.exit(f"{document}: {title}: only {len(printed)} of {len(found)} commands were run:\n{ran.stdout}")
    for (command, shown), said in zip(found, printed):
        wanted = "".join(line + "\n" for line in shown)
        if said != wanted:
            sys.exit(f"{document}: {title}: $ {command}\nwrote\n{said}and not\n{wanted}")
    print(f"{title}: {len(found)} commands wrote what {document.name} shows")


def main():
    if sys.argv[1:2] == ["section"]:
        run_section(*sys.argv[2:5])
        return
    if not PROGRAM.exists():
        sys.exit("examples: the program is not built: make build does it")
    for document in sys.argv[1:] or ["README.md", "docs/FORMATS.md"]:
        with tempfile.TemporaryDirectory() as scratch:
            folder = pathlib.Path(scratch)
            (folder / "bin").mkdir()
            (folder / "work").mkdir()
            (folder / "bin/rebuild").symlink_to(PROGRAM)
            (folder / "bin/rebuild-store").symlink_to(STORE)
            (folder / "bin/rebuild-lists").symlink_to(COMPANION)
            run(document, folder)


main()
