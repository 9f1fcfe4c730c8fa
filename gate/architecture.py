#!/usr/bin/env python3
"""Tests that each file that docs/ARCHITECTURE.md and CONTRIBUTING.md name is there, that the former leads to the page of each crate, which
says where to begin, that each source and script says at its head what it is for, and that scripts that say what runs them may be run.

    architecture.py                     tests
    architecture.py files [WORD ..]     prints each file of crates/*/src with the first sentence of its comment; those that have all words
    architecture.py scripts [WORD ..]   prints each script with the first sentence of its comment"""

import os
import pathlib
import re
import sys

ROOT = pathlib.Path(__file__).resolve().parent.parent
MAPS = [ROOT / "docs/ARCHITECTURE.md", ROOT / "CONTRIBUTING.md"]
# The folders of scripts.
SCRIPTS = ["gate", "tools", "bench", "ceph", "ceph/tests"]


def first_sentence(lines):
    return re.split(r"(?<=[a-z`)0-9])\. (?=[A-Z`])", " ".join(lines))[0].rstrip(".")


def comment_of_source(file):
    lines = []
    for line in file.read_text().splitlines():
        if not line.startswith("//! "):
            break
        lines.append(line[4:])
    return first_sentence(lines)


def comment_of_script(file):
    text = file.read_text()
    found = re.search(r'^"""(.*?)(?:\n\n|""")', text, re.S | re.M)
    if file.suffix == ".py" and found:
        return first_sentence(found[1].splitlines())
    if file.suffix == ".c":
        found = re.match(r"/\*(.*?)\*/", text, re.S)
        return first_sentence(found[1].split()) if found else ""
    lines = []
    for line in text.splitlines()[1:]:
        if not line.startswith("# "):
            break
        lines.append(line[2:])
    return first_sentence(lines)


def sources():
    for file in sorted((ROOT / "crates").glob("*/src/**/*.rt")):
        below = file.relative_to(ROOT / "crates")
        if not below.parts[0].endswith("_tests") and below.stem != "tests" and "tests" not in below.parts:
            yield str(below), comment_of_source(file)


def scripts():
    for folder in SCRIPTS:
        for file in sorted((ROOT / folder).iterdir()):
            if file.suffix in (".py", ".sh", ".c"):
                yield str(file.relative_to(ROOT)), comment_of_script(file)


def not_runnable():
    """The scripts that have `#!`, or else no right to be run, but not both."""
    for folder in (*SCRIPTS, "packaging", "companion"):
        for file in sorted(it for it in (ROOT / folder).iterdir() if it.is_file()):
            if file.read_bytes().startswith(b"#!") != os.access(file, os.X_OK):
                yield str(file.relative_to(ROOT))


def astray():
    """The crates whose page the table of docs/ARCHITECTURE.md doesn't link to, or doesn't say where to begin, with a file that is there."""
    table = (ROOT / "docs/ARCHITECTURE.md").read_text()
    for crate in sorted({name.split("/")[0] for name, _ in sources()}):
        page = ROOT / "crates" / crate / "README.md"
        begin = re.search(r"Begin\s+with\s+`([\w/.-]+)`", page.read_text()) if page.exists() else None
        if f"(../crates/{crate}/README.md)" not in table or not begin or not (page.parent / begin[1]).exists():
            yield crate


def main():
    lists = {"files": sources, "scripts": scripts}
    if sys.argv[1:] and sys.argv[1] in lists:
        words = [word.lower() for word in sys.argv[2:]]
        for name, said in lists[sys.argv[1]]():
            line = f"{name}: {said}"
            if all(word in line.lower() for word in words):
                print(line)
        return
    silent = [name for name, said in [*sources(), *scripts()] if not said]
    if silent:
        sys.exit(f"architecture: these don't say at their head what they are for: {', '.join(silent)}")
    if [*not_runnable()]:
        sys.exit(f"architecture: these begin with #! and can't be run, or can be and don't: {', '.join(not_runnable())}")
    files = ["/" + str(it.relative_to(ROOT)) for it in ROOT.rglob("*.*") if ".git" not in it.parts and "out" not in it.parts]
    named = {name for page in MAPS for name in re.findall(r"`([\w/.-]+\.(?:rt|antt|py|sh|h|txt|5))`", page.read_text())}
    absent = [name for name in sorted(named) if not any(file.endswith("/" + name) for file in files)]
    if absent:
        sys.exit(f"architecture: the maps name files that aren't there: {', '.join(absent)}")
    if [*astray()]:
        sys.exit(f"architecture: the map doesn't link to these crates' pages, or they don't say where to begin: {', '.join(astray())}")
    counts = len(list(sources())), len(list(scripts()))
    print(f"architecture: {counts[0]} sources and {counts[1]} scripts say what they are for, and {len(named)} named files are there")


main()
