#!/usr/bin/env python3
"""Compares the messages of rebuild-store with those that its manual page explains: each one in DIAGNOSTICS is a text of the sources, and
each text of several words in the sources is there, but for those of help. What is filled in counts as equal.

    messages.py"""

import pathlib
import re
import sys

ROOT = pathlib.Path(__file__).resolve().parent.parent
PAGE = ROOT / "man/rebuild-store.1"
CRATES = ["folders", "rebuild_store", *sorted(it.name for it in (ROOT / "crates").glob("store_*") if not it.name.endswith("_tests"))]
# What says how far a command is has no message.
LEFT_OUT = {"progress.rt", "tasks.rt"}
# Texts that are filled into others, or that others take the place of before anything is said.
PARTS = {" (os error ", "can be made", "would be rebuilt", "standard output", "standard output: <>", "standard input", "Max file size",
         ", with --replace-damaged ", "; left without --replace-damaged: <>", "the survivors don't determine the fragment",
         "a run that isn't known", "a survivor can't be read: <>", "a rebuilt fragment can't be written: <>"}
# Texts of the standard library's errors; gate/store-refusals.py has a run say each.
OF_LIBRARY = {"unexpected end of file", "stream did not contain valid UTF-8", "entity already exists", "invalid input parameter"}
LITERAL = r'"((?:[^"\\]|\\[\s\S])*)"'
HELP = rf"(?:const \w*(?:HELP|ABOUT): &str =|\bhelp:)\s*{LITERAL}[;,]"


def plain(text):
    """A text of the sources with <> for what is filled in, or follows a colon at its end, and without what is before the message itself."""
    text = text.replace("{SUMS_NAME}", "SHA256SUMS").replace('\\"', '"').partition("\\n")[0].replace("{{", "\0").replace("}}", "\1")
    text = re.sub(r"\{[^{}]*\}|(?<=: )$", "<>", text)
    return without_beginning(text.replace("\0", "{").replace("\1", "}"))


def without_beginning(text):
    return re.sub(r"^(?:rebuild-store: |error: |<>: )+", "", text)


def texts():
    """The texts of the sources, without those of help."""
    for crate in CRATES:
        for file in sorted((ROOT / "crates" / crate / "src").rglob("*.rt")):
            if file.name not in LEFT_OUT:
                text = re.sub(HELP, "", re.sub(r"^\s*//.*$", "", file.read_text(encoding="utf-8"), flags=re.M))
                # A text that is filled into another one of its function.
                for name, part in re.findall(rf"let (\w+) = format!\(in alloc;\s*{LITERAL}\)\?;", text):
                    text = text.replace(f'"{part}"', '""').replace(f'"{{{name}}}', f'"{part}')
                yield from map(plain, re.findall(LITERAL, text))


def explained():
    """The messages in the page's DIAGNOSTICS."""
    section = PAGE.read_text(encoding="ascii").partition("\n.Sh DIAGNOSTICS\n")[2].partition("\n.Sh ")[0]
    for item in re.findall(r'^\.It Sy "(.*)"$', section, re.M):
        text = item.replace("\\(aq", "'").replace("\\-", "-").replace("\\e", "\\")
        yield without_beginning(re.sub(r"<[^<>]*>", "<>", text))


def main():
    known = {*texts(), *OF_LIBRARY}
    said = {it for it in known if re.search(r"[a-z]{2,}\W* \W*[a-z]{2,}", it.replace("<>", "")) and not it.startswith("{")}
    page = [*explained()]
    wrong = [f"the page has what no source says: {it}" for it in page if it not in known]
    wrong += [f"the page doesn't have: {it}" for it in sorted(said - set(page) - PARTS)]
    wrong += [f"no source has what is left out: {it}" for it in sorted(PARTS - known)]
    wrong += [f"the page has twice: {it}" for it in sorted(set(page)) if page.count(it) > 1]
    if wrong:
        print(*wrong, sep="\n")
        sys.exit(f"messages: {len(wrong)} mistakes")
    print(f"messages: the {len(page)} messages that the manual page explains are those of the sources")


main()
