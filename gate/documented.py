#!/usr/bin/env python3
"""Tests that each definition that a public contract cites says what it means, by a comment above it in specs/ or by docs/DEFINITIONS.md,
that each public call says by a comment what it does, that docs/PROOFS.md names each of which no contract says more, that what both pages
name is there, and that no crate's README claims as proved what no contract says.

A public contract is that of a function that a crate hands out: a `pub fn` of its root, of a public module or of a type that the root names,
or a function of such a trait. The words of its clauses that are defined in a crate's specs/ are the names; which crate's is said by the
imports of its file. A call may also be named by its type alone, or by `all else of` its crate, where the page says so of all
its calls.

    documented.py definitions           prints each such definition with its meaning
    documented.py definitions NAME..    prints those of these names, whole, with the calls that cite them
    documented.py calls                 prints each public call with what it does
    documented.py calls NAME..          prints those of these names with their contracts"""

import collections
import pathlib
import re
import signal
import sys

ROOT = pathlib.Path(__file__).resolve().parent.parent
CRATES = ROOT / "crates"
SIGNATURE = re.compile(r"^(?:(?:abbrev|unfoldable|pub|record|data) )*([^\s:({]+)(?: .*)? : ", re.M)
# Records, also those whose parameters are in further lines, what they hold, and definitions inside a module.
MEMBER = re.compile(r"^ *(?:pub (?:record |data )?|abbrev pub )([^\s:({]+)", re.M)
FUNCTION = re.compile(r'^(\s*)(?:pub(?:\(crate\))? )?(?:const |unsafe |extern "C" )*fn (\w+)')
CLAUSE = re.compile(r"^\s*(?:requires|ensures)\b")
# What a README may claim without a contract.
SAFE = re.compile(r"nothing here|`main` is safe|that (?:the program|each call) is safe(?: and returns)?")
# What pages call by a name that is no definition of a crate here: a crate of the toolchain has it.
ELSEWHERE = {"Sha256.sha256", "sha2"}


def crates():
    """The crates of the program and of the C library, which aren't those of tests."""
    return [it for it in sorted(CRATES.iterdir()) if (it / "specs").is_dir()]


def definitions():
    """The names that specs/ define, each with its crate and file."""
    found = collections.defaultdict(set)
    for crate in crates():
        for file in (crate / "specs").rglob("*.antt"):
            text = file.read_text()
            for name in SIGNATURE.findall(text) + MEMBER.findall(text):
                found[name].add((crate.name, file.stem))
    return found


def cited(text):
    """The names of specs that a source imports, each with its crate and file."""
    found = {}
    for crate, file, names in re.findall(r"use Rattle\.(\w+)\.specs\.([\w.]+)\.\{(.*?)\}", text, re.S):
        for name in names.split(","):
            original, _, other = name.strip().partition(" as ")
            found[other or original] = crate, file.rsplit(".", 1)[-1], original
    return found


def handed_out(crate):
    """The names that a crate's root hands out, and the files of its public modules."""
    root = (crate / "src/lib.rt") if (crate / "src/lib.rt").exists() else crate / "src/main.rt"
    text = root.read_text()
    names = {name.strip().split(" as ")[-1] for listed in re.findall(r"^pub use [\w:]+::\{(.*?)\};", text, re.M | re.S)
             for name in listed.split(",")}
    names |= set(re.findall(r"^pub use [\w:]+::(\w+);", text, re.M))
    return root, names, set(re.findall(r"^pub mod (\w+);", text, re.M))


def calls():
    """The public calls: of each its crate, its name, with its type where it has one, its contract, the names that its file imports, and
    its comment."""
    for crate in crates():
        root, names, modules = handed_out(crate)
        for file in sorted((crate / "src").rglob("*.rt")):
            if "tests" in file.parts:
                continue
            text = file.read_text()
            imported, owner = cited(text), None
            lines = text.splitlines()
            for number, line in enumerate(lines):
                within = re.match(r"^(?:pub )?(?:(trait) |impl(?:<.*?>)? (?:[\w<>, ]+ for )?)(\w+)", line)
                owner = within if within else None if line.startswith("}") else owner
                function = FUNCTION.match(line)
                if not function:
                    continue
                is_method = function[1] != "" and owner
                is_public = line.lstrip().startswith("pub fn") or line.lstrip().startswith("pub extern") or bool(is_method and owner[1])
                place = owner[2] if is_method else None
                if not is_public or not (place in names if place else function[2] in names or file == root
                                         or file.stem in modules or 'extern "C"' in line):
                    continue
                call = f"{place}::{function[2]}" if place else function[2]
                yield crate.name, call, contract(lines, number, function[1]), imported, comment(lines, number)


def comment(lines, number):
    """The first paragraph of what is said above the function that begins in a line."""
    while lines[number - 1].lstrip().startswith("#["):
        number -= 1
    last = number
    while lines[number - 1].lstrip().startswith("///"):
        number -= 1
    said = [line.strip(" /") for line in lines[number:last]]
    return " ".join(said[:said.index("")] if "" in said else said)


def contract(lines, number, indent):
    """The clauses of the function that begins in a line."""
    found, inside = [], False
    for line in lines[number:]:
        inside = inside or CLAUSE.match(line) is not None
        if inside and (line.startswith(indent + "{") or line.rstrip() == indent + "}"):
            break
        if inside:
            found.append(line)
        elif line.rstrip().endswith(("{", ";")) and not line.rstrip().endswith("({"):
            break
    return "\n".join(found)


def cited_names():
    """The definitions that public contracts cite: by crate, file and name, the calls that cite each."""
    known = definitions()
    found = collections.defaultdict(list)
    for crate, call, text, imported, _ in calls():
        for word in set(re.findall(r"[\w'◌]+", text)):
            if word in imported and imported[word][2] in known and (imported[word][:2]) in known[imported[word][2]]:
                found[imported[word]].append(f"{crate} {call}")
    return found


def spans(text):
    return [span for span in re.findall(r"`([^`]+)`", text)]


def meaning(crate, file, name):
    """The comment above a definition, and its lines."""
    path = next((CRATES / crate / "specs").rglob(f"{file}.antt"))
    lines = path.read_text().splitlines()
    begin = next(number for number, line in enumerate(lines) if name in SIGNATURE.findall(line) + MEMBER.findall(line))
    first = begin
    while first and lines[first - 1].lstrip().startswith("--"):
        first -= 1
    last = next((number for number in range(begin, len(lines)) if not lines[number]), len(lines))
    return " ".join(line.strip(" -") for line in lines[first:begin]), lines[begin:last]


def show_definitions(names):
    for (crate, file, name), where in sorted(cited_names().items()):
        says, lines = meaning(crate, file, name)
        if names and name not in names:
            continue
        print(f"{crate} {file}.{name}: {says or 'docs/DEFINITIONS.md says it'}")
        if names:
            print(*lines, f"cited by {', '.join(where)}", sep="\n")


def missing_definitions():
    page = (ROOT / "docs/DEFINITIONS.md").read_text()
    words = {word for span in spans(page) for word in re.findall(r"[\w'◌]+", span)}
    modules = {span[:-2] for span in spans(page) if span.endswith(".*")}
    for (crate, file, name), where in sorted(cited_names().items()):
        if not meaning(crate, file, name)[0] and name not in words and file not in modules:
            yield f"neither a comment nor docs/DEFINITIONS.md says what {file}.{name} of {crate} is, which {where[0]} cites"
    known = definitions()
    files = {file for places in known.values() for _, file in places}
    for line in re.findall(r"^- (.*(?:\n  .*)*)", page, re.M):
        for span in spans(line.partition(": ")[0]):
            module, _, name = span.split(" ")[0].rpartition(".")
            there = module in files if name == "*" else any(not module or file == module for _, file in known.get(name, ()))
            if not there and span not in ELSEWHERE:
                yield f"docs/DEFINITIONS.md names {span}, which no crate defines"


def gone_calls(page, there):
    """What the heads of a crate's lines name, by a single word or a type's and a function's, and isn't there."""
    known = definitions().keys() | {word for crate in crates() for names in handed_out(crate)[1:] for word in names}
    for crate in crates():
        for file in (crate / "src").rglob("*.rt"):
            known |= {found[2] for found in map(FUNCTION.match, file.read_text().splitlines()) if found}
    for line in re.findall(r"^- (.*(?:\n  .*)*)", page[page.index("## Crate by crate"):], re.M):
        for span in spans(line.partition(": ")[0]):
            if re.fullmatch(r"[\w:]+", span) and span not in there and ("::" in span or span not in known):
                yield f"docs/PROOFS.md names {span}, which isn't there"


def show_calls(names):
    for crate, call, clauses, _, says in calls():
        if not names or call in names or call.rpartition("::")[2] in names:
            print(f"{crate} {call}: {says}")
            if names:
                print(clauses or "    no contract: only safety is proved")


def missing_calls():
    page = (ROOT / "docs/PROOFS.md").read_text()
    yield from gone_calls(page, {call for _, call, *_ in calls()})
    named = set(spans(page))
    whole = {crate for listed in re.findall(r"of all else of ((?:`\w+`(?:,| and)?\s+)+)", page) for crate in spans(listed)}
    for crate, call, clauses, _, says in calls():
        place, _, name = call.rpartition("::")
        if not says:
            yield f"{call} of {crate} has no comment that says what it does"
        if "ensures" not in clauses and crate not in whole and not named & {call, name, place}:
            yield f"docs/PROOFS.md doesn't have {call} of {crate}, which has no contract"


def claims():
    """What a crate's README claims to be proved beyond safety, where no contract of its sources says anything."""
    for readme in sorted(CRATES.glob("*/README.md")):
        sources = "".join(file.read_text() for file in (readme.parent / "src").rglob("*.rt"))
        claim = re.search(r"^Proved: (.*?)(?:\.\s|;|,|$)", readme.read_text(), re.M | re.S)
        has_contract = re.search(r"^\s*ensures\b", sources, re.M)
        if claim and not has_contract and not SAFE.fullmatch(" ".join(claim[1].split())):
            yield f"{readme.parent.name}'s README claims as proved what no contract says: {claim[1]}"


def main():
    # A reader of the lists may end early, as `head` does.
    signal.signal(signal.SIGPIPE, signal.SIG_DFL)
    if sys.argv[1:2] == ["definitions"]:
        show_definitions(sys.argv[2:])
        return
    if sys.argv[1:2] == ["calls"]:
        show_calls(sys.argv[2:])
        return
    found = [*missing_definitions(), *missing_calls(), *claims()]
    if found:
        print(*found, sep="\n")
        sys.exit(f"documented: {len(found)} things are missing, or aren't there")
    print(f"documented: {len(cited_names())} definitions of public contracts and {len(list(calls()))} public calls say what they are")


if __name__ == "__main__":
    main()
