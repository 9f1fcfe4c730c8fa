#!/usr/bin/env python3
"""Names what nothing uses: lemmas and definitions of crates/*/specs and crates/*/proofs, and `pub(crate)` items of crates/*/src that no
other file names; each cycle of imports among the files of a crate's src; and each line, and each file of a crate's src, that is too long.

The answers to a function's goals and its invariants are used by the prover and not named. Imports are those that `rt tidy` has left, so a
name that is imported is used."""

import collections
import pathlib
import re
import sys

ROOT = pathlib.Path(__file__).resolve().parent.parent
CRATES = ROOT / "crates"
SIGNATURE = re.compile(r"^(?:(?:abbrev|unfoldable|pub|record|data) )*([^\s:({]+)(?: .*)? : ")
# Of a line, but for rows of tables.
MOST_CHARACTERS = 140
# The endings of files that people write. `out` has what is built.
WRITTEN = {".antt", ".c", ".cc", ".go", ".h", ".md", ".py", ".rs", ".rt", ".sh", ".yaml"}
# Files of tests may have more.
MOST_LINES = 400
ITEM = re.compile(r"^\s*pub\(crate\) (?:fn|struct|enum|trait|type|const|static|mod) (\w+)", re.M)
# Lines of a block that define no name.
DIRECTIVES = {"module", "where"}
# What is used by a form of the language that doesn't name it: `do`.
UNNAMED = {"◌>>=◌"}
# Files whose names the prover uses and no text.
OF_THE_PROVER = {"Answers.antt", "Invariants.antt", "Lib.antt", "Proof.antt"}


def is_left_out(path):
    return "out" in path.relative_to(CRATES).parts


def logic_files():
    return [it for it in sorted(CRATES.glob("*/specs/**/*.antt")) + sorted(CRATES.glob("*/proofs/**/*.antt")) if not is_left_out(it)]


def sources(crate):
    return [it for it in sorted((crate / "src").rglob("*.rt"))]


def module_of(file):
    below = file.relative_to(CRATES)
    return ".".join(("Rattle", *below.with_suffix("").parts))


def imports(text):
    """The names that a text imports, each with its module."""
    found = set()
    for module, names in re.findall(r"^\s*(?:pub )?(?:ghost )?use (Rattle\.[\w.+◌-]+)\.\{(.*?)\}", text, re.M | re.S):
        found |= {(module, name.split(" as ")[0].strip()) for name in names.split(",")}
    return found


def blocks(text):
    """The definitions of a text: each name with all that is written under it."""
    found, name = collections.defaultdict(list), None
    for line in text.splitlines():
        if line[:1] not in ("", " ", "-") and not line.startswith(("use ", "pub use ", "pub mod ", "mod ")):
            signature = SIGNATURE.match(line)
            name = signature[1] if signature else name
        if name:
            found[name].append(line)
    return {name: "\n".join(lines) for name, lines in found.items()}


def is_named(name, text):
    if "◌" in name:
        return all(part in text for part in name.split("◌") if part)
    return re.search(rf"(?<![\w'-]){re.escape(name)}(?![\w'-])", text) is not None


def unused_lemmas():
    texts = {file: file.read_text() for file in logic_files()}
    programs = {file: file.read_text() for crate in CRATES.iterdir() for file in sources(crate)}
    imported = set()
    for text in [*texts.values(), *programs.values()]:
        imported |= imports(text)
    for file, text in texts.items():
        if file.name in OF_THE_PROVER:
            continue
        module, parts = module_of(file), blocks(text)
        for name, own in parts.items():
            if name in DIRECTIVES | UNNAMED or (module, name) in imported:
                continue
            others = "\n".join(part for other, part in parts.items() if other != name)
            if not is_named(name, others):
                yield f"{file.relative_to(ROOT)}: nothing uses {name}"


def unused_items():
    for crate in sorted(CRATES.iterdir()):
        texts = {file: file.read_text() for file in sources(crate)}
        for file, text in texts.items():
            for name in ITEM.findall(text):
                # A type may be public since another public item of its file names it.
                if name[0].isupper() and re.search(rf"pub\(crate\) .*[^\w]{name}\b", re.sub(rf"pub\(crate\) \w+ {name}\b", "", text)):
                    continue
                if not any(is_named(name, other) for path, other in texts.items() if path != file):
                    yield f"{file.relative_to(ROOT)}: no other file uses the pub(crate) item {name}"


def file_of(crate, words):
    """The file of a path of modules below a crate, by its longest part that is a file."""
    for count in range(len(words), 0, -1):
        file = crate / "src" / ("/".join(words[:count]) + ".rt")
        if file.is_file():
            return file
    return None


def cycles():
    for crate in sorted(CRATES.iterdir()):
        graph = {}
        for file in sources(crate):
            used = {file_of(crate, path.split("::")) for path in re.findall(r"(?:use |[^\w:])crate::([\w:]+)", file.read_text())}
            graph[file] = {it for it in used if it and it != file}
        for one in graph:
            for two in graph[one]:
                if one in graph.get(two, ()) and one < two:
                    names = [str(it.relative_to(crate / "src")) for it in (one, two)]
                    yield f"crates/{crate.name}/src: {names[0]} and {names[1]} import each other"


def long_texts():
    for file in sorted(it for it in ROOT.rglob("*.*") if it.suffix in WRITTEN and not {"out", ".git"} & set(it.relative_to(ROOT).parts)):
        for number, line in enumerate(file.read_text().splitlines(), 1):
            if len(line) > MOST_CHARACTERS and not line.startswith("|"):
                yield f"{file.relative_to(ROOT)}:{number}: a line of {len(line)} characters"
    for crate in sorted(CRATES.iterdir()):
        for file in sources(crate):
            lines = len(file.read_text().splitlines())
            if lines > MOST_LINES and not is_of_tests(file):
                yield f"{file.relative_to(ROOT)}: {lines} lines"


def is_of_tests(file):
    return "tests" in file.parts or "_tests/" in str(file)


def main():
    found = [*unused_lemmas(), *unused_items(), *cycles(), *long_texts()]
    print(*found, sep="\n")
    if found:
        sys.exit(f"sweep: {len(found)} things to take away")
    print("sweep: all that is named is used, and no files import each other, and no line or file is too long")


main()
