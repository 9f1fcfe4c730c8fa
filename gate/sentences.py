#!/usr/bin/env python3
"""Tests the sentences of the pages: README, CONTRIBUTING, CHANGELOG, docs/, the crates' pages and the manual pages have none of the
constructions below, each of which made readers go back in a sentence, and none of more words than can be read once.

    sentences.py          tests
    sentences.py rules    prints the constructions, each with what is written in its place"""

import pathlib
import re
import sys

ROOT = pathlib.Path(__file__).resolve().parent.parent
PAGES = ("README.md", "CONTRIBUTING.md", "CHANGELOG.md", "docs/*.md", "crates/*/README.md", "man/*")
# The most words between two stops, which a semicolon and a colon are too.
MOST_WORDS = 60
# Each construction, what is written in its place, and how it is found in text without quoted code.
RULES = [
    ("'Where' for a condition", "'If'", r"(?:^|(?<=[.;:!?|] ))Where\b"),
    ("'where' for a condition", "'if'", r"\b(?:exactly|only|also|none|not) where\b|; where (?:it|two|files)\b"
     r"|\bwhere (?:there (?:is|are|was|were)|no\b|it (?:has|can)\b|memory|a thread)"),
    ("'of' for 'about'", "'about'", r"\b(?:sa(?:y|ys|id|ying)|speaks?|spoken|known?|shows?) (?:\w+thing |more |less |little )?of\b"),
    ("a clause for a default", "'(default)'", r"\bwhich (?:it is|they are) (?:without|unless|if)\b"),
    ("a word for what was named before", "the name again", r"\bthe (?:former|latter)\b"),
    ("a figure of speech", "the plain word", r"\b(?:tells?|told|stands?(?!-)|stood|behind|in front of|want of|by heart|beneath)\b"),
    ("an error's number", "the error's words", r"\(os error"),
]


def prose_of_page(text):
    """The text of a page in Markdown by its lines: without blocks of code, quoted words and where links lead."""
    is_fenced = False
    for line in text.splitlines():
        if line.startswith("```"):
            is_fenced = not is_fenced
        elif not is_fenced and not line.startswith("    "):
            yield re.sub(r"\]\([^)]*\)", "]", re.sub(r"`[^`]*`", "code", line))
            continue
        yield ""


def prose_of_manual(text):
    """The text of a manual page by its lines: without examples, and without the lines of macros, whose words are names."""
    is_example = False
    for line in text.splitlines():
        if line.startswith((".Bd", ".Ed")):
            is_example = line.startswith(".Bd")
        yield "" if line.startswith(".") or is_example else line


def sentences(lines):
    """The sentences of a page's lines, each with the number of its first line. A list's item, a row's cell and a heading are sentences."""
    words, first = [], 1
    for number, line in enumerate([*lines, ""], 1):
        text = line.strip()
        if not text or re.match(r"[-*|#]|\d+\. ", text):
            yield first, " ".join(words)
            words, first = [], number
        for piece in re.split(r"(?<=[.;:!?])\s+|\s*\|\s*", text):
            words += piece.split()
            if re.search(r"[.;:!?]$", piece) or "|" in text:
                yield first, " ".join(words)
                words, first = [], number
    yield first, " ".join(words)


def mistakes():
    for path in [path for place in PAGES for path in sorted(ROOT.glob(place))]:
        text, name = path.read_text(encoding="utf-8"), path.relative_to(ROOT)
        is_manual = path.suffix in (".1", ".5")
        lines = [*(prose_of_manual(text) if is_manual else prose_of_page(text))]
        for number, line in enumerate(lines, 1):
            for what, instead, pattern in RULES:
                for found in [] if line.startswith("#") else re.findall(pattern, line.lstrip("-*| ")):
                    yield f"{name}:{number}: '{found}': {what}; write {instead}"
        for number, sentence in [] if is_manual else sentences(lines):
            if len(sentence.split()) > MOST_WORDS:
                yield f"{name}:{number}: {len(sentence.split())} words without a stop: {' '.join(sentence.split()[:8])} .."


def main():
    if sys.argv[1:] == ["rules"]:
        for what, instead, _ in RULES:
            print(f"{what}: write {instead}")
        print(f"more than {MOST_WORDS} words without a stop: write two sentences")
        return
    found = [*mistakes()]
    if found:
        print(*found, sep="\n")
        sys.exit(f"sentences: {len(found)} mistakes")
    print(f"sentences: none of {len(RULES)} constructions, and no sentence of more than {MOST_WORDS} words")


main()
