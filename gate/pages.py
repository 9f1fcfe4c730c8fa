#!/usr/bin/env python3
"""Tests the pages: README and those of docs/ have no more words than a reader was promised; each link to a file or a section of one leads
there, also in the pages of crates; and each row of a table is one line with as many cells as the table's head.

    pages.py          tests
    pages.py words    prints how many words each page has, as `wc -w` counts them"""

import pathlib
import re
import sys

ROOT = pathlib.Path(__file__).resolve().parent.parent
MOST_OF_README = 1_900
MOST_OF_ALL = 17_500
LINK = re.compile(r"\[[^\]]*\]\(([^)\s]+)\)")


def counts():
    """The words of each page, README's first."""
    return {path: len(path.read_text(encoding="utf-8").split()) for path in [ROOT / "README.md", *sorted((ROOT / "docs").glob("*.md"))]}


def sections(path):
    """The names by which links lead to the sections of a page: small letters, hyphens for spaces, and no other marks."""
    fenced = re.sub(r"^```.*?^```", "", path.read_text(encoding="utf-8"), flags=re.M | re.S)
    for title in re.findall(r"^#+ (.*)$", fenced, re.M):
        yield re.sub(r"[^\w\- ]", "", title.lower()).replace(" ", "-")


def pages():
    return [page for place in ("*.md", "docs/*.md", "crates/*/*.md") for page in sorted(ROOT.glob(place))]


def wrong_rows():
    for page in pages():
        cells = None
        for number, line in enumerate(page.read_text(encoding="utf-8").splitlines(), 1):
            row = re.sub(r"`[^`]*`", "code", line.strip())
            if not row.startswith("|"):
                cells = None
                continue
            cells = cells or row.count("|")
            if not row.endswith("|") or row.count("|") != cells:
                yield f"{page.relative_to(ROOT)}:{number}: a row that is not one line, or has other cells than its head"


def wrong_links():
    for page in pages():
        for link in LINK.findall(page.read_text(encoding="utf-8")):
            name, _, section = link.partition("#")
            target = page.parent / name if name else page
            if "://" in link:
                continue
            if not target.exists() or section and section not in sections(target):
                yield f"{page.relative_to(ROOT)}: {link} leads nowhere"


def main():
    found = counts()
    if sys.argv[1:] == ["words"]:
        for path, words in found.items():
            print(f"{words:6} {path.relative_to(ROOT)}")
    wrong = [*wrong_links(), *wrong_rows()]
    first, total = found[ROOT / "README.md"], sum(found.values())
    if first > MOST_OF_README:
        wrong.append(f"README.md has {first} words, and may have {MOST_OF_README}")
    if total > MOST_OF_ALL:
        wrong.append(f"README.md and docs/ have {total} words, and may have {MOST_OF_ALL}")
    if wrong:
        print(*wrong, sep="\n")
        sys.exit(f"pages: {len(wrong)} mistakes")
    print(f"pages: {total} words of {MOST_OF_ALL}, and each link leads somewhere")


main()
