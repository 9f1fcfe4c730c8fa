#!/usr/bin/env python3
"""Tests the pages that packages have: each link of one leads to a file, or to a section of it, that is packed with it, and each file of the
sources that it names is packed beside it, or the page says at its end that it is in the sources.

    packaged-pages.py FOLDER    the folder of README.md"""

import pathlib
import re
import subprocess
import sys

ROOT = pathlib.Path(__file__).resolve().parent.parent
LINK = re.compile(r"\[[^\]]*\]\(([^)\s]+)\)")
WORD = re.compile(r"(?<![\w./*-])[\w.][\w.*-]*(?:/[\w.*-]+)+/?")


def sections(page):
    for title in re.findall(r"^#+ (.*)$", page.read_text(encoding="utf-8"), re.M):
        yield re.sub(r"[^\w\- ]", "", title.lower()).replace(" ", "-")


def wrong_links(page):
    for link in LINK.findall(page.read_text(encoding="utf-8")):
        name, _, section = link.partition("#")
        target = page.parent / name if name else page
        if "://" not in link and (not target.is_file() or section and section not in sections(target)):
            yield f"{link} leads nowhere"


def wrong_names(page, folder, sources):
    """The names of files or folders of the sources that are neither beside the page nor below a folder that its end names."""
    text, _, end = page.read_text(encoding="utf-8").rpartition("\n---\n")
    excused = re.findall(r"`([^`]+)`", end)
    for name in sorted({it.rstrip("./") for it in WORD.findall(text)}):
        plain = name.partition("*")[0].rstrip("/")
        is_source = any(it == plain or it.startswith(plain + "/") for it in sources)
        if is_source and not (folder / plain).exists() and f"{plain.partition('/')[0]}/" not in excused:
            yield f"{name} is neither packed nor said to be in the sources"


def main():
    folder = pathlib.Path(sys.argv[1])
    sources = subprocess.run(["git", "ls-files"], cwd=ROOT, check=True, capture_output=True, text=True).stdout.splitlines()
    pages = sorted(folder.rglob("*.md"))
    wrong = [f"{page.relative_to(folder)}: {it}" for page in pages for it in [*wrong_links(page), *wrong_names(page, folder, sources)]]
    if wrong or folder / "README.md" not in pages or len(pages) < 5:
        sys.exit("\n".join([*wrong, f"packaged-pages: {len(wrong)} mistakes on {len(pages)} pages"]))


main()
