#!/usr/bin/env python3
"""Copies what the packages' folder of pages has out of a tree of the sources, at the paths that it has there, so that links from page to
page lead there: pages.py TREE TO COMMIT. A link to what isn't packed loses its target, and each page ends with where its paths are."""

import os
import pathlib
import re
import shutil
import sys

PAGES = ("README.md", "CHANGELOG.md", "CONTRIBUTING.md", "docs/*.md")
# What pages have users run, copy or read.
FILES = ("deploy/*", "demo/**/*", "library/lrc.h", "library/examples/**/*", "tools/store.py", "tools/reference.py",
         "tools/lifetime.py", "docs/*.svg")
LINK = re.compile(r"\[([^\]]*)\]\(([^)\s]+)\)")
END = """
---

Packed from commit {commit}. {paths}
"""


def files_of(tree, patterns):
    """The files of a tree that these patterns name, relative to it."""
    return sorted({file.relative_to(tree) for it in patterns for file in tree.glob(it) if file.is_file()})


def is_packed(path, packed):
    """Whether a path, relative to the tree, is that of a packed file or of a folder with such a file."""
    return any(path == it or path in it.parents for it in packed)


def without_lost_links(text, page, packed):
    """A page's text, in which a link to a file that isn't packed is its words alone."""
    def link(found):
        words, target = found.groups()
        name = target.partition("#")[0]
        path = pathlib.Path(os.path.normpath(page.parent / name))
        return found[0] if not name or "://" in target or is_packed(path, packed) else words
    return LINK.sub(link, text)


def sources_named(text, tree, packed):
    """The folders at the top of the tree of which a text names paths that aren't packed, and the files there that it names."""
    tops = sorted(it.name for it in tree.iterdir() if it.is_dir())
    paths = re.findall(rf"(?<![\w/.-])((?:{'|'.join(map(re.escape, tops))})/[\w./*-]*)", text)
    named = {f"{it.partition('/')[0]}/" for it in paths if not is_packed(pathlib.Path(it.rstrip("./")), packed)}
    files = {it.name for it in tree.iterdir() if it.is_file()} - {str(it) for it in packed}
    return sorted(named) + sorted(it for it in files if re.search(rf"`{re.escape(it)}`", text))


def main():
    tree, to, commit = pathlib.Path(sys.argv[1]), pathlib.Path(sys.argv[2]), sys.argv[3]
    pages, files = files_of(tree, PAGES), files_of(tree, FILES)
    packed = [*pages, *files]
    for it in packed:
        (to / it).parent.mkdir(parents=True, exist_ok=True)
        shutil.copyfile(tree / it, to / it)
    for page in pages:
        text = without_lost_links((tree / page).read_text(encoding="utf-8"), page, packed)
        named = ", ".join(f"`{it}`" for it in sources_named(text, tree, packed))
        paths = f"What is named of {named} and isn't beside this page is in the sources." if named else ""
        (to / page).write_text(text.rstrip() + "\n" + END.format(commit=commit, paths=paths).rstrip() + "\n", encoding="utf-8")


main()
