#!/usr/bin/env python3
"""Reads edits and makes them: files with lines `file:`, `old:` and `new:`, each text in one line and once in its file.

    edits.py EDIT..              tests that the texts of these edits are there
    edits.py make EDIT FOLDER    makes an edit of files below this folder"""

import pathlib
import sys


def texts_of(edit, folder):
    """The texts of the files that an edit changes, by their paths below a folder: each as it is, and as it becomes."""
    texts, path, old = {}, None, None
    for line in edit.read_text(encoding="utf-8").splitlines():
        key, _, value = line.partition(": ")
        if key == "file":
            path = folder / value
            if path not in texts:
                text = path.read_text(encoding="utf-8")
                texts[path] = [text, text]
        elif key == "old":
            old = value
        elif key == "new" or line == "new:":
            count = texts[path][1].count(old)
            if count != 1:
                sys.exit(f"{edit}: its old text is in {path} {count} times: {old}")
            texts[path][1] = texts[path][1].replace(old, value)
    return texts


def edited(edit, folder):
    """Makes an edit below a folder, and gives the texts that were there."""
    texts = texts_of(edit, folder)
    for path, (_, after) in texts.items():
        path.write_text(after, encoding="utf-8")
    return {path: before for path, (before, _) in texts.items()}


def folder_of(edit):
    """The folder below which an edit's files are: that of its crate, or for those of the header and the companion the repository's."""
    crate = edit.parent.parent
    return crate if crate.parent.name == "crates" else crate.parent


def main():
    if sys.argv[1:2] == ["make"]:
        edited(pathlib.Path(sys.argv[2]), pathlib.Path(sys.argv[3]))
        return
    for name in sys.argv[1:]:
        edit = pathlib.Path(name).resolve()
        texts_of(edit, folder_of(edit))


if __name__ == "__main__":
    main()
