"""Trees of folders that are laid, looked at and laid again: of each path what it is, its bytes and its rights."""

import os
import typing

FILE, FOLDER, LINK, OTHER = "file", "folder", "link", "other"


class Entry(typing.NamedTuple):
    """What is at a path: the bytes of a file, or where a link leads."""

    kind: str
    data: bytes = b""
    mode: int = 0

    def __str__(self):
        return f"a {self.kind} of {len(self.data)} bytes, {self.data[:60]}, with the rights {self.mode:o}"


def file(data, mode=0o644):
    return Entry(FILE, data, mode)


def folder(mode=0o755):
    return Entry(FOLDER, b"", mode)


def link(to):
    return Entry(LINK, os.fsencode(to), 0)


def with_folders(tree):
    """The tree with the folders that its paths need."""
    whole = dict(tree)
    for path in tree:
        while path := os.path.dirname(path):
            whole.setdefault(path, folder())
    return whole


def look(place):
    """The tree below a folder, whose links aren't followed."""
    tree, left = {}, [""]
    while left:
        below = left.pop()
        with os.scandir(f"{place}/{below}") as entries:
            for entry in entries:
                path, about = below + entry.name, entry.stat(follow_symlinks=False)
                if entry.is_symlink():
                    tree[path] = link(os.readlink(entry.path))
                elif entry.is_dir():
                    tree[path] = folder(about.st_mode & 0o7777)
                    left.append(f"{path}/")
                elif entry.is_file():
                    with open(entry.path, "rb") as opened:
                        tree[path] = file(opened.read(), about.st_mode & 0o7777)
                else:
                    tree[path] = Entry(OTHER, b"", about.st_mode & 0o7777)
    return tree


def change(place, found, wanted):
    """Makes the tree below a folder, which is known, another one."""
    for path in sorted(found, reverse=True):
        if found[path] != wanted.get(path):
            if found[path].kind != FOLDER:
                os.unlink(f"{place}/{path}")
            elif path not in wanted or wanted[path].kind != FOLDER:
                os.rmdir(f"{place}/{path}")
    for path in sorted(wanted):
        if found.get(path) != wanted[path]:
            make(f"{place}/{path}", wanted[path])


def make(path, entry):
    if entry.kind == LINK:
        os.symlink(entry.data, path)
    elif entry.kind == FOLDER:
        if not os.path.isdir(path):
            os.mkdir(path)
        os.chmod(path, entry.mode)
    elif entry.kind == FILE:
        opened = os.open(path, os.O_WRONLY | os.O_CREAT | os.O_EXCL, 0o600)
        os.write(opened, entry.data)
        os.fchmod(opened, entry.mode)
        os.close(opened)
    else:
        os.mkfifo(path)
        os.chmod(path, entry.mode)
