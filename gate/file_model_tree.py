"""Files below a folder as a script holds them in memory: they are laid on the disk, changed as a command should change them, and compared
with what the disk has then. What the system says of a path is worked out here, links and all."""

import os
import stat

ABSENT, NO_FOLDER, LOOP, LONG = "No such file or directory", "Not a directory", "Too many levels of symbolic links", "File name too long"
MOST_LINKS, MOST_LETTERS = 40, 255
MINE = (os.geteuid(), os.getegid())


class System(Exception):
    """What the system refuses, in its words."""

    def __init__(self, words):
        super().__init__(words)
        self.words = words
        self.is_absent = words in (ABSENT, NO_FOLDER, LONG)


class File:
    """A regular file; two paths that have the same object are two names of one file."""

    def __init__(self, data, mode=0o640, owner=MINE):
        self.data, self.mode, self.owner = data, mode, owner


class Folder:
    def __init__(self, mode=0o755, owner=MINE):
        self.mode, self.owner = mode, owner


class Link:
    def __init__(self, to):
        self.to = to


class Fifo:
    pass


def above(path):
    return path.rpartition("/")[0]


def below(folder, name):
    return f"{folder}/{name}" if folder else name


class Tree:
    """What is below a folder, by the paths from it. The folder's own path has no letters."""

    def __init__(self, place):
        self.place, self.at = str(place), {"": Folder()}

    def real(self, path, follows):
        """The path without links that a path leads to, at which something is or could be made."""
        path = path.removeprefix(self.place + "/")
        if path in self.at and not (follows and isinstance(self.at[path], Link)):
            return path
        todo, here, links = path.split("/")[::-1], "", 0
        while todo:
            part = todo.pop()
            if not isinstance(self.at[here], Folder):
                raise System(NO_FOLDER)
            if part in ("", "."):
                continue
            if len(os.fsencode(part)) > MOST_LETTERS:
                raise System(LONG)
            # What is above the tree isn't known; nothing that is asked for is there.
            if part == ".." and not here:
                raise System(ABSENT)
            following = above(here) if part == ".." else below(here, part)
            node = self.at.get(following)
            if isinstance(node, Link) and (todo or follows):
                links += 1
                if links > MOST_LINKS:
                    raise System(LOOP)
                is_whole = node.to.startswith(self.place + "/")
                here = "" if is_whole else here
                todo += (node.to.removeprefix(self.place + "/") if is_whole else node.to).split("/")[::-1]
                continue
            if node is None and todo:
                raise System(ABSENT)
            if node is None:
                return following
            here = following
        return here

    def look(self, path, follows=False):
        """What is at a path: a link itself, unless it is followed."""
        node = self.at.get(self.real(path, follows))
        if node is None:
            raise System(ABSENT)
        return node

    def is_there(self, path):
        try:
            return self.look(path) is not None
        except System as refused:
            if refused.is_absent:
                return False
            raise

    def names(self, path):
        """The names in a folder, sorted, though the system gives them in any order."""
        folder = self.real(path, True)
        begin = folder + "/" if folder else ""
        return sorted(it[len(begin):] for it in self.at if it and it.startswith(begin) and "/" not in it[len(begin):])

    def put(self, path, node):
        """Puts something at a path, in place of what is there."""
        real = self.real(path, False)
        if not isinstance(self.at[above(real)], Folder):
            raise System(NO_FOLDER)
        self.at[real] = node

    def take(self, path):
        """Takes away what is at a path, with all that is below it."""
        real = self.real(path, False)
        for it in [it for it in self.at if it == real or it.startswith(real + "/")]:
            del self.at[it]

    def make_folders(self, path):
        """Makes a folder, and those above it, as far as they aren't there and can be made."""
        parts = path.split("/")
        for count in range(1, len(parts) + 1):
            if not self.is_there("/".join(parts[:count])):
                self.put_where_possible("/".join(parts[:count]), Folder())

    def put_where_possible(self, path, node):
        """Puts something at a path, if its folder is there."""
        try:
            self.put(path, node)
        except System:
            pass

    def lay(self):
        """Makes all of it on the disk."""
        made = {}
        for path in sorted(self.at):
            node, whole = self.at[path], os.path.join(self.place, path)
            if id(node) in made:
                os.link(made[id(node)], whole)
            elif isinstance(node, Folder):
                os.makedirs(whole, exist_ok=True)
            elif isinstance(node, Link):
                os.symlink(node.to, whole)
            elif isinstance(node, Fifo):
                os.mkfifo(whole)
            else:
                with open(whole, "wb") as file:
                    file.write(node.data)
                made[id(node)] = whole
            if isinstance(node, (File, Folder)) and path:
                if node.owner != MINE:
                    os.chown(whole, *node.owner)
                os.chmod(whole, node.mode)

    def shown(self):
        """All of it in a form that can be compared."""
        return {path: shown(node) for path, node in self.at.items() if path}


def shown(node):
    if isinstance(node, File):
        return ("file", node.data, f"{node.mode:o}", node.owner)
    if isinstance(node, Folder):
        return ("folder", f"{node.mode:o}", node.owner)
    return ("link", node.to) if isinstance(node, Link) else ("FIFO",)


def seen(place):
    """What the disk has below a folder, in the form that `shown` gives."""
    found, left = {}, [""]
    while left:
        inside = left.pop()
        with os.scandir(os.path.join(place, inside)) as entries:
            for entry in entries:
                path, there = below(inside, entry.name), entry.stat(follow_symlinks=False)
                if entry.is_symlink():
                    found[path] = ("link", os.readlink(entry.path))
                elif stat.S_ISDIR(there.st_mode):
                    found[path] = ("folder", f"{stat.S_IMODE(there.st_mode):o}", (there.st_uid, there.st_gid))
                    left.append(path)
                elif stat.S_ISREG(there.st_mode):
                    with open(entry.path, "rb") as file:
                        found[path] = ("file", file.read(), f"{stat.S_IMODE(there.st_mode):o}", (there.st_uid, there.st_gid))
                else:
                    found[path] = ("FIFO",)
    return found


def difference(wanted, found):
    """What differs between two such forms, in some lines."""
    lines = []
    for path in sorted({*wanted, *found}):
        if wanted.get(path) != found.get(path):
            lines.append(f"{path!r}: should be {brief(wanted.get(path))}, and is {brief(found.get(path))}")
    return "\n".join(lines[:12])


def brief(form):
    if form is None:
        return "nothing"
    return " ".join(f"{len(it)} bytes {it[:100]!r}" if isinstance(it, bytes) else str(it) for it in form)
