"""What is in a folder after a run, read once: its files' bytes, and what else a program can see of them; and which such states a command
was seen to make whole before."""

import hashlib
import os
import re

# What ends the name of an unfinished file: the number of the process that made it, which has ended, its host and digits at random, but for
# those that a script gives one.
OF_A_RUN = re.compile(r"-(?:[0-9]+@(.*)-)?(?!0123456789abcdef$)[0-9a-f]{16}$")


def plain(name):
    """A name without what is another in each run."""
    return OF_A_RUN.sub(r"-of-a-run-\1", name)


class Found:
    """The files of a folder by their names, but for that of one name: their bytes, and what else is known of them."""

    def __init__(self, folder, but=None):
        self.files, self.about = {}, {}
        for name in os.listdir(folder):
            if name == but:
                continue
            file = os.open(f"{folder}/{name}", os.O_RDONLY)
            try:
                self.about[name] = about = os.fstat(file)
                self.files[name] = os.read(file, about.st_size + 1)
            finally:
                os.close(file)

    def mode(self, name):
        return self.about[name].st_mode & 0o777

    def begins(self, start):
        """The names with this beginning."""
        return sorted(name for name in self.files if name.startswith(start))

    def state(self, *known):
        """All that is here as a text, which is another where anything but times and runs' parts of names is: names, bytes, modes, owners,
        and which names are of one file. Bytes that one of the `known` files by names has are told by its number, others by their digest."""
        lines = []
        for name, data in self.files.items():
            it, one = self.about[name], (name,)
            if it.st_nlink > 1:
                one = sorted(plain(other) for other, its in self.about.items() if (its.st_dev, its.st_ino) == (it.st_dev, it.st_ino))
            has = next((number for number, files in enumerate(known) if files.get(name) == data), None)
            has = hashlib.sha256(data).hexdigest() if has is None else has
            lines.append(f"{plain(name)}: {has} {it.st_mode:o} {it.st_uid} {it.st_gid} {it.st_nlink} {[*map(plain, one)]}")
        return "\n".join(sorted(lines))


class Known:
    """States of folders from which a command was seen to end as it should, so that it needn't be seen again. Processes share them: each is
    an empty file."""

    def __init__(self, folder):
        self.folder = folder
        folder.mkdir()

    def see(self, what, do):
        """Does this, where it wasn't done before with the same texts; where it raises it isn't known to end well."""
        text = "\0".join(what).encode(errors="surrogateescape")
        file = f"{self.folder}/{hashlib.sha256(text).hexdigest()}"
        if not os.path.exists(file):
            do()
            open(file, "wb").close()


def take_away(folder):
    """Removes a folder of files."""
    for name in os.listdir(folder):
        os.unlink(f"{folder}/{name}")
    os.rmdir(folder)
