"""Files and folders as the program sees them, and new ones that are whole and on their disk, or not there."""

from __future__ import annotations

import contextlib
import errno
import fcntl
import os
import pathlib
import shutil
import stat
import subprocess
import tempfile
from collections.abc import Iterable, Iterator

from .formats import Failed, Refused

UMASK = os.umask(0o077)
os.umask(UMASK)
# How the names of files begin that don't have their own name yet; what a killed run leaves is known by it.
UNNAMED = ".rebuild-lists."


def is_there(path: pathlib.Path) -> bool:
    """Whether the system finds something under a name. A link to nothing is nothing; a link that leads to itself is something."""
    try:
        os.stat(path)
    except FileNotFoundError:
        return False
    except OSError:
        return True
    return True


def kind_of(mode: int) -> str:
    """What a file is that isn't a regular one, by its mode."""
    kinds = {stat.S_IFDIR: "a folder", stat.S_IFIFO: "a FIFO", stat.S_IFSOCK: "a socket", stat.S_IFCHR: "a device",
             stat.S_IFBLK: "a device"}
    return kinds.get(stat.S_IFMT(mode), "of another kind")


def why_unreadable(path: pathlib.Path) -> str | None:
    """Why the program can't read what is under a name; None if it can, or if nothing is there."""
    try:
        mode = os.stat(path).st_mode
    except FileNotFoundError:
        return None
    except OSError as error:
        return f"can't be read ({error.strerror})"
    if not stat.S_ISREG(mode):
        return f"is {kind_of(mode)} and not a regular file"
    return None if os.access(path, os.R_OK) else "can't be read (Permission denied)"


def contents(path: pathlib.Path, most: int) -> bytes | None:
    """At most this many bytes of a regular file; None if it isn't one, or can't be read."""
    if why_unreadable(path):
        return None
    try:
        with open(path, "rb") as file:
            return file.read(most)
    except OSError:
        return None


def why_left_out(path: pathlib.Path, length: int) -> str | None:
    """Why the program leaves a survivor of this length out; None if it reads it."""
    why = why_unreadable(path)
    if why:
        return why
    try:
        size = os.stat(path).st_size
    except OSError:
        return "is a link to nothing" if os.path.islink(path) else "isn't there"
    return None if size == length else f"has {size} bytes and not {length}"


def said_of(error: OSError) -> str:
    """What a failed call says: the file, if it names one, and why."""
    name = f"{os.fsdecode(error.filename)}: " if isinstance(error.filename, (str, bytes, os.PathLike)) else ""
    return name + (error.strerror or str(error))


def same_bytes(path: pathlib.Path, other: pathlib.Path) -> bool:
    """Whether two files have the same bytes. They are read a piece at a time, since they may be long."""
    with open(path, "rb") as one, open(other, "rb") as two:
        while True:
            pieces = one.read(2**20), two.read(2**20)
            if pieces[0] != pieces[1]:
                return False
            if not pieces[0]:
                return True


def folder_named(name: str) -> pathlib.Path:
    """A folder that an argument names."""
    if not os.path.isdir(name):
        raise Refused(f"{name}: not a folder")
    return pathlib.Path(name)


def name_folder(part: pathlib.Path, path: pathlib.Path) -> bool:
    """Gives a whole folder its name when its files are on their disk, and answers whether it got it: not if the name is taken. It
    ends when the name is on the disk too."""
    os.chmod(part, 0o777 & ~UMASK)
    if subprocess.run(["sync", "-f", part], check=False).returncode:
        raise OSError(errno.EIO, "can't be brought to its disk", str(part))
    try:
        if os.path.lexists(path):
            return False
        os.rename(part, path)
    except OSError:
        if not os.path.lexists(path):
            raise
        return False
    sync_folder(path.parent)
    return True


@contextlib.contextmanager
def new_folder(name: str) -> Iterator[pathlib.Path]:
    """A new folder beside this name, which gets the name at the end, so that what has the name is whole. Its ending is random, so that
    what a killed run leaves is in nobody's way."""
    path = pathlib.Path(name)
    taken = Refused(f"{path}: already exists; not overwritten")
    if os.path.lexists(path):
        raise taken
    part = pathlib.Path(tempfile.mkdtemp(prefix=f"{path.name}.", dir=path.parent))
    try:
        yield part
        if not name_folder(part, path):
            raise taken
    except OSError as error:
        shutil.rmtree(part, ignore_errors=True)
        raise Failed(f"{path}: not made: {said_of(error)}") from None
    except BaseException:
        shutil.rmtree(part, ignore_errors=True)
        raise


def like(handle: int, other: os.stat_result | None) -> None:
    """Gives a new file the rights of another, and its owner and group as far as may be; without another those that new files have."""
    if other is None:
        os.fchmod(handle, 0o666 & ~UMASK)
        return
    for owner, group in (-1, other.st_gid), (other.st_uid, -1):
        # Only root may give files away.
        with contextlib.suppress(PermissionError):
            os.fchown(handle, owner, group)
    os.fchmod(handle, stat.S_IMODE(other.st_mode) & 0o777)


def write_whole(path: pathlib.Path, pieces: Iterable[bytes], overwrite: bool, other: os.stat_result | None = None) -> None:
    """Writes a file, with the owner and rights of another, that gets its name when it is on its disk. Without `overwrite` what came
    there meanwhile is not replaced: then it fails with FileExistsError."""
    handle, part = tempfile.mkstemp(prefix=UNNAMED, dir=path.parent)
    try:
        with open(handle, "wb") as file:
            file.writelines(pieces)
            file.flush()
            like(file.fileno(), other)
            os.fsync(file.fileno())
        if overwrite:
            os.replace(part, path)
        else:
            os.link(part, path)
    finally:
        with contextlib.suppress(FileNotFoundError):
            os.unlink(part)


def sync_folder(path: pathlib.Path) -> None:
    """Ends when the names of a folder's files are on its disk."""
    handle = os.open(path, os.O_RDONLY | os.O_DIRECTORY)
    try:
        os.fsync(handle)
    finally:
        os.close(handle)


@contextlib.contextmanager
def held_alone(path: pathlib.Path) -> Iterator[None]:
    """Keeps other runs from writing into a folder, and removes what killed ones left there. The hold ends with the process. A file
    system without locks is taken as it is."""
    handle = os.open(path, os.O_RDONLY | os.O_DIRECTORY)
    try:
        if has_lock(handle, path):
            for entry in os.scandir(path):
                if entry.name.startswith(UNNAMED):
                    with contextlib.suppress(OSError):
                        os.unlink(entry)
        yield
    finally:
        os.close(handle)


def has_lock(handle: int, path: pathlib.Path) -> bool:
    """Locks an open folder, and answers whether its file system has locks."""
    try:
        fcntl.flock(handle, fcntl.LOCK_EX | fcntl.LOCK_NB)
    except BlockingIOError:
        raise Refused(f"{path}: another run writes into it; try again when that has ended") from None
    except OSError:
        return False
    return True
