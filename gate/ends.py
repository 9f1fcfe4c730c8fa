"""What is left, given back or removed where a command ends by itself, however it ends: what holds of each such run, commands that are
refused, and a table of mounts by which nothing is known of locks."""

import contextlib
import ctypes
import os
import re

import trees
from drawn import KEPT, STAGED, SUMS
from failed_runs import is_unfinished
from laws import LAST
from stores import Skipped, hold

DEVICE, NO_MEMORY = 3, 4
OTHER_CODES = {"6-2-2": "12-2-2", "12-2-2": "6-2-2"}
# What fail-call.c has another program make.
OTHER = b"m"
LOCK = ".rebuild-store-part-"
# Of unshare(2), mount(2) and umount2(2).
NEW_MOUNTS, PRIVATE, DETACH = 0x20000, 0x44000, 2


def called(name, *values):
    """Calls a function of the C library."""
    library = ctypes.CDLL(None, use_errno=True)
    if getattr(library, name)(*values):
        raise Skipped(f"{name}: {os.strerror(ctypes.get_errno())}")


@contextlib.contextmanager
def unknown(place):
    """A folder on a file system of which nothing is known about locks, which this process alone sees, and those that it starts."""
    if os.geteuid():
        raise Skipped("root alone mounts file systems")
    folder = place / "unknown"
    folder.mkdir()
    called("unshare", NEW_MOUNTS)
    called("mount", b"none", b"/", None, ctypes.c_ulong(PRIVATE), None)
    called("mount", b"ramfs", os.fsencode(folder), b"ramfs", ctypes.c_ulong(0), None)
    try:
        yield folder
    finally:
        called("umount2", os.fsencode(folder), DETACH)


def own_part(words):
    """The part of a store that a command works on, as the name of its lock says it."""
    return words[words.index("--part") + 1].replace("/", "-of-") if "--part" in words else "1-of-1"


# What has a command refused, or some of its files: each gives the words and the tree.


def as_drawn(_choose, _store, words, tree):
    return words, tree


def with_odd_digests(_choose, _store, words, tree):
    """The list of digests isn't one."""
    return words, tree | ({f"store/{SUMS}": trees.file(b"no digests\n")} if "store" in tree else {})


def without_fragments(_choose, _store, words, tree):
    """Nothing of the files is there."""
    return words, {path: entry for path, entry in tree.items() if not path.startswith("store/")}


def with_another_code(_choose, store, words, tree):
    """The code is another one than that of the store's files."""
    words = words[:]
    if "--code" in words:
        words[words.index("--code") + 1] = OTHER_CODES[store.code]
    elif words[0] not in ("read", "verify"):
        words[1:1] = ["--code", OTHER_CODES[store.code]]
    return words, tree


def where_others_write(_choose, _store, words, tree):
    """Others may write into the store, so that root doesn't."""
    return words, tree | {"store": trees.folder(0o777)}


def with_absent_names(_choose, _store, words, tree):
    """What names the stripes isn't there."""
    if words[0] in ("repair", "scrub", "lost", "list") and "--stripes" not in words:
        return [words[0], "--stripes", "PLACE/absent", *words[1:]], tree
    return words, tree


def with_report_in_store(choose, store, words, tree):
    """A report is to be written over a file of the store."""
    there = sorted(name for name in store.right if tree.get(f"store/{name}", trees.folder()).kind == trees.FILE)
    if words[0] in ("repair", "scrub") and "--report" not in words and there:
        return [words[0], "--report", f"PLACE/store/{choose.choice(there)}", *words[1:]], tree
    return words, tree


def with_other_names(_choose, _store, words, tree):
    """Files that aren't there are asked for besides."""
    return [*words, *(["nothing"] if words[0] in ("remove", "verify") else [])], tree


def where_a_part_is_locked(_choose, _store, words, tree):
    """A run of another host may work on a part of three."""
    return words, tree | ({f"store/{LOCK}2-of-3": trees.file(b"4711@beta\n", 0o644)} if "store" in tree else {})


def where_others_are_kept(_choose, store, words, tree):
    """Beside what is damaged an earlier fragment is kept."""
    wrong = [f"store/{name}" for name, data in store.right.items() if tree.get(f"store/{name}", trees.file(data)).data != data]
    kept = {path + KEPT: trees.file(b"kept") for path in wrong if tree[path].kind == trees.FILE}
    more = ["--replace-damaged"] if words[0] == "repair" and "--replace-damaged" not in words else []
    return [words[0], *more, *words[1:]], tree | kept


def where_a_lock_is_left(choose, _store, words, tree):
    """A run of the same part was killed."""
    root = "to" if "--to" in words else "store"
    run = f"99999999@{re.sub('[^A-Za-z0-9._-]', '_', os.uname().nodename)}\n".encode()
    return words, tree | ({f"{root}/{LOCK}{own_part(words)}": trees.file(choose.choice((b"", run, run)))} if root in tree else {})


WAYS = [as_drawn, as_drawn, where_others_are_kept, with_odd_digests, without_fragments, with_another_code, where_others_write,
        with_absent_names, with_report_in_store, with_other_names, where_a_part_is_locked, where_a_lock_is_left]


# What holds.


class Ends:
    """A run over a tree that ended by itself, after which nothing of its own is left but what couldn't be removed."""

    def __init__(self, trial, ran, found, what, failed=None):
        self.trial, self.ran, self.found, self.what, self.failed = trial, ran, found, what, failed

    def hold(self, holds, what):
        hold(holds, f"{what}: {' '.join(self.trial.words)!r}: {self.what}: {self.ran.text()}")

    def judge(self):
        self.hold(0 <= self.ran.status <= NO_MEMORY, "it didn't end by itself")
        came = {path for path in self.found.keys() - self.trial.before.keys() if self.found[path].data != OTHER}
        for path in sorted(path for path in came if is_unfinished(path)):
            if self.ran.status == NO_MEMORY and LOCK not in path:
                # It is as after a kill.
                continue
            self.hold(self.failed and self.is_met(path), f"{path} is left")
            self.hold_named(path)
        staged = sorted(path for path in came if STAGED in path and not is_unfinished(path))
        if staged and self.ran.status != NO_MEMORY:
            is_met = self.failed and self.failed.kind in ("unlink", "rmdir", "rename", "look") and STAGED in "".join(self.failed.paths)
            self.hold(self.ran.status, f"{staged} are left")
            self.hold(is_met or self.are_to_replace(), f"{staged} are left, and aren't all of a file")
        self.hold_refusal()
        if self.ran.status != NO_MEMORY:
            self.hold_own_lock()

    def is_met(self, path):
        """Whether what removes the file of a path failed: of a lock it is seen first whether it is the run's own, which it isn't if it
        can't be locked."""
        failed, name = self.failed, os.path.basename(path)
        kinds = {"unlink", "look", "lock"} if LOCK in path else {"unlink"}
        names = [os.path.basename(other) for other in failed.paths]
        if failed.kind == "look" and not failed.rest and not self.is_given_back():
            return False
        return failed.kind in kinds and (name in names or failed.rest == "kind" or LOCK not in path and failed.rest != "")

    def hold_named(self, path):
        """What is left is named, or of a lock the store."""
        lines = [line for line in self.failed.lines if self.failed.error in line]
        # An unfinished file is named by the name that it was to get.
        names = [os.path.basename(path), f"{self.trial.place}/store"] if LOCK in path else [""]
        is_named = any(name in line for name in names for line in lines) and self.ran.status == DEVICE
        # If the store is refused that alone is said.
        self.hold(is_named or LOCK in path and self.is_refused(), f"{path} is left, and no line names it")

    def is_refused(self):
        """Whether the command ends before it works, also if no call fails."""
        ended, last = self.trial.ended, LAST[self.trial.words[0]]
        has_last = "--quiet" not in self.trial.words and (last.search(ended.out) or last.search(ended.err))
        return ended.status != 0 and not has_last

    def are_to_replace(self):
        """Whether each file that is to replace another one is there, whole, under the names that it is to get or those that it has before,
        so that the next run ends what was begun."""
        store, new = self.trial.drawn, self.trial.drawn.newest
        staged = {name: [f"store/{path}" for path in store.files_of(name + STAGED, b"")] for name in store.sources.values()}
        begun = [name for name, paths in staged.items() if self.found.keys() & set(paths)]
        pairs = [(store.path(name, place), store.path(name + STAGED, place)) for name in begun for place in store.order]
        copies = {name: [path for of in (name, name + STAGED) for path in store.descriptions(of)] for name in begun}
        are_described = all(any(self.data_at(path) == new[path] for path in copies[name]) for name in begun)
        return are_described and all(new[own] in (self.data_at(own), self.data_at(other)) for own, other in pairs)

    def data_at(self, name):
        entry = self.found.get(f"store/{name}")
        return entry.data if entry else None

    def hold_refusal(self):
        """Why a command is refused is said also where its lock can't be given back."""
        failed, words = self.failed, self.trial.words
        if not failed or failed.kind not in ("unlink", "look") or LOCK not in failed.paths[-1]:
            return
        if failed.paths[-1] not in self.trial.before and self.is_refused() and "--quiet" not in words:
            lacks = set(self.trial.ended.err.splitlines()) - set(failed.lines)
            self.hold(not lacks or not self.is_given_back(), f"{lacks} isn't said")

    def is_given_back(self):
        """Whether a call fails after the store was listed: a lock is looked at when it is made, before that, and when it is given back."""
        kinds = self.trial.ended.kinds[:self.failed.number - 1]
        return "create" in kinds and "list" in kinds[kinds.index("create"):]

    def own_lock(self):
        """The path of the file that is a run's lock, if it has one."""
        words, root = self.trial.words, "to" if "--to" in self.trial.words else "store"
        is_unknown = "unknown" in self.trial.place.parts
        if words[0] not in ("repair", "encode", "remove") or "--dry-run" in words or "--part" not in words and not is_unknown:
            return None
        return f"{root}/{LOCK}{own_part(words)}"

    def hold_own_lock(self):
        """A run takes away the file of its lock, also one that a run has left there which was killed."""
        path, failed = self.own_lock(), self.failed
        if path is None or " may work in this store" in self.ran.err:
            return
        is_met = failed and os.path.basename(path) in map(os.path.basename, failed.paths) and (failed.kind != "write" or failed.rest)
        # It isn't taken if the folder can't be.
        is_early = failed and "create" not in self.trial.ended.kinds[:failed.number - 1]
        self.hold(path not in self.found or is_met or is_early or failed and failed.rest == "kind", f"{path} is left")
