#!/usr/bin/env python3
"""Tries rebuild-store where one allocation after the other is refused, in states in which a run decides what becomes of files: each run
that doesn't say that memory is out has to do what the same run does with all of its memory.

    store-file-allocations.py [PROGRAM [TEST]]
"""

import os
import shutil
import stat
import sys

# No compiled copy of the modules is left beside them.
sys.dont_write_bytecode = True
import refusals  # noqa: E402
from stores import STAGED, Program, begin, description, hold, run, source, there, try_all, write_sums  # noqa: E402

NO_MEMORY = 4
DISKS = ("--names", "disk{shard}/{stripe}", "--code", "6-2-2")


def found(store):
    """The rights and the bytes of the files in a store, and its folders."""
    paths = {str(path.relative_to(store)): path for path in store.rglob("*")}
    return {name: (stat.S_IMODE(path.stat().st_mode), b"" if path.is_dir() else path.read_bytes()) for name, path in paths.items()}


class Refused:
    """Runs of a command over copies of a store, each of which is refused an allocation."""

    def __init__(self, place, kept):
        self.library, self.kept, self.store = refusals.Library(place, forks=True), kept, place / "store"
        self.before = found(kept)

    def one(self, words, number=0):
        if not self.store.exists() or found(self.store) != self.before:
            shutil.rmtree(self.store, ignore_errors=True)
            shutil.copytree(self.kept, self.store, symlinks=True)
        words = [self.store if word == "STORE" else word for word in words]
        return self.library.run([Program.path, *words], refusal=refusals.Refusal(allocation=number))

    def is_changed(self, words, number):
        """Whether a run has changed the store that was refused this allocation."""
        self.one(words, number)
        return found(self.store) != self.before

    def first_change(self, words, many):
        """The first allocation of so many whose refusal comes after a change of the store."""
        first, last = 1, many
        while first < last:
            middle = (first + last) // 2
            first, last = (first, middle) if self.is_changed(words, middle) else (middle + 1, last)
        return first

    def hold_each(self, words, status, numbers):
        """Holds that each run that is refused an allocation of these numbers says that memory is out, or does what the whole one does. They
        are given for how many there are, and for the first change. Where memory for a line is refused, it isn't said. Gives what
        is there."""
        whole = self.one(words)
        done, many, ends = found(self.store), whole.allocations, set()
        hold(whole.status == status, whole.text())
        for number in numbers(many, self.first_change(words, many)):
            ran = self.one(words, number)
            ends.add(ran.status)
            if ran.status == NO_MEMORY:
                hold(b"out of memory" in ran.err, f"allocation {number}: {ran.text()}")
                continue
            where = f"allocation {number} of {many}: {ran.text()}"
            hold((ran.status, ran.out) == (whole.status, whole.out) and ran.err in (whole.err, b""), where)
            hold(found(self.store) == done, f"{where}: {sorted(set(found(self.store)) ^ set(done))}")
        hold(NO_MEMORY in ends, f"runs ended with {ends}")
        return done


def test_replacement_beside_a_description_of_before(place, choose):
    """An old description in the store's own folder goes with a file that is replaced, while one is lost of what is to replace it."""
    names, kept, new = ("--names", "d/{stripe}.{place}", "--code", "6-2-2"), place / "kept", choose.randbytes(900)
    run("encode", "--make-folders", *names, kept, source(place, "a", choose.randbytes(700)), status=0)
    shutil.copy(kept / "d/a.file", kept / "a.file")
    begin(place, kept, new, *names)
    (kept / f"d/a{STAGED}.file.copy").unlink()
    write_sums(kept)
    refused = Refused(place, kept)
    # What was begun is looked at some time after the file that is encoded.
    early = refused.one(["encode", *names, "STORE", place / "none"]).allocations
    words = ["encode", *names, "STORE", source(place, "a", b"another")]
    files = refused.hold_each(words, 1, lambda _, change: [*range(early + 120, early + 360), *range(change - 40, change + 60)])
    described = {name: data for name, (_, data) in files.items() if "file" in name}
    hold(described == dict.fromkeys(("d/a.file", "d/a.file.copy"), description(new).encode()), f"{described}")


def test_replacement_without_a_disk(place, choose):
    """The description of a file that is replaced goes from a disk that has nothing of the new file."""
    kept, new = place / "kept", choose.randbytes(900)
    run("encode", "--make-folders", *DISKS, kept, source(place, "a", choose.randbytes(700)), status=0)
    begin(place, kept, new, *DISKS)
    for name in (f"disk4/a{STAGED}", f"disk4/a{STAGED}.file"):
        (kept / name).unlink()
    words = ["encode", *DISKS, "STORE", source(place, "a", b"another")]
    files = Refused(place, kept).hold_each(words, 1, lambda _, change: range(change - 80, change))
    described = {f"disk{number}/a.file": description(new).encode() for number in range(10) if number != 4}
    hold({name: data for name, (_, data) in files.items() if name.endswith("file")} == described, f"{sorted(files)}")


def test_removal_beside_a_description_of_before(place, choose):
    """A file is taken out with the old description in the store's own folder."""
    names, kept = ("--names", "{place}/{stripe}", "--code", "12-2-2"), place / "kept"
    run("encode", "--make-folders", *names, kept, source(place, "a", choose.randbytes(700)), status=0)
    shutil.copy(kept / "x0/a.file", kept / "a.file")
    # The files are looked at between that and the first change, which are many.
    files = Refused(place, kept).hold_each(["remove", *names, "STORE", "a"], 0, lambda _, change: range(change - 600, change - 480))
    hold([name for name in files if "a" in name] == [], f"{sorted(files)}")


def test_removal_of_own_folders(place, choose):
    """A file is taken out with the folder that it had alone, which isn't left there unsaid."""
    names, kept = ("--names", "of/{stripe}/{place}", "--code", "6-2-2"), place / "kept"
    run("encode", "--make-folders", *names, kept, source(place, "a", choose.randbytes(60)), status=0)
    # The folder goes last.
    files = Refused(place, kept).hold_each(["remove", *names, "STORE", "a"], 0, lambda many, _: range(many - 60, many + 1))
    hold(sorted(files) == ["SHA256SUMS", "of"], f"{sorted(files)}")


def test_folders_that_are_made(place, choose):
    """The folders that a pattern names are made as it names them."""
    names, kept = ("--names", "eightofs/of/{stripe}/{place}", "--code", "6-2-2"), place / "kept"
    kept.mkdir()
    words = ["encode", "--make-folders", *names, "STORE", source(place, "a", choose.randbytes(700))]
    Refused(place, kept).hold_each(words, 0, lambda _, change: range(change - 40, change + 40))
    hold([path.name for path in (place / "store").iterdir() if path.is_dir()] == ["eightofs"], "other folders were made")


def test_descriptions_from_digests(place, choose):
    """Copies of a description that are made again from digests and fragments have no more rights than each fragment."""
    kept = place / "kept"
    run("encode", kept, source(place, "a", choose.randbytes(700)), status=0)
    for name in ("a.file", "a.file.copy"):
        (kept / name).unlink()
    for path in kept.glob("a.??"):
        path.chmod({"a.x2": 0o646, "a.px": 0o664}.get(path.name, 0o666))
    words = ["repair", "--workers", "1", "STORE"]
    files = Refused(place, kept).hold_each(words, 0, lambda many, change: range(change - 80, many + 1))
    hold(files["a.file"] == files["a.file.copy"] == (0o644, description((place / "a").read_bytes()).encode()), f"{sorted(files)}")


def test_description_of_before_that_differs(place, choose):
    """A scrub names the description in the store's own folder that says another file."""
    kept = place / "kept"
    run("encode", "--make-folders", *DISKS, kept, source(place, "a", choose.randbytes(60)), status=0)
    (kept / "a.file").write_text(description(b"other"))
    Refused(place, kept).hold_each(["scrub", "--workers", "1", *DISKS, "STORE"], 1, lambda many, _: range(many - 120, many + 1))


def test_read_to_a_file_of_the_store(place, choose):
    """A file isn't read over a file of its stripe, or over the digests, by a link to another name of that."""
    kept, code = place / "kept", ("--code", "12-2-2")
    run("encode", *code, kept, source(place, "a", choose.randbytes(700)), status=0)
    library, link, other = refusals.Library(place, forks=True), place / "link", place / "other"
    link.symlink_to(other)
    for name in ("SHA256SUMS", "a.x3"):
        data = (kept / name).read_bytes()
        os.link(kept / name, other)
        words = [str(it) for it in (Program.path, "read", kept, "a", "-o", link)]
        whole, ends = library.run(words), set()
        hold(whole.status == 2 and f"{link}: leads to a file of the store\n".encode() in whole.err, whole.text())
        # The names of the stripe's files come last.
        for number in range(max(1, whole.allocations - 250), whole.allocations + 1):
            ran = library.run(words, refusal=refusals.Refusal(allocation=number))
            hold(ran.status in (2, NO_MEMORY) and other.read_bytes() == data, f"{name}: allocation {number}: {ran.text()}")
            ends.add(ran.status)
        hold(NO_MEMORY in ends, f"{name}: runs ended with {ends}")
        other.unlink()


def test_read_into_a_folder_of_the_store(place, choose):
    """A file isn't read into a folder of the store, or below one that may have fragments."""
    for turn, (names, below) in enumerate(((DISKS, "."), (DISKS, "disk3"), (("--names", "{stripe}/{place}"), "other/of/mine"))):
        store, library, ends = place / f"store-{turn}", refusals.Library(place, forks=True), set()
        run("encode", "--make-folders", *names, store, source(place, "a", choose.randbytes(60)), status=0)
        (store / below).mkdir(parents=True, exist_ok=True)
        output, before = store / below / "output", there(store)
        words = [str(it) for it in (Program.path, "read", *names[:2], store, "a", "-o", output)]
        whole = library.run(words)
        hold(whole.status == 2 and f"{output}: is in a folder of the store\n".encode() in whole.err, whole.text())
        # The folders are looked at last of all.
        for number in range(max(1, whole.allocations - 150), whole.allocations + 1):
            ran = library.run(words, refusal=refusals.Refusal(allocation=number))
            hold(ran.status in (2, NO_MEMORY) and there(store) == before, f"{below}: allocation {number}: {ran.text()}")
            ends.add(ran.status)
        hold(NO_MEMORY in ends, f"{below}: runs ended with {ends}")


def test_counters_of_an_odd_store(place, choose):
    """The counters name a store with quotes, backslashes and a line feed in its name by the same name each time."""
    library, counters, ends = refusals.Library(place, forks=True), place / "counters", set()
    # A text grows at a backslash, or after one, as it is long.
    for name in ('"' + "\\" * 9 + '"' * 60 + "\n", '-"' + "\\" * 9 + '"' * 60 + "\n"):
        store = place / name
        run("encode", store, source(place, "a", choose.randbytes(60)), status=0)
        words = [str(it) for it in (Program.path, "scrub", "--workers", "1", "--progress", counters, store)]
        escaped = str(store).replace("\\", "\\\\").replace('"', '\\"').replace("\n", "\\n")
        many = library.run(words).allocations
        for number in range(max(1, many - 80), many + 1):
            counters.unlink()
            ran = library.run(words, refusal=refusals.Refusal(allocation=number))
            lines = counters.read_text().splitlines() if counters.exists() else []
            hold(all(f'{{command="scrub",store="{escaped}"}} ' in line for line in lines), f"allocation {number}: {lines}")
            hold(ran.status == NO_MEMORY or ran.status == 0 and len(lines) == 9, f"allocation {number}: {lines}: {ran.text()}")
            ends.add(ran.status)
            counters.touch()
    hold(NO_MEMORY in ends, f"runs ended with {ends}")


if __name__ == "__main__":
    try_all("store-file-allocations", globals(), *sys.argv[1:3])
